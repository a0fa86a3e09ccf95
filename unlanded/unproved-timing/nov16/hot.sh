#!/bin/bash
# hot.sh NAME FONT N: hottest instructions overall
REPEAT=100 perf record -e cpu-clock -F 10000 -o perf.h ./bench-$1 --ours-only $WORK/fonts/q/$2 >/dev/null 2>&1
perf report -i perf.h --stdio 2>/dev/null | grep -v "^#" | grep -v "^$" | head -12
for s in $(perf report -i perf.h --stdio 2>/dev/null | grep -v "^#" | grep -v "^$" | head -9 | grep -E "type1|type2|crib" | awk '{print $1":"$NF}' | tr -d '%'); do p=${s%%:*}; f=${s#*:}; perf annotate -i perf.h --stdio -s $f 2>/dev/null | grep -E "^ +[0-9]+\.[0-9]+ " | awk -v p=$p -v f=$f '{printf "%.2f %s %s\n", $1*p/100, f, substr($0,12)}'; done | sort -rn | head -$3
