# fb.sh N NAME..: fonts, in turn, N times
n=$1; shift
for i in $(seq $n); do for b in "$@"; do taskset -c 1 timeout 100 $WORK/h/bench-$b --rounds 7 $WORK/h/q/urw $WORK/h/q/lm $WORK/h/q/tg 2>/dev/null | awk '/^Converting and/{exit} {print}' | grep "fonts)" | awk -F'|' -v b=$b '{gsub(/ /,"",$8); gsub(/ /,"",$7); printf "%s/%s ", $8,$7} END {print b}'; done; done
