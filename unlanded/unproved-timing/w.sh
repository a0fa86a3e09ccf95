#!/bin/bash
cd $WORK && tc/mk.sh $WORK/t $WORK/tc/$1.o | grep -v "^ok" ; cd $WORK/t && STET_SRC=$WORK/shared/docs/src/crates/stet-fonts/src ARCHIVE=$WORK/tc/$1.o bench/build.sh && mv target/bench/bench $WORK/tc/bench-$1
cd $WORK/tc && valgrind --tool=callgrind --callgrind-out-file=cg.$1 ./bench-$1 --ours-only $WORK/fonts/q/urw-base35/C059-Bold.t1 >/dev/null 2>&1; echo "== $1 ours Ir (no memset): $(callgrind_annotate cg.$1 2>/dev/null | grep -E 'type1|type2|bank|charstring|binary64|cribstork' | awk '{gsub(",","",$1); s+=$1} END {print s}')"
