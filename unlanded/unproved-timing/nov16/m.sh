#!/bin/bash
# m.sh NAME: build from $WORK/t, link bench, count instructions
cd $WORK/tc; ./mk.sh $WORK/t $WORK/tc/$1.o | grep -v ^ok
[ -f $1.o ] || exit 1
cd $WORK/t && STET_SRC=$WORK/shared/docs/src/crates/stet-fonts/src ARCHIVE=$WORK/tc/$1.o bench/build.sh && mv target/bench/bench $WORK/tc/bench-$1
cd $WORK/tc; ./ir.sh $1
