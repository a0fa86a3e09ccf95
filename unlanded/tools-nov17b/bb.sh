#!/bin/bash
# bb.sh NAME..: bench with NAME.o
export STET_SRC=$WORK/shared/docs/src/crates/stet-fonts/src
cd $WORK/h/base
for n in "$@"; do ar rcs $WORK/h/$n.a $WORK/h/$n.o $WORK/h/stub.o; ARCHIVE=$WORK/h/$n.a bench/build.sh && cp target/bench/bench $WORK/h/bench-$n; done
