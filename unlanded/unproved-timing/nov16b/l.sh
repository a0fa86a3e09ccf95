#!/bin/bash
cd $WORK/t && for n in "$@"; do STET_SRC=$WORK/shared/docs/src/crates/stet-fonts/src ARCHIVE=$WORK/tc/$n.o bench/build.sh && mv target/bench/bench $WORK/tc/bench-$n; done
