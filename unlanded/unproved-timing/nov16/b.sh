#!/bin/bash
# b.sh NAME..: rebuild bench with given objects, quick min over 25 rounds
cd $WORK/t
for n in "$@"; do [ $WORK/tc/bench-$n -nt bench/src/main.rs ] || { STET_SRC=$WORK/shared/docs/src/crates/stet-fonts/src ARCHIVE=$WORK/tc/$n.o bench/build.sh && mv target/bench/bench $WORK/tc/bench-$n; }; done
for n in "$@"; do echo == $n; QUICK=1 $WORK/tc/bench-$n --rounds ${R:-15} $WORK/fonts/q/urw-base35 $WORK/fonts/q/lm $WORK/fonts/q/tex-gyre | grep fonts | head -9 | awk -F'|' '{print $2,$7,$8,$11}'; done
