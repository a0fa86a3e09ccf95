#!/bin/bash
# b.sh NAME..: rebuild bench with given objects, quick min over 25 rounds
cd /work/t
for n in "$@"; do [ /work/tc/bench-$n -nt bench/src/main.rs ] || { STET_SRC=/work/shared/docs/src/crates/stet-fonts/src ARCHIVE=/work/tc/$n.o bench/build.sh && mv target/bench/bench /work/tc/bench-$n; }; done
for n in "$@"; do echo == $n; QUICK=1 /work/tc/bench-$n --rounds ${R:-15} /work/fonts/q/urw-base35 /work/fonts/q/lm /work/fonts/q/tex-gyre | grep fonts | head -9 | awk -F'|' '{print $2,$7,$8,$11}'; done
