#!/bin/bash
cd /work/t && for n in "$@"; do STET_SRC=/work/shared/docs/src/crates/stet-fonts/src ARCHIVE=/work/tc/$n.o bench/build.sh && mv target/bench/bench /work/tc/bench-$n; done
