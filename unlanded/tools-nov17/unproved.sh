#!/bin/bash
# builds $WORK/h/new/target/bin/cribstork without proof
cd $WORK/h/new; rm -f $WORK/h/tc/saved/*
libs="--lib std=$KIT/libs/std/src/lib.rt"
for d in binary64 geometry stores charstring bank outline hints othersubrs type1 folding type2 type1_to_type2 sorting widths; do libs="$libs --lib $d=crates/$d/src/lib.rt"; done
for d in io os libc; do libs="$libs --lib $d=$KIT/libs/$d/src/lib.rt"; done
$KIT/on/x86_64/bin/rattle-cases --toolchain $WORK/h/tc --link $KIT/lib/libos_c.a --arg --version crates/cribstork/src/main.rt --crate-name cribstork $libs > /tmp/cases.log 2>&1
O3=$(grep -l -- "-O3" $WORK/h/tc/saved/*.args | head -1); mkdir -p target/bin; $KIT/on/x86_64/bin/rattle-link --target x86_64-unknown-linux-gnu --toolchain $KIT/on/x86_64/toolchain -o target/bin/cribstork ${O3%.args} $KIT/lib/libos_c.a
