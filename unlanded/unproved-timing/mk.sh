#!/bin/bash
# usage: mk.sh REPO OUT.o   builds an unproved object with the C interface from REPO's crates
set -e
repo=$1; out=$2
cd $repo
R=$KIT/on/x86_64/bin/rattle-cases; libs="--lib std=$KIT/libs/std/src/lib.rt"
for d in binary64 geometry charstring bank type1 type2 type1_to_type2 agreement widths board; do libs="$libs --lib $d=crates/$d/src/lib.rt"; done
rm -rf $WORK/tc/saved
$R --toolchain $WORK/tc crates/entry/src/main.rt --crate-name entry $libs || true
C=$KIT/on/x86_64/toolchain/bin/clang
$C --target=x86_64-unknown-linux-gnu -march=x86-64 -x ir $WORK/tc/saved/1-module.bc -S -emit-llvm -O0 -o $out.ll 2>/dev/null
python3 $WORK/tc/wrap.py $out.ll $out.w.ll
$C --target=x86_64-unknown-linux-gnu -march=x86-64 -ffunction-sections -fdata-sections -mllvm -trap-unreachable -mllvm -no-trap-after-noreturn -c -x ir $out.w.ll -o $out -fPIC -O3 -Xclang -fmerge-functions -mllvm -mergefunc-use-aliases 2>&1 | grep -v warning || true
