#!/bin/bash
# usage: mk.sh REPO OUT.o
repo=$1; out=$2
cd $repo
R=$KIT/on/x86_64/bin/rattle-cases; libs="--lib std=$KIT/libs/std/src/lib.rt"
for d in binary64 geometry stores charstring bank outline hints othersubrs operand_stack type1 folding type2 type1_to_type2 renderer agreement boxes sorting widths board; do [ -d crates/$d ] || continue; libs="$libs --lib $d=crates/$d/src/lib.rt"; done
rm -f $WORK/h/tc/saved/*
$R --toolchain $WORK/h/tc crates/entry/src/main.rt --crate-name entry $libs > /tmp/mk.log 2>&1; tail -3 /tmp/mk.log
set -e
C=$KIT/on/x86_64/toolchain/bin/clang
$C --target=x86_64-unknown-linux-gnu -march=x86-64 -x ir $WORK/h/tc/saved/1-module.bc -S -emit-llvm -O0 -o $out.ll 2>/dev/null
python3 $WORK/h/wrap.py $out.ll $out.w.ll
$C --target=x86_64-unknown-linux-gnu -march=x86-64 -ffunction-sections -fdata-sections -mllvm -trap-unreachable -mllvm -no-trap-after-noreturn -c -x ir $out.w.ll -o $out -fPIC -O3 -Xclang -fmerge-functions -mllvm -mergefunc-use-aliases 2>&1 | grep -v warning || true
ls -la $out
gcc -O2 -o ${out%.o}.gr $WORK/h/gr.c $out -lm
