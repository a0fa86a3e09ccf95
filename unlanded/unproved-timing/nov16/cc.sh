#!/bin/bash
# cc.sh IN.ll OUT.o [flags]
C=$KIT/on/x86_64/toolchain/bin/clang; i=$1; o=$2; shift 2
$C --target=x86_64-unknown-linux-gnu -march=x86-64 -ffunction-sections -fdata-sections -mllvm -trap-unreachable -mllvm -no-trap-after-noreturn -c -x ir $i -o $o -fPIC -O3 -Xclang -fmerge-functions -mllvm -mergefunc-use-aliases "$@" 2>&1 | grep -v warning
