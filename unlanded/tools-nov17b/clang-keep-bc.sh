#!/bin/bash
n=$(ls $WORK/h/tc/saved | grep -c args)
echo "$@" > $WORK/h/tc/saved/args$n
for a in "$@"; do case $a in *.ll|*.bc) cp "$a" $WORK/h/tc/saved/$n-$(basename $a);; esac; done
exec $KIT/on/x86_64/toolchain/bin/clang "$@"
