#!/bin/bash
mkdir -p $WORK/tc/saved
n=$(ls $WORK/tc/saved | grep -c args)
echo "$@" > $WORK/tc/saved/args$n
for a in "$@"; do case $a in *.ll|*.bc) cp "$a" $WORK/tc/saved/$n-$(basename $a);; esac; done
if [ ! -t 0 ] && [[ " $* " == *" - "* ]]; then cat > $WORK/tc/saved/$n-stdin; exec $KIT/on/x86_64/toolchain/bin/clang "$@" < $WORK/tc/saved/$n-stdin; fi
exec $KIT/on/x86_64/toolchain/bin/clang "$@"
