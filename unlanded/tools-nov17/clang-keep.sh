#!/bin/bash
$KIT/on/x86_64/toolchain/bin/clang "$@"; rc=$?
prev=; for a in "$@"; do if [ "$prev" = -o ]; then n=$(ls $WORK/h/tc/saved | wc -l); cp "$a" $WORK/h/tc/saved/$n-$(basename "$a") 2>/dev/null; echo "$@" > $WORK/h/tc/saved/$n-$(basename "$a").args; fi; prev=$a; done
exit $rc
