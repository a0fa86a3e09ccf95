#!/bin/bash
# ir.sh NAME FONT: instructions of ours alone (per glyph), without memset
for n in "$@"; do
for f in urw-base35/C059-BdIta.t1 tex-gyre/qagb.pfb; do
valgrind --tool=callgrind --callgrind-out-file=cg.$n ./bench-$n --ours-only $WORK/fonts/q/$f >/dev/null 2>&1
echo "== $n $f Ir: $(callgrind_annotate cg.$n 2>/dev/null | grep -E 'type1|type2|bank|charstring|binary64|cribstork|std::num' | grep -v font:: | awk '{gsub(",","",$1); s+=$1} END {print s}')"
done; done
