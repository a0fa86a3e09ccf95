#!/usr/bin/env bash
# Whether the archive has no instruction that a processor with SSE2 alone lacks: it fails, and lists those that it finds.
#
#     tools/sse2.sh      of target/staticlib/libboard.a, or of what ARCHIVE names
set -euo pipefail
cd "$(dirname "$0")/.."
. tools/need.sh
need_command objdump "the GNU binutils"
need_archive

# SSE3, SSSE3, SSE4.1, SSE4.2, and what came with or after them.
later='addsubp[sd]|h(add|sub)p[sd]|lddqu|mov(d|sh|sl)dup|fisttpl*'
later+='|pabs[bwd]|ph(add|sub)s*[wd]|pmaddubsw|pmulhrsw|pshufb|psign[bwd]|palignr'
later+='|pmul(ld|dq)|dpp[sd]|mpsadbw|phminposuw|pm(in|ax)(sb|uw|ud|sd)|round[sp][sd]|insertps|extractps|p(insr|extr)[bdq]'
later+='|pmov[sz]x[bwdq]+|ptest|pcmp(eq|gt)q|packusdw|movntdqa|p*blend(v*p[sd]|w|vb)|crc32[bwlq]*|pcmp[ei]str[im]'
later+='|popcnt[wlq]*|[lt]zcnt[wlq]*|movbe[wlq]*|andn[lq]*|bextr|bls(r|i|msk)[lq]*|bzhi|mulx|pdep|pext|rorx|s(ar|hl|hr)x|ad[co]x|aes\w+|pclmul\w+|sha(1|256)\w+|v[a-z0-9]+'
code=$(objdump -d --no-show-raw-insn "$archive" | awk -F'\t' 'NF > 1 { split($2, word, " "); print word[1] }' | sort | uniq -c)
[ -n "$code" ] || missing "objdump finds no code in $archive"
if found=$(awk '{ print $2 }' <<<"$code" | grep -Ex "$later"); then
    echo "$archive asks for more than SSE2:" $found
    exit 1
fi
echo "$archive: $(awk '{ n += $1 } END { print n }' <<<"$code") instructions, none later than SSE2"
