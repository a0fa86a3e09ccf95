#!/usr/bin/env bash
# The size of each function of the archive, in bytes: its own code, its code with all that it calls (but memset), and the
# read-only data that stays with it when a linker drops what is not used (--gc-sections); then that of all six, what the
# archive needs from elsewhere, and its writable data. ARCHIVE names the archive (tools/build.sh archive).
set -euo pipefail
cd "$(dirname "$0")/.."
. tools/need.sh
for tool in ld nm objdump; do
    need_command "$tool" "the GNU binutils"
done
need_archive
to=target/bench/size
mkdir -p "$to"
functions=(cribstork_convert cribstork_finish cribstork_convert_finished cribstork_box cribstork_choose_widths cribstork_decrypt)

sum() { # FILE KIND: bytes of its sections of a kind, CODE, DATA (read-only) or WRITABLE
    objdump -hw "$1" | awk -v kind="$2" '
        function hex(s,  i, n) { for (i = 1; i <= length(s); i++) n = 16 * n + index("0123456789abcdef", substr(s, i, 1)) - 1; return n }
        $1 ~ /^[0-9]+$/ && /ALLOC/ {
            is = /CODE/ ? "CODE" : /READONLY/ ? "DATA" : "WRITABLE"
            if (is == kind) n += hex($3)
        }
        END { print n + 0 }'
}

link() { # OUTPUT FUNCTIONS..
    local out=$1 roots=()
    shift
    for name in "$@"; do roots+=(-u "$name"); done
    ld -r --gc-sections "${roots[@]}" -o "$out" "$archive"
}

printf '%-28s %10s %10s %10s\n' "bytes" "own code" "all code" "read-only"
for name in "${functions[@]}"; do
    link "$to/$name.o" "$name"
    own=$(objdump -hw "$to/$name.o" | awk -v name=".text.$name" '$2 == name { print $3 }')
    printf '%-28s %10d %10d %10d\n' "$name" "0x$own" "$(sum "$to/$name.o" CODE)" "$(sum "$to/$name.o" DATA)"
done
link "$to/all.o" "${functions[@]}"
printf '%-28s %10s %10d %10d\n' "all six" "" "$(sum "$to/all.o" CODE)" "$(sum "$to/all.o" DATA)"
ld -r --whole-archive -o "$to/whole.o" "$archive"
echo "needed from elsewhere: $(nm -u "$to/whole.o" | awk '{ print $2 }' | paste -sd ' ')"
echo "writable data: $(sum "$to/whole.o" WRITABLE) bytes"
