#!/usr/bin/env bash
# How much stack the six functions of the archive take, and how much a program.
#
#     bench/stack.sh [--cases N] FONTS..             FONTS: Type 1 fonts, or folders of them
#     bench/stack.sh --program PROGRAM ARGUMENTS..
#
# The first runs the functions on painted stacks (bench/src/stack.c) and then has the bound that their code gives for
# every input (bench/stack_bound.py). ARCHIVE names the archive (tools/build.sh archive).
# The second finds the smallest `ulimit -s` under which the program ends as it does without one: the same exit status and
# the same bytes on standard output. The kernel's part (arguments and environment) and the C library's are in it.
set -euo pipefail

program() { # PROGRAM ARGUMENTS..
    local to low=0 high mid
    high=$(ulimit -H -s)
    [ "$high" != unlimited ] && [ "$high" -lt 65536 ] || high=65536
    to=$(mktemp -d)
    trap 'rm -rf "$to"' RETURN
    ends() { # KIB FILE
        (ulimit -S -s "$1" && exec "${@:3}") >"$2" 2>/dev/null </dev/null && echo 0 >"$2.status" || echo $? >"$2.status"
    }
    ends "$high" "$to/with" "$@"
    while [ $((high - low)) -gt 4 ]; do
        mid=$(((low + high) / 8 * 4))
        ends "$mid" "$to/less" "$@"
        if cmp -s "$to/with" "$to/less" && cmp -s "$to/with.status" "$to/less.status"; then
            high=$mid
        else
            low=$mid
        fi
    done 2>/dev/null
    echo "$1: exit status $(cat "$to/with.status"), $(stat -c %s "$to/with") bytes of output; it needs $high KiB of stack, and with $low KiB it does not end so"
}

if [ "${1:-}" = --program ]; then
    shift
    if [ $# -eq 0 ] || ! command -v "$1" >/dev/null; then
        echo "$0: name a program after --program" >&2
        exit 2
    fi
    program "$@"
    exit
fi

fonts=() options=()
if [ "${1:-}" = --cases ]; then
    options=(--cases "$2")
    shift 2
fi
for path in "$@"; do
    if [ -d "$path" ]; then
        while IFS= read -r -d '' file; do
            fonts+=("$(realpath "$file")")
        done < <(find -L "$path" -type f \( -name '*.t1' -o -name '*.pfb' -o -name '*.pfa' \) -print0)
    elif [ -f "$path" ]; then
        fonts+=("$(realpath "$path")")
    else
        echo "$0: there is no font or folder $path" >&2
        exit 2
    fi
done
# A file with several names once.
[ ${#fonts[@]} -eq 0 ] || mapfile -t fonts < <(printf '%s\n' "${fonts[@]}" | sort -u)

cd "$(dirname "$0")/.."
. tools/need.sh
need_c
need_archive
need_command objdump "the GNU binutils"
need_command python3 "Python 3"
mkdir -p target/bench
# Bound at the start, so that no call goes through the dynamic linker, which would take stack too.
"${CC:-cc}" -std=c11 -Wall -Wextra -O2 -Wl,-z,now -I include -o target/bench/stack bench/src/stack.c "$archive" ${LINK_ARGS:-}
target/bench/stack "${options[@]}" "${fonts[@]}"
python3 bench/stack_bound.py target/bench/stack
