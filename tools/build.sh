#!/usr/bin/env bash
# Builds what the scripts use, over what is proved:
#
#     tools/build.sh program       # target/bin/cribstork
#     tools/build.sh archive       # target/staticlib/libboard.a
#     tools/build.sh               # both
#
# What earlier checks kept is taken, and what changed is proved first. With --ci before these words nothing but the archive's
# own functions is proved: all else is what `rt ci` has just left in crates/*/out.
set -euo pipefail
cd "$(dirname "$0")/.."
. tools/need.sh
need_command rt "the kit of Rattle"
after_ci=
if [ "${1:-}" = --ci ]; then
    after_ci=1
    shift
fi

copy() { # FROM TO
    mkdir -p "$(dirname "$2")"
    # A running program's file can be replaced, and not written.
    cp "$1" "$2.new"
    mv "$2.new" "$2"
    echo "$2"
}

program() {
    # With these words it says its version and ends.
    [ -n "$after_ci" ] || (cd crates/cribstork && rt run -- --version)
    copy crates/cribstork/out/cribstork target/bin/cribstork
}

# The archive, for every processor with SSE2: the kit's own default asks for more (x86-64-v2), and crates.txt has no word for it.
compile_archive() {
    local kit words=() name
    kit=$(dirname "$(dirname "$(realpath "$(command -v rt)")")")
    for name in $(sed -n 's/^board_c staticlib://p' crates.txt); do
        words+=(--extern "$name=../$name/out/rlib/$name.rlib" -L "dependency=../$name/out/rlib")
    done
    mkdir -p crates/board_c/out
    (cd crates/board_c && "$kit/bin/rattle" build --crate-name board_c src/lib.rt --crate-type staticlib --cpu x86-64 \
        --extern "std=$kit/rlibs/std.rlib" -L "dependency=$kit/rlibs" "${words[@]}" \
        --antt-project "$kit/rattle/logic/antt-project.json" --logic-built "$kit/logic_built" \
        --toolchain "$kit/toolchain" --backend llvm --jobs 2 -o out/libboard_c.a)
}

# Whether the libraries below are those that `rt ci` left. Those of a check have a stamp, and may be older.
are_of_ci() {
    local name
    for name in $(sed -n 's/^board_c staticlib://p' crates.txt); do
        [ -e "crates/$name/out/rlib/$name.rlib" ] && [ ! -e "crates/$name/out/rlib/stamp" ] || return 1
    done
}

archive() {
    # `rt lib` takes none of the libraries of `rt ci`, and makes its own.
    if [ -z "$after_ci" ] || ! are_of_ci; then
        (cd crates/board_c && rt lib)
    fi
    rm -f crates/board_c/out/libboard_c.a
    compile_archive
    copy crates/board_c/out/libboard_c.a target/staticlib/libboard.a
}

[ $# -gt 0 ] || set -- program archive
for it in "$@"; do
    case $it in
    program | archive) "$it" ;;
    *) missing "there is no $it to build: program and archive are what there is" ;;
    esac
done
