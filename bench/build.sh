#!/usr/bin/env bash
# Builds target/bench/bench: stet's Rust, unchanged, and the archive of the crate board, in one program.
# STET_SRC names the folder that holds stet's charstring.rs, geometry.rs and type1_to_type2.rs; their text is
# copied to target/bench/ at each build and is never committed. ARCHIVE names the archive (tools/build.sh archive).
#
#     bench/build.sh
#     target/bench/bench [--rounds N] FONTS..        FONTS: Type 1 fonts, or folders of them
#     target/bench/bench --least [--rounds N] FONTS..   what the contract alone takes of each glyph
#     target/bench/bench --boxes [--rounds N] FONTS..   the boxes of finished glyphs and of long programs alone
#     target/bench/bench --strict [--rounds N] FONTS..  the strict reading beside the present one alone
#     target/bench/bench --ours-only FONT            one pass over a font's glyphs, ours alone, to be profiled
set -euo pipefail
cd "$(dirname "$0")/.."
. tools/need.sh
need_rust
need_stet
need_archive
to=target/bench
mkdir -p "$to/src"
cp tools/oracle/src/*.rs "$to/src/"
cp bindings/rust/src/ffi.rs "$to/src/archive.rs"
cp bench/src/*.rs "$to/src/"
cp "$stet/charstring.rs" "$stet/geometry.rs" "$to/src/"
cat "$stet/type1_to_type2.rs" tools/oracle/append_type1_to_type2.rs > "$to/src/type1_to_type2.rs"
rustc --edition 2024 -O --crate-name bench -C link-arg="$(realpath "$archive")" ${LINK_ARGS:-} \
    -o "$to/bench" "$to/src/main.rs"
