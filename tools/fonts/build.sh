#!/usr/bin/env bash
# Builds target/fonts/fonts: stet's Rust, unchanged, under a driver that converts the glyphs of fonts.
# STET_SRC names the folder that holds stet's charstring.rs, geometry.rs and type1_to_type2.rs.
# Their text is copied to target/fonts/ at each build and is never committed.
set -euo pipefail
cd "$(dirname "$0")/../.."
. tools/need.sh
need_rust
need_stet
to=target/fonts
mkdir -p "$to/src"
cp "$stet/charstring.rs" "$stet/geometry.rs" "$stet/type1_to_type2.rs" "$to/src/"
cp tools/oracle/src/encoding.rs tools/fonts/src/main.rs "$to/src/"
rustc --edition 2024 -O --crate-name fonts -o "$to/fonts" "$to/src/main.rs"
