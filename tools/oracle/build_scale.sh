#!/usr/bin/env bash
# Builds target/scale/scale: stet's Rust and the archive of the crate board in one program, which gives both the same
# cases and compares what they answer (tools/oracle/scale/main.rs).
# STET_SRC names the folder that holds stet's files, ARCHIVE the archive (tools/build.sh archive).
#
#     tools/oracle/build_scale.sh
#     target/scale/scale [--threads N] [--thousands N] [--tokens N] [--seed N] [--only PART] [FONTS..]
#
# stet's text is copied to target/scale/ and is never committed. One of its refusals gets the place in its text
# ("out of range at N": N bytes are written before that number), which tells 13 from 18 where the output is short.
set -euo pipefail
cd "$(dirname "$0")/../.."
. tools/need.sh
need_rust
need_stet
need_archive
to=target/scale
mkdir -p "$to/src"
cp tools/oracle/src/*.rs "$to/src/"
cp bindings/rust/src/ffi.rs "$to/src/archive.rs"
cp tools/oracle/scale/*.rs "$to/src/"
cp "$stet/charstring.rs" "$stet/geometry.rs" "$to/src/"
sed 's/"Type 2: {v} is out of range"/"Type 2: {v} is out of range at {}", out.len()/' "$stet/type1_to_type2.rs" \
    > "$to/src/type1_to_type2.rs"
test "$(grep -c 'out of range at {}' "$to/src/type1_to_type2.rs")" = 2
cat tools/oracle/append_type1_to_type2.rs >> "$to/src/type1_to_type2.rs"
rustc --edition 2024 -O --crate-name scale -C link-arg="$(realpath "$archive")" ${LINK_ARGS:-} \
    -o "$to/scale" "$to/src/main.rs"
