#!/usr/bin/env bash
# Builds target/oracle/oracle: stet's Rust, unchanged, under a driver that records test vectors (VECTORS.md).
# STET_SRC names the folder that holds stet's charstring.rs, geometry.rs and type1_to_type2.rs.
# Their text is copied to target/oracle/ at each build and is never committed.
set -euo pipefail
cd "$(dirname "$0")/../.."
. tools/need.sh
need_rust
need_stet
to=target/oracle
mkdir -p "$to/src"
cp "$stet/charstring.rs" "$stet/geometry.rs" "$to/src/"
# What is private in type1_to_type2.rs is reached by a module of ours after its end.
cat "$stet/type1_to_type2.rs" tools/oracle/append_type1_to_type2.rs > "$to/src/type1_to_type2.rs"
cp tools/oracle/src/*.rs "$to/src/"
rustc --edition 2024 -O --crate-name oracle -o "$to/oracle" "$to/src/main.rs"
