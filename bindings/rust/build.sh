#!/usr/bin/env bash
# Builds target/bindings/libcribstork.rlib, which holds the archive too. ARCHIVE names the archive (tools/build.sh archive).
#
#     bindings/rust/build.sh
#     rustc --edition 2024 --extern cribstork=target/bindings/libcribstork.rlib YOURS.rs
set -euo pipefail
cd "$(dirname "$0")/../.."
. tools/need.sh
need_rust
need_archive
to=target/bindings
mkdir -p "$to"
rustc --edition 2024 -O --crate-type rlib --crate-name cribstork -L native="$(dirname "$archive")" -l static=board \
    -o "$to/libcribstork.rlib" bindings/rust/src/lib.rs
