#!/usr/bin/env bash
# Builds the wrapper and a program that uses it without std, without an allocator and without a C library, and runs it.
# ARCHIVE names the archive (tools/build.sh archive).
set -euo pipefail
cd "$(dirname "$0")/../.."
. tools/need.sh
need_rust
need_archive
to=target/bindings/no_std
mkdir -p "$to"
flags=(--edition 2024 -O -C panic=abort -L native="$(dirname "$archive")")
rustc "${flags[@]}" --crate-type rlib --crate-name cribstork -l static=board \
    -o "$to/libcribstork.rlib" bindings/rust/src/lib.rs
rustc "${flags[@]}" --crate-name user --extern cribstork="$to/libcribstork.rlib" \
    -C relocation-model=static -C link-arg=-nostdlib -C link-arg=-nostartfiles -C link-arg=-static \
    -o "$to/user" bindings/rust/no_std/user.rs
"$to/user"
echo "without std: as expected"
