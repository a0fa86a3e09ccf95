#!/usr/bin/env bash
# Builds the wrapper's tests and runs them, by rustc and, where it is installed, by cargo; then a program without std
# (no_std.sh). ARCHIVE names the archive (tools/build.sh archive).
set -euo pipefail
cd "$(dirname "$0")/../.."
. tools/need.sh
need_rust
need_archive
bindings/rust/build.sh
to=target/bindings
rustc --edition 2024 -O --test --crate-name cribstork -L native="$(dirname "$archive")" -l static=board \
    ${LINK_ARGS:-} -o "$to/tests" bindings/rust/src/lib.rs
"$to/tests"
if command -v cargo >/dev/null; then
    # Of a copy, so that no Cargo.lock is left beside the sources.
    rm -rf "$to/copy"
    cp -r bindings/rust "$to/copy"
    from=$(realpath "$archive")
    (cd "$to/copy" && ARCHIVE=$from CARGO_TARGET_DIR=../cargo cargo test --offline --quiet)
fi
bindings/rust/no_std.sh
