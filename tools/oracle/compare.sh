#!/usr/bin/env bash
# Builds the oracle, records the vectors again and compares them with those of crates/replay/data, byte for byte.
set -euo pipefail
cd "$(dirname "$0")/../.."
tools/oracle/build.sh
again=target/oracle/vectors
rm -rf "$again"
mkdir -p "$again"
target/oracle/oracle vectors "$again"
diff -r "$again" crates/replay/data
echo "the recorded vectors are those of the Rust"
