#!/usr/bin/env bash
# Builds target/examples/worked with the system's C compiler, runs it, and holds what it prints to the file expected.
# ARCHIVE names the archive (tools/build.sh archive).
set -euo pipefail
cd "$(dirname "$0")/../.."
. tools/need.sh
need_c
need_archive
mkdir -p target/examples
"${CC:-cc}" -std=c11 -Wall -Wextra -Werror -O2 -I include -o target/examples/worked examples/c/worked.c "$archive" ${LINK_ARGS:-}
target/examples/worked | tee target/examples/worked.out
diff target/examples/worked.out examples/c/expected
echo "as expected"
