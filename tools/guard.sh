#!/usr/bin/env bash
# Builds the static library, then compiles tests/guard.c against it and runs that: calls in buffers that end at a page
# which cannot be touched. The last line is `guard: N calls, none touched the guard page`.
set -euo pipefail
cd "$(dirname "$0")/.."
features=$(bash tools/library.sh)
if [ "$features" != "judge run tape" ]; then
    echo "librelief_c.a does not define all of the calls" >&2
    exit 1
fi
mkdir -p target/tests
gcc -std=c11 -O2 -Wall -Wextra -pedantic -Iinclude tests/guard.c \
    "${RELIEF_LIB_DIR:-target/staticlib}/librelief_c.a" -o target/tests/guard
target/tests/guard
