#!/usr/bin/env bash
# Builds the static library, then compiles examples/facade.c against it and runs that: its answer is all that standard
# output gets.
set -euo pipefail
cd "$(dirname "$0")/.."
features=$(bash tools/library.sh)
if [[ " $features " != *" run "* ]]; then
    echo "librelief_c.a does not define relief_call_run" >&2
    exit 1
fi
mkdir -p target/examples
gcc -std=c11 -O2 -Wall -Wextra -pedantic -Iinclude examples/facade.c \
    "${RELIEF_LIB_DIR:-target/staticlib}/librelief_c.a" -o target/examples/facade
target/examples/facade
