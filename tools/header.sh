#!/usr/bin/env bash
# The header without the library: compiles tests/header.c, which makes no call, and tests/layer.c, which has functions in
# place of the library's, as C11 and as C++17 with every warning an error, without and with optimization, and runs them.
# The lines end in `0 failures`.
set -euo pipefail
cd "$(dirname "$0")/.."
folder=$(mktemp -d)
trap 'rm -rf "$folder"' EXIT
for compiler in "gcc -std=c11 -x c" "g++ -std=c++17 -x c++"; do
    read -ra compiler <<< "$compiler"
    command -v "${compiler[0]}" > /dev/null || continue
    for level in -O0 -O2; do
        for program in header layer; do
            "${compiler[@]}" "$level" -Wall -Wextra -pedantic -Werror -Iinclude "tests/$program.c" -o "$folder/$program"
            "$folder/$program"
        done
    done
done
