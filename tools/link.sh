#!/usr/bin/env bash
# Builds the static library and links it with callers of its version and of another. With header and library as they
# are, programs link, and tests/null.c finds that null for buffers of length 0 changes nothing. Where the header or the
# library has another MINOR, the linker fails, and names the version's function and no other: for each of the header's
# calls, for the Rust wrapper and for the Python package. By gcc and, where they are there, g++, clang and clang++,
# without and with optimization. The last line is `link: N programs, 0 failures`.
set -euo pipefail
cd "$(dirname "$0")/.."
features=$(bash tools/library.sh)
if [ "$features" != "judge run tape" ]; then
    echo "librelief_c.a does not define all of the calls" >&2
    exit 1
fi
archive=${RELIEF_LIB_DIR:-target/staticlib}/librelief_c.a
folder=$(mktemp -d)
trap 'rm -rf "$folder"' EXIT
calls=(price check run read write)
programs=0
failures=0

fail() {
    echo "FAILED $1" >&2
    failures=$((failures + 1))
}

# the number of one part of the header's version
part() {
    sed -n "s/^#define RELIEF_VERSION_$1 \([0-9]*\)$/\1/p" include/relief.h
}
major=$(part MAJOR)
minor=$(part MINOR)
version=relief_version_${major}_$minor
other=relief_version_${major}_$((minor + 1))

# the header and the library of another version
mkdir "$folder/header" "$folder/library"
sed "s/^\(#define RELIEF_VERSION_MINOR\) .*/\1 $((minor + 1))/" include/relief.h > "$folder/header/relief.h"
objcopy --redefine-sym "$version=$other" "$archive" "$folder/library/librelief_c.a"

# a program for each call, which refers to nothing else of the header, and one for all of them
printf '#include "relief.h"\nint main(void) { return 0; }\n' | tee "${calls[@]/#/$folder/}" > "$folder/all"
for call in "${calls[@]}"; do
    printf 'void (*volatile %s)(void) = (void (*)(void))relief_%s;\n' "$call" "$call" |
        tee -a "$folder/$call" >> "$folder/all"
done

# The library has the calls and the version, and no function of another name: what was compiled with a header before
# 0.5.0, where they were named as in C, does not link.
defined=$(nm --defined-only "$archive" 2> /dev/null | awk '$2 ~ /[A-Z]/ && $3 !~ /^\./ { print $3 }' | sort)
if [ "$defined" != "$(printf '%s\n' "${calls[@]/#/relief_call_}" "$version" | sort)" ]; then
    fail "the library defines $(paste -sd ' ' <<< "$defined")"
fi

# refuses FUNCTION WHAT COMMAND..: counts a program whose linking must fail, for want of that function and no other
refuses() {
    local function=$1 what=$2 missing
    shift 2
    programs=$((programs + 1))
    if "$@" > "$folder/linker-output" 2>&1; then
        fail "$what links"
        return
    fi
    missing=$(grep -oE 'undefined (reference to|symbol:) .?relief_\w+' "$folder/linker-output" | grep -oE '\w+$' | sort -u |
        paste -sd ' ' || true)
    if [ "$missing" != "$function" ]; then
        cat "$folder/linker-output" >&2
        fail "$what fails for ${missing:-no function}, not for $function"
    fi
}

# matched PROGRAM COMPILER..: a program with the header and the library as they are
matched() {
    local program=$1
    shift
    programs=$((programs + 1))
    if ! { "$@" -Iinclude "$program" -x none "$archive" -o "$folder/program" && "$folder/program"; }; then
        fail "${program##*/} by $*"
    fi
}

# mismatched PROGRAM COMPILER..: a program with another library, and with another header
mismatched() {
    local program=$1
    shift
    "$@" -Iinclude -c "$program" -o "$folder/program.o"
    refuses "$version" "${program##*/} by $* with another library" \
        "$1" "$folder/program.o" "$folder/library/librelief_c.a" -o "$folder/program"
    "$@" -I"$folder/header" -c "$program" -o "$folder/program.o"
    refuses "$other" "${program##*/} by $* with another header" "$1" "$folder/program.o" "$archive" -o "$folder/program"
}

strict=(-Wall -Wextra -pedantic -Werror)
for compiler in "gcc -std=c11 -x c" "g++ -std=c++17 -x c++" "clang -std=c11 -x c" "clang++ -std=c++17 -x c++"; do
    read -ra compiler <<< "$compiler"
    command -v "${compiler[0]}" > /dev/null || continue
    for level in -O0 -O2; do
        matched tests/null.c "${compiler[@]}" "$level" "${strict[@]}"
        mismatched "$folder/all" "${compiler[@]}" "$level" "${strict[@]}"
    done
done
for call in "${calls[@]}"; do
    matched "$folder/$call" gcc -std=c11 -x c -O2 "${strict[@]}"
    mismatched "$folder/$call" gcc -std=c11 -x c -O2 "${strict[@]}"
done

export RELIEF_LIB_DIR=$folder/library
refuses "$version" "the Rust wrapper with another library" \
    cargo test --manifest-path rust/Cargo.toml --target-dir "$folder/cargo" --offline --quiet -p relief --no-run
refuses "$version" "the Python package with another library" bash tools/python.sh

echo "link: $programs programs, $failures failures"
[ "$failures" = 0 ]
