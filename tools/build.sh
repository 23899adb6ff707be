#!/usr/bin/env bash
# Proves and builds what leaves the repository, and puts it where the documents name it:
#
#     bash tools/build.sh relief      # the cleaning program, target/bin/relief
#     bash tools/build.sh season      # the season report, target/bin/season
#     bash tools/build.sh relief_c    # the static library, target/staticlib/librelief_c.a
#
# rt builds it in the crate's folder out/. What lies there already and is newer than all that it is made of is taken as it is,
# such as the two programs after `rt ci`, as LLVM builds them.
#
#     bash tools/build.sh relief_c after-ci
#
# is for the gate, right behind a `rt ci` that has passed. That proves the library, and does not build it; `rt lib` would first
# prove all the crates below once more, since it takes none of those that `rt ci` leaves. So the crate alone is built, over the
# libraries that lie there, by the toolchain's own `rattle build`, which proves it again before it compiles it. Should that not
# be had, `rt lib` follows.
set -euo pipefail
cd "$(dirname "$0")/.."
name=$1

# whether a file is newer than the texts of all crates and the toolchain
is_fresh() {
    local parts
    shopt -s nullglob
    parts=(crates/*/src crates/*/specs crates/*/proofs)
    shopt -u nullglob
    [ -f "$1" ] && [ -z "$(find crates.txt "${parts[@]}" "$(rt doc)" -newer "$1" -print -quit)" ]
}

# puts a file to a place where another may be in use
put() {
    mkdir -p "$(dirname "$2")"
    cp "$1" "$2.part"
    mv "$2.part" "$2"
}

# builds a static library over the libraries in crates/*/out/rlib
over_ci() {
    local kit words library dependency
    kit=$(dirname "$(rt doc)")
    [ -x "$kit/bin/rattle" ] || return 1
    words=(--extern "std=$kit/rlibs/std.rlib" -L "dependency=$kit/rlibs")
    for dependency in $(sed -n "s/^$name staticlib: *//p" crates.txt); do
        words+=(--extern "$dependency=../$dependency/out/rlib/$dependency.rlib")
    done
    for library in crates/*/out/rlib; do
        words+=(-L "dependency=../../$library")
    done
    words+=(--antt-project "$kit/rattle/logic/antt-project.json" --logic-built "$kit/logic_built" --jobs 1)
    words+=(--links "$name=" --toolchain "$kit/toolchain" --backend llvm)
    (cd "crates/$name" && mkdir -p out && rm -f "out/lib$name.a" &&
        "$kit/bin/rattle" build --crate-name "$name" --crate-type staticlib "${words[@]}" -o "out/lib$name.a" src/lib.rt)
}

case $name in
relief | season)
    built=crates/$name/out/$name
    if ! is_fresh "$built"; then
        # it is run once on no input, which is no job
        (cd "crates/$name" && rt run < /dev/null > /dev/null)
    fi
    put "$built" "target/bin/$name"
    ;;
relief_c)
    built=crates/$name/out/lib$name.a
    if ! is_fresh "$built" && ! { [ "${2:-}" = after-ci ] && over_ci; }; then
        (cd "crates/$name" && rt lib)
    fi
    put "$built" "target/staticlib/lib$name.a"
    ;;
*)
    echo "tools/build.sh relief|season|relief_c" >&2
    exit 1
    ;;
esac
