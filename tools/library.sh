#!/usr/bin/env bash
# Builds the static library and prints the calls that it defines, as cargo features: judge (price, check), run,
# tape (read, write). The prover's lines go to target/library.log. RELIEF_LIB_DIR, if set, is the folder (an absolute
# path) of another librelief_c.a: that is taken as it is, and nothing is built. An argument `after-ci` is handed on to
# tools/build.sh.
set -euo pipefail
cd "$(dirname "$0")/.."

if [ -z "${RELIEF_LIB_DIR:-}" ]; then
    echo "proving and building the library (some minutes the first time)" >&2
    bash tools/quiet.sh target/library.log bash tools/build.sh relief_c "$@"
fi
archive=${RELIEF_LIB_DIR:-target/staticlib}/librelief_c.a
if [ ! -f "$archive" ]; then
    echo "there is no $archive" >&2
    exit 1
fi
functions=$(nm --defined-only "$archive" 2>/dev/null | awk '$2 == "T" { print $3 }')

defines() {
    local function
    for function; do
        grep -qx "$function" <<<"$functions" || return 1
    done
}

features=()
if defines relief_call_price relief_call_check; then features+=(judge); fi
if defines relief_call_run; then features+=(run); fi
if defines relief_call_read relief_call_write; then features+=(tape); fi
if [ ${#features[@]} = 0 ]; then
    echo "$archive defines none of the calls" >&2
    exit 1
fi
echo "${features[*]}"
