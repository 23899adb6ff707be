#!/usr/bin/env bash
# Builds the cleaning program and compares what it prints with the second implementation's text, on about 1,900 tapes,
# or on about 15,000 with the argument `full`. The prover's lines go to target/program.log. RELIEF_BIN, if set, is the
# path of another program: that is taken as it is, and nothing is built.
set -euo pipefail
if [ -n "${RELIEF_BIN:-}" ]; then
    program=$(realpath "$RELIEF_BIN")
fi
cd "$(dirname "$0")/.."
if [ -z "${RELIEF_BIN:-}" ]; then
    echo "proving and building the program (some minutes the first time)" >&2
    bash tools/quiet.sh target/program.log bash tools/build.sh relief
    program=$PWD/target/bin/relief
fi
if [ ! -x "$program" ]; then
    echo "there is no program $program" >&2
    exit 1
fi
cd rust
cargo run --offline --quiet --release -p relief-program -- relief "$program" "${1:-quick}"
