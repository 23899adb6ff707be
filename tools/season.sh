#!/usr/bin/env bash
# Builds the season report and compares what it prints with the second implementation's text, on about 3,400 seasons, or on
# about 24,000 with the argument `full`, one of these of 3 gigabytes. With the argument `bench` it times the program
# beside the second implementation's optimized one instead. The prover's lines go to target/season.log. RELIEF_SEASON, if set,
# is the path of another program: that is taken as it is, and nothing is built.
set -euo pipefail
if [ -n "${RELIEF_SEASON:-}" ]; then
    program=$(realpath "$RELIEF_SEASON")
fi
cd "$(dirname "$0")/.."
if [ -z "${RELIEF_SEASON:-}" ]; then
    echo "proving and building the program (some minutes the first time)" >&2
    bash tools/quiet.sh target/season.log bash tools/build.sh season
    program=$PWD/target/bin/season
fi
if [ ! -x "$program" ]; then
    echo "there is no program $program" >&2
    exit 1
fi
cd rust
if [ "${1:-quick}" = bench ]; then
    cargo build --offline --quiet --release -p relief-reference --bin season-optimized
    cargo run --offline --quiet --release -p relief-bench --bin season-bench --no-default-features -- \
        "$program" "${CARGO_TARGET_DIR:-target}/release/season-optimized"
else
    cargo run --offline --quiet --release -p relief-program -- season "$program" "${1:-quick}"
fi
