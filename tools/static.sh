#!/usr/bin/env bash
# Builds the static library and compares it with the second implementation: the calls that it has, on about one
# input in fifteen, or on all with the argument `full`.
set -euo pipefail
cd "$(dirname "$0")/.."
features=$(bash tools/library.sh)
cd rust
cargo run --offline --quiet --release -p relief-compare --no-default-features --features "$features" -- "${1:-quick}"
