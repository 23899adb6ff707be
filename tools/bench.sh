#!/usr/bin/env bash
# Builds the static library and times its calls beside the second implementation, then the season report.
set -euo pipefail
cd "$(dirname "$0")/.."
features=$(bash tools/library.sh)
(cd rust && cargo run --offline --quiet --release -p relief-bench --bin bench --no-default-features --features "$features")
bash tools/season.sh bench
