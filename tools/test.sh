#!/usr/bin/env bash
# All tests. First the layout, the table of must-fail edits, the header and the second implementation's own tests; then every
# proof, with the must-fail edits and the programs' stored answers (`rt ci`), and whether each edit was refused where it says;
# then what was proved there is compared with the second implementation on a part of the inputs, called with guard pages
# behind its buffers, linked with callers of its version and of another, and called through the Rust wrapper and the Python
# package; the picture scripts are tested, and the examples run and compared with what is stored. Any step that fails ends it.
# The last line is the last line of `rt ci`: `N passed, 0 failed`.
set -euo pipefail
cd "$(dirname "$0")/.."
# what is tested is built here, not another library or program that the caller names
unset RELIEF_LIB_DIR RELIEF_BIN RELIEF_SEASON
proofs=$(mktemp)
trap 'rm -f "$proofs"' EXIT

echo "== Python and its packages"
bash tools/python.sh packages

echo "== layout of the Rattle files"
bash tools/layout.sh

echo "== the must-fail edits and their table"
python3 tools/edits.py --check
python3 tests/edits.py

echo "== the list of what a reader must believe"
python3 tools/believed.py --check
python3 tests/believed.py

echo "== the C header"
bash tools/header.sh

echo "== the second implementation (Rust, offline)"
(cd rust && cargo test --offline --quiet)

echo "== every proof, must-fail edit and program"
rt ci | tee "$proofs"
# an edit that rt could not apply or read fails nothing there
if ! grep -q '^rt: ok; ' "$proofs" || grep -qE '^rt: ok; .*, [1-9][0-9]* bad\b' "$proofs"; then
    echo "a must-fail edit is bad, as told above, or rt ci does not say that all is well" >&2
    exit 1
fi

echo "== where each must-fail edit was refused"
python3 tools/edits.py --said "$proofs"

echo "== the static library beside the second implementation"
# built once, from what was proved above; every step below takes it as it is
bash tools/library.sh after-ci > /dev/null
for program in relief season; do
    bash tools/build.sh "$program"
done
export RELIEF_LIB_DIR=$PWD/target/staticlib RELIEF_BIN=$PWD/target/bin/relief RELIEF_SEASON=$PWD/target/bin/season
bash tools/static.sh quick

echo "== the static library with a guard page behind every buffer"
bash tools/guard.sh

echo "== the static library linked by callers of its version and of another"
bash tools/link.sh

echo "== the Rust wrapper"
(cd rust && cargo test --offline --quiet -p relief)

echo "== the Python package and the command relief-raster"
python=$(bash tools/python.sh)
(cd rust && cargo build --offline --quiet --release -p relief-reference)
PYTHONPATH=python "$python" -B -W error -m unittest discover -s python/tests

echo "== the program beside the second implementation"
bash tools/program.sh quick

echo "== the season report beside the second implementation"
bash tools/season.sh quick

echo "== the examples"
python3 examples/pgm2tape.py --low 30 --high 200 < examples/facade.pgm | cmp - examples/facade.tape
python3 examples/pgm2tape.py --low 30 --high 200 --weights examples/facade-weights.pgm < examples/facade.pgm |
    cmp - examples/facade-joints.tape
python3 tests/scripts.py
# the sample season is these tapes, one behind the other
cat examples/two-by-one.tape examples/facade.tape examples/two-by-one-flow.tape | cmp - examples/season.tape
"$RELIEF_SEASON" < examples/season.tape | cmp - examples/season.txt
# the answers that the README shows: of the samples, of a cut tape and of an unfinished one
for sample in two-by-one two-by-one-flow facade facade-joints; do
    figures=$("$RELIEF_BIN" < "examples/$sample.tape" | sed -n 2p)
    if ! grep -qxF "    $figures" README.md; then
        echo "README.md does not show the answer of examples/$sample.tape: $figures" >&2
        exit 1
    fi
done
head -c 6 examples/two-by-one.tape | "$RELIEF_BIN" | cmp - <(echo refused 13 at 5)
head -c 5 examples/two-by-one.tape | "$RELIEF_BIN" | cmp - <(echo refused 18 at 5)
# the first command of the README, as it stands there: the program is proved already
env -u RELIEF_BIN bash tools/clean-sample.sh
# the worked example in C: its figures, and an excerpt in which its joints are kept
bash tools/example.sh | tee target/examples/facade-c.txt
if ! cmp target/examples/facade-c.txt examples/facade-c.txt; then
    echo "tools/example.sh does not print examples/facade-c.txt" >&2
    exit 1
fi

echo "== all steps passed"
tail -n 1 "$proofs"
