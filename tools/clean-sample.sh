#!/usr/bin/env bash
# The main job on a sample: cleans the scanned façade examples/facade.tape with the program and shows the answer, then the
# same scan with its joints kept, examples/facade-joints.tape; then the façade as a picture file of 1,024 by 1,024 pixels,
# with the command relief-raster (tools/python.sh sets it up). Program and library are proved before they are built: some
# minutes the first time, a few seconds after that. The prover's lines go to target/program.log and target/library.log.
# RELIEF_BIN, if set, is the path of another program, RELIEF_LIB_DIR the folder of another library: these are taken as
# they are, and not built.
set -euo pipefail
if [ -n "${RELIEF_BIN:-}" ]; then
    program=$(realpath "$RELIEF_BIN")
fi
cd "$(dirname "$0")/.."
bash tools/python.sh packages > /dev/null # what is missing is told at once
if [ -z "${RELIEF_BIN:-}" ]; then
    echo "proving and building the program (some minutes the first time)" >&2
    bash tools/quiet.sh target/program.log bash tools/build.sh relief
    program=target/bin/relief
fi
mkdir -p target/examples
rm -f target/examples/facade{,-joints}{.txt,-cleaned.pgm}

# cleans the sample of this name, and shows the answer below a title
clean() {
    local answer=target/examples/$1.txt picture=target/examples/$1-cleaned.pgm message
    "$program" < "examples/$1.tape" > "$answer" || { rm -f "$answer"; exit 1; }
    # what the script says beside its picture: the answer's first two lines, or what is wrong
    message=$(python3 examples/answer2pgm.py "$answer" "$picture" 2>&1) || { echo "$message" >&2; exit 1; }
    echo "$2:"
    echo "$message"
    echo "with a line of values in sub-units for each row: $answer; as a picture: $picture"
}

clean facade "the scan examples/facade.pgm, cleaned"
clean facade-joints "the same with its joints kept, by the weights of examples/facade-weights.pgm"

bash tools/python.sh > /dev/null
scan=target/examples/facade-1024.pgm folder=target/examples/cleaned
python3 examples/make_facade.py --size 1024x1024 --scale 16 > "$scan.part"
mv "$scan.part" "$scan"
echo "the façade as a picture file of 1,024 by 1,024 pixels, cleaned by relief-raster:"
target/bin/relief-raster clean "$scan" -o "$folder" --weight 640 --box 0:255 --report "$folder.csv" --picture
echo "cleaned: $folder/facade-1024.pgm; before, after and difference: $folder/facade-1024.picture.png; report: $folder.csv"
