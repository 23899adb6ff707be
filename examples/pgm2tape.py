#!/usr/bin/env python3
"""Makes the tape of a job from a PGM picture of samples of 8 bits.

    python3 examples/pgm2tape.py --low 30 --high 200 examples/facade.pgm examples/facade.tape
    python3 examples/pgm2tape.py --low 30 --high 200 --weights examples/facade-weights.pgm \\
        examples/facade.pgm examples/facade-joints.tape

Reads standard input and writes standard output where no file is named. Samples of a maxval below 255
are scaled to the codes 0 to 255 (the nearest), so that the picture comes back as bright as it was; a
line on standard error says so. Weight and box are then in the levels of these codes.

--weights names a second picture, of the same size. It says how strongly to smooth at each pixel: from
black, 0, not at all, to white, its maxval, with the whole weight. A pair's own weight is the weight times
the smaller sample of its two pixels / maxval, rounded down: a black pixel keeps its reading (in the box).
"""

import struct
import sys

import pgm
import script

NAME = "pgm2tape"
PIXELS = 4096  # that the cleaning program takes at most

TERMS = {  # name: default, largest, meaning
    "weight": (1024, 65280, "in sub-units of 1/256 level"),
    "low": (0, 255, "lowest level of the box"),
    "high": (255, 255, "highest level of the box"),
    "quick": (100, 4096, "quick rounds"),
    "allowance": (1000, 65535, "steady rounds at most"),
}


def arguments():
    parser = script.Parser(prog=NAME, description="Makes a job's tape from a PGM picture.")
    for name, (default, largest, meaning) in TERMS.items():
        parser.add_argument(f"--{name}", type=script.number(0, largest), default=default, metavar="N",
                            help=f"{meaning}, 0 to {largest} (else {default})")
    parser.add_argument("--weights", metavar="PICTURE",
                        help="PGM picture of the scan's size: a pair's weight is that of --weight times the darker of its"
                        " two pixels / maxval, rounded down; a black pixel keeps its reading")
    parser.add_files("picture", "tape")
    options = parser.parse_args()
    if options.low > options.high:
        parser.error("--low is above --high")
    if options.weights == options.source == "-":
        parser.error("picture and --weights are both standard input")
    return options


def read(data):
    """The rows of codes and the maxval of a picture. A ValueError says why there is no job."""
    rows, maxval = pgm.read(data)
    pixels = len(rows) * len(rows[0])
    if pixels > PIXELS:
        raise ValueError(f"{pixels} pixels: the cleaning program takes {PIXELS} at most")
    return [[pgm.rescaled(sample, maxval, 255) for sample in row] for row in rows], maxval


def read_weights(data, rows, weight):
    """Each pair's own weight, by a picture of how strongly to smooth the rows. A ValueError says what is wrong."""
    strengths, maxval = pgm.read(data)
    size, due = ((len(picture[0]), len(picture)) for picture in (strengths, rows))
    if size != due:
        raise ValueError("{} x {} pixels, but the scan has {} x {}".format(*size, *due))
    below = [pair for upper, lower in zip(strengths, strengths[1:]) for pair in zip(upper, lower)]
    right = [pair for row in strengths for pair in zip(row, row[1:])]
    return [weight * min(pair) // maxval for pair in below + right]


def tape(rows, weights, terms):
    """The records: size, weight and box, rounds, samples, weights, end; lowest byte first."""
    records = [
        struct.pack("<BHH", 1, len(rows[0]), len(rows)),
        struct.pack("<BHBB", 2, terms.weight, terms.low, terms.high),
        struct.pack("<BHH", 3, terms.quick, terms.allowance),
    ]
    records += [bytes([4, code]) for row in rows for code in row]
    records += [struct.pack("<BH", 6, weight) for weight in weights]
    return b"".join(records) + b"\0"


def main():
    options = arguments()
    picture = script.source_name(options.source)
    with script.reporting_errors(NAME, picture):
        rows, maxval = read(script.read(options.source))
    weights = []
    if options.weights is not None:
        with script.reporting_errors(NAME, script.source_name(options.weights)):
            weights = read_weights(script.read(options.weights), rows, options.weight)
    with script.reporting_errors(NAME, script.target_name(options.target)):
        script.write(options.target, tape(rows, weights, options))
    if maxval < 255:
        print(f"{NAME}: {picture}: maxval {maxval}: samples scaled to the codes 0..255, in whose levels weight and box are;"
              f" `answer2pgm.py --maxval {maxval}` scales back", file=sys.stderr)


if __name__ == "__main__":
    main()
