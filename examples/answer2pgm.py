#!/usr/bin/env python3
"""Makes a PGM picture from what the cleaning program prints.

    target/bin/relief < examples/facade.tape > answer.txt
    python3 examples/answer2pgm.py answer.txt clean.pgm

Reads standard input and writes standard output where no file is named. Image values come in sub-units,
256 to a level. Each becomes the code whose level it lies in or, with --maxval N, the one of N + 1 equal
levels: 63 for a scan of maxval 63, 65535 for the sub-units themselves. The picture is as bright on each.
The figures go to standard error. An answer whose last rows are missing cannot be told from a smaller
picture's.
"""

import re
import sys

import pgm
import script

NAME = "answer2pgm"
HEADING = "outcome moved price floor slack"
FIGURES = re.compile(r"(settled|spent|checked) \d+ \d+ -?\d+ \d+")
TOP = 65535  # the largest image value, in sub-units


def arguments():
    parser = script.Parser(prog=NAME, description="Makes a PGM picture from the cleaning program's answer.")
    parser.add_argument("--maxval", type=script.number(1, 65535), default=255, metavar="N",
                        help="the picture's largest sample, 1 to 65535 (else 255)")
    parser.add_files("answer", "picture")
    return parser.parse_args()


def read(data):
    """The figures and the rows of image values. A ValueError says what is wrong."""
    lines = data.decode("ascii", "replace").splitlines()
    if not lines:
        raise ValueError("empty, not an answer of the cleaning program")
    if re.fullmatch(r"refused \d+ at \d+", lines[0]):
        raise ValueError(f"the cleaning program refused the job: {lines[0]} (README.md lists the refusals)")
    if lines[0] != HEADING or len(lines) < 2 or not FIGURES.fullmatch(lines[1]):
        raise ValueError("not an answer of the cleaning program")
    if len(lines) < 3 or not data.endswith(b"\n"):
        raise ValueError("the answer is cut off")
    rows = [[image_value(word) for word in line.split()] for line in lines[2:]]
    if len({len(row) for row in rows}) > 1 or not rows[0]:
        raise ValueError("the rows of image values differ in length")
    return lines[1], rows


def image_value(word):
    """The number that a word stands for."""
    if not re.fullmatch(r"\d{1,5}", word, re.ASCII) or int(word) > TOP:
        raise ValueError(f"an image value is not a number from 0 to {TOP}")
    return int(word)


def sample(value, maxval):
    """The one of a picture's maxval + 1 levels that an image value lies in."""
    return value * (maxval + 1) // (TOP + 1)


def main():
    options = arguments()
    with script.reporting_errors(NAME, script.source_name(options.source)):
        figures, rows = read(script.read(options.source))
    samples = [[sample(value, options.maxval) for value in row] for row in rows]
    with script.reporting_errors(NAME, script.target_name(options.target)):
        script.write(options.target, pgm.text(samples, options.maxval).encode())
    print(HEADING, figures, sep="\n", file=sys.stderr)


if __name__ == "__main__":
    main()
