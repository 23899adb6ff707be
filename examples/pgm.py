"""Greyscale pictures in PGM form (plain P2 and binary P5), for the scripts beside this file.

    rows, maxval = pgm.read(open("examples/facade.pgm", "rb").read())
    print(pgm.text(rows, maxval), end="")
"""

import re

_COMMENT = rb"#[^\r\n]*[\r\n]"
_WHITESPACE = rb"(?:\s|" + _COMMENT + rb")+"
_HEADER = re.compile(rb"(P[25])" + 3 * (_WHITESPACE + rb"(\d{1,9})") + rb"\s")


def read(data):
    """The rows of samples and the maxval (255 at most). A ValueError says what is wrong."""
    header = _HEADER.match(data)
    if not header:
        raise ValueError("not a PGM picture (P2 or P5)" if data else "empty, not a PGM picture")
    width, height, maxval = map(int, header.groups()[1:])
    if maxval > 255:
        raise ValueError(f"maxval {maxval}: samples of 16 bits are not taken, 255 is the most")
    if 0 in (width, height, maxval):
        raise ValueError(f"{width} x {height} pixels of maxval {maxval}: none may be 0")
    body = data[header.end():]
    samples = list(body) if header[1] == b"P5" else _plain_samples(body)
    if len(samples) != width * height:
        raise ValueError(f"{len(samples)} samples, but {width} x {height} pixels need {width * height}")
    if not all(0 <= sample <= maxval for sample in samples):
        raise ValueError(f"a sample is not a number from 0 to {maxval}")
    return [samples[row * width:(row + 1) * width] for row in range(height)], maxval


def _plain_samples(body):
    """The samples of a plain picture, -1 for a word that is none."""
    words = re.sub(_COMMENT, b" ", body + b"\n").split()
    return [int(word) if word.isdigit() and len(word) < 10 else -1 for word in words]


def rescaled(value, top, new_top):
    """A value on the scale 0 to top, on the scale 0 to new_top: the nearest, the upper one of two."""
    return (2 * value * new_top + top) // (2 * top)


def text(rows, maxval=255):
    """A picture of rows of samples in plain form, a line for each row."""
    lines = ["P2", f"{len(rows[0])} {len(rows)}", str(maxval)]
    lines += [" ".join(str(sample) for sample in row) for row in rows]
    return "\n".join(lines) + "\n"
