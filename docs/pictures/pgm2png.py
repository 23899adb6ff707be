#!/usr/bin/env python3
"""Makes a PNG picture from a plain PGM one (P2, without comments), each pixel as a square of 8 by 8.

    python3 docs/pictures/pgm2png.py < examples/facade.pgm > docs/pictures/facade.png
    python3 docs/pictures/pgm2png.py < examples/facade-weights.pgm > docs/pictures/facade-weights.png
    python3 docs/pictures/pgm2png.py < target/examples/facade-cleaned.pgm > docs/pictures/facade-cleaned.png
    python3 docs/pictures/pgm2png.py < target/examples/facade-joints-cleaned.pgm > docs/pictures/facade-joints-cleaned.png

The last two pictures are there after `bash tools/clean-sample.sh`.
"""

import struct
import sys
import zlib

SIDE = 8  # of a pixel's square


def chunk(name, body):
    """A part of a PNG file: length, name, body, check sum."""
    return struct.pack(">I", len(body)) + name + body + struct.pack(">I", zlib.crc32(name + body))


def png(rows):
    """An 8-bit greyscale picture of rows of samples, each row without a filter."""
    width, height = len(rows[0]) * SIDE, len(rows) * SIDE
    lines = [b"\0" + bytes(sample for sample in row for _ in range(SIDE)) for row in rows for _ in range(SIDE)]
    return (b"\x89PNG\r\n\x1a\n"
            + chunk(b"IHDR", struct.pack(">IIBBBBB", width, height, 8, 0, 0, 0, 0))
            + chunk(b"IDAT", zlib.compress(b"".join(lines), 9))
            + chunk(b"IEND", b""))


def main():
    form, *words = sys.stdin.read().split()
    width, height, maximum, *samples = map(int, words)
    if form != "P2" or maximum != 255 or len(samples) != width * height:
        sys.exit("pgm2png: not a plain PGM picture of 256 levels")
    rows = [samples[start:start + width] for start in range(0, len(samples), width)]
    sys.stdout.buffer.write(png(rows))


if __name__ == "__main__":
    main()
