#!/usr/bin/env python3
"""Makes a scan of a small façade, as PGM on standard output, and its weight picture.

    python3 examples/make_facade.py > examples/facade.pgm
    python3 examples/make_facade.py --weights > examples/facade-weights.pgm
    python3 examples/make_facade.py --size 1024x1024 --scale 16 > facade-1024.pgm

Heights of the surface, in codes: courses of stones with joints between them, a window with its reveal,
lintel and sill, stones that are worn, and the noise of a scanner. The weight picture has the joints in
black, where nothing is to be smoothed, and all else in white.
"""

import random
import sys

import pgm
import script

WIDTH, HEIGHT = 64, 48
COURSE, STONE = 8, 16
JOINT = 118
WINDOW = dict(left=24, right=40, top=14, bottom=34)


def stone_height(stone, course):
    """The height of a stone's face: each sticks out a little differently."""
    return 150 + (stone * 7 + course * 11) % 13 - 6


def masonry(x, y):
    """Courses of stones, every second one moved by half a stone, with joints of one pixel."""
    course, in_course = divmod(y, COURSE)
    stone, in_stone = divmod(x + course % 2 * STONE // 2, STONE)
    if in_course == COURSE - 1 or in_stone == STONE - 1:
        return JOINT
    return stone_height(stone, course) - wear(in_stone, in_course, stone, course)


def wear(in_stone, in_course, stone, course):
    """What a worn stone has lost: most at its lower edge, with a pit in some."""
    if (stone + 2 * course) % 5 != 0:
        return 0
    pit = 12 if abs(in_stone - 6) < 3 and abs(in_course - 3) < 2 else 0
    return 2 * in_course + pit


def facade(x, y):
    """The surface without the noise."""
    inside_x = WINDOW["left"] <= x < WINDOW["right"]
    if inside_x and WINDOW["top"] <= y < WINDOW["bottom"]:
        depth = min(x - WINDOW["left"], WINDOW["right"] - 1 - x, y - WINDOW["top"])
        return 100 - 15 * depth if depth < 3 else 40
    if WINDOW["left"] - 3 <= x < WINDOW["right"] + 3:
        if WINDOW["top"] - 4 <= y < WINDOW["top"]:
            return 172
        if WINDOW["bottom"] <= y < WINDOW["bottom"] + 3:
            return 190
    return masonry(x, y)


def scanned(height, source):
    """A height as the scanner gives it: with noise of about 5 levels."""
    noise = 5 * (sum(source.random() for _ in range(12)) - 6)
    return max(0, min(255, round(height + noise)))


def strength(height):
    """How strongly to smooth at a height of the surface, 0 to 255: not at all at a joint."""
    return 0 if height == JOINT else 255


def size(word):
    """What reads a size such as 64x48, for a command line."""
    width, _, height = word.partition("x")
    return script.number(1, 4096)(width), script.number(1, 4096)(height)


def arguments():
    parser = script.Parser(prog="make_facade", description="Makes the scan of a small façade.")
    parser.add_argument("--weights", action="store_true", help="make its weight picture instead")
    parser.add_argument("--size", type=size, default=(WIDTH, HEIGHT), metavar="WxH",
                        help=f"how many pixels are scanned, from the upper left (else {WIDTH}x{HEIGHT})")
    parser.add_argument("--scale", type=script.number(1, 64), default=1, metavar="N",
                        help="how many times as finely it is scanned (else 1)")
    return parser.parse_args()


def main():
    options, source = arguments(), random.Random(1)
    width, height = options.size
    rows = []
    for y in range(height):
        heights = [facade(x // options.scale, y // options.scale) for x in range(width)]
        rows.append([strength(depth) if options.weights else scanned(depth, source) for depth in heights])
    sys.stdout.write(pgm.text(rows))


if __name__ == "__main__":
    main()
