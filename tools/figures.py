#!/usr/bin/env python3
"""Works out the figures that README.md and docs/BENCHMARKS.md give for the sample, with target/bin/relief (or the program
that RELIEF_BIN names): what its slack bounds, how far a solution in floating point really is, and what a weight does to
joints and noise, also where a weight for each pair keeps the joints. It takes some seconds.

    python3 tools/figures.py
"""

import math
import os
import pathlib
import random
import subprocess
import sys
import types

TOP = pathlib.Path(__file__).resolve().parent.parent
sys.path.insert(0, str(TOP / "examples"))
import make_facade  # noqa: E402: the surface without noise is known there
import pgm2tape  # noqa: E402: the records of a tape

PROGRAM = os.environ.get("RELIEF_BIN", TOP / "target/bin/relief")
WIDTH, HEIGHT = make_facade.WIDTH, make_facade.HEIGHT
CODES = [make_facade.facade(x, y) for y in range(HEIGHT) for x in range(WIDTH)]
PAIRS = [(i, i + WIDTH) for i in range(WIDTH * (HEIGHT - 1))]
PAIRS += [(i, i + 1) for i in range(WIDTH * HEIGHT) if (i + 1) % WIDTH]


def centred(codes):
    """Codes as depths in levels: each is read at the centre of its level."""
    return [code + 0.5 for code in codes]


def answer(tape):
    """The slack and the image, as depths in levels, that the program gives for a tape."""
    words = subprocess.run([PROGRAM], input=tape, stdout=subprocess.PIPE, check=True).stdout.split()
    return int(words[9]), [int(value) / 256 for value in words[10:]]


def clean_across(samples, weight, low, high, joints):
    """The same for samples, with weight 0 at the pairs of a pixel in a joint and one outside it alone."""
    terms = types.SimpleNamespace(weight=weight, low=low, high=high, quick=100, allowance=1000)
    weights = [weight if (i in joints) == (j in joints) else 0 for i, j in PAIRS]
    rows = [samples[i:i + WIDTH] for i in range(0, len(samples), WIDTH)]
    return answer(pgm2tape.tape(rows, weights, terms))


def clean(samples, weight, low=0, high=255, *words):
    """The slack and the image, as depths in levels, that the program gives for samples."""
    picture = f"P2\n{WIDTH} {HEIGHT}\n255\n{' '.join(map(str, samples))}\n".encode()
    terms = ["--weight", str(weight), "--low", str(low), "--high", str(high), *words]
    tape = subprocess.run([sys.executable, TOP / "examples/pgm2tape.py", *terms],
                          input=picture, stdout=subprocess.PIPE, check=True).stdout
    return answer(tape)


def rms(one, other):
    """The root mean square of the differences."""
    return math.sqrt(sum((a - b) ** 2 for a, b in zip(one, other)) / len(one))


def solve(readings, weight, low, high, rounds=500):
    """The best raster of depths in levels, by FGP in floating point, and a bound on its own distance (root mean square)."""
    limit = weight / 256

    def image(flow):
        values = list(readings)
        for (i, j), number in zip(PAIRS, flow):
            values[i] -= number
            values[j] += number
        return [min(max(value, low), high + 255 / 256) for value in values]

    flow, extrapolated, momentum = [0.0] * len(PAIRS), [0.0] * len(PAIRS), 1.0
    for _ in range(rounds):
        current = image(extrapolated)
        step = [min(max(r + (current[i] - current[j]) / 8, -limit), limit) for (i, j), r in zip(PAIRS, extrapolated)]
        next_momentum = (1 + math.sqrt(1 + 4 * momentum ** 2)) / 2
        extrapolated = [p + (momentum - 1) / next_momentum * (p - q) for p, q in zip(step, flow)]
        flow, momentum = step, next_momentum
    best = image(flow)
    slack = sum(2 * (limit * abs(best[i] - best[j]) - p * (best[i] - best[j])) for (i, j), p in zip(PAIRS, flow))
    return best, math.sqrt(max(slack, 0) / len(best))


def main():
    scan = [int(word) for word in (TOP / "examples/facade.pgm").read_text().split()[4:]]
    pixels, weight, low, high = WIDTH * HEIGHT, 1024, 30, 200
    slack, cleaned = clean(scan, weight, low, high)
    print(f"sample: {pixels} pixels, weight {weight}, slack {slack}; in levels at most")
    print(f"  root mean square {math.sqrt(slack / pixels) / 256:.3f}")
    print(f"  mean over 100 pixels {math.sqrt(slack / 100) / 256:.2f}")
    print(f"  one pixel {math.sqrt(slack) / 256:.1f}")
    print(f"  root mean square of any settled run of this weight {math.sqrt(32 * weight) / 256:.2f}")
    best, own = solve(centred(scan), weight, low, high)
    print(f"distance to a solution in floating point (itself within {own:.4f} of the best):")
    print(f"  root mean square {rms(cleaned, best):.3f}, one pixel {max(abs(a - b) for a, b in zip(cleaned, best)):.2f}")
    weights = TOP / "examples/facade-weights.pgm"
    slack, kept = clean(scan, weight, low, high, "--weights", weights)
    print(f"the same with a weight for each pair, by {weights.name}: slack {slack}")
    joints = [i for i, code in enumerate(CODES) if code == make_facade.JOINT]
    _, across = clean_across(scan, weight, low, high, set(joints))
    rasters = {"scan": centred(scan), "cleaned": cleaned, "with weights": kept, "0 across edges only": across}
    print("mean depth of the joints:", *(f"{name} {sum(raster[i] for i in joints) / len(joints):.1f}"
                                         for name, raster in rasters.items()))
    print("distance (root mean square) to the surface without noise:")
    for name, part in ("joints", joints), ("all else", sorted(set(range(pixels)) - set(joints))):
        true = centred(CODES[i] for i in part)
        print(f"  {name}:", *(f"{of} {rms([raster[i] for i in part], true):.2f}" for of, raster in rasters.items()))
    print("noise, and distance (root mean square) of scan and cleaned rasters to the surface without noise:")
    surface, shares = centred(CODES), (0.25, 0.5, 0.75, 1)
    print("  noise  scan ", *(f"{share:5}" for share in shares), "(weight / 256 as a share of the noise)")
    for noise in (2, 5, 10, 20):
        source = random.Random(1)
        noisy = [min(max(round(code + source.gauss(0, noise)), 0), 255) for code in CODES]
        after = [rms(clean(noisy, round(256 * noise * share))[1], surface) for share in shares]
        print(f"  {noise:5}  {rms(centred(noisy), surface):5.2f}", *(f"{distance:5.2f}" for distance in after))


if __name__ == "__main__":
    main()
