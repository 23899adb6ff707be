#!/usr/bin/env python3
"""Times the Python package on the sample façade at 1,024 x 1,024 pixels: beside the bare C call, and beside scikit-image's
split-Bregman solver of the same problem. It needs scikit-image, which nothing else here does, and takes some ten minutes.

    $(bash tools/python.sh) tools/bench_python.py [--plot FILE]
    $(bash tools/python.sh) tools/bench_python.py --added
    $(bash tools/python.sh) tools/bench_python.py --rounds

--plot also writes the price over time as a picture; --added prints only the times beside the C call, which depend on where
a process has its memory: run it several times; --rounds prints instead what the bound is after so many rounds. All runs are
bound to one core. Calls that are compared are made by turns, in the other order each second time, and their
times are the processor's, which do not count the waiting while others have the core.
"""

import argparse
import math
import os
import pathlib
import statistics
import subprocess
import sys
import time

import numpy as np
from PIL import Image

TOP = pathlib.Path(__file__).resolve().parent.parent
sys.path[:0] = [str(TOP / "examples"), str(TOP / "python")]
import pgm  # noqa: E402
import relief  # noqa: E402
from relief import boundary  # noqa: E402
from relief.formatting import format_bound  # noqa: E402
from relief.result import distance_bound  # noqa: E402

try:
    import skimage
    from skimage.restoration import denoise_tv_bregman
except ImportError as error:
    sys.exit(f"{error}: install scikit-image (as root: apt-get install python3-skimage)")

SIZE, BOX = 1024, (0, 255)
WEIGHTS = 640, 1024  # 128 and 205 times the noise, in levels
THRESHOLDS = 0.01, 0.001, 0.0001
MARGIN = 16  # pixels that are mirrored around the scan, to keep scikit-image's borders away from it
TURNS = 3  # of each run beside scikit-image
MAX_ROUNDS = 256  # quick rounds, and iterations of scikit-image
REFERENCE_ROUNDS = 800


def facade():
    """The scan: the sample façade, scanned 16 times as finely."""
    words = "examples/make_facade.py", "--size", f"{SIZE}x{SIZE}", "--scale", "16"
    rows, _ = pgm.read(subprocess.run([sys.executable, *words], cwd=TOP, stdout=subprocess.PIPE, check=True).stdout)
    return np.array(rows, np.uint8)


def timed(call):
    """What a call gives, and its seconds of the processor."""
    begin = time.process_time()
    answer = call()
    return answer, time.process_time() - begin


def alternate(things, turn):
    """The things in their order, and in the other order each second time."""
    return things if turn % 2 == 0 else things[::-1]


def print_load():
    print("load average of the machine:", *(f"{load:.1f}" for load in os.getloadavg()))


def print_overhead(codes):
    """What the package adds to the calls of the library, whose buffers are made and touched beforehand."""
    weight = WEIGHTS[-1]
    terms, pairs = boundary.Terms(SIZE, SIZE, weight, *BOX), boundary.pair_count(SIZE, SIZE)
    image, flow, work = (np.ones(count, np.int32) for count in (SIZE * SIZE, pairs, 2 * pairs))
    none, cleaned = np.zeros(0, np.int32), relief.clean(codes, weight, BOX, quick=10, steady=0)
    checked_flow, priced_image = cleaned.flow.flat, cleaned.image

    def clean(*rounds):
        return lambda: relief.clean(codes, weight, BOX, *rounds)

    def run(*rounds):
        return lambda: boundary.run(terms, *rounds, codes, none, flow, image, work)

    cases = (
        ("clean, default rounds", 11, clean(), run(relief.QUICK, relief.STEADY)),
        ("clean, 10 quick rounds", 101, clean(10, 0), run(10, 0)),
        ("check", 301, lambda: relief.check(codes, checked_flow, weight, BOX),
         lambda: boundary.check(terms, codes, none, checked_flow, image)),
        ("price", 301, lambda: relief.price(codes, priced_image, weight, BOX),
         lambda: boundary.price(terms, codes, none, priced_image)),
    )
    print(f"the package beside the C call, weight {weight}: milliseconds, median (least) of so many runs of each by turns;")
    print("added: the median over the turns of the two calls' ratio, and the ratio of the least times")
    print(f"{'':24}{'runs':>5}{'package':>20}{'C call':>20}{'added':>10}{'by least':>10}")
    for name, turns, *calls in cases:
        seconds = [[], []]
        for turn in range(turns):
            for side in alternate((0, 1), turn):
                seconds[side].append(timed(calls[side])[1])
        shown = "".join(f"{f'{1e3 * statistics.median(side):.2f} ({1e3 * min(side):.2f})':>20}" for side in seconds)
        added = statistics.median(package / bare for package, bare in zip(*seconds)), min(seconds[0]) / min(seconds[1])
        print(f"{name:24}{turns:5}{shown}", *(f"{100 * (ratio - 1):7.2f} %" for ratio in added))


def as_image(values):
    """Values in sub-units as an image: rounded, and clamped to the box."""
    return np.clip(np.rint(values), 256 * BOX[0], 256 * BOX[1] + 255).astype(np.int32)


def reference(codes, weight):
    """A floor, and an image near the best one: FGP in floating point, whose flow, rounded, is judged by relief.check."""
    scan, low, high = 256.0 * codes + 128, 256 * BOX[0], 256 * BOX[1] + 255

    def image(down, right):
        values = scan.copy()
        values[:-1] -= down
        values[1:] += down
        values[:, :-1] -= right
        values[:, 1:] += right
        return np.clip(values, low, high, out=values)

    flow, momentum = (np.zeros((SIZE - 1, SIZE)), np.zeros((SIZE, SIZE - 1))), 1.0
    extrapolated = flow
    for _ in range(REFERENCE_ROUNDS):
        current = image(*extrapolated)
        falls = current[:-1] - current[1:], current[:, :-1] - current[:, 1:]
        step = [np.clip(number + fall / 8, -weight, weight) for number, fall in zip(extrapolated, falls)]
        next_momentum = (1 + math.sqrt(1 + 4 * momentum**2)) / 2
        extrapolated = [new + (momentum - 1) / next_momentum * (new - old) for new, old in zip(step, flow)]
        flow, momentum = step, next_momentum
    return relief.check(codes, tuple(np.rint(part).astype(np.int32) for part in flow), weight, BOX), as_image(image(*flow))


def counts(maximum, ratio):
    """Numbers of rounds up to the most, each so many times the one before."""
    found = [1]
    while found[-1] < maximum:
        found.append(min(max(found[-1] + 1, round(found[-1] * ratio)), maximum))
    return found


def methods(codes, weight):
    """Of each method its name, numbers of rounds, what is timed for so many, and the price of what that gives."""
    scan = 256.0 * codes + 128
    wide = np.pad(scan, MARGIN, mode="symmetric")

    def bregman(values):
        # its weight is 1 / lambda; eps 0 leaves only the number of iterations to end it
        return lambda rounds: denoise_tv_bregman(values, 1 / weight, max_num_iter=rounds, eps=0, isotropic=False)

    def judged(values):
        return relief.price(codes, as_image(values), weight, BOX)

    return (
        ("relief, quick rounds alone", counts(MAX_ROUNDS, 1.25),
         lambda rounds: relief.clean(codes, weight, BOX, rounds, 0), lambda result: result.price),
        (f"relief, {relief.QUICK} quick rounds, then steady", counts(relief.STEADY, 1.5)[5:],
         lambda rounds: relief.clean(codes, weight, BOX, relief.QUICK, rounds), lambda result: result.price),
        ("scikit-image", counts(MAX_ROUNDS, 1.25), bregman(scan), judged),
        (f"scikit-image, margin of {MARGIN} mirrored pixels", counts(MAX_ROUNDS, 1.25), bregman(wide),
         lambda values: judged(values[MARGIN:-MARGIN, MARGIN:-MARGIN])),
    )


def price_over_time(codes, weight):
    """For each method's name its points: for each number of rounds the seconds of all turns, and the price."""
    found = {}
    for turn in range(TURNS):
        for name, numbers, make, price_of in alternate(methods(codes, weight), turn):
            points = found.setdefault(name, {})
            for rounds in numbers:
                answer, seconds = timed(lambda: make(rounds))
                points.setdefault(rounds, ([], price_of(answer)))[0].append(seconds)
    return found


def excess(price, floor):
    """How far a price is above the floor, as a share of the floor."""
    return (price - floor) / floor


def time_to_reach(points, floor, within):
    """The time of the first point whose price is so near to the floor, or how near the nearest is."""
    for rounds, (seconds, price) in points.items():
        if excess(price, floor) <= within:
            return f"{statistics.median(seconds):.2f} ({min(seconds):.2f} to {max(seconds):.2f}), {rounds} rounds"
    nearest = min(excess(price, floor) for _, price in points.values())
    return f"not reached, nearest {100 * nearest:.3f} %"


def print_comparison(codes):
    """Time to come near the least price, beside scikit-image. Gives for each weight and method seconds and distances."""
    print(f"time until the price is within so much of the best floor known, beside scikit-image {skimage.__version__}:")
    print(f"seconds, median (least to greatest) of {TURNS} runs; in scikit-image a round is an iteration")
    curves = {}
    for weight in WEIGHTS:
        judged, near = reference(codes, weight)
        long = [relief.clean(codes, weight, BOX, quick, 4000) for quick in (200, 400)]
        floor = max(result.floor for result in (judged, *long))
        found = price_over_time(codes, weight)
        least = min(price for points in found.values() for _, price in points.values())
        own = format_bound(distance_bound(relief.price(codes, near, weight, BOX) - floor, codes.size), 4)
        print(f"weight {weight}: floor {floor}, least price {least}, {100 * excess(least, floor):.5f} % above it;")
        print(f"  found: beside the reference, itself within {own} of the best image; all in levels, root mean square")
        for name, result in ("reference, rounded", judged), *((f"{run.job.quick} + 4000 rounds", run) for run in long):
            apart = np.sqrt(((result.image - near).astype(np.int64)**2).mean()) / 256
            print(f"  {name:18} {result.outcome} {result.moved}, price {100 * excess(result.price, floor):.4f} % above it,"
                  f" own floor {100 * excess(floor, result.floor):.4f} % below it;",
                  f"bound {format_bound(result.rms_bound, 4)}, found {apart:.4f}")
        print(f"  {'':42}", *(f"{f'within {100 * within:g} %':>34}" for within in THRESHOLDS))
        for name, points in found.items():
            print(f"  {name:42}", *(f"{time_to_reach(points, floor, within):>34}" for within in THRESHOLDS))
        curves[weight] = {name: [(statistics.median(seconds), excess(price, floor)) for seconds, price in points.values()]
                          for name, points in found.items()}
    return curves


def plot(curves, path):
    """Distances over time as a picture, a panel for each weight."""
    import matplotlib
    matplotlib.use("Agg")
    from matplotlib import pyplot

    blue, orange = "#1f5fa8", "#c8561b"
    styles = ((blue, "o", "-"), (blue, "s", ":"), (orange, "x", ":"), (orange, "D", "-"))
    pyplot.rcParams.update({"font.size": 12, "axes.titlesize": 13})
    figure, panels = pyplot.subplots(1, len(curves), figsize=(12, 6.4), sharey=True)
    for panel, (weight, methods_of) in zip(panels, curves.items()):
        for (name, points), (colour, marker, line) in zip(methods_of.items(), styles):
            panel.plot(*zip(*((seconds, 100 * distance) for seconds, distance in points)), label=name, color=colour,
                       marker=marker, linestyle=line, markersize=4, linewidth=1.4)
        for within in THRESHOLDS:
            panel.axhline(100 * within, color="#555555", linewidth=0.9, linestyle="--", zorder=1)
        panel.set(xscale="log", yscale="log", xlabel="seconds", title=f"weight {weight}")
        panel.xaxis.set_major_formatter("{x:g}")
        panel.yaxis.set_major_formatter(lambda share, _: f"{share:.10f}".rstrip("0").rstrip(".") + " %")
        panel.grid(color="#dddddd", linewidth=0.6)
        panel.set_axisbelow(True)
    panels[0].set_ylabel("price above the best floor")
    figure.legend(*panels[0].get_legend_handles_labels(), loc="lower center", ncol=2, frameon=False)
    figure.tight_layout(rect=(0, 0.11, 1, 1))
    figure.savefig(path, dpi=100)


def photographs():
    """Two of scikit-image's sample photographs, 512 x 512."""
    folder = pathlib.Path(skimage.__file__).parent / "data"
    return {name: np.asarray(Image.open(folder / f"{name}.png").convert("L")) for name in ("brick", "camera")}


def print_rounds(rasters):
    """The bound after so many quick and steady rounds."""
    tried = [(quick, 0) for quick in (25, 50, 100, 200, 400)] + [(200, steady) for steady in (100, 300, 1000, 20000)]
    tried += [(quick, 1000) for quick in (0, 50, 100, 400)]
    print("rms_bound, in levels, after so many quick + steady rounds; then the steady rounds made, of a run that settled")
    print(f"{'':8}{'weight':>7}", *(f"{f'{quick} + {steady}':>12}" for quick, steady in tried))
    for name, codes in rasters.items():
        for weight in (256, 640, 1024, 4096):
            results = (relief.clean(codes, weight, BOX, *rounds) for rounds in tried)
            shown = (format_bound(result.rms_bound, 4) + f"{f' {result.moved}' if result.outcome == 'settled' else '':6}"
                     for result in results)
            print(f"{name:8}{weight:7}", *(f"{cell:>12}" for cell in shown))


def main():
    parser = argparse.ArgumentParser(description="Times the Python package on the sample façade at 1,024 x 1,024 pixels.")
    parser.add_argument("--plot", metavar="FILE", help="also write the price over time as a picture")
    parser.add_argument("--added", action="store_true", help="print only what the package adds to the C call")
    parser.add_argument("--rounds", action="store_true", help="print instead what the bound is after so many rounds")
    options = parser.parse_args()
    os.sched_setaffinity(0, {max(os.sched_getaffinity(0))})
    codes = facade()
    if options.rounds:
        print_rounds({"façade": codes, **photographs()})
        return
    print_load()
    print_overhead(codes)
    if options.added:
        return
    print_load()
    curves = print_comparison(codes)
    print_load()
    if options.plot:
        plot(curves, options.plot)


if __name__ == "__main__":
    main()
