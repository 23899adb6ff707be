#!/usr/bin/env python3
"""Times the library of another checkout and of this one in one run: the benchmark of each, so many times, by turns.

    python3 tools/before_after.py BEFORE [RUNS]

BEFORE is another checkout of this repository; RUNS is 5 where it is left out. In both, `bash tools/library.sh` must have
built the library. For each call and size that both time it prints the library's time for a pixel, before and after, as the
median and the least of the runs, and the ratio of the medians; then the same of the second implementation's loops in the
two benchmarks.
"""

import os
import pathlib
import re
import statistics
import subprocess
import sys

AFTER = pathlib.Path(__file__).resolve().parent.parent
LINE = re.compile(r"(?P<call>[a-z ]+?) +(?P<size>\d+ x \d+) +(?P<library>[\d.]+) +(?P<reference>[\d.]+) +[\d.]+")


def build(tree):
    """The benchmark of a checkout, linked with the library that was built there."""
    libraries = tree / "target/staticlib"
    if not (libraries / "librelief_c.a").is_file():
        sys.exit(f"{tree} has no library: run `bash tools/library.sh` there")
    environment = dict(os.environ, RELIEF_LIB_DIR=str(libraries), CARGO_TARGET_DIR=str(tree / "rust/target"))
    environment.pop("CARGO_BUILD_TARGET", None)
    printed = subprocess.run(
        ["bash", "tools/library.sh"], cwd=tree, env=environment, stdout=subprocess.PIPE, text=True, check=True
    )
    cargo = "cargo build --offline --quiet --release -p relief-bench --bin bench --no-default-features --features"
    subprocess.run([*cargo.split(), printed.stdout.strip()], cwd=tree / "rust", env=environment, check=True)
    return tree / "rust/target/release/bench"


def run(program):
    """The times of one run: for each call and size, nanoseconds for a pixel of the library and of the reference."""
    printed = subprocess.run([program], stdout=subprocess.PIPE, text=True, check=True).stdout
    found = [match for match in map(LINE.fullmatch, printed.splitlines()) if match]
    if not found:
        sys.exit(f"{program} printed no times")
    return {f"{match['call']:23}{match['size']:>12}": match for match in found}


def main():
    arguments = sys.argv[1:]
    if len(arguments) not in (1, 2) or not all(re.fullmatch("[1-9][0-9]*", count) for count in arguments[1:]):
        sys.exit(__doc__.strip())
    runs = int(arguments[1]) if arguments[1:] else 5
    programs = [build(tree) for tree in (pathlib.Path(arguments[0]).resolve(), AFTER)]
    taken = [[], []]
    for turn in range(runs):
        # the other one first, each second time
        for side in (0, 1) if turn % 2 == 0 else (1, 0):
            taken[side].append(run(programs[side]))
    rows = [row for row in taken[0][0] if row in taken[1][0]]
    if not rows:
        sys.exit("the two benchmarks time different calls")
    print(f"ns per pixel, median and least of {runs} runs of each by turns")
    print(f"{'':47}{'before':>16}{'after':>16}{'ratio':>8}")
    for timed in ("library", "reference"):
        for row in rows:
            times = [[float(lines[row][timed]) for lines in side] for side in taken]
            medians = [statistics.median(side) for side in times]
            shown = "".join(f"{f'{median:.2f} ({min(side):.2f})':>16}" for median, side in zip(medians, times))
            print(f"{timed:12}{row}{shown}{medians[1] / medians[0]:8.2f}")


if __name__ == "__main__":
    main()
