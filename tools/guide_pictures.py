"""Draws the pictures of the two guides, with the interpreter that `bash tools/python.sh` prints:

    PYTHONPATH=python /usr/bin/python3 tools/guide_pictures.py docs/pictures

The wall is the sample façade, scanned four times as finely as examples/facade.pgm.
"""

import pathlib
import subprocess
import sys
import tempfile

import numpy as np
from matplotlib.figure import Figure

import relief
from relief.formatting import format_bound
from relief.pictures import read_picture
from relief.result import distance_bound

TOP = pathlib.Path(__file__).resolve().parent.parent
WEIGHT, BOX = 640, (0, 255)
DETAIL = np.s_[20:120, 70:190]  # the window's upper edge, and stones with their joints


def facade(*words):
    """The sample façade, or its weight picture, as codes."""
    with tempfile.TemporaryDirectory() as folder:
        path = pathlib.Path(folder, "wall.pgm")
        made = subprocess.run([sys.executable, TOP / "examples/make_facade.py", "--size", "256x192", "--scale", "4", *words],
                              stdout=subprocess.PIPE, check=True)
        path.write_bytes(made.stdout)
        return read_picture(path).codes


def side_by_side(panels, path, size):
    """Grey rasters beside each other, on one scale."""
    figure = Figure(figsize=size, layout="constrained")
    for axes, (title, raster) in zip(figure.subplots(1, len(panels)), panels.items()):
        axes.imshow(raster, cmap="gray", vmin=30, vmax=200)
        axes.set_title(title, fontsize=10)
        axes.set_axis_off()
    figure.savefig(path, dpi=110)


def weights(codes, path):
    """One detail with too little weight, about the right one, and too much."""
    panels = {"scan": codes[DETAIL]}
    for weight, label in (WEIGHT // 4, "too little"), (WEIGHT, "128 × noise"), (16 * WEIGHT, "too much"):
        panels[f"weight {weight}: {label}"] = relief.clean(codes, weight, BOX).levels[DETAIL]
    side_by_side(panels, path, (13, 3.0))


def joints(codes, strengths, path):
    """The same detail at a weight that fills joints, without a weight picture and with one."""
    weight = 8 * WEIGHT
    kept = relief.weights_from_picture(strengths, weight)
    panels = {"scan": codes[DETAIL], "weight picture": 30 + 170 * (strengths[DETAIL] / 255),
              f"weight {weight}": relief.clean(codes, weight, BOX).levels[DETAIL],
              f"weight {weight}, joints kept": relief.clean(codes, weight, BOX, weights=kept).levels[DETAIL]}
    side_by_side(panels, path, (13, 3.0))


def two_flows(codes, path):
    """The images of two flows of one job, and how far they are apart."""
    one, other = relief.clean(codes, WEIGHT, BOX, quick=30, steady=0), relief.clean(codes, WEIGHT, BOX)
    difference = one.levels - other.levels
    bound = distance_bound(one.slack + other.slack, 2 * codes.size)
    figure = Figure(figsize=(13, 3.6), layout="constrained")
    panels = figure.subplots(1, 3)
    for axes, result in zip(panels, (one, other)):
        axes.imshow(result.levels, cmap="gray", vmin=30, vmax=200)
        axes.set_title(f"{result.outcome} {result.moved}, slack {result.slack}", fontsize=10)
        axes.set_axis_off()
    shown = panels[2].imshow(difference, cmap="RdBu_r", vmin=-0.5, vmax=0.5, interpolation="nearest")
    panels[2].set_title(f"apart: {(difference ** 2).mean() ** 0.5:.3f} levels root mean square,"
                        f" at most {format_bound(bound, 3)}", fontsize=10)
    panels[2].set_axis_off()
    figure.colorbar(shown, ax=panels[2], label="levels", extend="both", fraction=0.04)
    figure.savefig(path, dpi=110)


def rounds(codes, path):
    """The bound after so many rounds, by weight."""
    figure = Figure(figsize=(8, 4.2), layout="constrained")
    axes = figure.subplots()
    steps = [0, 10, 20, 50, 100, 200, 500, 1000]
    for weight in 256, 640, 1024, 4096:
        quick = [relief.clean(codes, weight, BOX, quick=n, steady=0).rms_bound for n in (10, 20, 50, 100, 150, 200)]
        steady = [relief.clean(codes, weight, BOX, quick=200, steady=n).rms_bound for n in steps]
        axes.plot([10, 20, 50, 100, 150, *(200 + n for n in steps)], quick[:-1] + steady, marker="o", markersize=3,
                  label=f"weight {weight}")
    axes.axvline(200, color="grey", linewidth=0.8)
    axes.text(205, axes.get_ylim()[1] * 0.6, "quick rounds to the left,\nsteady rounds to the right", fontsize=8)
    axes.set(xlabel="rounds", ylabel="rms_bound, in levels", yscale="log")
    axes.legend()
    axes.grid(alpha=0.3, which="both")
    figure.savefig(path, dpi=110)


def main():
    folder = pathlib.Path(sys.argv[1])
    codes, strengths = facade(), facade("--weights")
    # as `relief-raster clean --picture` draws the wall
    relief.clean(codes, WEIGHT, BOX).plot().savefig(folder / "guide-first-scan.png", dpi=80)
    weights(codes, folder / "guide-weights.png")
    joints(codes, strengths, folder / "guide-joints.png")
    rounds(codes, folder / "guide-rounds.png")
    two_flows(codes, folder / "guide-two-flows.png")


if __name__ == "__main__":
    main()
