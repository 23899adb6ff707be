"""The picture of a result: before, after, their difference and the error column."""

from __future__ import annotations

import io
import textwrap
from typing import Any, Tuple

import numpy as np
from matplotlib.figure import Figure

from .formatting import format_bounds, format_figures
from .result import Result

_MAX_BLOCKS = 300  # along a side: a panel has more pixels


def plot_result(result: Result) -> Figure:
    """The scan, the image, their difference with a scale, and the figures as caption."""
    height, width = result.image.shape
    scan = result.job.codes + 0.5  # each code at the centre of its level
    side_by_side = width < 2 * height  # the three side by side, else one below the other
    shape = min(max(height / width, 0.1), 2.0)
    figure = Figure(figsize=(15.0, 4.2 * shape + 1.2) if side_by_side else (10.0, 26.0 * shape + 2.6), layout="constrained")
    before, after, change = np.ravel(figure.subplots(*((1, 3) if side_by_side else (3, 1))))
    grey = dict(cmap="gray", vmin=min(scan.min(), result.levels.min()), vmax=max(scan.max(), result.levels.max()))
    _draw_panel(figure, before, scan, "scan", "depth in levels", grey)
    _draw_panel(figure, after, result.levels, "cleaned", "depth in levels", grey)
    _draw_difference(figure, change, result.levels - scan)
    figure.supxlabel(_caption(result, 120 if side_by_side else 104), fontsize=10, family="monospace")
    return figure


def block_means(values: np.ndarray) -> Tuple[np.ndarray, int]:
    """Means over square blocks, and their side: so few blocks that each is drawn, and no thin line is left out."""
    side = -(-max(values.shape) // _MAX_BLOCKS)
    rows, columns = (np.arange(0, length, side) for length in values.shape)
    sums = np.add.reduceat(np.add.reduceat(values, rows, axis=0), columns, axis=1)
    heights, widths = (np.diff(starts, append=length) for starts, length in zip((rows, columns), values.shape))
    return sums / np.outer(heights, widths), side


def render_png(result: Result) -> bytes:
    """The plot as the bytes of a PNG file."""
    file = io.BytesIO()
    plot_result(result).savefig(file, format="png", dpi=120)
    return file.getvalue()


def _draw_difference(figure: Figure, axes: Any, difference: np.ndarray) -> None:
    """The difference, on a scale that one in a hundred goes beyond."""
    height, width = difference.shape
    means, side = block_means(difference)
    sizes = np.abs(means)
    limit = max(float(np.quantile(sizes, 0.99)), 1 / 256)
    label = f"levels, means of {side} × {side} pixels" if side > 1 else "levels"
    colours = dict(cmap="RdBu_r", vmin=-limit, vmax=limit, extent=(-0.5, width - 0.5, height - 0.5, -0.5))
    _draw_panel(figure, axes, means, "cleaned − scan", label, colours, interpolation="nearest",
                extend="both" if sizes.max() > limit else "neither")


def _draw_panel(figure: Figure, axes: Any, values: np.ndarray, title: str, label: str, colours: Any,
                interpolation: str = "antialiased", extend: str = "neither") -> None:
    shown = axes.imshow(values, interpolation=interpolation, **colours)
    axes.set_title(title)
    axes.tick_params(labelsize=8)
    figure.colorbar(shown, ax=axes, label=label, extend=extend, fraction=0.046, pad=0.03)


def _caption(result: Result, columns: int) -> str:
    low, high = result.job.box
    weights_note = "" if result.job.weights is None else ", a weight for each pair"
    lines = [f"weight {result.job.weight}{weights_note}, box {low} to {high}: {format_figures(result)}", format_bounds(result)]
    return "\n".join(part for line in lines for part in textwrap.wrap(line, columns))
