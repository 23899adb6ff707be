"""What check and clean give: an image with its figures, and what they bound."""

from __future__ import annotations

import math
from dataclasses import dataclass
from fractions import Fraction
from functools import cached_property
from typing import TYPE_CHECKING, Any

import numpy as np

from .arrays import as_array, as_integer, read_only_view
from .job import Job
from .pairs import Pairs

if TYPE_CHECKING:
    from matplotlib.figure import Figure

SUB_UNITS_PER_LEVEL = 256


@dataclass(frozen=True, eq=False)
class Result:
    """An image with the flow that it comes from, and its figures, which are exact.

    Attributes:
        job: the scan, its terms and rounds.
        image: the image in sub-units of 1/256 level, int32, of the scan's shape.
        flow: the flow (dual variable); its image is ``image``.
        outcome: ``settled`` (no pair would move any more), ``spent`` (the allowance was used up) or ``checked``.
        moved: the number of steady rounds that changed a value.
        price: the objective of the image.
        floor: the dual objective of the flow: no image of the box has a lower price. It may be negative.
        slack: price minus floor, the duality gap.

    For every image of the box, price + squared distance of the two images <= its price + slack: proved on the grid of sub-units
    and on every whole division of it, and extended to images of any fractions by hand (docs/PROOFS.md). The bounds below follow
    from that for the best image, the one of least price. They are in levels, of depths, and are the least floating-point numbers
    that are not too small.

    Arrays are read-only. ``job.codes`` is the caller's array where that could be lent, and so is the flow of a check: whoever
    writes to these afterwards changes what the result shows of them.
    """

    job: Job
    image: np.ndarray
    flow: Pairs
    outcome: str
    moved: int
    price: int
    floor: int
    slack: int

    @cached_property
    def levels(self) -> np.ndarray:
        """The image as depths in levels: a float array. A code s is read at s + 0.5."""
        return read_only_view(self.image / SUB_UNITS_PER_LEVEL)

    def codes(self, maxval: int = 255) -> np.ndarray:
        """The image as codes, uint8: each value's own level, or the one of maxval + 1 equal levels.

        A code is a level wide; the figures and bounds are those of the image, not of its codes.
        """
        levels = as_integer("maxval", maxval, 255, 255) + 1
        return (self.image * levels // (256 * SUB_UNITS_PER_LEVEL)).astype(np.uint8)

    @property
    def rms_bound(self) -> float:
        """The most by which the image differs from the best one, root mean square over all pixels, in levels."""
        return distance_bound(self.slack, self.image.size)

    @property
    def pixel_bound(self) -> float:
        """The most by which any one pixel differs from that of the best image, in levels."""
        return distance_bound(self.slack, 1)

    def mean_bound(self, mask: Any) -> float:
        """The most by which the mean over some pixels differs from that of the best image, in levels.

        Args:
            mask: array of bools of the image's shape, True where a pixel counts.
        """
        pixels = as_array("mask", mask)
        if pixels.dtype != np.bool_:
            raise TypeError(f"mask has dtype {pixels.dtype}: True and False, dtype bool, are needed")
        if pixels.shape != self.image.shape:
            raise ValueError(f"mask has shape {pixels.shape}, the image's is {self.image.shape}")
        count = int(np.count_nonzero(pixels))
        if not count:
            raise ValueError("mask has no pixel: a mean needs one")
        return distance_bound(self.slack, count)

    def plot(self) -> "Figure":
        """A Matplotlib figure, to be saved with savefig: the scan, the image, their difference, and the figures."""
        from .plots import plot_result
        return plot_result(self)

    def __repr__(self) -> str:
        height, width = self.image.shape
        return (f"Result({width} x {height} pixels: {self.outcome} {self.moved}, price {self.price}, floor {self.floor},"
                f" slack {self.slack})")


def distance_bound(slack: int, pixels: int) -> float:
    """sqrt(slack / pixels) sub-units in levels, rounded up: the least float whose square is not below."""
    square = Fraction(slack, pixels * SUB_UNITS_PER_LEVEL**2)
    bound = math.sqrt(square)
    while Fraction(bound)**2 < square:
        bound = math.nextafter(bound, math.inf)
    while bound and Fraction(math.nextafter(bound, 0.0))**2 >= square:
        bound = math.nextafter(bound, 0.0)
    return bound
