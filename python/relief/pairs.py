"""A whole number for each pair of neighbours: a flow, or the pairs' weights."""

from __future__ import annotations

from typing import Any, Optional

import numpy as np

from . import boundary
from .arrays import Shape, as_array, as_int32_array, as_integer, as_raster, read_only_view, require_allowed_size


_EMPTY = np.zeros(0, np.int32)


class Pairs:
    """A number for each pair of neighbouring pixels of a raster of shape (h, w), as int32.

    ``down[y, x]`` belongs to pixel (y, x) and the one below it, ``right[y, x]`` to pixel (y, x) and the one to its right.
    ``flat`` has them in the library's order: all of ``down`` row by row, then all of ``right``. The three share their
    memory and are not to be written to.

    >>> Pairs([[1, 2]], [[3], [4]]).flat
    array([1, 2, 3, 4], dtype=int32)
    """

    __slots__ = ("flat", "shape")
    flat: np.ndarray
    shape: Shape

    def __init__(self, down: Any, right: Any) -> None:
        below, beside = as_array("down", down), as_array("right", right)
        if below.ndim != 2 or beside.ndim != 2:
            raise ValueError(f"down and right have shapes {below.shape} and {beside.shape}: (h - 1, w) and (h, w - 1)"
                             " are needed for a raster of h rows and w columns")
        height, width = max(beside.shape[0], 1), max(below.shape[1], 1)
        require_allowed_size(height, width)
        below = as_int32_array("down", below, (height - 1, width))
        beside = as_int32_array("right", beside, (height, width - 1))
        self._initialize(np.concatenate([below.ravel(), beside.ravel()]), (height, width))

    @classmethod
    def from_flat(cls, flat: Any, shape: Shape) -> "Pairs":
        """The numbers in the library's order, of a raster of this shape; not copied where they are int32 already."""
        height, width = shape
        require_allowed_size(height, width)
        return _from_flat("flat", flat, (height, width))

    @property
    def down(self) -> np.ndarray:
        """One number for each pixel and the one below it, of shape (h - 1, w)."""
        height, width = self.shape
        return self.flat[:(height - 1) * width].reshape(height - 1, width)

    @property
    def right(self) -> np.ndarray:
        """One number for each pixel and the one to its right, of shape (h, w - 1)."""
        height, width = self.shape
        return self.flat[(height - 1) * width:].reshape(height, width - 1)

    def name_of(self, index: int) -> str:
        """A flat index as a person thinks of it, such as ``down[3, 5]``."""
        height, width = self.shape
        below = (height - 1) * width
        row, column = divmod(index, width) if index < below else divmod(index - below, width - 1)
        return f"{'down' if index < below else 'right'}[{row}, {column}]"

    def _initialize(self, flat: np.ndarray, shape: Shape) -> None:
        object.__setattr__(self, "flat", read_only_view(flat))
        object.__setattr__(self, "shape", shape)

    def __setattr__(self, name: str, value: Any) -> None:
        raise AttributeError(f"{name} cannot be set: the library is lent what Pairs hold, so make others")

    def __reduce__(self) -> Any:
        return Pairs.from_flat, (self.flat, self.shape)

    def __repr__(self) -> str:
        return f"Pairs({self.flat.size} numbers, raster of shape {self.shape})"


def as_pairs(name: str, value: Any, shape: Shape) -> Pairs:
    """Pairs of a raster of this shape from what is given: Pairs, two arrays (down, right), or the flat order."""
    if isinstance(value, tuple) and len(value) != 2:
        raise ValueError(f"{name} is a tuple of {len(value)}: (down, right) is meant, or one array in the flat order")
    if isinstance(value, tuple) or isinstance(value, list) and len(value) == 2 and isinstance(value[0], np.ndarray):
        value = Pairs(*value)
    if isinstance(value, Pairs):
        if value.shape != shape:
            raise ValueError(f"{name} is of a raster of shape {value.shape}, the scan's is {shape}")
        return value
    array = as_array(name, value)
    if array.ndim != 1:
        raise ValueError(f"{name} has shape {array.shape}: a tuple (down, right), or one array of {_pair_count(shape)} numbers"
                         " in the flat order, is needed")
    return _from_flat(name, array, shape)


def flat_or_empty(pairs: Optional[Pairs]) -> np.ndarray:
    """The numbers as the library takes them: none of them, length 0, where there are no such pairs."""
    return _EMPTY if pairs is None else pairs.flat


def weights_from_picture(strengths: Any, weight: int, maxval: int = 255) -> Pairs:
    """A weight for each pair from a weight picture: black where nothing is to be smoothed, white for the whole weight.

    A pair's weight is the weight times the smaller value of its two pixels, divided by maxval and rounded down.

    Args:
        strengths: 2-D uint8 array as large as the scan, values 0 to maxval.
        weight: the whole weight, in sub-units.
        maxval: the value that stands for the whole weight.
    """
    grey = as_raster("strengths", strengths).astype(np.int64)
    whole = as_integer("weight", weight, 2**32 - 1, boundary.max_weight())
    white = as_integer("maxval", maxval, 255, 255)
    if not white or grey.max(initial=0) > white:
        raise ValueError(f"strengths go from 0 to maxval, which is {white}: the largest is {grey.max(initial=0)}")
    down, right = np.minimum(grey[:-1], grey[1:]), np.minimum(grey[:, :-1], grey[:, 1:])
    return Pairs(whole * down // white, whole * right // white)


def _pair_count(shape: Shape) -> int:
    height, width = shape
    return boundary.pair_count(width, height)


def _from_flat(name: str, flat: Any, shape: Shape) -> Pairs:
    """Pairs from the flat order, by the name that a message gives it."""
    pairs = Pairs.__new__(Pairs)
    pairs._initialize(as_int32_array(name, flat, (_pair_count(shape),)), shape)
    return pairs
