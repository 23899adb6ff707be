"""What callers pass, as arrays and numbers that the library can be lent; else a TypeError, a ValueError or refusal 1.

An array that is contiguous, aligned and of the library's type is lent as it is. No array that is given is changed.
"""

from __future__ import annotations

import math
import mmap
import operator
from typing import Any, Tuple

import numpy as np

from . import boundary
from .refused import Refused

Shape = Tuple[int, int]

_HUGE_PAGES_FROM = 2**22  # bytes: two huge pages


def as_integer(name: str, value: Any, type_max: int, allowed_max: int) -> int:
    """A whole number of 0 to the most that the library's type holds; what is allowed of these, the library says."""
    try:
        number = operator.index(value)
    except TypeError:
        raise TypeError(f"{name} is a whole number, not {_describe(value)}") from None
    if not 0 <= number <= type_max:
        raise ValueError(f"{name} is {number}: it must be 0 to {allowed_max:,}")
    return number


def as_box(box: Any) -> Tuple[int, int]:
    """The lowest and the highest level of a box."""
    try:
        low, high = box
    except TypeError:
        raise TypeError(f"box is a pair (low, high) of levels, not {_describe(box)}") from None
    except ValueError:
        raise ValueError(f"box is a pair (low, high) of levels, not {box!r}") from None
    return as_integer("the low end of box", low, 255, 255), as_integer("the high end of box", high, 255, 255)


def as_array(name: str, value: Any) -> np.ndarray:
    """The value as an array, without a mask that would be lost."""
    if isinstance(value, np.ma.MaskedArray):
        raise TypeError(f"{name} is a masked array, and the library knows no masks: fill it first")
    try:
        return np.asarray(value)
    except ValueError as error:
        raise ValueError(f"{name} is no array: {error}") from None


def require_allowed_size(height: int, width: int) -> None:
    """Refusal 1 of a raster that is too large or has no pixel."""
    if not boundary.pixel_count(width, height):
        raise Refused(1, 0, f"{width} x {height} pixels")


def as_raster(name: str, value: Any) -> np.ndarray:
    """A 2-D array of bytes: codes, or strengths of a weight picture. One of a size that is not allowed is not copied."""
    array = as_array(name, value)
    if array.dtype != np.uint8:
        raise TypeError(f"{name} has dtype {array.dtype}: 8-bit codes, dtype uint8, are needed")
    if array.ndim != 2:
        raise ValueError(f"{name} has shape {array.shape}: a grey raster has 2 dimensions, (height, width)")
    height, width = array.shape
    require_allowed_size(height, width)
    return np.require(array, requirements=["C", "A"])


def as_int32_array(name: str, value: Any, shape: Tuple[int, ...]) -> np.ndarray:
    """An array of this shape as 32-bit numbers: as it is, or converted where its type is another of whole numbers."""
    array = as_array(name, value)
    if array.dtype.kind not in "iu":
        raise TypeError(f"{name} has dtype {array.dtype}: whole numbers, best int32, are needed")
    if array.shape != shape:
        raise ValueError(f"{name} has shape {array.shape}: {shape} is needed")
    if not np.can_cast(array.dtype, np.int32):
        limits = np.iinfo(np.int32)
        beyond = (array < limits.min) | (array > limits.max)
        if beyond.any():
            index = tuple(int(number) for number in np.argwhere(beyond)[0])
            raise ValueError(f"{name} has {array[index]} at {list(index)}, which 32 bits do not hold")
    return np.require(array, np.int32, ["C", "A"])


def empty_int32(*shape: int) -> np.ndarray:
    """New 32-bit numbers for the library to fill, in huge pages of their own where they fill some and the system has them.

    NumPy's own memory may be a part that was used before, in small pages, where the rounds take some per cent longer.
    """
    size = 4 * math.prod(shape)
    if size >= _HUGE_PAGES_FROM and hasattr(mmap, "MADV_HUGEPAGE"):
        try:
            memory = mmap.mmap(-1, size, flags=mmap.MAP_PRIVATE | mmap.MAP_ANONYMOUS)
            memory.madvise(mmap.MADV_HUGEPAGE)
            return np.frombuffer(memory, np.int32).reshape(shape)
        except OSError:
            pass
    return np.empty(shape, np.int32)


def read_only_view(array: np.ndarray) -> np.ndarray:
    """The same values, not to be written to by this name."""
    view = array.view()
    view.flags.writeable = False
    return view


def _describe(value: Any) -> str:
    return f"{value!r} of type {type(value).__name__}"
