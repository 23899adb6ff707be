"""What the commands read: scans, weight pictures and arrays; and what may be wrong with a file."""

from __future__ import annotations

from typing import Any, Callable, Optional

import numpy as np

from ..pairs import Pairs, weights_from_picture
from ..pictures import Picture, read_picture
from ..refused import Refused

FILE_ERRORS = (OSError, ValueError, TypeError, Refused, MemoryError)


def read_scan(path: str, warn: Callable[[str], None]) -> Picture:
    """A scan; where its codes are scaled, a warning says so."""
    picture = read_picture(path)
    if picture.maxval < 255:
        warn(f"{path}: maxval {picture.maxval}: samples scaled to the codes 0 to 255, in whose levels weight and box are")
    return picture


def read_weights(options: Any) -> Optional[Pairs]:
    """The weights of the pairs by the weight picture, if one is named."""
    if options.weights is None:
        return None
    picture = read_picture(options.weights)
    return weights_from_picture(picture.samples, options.weight, picture.maxval)


def require_same_size(weights: Optional[Pairs], scan: Picture) -> None:
    """A ValueError where the weight picture is not as large as the scan."""
    if weights is not None and weights.shape != scan.samples.shape:
        (height, width), (rows, columns) = weights.shape, scan.samples.shape
        raise ValueError(f"the weight picture has {width} x {height} pixels, but the scan has {columns} x {rows}")


def read_array(path: str) -> np.ndarray:
    """The array in an .npy file."""
    with open(path, "rb") as file:
        try:
            return np.lib.format.read_array(file, allow_pickle=False)
        except (OSError, MemoryError):
            raise
        except Exception as error:  # NumPy raises errors of many kinds on damaged files
            raise ValueError(f"not a whole .npy file of numbers ({error})") from None
