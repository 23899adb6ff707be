"""TIFF pictures. All of a file is tested before it is decoded, as far as its form allows."""

from __future__ import annotations

from typing import Any, BinaryIO, Dict, Tuple

import numpy as np

from ..arrays import require_allowed_size
from . import pillow
from .tiff_directory import BYTE_ORDERS, COMPRESSION, HEIGHT, WIDTH, Directory, with_resolution

SIGNATURES = tuple(BYTE_ORDERS)

_PILLOW_COMPRESSIONS = {1: "raw", 5: "tiff_lzw", 7: "raw", 8: "tiff_adobe_deflate", 32946: "tiff_adobe_deflate",
                        32773: "packbits"}  # how each is packed when it is written again: JPEG, 7, is not


def read(_: bytes, file: BinaryIO) -> Tuple[np.ndarray, Dict[str, Any]]:
    """Samples and what is kept: the resolution, as its fields have it, and how the picture is packed."""
    directory = Directory(file)
    directory.require_grey()
    width, height = directory.values(WIDTH)[0], directory.values(HEIGHT)[0]
    require_allowed_size(height, width)
    directory.require_complete()
    compression = directory.values(COMPRESSION, 1)[0]
    if compression not in _PILLOW_COMPRESSIONS:
        raise ValueError(f"is compressed by method {compression}: save it without compression, or with LZW or deflate")
    metadata = {"resolution": directory.resolution(), "compression": _PILLOW_COMPRESSIONS[compression]}
    file.seek(0)
    return pillow.decode(file.read(), "TIFF", (height, width)), metadata


def encode(samples: np.ndarray, resolution: Dict[int, Tuple[int, ...]], compression: str) -> bytes:
    """The bytes of a file."""
    from PIL import TiffImagePlugin
    tags = TiffImagePlugin.ImageFileDirectory_v2()
    for tag in resolution:
        tags[tag] = 1  # libtiff would round a fraction: it is put in afterwards
    return with_resolution(pillow.encode(samples, "TIFF", tiffinfo=tags, compression=compression), resolution)
