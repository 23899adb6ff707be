"""Pillow, which decodes PNG and TIFF pictures and writes them."""

from __future__ import annotations

import contextlib
import io
import os
import warnings
from typing import Any, Iterator

import numpy as np

from ..arrays import Shape


def decode(data: bytes, format_name: str, shape: Shape) -> np.ndarray:
    """The samples of a picture that Pillow decodes, which has this shape."""
    from PIL import Image
    try:
        with warnings.catch_warnings(), _silenced_stderr():
            warnings.simplefilter("ignore")  # what is wrong is told by an error
            with Image.open(io.BytesIO(data), formats=[format_name]) as image:
                image.load()
                samples = np.asarray(image)
    except MemoryError:
        raise
    except Exception:  # Pillow raises errors of many kinds on damaged files
        samples = np.zeros(0)
    if samples.dtype != np.uint8 or samples.shape != shape:
        raise ValueError(f"cut off or damaged, not a whole {format_name} picture")
    return samples


def encode(samples: np.ndarray, format_name: str, **options: Any) -> bytes:
    """The bytes of a file with these samples."""
    from PIL import Image
    file = io.BytesIO()
    Image.fromarray(samples).save(file, format_name, **options)
    return file.getvalue()


@contextlib.contextmanager
def _silenced_stderr() -> Iterator[None]:
    """Lets nothing through to standard error for this moment: libtiff writes there by itself what is wrong."""
    try:
        previous = os.dup(2)
    except OSError:  # it is closed
        yield
        return
    devnull = os.open(os.devnull, os.O_WRONLY)
    try:
        os.dup2(devnull, 2)
        yield
    finally:
        os.dup2(previous, 2)
        os.close(previous)
        os.close(devnull)
