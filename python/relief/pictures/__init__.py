"""Grey pictures of 8 bits as files: PGM, PNG and TIFF.

What is kept of a picture when it is written again: its form, its maxval (PGM), its resolution (PNG, TIFF) and how it is
packed, where nothing is lost by that (TIFF).
"""

from __future__ import annotations

from dataclasses import dataclass, field
from typing import Any, Dict

import numpy as np

from ..arrays import as_raster
from . import pgm, png, tiff

_FORMATS: Dict[str, Any] = {"PGM": pgm, "PNG": png, "TIFF": tiff}
_HEADER_BYTES = 65536  # bytes: as far as a PGM's header may go, with its comments


@dataclass(frozen=True, eq=False)
class Picture:
    """A grey picture. ``samples`` go from 0 to ``maxval``; ``metadata`` is what its format keeps besides."""

    format: str
    samples: np.ndarray
    maxval: int = 255
    metadata: Dict[str, Any] = field(default_factory=dict)

    @property
    def codes(self) -> np.ndarray:
        """The samples as codes, 0 to 255: as they are, or scaled to the nearest where maxval is below 255."""
        if self.maxval == 255:
            return self.samples
        return ((510 * self.samples.astype(np.int64) + self.maxval) // (2 * self.maxval)).astype(np.uint8)

    def encode(self, samples: Any) -> bytes:
        """The bytes of a file with other samples, and all else as in this picture."""
        return _FORMATS[self.format].encode(as_raster("samples", samples), **self.metadata)


def read_picture(path: Any) -> Picture:
    """The picture in a file.

    Raises:
        OSError: of a file that cannot be read.
        ValueError: of what is no whole grey picture of 8 bits.
        Refused: 1, of a picture that is too large; it is then not decoded.
    """
    with open(path, "rb") as file:
        header = file.read(_HEADER_BYTES)
        if not header:
            raise ValueError("empty, not a picture")
        for name, module in _FORMATS.items():
            if header.startswith(module.SIGNATURES):
                samples, metadata = module.read(header, file)
                return Picture(name, samples, metadata.get("maxval", 255), metadata)
    raise ValueError("not a PGM (P2 or P5), PNG or TIFF picture")
