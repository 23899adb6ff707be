"""PGM pictures, plain (P2) and binary (P5)."""

from __future__ import annotations

import re
from typing import Any, BinaryIO, Dict, Tuple

import numpy as np

from ..arrays import require_allowed_size

SIGNATURES = b"P2", b"P5"

_COMMENT = rb"#[^\r\n]*[\r\n]"
_WHITESPACE = rb"(?:\s|" + _COMMENT + rb")+"
_HEADER = re.compile(rb"(P[25])" + 3 * (_WHITESPACE + rb"(\d{1,9})") + rb"\s")


def read(header: bytes, file: BinaryIO) -> Tuple[np.ndarray, Dict[str, Any]]:
    """Samples and what is kept: maxval, and whether the picture is a plain one."""
    match = _HEADER.match(header)
    if not match:
        raise ValueError("not a PGM picture (P2 or P5): its heading is damaged")
    width, height, maxval = map(int, match.groups()[1:])
    if maxval > 255:
        raise ValueError(f"maxval {maxval}: samples of 16 bits are not taken: save it with 255 at most")
    if not maxval:
        raise ValueError("maxval 0: 1 is the least")
    require_allowed_size(height, width)
    plain = match[1] == b"P2"
    body = header[match.end():] + (file.read() if plain else file.read(width * height + 1))
    samples = _plain_samples(body) if plain else np.frombuffer(body, np.uint8)
    if samples.size != width * height:
        at_least = " at least" if samples.size > width * height and not plain else ""
        raise ValueError(f"{samples.size} samples{at_least}, but {width} x {height} pixels need {width * height}")
    if samples.max() > maxval:
        raise ValueError(f"a sample is not a number from 0 to {maxval}")
    return samples.astype(np.uint8, copy=False).reshape(height, width), {"maxval": maxval, "plain": plain}


def encode(samples: np.ndarray, maxval: int, plain: bool) -> bytes:
    """The bytes of a file."""
    height, width = samples.shape
    header = f"{'P2' if plain else 'P5'}\n{width} {height}\n{maxval}\n".encode()
    if not plain:
        return header + samples.tobytes()
    return header + b"".join(b" ".join(b"%d" % sample for sample in row) + b"\n" for row in samples.tolist())


def _plain_samples(body: bytes) -> np.ndarray:
    """The samples of a plain picture; 256 stands for any larger number."""
    words = re.sub(_COMMENT, b" ", body + b"\n").split()
    if not all(word.isdigit() and len(word) < 10 for word in words):
        raise ValueError("a sample is not a whole number")
    return np.minimum(np.array(words, np.int64), 256).astype(np.uint16) if words else np.zeros(0, np.uint16)
