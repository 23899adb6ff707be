"""PNG pictures. All of a file is tested before it is decoded: Pillow would leave black what is missing."""

from __future__ import annotations

import struct
import zlib
from typing import Any, BinaryIO, Dict, Iterator, Optional, Tuple

import numpy as np

from ..arrays import require_allowed_size
from . import pillow

SIGNATURES = b"\x89PNG\r\n\x1a\n",

_START = len(SIGNATURES[0])  # of the first chunk
_COLOURS = {2: "colour", 3: "a palette", 4: "transparency", 6: "colour and transparency"}
_DAMAGED = "cut off or damaged, not a whole PNG picture"
_ADAM7_PASSES = (0, 0, 8, 8), (0, 4, 8, 8), (4, 0, 8, 4), (0, 2, 4, 4), (2, 0, 4, 2), (0, 1, 2, 2), (1, 0, 2, 1)


def read(header: bytes, file: BinaryIO) -> Tuple[np.ndarray, Dict[str, Any]]:
    """Samples and what is kept: the resolution, as its chunk has it."""
    width, height, size = _read_header(header)
    resolution = None
    required, compressed = [SIGNATURES[0]], []
    for kind, body, chunk in _chunks(header + file.read()):
        if kind in (b"IHDR", b"IDAT", b"IEND"):
            required.append(chunk)
        if kind == b"IDAT":
            compressed.append(body)
        elif kind == b"pHYs" and len(body) == 9:
            resolution = body
        elif kind == b"tRNS":
            raise ValueError("has a transparent value: save it without one")
        elif kind == b"acTL":
            raise ValueError("is animated: save one picture of it")
    _require_unpacked_size(b"".join(compressed), size)
    return pillow.decode(b"".join(required), "PNG", (height, width)), {"resolution": resolution}


def encode(samples: np.ndarray, resolution: Optional[bytes]) -> bytes:
    """The bytes of a file."""
    data = pillow.encode(samples, "PNG")
    if resolution is None:
        return data
    chunk = struct.pack(">I", len(resolution)) + b"pHYs" + resolution
    chunk += struct.pack(">I", zlib.crc32(chunk[4:]))
    header_end = _START + 25  # the first chunk, IHDR
    return data[:header_end] + chunk + data[header_end:]


def _read_header(header: bytes) -> Tuple[int, int, int]:
    """Width, height, and how many bytes that is unpacked: a filter's number and the samples for each row of each pass."""
    if header[_START:_START + 8] != b"\0\0\0\x0dIHDR" or len(header) < _START + 25:
        raise ValueError(_DAMAGED)
    width, height, bits, colour, _, _, interlaced = struct.unpack(">IIBBBBB", header[_START + 8:_START + 21])
    if colour:
        raise ValueError(f"has {_COLOURS.get(colour, 'an unknown kind of colour')}: save it as a grey picture")
    if bits != 8:
        raise ValueError(f"has {bits} bits for a sample: save it with 8")
    require_allowed_size(height, width)
    passes = _ADAM7_PASSES if interlaced else [(0, 0, 1, 1)]
    sizes = [(len(range(top, height, down)), len(range(left, width, right))) for top, left, down, right in passes]
    return width, height, sum(rows * (columns + 1) for rows, columns in sizes if columns)


def _chunks(data: bytes) -> Iterator[Tuple[bytes, bytes, bytes]]:
    """Kind, body and all bytes of each chunk, from the first to the end, which are whole by their checksums."""
    start, kind = _START, b""
    while kind != b"IEND":
        end = start + 12 + int.from_bytes(data[start:start + 4], "big")
        if len(data) < end:
            raise ValueError(_DAMAGED)
        chunk = data[start:end]
        kind, body = chunk[4:8], chunk[8:-4]
        repeated = kind == b"IHDR" and start > _START
        if repeated or zlib.crc32(chunk[4:-4]) != int.from_bytes(chunk[-4:], "big"):
            raise ValueError(_DAMAGED)
        yield kind, body, chunk
        start = end


def _require_unpacked_size(compressed: bytes, size: int) -> None:
    """A ValueError of data that do not unpack to so many bytes."""
    decompressor = zlib.decompressobj()
    try:
        decompressed = decompressor.decompress(compressed, size + 1)
    except zlib.error:
        raise ValueError(_DAMAGED) from None
    if len(decompressed) != size or not decompressor.eof:
        raise ValueError(_DAMAGED)
