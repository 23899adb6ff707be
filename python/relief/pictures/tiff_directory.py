"""The directory of a TIFF file: what it says of its picture, and whether all of that is there."""

from __future__ import annotations

import io
import os
import struct
from typing import Any, BinaryIO, Dict, Mapping, NamedTuple, Tuple

BYTE_ORDERS = {b"II*\0": "<", b"MM\0*": ">"}
DAMAGED = "cut off or damaged, not a whole TIFF picture"

WIDTH, HEIGHT, BITS_PER_SAMPLE, COMPRESSION, PHOTOMETRIC = 256, 257, 258, 259, 262
_STRIP_OFFSETS, _ORIENTATION, _ROWS_PER_STRIP, _STRIP_BYTE_COUNTS = 273, 274, 278, 279
_TILE_WIDTH, _TILE_LENGTH, _TILE_OFFSETS, _TILE_BYTE_COUNTS = 322, 323, 324, 325
_SAMPLE_FORMAT = 339
RESOLUTION = {282: "2L", 283: "2L", 296: "1H"}  # along x, along y, their unit: a fraction each, and a number
_TAGS = {WIDTH, HEIGHT, BITS_PER_SAMPLE, COMPRESSION, PHOTOMETRIC, _STRIP_OFFSETS, _ORIENTATION, _ROWS_PER_STRIP,
         _STRIP_BYTE_COUNTS, _TILE_WIDTH, _TILE_LENGTH, _TILE_OFFSETS, _TILE_BYTE_COUNTS, _SAMPLE_FORMAT,
         *RESOLUTION}  # of the fields that are looked at

_TYPE_SIZES = {1: 1, 2: 1, 3: 2, 4: 4, 5: 8, 6: 1, 7: 1, 8: 2, 9: 4, 10: 8, 11: 4, 12: 8, 13: 4}  # of a value, in bytes
_STRUCT_FORMATS = {1: (1, "B"), 3: (1, "H"), 4: (1, "L"), 5: (2, "L")}  # of the types that these fields have


class Field(NamedTuple):
    """The values of a field, a fraction as two numbers; their format for struct, and their offset in the file."""

    values: Tuple[int, ...]
    struct_format: str
    offset: int


class Directory:
    """The first directory of a file.

    Raises:
        ValueError: where not all of it is there, or there is another.
    """

    def __init__(self, file: BinaryIO) -> None:
        self.file, self.size = file, file.seek(0, os.SEEK_END)
        self.byte_order = BYTE_ORDERS[self._read(0, 4)]
        self.fields: Dict[int, Field] = {}
        start, = self.unpack("L", 4)
        count, = self.unpack("H", start)
        for offset in range(start + 2, start + 2 + 12 * count, 12):
            self._read_field(offset)
        if self.unpack("L", start + 2 + 12 * count)[0]:
            raise ValueError("has more than one picture: save one of them")

    def values(self, tag: int, *default: int) -> Tuple[int, ...]:
        """The values of a field, or those that hold where it is not there."""
        values = self.fields[tag].values if tag in self.fields else default
        if not values:
            raise ValueError(DAMAGED)
        return values

    def require_grey(self) -> None:
        """A ValueError of a picture that is not grey, of 8 bits and upright."""
        bits, sample_formats = self.values(BITS_PER_SAMPLE, 1), self.values(_SAMPLE_FORMAT, 1)
        if self.values(PHOTOMETRIC)[0] not in (0, 1):
            raise ValueError("has colour: save it as a grey picture")
        if len(bits) != 1:
            raise ValueError("has transparency or several values for a pixel: save it as a grey picture")
        if bits[0] != 8:
            raise ValueError(f"has {bits[0]} bits for a sample: save it with 8")
        if sample_formats != (1,):
            raise ValueError("has signed samples, or of an unknown kind: save it with 8 bits, 0 to 255")
        if self.values(PHOTOMETRIC)[0] == 0:
            raise ValueError("is stored with 0 for white: save it with 0 for black")
        if self.values(_ORIENTATION, 1) != (1,):
            raise ValueError("is stored turned or mirrored: save it upright")

    def require_complete(self) -> None:
        """A ValueError where a strip or tile is missing, goes past the end of the file or is too short."""
        width, height = self.values(WIDTH)[0], self.values(HEIGHT)[0]
        if _TILE_OFFSETS in self.fields:
            offsets, byte_counts = self.values(_TILE_OFFSETS), self.values(_TILE_BYTE_COUNTS)
            tile_width, tile_length = self.values(_TILE_WIDTH)[0], self.values(_TILE_LENGTH)[0]
            expected = [tile_width * tile_length] * (_ceil_div(width, tile_width) * _ceil_div(height, tile_length))
        else:
            offsets, byte_counts = self.values(_STRIP_OFFSETS), self.values(_STRIP_BYTE_COUNTS)
            rows = min(self.values(_ROWS_PER_STRIP, height)[0], height)
            expected = [width * min(rows, height - top) for top in range(0, height, max(rows, 1))]
        if not len(offsets) == len(byte_counts) == len(expected):
            raise ValueError(DAMAGED)
        if any(offset + byte_count > self.size for offset, byte_count in zip(offsets, byte_counts)):
            raise ValueError(DAMAGED)
        if self.values(COMPRESSION, 1)[0] == 1 and any(byte_count < least for byte_count, least in zip(byte_counts, expected)):
            raise ValueError(DAMAGED)

    def resolution(self) -> Dict[int, Tuple[int, ...]]:
        """The fields of the resolution, as they stand."""
        return {tag: self.fields[tag].values for tag, struct_format in RESOLUTION.items()
                if tag in self.fields and self.fields[tag].struct_format == struct_format}

    def unpack(self, struct_format: str, offset: int) -> Tuple[Any, ...]:
        """Numbers that stand at an offset of the file."""
        struct_format = self.byte_order + struct_format
        return struct.unpack(struct_format, self._read(offset, struct.calcsize(struct_format)))

    def _read_field(self, offset: int) -> None:
        """Notes a field that is looked at; of any field, all values are there."""
        tag, type_number, count = self.unpack("HHL", offset)
        byte_count = count * _TYPE_SIZES.get(type_number, 0)
        offset = offset + 8 if byte_count <= 4 else self.unpack("L", offset + 8)[0]
        if offset + byte_count > self.size:
            raise ValueError(DAMAGED)
        if tag in _TAGS and type_number in _STRUCT_FORMATS:
            per_value, code = _STRUCT_FORMATS[type_number]
            struct_format = f"{count * per_value}{code}"
            self.fields[tag] = Field(self.unpack(struct_format, offset), struct_format, offset)

    def _read(self, offset: int, count: int) -> bytes:
        if offset + count > self.size:
            raise ValueError(DAMAGED)
        self.file.seek(offset)
        return self.file.read(count)


def with_resolution(data: bytes, resolution: Mapping[int, Tuple[int, ...]]) -> bytes:
    """The file with these numbers in the fields of its resolution, which it has."""
    directory, changed = Directory(io.BytesIO(data)), bytearray(data)
    for tag, values in resolution.items():
        struct.pack_into(directory.byte_order + RESOLUTION[tag], changed, directory.fields[tag].offset, *values)
    return bytes(changed)


def _ceil_div(length: int, divisor: int) -> int:
    """How many parts of the divisor's length cover a length."""
    return -(-length // divisor) if divisor else 0
