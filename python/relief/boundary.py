"""The C boundary: the five calls of the proved library, by ctypes, on NumPy's buffers.

Nothing is computed here. Each function lends the library what it is given, for as long as the call runs, and gives back
the number of the refusal, 0 for none, with the numbers that the call hands out. ctypes lets other threads run meanwhile.
The library is ``librelief.so`` beside this file, or the one that the environment variable RELIEF_LIBRARY names.
"""

from __future__ import annotations

import ctypes
import os
from ctypes import POINTER, byref, c_char_p, c_int64, c_size_t, c_uint8, c_uint16, c_uint32, c_uint64, c_void_p
from pathlib import Path
from typing import NamedTuple, Tuple

import numpy as np

from .version import __version__

_PLACEHOLDER = np.zeros(1, np.int64)  # what a buffer of length 0 points to: never null, aligned for every type

_BUFFER = [c_void_p, c_size_t]
_TERMS = [c_uint32, c_uint32, c_uint32, c_uint8, c_uint8]
_ROUNDS = [c_uint32, c_uint16]
_FIGURES_OUTPUTS = [POINTER(number) for number in (c_uint64, c_uint32, c_uint32, c_uint64, c_int64, c_uint64)]
_READ_OUTPUTS = [POINTER(number) for number in
                 (c_uint64, c_uint32, c_uint32, c_uint32, c_uint8, c_uint8, c_uint32, c_uint16, c_uint32, c_uint32)]

_FUNCTIONS = {
    "relief_call_price": (c_uint32, [*_TERMS, *3 * _BUFFER, *_FIGURES_OUTPUTS]),
    "relief_call_check": (c_uint32, [*_TERMS, *4 * _BUFFER, *_FIGURES_OUTPUTS]),
    "relief_call_run": (c_uint32, [*_TERMS, *_ROUNDS, *5 * _BUFFER, *_FIGURES_OUTPUTS]),
    "relief_call_read": (c_uint32, [*4 * _BUFFER, *_READ_OUTPUTS]),
    "relief_call_write": (c_uint32, [*_TERMS, *_ROUNDS, *4 * _BUFFER, POINTER(c_uint64), POINTER(c_uint64)]),
    "relief_boundary_version": (c_char_p, []),
    "relief_boundary_text": (c_char_p, [c_uint32]),
    "relief_boundary_max_weight": (c_uint32, []),
    "relief_boundary_pixels": (c_size_t, 2 * [c_size_t]),
    "relief_boundary_pairs": (c_size_t, 2 * [c_size_t]),
    "relief_boundary_tape_bytes": (c_size_t, 3 * [c_size_t]),
    "relief_boundary_read_samples": (c_size_t, [c_size_t]),
    "relief_boundary_read_flow": (c_size_t, [c_size_t]),
}


def _load() -> ctypes.CDLL:
    path = Path(os.environ.get("RELIEF_LIBRARY") or Path(__file__).with_name("librelief.so"))
    if not path.is_file():
        raise ImportError(f"there is no {path}: `bash tools/python.sh`, at the top of the repository, makes it")
    try:
        library = ctypes.CDLL(str(path))
        for name, (restype, argtypes) in _FUNCTIONS.items():
            function = getattr(library, name)
            function.restype, function.argtypes = restype, argtypes
    except (OSError, AttributeError) as error:
        raise ImportError(f"{path} is not the library of this package: {error}") from None
    version = library.relief_boundary_version().decode()
    if version != __version__:
        raise ImportError(f"{path} is version {version}, the package is {__version__}: `bash tools/python.sh` makes it anew")
    return library


_library = _load()


class Terms(NamedTuple):
    """Size, weight and box of a job, as the calls take them."""

    width: int
    height: int
    weight: int
    low: int
    high: int


class Figures(NamedTuple):
    """The numbers that price, check and run hand out."""

    outcome: int
    moved: int
    price: int
    floor: int
    slack: int


class ReadAnswer(NamedTuple):
    """The numbers that read hands out."""

    terms: Terms
    quick: int
    steady: int
    weighted: bool
    flowed: bool


def _buffer_arguments(*buffers: np.ndarray) -> list:
    """Address and length of each buffer: contiguous, aligned, of the type that the call takes."""
    return [word for buffer in buffers
            for word in ((buffer if buffer.size else _PLACEHOLDER).ctypes.data, buffer.size)]


def _call(function, *arguments) -> Tuple[int, int, Figures]:
    """Refusal, place and figures of price, check or run."""
    place, numbers = c_uint64(), (c_uint32(), c_uint32(), c_uint64(), c_int64(), c_uint64())
    refusal = function(*arguments, byref(place), *map(byref, numbers))
    return refusal, place.value, Figures(*(number.value for number in numbers))


def price(terms: Terms, samples: np.ndarray, weights: np.ndarray, image: np.ndarray) -> Tuple[int, int, Figures]:
    """Judges a given image."""
    return _call(_library.relief_call_price, *terms, *_buffer_arguments(samples, weights, image))


def check(terms: Terms, samples: np.ndarray, weights: np.ndarray, flow: np.ndarray,
          image: np.ndarray) -> Tuple[int, int, Figures]:
    """Judges a given flow and fills the image."""
    return _call(_library.relief_call_check, *terms, *_buffer_arguments(samples, weights, flow, image))


def run(terms: Terms, quick: int, steady: int, samples: np.ndarray, weights: np.ndarray, flow: np.ndarray,
        image: np.ndarray, work: np.ndarray) -> Tuple[int, int, Figures]:
    """Does the rounds and fills flow and image."""
    buffers = _buffer_arguments(samples, weights, flow, image, work)
    return _call(_library.relief_call_run, *terms, quick, steady, *buffers)


def read(tape: np.ndarray, samples: np.ndarray, weights: np.ndarray, flow: np.ndarray) -> Tuple[int, int, ReadAnswer]:
    """Reads a tape into the fronts of the buffers."""
    place, numbers = c_uint64(), [pointer._type_() for pointer in _READ_OUTPUTS[1:]]
    buffers = _buffer_arguments(tape, samples, weights, flow)
    refusal = _library.relief_call_read(*buffers, byref(place), *map(byref, numbers))
    width, height, weight, low, high, quick, steady, weighted, flowed = (number.value for number in numbers)
    terms = Terms(width, height, weight, low, high)
    return refusal, place.value, ReadAnswer(terms, quick, steady, bool(weighted), bool(flowed))


def write(terms: Terms, quick: int, steady: int, samples: np.ndarray, weights: np.ndarray, flow: np.ndarray,
          output: np.ndarray) -> Tuple[int, int, int]:
    """Writes a tape into the front of the output, and gives the number of its bytes."""
    place, count = c_uint64(), c_uint64()
    buffers = _buffer_arguments(samples, weights, flow, output)
    refusal = _library.relief_call_write(*terms, quick, steady, *buffers, byref(place), byref(count))
    return refusal, place.value, count.value


def refusal_text(number: int) -> str:
    """What a refusal means, in the header's words."""
    return _library.relief_boundary_text(number).decode()


def max_weight() -> int:
    """The largest weight that is allowed."""
    return _library.relief_boundary_max_weight()


def pixel_count(width: int, height: int) -> int:
    """The number of pixels; 0 for a size that is not allowed."""
    return _library.relief_boundary_pixels(width, height)


def pair_count(width: int, height: int) -> int:
    """The number of pairs; 0 where there are none and for a size that is not allowed."""
    return _library.relief_boundary_pairs(width, height)


def tape_bytes(samples: int, weights: int, flow: int) -> int:
    """The bytes of a tape with so many samples, weights and flow numbers."""
    return _library.relief_boundary_tape_bytes(samples, weights, flow)


def read_lengths(tape: int) -> Tuple[int, int]:
    """Samples, and weights or flow numbers, that are enough to read any tape of so many bytes."""
    return _library.relief_boundary_read_samples(tape), _library.relief_boundary_read_flow(tape)
