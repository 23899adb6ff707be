"""relief-raster check and relief-raster price."""

from __future__ import annotations

import contextlib
from typing import Any, Callable, Iterator, Optional

import numpy as np

from ..calls import check, price
from ..formatting import format_bounds, format_figures
from ..pairs import Pairs
from .console import describe_error, print_message, print_result
from .inputs import FILE_ERRORS, read_array, read_scan, read_weights, require_same_size


def check_file(options: Any) -> int:
    """Judges a flow of one's own."""
    def judge(codes: np.ndarray, weights: Optional[Pairs]) -> str:
        result = check(codes, read_array(options.flow), options.weight, options.box, weights)
        return f"{options.scan}: {format_figures(result)}; {format_bounds(result)}"

    return _judge(options, options.flow, judge)


def price_file(options: Any) -> int:
    """Prices a raster of the box."""
    def judge(codes: np.ndarray, weights: Optional[Pairs]) -> str:
        return f"{options.cleaned}: price {price(codes, _read_image(options.cleaned), options.weight, options.box, weights)}"

    return _judge(options, options.cleaned, judge)


def _read_image(path: str) -> np.ndarray:
    """An array in sub-units, or a picture's codes at the centres of their levels."""
    if path.endswith(".npy"):
        return read_array(path)
    return 256 * read_scan(path, print_message).codes.astype(np.int32) + 128


def _judge(options: Any, path: str, judge: Callable[[np.ndarray, Optional[Pairs]], str]) -> int:
    """Tells what is said of the scan, its weights and the file at the path; gives the exit status."""
    try:
        with _reporting_errors(options.scan):
            scan = read_scan(options.scan, print_message)
        with _reporting_errors(options.weights):
            weights = read_weights(options)
            require_same_size(weights, scan)
        with _reporting_errors(path):
            line = judge(scan.codes, weights)
    except _AlreadyReported:
        return 1
    print_result(line)
    return 0


class _AlreadyReported(Exception):
    """A fault that has been told."""


@contextlib.contextmanager
def _reporting_errors(path: str) -> Iterator[None]:
    """Tells what is wrong with a file, in one line."""
    try:
        yield
    except FILE_ERRORS as error:
        print_message(f"{path}: {describe_error(error, path)}")
        raise _AlreadyReported from None
