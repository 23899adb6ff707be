"""Figures and bounds in words, for the command and under plots."""

from __future__ import annotations

from decimal import ROUND_CEILING, Decimal

from .result import Result


def format_bound(bound: float, digits: int = 6) -> str:
    """A bound with so many decimals, never less than it is."""
    return str(Decimal(bound).quantize(Decimal(1).scaleb(-digits), ROUND_CEILING))


def format_figures(result: Result) -> str:
    """The figures of a result, exactly."""
    return (f"{result.outcome}, moved {result.moved}, price {result.price}, floor {result.floor},"
            f" slack {result.slack}")


def format_bounds(result: Result) -> str:
    """What the slack bounds."""
    return (f"at most {format_bound(result.rms_bound, 4)} levels root mean square, {format_bound(result.pixel_bound, 2)} in"
            " any one pixel, from the best raster")
