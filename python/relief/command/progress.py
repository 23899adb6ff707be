"""A line of progress on a terminal, for what takes over a second; nothing in a pipe."""

from __future__ import annotations

import os
import sys
import time

import numpy as np

from ..calls import clean
from .console import escape_unprintable

DELAY = 1.0        # seconds before the line is shown
_SAMPLE_SIDE = 64  # pixels, of the part that is timed for the estimate
_SAMPLE_ROUNDS = 16


class Progress:
    """The line, on standard error."""

    def __init__(self, files: int) -> None:
        self.files = files
        self.start = time.perf_counter()
        self.enabled = sys.stderr.isatty()
        self.visible = False

    def show(self, number: int, name: str, activity: str) -> None:
        """Says which file is being processed and what is done, once the command has taken a second."""
        if not self.enabled or time.perf_counter() - self.start < DELAY:
            return
        text = escape_unprintable(f"[{number}/{self.files}] {name}: {activity}")
        columns = os.get_terminal_size(sys.stderr.fileno()).columns or 80
        sys.stderr.write(f"\r\x1b[K{text[:columns - 1]}")
        sys.stderr.flush()
        self.visible = True

    def clear(self) -> None:
        """Takes the line away, before another is printed."""
        if self.visible:
            sys.stderr.write("\r\x1b[K")
            sys.stderr.flush()
            self.visible = False


def format_share(seconds: float, estimate: float) -> str:
    """How much of a run's estimated time is over."""
    estimate = max(estimate, 0.1)
    return f"{min(int(100 * seconds / estimate), 99)} % of at most about {estimate:.1f} s"


def estimate_seconds(codes: np.ndarray, quick: int, steady: int) -> float:
    """How long a run can take, from short ones on a part of the scan; it is shorter where the run settles early."""
    part = codes[:_SAMPLE_SIDE, :_SAMPLE_SIDE]
    rates = [_time_clean(part, rounds) / (_SAMPLE_ROUNDS * part.size)
             for rounds in ((_SAMPLE_ROUNDS, 0), (0, _SAMPLE_ROUNDS))]
    # a large raster does not fit the processor's cache
    return 1.25 * codes.size * (quick * rates[0] + steady * rates[1])


def _time_clean(part: np.ndarray, rounds: tuple) -> float:
    """The shorter of two runs."""
    times = []
    for _ in range(2):
        start = time.perf_counter()
        clean(part, 1024, (0, 255), *rounds)
        times.append(time.perf_counter() - start)
    return min(times)
