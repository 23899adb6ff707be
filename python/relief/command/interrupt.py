"""Signals that end the command, as an exception: so that files half written are taken away."""

from __future__ import annotations

import contextlib
import os
import signal
import sys
import threading
import time
from typing import Any, Callable, Iterator, List, Tuple

_SIGNALS = signal.SIGINT, signal.SIGTERM, signal.SIGHUP
_received: List[int] = []  # the signal that came inside interruptible()


class Interrupted(BaseException):
    """A signal came that ends the command."""

    def __init__(self, number: int) -> None:
        super().__init__(number)
        self.signal = number


@contextlib.contextmanager
def interruptible() -> Iterator[None]:
    """The first signal inside raises Interrupted; those that follow are ignored, for the little that is left to do."""
    _received.clear()
    handled = [number for number in _SIGNALS if signal.getsignal(number) != signal.SIG_IGN]

    def interrupt(number: int, _: Any) -> None:
        for other in handled:
            signal.signal(other, signal.SIG_IGN)
        _received.append(number)
        raise Interrupted(number)

    previous = {number: signal.signal(number, interrupt) for number in handled}
    try:
        yield
    except Interrupted:
        raise
    except BaseException:
        for number, handler in previous.items():
            signal.signal(number, handler)
        raise
    else:
        for number, handler in previous.items():
            signal.signal(number, handler)


def raise_if_interrupted() -> None:
    """Raises Interrupted again after a signal. The first may be lost: what a destructor raises goes nowhere."""
    if _received:
        raise Interrupted(_received[0])


def die_by_signal(number: int) -> int:
    """Ends the process by the signal, as its parent expects; a call of the library that still runs ends with it."""
    with contextlib.suppress(OSError):
        sys.stdout.flush()
    signal.signal(number, signal.SIG_DFL)
    os.kill(os.getpid(), number)
    return 128 + number


def run_in_thread(call: Callable[[], Any], on_progress: Callable[[float], None]) -> Tuple[Any, float]:
    """What a call gives, and its seconds. It runs in a thread of its own, so that a signal is not kept waiting for it;
    ten times a second the seconds so far go to `meanwhile`."""
    results: List[Any] = []
    errors: List[BaseException] = []

    def run() -> None:
        try:
            results.append(call())
        except BaseException as error:
            errors.append(error)

    start = time.perf_counter()
    thread = threading.Thread(target=run, daemon=True)
    thread.start()
    while thread.is_alive():
        thread.join(0.1)
        raise_if_interrupted()
        if thread.is_alive():
            on_progress(time.perf_counter() - start)
    seconds = time.perf_counter() - start
    if errors:
        raise errors[0]
    return results[0], seconds
