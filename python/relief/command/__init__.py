"""The command relief-raster: cleans, checks and prices scans that are picture files."""

from __future__ import annotations

import io
import os
import sys
from typing import List, Optional

from .console import print_message
from .interrupt import Interrupted, die_by_signal, interruptible
from .options import parse_options


def main(argv: Optional[List[str]] = None) -> int:
    """Runs the command and gives its exit status: 0, or 1 where a file or the output was at fault; 2 for wrong options."""
    _configure_streams()
    try:
        with interruptible():
            try:
                options = parse_options(argv)
            finally:
                sys.stdout.flush()  # help
            status = options.command(options)
            sys.stdout.flush()
            return status
    except Interrupted as interrupted:
        return die_by_signal(interrupted.signal)
    except BrokenPipeError:
        _discard_output()
        return 1
    except OSError as error:
        print_message(f"{error.filename or 'standard output'}: {error.strerror or error}")
        _discard_output()
        return 1


def _configure_streams() -> None:
    """Lets names of files that are no text be printed; a stream that was closed by the caller leads nowhere."""
    for name in "stdout", "stderr":
        if getattr(sys, name) is None:
            setattr(sys, name, open(os.devnull, "w"))
        stream = getattr(sys, name)
        if isinstance(stream, io.TextIOWrapper):
            stream.reconfigure(errors="backslashreplace")


def _discard_output() -> None:
    """Nobody takes what is left to be flushed: it goes nowhere."""
    os.dup2(os.open(os.devnull, os.O_WRONLY), sys.stdout.fileno())
