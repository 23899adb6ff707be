"""Files that are written atomically: they are whole or are not there."""

from __future__ import annotations

import contextlib
import itertools
import os
import shutil
import stat
from typing import Any, Iterator, List, Mapping, Tuple

_part_numbers = itertools.count()


def write_atomically(outputs: Mapping[Any, Any]) -> None:
    """Writes files, given as paths with their bytes. Each takes its place only when all of them are written whole.

    If this fails or is interrupted, each path holds all of its new bytes or what it held before, and nothing else is left.

    Raises:
        OSError: of a path that cannot be written, which it names.
    """
    parts: List[Tuple[str, str, Any]] = []
    try:
        for path, data in outputs.items():
            _write_temporary(parts, path, data)
        while parts:
            _move_into_place(*parts[-1])
            parts.pop()
    finally:
        for part, _, _ in parts:
            if os.path.exists(part):
                os.unlink(part)


def _write_temporary(parts: List[Tuple[str, str, Any]], path: Any, data: Any) -> None:
    """Writes the bytes into a new file beside the one that the path leads to, and notes it: part, target and path."""
    target = os.path.realpath(path)
    part = os.path.join(os.path.dirname(target), f".relief-{os.getpid()}-{next(_part_numbers)}.part")
    with _errors_naming(path):
        exists = os.path.exists(target)
        if exists:
            _require_writable(target)
        parts.append((part, target, path))
        with open(part, "xb") as file:
            file.write(data)
            file.flush()
            os.fsync(file.fileno())
        if exists:
            shutil.copymode(target, part)


def _move_into_place(part: str, target: str, path: Any) -> None:
    with _errors_naming(path):
        os.replace(part, target)


def _require_writable(target: str) -> None:
    """An OSError of what is there and may not be written, or is no file."""
    if not stat.S_ISREG(os.stat(target).st_mode) and not os.path.isdir(target):
        raise OSError(None, "not a regular file")
    open(target, "ab").close()


@contextlib.contextmanager
def _errors_naming(path: Any) -> Iterator[None]:
    """Lets an OSError inside be of the path that the caller knows."""
    try:
        yield
    except OSError as error:
        raise type(error)(error.errno, error.strerror, os.fspath(path)) from None
