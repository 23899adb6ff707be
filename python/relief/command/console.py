"""Lines for the user: results to standard output, all else to standard error."""

from __future__ import annotations

import sys

PROGRAM = "relief-raster"


def escape_unprintable(text: str) -> str:
    """The text with line breaks and the like, which a file's name may have, escaped."""
    return "".join(character if character.isprintable() else character.encode("unicode_escape", "surrogateescape").decode()
                   for character in text)


def print_message(text: str) -> None:
    """One line on standard error."""
    print(escape_unprintable(f"{PROGRAM}: {text}"), file=sys.stderr, flush=True)


def print_result(text: str) -> None:
    """One line on standard output."""
    print(escape_unprintable(text), flush=True)


def describe_error(error: BaseException, path: str) -> str:
    """What is wrong with a file, in words; another file's name is in front."""
    if not isinstance(error, OSError):
        return "there is not enough memory" if isinstance(error, MemoryError) else str(error)
    other_path = error.filename
    prefix = f"{other_path}: " if other_path is not None and _path_text(other_path) != _path_text(path) else ""
    return prefix + (error.strerror or str(error))


def _path_text(path: object) -> str:
    """A path as text."""
    return path.decode(errors="surrogateescape") if isinstance(path, bytes) else str(path)
