"""What the picture scripts beside this file share: their command line, files by name, errors.

An error is one line on standard error that names the file, and exit status 1. Nothing is written then.
"""

import argparse
import contextlib
import os
import shutil
import sys


class Parser(argparse.ArgumentParser):
    """A command line whose errors are one line too."""

    def error(self, message):
        sys.exit(f"{self.prog}: {message}")

    def add_files(self, source, target):
        """An input and an output: standard input and output where they are left out or `-`."""
        self.add_argument("source", metavar=source, nargs="?", default="-",
                          help="file to read (else standard input)")
        self.add_argument("target", metavar=target, nargs="?", default="-",
                          help="file to write (else standard output)")


def number(least, most):
    """What reads a whole number from least to most, for a command line."""
    def read_number(word):
        if not (word.isascii() and word.isdigit() and len(word) < 10 and least <= int(word) <= most):
            raise argparse.ArgumentTypeError(f"{word} is not a whole number from {least} to {most}")
        return int(word)
    return read_number


@contextlib.contextmanager
def reporting_errors(script, file):
    """Ends the script with a line that names the file where a file or what it holds is at fault."""
    try:
        yield
    except OSError as error:
        sys.exit(f"{script}: {file}: {error.strerror or error}")
    except ValueError as error:
        sys.exit(f"{script}: {file}: {error}")


def source_name(source):
    """An input's name in a message."""
    return "standard input" if source == "-" else source


def target_name(target):
    """An output's name in a message."""
    return "standard output" if target == "-" else target


def read(source):
    """All bytes of an input."""
    with open(0, "rb", closefd=False) if source == "-" else open(source, "rb") as file:
        return file.read()


def write(target, data):
    """Writes an output. A file holds all of the data in the end, or is as it was."""
    if target == "-":
        with open(1, "wb", closefd=False) as file:
            file.write(data)
    elif os.path.exists(target) and not os.path.isfile(target):  # a device, say
        with open(target, "wb") as file:
            file.write(data)
    else:
        _replace(os.path.realpath(target), data)


def _replace(path, data):
    """Writes a new file beside the path, which then takes its place."""
    there = os.path.exists(path)
    if there:
        open(path, "ab").close()  # a file that may not be written stays
    part = f"{path}.{os.getpid()}.part"
    file = open(part, "xb")
    try:
        with file:
            file.write(data)
        if there:
            shutil.copymode(path, part)
        os.replace(part, path)
    except BaseException:
        os.unlink(part)
        raise
