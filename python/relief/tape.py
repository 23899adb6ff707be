"""Job tapes: the form in which the cleaning program and the season report take jobs."""

from __future__ import annotations

import io
import os
import sys
from typing import Any, BinaryIO, List, Tuple, Union

import numpy as np

from . import boundary
from .files import write_atomically
from .job import Job
from .pairs import Pairs, flat_or_empty
from .refused import Refused

_MAX_LENGTHS = boundary.read_lengths(sys.maxsize)  # samples, and weights or flow numbers, of any tape
_MAX_TAPE_BYTES = boundary.tape_bytes(_MAX_LENGTHS[0], _MAX_LENGTHS[1], _MAX_LENGTHS[1])


def read_tape(source: Union[str, "os.PathLike[str]", BinaryIO, bytes, bytearray, memoryview]) -> Job:
    """The job of a tape.

    Args:
        source: the tape's file, by its name or opened for binary reading, or its bytes.

    Raises:
        OSError: of a file that cannot be read.
        Refused: of bytes that are no tape of one job, or a job that is not allowed.
    """
    if isinstance(source, (bytes, bytearray, memoryview)):
        data: Any = source
    elif isinstance(source, (str, os.PathLike)):
        with open(source, "rb") as file:
            data = file.read(_MAX_TAPE_BYTES + 1)  # of a longer file this is enough: it is refused
    elif hasattr(source, "read"):
        data = source.read()
    else:
        raise TypeError(f"a tape is read from a name, a file or bytes, not from {type(source).__name__}")
    return _decode(np.frombuffer(data, np.uint8) if len(data) else np.zeros(0, np.uint8))


def write_tape(target: Union[str, "os.PathLike[str]", BinaryIO], job: Job) -> None:
    """Writes a job's tape. With a flow the job is one to be checked, else one to be run.

    Args:
        target: a file by its name, which then holds all of the tape or is as it was, or one opened for binary writing.
        job: the job; ``dataclasses.replace(result.job, flow=result.flow)`` is one with a result's flow.

    Raises:
        OSError: of a file that cannot be written.
        Refused: of a job that is not allowed.
    """
    is_path = isinstance(target, (str, os.PathLike))
    if not is_path and not hasattr(target, "write"):
        raise TypeError(f"a tape is written to a name or a file, not to {type(target).__name__}")
    weights, flow = flat_or_empty(job.weights), flat_or_empty(job.flow)
    tape = np.empty(boundary.tape_bytes(job.codes.size, weights.size, flow.size), np.uint8)
    refusal, place, count = boundary.write(job.terms, job.quick, job.steady, job.codes, weights, flow, tape)
    if refusal:
        raise job.refused(refusal, place)
    if is_path:
        write_atomically({target: tape[:count].data})
    else:
        _write_all(target, tape[:count].data)


def _write_all(file: Any, data: memoryview) -> None:
    """Writes all of the bytes, also to a file without a buffer, which may take a part of them at a time."""
    written = file.write(data)
    while isinstance(file, io.RawIOBase) and written != len(data):
        if not written:
            raise BlockingIOError("the file takes no more bytes now")
        data = data[written:]
        written = file.write(data)


def _decode(tape: np.ndarray) -> Job:
    refusal, place, answer, buffers = _read(tape, *boundary.read_lengths(tape.size))
    if refusal == 16:  # its size asks for more samples than its bytes can hold: with the longest buffers we are told why
        refusal, place, answer, buffers = _read(tape, *_MAX_LENGTHS)
    if refusal:
        raise Refused(refusal, place)
    codes, weights, flow = buffers
    width, height, weight, low, high = answer.terms
    shape, count = (height, width), boundary.pair_count(width, height)
    return Job(codes[:width * height].reshape(shape), weight, (low, high), answer.quick, answer.steady,
               Pairs.from_flat(weights[:count], shape) if answer.weighted else None,
               Pairs.from_flat(flow[:count], shape) if answer.flowed else None)


def _read(tape: np.ndarray, samples: int, pairs: int) -> Tuple[int, int, boundary.ReadAnswer, List[np.ndarray]]:
    """Refusal, place, numbers and the buffers, of these lengths: codes, weights and flow."""
    buffers: List[np.ndarray] = [np.empty(samples, np.uint8), np.empty(pairs, np.int32), np.empty(pairs, np.int32)]
    return (*boundary.read(tape, *buffers), buffers)
