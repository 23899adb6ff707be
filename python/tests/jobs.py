"""What the package's tests share: random jobs, the cleaning program and the second implementation.

RELIEF_BIN, if set, is the path of the cleaning program, and RELIEF_REFERENCE_BIN the folder of the second implementation's
programs. What is not there makes tests fail, not pass.
"""

import contextlib
import io
import os
import resource
import subprocess
import sys
from pathlib import Path

import numpy as np

import relief
from relief.calls import check_job, clean_job

sys.dont_write_bytecode = True
TOP = Path(__file__).resolve().parents[2]
sys.path.insert(0, str(TOP / "examples"))

PROGRAM = Path(os.environ.get("RELIEF_BIN") or TOP / "target/bin/relief")
REFERENCE = Path(os.environ.get("RELIEF_REFERENCE_BIN") or TOP / "rust/target/release") / "answer-reference"

MAX_WEIGHT = 65280
WEIGHTS = 0, 1, 40, 1024, MAX_WEIGHT
BOXES = (0, 255), (30, 200), (120, 122), (77, 77), (255, 255)


def random_job(rng, shape, weighted=False, flowing=False, weight=None, box=None, rounds=None):
    """A job of this shape. What is not given is chosen: weights and boxes among the least, the largest and others."""
    weight = int(rng.choice(WEIGHTS)) if weight is None else weight
    box = BOXES[rng.integers(len(BOXES))] if box is None else box
    quick, steady = (int(rng.integers(4)), int(rng.integers(12))) if rounds is None else rounds
    codes = random_codes(rng, shape)
    count = 2 * codes.size - sum(shape)
    weights = random_weights(rng, count) if weighted else None
    flowing = flowing and count  # without pairs a tape has no flow records: the job is run
    flow = random_flow(rng, weight if weights is None else weights, count) if flowing else None
    return relief.Job(codes, weight, box, quick, steady, weights, flow)


def random_codes(rng, shape):
    """Any codes, or a few levels with little noise."""
    if rng.integers(2):
        return rng.integers(0, 256, shape, np.uint8)
    return (rng.choice([3, 90, 140, 250], shape) + rng.integers(-3, 4, shape)).astype(np.uint8)


def random_weights(rng, count):
    """A weight for each pair, some 0 and some the largest."""
    weights = rng.integers(0, 2048, count, np.int32)
    weights[rng.random(count) < 0.2] = 0
    weights[rng.random(count) < 0.1] = MAX_WEIGHT
    return weights


def random_flow(rng, weights, count):
    """A flow within the weights, some of it at their ends."""
    weights = np.broadcast_to(np.asarray(weights, np.int32), count)
    flow = rng.integers(-weights, weights, endpoint=True, dtype=np.int32)
    ends = rng.random(count) < 0.2
    flow[ends] = np.where(rng.integers(2, size=count) == 0, -weights, weights)[ends]
    return flow


def check_or_clean(job):
    """What the cleaning program does with a job: checks its flow, or else runs it."""
    return clean_job(job) if job.flow is None else check_job(job)


def tape_of(job):
    """The bytes of a job's tape."""
    file = io.BytesIO()
    relief.write_tape(file, job)
    return file.getvalue()


def figures_of(result):
    """The figures of a result as the cleaning program prints them."""
    return f"{result.outcome} {result.moved} {result.price} {result.floor} {result.slack}"


@contextlib.contextmanager
def limited_memory(more=2**28):
    """The process may take no more bytes than it has and these."""
    before = resource.getrlimit(resource.RLIMIT_AS)
    limit = int(Path("/proc/self/statm").read_text().split()[0]) * resource.getpagesize() + more
    if before[0] != resource.RLIM_INFINITY:
        limit = min(limit, before[0])
    resource.setrlimit(resource.RLIMIT_AS, (limit, before[1]))
    try:
        yield
    finally:
        resource.setrlimit(resource.RLIMIT_AS, before)


def run_program(test, path, data, *arguments):
    """What a program writes for these bytes. A program that is not there is a failure of the test."""
    if not path.is_file():
        test.fail(f"there is no {path}: {_BUILD_HINTS[path]}")
    done = subprocess.run([str(path), *arguments], input=data, capture_output=True)
    test.assertEqual((done.returncode, done.stderr), (0, b""))
    return done.stdout


def clean_tape(test, tape):
    """The cleaning program's words for a tape: figures or refusal, and the image, None where refused."""
    lines = run_program(test, PROGRAM, tape).decode().splitlines()
    if lines[0].startswith("refused"):
        return lines[0], None
    test.assertEqual(lines[0], "outcome moved price floor slack")
    return lines[1], np.array([line.split() for line in lines[2:]], np.int32)


def reference_answer(test, tape, *arguments):
    """The second implementation's words for a tape, and the numbers behind them: image, then flow."""
    line, _, numbers = run_program(test, REFERENCE, tape, *arguments).partition(b"\n")
    return line.decode(), np.frombuffer(numbers, "<i4")


_BUILD_HINTS = {
    PROGRAM: "`bash tools/build.sh relief` makes it, and RELIEF_BIN may name another",
    REFERENCE: "`cargo build --release --offline -p relief-reference` in rust/ makes it, and RELIEF_REFERENCE_BIN may name"
               " the folder of another",
}
