"""Tapes: written and read back, and files that are whole or as they were."""

import contextlib
import dataclasses
import io
import itertools
import os
import resource
import stat
import struct
import tempfile
import types
import unittest
from pathlib import Path
from unittest import mock

import numpy as np

import relief
from jobs import MAX_WEIGHT, TOP, check_or_clean, figures_of, limited_memory, random_job, tape_of
from relief.calls import check_job

import pgm2tape  # of examples/, which jobs has put on the path

CODES = np.array([[0, 2, 100], [7, 7, 7]], np.uint8)
FLOW = np.zeros(7, np.int32)
JOB = relief.Job(CODES, 256, (0, 255), 3, 5)


class Tapes(unittest.TestCase):
    """Each test has an empty folder."""

    def setUp(self):
        folder = tempfile.TemporaryDirectory()
        self.addCleanup(folder.cleanup)
        self.folder = Path(folder.name)

    def contents(self):
        """The bytes of each file in the folder."""
        return {path.name: path.read_bytes() for path in self.folder.iterdir() if path.is_file()}

    def assert_same_job(self, job, other):
        """Two jobs are alike in every field."""
        np.testing.assert_array_equal(job.codes, other.codes)
        self.assertEqual((job.shape, job.weight, job.box, job.quick, job.steady),
                         (other.shape, other.weight, other.box, other.quick, other.steady))
        for pairs, others in (job.weights, other.weights), (job.flow, other.flow):
            self.assertEqual(pairs is None, others is None)
            if pairs is not None:
                self.assertEqual((pairs.shape, pairs.flat.tolist()), (others.shape, others.flat.tolist()))


class Bytes(Tapes):
    def test_round_trip(self):
        """A job written and read is that job, and its tape written again has its bytes."""
        rng = np.random.default_rng(50)
        for shape in (1, 2), (2, 1), (1, 7), (6, 1), (2, 2), (5, 8), (33, 31):
            for weighted, flowing in itertools.product([False, True], repeat=2):
                job = random_job(rng, shape, weighted, flowing)
                with self.subTest(job=job):
                    tape = tape_of(job)
                    again = relief.read_tape(tape)
                    self.assert_same_job(again, job)
                    self.assertEqual(tape_of(again), tape)

    def test_ends_of_the_ranges(self):
        for terms in (0, (0, 0), 0, 0), (MAX_WEIGHT, (255, 255), 4096, 65535), (258, (1, 254), 772, 1286):
            job = relief.Job(CODES, *terms, FLOW + MAX_WEIGHT, FLOW - MAX_WEIGHT)
            self.assert_same_job(relief.read_tape(tape_of(job)), job)

    def test_one_pixel(self):
        """Without pairs there are no records of them: weights and flow of no pair read back as none."""
        codes, none = np.array([[9]], np.uint8), np.zeros(0, np.int32)
        tape = tape_of(relief.Job(codes, 5, (0, 255), 1, 2, none, none))
        self.assertEqual(tape, b"\1\1\0\1\0" b"\2\5\0\0\xff" b"\3\1\0\2\0" b"\4\x09" b"\0")
        self.assert_same_job(relief.read_tape(tape), relief.Job(codes, 5, (0, 255), 1, 2))

    def test_layout(self):
        """The README's table of records, by examples/pgm2tape.py and by hand."""
        weights, flow = np.arange(7) * 300, np.array([-1, 2, -300, 4, 500, -6, 1800])
        terms = types.SimpleNamespace(weight=513, low=3, high=250, quick=258, allowance=772)
        for own in [], weights.tolist():
            job = relief.Job(CODES, 513, (3, 250), 258, 772, own or None)
            self.assertEqual(tape_of(job), pgm2tape.tape(CODES.tolist(), own, terms))
        flow = np.minimum(abs(flow), weights) * np.sign(flow)
        tape = tape_of(relief.Job(CODES, 513, (3, 250), 258, 772, weights, flow))
        records = b"".join(struct.pack("<Bi", 5, number) for number in flow)
        self.assertEqual(tape, pgm2tape.tape(CODES.tolist(), weights.tolist(), terms)[:-1] + records + b"\0")

    def test_examples(self):
        for name in "two-by-one", "two-by-one-flow", "facade", "facade-joints":
            data = (TOP / f"examples/{name}.tape").read_bytes()
            self.assertEqual(tape_of(relief.read_tape(data)), data)
        with self.assertRaises(relief.Refused) as caught:  # a season is no tape of one job
            relief.read_tape(TOP / "examples/season.tape")
        self.assertEqual((caught.exception.number, caught.exception.place), (15, 20))

    def test_largest(self):
        job = random_job(np.random.default_rng(51), (1024, 1024), True, True)
        path = self.folder / "a.tape"
        relief.write_tape(path, job)
        self.assertEqual(path.stat().st_size, 18858000)
        again = relief.read_tape(path)
        np.testing.assert_array_equal(again.codes, job.codes)
        np.testing.assert_array_equal(again.weights.flat, job.weights.flat)
        np.testing.assert_array_equal(again.flow.flat, job.flow.flat)

    def test_flow_of_a_result(self):
        """A result's own flow on a tape is checked with the result's figures."""
        result = relief.clean(CODES, 256, (0, 255), 3, 5, FLOW + 200)
        job = relief.read_tape(tape_of(dataclasses.replace(result.job, flow=result.flow)))
        self.assertEqual(job.quick, 3)
        self.assertEqual(figures_of(check_job(job)).split()[2:], figures_of(result).split()[2:])
        np.testing.assert_array_equal(check_or_clean(job).image, result.image)

    def test_larger_than_its_bytes(self):
        """A tape that names more pixels than its bytes can hold is cut or unfinished, 13 or 18; 16 is never met."""
        tapes = [tape_of(relief.Job(np.zeros(shape, np.uint8), 5, (0, 255), flow=np.zeros(count, np.int32)))
                 for shape, count in [((9, 9), 144), ((1, 4096), 4095), ((80, 70), 11050)]]
        met = set()
        for tape in tapes:
            for end in [*range(16, 40), *range(40, len(tape), 997), len(tape) - 2, len(tape) - 1]:
                with self.assertRaises(relief.Refused) as caught:
                    relief.read_tape(tape[:end])
                refused = caught.exception
                self.assertIn(refused.number, (13, 18))
                self.assertTrue(refused.place == end if refused.number == 18 else end - 5 < refused.place < end)
                met.add(refused.number)
        self.assertEqual(met, {13, 18})
        for size in (1024, 1024), (4096, 256), (1, 4096):
            with self.assertRaises(relief.Refused) as caught:
                relief.read_tape(struct.pack("<BHH", 1, *size))
            self.assertEqual((caught.exception.number, caught.exception.place), (18, 5))


class Sources(Tapes):
    def test_read(self):
        """From a path, a file and bytes of every kind."""
        tape = tape_of(JOB)
        path = self.folder / "a.tape"
        path.write_bytes(tape)
        for source in str(path), path, tape, bytearray(tape), memoryview(tape), io.BytesIO(tape):
            self.assert_same_job(relief.read_tape(source), JOB)
        for buffering in 0, -1:
            with open(path, "rb", buffering=buffering) as file:
                self.assert_same_job(relief.read_tape(file), JOB)
        data = bytearray(tape)
        job = relief.read_tape(data)
        data[:] = bytes(len(data))  # the job keeps nothing of the bytes
        self.assert_same_job(job, JOB)

    def test_longer_file(self):
        """Of a file that is far longer than any tape, no more is read than is needed to refuse it."""
        path = self.folder / "a.tape"
        path.write_bytes(tape_of(JOB))
        os.truncate(path, 2**33)  # zeros behind the tape, which take no room
        with limited_memory(), self.assertRaises(relief.Refused) as caught:
            relief.read_tape(path)
        self.assertEqual((caught.exception.number, caught.exception.place), (15, len(tape_of(JOB))))

    def test_read_faults(self):
        for name, kind in ("no/such", FileNotFoundError), ("", IsADirectoryError):
            path = os.path.join(self.folder, name)
            with self.assertRaises(kind) as caught:
                relief.read_tape(path)
            self.assertEqual(caught.exception.filename, path)
        for source in None, 5, [1, 2], JOB, np.zeros(20):
            with self.assertRaisesRegex(TypeError, "a tape is read from a name, a file or bytes, not from "):
                relief.read_tape(source)
        with self.assertRaises(TypeError):
            relief.read_tape(io.StringIO("text"))

    def test_written(self):
        """To a path and to a file, by the same bytes."""
        tape = tape_of(JOB)
        for target in str(self.folder / "a"), self.folder / "b":
            self.assertIsNone(relief.write_tape(target, JOB))
        for name, buffering in ("c", 0), ("d", -1):
            with open(self.folder / name, "wb", buffering=buffering) as file:
                relief.write_tape(file, JOB)
                relief.write_tape(file, JOB)  # a season of two
        self.assertEqual(self.contents(), {"a": tape, "b": tape, "c": 2 * tape, "d": 2 * tape})

    def test_write_faults(self):
        for target in None, 5, b"name":
            with self.assertRaisesRegex(TypeError, "a tape is written to a name or a file, not to "):
                relief.write_tape(target, JOB)
        with self.assertRaises(TypeError):
            relief.write_tape(io.StringIO(), JOB)


@contextlib.contextmanager
def file_limit(limit):
    """No file grows beyond so many bytes: the writing ends half way, as on a full disk. (Python ignores SIGXFSZ.)"""
    before = resource.getrlimit(resource.RLIMIT_FSIZE)
    resource.setrlimit(resource.RLIMIT_FSIZE, (limit, before[1]))
    try:
        yield
    finally:
        resource.setrlimit(resource.RLIMIT_FSIZE, before)


class Files(Tapes):
    def assert_fails(self, kind, name, job=JOB, message=""):
        """An OSError that names the path as it was given; every file is as it was, and there is none more."""
        before = self.contents()
        for path in os.path.join(self.folder, name), self.folder / name:
            with self.assertRaisesRegex(kind, message) as caught:
                relief.write_tape(path, job)
            if kind is not relief.Refused:
                self.assertEqual(caught.exception.filename, os.fspath(path))
            self.assertEqual(self.contents(), before)

    def test_refused(self):
        """A job that is refused writes nothing."""
        (self.folder / "old").write_bytes(b"kept")
        for number, job in [
            (2, relief.Job(CODES, 65281, (0, 255))),
            (2, relief.Job(CODES, 5, (0, 255), weights=FLOW - 1)),
            (3, relief.Job(CODES, 5, (9, 8))),
            (8, relief.Job(CODES, 5, (0, 255), flow=FLOW + 6)),
            (10, relief.Job(CODES, 5, (0, 255), 4097)),
        ]:
            for name in "old", "new", "no/such":
                self.assert_fails(relief.Refused, name, job, f"refused {number} ")
            file = io.BytesIO()
            self.assertRaises(relief.Refused, relief.write_tape, file, job)
            self.assertEqual(file.getvalue(), b"")

    def test_full(self):
        """On a full disk the former file stays, and nothing is left over."""
        (self.folder / "old").write_bytes(b"kept")
        with file_limit(5):
            for name in "old", "new":
                self.assert_fails(OSError, name, message="File too large")
        relief.write_tape(self.folder / "old", JOB)
        self.assertEqual(self.contents(), {"old": tape_of(JOB)})

    def test_full_file(self):
        """A file that takes only a part is an error, with a buffer or without one."""
        for buffering in 0, -1:
            with self.assertRaisesRegex(OSError, "File too large"):
                with file_limit(5), open(self.folder / "new", "wb", buffering=buffering) as file:
                    relief.write_tape(file, JOB)

    def test_small_pieces(self):
        """A file without a buffer may take its bytes a few at a time."""

        class Slow(io.RawIOBase):
            taken = b""

            def writable(self):
                return True

            def write(self, data):
                self.taken += bytes(data[:3])
                return len(bytes(data[:3]))

        slow = Slow()
        relief.write_tape(slow, JOB)
        self.assertEqual(slow.taken, tape_of(JOB))

    def test_unwritable(self):
        (self.folder / "file").write_bytes(b"kept")
        self.assert_fails(FileNotFoundError, "no/such", message="No such file or directory")
        self.assert_fails(NotADirectoryError, "file/such", message="Not a directory")
        (self.folder / "sub").mkdir()
        self.assert_fails(IsADirectoryError, "sub", message="Is a directory")
        if os.path.exists("/dev/full"):
            self.assert_fails(OSError, "/dev/full", message="not a regular file")
        self.assertEqual(os.listdir(self.folder / "sub"), [])

    @unittest.skipUnless(os.geteuid(), "root may write every file")
    def test_not_permitted(self):
        (self.folder / "old").write_bytes(b"kept")
        (self.folder / "old").chmod(0o444)
        self.assert_fails(PermissionError, "old")

    def test_interrupted(self):
        (self.folder / "old").write_bytes(b"kept")
        for function in "os.fsync", "os.replace":
            for name in "old", "new":
                with mock.patch(function, side_effect=KeyboardInterrupt), self.assertRaises(KeyboardInterrupt):
                    relief.write_tape(self.folder / name, JOB)
                self.assertEqual(self.contents(), {"old": b"kept"})

    def test_replaced(self):
        """Mode and links stay."""
        (self.folder / "old").write_bytes(b"former")
        (self.folder / "old").chmod(0o640)
        (self.folder / "link").symlink_to("old")
        relief.write_tape(self.folder / "link", JOB)
        self.assertEqual((self.folder / "old").read_bytes(), tape_of(JOB))
        self.assertEqual(stat.S_IMODE((self.folder / "old").stat().st_mode), 0o640)
        self.assertTrue((self.folder / "link").is_symlink())
        self.assertEqual(sorted(os.listdir(self.folder)), ["link", "old"])


if __name__ == "__main__":
    unittest.main()
