#!/usr/bin/env python3
"""Tests of the picture scripts in examples/ and of tools/quiet.sh.

    python3 tests/scripts.py

RELIEF_BIN, if set, is the path of the cleaning program: pictures then go through it and back, too.
"""

import os
import resource
import signal
import stat
import subprocess
import sys
import tempfile
import unittest
from pathlib import Path

sys.dont_write_bytecode = True
TOP = Path(__file__).resolve().parent.parent
sys.path.insert(0, str(TOP / "examples"))

import answer2pgm  # noqa: E402
import pgm  # noqa: E402

PROGRAM = os.environ.get("RELIEF_BIN")
if PROGRAM:
    PROGRAM = os.path.realpath(PROGRAM)

ANSWER = b"outcome moved price floor slack\nsettled 17 131080 131064 16\n382 386\n"
REFUSED = "the cleaning program refused the job: refused 8 at 0 (README.md lists the refusals)"


class Scripts(unittest.TestCase):
    """Each test has an empty folder, in which the scripts run."""

    def setUp(self):
        folder = tempfile.TemporaryDirectory()
        self.addCleanup(folder.cleanup)
        self.folder = Path(folder.name)

    def run_script(self, name, *words, data=b"", **more):
        command = [sys.executable, "-B", str(TOP / "examples" / name), *words]
        return subprocess.run(command, input=data, capture_output=True, cwd=self.folder, **more)

    def names(self):
        return sorted(path.name for path in self.folder.iterdir())

    def assert_fails(self, message, name, *words, data=b"", **more):
        """One line on standard error, exit status 1, nothing written, no file more."""
        before = {path: path.read_bytes() for path in self.folder.iterdir() if path.is_file()}
        done = self.run_script(name, *words, data=data, **more)
        self.assertEqual(done.stderr.decode(), f"{name.removesuffix('.py')}: {message}\n")
        self.assertEqual((done.returncode, done.stdout), (1, b""))
        self.assertEqual({path: path.read_bytes() for path in self.folder.iterdir() if path.is_file()}, before)

    def tape(self, picture, *words, stderr=""):
        done = self.run_script("pgm2tape.py", *words, data=picture)
        self.assertEqual((done.returncode, done.stderr.decode()), (0, stderr))
        return done.stdout

    def codes(self, picture, **more):
        """The samples of the picture's tape."""
        return list(self.tape(picture, **more)[16:-1:2])


def scaled(file, maxval):
    return (f"pgm2tape: {file}: maxval {maxval}: samples scaled to the codes 0..255, in whose levels weight and box are;"
            f" `answer2pgm.py --maxval {maxval}` scales back\n")


FACADE = ["--low", "30", "--high", "200"]


class Tapes(Scripts):
    def test_sample(self):
        picture = (TOP / "examples/facade.pgm").read_bytes()
        tape = (TOP / "examples/facade.tape").read_bytes()
        self.assertEqual(self.tape(picture, *FACADE), tape)
        done = self.run_script("pgm2tape.py", *FACADE, str(TOP / "examples/facade.pgm"), "out.tape")
        self.assertEqual((done.returncode, done.stdout, done.stderr), (0, b"", b""))
        self.assertEqual((self.folder / "out.tape").read_bytes(), tape)
        self.assertEqual(self.names(), ["out.tape"])

    def test_maxval(self):
        self.assertEqual(self.codes(b"P2 4 1 255\n0 1 128 255\n"), [0, 1, 128, 255])
        self.assertEqual(self.codes(b"P5 4 1 255\n\0\1\x80\xff"), [0, 1, 128, 255])
        self.assertEqual(self.codes(b"P2 4 1 63\n0 1 32 63\n", stderr=scaled("standard input", 63)), [0, 4, 130, 255])
        self.assertEqual(self.codes(b"P5 4 1 63\n\0\1\x20\x3f", stderr=scaled("standard input", 63)), [0, 4, 130, 255])
        self.assertEqual(self.codes(b"P2 2 1 1\n1 0\n", stderr=scaled("standard input", 1)), [255, 0])
        for maxval in 256, 65535:
            for kind in "P2", "P5":
                self.assert_fails(f"standard input: maxval {maxval}: samples of 16 bits are not taken, 255 is the most",
                                  "pgm2tape.py", data=f"{kind} 1 1 {maxval}\n0 ".encode())

    def test_scaling_back(self):
        for maxval in range(1, 256):
            for sample in range(maxval + 1):
                code = pgm.rescaled(sample, maxval, 255)
                self.assertLessEqual(abs(code * maxval - sample * 255), maxval / 2)
                self.assertEqual(answer2pgm.sample(256 * code + 128, maxval), sample)

    def test_comments(self):
        plain = b"P2 # a\n#b\n2 # c\r\n1#d\n\n255 # e\n7 # f\n9\n# g"
        self.assertEqual(self.codes(plain), [7, 9])
        self.assertEqual(self.codes(b"P5\n# made by hand\n2 1\n# once more\n255\n##"), [35, 35])

    def test_faulty_pictures(self):
        for data, message in [
            (b"", "empty, not a PGM picture"),
            (b"P6 1 1 255\n000", "not a PGM picture (P2 or P5)"),
            (b"P5 1 1", "not a PGM picture (P2 or P5)"),
            (b"P2 1 1 255 # open", "0 samples, but 1 x 1 pixels need 1"),
            (b"P5 2 2 255\n123", "3 samples, but 2 x 2 pixels need 4"),
            (b"P2 2 2 255\n1 2 3", "3 samples, but 2 x 2 pixels need 4"),
            (b"P5 2 1 255\n123", "3 samples, but 2 x 1 pixels need 2"),
            (b"P2 0 5 255\n", "0 x 5 pixels of maxval 255: none may be 0"),
            (b"P2 1 1 0\n0", "1 x 1 pixels of maxval 0: none may be 0"),
            (b"P2 2 1 63\n1 64\n", "a sample is not a number from 0 to 63"),
            (b"P5 1 1 63\n\x40", "a sample is not a number from 0 to 63"),
            (b"P2 2 1 255\n1 -1\n", "a sample is not a number from 0 to 255"),
            (b"P2 1 1 255\n" + 9999 * b"1", "a sample is not a number from 0 to 255"),
            (b"P5 4097 1 255\n" + bytes(4097), "4097 pixels: the cleaning program takes 4096 at most"),
        ]:
            with self.subTest(data[:20]):
                self.assert_fails("standard input: " + message, "pgm2tape.py", data=data)
                (self.folder / "in.pgm").write_bytes(data)
                self.assert_fails("in.pgm: " + message, "pgm2tape.py", "in.pgm", "out.tape")

    def test_faulty_terms(self):
        for words, message in [
            (["--low", "256"], "argument --low: 256 is not a whole number from 0 to 255"),
            (["--low", "-1"], "argument --low: -1 is not a whole number from 0 to 255"),
            (["--weight", "65281"], "argument --weight: 65281 is not a whole number from 0 to 65280"),
            (["--quick", "4097"], "argument --quick: 4097 is not a whole number from 0 to 4096"),
            (["--allowance", "x"], "argument --allowance: x is not a whole number from 0 to 65535"),
            (["--low", "9", "--high", "8"], "--low is above --high"),
            (["a", "b", "c"], "unrecognized arguments: c"),
        ]:
            with self.subTest(words):
                self.assert_fails(message, "pgm2tape.py", *words, data=b"P2 1 1 255\n0\n")


class Weights(Scripts):
    """Tapes with a weight for each pair, from a second picture."""

    def weights(self, strengths, *words, size="3 2"):
        """The weights in the tape of a scan of this size, with a picture of how strongly to smooth."""
        (self.folder / "weights.pgm").write_bytes(strengths)
        width, height = map(int, size.split())
        picture = f"P2 {size} 255\n{' '.join(['7'] * width * height)}\n".encode()
        tape = self.tape(picture, "--weights", "weights.pgm", *words)
        start = 15 + 2 * width * height
        self.assertEqual(tape[:start] + tape[-1:], self.tape(picture, *words))
        records = [tape[offset:offset + 3] for offset in range(start, len(tape) - 1, 3)]
        self.assertEqual({record[0] for record in records} | {6}, {6})
        return [int.from_bytes(record[1:], "little") for record in records]

    def test_sample(self):
        words = [*FACADE, "--weights", str(TOP / "examples/facade-weights.pgm")]
        tape = self.tape((TOP / "examples/facade.pgm").read_bytes(), *words)
        self.assertEqual(tape, (TOP / "examples/facade-joints.tape").read_bytes())
        self.assertLessEqual(len(tape), 65536)
        for words, name in [([], "facade.pgm"), (["--weights"], "facade-weights.pgm")]:
            done = self.run_script("make_facade.py", *words)
            self.assertEqual((done.returncode, done.stderr), (0, b""))
            self.assertEqual(done.stdout, (TOP / "examples" / name).read_bytes())

    def test_smaller_of_two(self):
        """Pixels 0 to 5 with the one below, then each row's with the one to the right."""
        strengths = b"P2 3 2 255\n255 100 0\n90 255 255\n"
        self.assertEqual(self.weights(strengths, "--weight", "255"), [90, 100, 0, 100, 0, 90, 255])
        self.assertEqual(self.weights(strengths), [361, 401, 0, 401, 0, 361, 1024])
        self.assertEqual(self.weights(strengths, "--weight", "65280"),
                         [23040, 25600, 0, 25600, 0, 23040, 65280])
        self.assertEqual(self.weights(strengths, "--weight", "0"), 7 * [0])

    def test_maxval(self):
        """White is the whole weight on every scale, and no picture is scaled first."""
        for maxval in 1, 63, 254, 255:
            white = pgm.text([[maxval] * 3] * 2, maxval).encode()
            self.assertEqual(self.weights(white, "--weight", "65280"), 7 * [65280])
        self.assertEqual(self.weights(b"P5 2 1 1\n\0\1", size="2 1"), [0])
        self.assertEqual(self.weights(b"P2 2 1 3\n2 3\n", "--weight", "100", size="2 1"), [66])

    def test_few_pairs(self):
        self.assertEqual(self.weights(b"P2 1 1 255\n9\n", size="1 1"), [])
        self.assertEqual(self.weights(b"P2 1 3 4\n4 1 2\n", size="1 3"), [256, 256])

    def test_most_pairs(self):
        white = b"P5 64 64 1\n" + bytes(4096 * [1])
        self.assertEqual(self.weights(white, size="64 64"), 8064 * [1024])

    def test_standard_input(self):
        """Either picture may come from it, but not both."""
        scan, white = b"P2 2 1 255\n0 2\n", b"P2 2 1 1\n1 1\n"
        for name, data in ("scan.pgm", scan), ("white.pgm", white):
            (self.folder / name).write_bytes(data)
        tape = self.tape(scan, "--weights", "white.pgm")
        self.assertEqual(self.tape(white, "--weights", "-", "scan.pgm"), tape)
        for words in ["--weights", "-"], ["--weights", "-", "-", "out.tape"]:
            self.assert_fails("picture and --weights are both standard input", "pgm2tape.py", *words, data=scan)

    def test_faulty_pictures(self):
        for data, message in [
            (b"", "empty, not a PGM picture"),
            (b"P6 1 1 255\n000", "not a PGM picture (P2 or P5)"),
            (b"P2 2 1 63\n1 64\n", "a sample is not a number from 0 to 63"),
            (b"P2 2 1 256\n0 0\n", "maxval 256: samples of 16 bits are not taken, 255 is the most"),
            (b"P2 1 2 255\n0 0\n", "1 x 2 pixels, but the scan has 2 x 1"),
            (b"P2 2 2 255\n0 0 0 0\n", "2 x 2 pixels, but the scan has 2 x 1"),
            (b"P2 1 1 255\n0\n", "1 x 1 pixels, but the scan has 2 x 1"),
        ]:
            with self.subTest(data[:20]):
                (self.folder / "weights.pgm").write_bytes(data)
                self.assert_fails("weights.pgm: " + message, "pgm2tape.py", "--weights", "weights.pgm", "-", "out.tape",
                                  data=b"P2 2 1 255\n0 2\n")
        self.assert_fails("no/such: No such file or directory", "pgm2tape.py", "--weights", "no/such",
                          data=b"P2 2 1 255\n0 2\n")
        self.assert_fails("standard input: empty, not a PGM picture", "pgm2tape.py", "--weights", "no/such")

    @unittest.skipUnless(PROGRAM, "RELIEF_BIN is not set")
    def test_black_keeps_its_reading(self):
        """The sample's joints come out as they were scanned, with weights and not without."""
        scan, weights = (pgm.read((TOP / "examples" / name).read_bytes())[0]
                         for name in ("facade.pgm", "facade-weights.pgm"))
        for tape, kept in ("facade-joints.tape", True), ("facade.tape", False):
            with open(TOP / "examples" / tape, "rb") as file:
                answer = subprocess.run([PROGRAM], stdin=file, capture_output=True, check=True).stdout
            rows = answer2pgm.read(answer)[1]
            joints = [(value, 256 * sample + 128) for row, samples, strengths in zip(rows, scan, weights, strict=True)
                      for value, sample, strength in zip(row, samples, strengths, strict=True) if strength == 0]
            self.assertEqual(len(joints), 476)
            self.assertEqual(all(value == reading for value, reading in joints), kept)


class Pictures(Scripts):
    def picture(self, *words, answer=ANSWER):
        done = self.run_script("answer2pgm.py", *words, data=answer)
        self.assertEqual(done.returncode, 0)
        self.assertEqual(done.stderr, b"".join(answer.splitlines(keepends=True)[:2]))
        return done.stdout

    def test_maxval(self):
        self.assertEqual(self.picture(), b"P2\n2 1\n255\n1 1\n")
        self.assertEqual(self.picture("--maxval", "65535"), b"P2\n2 1\n65535\n382 386\n")
        answer = b"outcome moved price floor slack\nspent 0 1 -1 2\n0 255 256\n65279 65280 65535\n"
        self.assertEqual(self.picture(answer=answer), b"P2\n3 2\n255\n0 0 1\n254 255 255\n")
        self.assertEqual(self.picture("--maxval", "1", answer=answer), b"P2\n3 2\n1\n0 0 0\n1 1 1\n")
        for maxval in "0", "65536", "-1", "x":
            self.assert_fails(f"argument --maxval: {maxval} is not a whole number from 1 to 65535",
                              "answer2pgm.py", "--maxval", maxval, data=ANSWER)

    def test_a_code_covers_its_level(self):
        for code in range(256):
            for value in range(256 * code, 256 * code + 256):
                self.assertEqual(answer2pgm.sample(value, 255), code)
                self.assertEqual(answer2pgm.sample(value, 65535), value)

    def test_faulty_answers(self):
        heading = ANSWER[:ANSWER.index(b"382")]
        for data, message in [
            (b"", "empty, not an answer of the cleaning program"),
            (b"refused 8 at 0\n", REFUSED),
            (b"\1\2\0\xff", "not an answer of the cleaning program"),
            (b"outcome moved price floor slack\n", "not an answer of the cleaning program"),
            (b"outcome moved price floor slack\nsettled 1 2\n0\n", "not an answer of the cleaning program"),
            (heading, "the answer is cut off"),
            (ANSWER[:-1], "the answer is cut off"),
            (heading + b"1 2\n3\n", "the rows of image values differ in length"),
            (heading + b"\n", "the rows of image values differ in length"),
            (heading + b"65536\n", "an image value is not a number from 0 to 65535"),
            (heading + b"x\n", "an image value is not a number from 0 to 65535"),
        ]:
            with self.subTest(data[-20:]):
                self.assert_fails("standard input: " + message, "answer2pgm.py", data=data)
                (self.folder / "in.txt").write_bytes(data)
                self.assert_fails("in.txt: " + message, "answer2pgm.py", "in.txt", "out.pgm")

    @unittest.skipUnless(PROGRAM, "RELIEF_BIN is not set")
    def test_through_the_program(self):
        for maxval in 1, 63, 254, 255:
            text = pgm.text([[0, maxval // 3, maxval], [maxval, 1, maxval // 2]], maxval).encode()
            stderr = scaled("standard input", maxval) if maxval < 255 else ""
            tape = self.tape(text, "--weight", "0", stderr=stderr)
            answer = subprocess.run([PROGRAM], input=tape, capture_output=True, check=True).stdout
            self.assertEqual(self.picture("--maxval", str(maxval), answer=answer), text)

    @unittest.skipUnless(PROGRAM, "RELIEF_BIN is not set")
    def test_refusal_of_the_program(self):
        answer = subprocess.run([PROGRAM], input=b"", capture_output=True, check=True).stdout
        self.assert_fails("standard input: the cleaning program refused the job: refused 18 at 0"
                          " (README.md lists the refusals)", "answer2pgm.py", data=answer)


class Files(Scripts):
    def test_missing(self):
        for name in "pgm2tape.py", "answer2pgm.py":
            self.assert_fails("no/such: No such file or directory", name, "no/such", "out")
            self.assert_fails(".: Is a directory", name, ".", "out")

    def test_unwritable(self):
        (self.folder / "in").write_bytes(ANSWER)
        self.assert_fails("no/out: No such file or directory", "answer2pgm.py", "in", "no/out")
        self.assert_fails("in/out: Not a directory", "answer2pgm.py", "in", "in/out")
        self.assert_fails(".: Is a directory", "answer2pgm.py", "in", ".")
        if os.path.exists("/dev/full"):
            self.assert_fails("/dev/full: No space left on device", "answer2pgm.py", "in", "/dev/full")
            with open("/dev/full", "wb") as full:
                command = [sys.executable, "-B", str(TOP / "examples/answer2pgm.py"), "in"]
                done = subprocess.run(command, stdout=full, stderr=subprocess.PIPE, cwd=self.folder)
            self.assertEqual(done.stderr, b"answer2pgm: standard output: No space left on device\n")
            self.assertEqual(done.returncode, 1)

    @unittest.skipUnless(os.geteuid(), "root may write every file")
    def test_not_permitted(self):
        (self.folder / "in").write_bytes(ANSWER)
        (self.folder / "out").write_bytes(b"kept")
        (self.folder / "out").chmod(0o444)
        self.assert_fails("out: Permission denied", "answer2pgm.py", "in", "out")

    def test_half_written(self):
        """A limit on the size of files ends the writing half way."""
        (self.folder / "in").write_bytes(ANSWER)
        (self.folder / "out").write_bytes(b"kept")

        def limit():
            signal.signal(signal.SIGXFSZ, signal.SIG_IGN)
            resource.setrlimit(resource.RLIMIT_FSIZE, (5, 5))

        for target in "out", "new":
            self.assert_fails(f"{target}: File too large", "answer2pgm.py", "in", target, preexec_fn=limit)

    def test_replaced(self):
        (self.folder / "in").write_bytes(ANSWER)
        (self.folder / "out").write_bytes(b"earlier")
        (self.folder / "out").chmod(0o640)
        (self.folder / "link").symlink_to("out")
        done = self.run_script("answer2pgm.py", "in", "link")
        self.assertEqual((done.returncode, done.stdout), (0, b""))
        self.assertEqual((self.folder / "out").read_bytes(), b"P2\n2 1\n255\n1 1\n")
        self.assertEqual(stat.S_IMODE((self.folder / "out").stat().st_mode), 0o640)
        self.assertTrue((self.folder / "link").is_symlink())
        self.assertEqual(self.names(), ["in", "link", "out"])


class Quiet(Scripts):
    def run_quiet(self, command):
        words = ["bash", str(TOP / "tools/quiet.sh"), "logs/a.log", "sh", "-c", command]
        return subprocess.run(words, capture_output=True, text=True, cwd=self.folder)

    def test_success(self):
        done = self.run_quiet("echo one; echo two >&2")
        self.assertEqual((done.returncode, done.stdout, done.stderr), (0, "", ""))
        self.assertEqual((self.folder / "logs/a.log").read_text(), "one\ntwo\n")

    def test_failure(self):
        done = self.run_quiet("echo one; echo two >&2; exit 3")
        self.assertEqual((done.returncode, done.stdout), (3, ""))
        self.assertTrue(done.stderr.startswith("one\ntwo\nfailed with exit status 3: sh "))


if __name__ == "__main__":
    unittest.main()
