"""The command relief-raster, as a user runs it: in a process of its own where signals, terminals or rights matter."""

import contextlib
import csv
import ctypes
import io
import logging
import os
import pty
import re
import resource
import signal
import stat
import subprocess
import sys
import tempfile
import threading
import time
import unittest
import warnings
from fractions import Fraction
from pathlib import Path
from unittest import mock

import numpy as np
from PIL import Image

import relief
from relief import files
from relief.command import main, progress
from relief.command.report import COLUMNS
from relief.formatting import format_bounds, format_figures
from relief.pictures import read_picture

TOP = Path(__file__).resolve().parents[2]
GREY = np.random.default_rng(1).integers(60, 190, (24, 32), dtype=np.uint8)
TERMS = ["--weight", "640", "--box", "70:180"]
ROUNDS = ["--quick", "7", "--steady", "9"]
ADVICE = ("width or height is not 1 to 4,096, or there are over 1,048,576 pixels; cut the raster into pieces of at most"
          " 1,048,576 pixels, no side over 4,096; the guarantee then holds for each piece by itself, not for the pieces put"
          " together")


def cleaned(codes, **more):
    """What the library makes of codes with the terms and rounds above."""
    return relief.clean(codes, 640, (70, 180), 7, 9, **more)


def pgm_bytes(samples, maxval=255):
    """A PGM picture."""
    height, width = samples.shape
    return b"P5\n%d %d\n%d\n" % (width, height, maxval) + samples.astype(np.uint8).tobytes()


def result_line(name, result):
    """What the command says of a result."""
    return f"{name}: {format_figures(result)}; {format_bounds(result)}\n"


class Command(unittest.TestCase):
    """Each test has an empty folder, in which the command runs."""

    def setUp(self):
        folder = tempfile.TemporaryDirectory()
        self.addCleanup(folder.cleanup)
        self.folder = Path(folder.name)
        self.addCleanup(os.chdir, os.getcwd())
        os.chdir(self.folder)

    def write(self, name, data):
        path = self.folder / name
        path.parent.mkdir(exist_ok=True)
        path.write_bytes(data)
        return name

    def scan(self, name="a.pgm", samples=GREY):
        return self.write(name, pgm_bytes(samples))

    def main(self, *words):
        """Status, standard output and standard error of the command, in this process."""
        streams = [io.TextIOWrapper(io.BytesIO(), "utf-8", write_through=True) for _ in range(2)]
        with contextlib.redirect_stdout(streams[0]), contextlib.redirect_stderr(streams[1]):
            try:
                status = main(list(words))
            except SystemExit as exit:
                status = exit.code
        return status, *(stream.buffer.getvalue().decode() for stream in streams)

    def start(self, *words, **more):
        """A process of the command."""
        env = {**os.environ, "PYTHONPATH": str(TOP / "python"), "PYTHONUNBUFFERED": "", **more.pop("env", {})}
        return subprocess.Popen([sys.executable, "-B", "-m", "relief", *words], env=env, **more)

    def run_process(self, *words, **more):
        """Status, standard output and standard error of a process of the command."""
        with self.start(*words, stdout=subprocess.PIPE, stderr=subprocess.PIPE, **more) as process:
            said = process.communicate()
        return process.returncode, *(text.decode() for text in said)

    def names(self, folder="."):
        return sorted(os.listdir(folder))

    def rows(self, path="report.csv"):
        with open(path, newline="", encoding="utf-8", errors="surrogateescape") as file:
            table = csv.DictReader(file)
            rows = list(table)
        self.assertEqual(table.fieldnames, COLUMNS)
        return rows

    def tree(self):
        """Every file with its bytes."""
        return {path: path.read_bytes() for path in sorted(self.folder.rglob("*")) if path.is_file()}

    def assert_fails(self, message, *words, status=1, summary=""):
        """One line of a fault, and nothing written."""
        before = self.tree()
        self.assertEqual(self.main(*words), (status, "", f"relief-raster: {message}\n{summary}"))
        self.assertEqual(self.tree(), before)


class Clean(Command):
    def test_formats(self):
        """Each form comes out as the library's image; its flow is accepted, and its price is the one that was told."""
        image = Image.fromarray(GREY)
        image.save("b.png", dpi=(300, 300))
        image.save("c.tif", compression="tiff_lzw", dpi=(96, 96))
        self.scan()
        self.write("d.pgm", pgm_bytes(GREY // 4, 63))
        scans = ["a.pgm", "b.png", "c.tif", "d.pgm"]
        status, out, err = self.main("clean", *scans, "-o", "new/out", *TERMS, *ROUNDS, "--save-flow")
        self.assertEqual(self.names("new/out"), sorted(scans + [f"{name[0]}.flow.npy" for name in scans]))
        self.assertEqual((status, err), (0, "relief-raster: d.pgm: maxval 63: samples scaled to the codes 0 to 255, in whose"
                                            " levels weight and box are\nrelief-raster: 4 of 4 scans cleaned\n"))
        lines = out.splitlines(keepends=True)
        for name, line in zip(scans, lines, strict=True):
            before, after = read_picture(name), read_picture(f"new/out/{name}")
            result = cleaned(before.codes)
            self.assertEqual(line, result_line(name, result))
            self.assertEqual(after.samples.tolist(), result.codes(before.maxval).tolist())
            self.assertEqual((after.format, after.maxval, after.metadata), (before.format, before.maxval, before.metadata))
            flow = f"new/out/{name[0]}.flow.npy"
            saved = np.load(flow)
            self.assertEqual((saved.tolist(), saved.dtype), (result.flow.flat.tolist(), np.int32))
            checked = line.replace(f"{result.outcome}, moved {result.moved},", "checked, moved 0,")
            self.assertEqual(self.main("check", name, "--flow", flow, *TERMS)[:2], (0, checked))
            np.save("image.npy", result.image)
            self.assertEqual(self.main("price", name, "image.npy", *TERMS)[:2], (0, f"image.npy: price {result.price}\n"))
            price = relief.price(before.codes, 256 * after.codes.astype(int) + 128, 640, (0, 255))
            self.assertEqual(self.main("price", name, f"new/out/{name}", "--weight", "640", "--box", "0:255")[:2],
                             (0, f"new/out/{name}: price {price}\n"))

    def test_defaults(self):
        """The rounds of the library's own defaults; one scan needs no summary."""
        result = relief.clean(GREY, 640, (70, 180))
        words = ["clean", self.scan(), "-o", "out", *TERMS, "--report", "report.csv"]
        self.assertEqual(self.main(*words), (0, result_line("a.pgm", result), ""))
        self.assertEqual([(row["quick"], row["steady"]) for row in self.rows()], [(str(relief.QUICK), str(relief.STEADY))])
        self.assertEqual(self.names("out"), ["a.pgm"])

    def test_weights(self):
        """A weight picture: the weights are those of Python, whatever its maxval."""
        strengths = np.full(GREY.shape, 63, np.uint8)
        strengths[:, 9] = 0
        strengths[5] = 50
        self.write("w.pgm", pgm_bytes(strengths, 63))
        weights = relief.weights_from_picture(strengths, 640, 63)
        result = cleaned(GREY, weights=weights)
        words = [*TERMS, "--weights", "w.pgm"]
        status, out, err = self.main("clean", self.scan(), "-o", "out", *words, *ROUNDS, "--save-flow", "--report", "r.csv")
        self.assertEqual((status, out, err), (0, result_line("a.pgm", result), ""))
        self.assertNotEqual(result.price, cleaned(GREY).price)
        self.assertEqual(self.rows("r.csv")[0]["weights"], "w.pgm")
        status, out, _ = self.main("check", "a.pgm", "--flow", "out/a.flow.npy", *words)
        self.assertIn(f"price {result.price}, floor {result.floor}, slack {result.slack};", out)
        np.save("image.npy", result.image)
        self.assertEqual(self.main("price", "a.pgm", "image.npy", *words), (0, f"image.npy: price {result.price}\n", ""))
        self.assertEqual(self.main("check", "a.pgm", "--flow", "out/a.flow.npy", *TERMS[:1], "1", *TERMS[2:])[0], 1)

    def test_faulty_weights(self):
        """A weight picture that is none ends the command; one of another size is a fault of each scan."""
        self.scan()
        self.write("w.pgm", b"P2 1 1 255\n256\n")
        self.assert_fails("w.pgm: a sample is not a number from 0 to 255", "clean", "a.pgm", "-o", "out", *TERMS,
                          "--weights", "w.pgm")
        self.assertFalse(os.path.exists("out"))
        self.write("w.pgm", b"P2 1 2 255\n5 6\n")
        wrong = "the weight picture has 1 x 2 pixels, but the scan has 32 x 24"
        self.assert_fails(f"a.pgm: {wrong}", "clean", "a.pgm", "-o", "out", *TERMS, "--weights", "w.pgm",
                          summary="relief-raster: 0 of 1 scans cleaned, 1 at fault\n")
        np.save("image.npy", np.zeros(GREY.shape, int))
        for words in ["price", "a.pgm", "image.npy"], ["check", "a.pgm", "--flow", "image.npy"]:
            self.assert_fails(f"w.pgm: {wrong}", *words, *TERMS, "--weights", "w.pgm")

    def test_report(self):
        """A row for each scan: figures as in Python, bounds that are never below, and what is wrong."""
        parts = {"a.pgm": GREY, "b.pgm": GREY[:2, :5], **{f"{size}.pgm": GREY[:size, :size] for size in range(8, 20)}}
        for name, codes in parts.items():
            self.scan(name, codes)
        self.write("bad.pgm", b"some text")
        start = time.perf_counter()
        words = ["clean", "bad.pgm", *parts, "-o", "out", *TERMS, *ROUNDS, "--report", "report.csv"]
        self.assertEqual(self.main(*words)[0], 1)
        rows = self.rows()
        self.assertEqual([row["file"] for row in rows], ["bad.pgm", *parts])
        terms = dict(weight="640", low="70", high="180", quick="7", steady="9", weights="")
        for row, codes in zip(rows[1:], parts.values(), strict=True):
            result = cleaned(codes)
            due = dict(terms, height=codes.shape[0], width=codes.shape[1], outcome=result.outcome, moved=result.moved,
                       price=result.price, floor=result.floor, slack=result.slack, fault="")
            self.assertEqual({name: row[name] for name in due}, {name: str(value) for name, value in due.items()})
            for name, pixels in ("rms_bound", codes.size), ("pixel_bound", 1):
                bound, square = Fraction(row[name]), Fraction(result.slack, pixels * 65536)
                self.assertGreaterEqual(bound**2, square)
                self.assertLessEqual(max(bound - Fraction(2, 10**6), 0)**2, square)
            self.assertLess(float(row["seconds"]), time.perf_counter() - start)
        due = dict.fromkeys(COLUMNS, "")
        due.update(terms, file="bad.pgm", fault="not a PGM (P2 or P5), PNG or TIFF picture")
        self.assertEqual(rows[0], due)

    def test_picture(self):
        """Before, after, difference and the error column, of scans of any shape, without a warning."""
        from matplotlib.text import Text
        for name, samples in ("a.pgm", GREY), ("b.pgm", GREY[:, :1]), ("c.pgm", GREY[:1]):
            self.scan(name, samples)
        status, _, err = self.main("clean", "a.pgm", "b.pgm", "c.pgm", "-o", "out", *TERMS, *ROUNDS, "--picture")
        self.assertEqual((status, err), (0, "relief-raster: 3 of 3 scans cleaned\n"))
        self.assertFalse(logging.getLogger("matplotlib").isEnabledFor(logging.WARNING))  # as that its cache is elsewhere
        for name in "abc":
            with Image.open(f"out/{name}.picture.png") as image:
                image.load()
                self.assertEqual(image.format, "PNG")
                for side in image.size:
                    self.assertTrue(400 <= side <= 2400, image.size)
                self.assertGreater(len(image.convert("RGB").getcolors(2**24)), 50)
        result = cleaned(GREY)
        words = " ".join(" ".join(text.get_text() for text in result.plot().findobj(Text)).split())
        for part in (format_figures(result), format_bounds(result), "weight 640, box 70 to 180", "scan", "cleaned",
                     "cleaned − scan"):
            self.assertIn(part, words)

    def test_replaced(self):
        """What is there already is replaced, and keeps its rights; a link is followed."""
        self.scan()
        for name in "out/a.pgm", "out/a.flow.npy", "kept.csv":
            self.write(name, b"earlier")
            os.chmod(name, 0o640)
        os.symlink("kept.csv", "report.csv")
        status, _, err = self.main("clean", "a.pgm", "-o", "out", *TERMS, *ROUNDS, "--save-flow", "--report", "report.csv")
        self.assertEqual((status, err), (0, ""))
        self.assertEqual(Path("out/a.pgm").read_bytes(), pgm_bytes(cleaned(GREY).codes()))
        self.assertEqual(np.load("out/a.flow.npy").tolist(), cleaned(GREY).flow.flat.tolist())
        self.assertEqual(len(self.rows("kept.csv")), 1)
        self.assertTrue(os.path.islink("report.csv"))
        for name in "out/a.pgm", "out/a.flow.npy", "kept.csv":
            self.assertEqual(stat.S_IMODE(os.stat(name).st_mode), 0o640)
        self.assertEqual(self.names("out") + self.names(), ["a.flow.npy", "a.pgm", "a.pgm", "kept.csv", "out", "report.csv"])

    def test_not_replaced(self):
        """No picture that is read is written over, by whatever name, nor an output by another."""
        self.scan()
        os.mkdir("out")
        os.symlink("../a.pgm", "out/b.pgm")
        self.scan("b.pgm")
        summary = "relief-raster: 0 of 1 scans cleaned, 1 at fault\n"
        read = "would replace a picture that is read: name another folder"
        self.assert_fails(f"a.pgm: not cleaned, for ./a.pgm {read}", "clean", "a.pgm", "-o", ".", *TERMS, summary=summary)
        self.assert_fails(f"a.pgm: not cleaned, for out/../a.pgm {read}", "clean", "a.pgm", "-o", "out/..", *TERMS,
                          summary=summary)
        self.assert_fails(f"b.pgm: not cleaned, for ./b.pgm {read}", "clean", "b.pgm", "-o", ".", *TERMS, "--weights", "a.pgm",
                          summary=summary)
        self.assert_fails("a.pgm: the report would replace a picture that is read", "clean", "a.pgm", "-o", "out", *TERMS,
                          "--report", "a.pgm")
        status, out, err = self.main("clean", "a.pgm", "b.pgm", "-o", "out", *TERMS, *ROUNDS)
        self.assertEqual((status, out), (1, result_line("a.pgm", cleaned(GREY))))
        self.assertEqual(err, f"relief-raster: b.pgm: not cleaned, for out/b.pgm {read}\n"
                              "relief-raster: 1 of 2 scans cleaned, 1 at fault\n")

    def test_one_name(self):
        """Of two scans with one name, or of one with the report's, the first is written."""
        for name in "x/a.pgm", "y/a.pgm", "y/a.tif", "y/r.pgm":
            self.scan(name)
        Image.fromarray(255 - GREY).save("y/a.tif")
        self.write("x/r.pgm", b"P5 cut")
        status, out, err = self.main("clean", "x/r.pgm", "y/r.pgm", "-o", "first", *TERMS, *ROUNDS)
        self.assertEqual((status, out), (1, result_line("y/r.pgm", cleaned(GREY))))  # a faulty one takes no name
        other = "is the report or another scan's: clean it into another folder"
        status, out, err = self.main("clean", "x/a.pgm", "y/a.pgm", "y/a.tif", "y/r.pgm", "-o", "out", *TERMS, *ROUNDS,
                                     "--save-flow", "--report", "out/r.pgm")
        self.assertEqual((status, out), (1, result_line("x/a.pgm", cleaned(GREY))))
        self.assertEqual(err.splitlines(), [f"relief-raster: y/a.pgm: not cleaned, for out/a.pgm {other}",
                                            f"relief-raster: y/a.tif: not cleaned, for out/a.flow.npy {other}",
                                            f"relief-raster: y/r.pgm: not cleaned, for out/r.pgm {other}",
                                            "relief-raster: 1 of 4 scans cleaned, 3 at fault"])
        self.assertEqual(len(self.rows("out/r.pgm")), 4)
        self.assertEqual(self.names("out"), ["a.flow.npy", "a.pgm", "r.pgm"])

    def test_unwritable(self):
        """A folder or a report that cannot be written is told before anything is cleaned."""
        self.scan()
        self.write("file", b"")
        os.mkdir("there")
        self.assert_fails("file: File exists", "clean", "a.pgm", "-o", "file", *TERMS)
        self.assert_fails("file/out: Not a directory", "clean", "a.pgm", "-o", "file/out", *TERMS)
        self.assert_fails("no/r.csv: No such file or directory", "clean", "a.pgm", "-o", "out", *TERMS, "--report", "no/r.csv")
        self.assert_fails("there: Is a directory", "clean", "a.pgm", "-o", "out", *TERMS, "--report", "there")
        self.assert_fails("/dev/null: not a regular file", "clean", "a.pgm", "-o", "out", *TERMS, "--report", "/dev/null")
        os.mkdir("out/a.pgm")
        self.assert_fails("a.pgm: out/a.pgm: Is a directory", "clean", "a.pgm", "-o", "out", *TERMS, *ROUNDS,
                          summary="relief-raster: 0 of 1 scans cleaned, 1 at fault\n")
        name = self.scan(250 * "x" + ".pgm")
        self.assert_fails(f"{name}: out/{name[:-4]}.flow.npy: File name too long", "clean", name, "-o", "out", *TERMS,
                          *ROUNDS, "--save-flow", summary="relief-raster: 0 of 1 scans cleaned, 1 at fault\n")

    def test_report_lost(self):
        """A report that can no longer be written is told once, and the scans are cleaned all the same."""
        names = [self.scan(f"{letter}.pgm") for letter in "abc"]
        os.mkdir("reports")

        def lose(*_):
            if os.path.exists("reports/r.csv"):
                os.unlink("reports/r.csv")
                os.rmdir("reports")
            return GREY

        with mock.patch("relief.command.clean.require_same_size", lose):
            status, out, err = self.main("clean", *names, "-o", "out", *TERMS, *ROUNDS, "--report", "reports/r.csv")
        self.assertEqual((status, out), (1, "".join(result_line(name, cleaned(GREY)) for name in names)))
        self.assertEqual(err, "relief-raster: reports/r.csv: No such file or directory\n"
                              "relief-raster: 3 of 3 scans cleaned\n")
        self.assertEqual(self.names("out"), names)


class Faults(Command):
    def test_options(self):
        """The library's words, before any file is looked at."""
        for words, message in [
            (["--weight", "65281", "--box", "0:255"],
             "refused 2 at 0: a weight is not 0 to 65,280; give weights of 0 to 65,280"),
            (["--weight", "9" * 10, "--box", "0:255"], "argument --weight: '9999999999' is not a whole number of 0 or more"),
            (["--weight", "-1", "--box", "0:255"], "argument --weight: '-1' is not a whole number of 0 or more"),
            (["--weight", "x", "--box", "0:255"], "argument --weight: 'x' is not a whole number of 0 or more"),
            (["--weight", "640", "--box", "9:8"], "refused 3 at 0: low is above high; swap the ends of the box"),
            (["--weight", "640", "--box", "0:256"], "the high end of box is 256: it must be 0 to 255"),
            (["--weight", "640", "--box", "0"], "argument --box: '0' is not LOW:HIGH, such as 0:255"),
            (["--weight", "640", "--box", "0:1:2"], "argument --box: '1:2' is not a whole number of 0 or more"),
            (["--weight", "640"], "the following arguments are required: --box"),
            (["--box", "0:255"], "the following arguments are required: --weight"),
            ([*TERMS, "--quick", "4097"],
             "refused 10 at 0: there are over 4,096 quick rounds; ask for at most 4,096 quick rounds"),
            ([*TERMS, "--steady", "65536"], "steady is 65536: it must be 0 to 65,535"),
        ]:
            with self.subTest(words):
                status, out, err = self.main("clean", "no/such", "-o", "out", *words)
                self.assertEqual((status, out), (2, ""))
                self.assertEqual(err.splitlines()[-1], f"relief-raster clean: error: {message}")
                self.assertEqual(self.names(), [])
        for words in ([], ["x"], ["clean"], ["clean", "-o", "out", *TERMS], ["clean", "a.pgm", *TERMS],
                      ["check", "a.pgm", *TERMS], ["price", "a.pgm", *TERMS]):
            self.assertEqual(self.main(*words)[:2], (2, ""))

    def test_check_and_price(self):
        """One line for whichever file is at fault."""
        self.scan()
        size = 23 * 32 + 24 * 31
        np.save("flow.npy", np.full(size, 641))
        np.save("short.npy", np.zeros(7, int))
        np.save("float.npy", np.zeros(size))
        np.save("object.npy", np.array([None]))
        np.save("high.npy", np.full(GREY.shape, 60000))
        np.savez("zip.npz", np.zeros(size, int))
        whole = Path("flow.npy").read_bytes()
        self.write("cut.npy", whole[:500])
        self.write("empty.npy", b"")
        self.write("zip.npy", Path("zip.npz").read_bytes()[:99])
        for name, message in [
            ("flow.npy", "refused 8 at 0 (flow.down[0, 0]): "),
            ("short.npy", "flow has shape (7,): (1480,) is needed"),
            ("float.npy", "flow has dtype float64: whole numbers, best int32, are needed"),
            ("high.npy", "flow has shape (24, 32): "),
            ("object.npy", "not a whole .npy file of numbers"),
            ("cut.npy", "not a whole .npy file of numbers"),
            ("empty.npy", "not a whole .npy file of numbers"),
            ("zip.npy", "not a whole .npy file of numbers"),
            ("zip.npz", "not a whole .npy file of numbers"),
            ("a.pgm", "not a whole .npy file of numbers"),
            ("no/such", "No such file or directory"),
        ]:
            with self.subTest(name):
                status, out, err = self.main("check", "a.pgm", "--flow", name, *TERMS)
                self.assertEqual((status, out, err.count("\n")), (1, "", 1))
                self.assertTrue(err.startswith(f"relief-raster: {name}: {message}"), err)
        self.write("scaled.pgm", pgm_bytes(GREY // 2, 127))
        self.assertIn("scaled.pgm: maxval 127: samples scaled", self.main("price", "a.pgm", "scaled.pgm", *TERMS)[2])
        for scan, name, message in [
            ("a.pgm", "high.npy", "high.npy: refused 9 at 0 (image[0, 0]): "),
            ("a.pgm", "a.pgm", "a.pgm: refused 9 at "),
            ("a.pgm", "short.npy", "short.npy: image has shape (7,): (24, 32) is needed"),
            ("a.pgm", "cut.npy", "cut.npy: not a whole .npy file"),
            ("a.pgm", "no.pgm", "no.pgm: No such file or directory"),
            ("cut.npy", "a.pgm", "cut.npy: not a PGM (P2 or P5), PNG or TIFF picture"),
            ("no.pgm", "a.pgm", "no.pgm: No such file or directory"),
        ]:
            with self.subTest(scan=scan, name=name):
                status, out, err = self.main("price", scan, name, *TERMS)
                self.assertEqual((status, out, err.count("\n")), (1, "", 1))
                self.assertTrue(err.startswith(f"relief-raster: {message}"), err)

    def test_damaged_arrays(self):
        """Whatever byte of a flow's heading is damaged, there is an answer or one line."""
        self.scan()
        whole = np.save("flow.npy", np.zeros(1480, np.int32)) or Path("flow.npy").read_bytes()
        for place in range(128):
            self.write("bad.npy", whole[:place] + bytes([whole[place] ^ 1 << place % 7]) + whole[place + 1:])
            status, out, err = self.main("check", "a.pgm", "--flow", "bad.npy", *TERMS)
            self.assertEqual((out + err).count("\n"), 1)
            self.assertEqual(status, 1 if err else 0)

    def test_large(self):
        """The advice to cut, and the warning of what the guarantee then holds for."""
        self.write("large.pgm", b"P5 1025 1024 255\n")
        due = f"relief-raster: large.pgm: refused 1 at 0 (1025 x 1024 pixels): {ADVICE}\n"
        summary = "relief-raster: 0 of 1 scans cleaned, 1 at fault\n"
        self.assertEqual(self.main("clean", "large.pgm", "-o", "out", *TERMS), (1, "", due + summary))
        self.assertEqual(self.main("price", "large.pgm", "large.pgm", *TERMS), (1, "", due))

    def test_batch(self):
        """Bad files of every kind among good ones, with odd names, for a user who may not read one of them."""
        good = ["first.pgm", "with spaces.pgm", "new\nline.pgm", os.fsdecode(b"\xff\xfe.pgm"), "-dash.pgm", "last.pgm"]
        for name in good:
            self.scan(name)
        image = Image.fromarray(GREY)
        image.save("whole.png")
        image.save("whole.tif", compression="tiff_lzw")
        image.convert("RGB").save("colour.png")
        image.convert("RGB").save("colour.tif")
        Image.fromarray(GREY.astype(np.uint16)).save("deep.png")
        Image.fromarray(GREY.astype(np.uint16)).save("deep.tif")
        self.write("cut.png", Path("whole.png").read_bytes()[:-20])
        self.write("cut.tif", Path("whole.tif").read_bytes()[:-20])
        self.write("cut.pgm", pgm_bytes(GREY)[:-1])
        self.write("text\n.pgm", b"some text\n")
        self.write(os.fsdecode(b"empty\xff.png"), b"")
        self.write("large.pgm", b"P5 1025 1024 255\n")
        self.scan("locked.pgm")
        os.chmod("locked.pgm", 0)
        os.mkdir("folder")
        none = "not a PGM (P2 or P5), PNG or TIFF picture"
        bad = {"text\n.pgm": none, os.fsdecode(b"empty\xff.png"): "empty, not a picture",
               "cut.png": "cut off or damaged, not a whole PNG picture",
               "cut.tif": "cut off or damaged, not a whole TIFF picture",
               "cut.pgm": "767 samples, but 32 x 24 pixels need 768",
               "colour.png": "has colour: save it as a grey picture", "colour.tif": "has colour: save it as a grey picture",
               "deep.png": "has 16 bits for a sample: save it with 8", "deep.tif": "has 16 bits for a sample: save it with 8",
               "missing.pgm": "No such file or directory", "folder": "Is a directory", "locked.pgm": "Permission denied",
               "large.pgm": f"refused 1 at 0 (1025 x 1024 pixels): {ADVICE}"}
        scans = good[:3] + list(bad) + good[3:]
        status, out, err = self.run_process("clean", "-o", "out", *TERMS, *ROUNDS, "--report", "report.csv", "--", *scans,
                                            preexec_fn=without_rights)
        shown = {name: name.replace("\n", "\\n").replace("\udcff", "\\udcff").replace("\udcfe", "\\udcfe") for name in scans}
        self.assertEqual(out, "".join(result_line(shown[name], cleaned(GREY)) for name in good))
        self.assertEqual(err.splitlines(), [f"relief-raster: {shown[name]}: {fault}" for name, fault in bad.items()]
                         + ["relief-raster: 6 of 19 scans cleaned, 13 at fault"])
        self.assertEqual(status, 1)
        self.assertEqual(self.names("out"), sorted(good))
        for name in good:
            self.assertEqual(Path("out", name).read_bytes(), pgm_bytes(cleaned(GREY).codes()))
        rows = self.rows()
        self.assertEqual([row["file"] for row in rows], scans)
        self.assertEqual([row["fault"] for row in rows], [bad.get(name, "") for name in scans])
        self.assertEqual([bool(row["price"]) for row in rows], [name in good for name in scans])

    def test_no_rights(self):
        """A folder or a file that may not be written."""
        self.scan()
        self.write("kept/a.pgm", b"kept")
        os.chmod("kept/a.pgm", 0o444)
        os.mkdir("closed")
        os.chmod("closed", 0o555)
        before, summary = self.tree(), "relief-raster: 0 of 1 scans cleaned, 1 at fault\n"
        for folder, fault in ("closed/new", "closed/new: Permission denied\n"), (
                "closed", f"a.pgm: closed/a.pgm: Permission denied\n{summary}"), (
                "kept", f"a.pgm: kept/a.pgm: Permission denied\n{summary}"):
            words = ["clean", "a.pgm", "-o", folder, *TERMS, *ROUNDS]
            self.assertEqual(self.run_process(*words, preexec_fn=without_rights), (1, "", f"relief-raster: {fault}"))
        self.assertEqual(self.tree(), before)

    def test_disk_full(self):
        """A limit on the size of files ends the writing half way: what was there is kept, and nothing is left over."""
        for name in "a.pgm", "b.pgm":
            self.scan(name)
        self.scan("small.pgm", GREY[:3, :3])
        self.write("out/a.pgm", b"kept")

        def limit():
            signal.signal(signal.SIGXFSZ, signal.SIG_IGN)
            resource.setrlimit(resource.RLIMIT_FSIZE, (500, 500))

        status, out, err = self.run_process("clean", "a.pgm", "small.pgm", "b.pgm", "-o", "out", *TERMS, *ROUNDS,
                                            "--report", "report.csv", preexec_fn=limit)
        self.assertEqual((status, out), (1, result_line("small.pgm", cleaned(GREY[:3, :3]))))
        self.assertEqual(err.splitlines(), ["relief-raster: a.pgm: out/a.pgm: File too large",
                                            "relief-raster: b.pgm: out/b.pgm: File too large",
                                            "relief-raster: 1 of 3 scans cleaned, 2 at fault"])
        self.assertEqual(self.names("out"), ["a.pgm", "small.pgm"])
        self.assertEqual(Path("out/a.pgm").read_bytes(), b"kept")
        self.assertEqual(self.names(), ["a.pgm", "b.pgm", "out", "report.csv", "small.pgm"])
        self.assertEqual([row["file"] for row in self.rows()], ["a.pgm", "small.pgm", "b.pgm"])


def without_rights():
    """Takes away what lets root read and write every file: CAP_DAC_OVERRIDE and CAP_DAC_READ_SEARCH."""
    for capability in 1, 2:
        ctypes.CDLL(None).prctl(24, capability, 0, 0, 0)


class Signals(Command):
    """The command is ended by a signal: it dies of it within a second, and what is written is whole."""

    def setUp(self):
        super().setUp()
        for number in signal.SIGINT, signal.SIGTERM, signal.SIGHUP:  # whoever runs the tests may ignore one, as nohup does
            previous = signal.signal(number, signal.SIG_DFL)
            self.addCleanup(signal.signal, number, previous)
        self.scan("small.pgm")
        self.scan("other.pgm")
        self.write("large.pgm", pgm_bytes(np.random.default_rng(2).integers(0, 256, (1024, 1024), dtype=np.uint8)))

    def long_run(self):
        """A batch whose second scan takes minutes, while that one is cleaned."""
        words = ["clean", "small.pgm", "large.pgm", "other.pgm", "-o", "out", *TERMS, "--quick", "4096", "--steady", "65535",
                 "--report", "report.csv", "--save-flow"]
        process = self.start(*words, stdout=subprocess.PIPE, stderr=subprocess.PIPE)
        self.addCleanup(self.kill_process, process)
        self.assertTrue(process.stdout.readline().startswith(b"small.pgm: "))
        time.sleep(0.2)
        self.assertIsNone(process.poll())
        return process

    def kill_process(self, process):
        if process.poll() is None:
            process.kill()
        process.communicate()

    def assert_dies_by_signal(self, process, number):
        """Sends the signal, of which the process dies within a second; what it still says."""
        start = time.perf_counter()
        process.send_signal(number)
        out, err = process.communicate(timeout=10)
        self.assertLess(time.perf_counter() - start, 1)
        self.assertEqual(process.returncode, -number)
        return out.decode(), err.decode()

    def test_long_run(self):
        due = cleaned(GREY)
        for number in signal.SIGINT, signal.SIGTERM, signal.SIGHUP, signal.SIGKILL:
            with self.subTest(number):
                out, err = self.assert_dies_by_signal(self.long_run(), number)
                killed = number == signal.SIGKILL
                self.assertEqual(out, "")
                self.assertEqual(err, "" if killed else "relief-raster: interrupted; 1 of 3 scans are cleaned, and what is"
                                                        " written is whole\n")
                self.assertEqual(self.names("out"), ["small.flow.npy", "small.pgm"])
                self.assertEqual(read_picture("out/small.pgm").samples.shape, due.image.shape)
                self.assertEqual([row["file"] for row in self.rows()], ["small.pgm"])
                self.assertEqual(self.names(), ["large.pgm", "other.pgm", "out", "report.csv", "small.pgm"])

    def test_between_files(self):
        """Those that were told are whole and in the report; those not reached are absent."""
        names = [f"{number}.pgm" for number in range(2000)]
        for name in names:
            os.link("small.pgm", name)
        for number, lines in (signal.SIGINT, 1), (signal.SIGTERM, 20):
            out = f"out{lines}"
            process = self.start("clean", *names, "-o", out, *TERMS, *ROUNDS, "--report", "report.csv",
                                 stdout=subprocess.PIPE, stderr=subprocess.PIPE)
            self.addCleanup(self.kill_process, process)
            told = [process.stdout.readline().decode() for _ in range(lines)]
            text, err = self.assert_dies_by_signal(process, number)
            told += text.splitlines(keepends=True)
            done = self.names(out)
            self.assertEqual(told, [result_line(name, cleaned(GREY)) for name in names[:len(told)]])
            self.assertIn(len(done) - len(told), (0, 1))
            self.assertEqual(set(done), set(names[:len(done)]))
            self.assertLess(len(done), 2000)
            for name in done:
                self.assertEqual(Path(out, name).read_bytes(), pgm_bytes(cleaned(GREY).codes()))
            rows = self.rows()
            self.assertEqual([row["file"] for row in rows], names[:len(rows)])
            self.assertIn(len(rows), (len(told), len(done)))
            self.assertIn(f"interrupted; {len(rows)} of 2000 scans are cleaned", err)

    def test_ignored(self):
        """A signal that the caller ignores, as nohup does, stays ignored."""
        process = self.start("clean", "small.pgm", "large.pgm", "-o", "out", *TERMS, "--quick", "80", "--steady", "0",
                             stdout=subprocess.PIPE, stderr=subprocess.PIPE,
                             preexec_fn=lambda: signal.signal(signal.SIGHUP, signal.SIG_IGN))
        self.assertTrue(process.stdout.readline().startswith(b"small.pgm: "))
        process.send_signal(signal.SIGHUP)
        out, err = process.communicate()
        self.assertTrue(out.startswith(b"large.pgm: "))
        self.assertEqual((process.returncode, err), (0, b"relief-raster: 2 of 2 scans cleaned\n"))

    def interrupted(self, *words):
        """Runs a batch here, in which a signal comes; its figures are in the report, and the command dies of it."""
        previous = {number: signal.getsignal(number) for number in (signal.SIGINT, signal.SIGTERM, signal.SIGHUP)}
        with mock.patch("relief.command.die_by_signal") as die_by_signal:
            _, _, err = self.main("clean", "small.pgm", "other.pgm", "-o", "out", *words, "--report", "report.csv")
        die_by_signal.assert_called_once_with(signal.SIGTERM)
        for number, handler in previous.items():
            self.assertEqual(signal.signal(number, handler), signal.SIG_IGN)  # until it has died
        names = [row["file"] for row in self.rows()]
        self.assertEqual(self.names("out"), sorted(names))
        self.assertIn(f"interrupted; {len(names)} of 2 scans are cleaned", err)
        return names

    def test_lost(self):
        """A signal whose exception is lost, as in a destructor: at the next occasion it is raised again."""
        def lose(*_):
            with contextlib.suppress(BaseException):
                signal.raise_signal(signal.SIGTERM)

        with mock.patch("relief.command.clean.require_same_size", lose):
            self.assertEqual(self.interrupted(*TERMS, "--quick", "4096", "--steady", "65535"), [])
        with mock.patch("relief.command.clean.print_result", lambda text: lose() if "other" in text else None):
            self.assertEqual(self.interrupted(*TERMS, *ROUNDS), ["small.pgm", "other.pgm"])

    def test_killed_while_writing(self):
        """Nothing takes its place before all is written: the names hold what they held."""
        self.write("out/one", b"old one")
        child = os.fork()
        if not child:
            os.fsync = lambda _: len(os.listdir("out")) == 3 and os.kill(os.getpid(), signal.SIGKILL)
            files.write_atomically({"out/one": b"new one", "out/two": b"new two"})
            os._exit(0)
        self.assertEqual(os.waitpid(child, 0)[1], signal.SIGKILL)
        names = self.names("out")
        self.assertEqual((len(names), names[2]), (3, "one"))
        self.assertEqual(Path("out/one").read_bytes(), b"old one")

    def test_report(self):
        """A signal while the report is written: it has the row of the scan that was cleaned, and of no other."""
        calls = []

        def write_and_interrupt(outputs):
            calls.append(outputs)
            if len(calls) == 2:
                signal.raise_signal(signal.SIGTERM)
            files.write_atomically(outputs)

        with mock.patch("relief.command.report.write_atomically", write_and_interrupt):
            self.assertEqual(self.interrupted(*TERMS, *ROUNDS), ["small.pgm"])

    def test_every_moment(self):
        """Files that are written together, interrupted at each line of that: whole or as before, and no other left."""
        class Stop(BaseException):
            pass

        outputs = {"one": b"new one", "two": b"new two", "three": b"new three"}

        def interrupted(moment):
            """Whether the writing was interrupted at this moment."""
            left = [moment]

            def trace(frame, event, _):
                if frame.f_code.co_filename != files.__file__:
                    return None
                left[0] -= event == "line"
                if not left[0]:
                    left[0] = -1
                    raise Stop
                return trace

            sys.settrace(trace)
            try:
                files.write_atomically(outputs)
            except Stop:
                return True
            finally:
                sys.settrace(None)
            return False

        os.mkdir("here")
        os.chdir("here")
        with mock.patch("os.fsync"), warnings.catch_warnings():
            warnings.simplefilter("ignore", ResourceWarning)  # a file that was opened and not yet entered
            for moment in range(1, 1000):
                self.write("here/one", b"old one")
                self.write("here/two", b"old two")
                if os.path.exists("three"):
                    os.unlink("three")
                went_on = interrupted(moment)
                names = self.names()
                self.assertIn(names, (["one", "two"], ["one", "three", "two"]))
                for name in names:
                    self.assertIn(Path(name).read_bytes(), (outputs[name], b"old " + name.encode()))
                if not went_on:
                    break
        self.assertGreater(moment, 40)
        self.assertEqual({name: Path(name).read_bytes() for name in self.names()}, outputs)


class Streams(Command):
    def on_terminal(self, *words):
        """Standard output, and what a terminal of 60 columns at standard error gets."""
        ours, theirs = pty.openpty()
        process = self.start(*words, stdout=subprocess.PIPE, stderr=theirs, env={"COLUMNS": "500"},
                             preexec_fn=lambda: set_columns(theirs, 60))
        os.close(theirs)
        shown = []

        def watch():
            with contextlib.suppress(OSError):  # the end
                while True:
                    shown.append(os.read(ours, 4096))

        watching = threading.Thread(target=watch)
        watching.start()
        out = process.communicate()[0]
        watching.join()
        os.close(ours)
        self.assertEqual(process.returncode, 0)
        return out.decode(), b"".join(shown).decode()

    def test_terminal(self):
        """After a second: the number of the file and the share of the time, in one line that is taken away."""
        name = "a long name " * 3 + ".pgm"
        self.scan("small.pgm")
        samples = np.random.default_rng(2).integers(0, 256, (1024, 1024), dtype=np.uint8)
        self.write(name, pgm_bytes(samples))
        rounds = min(int(1000 * 2.2 / progress.estimate_seconds(samples, 1000, 0)), 4096)  # some two seconds
        out, shown = self.on_terminal("clean", "small.pgm", name, "-o", "out", *TERMS, "--quick", str(rounds),
                                      "--steady", "0")
        self.assertEqual([line.split(":")[0] for line in out.splitlines()], ["small.pgm", name])
        *steps, last = shown.split("\r\x1b[K")
        self.assertEqual(last, "relief-raster: 2 of 2 scans cleaned\r\n")
        self.assertEqual(steps.pop(0), "")
        self.assertIn("% of at", "".join(steps))
        shares = []
        for step in steps:
            self.assertLess(len(step), 60)
            found = re.match(re.escape(f"[2/2] {name}: ") + r"(?:(\d+) % of at|reading|(writing))", step)
            self.assertTrue(found, step)
            shares.append(100 if found[2] else int(found[1] or 0))
        self.assertEqual(shares, sorted(shares))

    def test_short_on_terminal(self):
        self.scan()
        self.assertEqual(self.on_terminal("clean", "a.pgm", "-o", "out", *TERMS, *ROUNDS),
                         (result_line("a.pgm", cleaned(GREY)), ""))

    def test_share(self):
        """Never all of it before the end, and no division by an estimate of nothing."""
        self.assertEqual(progress.format_share(0.5, 2), "25 % of at most about 2.0 s")
        self.assertEqual(progress.format_share(9, 2), "99 % of at most about 2.0 s")
        self.assertEqual(progress.format_share(9, 0), "99 % of at most about 0.1 s")
        self.assertGreater(progress.estimate_seconds(GREY[:1, :1], 4096, 65535), 0)
        self.assertEqual(progress.estimate_seconds(GREY, 0, 0), 0)

    def test_nobody_reads(self):
        """A pipe that is closed, a full disk behind standard output, and closed streams: no traceback."""
        self.scan("a.pgm")
        self.scan("b.pgm")
        batch = ["clean", "a.pgm", "b.pgm", "-o", "out", *TERMS, *ROUNDS, "--report", "report.csv"]
        for words in batch, ["--help"]:
            ours, theirs = os.pipe()
            os.close(ours)
            with self.start(*words, stdout=theirs, stderr=subprocess.PIPE) as process:
                os.close(theirs)
                self.assertEqual(process.communicate()[1], b"")
            self.assertEqual(process.returncode, 1)
        self.assertEqual((self.names("out"), [row["file"] for row in self.rows()]), (["a.pgm"], ["a.pgm"]))
        with open("/dev/full", "wb") as full:
            with self.start(*batch, stdout=full, stderr=subprocess.PIPE) as process:
                self.assertEqual(process.communicate()[1], b"relief-raster: standard output: No space left on device\n")
        self.assertEqual(process.returncode, 1)
        with self.start(*batch, preexec_fn=lambda: os.closerange(0, 3)) as process:
            pass
        self.assertEqual(process.returncode, 0)
        self.assertEqual(self.names("out"), ["a.pgm", "b.pgm"])
        self.assertEqual(len(self.rows()), 2)

    def test_help(self):
        """An example for each command, and no line that does not fit a terminal."""
        with mock.patch.dict(os.environ, COLUMNS="80"):
            for words in [], ["clean"], ["check"], ["price"]:
                status, out, err = self.main(*words, "--help")
                self.assertEqual((status, err), (0, ""))
                self.assertLessEqual(max(map(len, out.splitlines())), 80)
                if words:
                    self.assertIn(f"example:\n  relief-raster {words[0]} ", out)
                for command in "clean", "check", "price":
                    self.assertIn(command, out if not words else command)

    def test_version(self):
        header = (TOP / "include/relief.h").read_text()
        version = re.search(r'RELIEF_VERSION_STRING "(.*)"', header)[1]
        self.assertEqual(self.run_process("--version"), (0, f"relief-raster {version}\n", ""))


def set_columns(terminal, columns):
    """Gives a terminal its width."""
    import fcntl
    import struct
    import termios
    fcntl.ioctl(terminal, termios.TIOCSWINSZ, struct.pack("HHHH", 24, columns, 0, 0))


if __name__ == "__main__":
    unittest.main()
