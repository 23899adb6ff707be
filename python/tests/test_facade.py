"""The command on the sample façade at 1,024 x 1,024, with its own rounds, beside the same in Python."""

import csv
import os
import re
import subprocess
import sys
import tempfile
import unittest
from fractions import Fraction
from pathlib import Path

import numpy as np
from PIL import Image

import relief
from relief.formatting import format_bounds, format_figures
from relief.pictures import read_picture

TOP = Path(__file__).resolve().parents[2]


class Facade(unittest.TestCase):
    def test_facade(self):
        with tempfile.TemporaryDirectory() as folder:
            scan = Path(folder, "facade.pgm")
            with open(scan, "wb") as file:
                subprocess.run([sys.executable, "-B", str(TOP / "examples/make_facade.py"), "--size", "1024x1024", "--scale",
                                "16"], stdout=file, check=True)
            words = ["clean", "facade.pgm", "-o", "out", "--weight", "640", "--box", "0:255", "--report", "report.csv",
                     "--picture", "--save-flow"]
            done = subprocess.run([sys.executable, "-B", "-m", "relief", *words], cwd=folder, capture_output=True, text=True,
                                  env={**os.environ, "PYTHONPATH": str(TOP / "python")})
            self.assert_same_answer(Path(folder), read_picture(scan), done)

    def assert_same_answer(self, folder, scan, done):
        """What the command says and writes is what Python gives; a long run says nothing more in a pipe."""
        result = relief.clean(scan.codes, weight=640, box=(0, 255))
        self.assertEqual((done.returncode, done.stderr), (0, ""))
        self.assertEqual(done.stdout, f"facade.pgm: {format_figures(result)}; {format_bounds(result)}\n")
        self.assertEqual(sorted(os.listdir(folder / "out")), ["facade.flow.npy", "facade.pgm", "facade.picture.png"])
        after = read_picture(folder / "out/facade.pgm")
        self.assertTrue(np.array_equal(after.samples, result.codes()))
        self.assertTrue(np.array_equal(np.load(folder / "out/facade.flow.npy"), result.flow.flat))
        with Image.open(folder / "out/facade.picture.png") as picture:
            picture.load()
            self.assertTrue(all(500 <= side <= 2400 for side in picture.size), picture.size)
        with open(folder / "report.csv", newline="", encoding="utf-8") as file:
            row, = csv.DictReader(file)
        due = dict(file="facade.pgm", width=1024, height=1024, weight=640, low=0, high=255, quick=relief.QUICK,
                   steady=relief.STEADY, weights="", outcome=result.outcome, moved=result.moved, price=result.price,
                   floor=result.floor, slack=result.slack, fault="")
        self.assertEqual({name: row[name] for name in due}, {name: str(value) for name, value in due.items()})
        self.assertGreaterEqual(Fraction(row["rms_bound"])**2 * scan.samples.size * 65536, result.slack)
        self.assertGreaterEqual(Fraction(row["pixel_bound"])**2 * 65536, result.slack)
        self.assertTrue(re.fullmatch(r"\d+\.\d{3}", row["seconds"]))
        self.assertEqual(result.outcome, "settled")


if __name__ == "__main__":
    unittest.main()
