"""What the guides show: their code runs, and their figures are the command's."""

import contextlib
import io
import os
import re
import shutil
import subprocess
import sys
import tempfile
import unittest
from pathlib import Path

import numpy as np
from PIL import Image

import relief
from jobs import TOP
from relief.command import main
from relief.pictures import read_picture


class Guides(unittest.TestCase):
    """In a folder with the guides' wall, which tools/guide_pictures.py draws."""

    def setUp(self):
        folder = tempfile.mkdtemp()
        self.addCleanup(shutil.rmtree, folder)
        self.addCleanup(os.chdir, os.getcwd())
        os.chdir(folder)
        words = [sys.executable, "-B", str(TOP / "examples/make_facade.py"), "--size", "256x192", "--scale", "4"]
        Path("wall.pgm").write_bytes(subprocess.run(words, stdout=subprocess.PIPE, check=True).stdout)
        self.codes = read_picture("wall.pgm").codes
        Image.fromarray(self.codes).save("wall.png")

    def test_practice(self):
        """The line that the command prints, and the noise."""
        guide = (TOP / "docs/guides/practice.md").read_text()
        said = io.StringIO()
        with contextlib.redirect_stdout(said):
            self.assertEqual(main("clean wall.png -o cleaned --weight 640 --box 0:255".split()), 0)
        self.assertIn(" ".join(said.getvalue().split()), " ".join(guide.split()))
        noise = re.search(r"-c '(import sys, numpy.*?)' wall.png", guide, re.DOTALL)[1]
        printed = subprocess.run([sys.executable, "-c", re.sub(r"\n *", "\n", noise), "wall.png"], stdout=subprocess.PIPE,
                                 check=True).stdout
        self.assertAlmostEqual(float(printed), 5, delta=0.5)

    def test_universities(self):
        """The code, from the first piece to the last, with a flow and joints that stand for the reader's."""
        guide = (TOP / "docs/guides/universities.md").read_text()
        pieces = re.findall(r"```python\n(.*?)```", guide, re.DOTALL)
        self.assertGreater(len(pieces), 5)
        own = relief.clean(self.codes, 640, (0, 255), quick=30, steady=0)
        names = {"down": own.flow.down, "right": own.flow.right}
        said = io.StringIO()
        with contextlib.redirect_stdout(said):
            for piece in pieces:
                exec(piece.replace("joint = ...", "joint = codes < 125"), names)
        self.assertEqual((names["own"].slack, names["other"].slack), (own.slack, names["result"].slack))
        np.testing.assert_array_equal(names["own"].image, own.image)
        np.testing.assert_array_equal(names["other"].image, names["result"].image)
        self.assertRegex(said.getvalue(), r"^\d+\.\d{4} levels, within 0\.\d+ of the best raster's\n$")
        kept = relief.clean(self.codes, 640, (0, 255), weights=names["weights"])
        self.assertLess(kept.price, names["result"].price)


if __name__ == "__main__":
    unittest.main()
