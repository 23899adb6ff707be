"""What a result says: levels, codes, flow, bounds and plot; the guarantee tried; weight pictures; the doctests."""

import copy
import dataclasses
import doctest
import importlib
import io
import math
import pickle
import unittest
import warnings
from fractions import Fraction
from pathlib import Path

import numpy as np

import relief
from jobs import MAX_WEIGHT, TOP, check_or_clean, random_codes, random_flow, random_job
from relief.calls import check_job
from relief.formatting import format_bound
from relief.plots import block_means
from relief.result import distance_bound

import answer2pgm  # of examples/, which jobs has put on the path
import pgm
import pgm2tape


def random_results(seed, count, **more):
    """Results of random jobs, by turns with and without weights for pairs, runs and checks."""
    rng = np.random.default_rng(seed)
    for number in range(count):
        shape = tuple(int(side) for side in rng.integers(1, 14, 2))
        yield rng, check_or_clean(random_job(rng, shape, number % 2 == 0, number % 4 < 2, **more))


class Image(unittest.TestCase):
    def test_levels(self):
        for _, result in random_results(30, 10):
            self.assertEqual(result.levels.dtype, np.float64)
            np.testing.assert_array_equal(256 * result.levels, result.image)

    def test_untouched_codes(self):
        """With weight 0 a code comes back as itself, in levels half a level up."""
        codes = np.arange(256, dtype=np.uint8).reshape(16, 16)
        result = relief.clean(codes, 0, (0, 255))
        np.testing.assert_array_equal(result.levels, codes + 0.5)
        np.testing.assert_array_equal(result.codes(), codes)
        self.assertEqual(result.codes().dtype, np.uint8)

    def test_codes(self):
        """By the rule of examples/answer2pgm.py, at every maxval and at every image value."""
        values = np.arange(65536, dtype=np.int32).reshape(256, 256)
        result = dataclasses.replace(relief.clean(np.zeros((256, 256), np.uint8), 0, (0, 255)), image=values)
        for maxval in range(1, 256):
            codes = result.codes(maxval)
            np.testing.assert_array_equal(codes, answer2pgm.sample(values, maxval))
            self.assertEqual((codes.dtype, codes.max()), (np.uint8, maxval))
        np.testing.assert_array_equal(result.codes(), result.codes(255))

    def test_codes_of_results(self):
        for rng, result in random_results(31, 8):
            maxval = int(rng.integers(1, 256))
            expected = [[answer2pgm.sample(value, maxval) for value in row] for row in result.image.tolist()]
            np.testing.assert_array_equal(result.codes(maxval), expected)

    def test_faulty_maxval(self):
        result = relief.clean(np.zeros((1, 2), np.uint8), 0, (0, 255))
        for maxval, kind in (256, ValueError), (-1, ValueError), (63.0, TypeError), (None, TypeError):
            with self.assertRaisesRegex(kind, "maxval"):
                result.codes(maxval)


class Figures(unittest.TestCase):
    """Image and figures worked out again from the flow, by the formulas of the README."""

    def recompute(self, result):
        """Image, price, floor and slack."""
        b, (low, high), (h, w) = result.job.codes, result.job.box, result.job.shape
        f = result.flow.flat.astype(np.int64)
        weights = result.job.weight if result.job.weights is None else result.job.weights.flat.astype(np.int64)

        B, n = 256 * b.astype(np.int64) + 128, (h - 1) * w
        down, right = f[:n].reshape(h - 1, w), f[n:].reshape(h, w - 1)
        np.testing.assert_array_equal(down, result.flow.down)
        np.testing.assert_array_equal(right, result.flow.right)
        pull = np.diff(down, axis=0, prepend=0, append=0) + np.diff(right, axis=1, prepend=0, append=0)
        image = np.clip(B - pull, 256 * low, 256 * high + 255)

        falls = -np.concatenate([np.diff(image, axis=0).ravel(), np.diff(image, axis=1).ravel()])
        misfit = ((image - B) ** 2).sum()
        price, floor = misfit + 2 * (weights * abs(falls)).sum(), misfit + 2 * (f * falls).sum()
        return image, price, floor, price - floor

    def test_random(self):
        met = set()
        for _, result in random_results(32, 120):
            with self.subTest(job=result.job):
                image, *figures = self.recompute(result)
                np.testing.assert_array_equal(result.image, image)
                self.assertEqual([result.price, result.floor, result.slack], figures)
                self.assertTrue(all(type(figure) is int for figure in (result.price, result.floor, result.slack)))
                self.assertTrue((abs(result.flow.flat.astype(int)) <= self.weights(result.job)).all())
                met |= {result.outcome, result.floor < 0, result.slack == 0}
        self.assertEqual(met, {"settled", "spent", "checked", False, True})

    def test_large(self):
        rng = np.random.default_rng(33)
        for weighted in False, True:
            result = check_or_clean(random_job(rng, (600, 500), weighted, weight=MAX_WEIGHT, box=(5, 250), rounds=(3, 3)))
            image, *figures = self.recompute(result)
            np.testing.assert_array_equal(result.image, image)
            self.assertEqual([result.price, result.floor, result.slack], figures)

    def test_signs(self):
        """A positive number pulls the first pixel's value down and the second's up."""
        codes = np.full((3, 3), 100, np.uint8)
        down, right = np.zeros((2, 3), np.int32), np.zeros((3, 2), np.int32)
        down[0, 2], right[2, 0] = 7, -9
        image = relief.check(codes, (down, right), 10, (0, 255)).image - (25600 + 128)
        np.testing.assert_array_equal(image, [[0, 0, -7], [0, 0, 7], [9, -9, 0]])

    def test_price(self):
        """The price of the image is that of the result, also where another type or order holds it."""
        for _, result in random_results(34, 30):
            job = result.job
            for image in result.image, result.image.astype(np.int64), np.asfortranarray(result.image):
                self.assertEqual(relief.price(job.codes, image, job.weight, job.box, job.weights), result.price)

    def weights(self, job):
        return job.weight if job.weights is None else job.weights.flat

    def test_joint(self):
        """The example of include/relief.h: a pair of weight 0 keeps its joint."""
        codes = np.array([[0, 2, 100]], np.uint8)
        result = relief.clean(codes, 256, (0, 255), 0, 100)
        np.testing.assert_array_equal(result.image, [[384, 640, 25472]])
        weights = np.zeros((0, 3), int), np.array([[256, 0]])
        for given in weights, relief.Pairs(*weights), np.array([256, 0]), [256, 0]:
            result = relief.clean(codes, 256, (0, 255), 0, 100, given)
            np.testing.assert_array_equal(result.image, [[382, 386, 25728]])


class PairsOfNeighbours(unittest.TestCase):
    def test_order(self):
        """All of down row by row, then all of right."""
        pairs = relief.Pairs(np.array([[1, 2, 3]]), np.array([[4, 5], [6, 7]]))
        self.assertEqual((pairs.flat.tolist(), pairs.shape, pairs.flat.dtype), ([1, 2, 3, 4, 5, 6, 7], (2, 3), np.int32))
        again = relief.Pairs.from_flat(pairs.flat, (2, 3))
        self.assertEqual((again.down.tolist(), again.right.tolist()), ([[1, 2, 3]], [[4, 5], [6, 7]]))
        names = ["down[0, 0]", "down[0, 1]", "down[0, 2]", "right[0, 0]", "right[0, 1]", "right[1, 0]", "right[1, 1]"]
        self.assertEqual([again.name_of(index) for index in range(7)], names)

    def test_every_shape(self):
        """Also where there are no vertical pairs, or no horizontal ones."""
        for h in range(1, 6):
            for w in range(1, 6):
                flat = np.arange(2 * h * w - h - w, dtype=np.int32)
                pairs = relief.Pairs.from_flat(flat, (h, w))
                self.assertEqual((pairs.down.shape, pairs.right.shape), ((h - 1, w), (h, w - 1)))
                again = relief.Pairs(pairs.down, pairs.right)
                self.assertEqual((again.shape, again.flat.tolist()), ((h, w), flat.tolist()))
                for index in range(flat.size):
                    name, row, column = again.name_of(index).replace("[", " ").replace(",", "").strip("]").split()
                    self.assertEqual(getattr(again, name)[int(row), int(column)], index)

    def test_not_to_be_changed(self):
        """The library is lent the numbers as they are, so nothing else may take their place."""
        pairs = relief.Pairs.from_flat(np.arange(7), (2, 3))
        for name in "flat", "shape", "down", "right", "other":
            with self.assertRaises(AttributeError):
                setattr(pairs, name, np.arange(7))
        for again in pickle.loads(pickle.dumps(pairs)), copy.copy(pairs), copy.deepcopy(pairs):
            self.assertEqual((again.flat.tolist(), again.shape), (list(range(7)), (2, 3)))
            self.assertFalse(again.flat.flags.writeable)

    def test_given_alike(self):
        """A flow as pairs, as a tuple and in the flat order is one flow."""
        rng = np.random.default_rng(35)
        codes, flow = random_codes(rng, (5, 4)), random_flow(rng, 300, 31)
        pairs = relief.Pairs.from_flat(flow, (5, 4))
        images = [relief.check(codes, given, 300, (0, 255)).image
                  for given in (flow, pairs, (pairs.down, pairs.right), flow.tolist())]
        for image in images[1:]:
            np.testing.assert_array_equal(image, images[0])


class Bounds(unittest.TestCase):
    """The least floats that are not below the true bounds."""

    def assert_least_bound(self, bound, slack, pixels):
        """Whether it is the least float that is at least sqrt(slack / pixels) / 256, by exact arithmetic."""
        square = Fraction(slack, pixels * 65536)
        self.assertIs(type(bound), float)
        self.assertGreaterEqual(Fraction(bound)**2, square)
        if slack:
            self.assertLess(Fraction(math.nextafter(bound, 0.0))**2, square)
        else:
            self.assertEqual(bound, 0.0)

    def test_numbers(self):
        rng = np.random.default_rng(36)
        slacks = [0, 1, 2, 3, 16, 65535, 65536, 65537, 10**6, 2**53 - 1, 2**53 + 1, 2**63, 2**64 - 1, 2**64 - 2]
        slacks += [int(slack) for slack in rng.integers(0, 2**63, 150)] + [number**2 for number in range(1, 40)]
        for slack in slacks:
            for pixels in 1, 2, 3, 100, 3072, 1048575, 1048576, int(rng.integers(1, 2**20)):
                self.assert_least_bound(distance_bound(slack, pixels), slack, pixels)

    def test_exact(self):
        """Where the true bound is a float, it is that one."""
        self.assertEqual(distance_bound(16, 1), 4 / 256)
        self.assertEqual(distance_bound(65536, 1), 1.0)
        self.assertEqual(distance_bound(4 * 65536 * 1048576, 1048576), 2.0)

    def test_results(self):
        result = relief.clean(np.array([[0, 2]], np.uint8), 256, (0, 255), 0, 100)
        self.assertEqual((result.slack, result.pixel_bound), (16, 4 / 256))
        for rng, result in random_results(37, 20):
            self.assert_least_bound(result.rms_bound, result.slack, result.image.size)
            self.assert_least_bound(result.pixel_bound, result.slack, 1)
            mask = rng.random(result.image.shape) < 0.5
            mask.flat[0] = True
            for given in mask, mask.tolist(), np.asfortranarray(mask):
                self.assert_least_bound(result.mean_bound(given), result.slack, int(mask.sum()))
            self.assertEqual(result.mean_bound(np.ones_like(mask)), result.rms_bound)
            one = np.zeros_like(mask)
            one.flat[-1] = True
            self.assertEqual(result.mean_bound(one), result.pixel_bound)

    def test_slacks_beyond_floats(self):
        """The bounds of a result are of its exact slack, not of the nearest float."""
        result = relief.clean(np.zeros((3, 1), np.uint8), 0, (0, 255))
        for slack in 2**64 - 1, 2**60 + 1, 0:
            result = dataclasses.replace(result, slack=slack)
            self.assert_least_bound(result.rms_bound, slack, 3)
            self.assert_least_bound(result.pixel_bound, slack, 1)
            self.assert_least_bound(result.mean_bound(np.array([[True], [False], [True]])), slack, 2)

    def test_faulty_masks(self):
        result = relief.clean(np.zeros((2, 3), np.uint8), 5, (0, 255))
        for mask, kind, message in [
            (np.ones((2, 3), int), TypeError, "mask has dtype int64: True and False, dtype bool, are needed"),
            (None, TypeError, "mask has dtype object"),
            (np.ones((3, 2), bool), ValueError, r"mask has shape \(3, 2\), the image's is \(2, 3\)"),
            (np.ones(6, bool), ValueError, r"mask has shape \(6,\)"),
            (np.zeros((2, 3), bool), ValueError, "mask has no pixel: a mean needs one"),
            (np.ma.masked_array(np.ones((2, 3), bool), False), TypeError, "mask is a masked array"),
        ]:
            with self.assertRaisesRegex(kind, message):
                result.mean_bound(mask)

    def test_facade(self):
        """The README's table, whose bounds are rounded up."""
        tape = relief.read_tape(TOP / "examples/facade.tape")
        result = check_or_clean(tape)
        self.assertEqual([format_bound(result.rms_bound, 2), format_bound(result.pixel_bound, 1)], ["0.32", "17.3"])
        mask = np.zeros(tape.shape, bool)
        mask[3:13, 5:15] = True
        self.assertEqual(format_bound(result.mean_bound(mask), 1), "1.8")


class Guarantee(unittest.TestCase):
    """Tried, not proved: on random images of the box, and on two flows of one job."""

    def test_other_images(self):
        for rng, result in random_results(38, 60):
            job, (low, high) = result.job, result.job.box
            lower, upper = 256 * low, 256 * high + 255
            others = [rng.integers(lower, upper, job.shape, endpoint=True),
                      np.clip(result.image + rng.integers(-3, 4, job.shape), lower, upper),
                      np.full(job.shape, int(rng.integers(lower, upper, endpoint=True))),
                      np.clip(256 * job.codes.astype(np.int64) + 128, lower, upper)]
            for other in others:
                price = relief.price(job.codes, other, job.weight, job.box, job.weights)
                distance = int(((result.image - other.astype(np.int64)) ** 2).sum())
                self.assertLessEqual(result.price + distance, price + result.slack)
                self.assertGreaterEqual(price, result.floor)

    def test_best_image(self):
        """Of two pixels the best image is known: the bounds hold for it."""
        codes = np.array([[0, 2]], np.uint8)
        best = relief.check(codes, np.array([-256]), 256, (0, 255))
        self.assertEqual((best.slack, best.image.tolist(), best.rms_bound), (0, [[384, 384]], 0.0))
        for steady in range(20):
            result = relief.clean(codes, 256, (0, 255), 0, steady)
            difference = abs(result.levels - best.levels)
            self.assertLessEqual(difference.max(), result.pixel_bound)
            self.assertLessEqual(math.sqrt((difference**2).mean()), result.rms_bound)

    def test_two_flows(self):
        """2 x squared distance <= slack + other slack, for flows near each other and far apart."""
        rng = np.random.default_rng(39)
        for number in range(60):
            weighted = number % 2 == 0
            job = random_job(rng, tuple(int(side) for side in rng.integers(1, 12, 2)), weighted, rounds=(20, 50))
            weights = job.weight if job.weights is None else job.weights.flat
            count = 2 * job.codes.size - sum(job.shape)
            flows = [check_or_clean(job).flow.flat] + [random_flow(rng, weights, count) for _ in range(2)]
            flows.append(np.clip(flows[0] + rng.integers(-2, 3, count), -np.asarray(weights), weights).astype(np.int32))
            results = [check_job(dataclasses.replace(job, flow=flow)) for flow in flows]
            for one in results:
                for other in results:
                    distance = int(((one.image - other.image.astype(np.int64)) ** 2).sum())
                    self.assertLessEqual(2 * distance, one.slack + other.slack)

    def test_settled(self):
        """A settled run's slack is at most 16 x the sum of the pairs' weights."""
        settled = 0
        for _, result in random_results(40, 40, rounds=(50, 2000)):
            if result.outcome == "settled":
                settled += 1
                count = 2 * result.image.size - sum(result.image.shape)
                weights = result.job.weights.flat.sum() if result.job.weights else result.job.weight * count
                self.assertLessEqual(result.slack, 16 * int(weights))
        self.assertGreater(settled, 5)


class Plots(unittest.TestCase):
    def test_panels_and_caption(self):
        rng = np.random.default_rng(41)
        for shape, weighted in ((30, 40), False), ((3, 40), True), ((1, 1), False):
            with self.subTest(shape):
                result = check_or_clean(random_job(rng, shape, weighted, weight=900, box=(3, 250)))
                figure = result.plot()
                panels = [axes for axes in figure.axes if axes.get_title()]
                self.assertEqual([panel.get_title() for panel in panels], ["scan", "cleaned", "cleaned − scan"])
                scan, cleaned, difference = (panel.images[0].get_array() for panel in panels)
                np.testing.assert_array_equal(scan, result.job.codes + 0.5)
                np.testing.assert_array_equal(cleaned, result.levels)
                np.testing.assert_array_equal(difference, result.levels - (result.job.codes + 0.5))
                self.assertEqual(panels[0].images[0].get_clim(), panels[1].images[0].get_clim())
                words = " ".join(" ".join(text.get_text() for text in figure.texts).split())
                for part in (f"weight {result.job.weight}", "box 3 to 250", result.outcome, f"price {result.price}",
                             f"floor {result.floor}", f"slack {result.slack}", "levels root mean square"):
                    self.assertIn(part, words)
                self.assertEqual("a weight for each pair" in words, weighted)

    def test_large_differences(self):
        """Means over blocks: few enough to be drawn one by one, no thin line lost, the edges' smaller blocks too."""
        for shape in (300, 300), (1024, 1024), (301, 7), (4096, 256), (1, 4096):
            values = np.arange(shape[0] * shape[1], dtype=float).reshape(shape) % 97
            means, side = block_means(values)
            self.assertLessEqual(max(means.shape), 300)
            self.assertEqual(side == 1, max(shape) <= 300)
            for row, column in (0, 0), (means.shape[0] // 2, means.shape[1] - 1), (means.shape[0] - 1, 0):
                block = values[side * row:side * (row + 1), side * column:side * (column + 1)]
                self.assertAlmostEqual(means[row, column], block.mean())
        lines = np.zeros((1024, 1024))
        lines[:, ::64] = 18
        self.assertEqual(np.count_nonzero(block_means(lines)[0][0]), 16)

    def test_drawn(self):
        """Panels and caption have room, without a warning, whatever the shape."""
        for shape in (1, 1), (48, 64), (2, 300), (300, 2):
            codes = random_codes(np.random.default_rng(42), shape)
            with self.subTest(shape), warnings.catch_warnings():
                warnings.simplefilter("error")
                file = io.BytesIO()
                relief.clean(codes, 900, (30, 200), 5, 5).plot().savefig(file, format="png", dpi=30)
                self.assertTrue(file.getvalue().startswith(b"\x89PNG"))


class WeightPictures(unittest.TestCase):
    def test_random(self):
        """By the rule of examples/pgm2tape.py."""
        rng = np.random.default_rng(43)
        for _ in range(60):
            height, width = (int(side) for side in rng.integers(1, 12, 2))
            maxval, weight = (int(rng.choice(choices)) for choices in ([1, 2, 63, 100, 254, 255],
                                                                       [0, 1, 255, 1024, 40000, MAX_WEIGHT]))
            strengths = rng.integers(0, maxval, (height, width), np.uint8, endpoint=True)
            data = pgm.text(strengths.tolist(), maxval).encode()
            expected = pgm2tape.read_weights(data, strengths.tolist(), weight)
            pairs = relief.weights_from_picture(strengths, weight, maxval)
            self.assertEqual((pairs.flat.tolist(), pairs.shape), (expected, (height, width)))

    def test_every_value(self):
        """White is the whole weight and black none, at every maxval, and nothing is rounded up."""
        for maxval in range(1, 256):
            strengths = np.arange(maxval + 1, dtype=np.uint8).repeat(2).reshape(-1, 2)
            right = relief.weights_from_picture(strengths, MAX_WEIGHT, maxval).right[:, 0]
            self.assertEqual(right.tolist(), [MAX_WEIGHT * value // maxval for value in range(maxval + 1)])

    def test_sample(self):
        """The tape of the façade with its joints has the weights of its weight picture."""
        job = relief.read_tape(TOP / "examples/facade-joints.tape")
        rows, maxval = pgm.read((TOP / "examples/facade-weights.pgm").read_bytes())
        pairs = relief.weights_from_picture(np.array(rows, np.uint8), 1024, maxval)
        np.testing.assert_array_equal(pairs.flat, job.weights.flat)


class Representations(unittest.TestCase):
    def test_doctests(self):
        attempted = 0
        for path in sorted(Path(relief.__file__).parent.glob("[!_]*.py")):
            failed, tried = doctest.testmod(importlib.import_module(f"relief.{path.stem}"))
            self.assertEqual(failed, 0, path.name)
            attempted += tried
        self.assertGreaterEqual(attempted, 4)

    def test_pickled(self):
        """A result comes back from another process with all that it has."""
        for _, result in random_results(44, 4):
            again = pickle.loads(pickle.dumps(result))
            self.assertEqual(repr(again), repr(result))
            np.testing.assert_array_equal(again.image, result.image)
            np.testing.assert_array_equal(again.flow.flat, result.flow.flat)
            np.testing.assert_array_equal(again.job.codes, result.job.codes)
            self.assertEqual(again.job.terms, result.job.terms)

    def test_representations(self):
        result = relief.clean(np.array([[0, 2]], np.uint8), 256, (0, 255), 0, 100)
        self.assertEqual(repr(result), "Result(2 x 1 pixels: settled 17, price 131080, floor 131064, slack 16)")
        self.assertEqual(repr(result.flow), "Pairs(1 numbers, raster of shape (1, 2))")


if __name__ == "__main__":
    unittest.main()
