"""The package's answers beside those of the cleaning program and of the second implementation (rust/reference)."""

import itertools
import unittest

import numpy as np

import relief
from jobs import (MAX_WEIGHT, TOP, check_or_clean, clean_tape, figures_of, random_flow, random_job, random_weights,
                  reference_answer, tape_of)

EXAMPLES = "two-by-one", "two-by-one-flow", "facade", "facade-joints"


class Program(unittest.TestCase):
    """What the cleaning program takes: up to 4,096 pixels and 65,536 bytes."""

    def assert_same_answer(self, job):
        """The same figures and image from the program, for the job and for its tape read back; gives the result."""
        tape = tape_of(job)
        words, image = clean_tape(self, tape)
        result = check_or_clean(job)
        self.assertEqual(figures_of(result), words)
        self.assertEqual((result.image.shape, result.image.dtype), (job.shape, np.int32))
        np.testing.assert_array_equal(result.image, image)
        again = check_or_clean(relief.read_tape(tape))
        self.assertEqual(figures_of(again), words)
        np.testing.assert_array_equal(again.image, image)
        np.testing.assert_array_equal(again.flow.flat, result.flow.flat)
        return result

    def test_examples(self):
        """The figures that the README shows."""
        shown = (TOP / "README.md").read_text().splitlines()
        for name in EXAMPLES:
            with self.subTest(name):
                result = self.assert_same_answer(relief.read_tape(TOP / f"examples/{name}.tape"))
                self.assertIn(f"    {figures_of(result)}", shown)

    def test_random(self):
        rng = np.random.default_rng(1)
        outcomes = set()
        shapes = (1, 1), (1, 2), (2, 1), (1, 9), (9, 1), (2, 2), (3, 5), (7, 4), (13, 17), (1, 512), (512, 1), (31, 29)
        for shape, weighted, flowing in itertools.product(shapes, [False, True], [False, True]):
            for _ in range(2):
                job = random_job(rng, shape, weighted, flowing)
                with self.subTest(job=job):
                    outcomes.add(self.assert_same_answer(job).outcome)
        self.assertEqual(outcomes, {"settled", "spent", "checked"})

    def test_every_weight_and_box(self):
        rng = np.random.default_rng(2)
        for weight in 0, 1, 7, 300, 5000, MAX_WEIGHT - 1, MAX_WEIGHT:
            for box in (0, 255), (0, 0), (255, 255), (100, 100), (100, 101), (10, 240):
                job = random_job(rng, (6, 5), weight=weight, box=box, rounds=(3, 5))
                with self.subTest(weight=weight, box=box):
                    result = self.assert_same_answer(job)
                    self.assertTrue(256 * box[0] <= result.image.min() <= result.image.max() <= 256 * box[1] + 255)

    def test_largest(self):
        """As many pixels as the program takes; with weights and a flow, as many bytes."""
        rng = np.random.default_rng(3)
        for shape in (64, 64), (1, 4096), (4096, 1), (63, 65):
            for weighted, flowing in (False, False), (True, False), (False, True):
                job = random_job(rng, shape, weighted, flowing, weight=900, rounds=(10, 10))
                with self.subTest(job=job):
                    self.assert_same_answer(job)
        self.assert_same_answer(random_job(rng, (37, 100), True, True))

    def test_many_rounds(self):
        """A run that settles by itself, and one that uses up its allowance."""
        rng = np.random.default_rng(4)
        job = random_job(rng, (20, 30), True, weight=256, box=(0, 255), rounds=(100, 5000))
        self.assertEqual(self.assert_same_answer(job).outcome, "settled")
        job = random_job(rng, (20, 30), weight=MAX_WEIGHT, box=(0, 255), rounds=(0, 300))
        result = self.assert_same_answer(job)
        self.assertEqual((result.outcome, result.moved), ("spent", 300))

    def test_clean_and_check(self):
        """The calls that take the terms one by one answer as the job does."""
        rng = np.random.default_rng(5)
        for weighted in False, True:
            job = random_job(rng, (11, 14), weighted, True, weight=700)
            weights = job.weights and job.weights.flat
            words, image = clean_tape(self, tape_of(job))
            result = relief.check(job.codes, job.flow.flat, job.weight, job.box, weights)
            self.assertEqual(figures_of(result), words)
            np.testing.assert_array_equal(result.image, image)
            words, image = clean_tape(self, tape_of(relief.Job(job.codes, job.weight, job.box, 5, 9, weights)))
            result = relief.clean(job.codes, job.weight, job.box, quick=5, steady=9, weights=weights)
            self.assertEqual(figures_of(result), words)
            np.testing.assert_array_equal(result.image, image)

    def test_defaults(self):
        """Without rounds named, those of the constants."""
        codes = np.array([[0, 2], [200, 9]], np.uint8)
        words, image = clean_tape(self, tape_of(relief.Job(codes, 256, (0, 255), relief.QUICK, relief.STEADY)))
        result = relief.clean(codes, 256, (0, 255))
        self.assertEqual(figures_of(result), words)
        np.testing.assert_array_equal(result.image, image)


class DamagedTapes(unittest.TestCase):
    """What the program refuses is Refused by the same number at the same place."""

    def assert_same_answer(self, tape):
        """The same words; gives them. Where the program's tables are too short, the second implementation's count."""
        words, image = clean_tape(self, tape)
        if words == "refused 16 at 0":
            width, height = (int.from_bytes(tape[at:at + 2], "little") for at in (1, 3))
            self.assertGreater(width * height, 4096)
            words, _ = reference_answer(self, tape)
        try:
            result = check_or_clean(relief.read_tape(tape))
        except relief.Refused as refused:
            self.assertEqual(f"refused {refused.number} at {refused.place}", words)
            self.assertTrue(str(refused).startswith(words + ": "))
        else:
            self.assertEqual(figures_of(result), words)
            if image is not None:
                np.testing.assert_array_equal(result.image, image)
        return words

    def numbers(self, tapes):
        """The numbers of the refusals met, 0 for an accepted tape."""
        words = [self.assert_same_answer(tape).split() for tape in tapes]
        return {int(word[1]) if word[0] == "refused" else 0 for word in words}

    def test_cut(self):
        """At every place of a short tape with all kinds of records, and at some of a long one."""
        rng = np.random.default_rng(6)
        short = tape_of(random_job(rng, (3, 2), True, True, weight=900))
        self.assertEqual(self.numbers(short[:end] for end in range(len(short) + 1)), {0, 13, 18})
        long = tape_of(random_job(rng, (40, 50), True, True))
        self.assertEqual(self.numbers(long[:end] for end in rng.integers(16, len(long), 40)), {13, 18})

    def test_changed_bytes(self):
        rng = np.random.default_rng(7)
        tape = tape_of(random_job(rng, (2, 3), True, True, weight=300, box=(9, 20)))
        changed = []
        for place in range(len(tape)):
            for byte in {tape[place] ^ 1, tape[place] ^ 128, 255, int(rng.integers(256))} - {tape[place]}:
                changed.append(tape[:place] + bytes([byte]) + tape[place + 1:])
        self.assertEqual(self.numbers(changed), {0, 1, 2, 3, 8, 10, 12, 14})

    def test_more_bytes(self):
        tape = tape_of(random_job(np.random.default_rng(8), (2, 3)))
        self.assertEqual(self.numbers(tape + more for more in (b"\0", b"\1", b"\7", tape)), {15})

    def test_random_bytes(self):
        rng = np.random.default_rng(9)
        self.assertEqual(self.assert_same_answer(b""), "refused 18 at 0")
        for _ in range(20):
            self.assert_same_answer(rng.integers(0, 7, rng.integers(1, 40), np.uint8).tobytes())


class Reference(unittest.TestCase):
    """Rasters of any size that the library takes, beside the second implementation."""

    def assert_same_answer(self, job, *words):
        """The same figures, image and flow; gives the result."""
        line, numbers = reference_answer(self, tape_of(job), *words)
        result = check_or_clean(job)
        self.assertEqual(figures_of(result), line)
        np.testing.assert_array_equal(numbers[:result.image.size], result.image.ravel())
        np.testing.assert_array_equal(numbers[result.image.size:], result.flow.flat)
        return result

    def test_largest_square(self):
        rng = np.random.default_rng(10)
        for weighted in False, True:
            job = random_job(rng, (1024, 1024), weighted, weight=1024, box=(30, 200), rounds=(12, 12))
            with self.subTest(weighted=weighted):
                self.assertEqual(self.assert_same_answer(job).moved, 12)

    def test_longest_sides(self):
        rng = np.random.default_rng(11)
        for shape in (256, 4096), (4096, 256), (1, 4096), (4096, 1):
            job = random_job(rng, shape, bool(rng.integers(2)), weight=700, rounds=(6, 6))
            with self.subTest(job=job):
                self.assert_same_answer(job)

    def test_checks(self):
        rng = np.random.default_rng(12)
        for shape, weighted in ((1024, 1024), True), ((4096, 256), False), ((301, 997), True), ((1, 4096), True):
            job = random_job(rng, shape, weighted, True, weight=MAX_WEIGHT, box=(1, 250))
            with self.subTest(job=job):
                self.assert_same_answer(job)

    def test_check_of_a_run(self):
        """The flow that a run leaves, checked, has the run's image and figures."""
        rng = np.random.default_rng(13)
        codes = rng.integers(0, 256, (700, 900), np.uint8)
        weights = random_weights(rng, 2 * 700 * 900 - 1600)
        result = relief.clean(codes, 1, (20, 220), quick=5, steady=5, weights=weights)
        checked = self.assert_same_answer(relief.Job(codes, 1, (20, 220), weights=weights, flow=result.flow))
        np.testing.assert_array_equal(checked.image, result.image)
        self.assertEqual((checked.price, checked.floor, checked.slack), (result.price, result.floor, result.slack))

    def test_definitions(self):
        rng = np.random.default_rng(14)
        for weighted, flowing in (False, False), (True, False), (True, True):
            job = random_job(rng, (200, 300), weighted, flowing, weight=800, box=(10, 245), rounds=(8, 8))
            with self.subTest(weighted=weighted, flowing=flowing):
                self.assert_same_answer(job, "definitions")

    def test_settled(self):
        """A run that settles by itself, on more pixels than the program takes."""
        rng = np.random.default_rng(15)
        codes = (rng.choice([90, 140], (120, 3)).repeat(40, axis=1) + rng.integers(-2, 3, (120, 120))).astype(np.uint8)
        result = self.assert_same_answer(relief.Job(codes, 64, (0, 255), 60, 5000))
        self.assertEqual(result.outcome, "settled")

    def test_refusals(self):
        """Of tapes that name more pixels than the program takes."""
        rng = np.random.default_rng(16)
        job = random_job(rng, (90, 80), True, weight=50)
        tape = bytearray(tape_of(relief.Job(job.codes, 50, job.box, flow=random_flow(rng, 50, 2 * 7200 - 170))))
        tape[-5:-1] = (51).to_bytes(4, "little")
        for data in tape, tape[:5], tape[:9000], tape[:30001], tape + b"\0":
            words, _ = reference_answer(self, bytes(data))
            with self.assertRaises(relief.Refused) as caught:
                relief.read_tape(data)
            self.assertEqual(f"refused {caught.exception.number} at {caught.exception.place}", words)


if __name__ == "__main__":
    unittest.main()
