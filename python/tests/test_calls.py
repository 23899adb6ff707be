"""The calls: every refusal, what is a TypeError or a ValueError, and what becomes of the caller's arrays."""

import _ctypes
import pickle
import re
import subprocess
import sys
import threading
import time
import tracemalloc
import unittest

import numpy as np

import relief
from jobs import TOP, figures_of, limited_memory, random_codes, random_flow, random_weights, tape_of
from relief import boundary
from relief.calls import check_job, clean_job

HEADER = (TOP / "include/relief.h").read_text()
BOX = 0, 255
CODES = np.array([[0, 2, 100], [7, 7, 7]], np.uint8)  # 3 vertical pairs, 4 horizontal ones
FLOW = np.zeros(7, np.int32)


def header_texts():
    """The number of each refusal of the header's enum, with its text."""
    numbers = dict(re.findall(r"(RELIEF_REFUSED_\w+) = (\d+)", HEADER))
    texts = dict(re.findall(r"case (RELIEF_REFUSED_\w+):\s+return \"(.*)\";", HEADER))
    return {int(number): texts[name] for name, number in numbers.items()}


class Refusals(unittest.TestCase):
    """Each refusal by number, place and words. test_every_number sees to it that none is left out."""

    TEXTS = header_texts()

    def assert_refused(self, number, place, where, call, *arguments, **more):
        """The call is refused so, with the header's text and an advice."""
        with self.assertRaises(relief.Refused) as caught:
            call(*arguments, **more)
        refused = caught.exception
        self.assertEqual((refused.number, refused.place, refused.where), (number, place, where))
        self.assertEqual(refused.text, self.TEXTS[number])
        self.assertTrue(refused.advice)
        self.assertEqual(str(refused), f"refused {number} at {place}{f' ({where})' if where else ''}: {refused.text};"
                         f" {refused.advice}")

    def test_size(self):
        """1. No memory is taken for what is too large."""
        one = np.uint8(9)
        shapes = [(0, 0), (0, 5), (5, 0), (1, 5000), (4097, 1), (2000, 2000), (1025, 1024), (10**6, 10**6), (2**33, 2**29),
                  (2**32 + 1, 1)]
        for shape in shapes:
            codes = np.broadcast_to(one, shape)
            where = f"{shape[1]} x {shape[0]} pixels"
            with self.subTest(shape), limited_memory():
                self.assert_refused(1, 0, where, relief.clean, codes, 1024, BOX)
                self.assert_refused(1, 0, where, relief.check, codes, FLOW, 1024, BOX)
                self.assert_refused(1, 0, where, relief.price, codes, np.zeros((2, 3), np.int32), 1024, BOX)
                self.assert_refused(1, 0, where, relief.Job, codes, 1024, BOX)
                self.assert_refused(1, 0, where, relief.weights_from_picture, codes, 1024)
                self.assert_refused(1, 0, where, relief.Pairs.from_flat, np.zeros(0, np.int32), shape)
        with limited_memory():
            huge = np.broadcast_to(np.int8(0), (10**6, 10**6))
            self.assert_refused(1, 0, "1000000 x 1000000 pixels", relief.Pairs, huge[1:], huge[:, 1:])
        codes = np.asfortranarray(np.zeros((2000, 2000), np.uint8))  # a copy would be needed to lend it
        tracemalloc.start()
        self.addCleanup(tracemalloc.stop)
        self.assert_refused(1, 0, "2000 x 2000 pixels", relief.clean, codes, 1024, BOX)
        self.assertLess(tracemalloc.get_traced_memory()[1], 2**18)

    def test_largest_sizes(self):
        """What is just allowed."""
        for shape in (1, 1), (1, 4096), (4096, 1), (1024, 1024), (256, 4096):
            self.assertEqual(relief.Job(np.zeros(shape, np.uint8), 0, BOX).shape, shape)

    def test_weight(self):
        """2, of the weight: also where each pair has one of its own."""
        for weight in 65281, 2**32 - 1:
            for weights in None, FLOW:
                self.assert_refused(2, 0, "", relief.clean, CODES, weight, BOX, weights=weights)
                self.assert_refused(2, 0, "", relief.check, CODES, FLOW, weight, BOX, weights)
                self.assert_refused(2, 0, "", relief.price, CODES, CODES, weight, BOX, weights)
        self.assertEqual(relief.clean(CODES, 65280, BOX, 0, 1).moved, 1)

    def test_weight_of_a_pair(self):
        """2, of a pair: the first index, in down or in right."""
        for index, where in (0, "down[0, 0]"), (2, "down[0, 2]"), (3, "right[0, 0]"), (4, "right[0, 1]"), (5, "right[1, 0]"):
            for value in -1, 65281, -2**31, 2**31 - 1:
                weights = FLOW.copy()
                weights[index] = weights[6] = value
                words = "weights." + where
                self.assert_refused(2, index, words, relief.clean, CODES, 5, BOX, weights=weights)
                self.assert_refused(2, index, words, relief.check, CODES, FLOW, 5, BOX, weights)
                self.assert_refused(2, index, words, relief.price, CODES, 256 * CODES.astype(int), 5, BOX, weights)
                self.assert_refused(2, index, words, tape_of, relief.Job(CODES, 5, BOX, weights=weights))

    def test_box(self):
        """3."""
        for box in (255, 0), (9, 8):
            self.assert_refused(3, 0, "", relief.clean, CODES, 5, box)
            self.assert_refused(3, 0, "", relief.check, CODES, FLOW, 5, box)
            self.assert_refused(3, 0, "", relief.price, CODES, CODES, 5, box)
            self.assert_refused(3, 0, "", tape_of, relief.Job(CODES, 5, box))

    def test_flow_value(self):
        """8: the first index, in down or in right, by the one weight and by the pairs' own."""
        for index, where in (0, "down[0, 0]"), (1, "down[0, 1]"), (3, "right[0, 0]"), (6, "right[1, 1]"):
            for value in 6, -6, 2**31 - 1, -2**31:
                flow = FLOW.copy()
                flow[index] = flow[6] = value
                self.assert_refused(8, index, "flow." + where, relief.check, CODES, flow, 5, BOX)
                self.assert_refused(8, index, "flow." + where, tape_of, relief.Job(CODES, 5, BOX, flow=flow))
                self.assert_refused(8, index, "flow." + where, relief.check, CODES, flow, 9999, BOX, FLOW + 5)
        tall = np.zeros((3, 1), np.uint8)
        self.assert_refused(8, 1, "flow.down[1, 0]", relief.check, tall, np.array([0, 9]), 5, BOX)
        self.assertEqual(relief.check(CODES, FLOW + 5, 5, BOX).moved, 0)

    def test_image_value(self):
        """9: the first index."""
        for index, where in (0, "image[0, 0]"), (2, "image[0, 2]"), (3, "image[1, 0]"), (5, "image[1, 2]"):
            for value in 255, 768, -1, 2**31 - 1:
                image = np.full((2, 3), 300)
                image.flat[index] = image.flat[5] = value
                self.assert_refused(9, index, where, relief.price, CODES, image, 5, (1, 2))
        self.assertTrue(relief.price(CODES, np.full((2, 3), 256), 5, (1, 2)))
        self.assertTrue(relief.price(CODES, np.full((2, 3), 767), 5, (1, 2)))

    def test_quick_rounds(self):
        """10."""
        for quick in 4097, 2**32 - 1:
            self.assert_refused(10, 0, "", relief.clean, CODES, 5, BOX, quick)
            self.assert_refused(10, 0, "", tape_of, relief.Job(CODES, 5, BOX, quick))
        self.assertEqual(relief.clean(CODES, 5, BOX, 4096, 65535).outcome, "settled")

    def test_tapes(self):
        """1, 2, 3, 8 and 10 in a tape, and 12 to 18: the offset of the record, or the index in the flow."""
        tape = tape_of(relief.Job(CODES, 5, BOX, weights=FLOW + 5, flow=FLOW))
        self.assertEqual(len(tape), 16 + 12 + 21 + 35)
        for number, place, data in [
            (1, 0, b"\1\0\0\1\0"),
            (2, 5, tape[:6] + b"\1\xff" + tape[8:]),
            (2, 27, tape[:28] + b"\1\xff" + tape[30:]),
            (3, 5, tape[:8] + b"\2\1" + tape[10:]),
            (8, 1, tape[:54] + b"\6" + tape[55:]),
            (10, 10, tape[:11] + b"\1\x10" + tape[13:]),
            (12, 10, tape[:10] + b"\7" + tape[11:]),
            (13, 82 - 4, tape[:-2]),
            (14, 27, tape[:27] + b"\4" + tape[28:]),
            (15, 84, tape + b"\0"),
            (18, 83, tape[:-1]),
            (18, 0, b""),
        ]:
            with self.subTest(number=number, place=place):
                self.assert_refused(number, place, "", relief.read_tape, data)

    def test_lengths(self):
        """4 to 7, 16 and 19: the package lends exact lengths, so only the boundary meets them. No buffer is changed."""
        terms = boundary.Terms(3, 2, 5, 0, 255)
        given = dict(samples=CODES.ravel().copy(), weights=FLOW + 5, flow=FLOW + 1, image=np.full(6, 300, np.int32),
                     work=np.full(14, 9, np.int32), output=np.full(84, 9, np.uint8))
        tape = np.frombuffer(tape_of(relief.Job(CODES, 5, BOX, weights=FLOW + 5, flow=FLOW)), np.uint8)
        calls = {
            boundary.price: ((terms,), ("samples", "weights", "image")),
            boundary.check: ((terms,), ("samples", "weights", "flow", "image")),
            boundary.run: ((terms, 1, 1), ("samples", "weights", "flow", "image", "work")),
            boundary.write: ((terms, 1, 1), ("samples", "weights", "flow", "output")),
            boundary.read: ((tape,), ("samples", "weights", "flow")),
        }
        numbers = dict(samples=4, weights=19, flow=5, image=6, work=7, output=16)
        for call, (fixed, names) in calls.items():
            for name in names:
                buffers = {other: given[other].copy() for other in names}
                buffers[name] = buffers[name][:-1]
                before = {other: buffer.copy() for other, buffer in buffers.items()}
                with self.subTest(call=call.__name__, short=name):
                    refusal, place, numbers_given = call(*fixed, *buffers.values())
                    self.assertEqual((refusal, place), (16 if call is boundary.read else numbers[name], 0))
                    self.assertFalse(np.any(numbers_given if call is boundary.write else np.hstack(numbers_given)))
                    for other, buffer in buffers.items():
                        np.testing.assert_array_equal(buffer, before[other])
                    refused = relief.Refused(refusal, place)
                    self.assertEqual(refused.text, self.TEXTS[refusal])
            self.assertEqual(call(*fixed, *(given[name].copy() for name in names))[:2], (0, 0))

    def test_every_number(self):
        """Every refusal of the header's enum has a text and an advice of its own; no other number is one."""
        self.assertEqual(set(self.TEXTS), {*range(1, 11), *range(12, 17), 18, 19})
        for number, text in self.TEXTS.items():
            refused = relief.Refused(number)
            self.assertEqual(refused.text, text)
            self.assertNotIn("README", refused.advice)
        for number in 11, 17, 20, 2**32 - 1:
            self.assertEqual(relief.Refused(number).text, "not a refusal of this library")
            self.assertIn("README", relief.Refused(number).advice)

    def test_pickled(self):
        for refused in relief.Refused(8, 4, "flow.right[0, 1]"), relief.Refused(1):
            again = pickle.loads(pickle.dumps(refused))
            self.assertEqual(type(again), relief.Refused)
            self.assertEqual((again.number, again.place, again.where), (refused.number, refused.place, refused.where))
            self.assertEqual(str(again), str(refused))

    def test_version(self):
        self.assertIn(f'#define RELIEF_VERSION_STRING "{relief.__version__}"', HEADER)


class WrongArguments(unittest.TestCase):
    """What is no job at all: a TypeError or a ValueError that names the argument."""

    def assert_error(self, kind, message, call, *arguments, **more):
        """Nothing that is given is changed by it."""
        arrays = [(array, array.tobytes()) for array in [*arguments, *more.values()] if isinstance(array, np.ndarray)]
        with self.assertRaisesRegex(kind, message):
            call(*arguments, **more)
        for array, data in arrays:
            self.assertEqual(array.tobytes(), data)

    def test_codes(self):
        for codes, kind, message in [
            (CODES.astype(float), TypeError, "codes has dtype float64: 8-bit codes, dtype uint8"),
            (CODES.astype(np.int64), TypeError, "codes has dtype int64"),
            (CODES.astype(np.int8), TypeError, "codes has dtype int8"),
            (CODES > 5, TypeError, "codes has dtype bool"),
            (CODES.tolist(), TypeError, "codes has dtype int64"),
            ([[1, 2], [3]], ValueError, "codes is no array"),
            (None, TypeError, "codes has dtype object"),
            ("scan.png", TypeError, "codes has dtype <U8"),
            (CODES[0], ValueError, r"codes has shape \(3,\): a grey raster has 2 dimensions"),
            (np.zeros((2, 3, 3), np.uint8), ValueError, r"codes has shape \(2, 3, 3\)"),
            (np.uint8(5), ValueError, r"codes has shape \(\)"),
            (np.ma.masked_equal(CODES, 2), TypeError, "codes is a masked array"),
        ]:
            with self.subTest(codes=codes):
                self.assert_error(kind, message, relief.clean, codes, 5, BOX)
                self.assert_error(kind, message, relief.check, codes, FLOW, 5, BOX)
                self.assert_error(kind, message, relief.price, codes, CODES, 5, BOX)

    def test_numbers(self):
        for name, most in ("weight", "65,280"), ("quick", "4,096"), ("steady", "65,535"):
            for value, kind, message in [
                (5.0, TypeError, f"{name} is a whole number, not 5.0 of type float"),
                ("5", TypeError, f"{name} is a whole number, not '5' of type str"),
                (None, TypeError, f"{name} is a whole number, not None of type NoneType"),
                (CODES, TypeError, f"{name} is a whole number"),
                (-1, ValueError, f"{name} is -1: it must be 0 to {most}"),
                (2**40, ValueError, f"{name} is 1099511627776: it must be 0 to {most}"),
                (2**64, ValueError, f"{name} is 18446744073709551616: it must be"),
            ]:
                terms = dict(weight=5, box=BOX, quick=1, steady=1)
                terms[name] = value
                with self.subTest(name=name, value=value):
                    self.assert_error(kind, message, relief.clean, CODES, **terms)
        self.assert_error(ValueError, "steady is 65536: it must be 0 to 65,535", relief.clean, CODES, 5, BOX, 0, 65536)
        result = relief.clean(CODES, np.uint16(5), np.array(BOX), np.int64(1), np.uint8(1))
        self.assertEqual((result.job.weight, result.job.box, result.job.quick, result.job.steady), (5, BOX, 1, 1))

    def test_box(self):
        for box, kind, message in [
            ((0,), ValueError, r"box is a pair \(low, high\) of levels, not \(0,\)"),
            ((0, 1, 2), ValueError, r"box is a pair \(low, high\) of levels, not \(0, 1, 2\)"),
            (7, TypeError, r"box is a pair \(low, high\) of levels, not 7 of type int"),
            (None, TypeError, r"box is a pair \(low, high\) of levels, not None"),
            ((0, 256), ValueError, "the high end of box is 256: it must be 0 to 255"),
            ((-1, 9), ValueError, "the low end of box is -1: it must be 0 to 255"),
            ((0, 25.5), TypeError, "the high end of box is a whole number, not 25.5 of type float"),
            ("ab", TypeError, "the low end of box is a whole number"),
        ]:
            with self.subTest(box=box):
                self.assert_error(kind, message, relief.clean, CODES, 5, box)
                self.assert_error(kind, message, relief.check, CODES, FLOW, 5, box)
                self.assert_error(kind, message, relief.price, CODES, CODES, 5, box)

    def test_pairs(self):
        """A flow and the pairs' weights alike."""
        down, right = np.zeros((1, 3), int), np.zeros((2, 2), int)
        beyond = np.zeros(7, np.int64)
        beyond[4] = 2**31
        far = np.array([[0, 0, -2**31 - 1]])
        for value, kind, message in [
            (FLOW.astype(float), TypeError, "NAME has dtype float64: whole numbers, best int32, are needed"),
            (FLOW > 0, TypeError, "NAME has dtype bool"),
            (FLOW[1:], ValueError, r"NAME has shape \(6,\): \(7,\) is needed"),
            (np.zeros(8, int), ValueError, r"NAME has shape \(8,\): \(7,\) is needed"),
            (np.zeros(0, int), ValueError, r"NAME has shape \(0,\): \(7,\) is needed"),
            (FLOW.reshape(1, 7), ValueError, r"NAME has shape \(1, 7\): a tuple \(down, right\), or one array of 7 numbers"),
            (5, ValueError, r"NAME has shape \(\)"),
            (beyond, ValueError, r"NAME has 2147483648 at \[4\], which 32 bits do not hold"),
            (beyond.astype(np.uint64), ValueError, r"NAME has 2147483648 at \[4\], which 32 bits do not hold"),
            (np.ma.masked_equal(FLOW, 1), TypeError, "NAME is a masked array"),
            ((down,), ValueError, r"NAME is a tuple of 1: \(down, right\) is meant"),
            ((down, right, down), ValueError, "NAME is a tuple of 3"),
            ((right, down), ValueError, "shape"),
            ((down.T, right.T), ValueError, "shape"),
            ((down, right[:, 1:]), ValueError, r"right has shape \(2, 1\): \(2, 2\) is needed"),
            ((down, right.ravel()), ValueError, r"down and right have shapes \(1, 3\) and \(4,\)"),
            ((down.astype(float), right), TypeError, "down has dtype float64"),
            ((down, np.ma.masked_equal(right, 1)), TypeError, "right is a masked array"),
            ((far, right), ValueError, r"down has -2147483649 at \[0, 2\], which 32 bits do not hold"),
            ((np.zeros((2, 3), int), np.zeros((3, 2), int)), ValueError,
             r"NAME is of a raster of shape \(3, 3\), the scan's is \(2, 3\)"),
            (relief.Pairs.from_flat(FLOW, (3, 2)), ValueError,
             r"NAME is of a raster of shape \(3, 2\), the scan's is \(2, 3\)"),
            ([down.tolist(), right.tolist()], ValueError, "NAME is no array"),
        ]:
            with self.subTest(value=value):
                self.assert_error(kind, message.replace("NAME", "flow"), relief.check, CODES, value, 5, BOX)
                self.assert_error(kind, message.replace("NAME", "weights"), relief.clean, CODES, 5, BOX, weights=value)
                self.assert_error(kind, message.replace("NAME", "weights"), relief.price, CODES, CODES, 5, BOX, weights=value)
        for both in (down, right), [down, right]:
            self.assertEqual(relief.check(CODES, both, 5, BOX).flow.flat.tolist(), 7 * [0])
        self.assert_error(TypeError, "flow is None: a number for each pair is needed", relief.check, CODES, None, 5, BOX)
        self.assert_error(ValueError, "the job has no flow to check", check_job, relief.Job(CODES, 5, BOX))
        self.assert_error(ValueError, r"flat has shape \(7,\): \(4,\) is needed", relief.Pairs.from_flat, FLOW, (2, 2))

    def test_image(self):
        image = np.full((2, 3), 300)
        beyond = image.copy()
        beyond[1, 0] = -2**40
        for value, kind, message in [
            (image / 256, TypeError, "image has dtype float64: whole numbers, best int32, are needed"),
            (image[1:], ValueError, r"image has shape \(1, 3\): \(2, 3\) is needed"),
            (image.T, ValueError, r"image has shape \(3, 2\): \(2, 3\) is needed"),
            (image.ravel(), ValueError, r"image has shape \(6,\): \(2, 3\) is needed"),
            (beyond, ValueError, r"image has -1099511627776 at \[1, 0\], which 32 bits do not hold"),
            (np.ma.masked_equal(image, 1), TypeError, "image is a masked array"),
            (None, TypeError, "image has dtype object"),
        ]:
            with self.subTest(value=value):
                self.assert_error(kind, message, relief.price, CODES, value, 5, BOX)
        self.assertEqual(relief.price(CODES, image.tolist(), 5, BOX), relief.price(CODES, image, 5, BOX))

    def test_weight_picture(self):
        for strengths, weight, maxval, kind, message in [
            (CODES.astype(int), 5, 255, TypeError, "strengths has dtype int64"),
            (CODES[0], 5, 255, ValueError, r"strengths has shape \(3,\)"),
            (CODES, 5.0, 255, TypeError, "weight is a whole number"),
            (CODES, -1, 255, ValueError, "weight is -1"),
            (CODES, 5, 99, ValueError, "strengths go from 0 to maxval, which is 99: the largest is 100"),
            (CODES, 5, 0, ValueError, "maxval, which is 0"),
            (CODES, 5, 256, ValueError, "maxval is 256: it must be 0 to 255"),
        ]:
            with self.subTest(message):
                self.assert_error(kind, message, relief.weights_from_picture, strengths, weight, maxval)


def byte_swapped(array):
    """The same numbers, highest byte first."""
    return array.astype(array.dtype.newbyteorder(">"))


def unaligned(array):
    """The same numbers, at an odd address."""
    data = np.empty(array.nbytes + 1, np.uint8)
    view = data[1:].view(array.dtype) if data.ctypes.data % 2 == 0 else data[:-1].view(array.dtype)
    view[:] = array.ravel()
    return view.reshape(array.shape)


def strided(array):
    """The same numbers, every second one in memory."""
    wide = np.zeros([2 * side for side in array.shape], array.dtype)
    view = wide[tuple(slice(None, None, 2) for _ in array.shape)]
    view[...] = array
    return view


def reversed_twice(array):
    """The same numbers, from the end of memory to its front."""
    every = tuple(slice(None, None, -1) for _ in array.shape)
    return array[every].copy()[every]


def read_only(array):
    array = array.copy()
    array.flags.writeable = False
    return array


LAYOUTS = {"as it is": np.copy, "Fortran order": np.asfortranarray, "strided": strided, "reversed": reversed_twice,
           "read-only": read_only, "unaligned": unaligned, "big-endian": byte_swapped,
           "64 bits": lambda array: array.astype(np.int64) if array.dtype == np.int32 else array.copy(),
           "memory of a subclass": lambda array: array.copy().view(np.recarray)}


class Arrays(unittest.TestCase):
    """In whatever form arrays come, the answers are the same, and they stay as they were."""

    def setUp(self):
        rng = np.random.default_rng(20)
        self.codes = random_codes(rng, (9, 7))
        self.weights = random_weights(rng, 110)
        self.flow = random_flow(rng, self.weights, 110)
        self.image = rng.integers(256 * 40, 256 * 200, (9, 7), np.int32)

    def test_layouts(self):
        box = 40, 200
        expected = [figures_of(relief.clean(self.codes, 900, box, 5, 5, self.weights)),
                    figures_of(relief.check(self.codes, self.flow, 900, box, self.weights)),
                    relief.price(self.codes, self.image, 900, box, self.weights)]
        for name, layout in LAYOUTS.items():
            with self.subTest(name):
                codes, weights, flow, image = arrays = [layout(array) for array in
                                                        (self.codes, self.weights, self.flow, self.image)]
                before = [(array.tobytes(), array.dtype, array.strides, array.flags.writeable) for array in arrays]
                answers = [figures_of(relief.clean(codes, 900, box, 5, 5, weights)),
                           figures_of(relief.check(codes, flow, 900, box, weights)),
                           relief.price(codes, image, 900, box, weights)]
                self.assertEqual(answers, expected)
                two = relief.Pairs.from_flat(self.flow, (9, 7))
                down, right = layout(two.down), layout(two.right)
                result = relief.check(codes, (down, right), 900, box, weights)
                self.assertEqual(figures_of(result), expected[1])
                np.testing.assert_array_equal(result.flow.flat, self.flow)
                for call in [  # each is refused
                    lambda: relief.clean(codes, 65281, box, 5, 5, weights),
                    lambda: relief.check(codes, flow, 900, (9, 8), weights),
                    lambda: relief.check(codes, flow, 0, box),
                    lambda: relief.price(codes, image, 900, (100, 101), weights),
                ]:
                    self.assertRaises(relief.Refused, call)
                after = [(array.tobytes(), array.dtype, array.strides, array.flags.writeable) for array in arrays]
                self.assertEqual(after, before)

    def test_layouts_are_what_they_say(self):
        for array in self.codes, self.flow, self.image:
            for layout in LAYOUTS.values():
                np.testing.assert_array_equal(layout(array), array)
            self.assertFalse(strided(array).flags.c_contiguous)
            self.assertFalse(reversed_twice(array).flags.c_contiguous)
        self.assertFalse(unaligned(self.flow).flags.aligned)
        self.assertFalse(byte_swapped(self.flow).dtype.isnative)

    def test_nothing_is_copied(self):
        """What the library can be lent is kept as it is: no copy of codes, weights or flow."""
        flow, weights = relief.Pairs.from_flat(self.flow, (9, 7)), relief.Pairs.from_flat(self.weights, (9, 7))
        self.assertTrue(np.shares_memory(flow.flat, self.flow))
        for passed_flow, passed_weights in (self.flow, self.weights), (flow, weights):
            result = relief.check(self.codes, passed_flow, 900, BOX, passed_weights)
            self.assertTrue(np.shares_memory(result.job.codes, self.codes))
            self.assertTrue(np.shares_memory(result.flow.flat, self.flow))
            self.assertTrue(np.shares_memory(result.job.weights.flat, self.weights))
            result = relief.clean(self.codes, 900, BOX, 1, 1, passed_weights)
            self.assertTrue(np.shares_memory(result.job.codes, self.codes))
            self.assertTrue(np.shares_memory(result.job.weights.flat, self.weights))
        for name in "down", "right":
            self.assertTrue(np.shares_memory(getattr(flow, name), self.flow))
        frozen = read_only(self.codes)
        self.assertTrue(np.shares_memory(relief.clean(frozen, 900, BOX, 1, 1).job.codes, frozen))

    def test_read_only(self):
        """No array of a result can be written to, and that of the caller still can."""
        results = [relief.clean(self.codes, 900, BOX, 1, 1, self.weights),
                   relief.check(self.codes, self.flow, 900, BOX, self.weights)]
        for result in results:
            for array in (result.image, result.levels, result.flow.flat, result.flow.down, result.flow.right,
                          result.job.codes, result.job.weights.flat, result.job.weights.down):
                self.assertFalse(array.flags.writeable)
                with self.assertRaises(ValueError):
                    array[...] = 0
            with self.assertRaises(AttributeError):
                result.slack = 0
            with self.assertRaises(AttributeError):
                result.job.weight = 0
        for array in self.codes, self.flow, self.weights:
            self.assertTrue(array.flags.writeable)

    def test_results_do_not_share(self):
        """Two calls on one scan leave images and flows of their own."""
        one, other = (relief.clean(self.codes, 900, BOX, 1, 1) for _ in range(2))
        self.assertFalse(np.shares_memory(one.image, other.image))
        self.assertFalse(np.shares_memory(one.flow.flat, other.flow.flat))


class Threads(unittest.TestCase):
    def test_others_run_meanwhile(self):
        """A thread that counts goes on while a call runs."""
        codes = np.random.default_rng(21).integers(0, 256, (1024, 1024), np.uint8)
        counted, stop = [0], threading.Event()

        def count():
            while not stop.is_set():
                counted[0] += 1
                time.sleep(0.001)

        job = relief.Job(codes, 65280, BOX, 0, 90)
        counter = threading.Thread(target=count)
        counter.start()
        try:
            while not counted[0]:
                time.sleep(0.001)
            before, begun = counted[0], time.perf_counter()
            clean_job(job)
            during, seconds = counted[0] - before, time.perf_counter() - begun
        finally:
            stop.set()
            counter.join()
        self.assertGreater(seconds, 0.05)  # else nothing is seen of it
        self.assertGreater(during, 5)

    def test_calls_at_once(self):
        """Calls in several threads on one scan give one answer."""
        codes = np.random.default_rng(22).integers(0, 256, (64, 64), np.uint8)
        expected = relief.clean(codes, 900, BOX, 20, 20)
        results = []
        call = lambda: results.append(relief.clean(codes, 900, BOX, 20, 20))  # noqa: E731
        threads = [threading.Thread(target=call) for _ in range(8)]
        for thread in threads:
            thread.start()
        for thread in threads:
            thread.join()
        self.assertEqual(len(results), 8)
        for result in results:
            self.assertEqual(figures_of(result), figures_of(expected))
            np.testing.assert_array_equal(result.image, expected.image)


class Library(unittest.TestCase):
    """The shared library that the package loads."""

    def imported(self, before="", **environment):
        """The status and the last line of an interpreter that imports the package."""
        environment["PYTHONPATH"] = str(TOP / "python")
        command = [sys.executable, "-B", "-c", f"{before}import relief"]
        done = subprocess.run(command, env=environment, capture_output=True, text=True)
        return done.returncode, done.stderr.splitlines()[-1:]

    def test_another_library(self):
        self.assertEqual(self.imported(RELIEF_LIBRARY=str(TOP / "python/relief/librelief.so")), (0, []))
        said = "ImportError: there is no /no/such.so: `bash tools/python.sh`, at the top of the repository, makes it"
        self.assertEqual(self.imported(RELIEF_LIBRARY="/no/such.so"), (1, [said]))
        for path in str(TOP / "README.md"), _ctypes.__file__:  # no library, and one of other functions
            status, said = self.imported(RELIEF_LIBRARY=path)
            self.assertEqual(status, 1)
            self.assertIn(f"ImportError: {path} is not the library of this package: ", said[0])

    def test_another_version(self):
        other = "import sys, types; sys.modules['relief.version'] = types.SimpleNamespace(__version__='9.9.9'); "
        status, said = self.imported(other)
        self.assertEqual(status, 1)
        self.assertIn(f"librelief.so is version {relief.__version__}, the package is 9.9.9: `bash tools/python.sh`", said[0])


if __name__ == "__main__":
    unittest.main()
