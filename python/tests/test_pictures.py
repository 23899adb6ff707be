"""Pictures: what is read, what is kept when one is written again, and the fault of each that is not taken."""

import io
import os
import random
import struct
import sys
import tempfile
import unittest
import zlib
from pathlib import Path

import numpy as np
from PIL import Image, TiffImagePlugin

from relief.pictures import read_picture
from relief.refused import Refused

TOP = Path(__file__).resolve().parents[2]
sys.path.insert(0, str(TOP / "examples"))

import answer2pgm  # noqa: E402
import pgm  # noqa: E402
import pgm2tape  # noqa: E402

GREY = np.random.default_rng(1).integers(0, 256, (13, 11), dtype=np.uint8)
DEEP = np.arange(12, dtype=np.uint16).reshape(3, 4)
COMPRESSIONS = "raw", "packbits", "tiff_lzw", "tiff_adobe_deflate"
ADAM7_PASSES = (0, 0, 8, 8), (0, 4, 8, 8), (4, 0, 8, 4), (0, 2, 4, 4), (2, 0, 4, 2), (0, 1, 2, 2), (1, 0, 2, 1)


def pillow_bytes(picture, format_name, **options):
    """The bytes of a picture as Pillow saves it."""
    if isinstance(picture, np.ndarray):
        picture = Image.fromarray(picture)
    file = io.BytesIO()
    picture.save(file, format_name, **options)
    return file.getvalue()


def chunk(kind, body):
    """A chunk of a PNG file."""
    return struct.pack(">I", len(body)) + kind + body + struct.pack(">I", zlib.crc32(kind + body))


def png(samples=GREY, *chunks, header=None, rows=None, interlaced=False):
    """A PNG picture made by hand: with chunks before its data, another heading, or other rows."""
    height, width = samples.shape
    if header is None:
        header = struct.pack(">IIBBBBB", width, height, 8, 0, 0, 0, interlaced)
    if rows is None:
        parts = [samples[top::down, left::right] for top, left, down, right in ADAM7_PASSES] if interlaced else [samples]
        rows = b"".join(b"\0" + row.tobytes() for part in parts if part.size for row in part)
    return b"".join([b"\x89PNG\r\n\x1a\n", chunk(b"IHDR", header), *chunks, chunk(b"IDAT", zlib.compress(rows)),
                     chunk(b"IEND", b"")])


def tiff(samples=GREY, order="<", rows=None, tile=None, gap=b"", packed=False, **fields):
    """A TIFF picture made by hand, its directory at the end: in strips of some rows or in square tiles, deflated or not."""
    height, width = samples.shape
    if tile:
        wide = np.zeros((-(-height // tile) * tile, -(-width // tile) * tile), np.uint8)
        wide[:height, :width] = samples
        parts = [wide[y:y + tile, x:x + tile] for y in range(0, height, tile) for x in range(0, width, tile)]
        fixed = {322: ("H", [tile]), 323: ("H", [tile])}
    else:
        parts = [samples[y:y + (rows or height)] for y in range(0, height, rows or height)]
        fixed = {278: ("H", [rows or height])}
    bodies = [zlib.compress(part.tobytes()) if packed else part.tobytes() for part in parts]
    data, starts = b"", []
    for body in bodies:
        data += gap
        starts.append(8 + len(data))
        data += body
    where, how_long = (324, 325) if tile else (273, 279)
    fixed.update({256: ("H", [width]), 257: ("H", [height]), 258: ("H", [8]), 259: ("H", [8 if packed else 1]), 262: ("H", [1]),
                  277: ("H", [1]), where: ("L", starts), how_long: ("L", [len(body) for body in bodies])})
    fixed.update({int(name[1:]): value for name, value in fields.items()})
    return directory(order, data, {tag: value for tag, value in fixed.items() if value is not None})


def directory(order, data, fields, following=0):
    """A TIFF file: the data from byte 8 on, then the directory of these fields and what does not fit into it."""
    kinds = {"B": 1, "s": 2, "H": 3, "L": 4, "R": 5}
    start = 8 + len(data)
    behind, entries = start + 6 + 12 * len(fields), b""
    extra = b""
    for tag, (letter, numbers) in sorted(fields.items()):
        count = len(numbers) // (2 if letter == "R" else 1)
        body = numbers if letter == "s" else struct.pack(order + len(numbers) * letter.replace("R", "L"), *numbers)
        if len(body) > 4:
            place, extra = behind + len(extra), extra + body
            body = struct.pack(order + "L", place)
        entries += struct.pack(order + "HHL", tag, kinds[letter], count) + body.ljust(4, b"\0")
    mark = b"II*\0" if order == "<" else b"MM\0*"
    return b"".join([mark, struct.pack(order + "L", start), data, struct.pack(order + "H", len(fields)), entries,
                     struct.pack(order + "L", following), extra])


def resolution(data):
    """The fields of a TIFF file's resolution, as Pillow reads them: fractions as two numbers."""
    with Image.open(io.BytesIO(data)) as image:
        image.load()
        found = {tag: image.tag_v2[tag] for tag in (282, 283, 296) if tag in image.tag_v2}
    return {tag: value if tag == 296 else (value._numerator, value._denominator) for tag, value in found.items()}


class Pictures(unittest.TestCase):
    """Pictures are read from a file in a folder of the test's own; standard error is watched."""

    def setUp(self):
        folder = tempfile.TemporaryDirectory()
        self.addCleanup(folder.cleanup)
        self.folder, self.files = folder.name, 0
        self.stderr, self.saved_stderr = tempfile.TemporaryFile(), os.dup(2)
        self.addCleanup(self.assert_stderr_empty)

    def assert_stderr_empty(self):
        """Nothing has come to standard error."""
        os.close(self.saved_stderr)
        with self.stderr:
            self.stderr.seek(0)
            self.assertEqual(self.stderr.read(), b"")

    def read(self, data):
        self.files += 1
        path = os.path.join(self.folder, str(self.files))
        with open(path, "wb") as file:
            file.write(data)
        sys.stderr.flush()
        os.dup2(self.stderr.fileno(), 2)
        try:
            return read_picture(path)
        finally:
            sys.stderr.flush()
            os.dup2(self.saved_stderr, 2)
            os.unlink(path)

    def assert_fails(self, data, words, error=ValueError):
        with self.assertRaises(error) as raised:
            self.read(data)
        self.assertIs(type(raised.exception), error)
        self.assertIn(words, str(raised.exception))
        self.assertNotIn("\n", str(raised.exception))

    def assert_round_trip(self, data, samples=GREY, format_name=None):
        """The picture, which has these samples, and again when it is written with them and others; and those bytes."""
        picture = self.read(data)
        self.assertEqual((picture.samples.tolist(), picture.samples.dtype), (samples.tolist(), np.uint8))
        self.assertEqual(picture.format, format_name or picture.format)
        other = picture.maxval - samples
        written = picture.encode(other)
        again = self.read(written)
        self.assertEqual(again.samples.tolist(), other.tolist())
        self.assertEqual((again.format, again.maxval, again.metadata), (picture.format, picture.maxval, picture.metadata))
        return picture, written

    def assert_refused_or_same(self, data, samples=GREY):
        """A damaged picture is a fault that is told, or its samples are the same."""
        try:
            found = self.read(data).samples
        except (ValueError, Refused) as error:
            self.assertNotIn("0x", str(error))
            return False
        self.assertEqual(found.tolist(), samples.tolist())
        return True


class Pgm(Pictures):
    def test_formats(self):
        plain = b"P2 # a\n#b\n2 # c\r\n1#d\n\n255 # e\n7 # f\n9\n# g"
        picture, written = self.assert_round_trip(plain, np.array([[7, 9]], np.uint8), "PGM")
        self.assertEqual(written, b"P2\n2 1\n255\n248 246\n")
        binary = b"P5\n# made by hand\n2 1\n# once more\n255\n##"
        picture, written = self.assert_round_trip(binary, np.array([[35, 35]], np.uint8), "PGM")
        self.assertEqual(written, b"P5\n2 1\n255\n\xdc\xdc")
        self.assert_round_trip(b"P5 11 13 255 " + GREY.tobytes())

    def test_scaled_as_the_scripts_do(self):
        """Codes as pgm2tape.py has them, and samples of an image as answer2pgm.py."""
        for maxval in 1, 63, 254, 255:
            samples = (np.arange(2 * (maxval + 1)).reshape(2, -1) % (maxval + 1)).astype(np.uint8)
            values = np.arange(2 * (maxval + 1)).reshape(2, -1) * 65535 // (2 * maxval + 1)
            text = pgm.text(samples.tolist(), maxval).encode()
            for data in text, b"P5 %d 2 %d\n" % (maxval + 1, maxval) + samples.tobytes():
                picture, _ = self.assert_round_trip(data, samples)
                self.assertEqual(picture.maxval, maxval)
                self.assertEqual((picture.codes.tolist(), picture.maxval), pgm2tape.read(data))
                self.assertEqual(picture.codes.dtype, np.uint8)
                due = [[answer2pgm.sample(int(value), maxval) for value in row] for row in values]
                found = self.read(picture.encode((values * (maxval + 1) // 65536).astype(np.uint8)))
                self.assertEqual(found.samples.tolist(), due)

    def test_faults(self):
        for data, words in [
            (b"", "empty, not a picture"),
            (b"P", "not a PGM (P2 or P5), PNG or TIFF picture"),
            (b"some text\n", "not a PGM (P2 or P5), PNG or TIFF picture"),
            (b"P6 1 1 255\n000", "not a PGM (P2 or P5), PNG or TIFF picture"),
            (b"P5 1 1", "its heading is damaged"),
            (b"P2 -1 1 255 1", "its heading is damaged"),
            (b"P5 #" + 70000 * b"x" + b"\n1 1 255\n1", "its heading is damaged"),
            (b"P2 1 1 255 # open", "0 samples, but 1 x 1 pixels need 1"),
            (b"P5 2 2 255\n123", "3 samples, but 2 x 2 pixels need 4"),
            (b"P2 2 2 255\n1 2 3", "3 samples, but 2 x 2 pixels need 4"),
            (b"P2 2 2 255\n1 2 3 4 5", "5 samples, but 2 x 2 pixels need 4"),
            (b"P5 2 1 255\n123", "3 samples at least, but 2 x 1 pixels need 2"),
            (b"P2 1 1 0\n0", "maxval 0"),
            (b"P2 2 1 63\n1 64\n", "a sample is not a number from 0 to 63"),
            (b"P2 2 1 255\n1 256\n", "a sample is not a number from 0 to 255"),
            (b"P5 1 1 63\n\x40", "a sample is not a number from 0 to 63"),
            (b"P2 2 1 255\n1 -1\n", "a sample is not a whole number"),
            (b"P2 1 1 255\n" + 9999 * b"1", "a sample is not a whole number"),
            (b"P5 1 1 256\n\0\0", "maxval 256: samples of 16 bits are not taken"),
            (b"P2 1 1 65535\n0", "maxval 65535: samples of 16 bits are not taken"),
        ]:
            with self.subTest(data[:20]):
                self.assert_fails(data, words)

    def test_sizes(self):
        """By the heading alone."""
        for size in "0 5", "5 0", "4097 1", "1 4097", "1025 1024", "999999999 999999999":
            for kind in "P2", "P5":
                self.assert_fails(f"{kind} {size} 255\n".encode(), f"refused 1 at 0 ({size.replace(' ', ' x ')} pixels)",
                                  Refused)

    def test_cut(self):
        samples = GREY[:5]
        binary = b"P5\n# a\n11 5\n255\n" + samples.tobytes()
        for length in range(len(binary)):
            self.assertFalse(self.assert_refused_or_same(binary[:length], samples))
        plain = pgm.text((100 + samples % 100).tolist()).encode()  # what is left of a number shows that it was cut
        for length in range(len(plain) - 4):
            self.assertFalse(self.assert_refused_or_same(plain[:length], samples))


class Png(Pictures):
    def test_resolution(self):
        for unit in 0, 1:
            body = struct.pack(">IIB", 11811, 2**31 - 1, unit)
            _, written = self.assert_round_trip(png(GREY, chunk(b"pHYs", body)), format_name="PNG")
            self.assertEqual(written.count(chunk(b"pHYs", body)), 1)
        for data in png(), pillow_bytes(GREY, "PNG"):
            self.assertNotIn(b"pHYs", self.assert_round_trip(data)[1])
        data = pillow_bytes(GREY, "PNG", dpi=(300, 300.3))
        with Image.open(io.BytesIO(self.assert_round_trip(data)[1])) as image:
            self.assertEqual(image.info["dpi"], Image.open(io.BytesIO(data)).info["dpi"])

    def test_formats(self):
        """Interlaced, of every small size; in several pieces; with words beside it."""
        for height in range(1, 10):
            for width in range(1, 10):
                samples = GREY[:height, :width]
                self.assertEqual(self.read(png(samples, interlaced=True)).samples.tolist(), samples.tolist())
        self.assert_round_trip(png(interlaced=True))
        large = np.random.default_rng(2).integers(0, 256, (300, 400), dtype=np.uint8)
        self.assertGreater(pillow_bytes(large, "PNG").count(b"IDAT"), 1)
        self.assert_round_trip(pillow_bytes(large, "PNG"), large)
        words = chunk(b"zTXt", b"long\0\0" + zlib.compress(bytes(2000000)))
        self.assert_round_trip(png(GREY, chunk(b"gAMA", struct.pack(">I", 45455)), words))

    def test_faults(self):
        still = Image.fromarray(GREY)
        for data, words in [
            (pillow_bytes(DEEP, "PNG"), "has 16 bits for a sample: save it with 8"),
            (pillow_bytes(still.convert("1"), "PNG"), "has 1 bits"),
            (png(header=struct.pack(">IIBBBBB", 11, 13, 2, 0, 0, 0, 0)), "has 2 bits"),
            (png(header=struct.pack(">IIBBBBB", 11, 13, 4, 0, 0, 0, 0)), "has 4 bits"),
            (pillow_bytes(still.convert("P"), "PNG"), "has a palette: save it as a grey picture"),
            (pillow_bytes(still.convert("RGB"), "PNG"), "has colour: save it as a grey picture"),
            (pillow_bytes(still.convert("LA"), "PNG"), "has transparency: save it as a grey picture"),
            (pillow_bytes(still.convert("RGBA"), "PNG"), "has colour and transparency: save it as a grey picture"),
            (png(header=struct.pack(">IIBBBBB", 11, 13, 8, 7, 0, 0, 0)), "has an unknown kind of colour"),
            (pillow_bytes(GREY, "PNG", transparency=7), "has a transparent value"),
            (pillow_bytes(still, "PNG", save_all=True, append_images=[Image.fromarray(255 - GREY)]), "is animated"),
            (png(header=b"short"), "cut off or damaged, not a whole PNG picture"),
            (png(header=struct.pack(">IIBBBBB", 11, 13, 8, 0, 9, 9, 9)), "cut off or damaged"),
            (png(rows=b"\0" + GREY[0].tobytes()), "cut off or damaged"),
            (png(rows=(b"\0" + GREY[0].tobytes()) * 14), "cut off or damaged"),
            (png(rows=(b"\7" + GREY[0].tobytes()) * 13), "cut off or damaged"),
            (png(GREY, chunk(b"IHDR", struct.pack(">IIBBBBB", 7, 7, 8, 0, 0, 0, 0))), "cut off or damaged"),
            (png(GREY, chunk(b"IEND", b"")), "cut off or damaged"),
            (pillow_bytes(GREY, "JPEG"), "not a PGM (P2 or P5), PNG or TIFF picture"),
            (pillow_bytes(GREY, "GIF"), "not a PGM (P2 or P5), PNG or TIFF picture"),
        ]:
            with self.subTest(words):
                self.assert_fails(data, words)

    def test_sizes(self):
        """By the heading alone, without the memory that such a picture needs."""
        for size in (0, 5), (5, 0), (4097, 1), (1025, 1024), (60000, 60000), (2**32 - 1, 2**32 - 1):
            header = struct.pack(">IIBBBBB", *size, 8, 0, 0, 0, 0)
            self.assert_fails(png(header=header), "refused 1 at 0 ({} x {} pixels)".format(*size), Refused)

    def test_cut(self):
        for data in png(GREY, chunk(b"pHYs", bytes(9))), pillow_bytes(GREY, "PNG"):
            for length in range(len(data)):
                self.assertFalse(self.assert_refused_or_same(data[:length]))

    def test_flipped(self):
        """A bit that is not as it was, at any place, does not go unseen."""
        data = pillow_bytes(GREY, "PNG", dpi=(300, 300))
        for place in range(len(data)):
            with self.subTest(place):
                flipped = bytearray(data)
                flipped[place] ^= 1 << place % 8
                self.assertFalse(self.assert_refused_or_same(flipped))


class Tiff(Pictures):
    def test_formats(self):
        for compression in COMPRESSIONS:
            data = pillow_bytes(GREY, "TIFF", compression=compression)
            picture, written = self.assert_round_trip(data, format_name="TIFF")
            with Image.open(io.BytesIO(written)) as image:
                self.assertEqual(image.info["compression"], compression)
            self.assertEqual(resolution(written), {})
        for order in "<", ">":
            for layout in {}, {"rows": 5}, {"rows": 1, "gap": b"?"}, {"tile": 16}, {"tile": 16, "gap": b"??"}:
                for packed in False, True:
                    with self.subTest(order=order, packed=packed, **layout):
                        self.assert_round_trip(tiff(order=order, packed=packed, **layout))
        large = np.random.default_rng(3).integers(0, 256, (300, 400), dtype=np.uint8)
        for compression in COMPRESSIONS:
            self.assert_round_trip(pillow_bytes(large, "TIFF", compression=compression), large)
        self.assert_round_trip(tiff(large, ">", tile=64), large)
        differences = TiffImagePlugin.ImageFileDirectory_v2()
        differences[317] = 2
        self.assert_round_trip(pillow_bytes(large, "TIFF", compression="tiff_lzw", tiffinfo=differences), large)
        data = pillow_bytes(large, "TIFF", compression="jpeg")
        with Image.open(io.BytesIO(data)) as image:
            self.assert_round_trip(data, np.array(image))

    def test_resolution(self):
        """As it stands in the file, whatever its unit and compression."""
        due = {282: (3003, 10), 283: (1234567891, 1000003), 296: 3}
        for order in "<", ">":
            for unit in 1, 2, 3, None:
                fields = {"_282": ("R", due[282]), "_283": ("R", due[283]), "_296": unit and ("H", [unit])}
                _, written = self.assert_round_trip(tiff(order=order, **fields))
                kept = {tag: value for tag, value in {**due, 296: unit}.items() if value is not None}
                self.assertEqual(resolution(written), kept)
        tags = TiffImagePlugin.ImageFileDirectory_v2()
        for tag, value in due.items():
            tags[tag] = value if tag == 296 else TiffImagePlugin.IFDRational(*value)
        for compression in COMPRESSIONS[1:]:
            data = pillow_bytes(GREY, "TIFF", compression=compression, tiffinfo=tags)
            _, written = self.assert_round_trip(data)
            self.assertEqual(resolution(written), resolution(data))
            picture = self.read(tiff(_282=("R", due[282]), _283=("R", due[283]), _296=("H", [3])))
            picture.metadata["compression"] = compression
            self.assertEqual(resolution(picture.encode(GREY)), due)
        for odd in (0, 0), (5, 0), (0, 7), (2**32 - 1, 1), (600, 2):
            picture, _ = self.assert_round_trip(tiff(_282=("R", odd)))
            self.assertEqual(picture.metadata["resolution"], {282: odd})

    def test_faults(self):
        still = Image.fromarray(GREY)
        cut = "cut off or damaged, not a whole TIFF picture"
        for data, words in [
            (pillow_bytes(DEEP, "TIFF"), "has 16 bits for a sample: save it with 8"),
            (pillow_bytes(still.convert("1"), "TIFF"), "has 1 bits for a sample: save it with 8"),
            (pillow_bytes(GREY.astype(np.float32), "TIFF"), "has 32 bits for a sample: save it with 8"),
            (pillow_bytes(GREY.astype(np.int32), "TIFF"), "has 32 bits for a sample: save it with 8"),
            (tiff(_339=("H", [2])), "has signed samples"),
            (tiff(_339=("H", [3])), "has signed samples, or of an unknown kind"),
            (pillow_bytes(still.convert("P"), "TIFF"), "has colour: save it as a grey picture"),
            (pillow_bytes(still.convert("RGB"), "TIFF"), "has colour: save it as a grey picture"),
            (pillow_bytes(still.convert("LA"), "TIFF"), "has transparency or several values for a pixel"),
            (tiff(_262=("H", [0])), "is stored with 0 for white"),
            (tiff(_274=("H", [3])), "is stored turned or mirrored"),
            (pillow_bytes(still, "TIFF", save_all=True, append_images=[still]), "has more than one picture: save one of them"),
            (tiff(_262=None), cut),
            (tiff(_256=None), cut),
            (tiff(_273=None), cut),
            (tiff(_279=None), cut),
            (tiff(_279=("L", [GREY.size - 1])), cut),
            (tiff(_273=("L", [5000])), cut),
            (tiff(rows=5, _273=("L", [8, 63])), cut),
            (tiff(rows=5, _278=None), cut),
            (tiff(_278=("H", [0])), cut),
            (tiff(tile=16, _322=("H", [0])), cut),
            (tiff(tile=16, _325=("L", [255])), cut),
            (tiff(_259=("H", [5])), cut),
            (tiff(_259=("H", [8])), cut),
            (tiff(0 * GREY, _259=("H", [32773])), cut),
            (tiff(_259=("H", [4711])), "is compressed by method 4711: save it without compression"),
            (b"II+\0" + bytes(100), "not a PGM (P2 or P5), PNG or TIFF picture"),
        ]:
            with self.subTest(words, data=data[-200:]):
                self.assert_fails(data, words)

    def test_sizes(self):
        """By the directory alone."""
        for size in (0, 5), (5, 0), (4097, 1), (1025, 1024), (60000, 60000), (2**32 - 1, 2**32 - 1):
            data = tiff(_256=("L", size[:1]), _257=("L", size[1:]))
            self.assert_fails(data, "refused 1 at 0 ({} x {} pixels)".format(*size), Refused)

    def test_cut(self):
        """With the directory in front and at the end; nothing of the resolution is lost without a word either."""
        for data in [*(pillow_bytes(GREY, "TIFF", compression=compression, dpi=(300, 300)) for compression in COMPRESSIONS),
                     tiff(rows=5, _282=("R", (300, 1))), tiff(order=">", tile=16), tiff(_305=("s", b"made by hand"))]:
            for length in range(len(data)):
                self.assertFalse(self.assert_refused_or_same(data[:length]))

    def test_damaged(self):
        """Bytes that are not as they were: a fault that is told or other samples, and no word of libtiff's."""
        source = random.Random(4)
        for data in [pillow_bytes(GREY, "TIFF", compression=compression, dpi=(300, 300)) for compression in COMPRESSIONS]:
            faults = 0
            for place in range(len(data)):
                damaged = bytearray(data)
                damaged[place] = source.randrange(256)
                try:
                    self.assertEqual(self.read(damaged).samples.dtype, np.uint8)
                except (ValueError, Refused):
                    faults += 1
            self.assertGreater(faults, 50)


class Files(Pictures):
    def test_not_there(self):
        for path, error in [("no/such", FileNotFoundError), (self.folder, IsADirectoryError)]:
            with self.assertRaises(error):
                read_picture(path)

    def test_closed_standard_error(self):
        """Pictures are decoded all the same."""
        path = os.path.join(self.folder, "in.tif")
        with open(path, "wb") as file:
            file.write(pillow_bytes(GREY, "TIFF", compression="tiff_lzw"))
        os.close(2)
        try:
            found = read_picture(path).samples
        finally:
            os.dup2(self.saved_stderr, 2)
        self.assertEqual(found.tolist(), GREY.tolist())


if __name__ == "__main__":
    unittest.main()
