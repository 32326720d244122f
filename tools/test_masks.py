#!/usr/bin/env python3
"""Tests of mask_from_picture.py, outside the gate: every kind and depth of picture, compared pixel by pixel.

    python3 tools/test_masks.py

The pictures are small, and the tests make them: PNG files by a plain writer of their own, others by Pillow and
tifffile. Masks are read by the plain reader of bench/fuzz. What is expected is made by hand, or pixel by pixel in
fractions. It takes a few seconds, and needs Debian's packages python3-numpy, python3-pil, python3-tifffile and netpbm.
"""

import fractions
import itertools
import math
import os
import random
import shutil
import struct
import subprocess
import sys
import unittest
import unittest.mock
import zlib

from running import without

try:
    import numpy
    import tifffile
    from PIL import Image
except ModuleNotFoundError as missing:
    without(missing)

from testing import TOOLS, TOP, InFolder, pgm, tool

if not shutil.which("pngtopam"):
    sys.exit("test_masks.py: there is no pngtopam: install Debian's package netpbm")

sys.path.insert(0, str(TOP / "bench" / "fuzz"))
import readers    # noqa: E402
import simulator  # noqa: E402

TOOL = "mask_from_picture.py"
CHANNELS = {0: 1, 2: 3, 3: 1, 4: 2, 6: 4}  # samples of a pixel by the colour type of a PNG
WEIGHTS = (fractions.Fraction(299, 1000), fractions.Fraction(587, 1000), fractions.Fraction(114, 1000))


def chunk(kind, data):
    """One chunk of a PNG file."""
    return struct.pack(">I", len(data)) + kind + data + struct.pack(">I", zlib.crc32(kind + data))


def png(rows, colour, bits, extra=b""):
    """A PNG file of rows of samples, a flat list each, without filters."""
    raster = b""
    for row in rows:
        number = 0
        for sample in row:
            number = number << bits | sample
        spare = -len(row) * bits % 8
        raster += b"\0" + (number << spare).to_bytes((len(row) * bits + spare) // 8, "big")
    head = struct.pack(">IIBBBBB", len(rows[0]) // CHANNELS[colour], len(rows), bits, colour, 0, 0, 0)
    return (b"\x89PNG\r\n\x1a\n" + chunk(b"IHDR", head) + extra + chunk(b"IDAT", zlib.compress(raster))
            + chunk(b"IEND", b""))


def rounded(value):
    """The nearest whole number of a fraction, and of two the greater one."""
    return math.floor(value + fractions.Fraction(1, 2))


def luma(pixel):
    """Grey of red, green and blue by the weights of BT.601."""
    return rounded(sum(weight * sample for weight, sample in zip(WEIGHTS, pixel)))


def by_pixel(array, grey):
    """The rows of an array of height, width and samples, each pixel through a function of its samples."""
    return [[grey([int(sample) for sample in pixel]) for pixel in row] for row in array]


class Masks(InFolder):
    """What the tool makes of pictures."""

    def setUp(self):
        super().setUp()
        self.chance = numpy.random.default_rng(7)

    def random(self, shape, top=255, kind=numpy.uint8):
        """An array of this shape with samples up to top, which has both ends."""
        array = self.chance.integers(0, top, shape, endpoint=True).astype(kind)
        array.ravel()[[0, -1]] = 0, top
        return array

    def made(self, picture, *words):
        """Rows and maxval of the mask that the tool makes, and what it said."""
        target = self.folder / "mask.pgm"
        target.unlink(missing_ok=True)
        status, text, said = tool(TOOL, picture, target, *words)
        self.assertEqual((status, text, said.count("\n")), (0, "", 1), said)
        image = readers.read_image(target.read_bytes())
        rows = [list(image.samples[y * image.width:(y + 1) * image.width]) for y in range(image.height)]
        self.assertEqual(target.read_bytes(), pgm(rows, image.maxval))
        return rows, image.maxval, said

    def check(self, picture, rows, top, *words, says=""):
        """Check the mask of a picture, pixel by pixel."""
        found = self.made(picture, *words)
        self.assertEqual(found[:2], ([list(map(int, row)) for row in rows], top), picture)
        self.assertIn(says, found[2])
        self.assertIn(f"maxval {top}, values {min(map(min, rows))} to {max(map(max, rows))}", found[2])

    def fails(self, words, line, status=1):
        """Check that the tool refuses, and writes nothing."""
        before = sorted(self.folder.iterdir())
        self.refused(TOOL, words, line, status)
        self.assertEqual(sorted(self.folder.iterdir()), before)

    # ---- PNG ----

    def test_png_grey(self):
        for bits in (1, 2, 4, 8, 16):
            top, shown = 2 ** bits - 1, 65535 if bits == 16 else 255
            rows = self.random((5, 11), top, numpy.uint16).tolist()
            path = self.put(f"grey{bits}.png", png(rows, 0, bits))
            self.check(path, [[sample * shown // top for sample in row] for row in rows], shown,
                       says="" if bits >= 8 else f"{bits}-bit samples stretched to 8 bits")

    def test_png_colour(self):
        for bits in (8, 16):
            top = 2 ** bits - 1
            array = self.random((4, 7, 3), top, numpy.uint16)
            path = self.put(f"colour{bits}.png", png(array.reshape(4, -1).tolist(), 2, bits))
            self.check(path, by_pixel(array, luma), top, says="grey by luma: 0.299 red")
            self.check(path, by_pixel(array, lambda pixel: rounded(fractions.Fraction(sum(pixel), 3))), top,
                       "--grey", "mean", says="grey by mean")
            self.check(path, by_pixel(array, max), top, "--grey", "max")
            self.check(path, by_pixel(array, min), top, "--grey", "min")
            for number, name in enumerate(("red", "green", "blue")):
                self.check(path, array[:, :, number], top, "--channel", name, says=f"channel {name}")
            self.check(path, by_pixel(array, lambda pixel: top - luma(pixel)), top, "--inverse", says="inverse")

    def test_png_colours_that_are_grey(self):
        for bits in (8, 16):
            grey = self.random((3, 5), 2 ** bits - 1, numpy.uint16)
            path = self.put("grey.png", png(grey.repeat(3, axis=1).tolist(), 2, bits))
            self.check(path, grey, 2 ** bits - 1, says="since its colours are equal")

    def test_png_alpha(self):
        for bits, colour in itertools.product((8, 16), (4, 6)):
            top = 2 ** bits - 1
            array = self.random((4, 6, CHANNELS[colour]), top, numpy.uint16)
            path = self.put("alpha.png", png(array.reshape(4, -1).tolist(), colour, bits))
            grey = (lambda pixel: pixel[0]) if colour == 4 else (lambda pixel: luma(pixel[:3]))
            self.fails([path, self.folder / "no.pgm"], "--ground black")
            self.check(path, by_pixel(array, grey), top, "--ground", "none", says="alpha left out")
            self.check(path, array[:, :, -1], top, "--channel", "alpha")
            for ground, behind in (("black", 0), ("white", top)):
                def laid(pixel, behind=behind, top=top):
                    share = fractions.Fraction(pixel[-1], top)
                    return [rounded(sample * share + behind * (1 - share)) for sample in pixel[:-1]]
                self.check(path, by_pixel(array, lambda pixel, laid=laid: grey(laid(pixel))), top, "--ground", ground,
                           says=f"on {ground} ground")
            array[:, :, -1] = top
            path = self.put("opaque.png", png(array.reshape(4, -1).tolist(), colour, bits))
            self.check(path, by_pixel(array, grey), top)

    def test_png_one_transparent_value(self):
        for bits in (1, 2, 4):
            top, rows = 2 ** bits - 1, self.random((3, 10), 2 ** bits - 1).tolist()
            path = self.put("few.png", png(rows, 0, bits, chunk(b"tRNS", struct.pack(">H", 1))))
            self.check(path, [[0 if sample == 1 else sample * 255 // top for sample in row] for row in rows], 255,
                       "--ground", "black", says=f"{bits}-bit samples stretched")
        rows = [[0, 300, 65535], [7, 300, 9]]
        path = self.put("one.png", png(rows, 0, 16, chunk(b"tRNS", struct.pack(">H", 300))))
        self.check(path, [[0, 0, 65535], [7, 0, 9]], 65535, "--ground", "black")
        rows = [[0, 30, 255], [7, 30, 9]]
        path = self.put("eight.png", png(rows, 0, 8, chunk(b"tRNS", struct.pack(">H", 30))))
        self.check(path, [[0, 255, 255], [7, 255, 9]], 255, "--ground", "white")

    def test_png_of_few_significant_bits(self):
        for colour in (2, 6):
            array = self.random((3, 4, CHANNELS[colour]), 65535, numpy.uint16)
            path = self.put("few.png", png(array.reshape(3, -1).tolist(), colour, 16,
                                           chunk(b"sBIT", bytes([12] * CHANNELS[colour]))))
            self.check(path, array[:, :, 1], 65535, "--channel", "green")

    def test_png_palette(self):
        palette = bytes([0, 0, 0, 255, 0, 10, 8, 8, 8, 3, 200, 1])
        for bits in (2, 4, 8):
            rows = self.random((3, 6), 3).tolist()
            path = self.put("palette.png", png(rows, 3, bits, chunk(b"PLTE", palette)))
            colours = [[luma(palette[3 * index:3 * index + 3]) for index in row] for row in rows]
            self.check(path, colours, 255)
            self.check(path, rows, 255, "--channel", "index", says="channel index")
            path = self.put("clear.png", png(rows, 3, bits, chunk(b"PLTE", palette) + chunk(b"tRNS", b"\xff\0")))
            laid = [[255 if index == 1 else grey for index, grey in zip(*both)] for both in zip(rows, colours)]
            self.check(path, laid, 255, "--ground", "white")

    # ---- JPEG and PGM ----

    def test_jpeg(self):
        flat = numpy.kron(self.random((3, 4)), numpy.ones((8, 8), numpy.uint8))  # (such blocks come back as they were)
        Image.fromarray(flat).save(self.folder / "flat.jpg", quality=100)
        self.check(self.folder / "flat.jpg", flat, 255, says="JPEG, 32 by 24, 8 bits")
        self.check(self.folder / "flat.jpg", 255 - flat, 255, "--inverse")
        for mode, array in (("RGB", self.random((9, 13, 3))), ("CMYK", self.random((9, 13, 4)))):
            path = self.folder / f"{mode}.jpg"
            Image.fromarray(array, mode=mode).save(path)
            with Image.open(path) as picture:
                seen = numpy.asarray(picture.convert("RGB"))
            self.check(path, by_pixel(seen, luma), 255, says="CMYK turned into RGB" if mode == "CMYK" else "")
        exif = Image.Exif()
        exif[0x0112] = 6
        Image.fromarray(flat).save(self.folder / "turned.jpg", quality=100, exif=exif)
        self.check(self.folder / "turned.jpg", flat, 255, says="without the turn that Exif asks for (6)")

    def test_pgm(self):
        for top in (1, 255, 256, 4095, 65535):
            rows = self.random((3, 5), top, numpy.uint16)
            self.check(self.put("grey.pgm", pgm(rows, top)), rows, top)
            self.check(self.put("grey.pgm", pgm(rows, top)), top - rows.astype(int), top, "--inverse")
        self.check(self.put("plain.pgm", "P2 # by hand\n3 1 9\n1 2\n9"), [[1, 2, 9]], 9)
        self.fails([self.put("above.pgm", "P2 2 1 9 1 10"), self.folder / "no.pgm"], "above its maxval 9")

    # ---- TIFF ----

    def tiff(self, name, array, **choices):
        """Write a TIFF."""
        choices.setdefault("photometric", "minisblack")
        tifffile.imwrite(self.folder / name, array, **choices)
        return self.folder / name

    def test_tiff_grey(self):
        for bits, order, packing in itertools.product((8, 16), "<>", (None, "zlib")):
            array = self.random((5, 7), 2 ** bits - 1, f"u{bits // 8}")
            self.check(self.tiff("grey.tif", array, byteorder=order, compression=packing), array, 2 ** bits - 1,
                       says=f"TIFF, 7 by 5, {bits} bits")
        self.check(self.tiff("big.tif", array, bigtiff=True), array, 65535)
        self.check(self.tiff("strips.tif", array, rowsperstrip=2), array, 65535)
        wide = self.random((40, 35), 65535, numpy.uint16)
        self.check(self.tiff("tiles.tif", wide, tile=(16, 16)), wide, 65535)

    def test_tiff_that_pillow_unpacks(self):
        for kind, packing in itertools.product((numpy.uint8, numpy.uint16), ("tiff_lzw", "packbits")):
            array = self.random((5, 7), numpy.iinfo(kind).max, kind)
            Image.fromarray(array).save(self.folder / "packed.tif", compression=packing)
            self.check(self.folder / "packed.tif", array, numpy.iinfo(kind).max)
        array = self.random((5, 7, 3))
        Image.fromarray(array).save(self.folder / "packed.tif", compression="tiff_lzw")
        self.check(self.folder / "packed.tif", by_pixel(array, luma), 255)
        pages = [self.random((4, 3)) for _ in range(3)]
        first, *others = map(Image.fromarray, pages)
        first.save(self.folder / "stack.tif", compression="tiff_lzw", save_all=True, append_images=others)
        self.check(self.folder / "stack.tif", pages[1], 255, "--page", 2, says="page 2")
        for mode in ("CMYK", "LAB"):
            array = self.random((5, 7, len(mode)))
            Image.fromarray(array, mode=mode).save(self.folder / "other.tif")
            if mode == "LAB":
                self.fails([self.folder / "other.tif", self.folder / "no.pgm"], "save it as RGB or grey")
            else:
                with Image.open(self.folder / "other.tif") as picture:
                    seen = numpy.asarray(picture.convert("RGB"))
                self.check(self.folder / "other.tif", by_pixel(seen, luma), 255, says="CMYK turned into RGB")
        black = self.random((5, 11), 1, bool)
        Image.fromarray(black).save(self.folder / "fax.tif", compression="group4")
        self.check(self.folder / "fax.tif", black.astype(int) * 255, 255)

    def test_tiff_colour(self):
        for bits, layout in itertools.product((8, 16), ("contig", "separate")):
            top = 2 ** bits - 1
            array = self.random((5, 7, 3), top, f"u{bits // 8}")
            stored = array if layout == "contig" else numpy.moveaxis(array, -1, 0)
            path = self.tiff("colour.tif", stored, photometric="rgb", planarconfig=layout)
            self.check(path, by_pixel(array, luma), top)
            self.check(path, array[:, :, 2], top, "--channel", "blue")
            array = self.random((5, 7, 4), top, f"u{bits // 8}")
            path = self.tiff("alpha.tif", array, photometric="rgb", extrasamples=["unassalpha"])
            self.check(path, by_pixel(array, lambda pixel: luma(pixel[:3])), top, "--ground", "none")
            path = self.tiff("fourth.tif", array, photometric="rgb", extrasamples=["unspecified"])
            self.check(path, by_pixel(array, lambda pixel: luma(pixel[:3])), top, says="without channel 4")
            self.check(path, array[:, :, 3], top, "--channel", "4")
        laid = numpy.array([[[10, 20, 30, 100], [0, 0, 0, 0]]], numpy.uint8)
        path = self.tiff("laid.tif", laid, photometric="rgb", extrasamples=["assocalpha"])
        self.check(path, [[luma((10, 20, 30)), 0]], 255, "--ground", "black")
        self.check(path, [[luma((165, 175, 185)), 255]], 255, "--ground", "white")

    def test_tiff_channels(self):
        array = self.random((4, 6, 5), 65535, numpy.uint16)
        path = self.tiff("five.tif", array, planarconfig="contig")
        self.fails([path, self.folder / "no.pgm"], "5 channels without a colour: choose one, by --channel 1 up to")
        self.fails([path, self.folder / "no.pgm", "--channel", "6"], "no channel 6: choose one of 1, 2, 3, 4, 5")
        self.fails([path, self.folder / "no.pgm", "--channel", "red"], "no channel red")
        for number in range(5):
            self.check(path, array[:, :, number], 65535, "--channel", number + 1)
        path = self.tiff("planes.tif", numpy.moveaxis(array, -1, 0), planarconfig="separate")
        self.check(path, array[:, :, 3], 65535, "--channel", 4)

    def test_tiff_white_is_nought(self):
        array = self.random((3, 5), 65535, numpy.uint16)
        self.check(self.tiff("white.tif", array, photometric="miniswhite"), 65535 - array.astype(int), 65535,
                   says="its 0 is white")
        bits = self.random((3, 9), 1, bool)
        self.check(self.tiff("bits.tif", bits), bits.astype(int) * 255, 255, says="1-bit samples stretched to 8 bits")
        self.check(self.tiff("fax.tif", bits, photometric="miniswhite"), 255 - bits.astype(int) * 255, 255)

    def test_tiff_palette(self):
        index = self.random((3, 5), 3)
        for times, top in ((257, 255), (256, 255), (1, 65535)):
            colours = self.random((3, 256), 255 if times > 1 else 65535, numpy.uint16)
            path = self.tiff("palette.tif", index, photometric="palette", colormap=colours * numpy.uint16(times))
            self.check(path, [[luma(colours[:, number].tolist()) for number in row] for row in index], top)
            self.check(path, index, top, "--channel", "index")

    def test_tiff_pages(self):
        stack = self.random((5, 4, 6), 65535, numpy.uint16)
        for choices in ({}, {"imagej": True}):
            path = self.tiff("stack.tif", stack, **choices)
            for number in range(5):
                self.check(path, stack[number], 65535, "--page", number + 1, says=f"page {number + 1}")
            self.fails([path, self.folder / "no.pgm"], "has 5 pages: choose one, by --page 1 up to --page 5")
            self.fails([path, self.folder / "no.pgm", "--page", 6], "--page goes from 1 to 5")
        with tifffile.TiffWriter(self.folder / "sizes.tif") as file:
            file.write(stack[0], photometric="minisblack")
            file.write(stack[1, :2, :3], photometric="minisblack")
        self.check(self.folder / "sizes.tif", stack[1, :2, :3], 65535, "--page", 2)
        self.fails([self.tiff("block.tif", stack, truncate=True), self.folder / "no.pgm"], "as one block")
        self.check(self.tiff("one.tif", stack[0]), stack[0], 65535, "--page", 1)

    # ---- Ranges ----

    def test_range(self):
        for kind in ("i1", "i2", "i4", "u4", "i8", "u8", "f2", "f4", "f8"):
            low, high = (-100, 120) if kind[0] != "u" else (5, 120)
            array = self.chance.integers(low, high, (6, 8), endpoint=True).astype(kind)
            array[0, :2] = low, high
            path = self.tiff("kind.tif", array)
            self.fails([path, self.folder / "no.pgm"], f"from {low} to {high}. Say by --range LOW HIGH")
            for least, greatest in ((low, high), (low + 30, high - 10), (low - 7, high + 1)):
                rows = by_pixel(array[:, :, None], lambda pixel, a=least, b=greatest: rounded(
                    fractions.Fraction(65535 * (min(max(pixel[0], a), b) - a), b - a)))
                found, top, said = self.made(path, "--range", least, greatest)
                self.assertEqual(top, 65535)
                self.assertLessEqual(max(abs(x - y) for x, y in zip(sum(found, []), sum(rows, []))), 1)
                self.assertEqual(sum(x != y for x, y in zip(sum(found, []), sum(rows, []))), 0)
                self.assertIn(f"from {least} to {greatest} made 0 to 65535", said)
            whole = self.made(path, "--range", "0%", "100%")[0]
            self.assertEqual(whole, self.made(path, "--range", low, high)[0])
            self.assertEqual(self.made(path, "--range", low, high, "--inverse")[0],
                             [[65535 - sample for sample in row] for row in whole])

    def test_range_of_depths_that_need_none(self):
        rows = [[0, 10, 20, 30, 250]]
        self.check(self.put("grey.png", png(rows, 0, 8)), [[0, 0, 128, 255, 255]], 255, "--range", 10, 30,
                   says="from 10 to 30 made 0 to 255, 40 % of the pixels beyond")
        rows = [[0, 1000, 2000, 4000]]
        self.check(self.put("deep.png", png(rows, 0, 16)), [[0, 16384, 32768, 65535]], 65535, "--range", 0, 4000)
        signed = self.tiff("signed.tif", numpy.array([[-100, 120]], numpy.int8))
        self.check(signed, [[0, 65535]], 65535, "--range", "0%", "50%", says="from -100 to 10 made 0 to 65535")
        hot = [[k for k in range(999)] + [65535]]
        found, _, said = self.made(self.put("hot.png", png(hot, 0, 16)), "--range", "0%", "99.8%")
        self.assertEqual((found[0][0], found[0][998], found[0][999]), (0, 65535, 65535))
        self.assertIn("from 0 to 997.002", said)

    def test_range_on_colours(self):
        array = self.chance.random((4, 5, 3)).astype(numpy.float32)
        path = self.tiff("float.tif", array, photometric="rgb")
        found, top, said = self.made(path, "--range", 0, 1)
        self.assertEqual(top, 65535)
        self.assertIn("floats of 32 bits", said)
        for row, pixels in zip(found, array.astype(float)):
            for sample, pixel in zip(row, pixels):
                exact = 65535 * (0.299 * pixel[0] + 0.587 * pixel[1] + 0.114 * pixel[2])
                self.assertLessEqual(abs(sample - exact), 0.5001)

    def test_range_refused(self):
        path = self.tiff("flat.tif", numpy.full((2, 3), -4, numpy.int16))
        target = self.folder / "no.pgm"
        self.fails([path, target, "--range", "0%", "100%"], "from -4 to -4: name one, by --range LOW HIGH")
        self.fails([path, target, "--range", 5, 1], "whose low end is below")
        gaps = self.tiff("gaps.tif", numpy.array([[0.5, numpy.nan, 1]], numpy.float32))
        self.fails([gaps, target, "--range", 0, 1], "1 pixels without a number (NaN): say by --missing")
        self.check(gaps, [[32768, 0, 65535]], 65535, "--range", 0, 1, "--missing", 0, says="1 pixels without a number")
        endless = self.tiff("endless.tif", numpy.array([[0.5, numpy.inf, -numpy.inf]], numpy.float32))
        self.fails([endless, target, "--range", "0%", "100%"], "finite")
        self.check(endless, [[32768, 65535, 0]], 65535, "--range", 0, 1)
        self.fails([self.tiff("complex.tif", numpy.ones((2, 3), numpy.complex64)), target], "no shades of grey")
        for words in (["--missing", "nan"], ["--missing", "none"], ["--range", 1], ["--range", "a", 1],
                      ["--range", "0%", "101%"], ["--range", 0, "nan"]):
            self.fails([path, target, *words], "usage:", 2)

    # ---- Preview, state files, refusals ----

    def test_preview(self):
        seen = self.folder / "seen.png"
        for rows, colours, bits in (([[0, 100, 200]], [[0, 100, 200]], 8), ([[0, 500, 1000]], [[0, 127, 255]], 16)):
            self.made(self.put("grey.png", png(rows, 0, bits)), "--preview", seen)
            with Image.open(seen) as picture:
                self.assertEqual(numpy.asarray(picture).tolist(), colours)
        self.made(self.put("wide.png", png([[255] * 3000] * 30, 0, 8)), "--preview", seen)
        with Image.open(seen) as picture:
            self.assertEqual((picture.size, numpy.asarray(picture).min()), ((1024, 10), 255))

    def test_mask_of_a_state(self):
        mask, path = self.folder / "mask.pgm", self.put("grey.png", png([[5, 6, 7]], 0, 8))
        self.made(path)
        edits = b"disc 67e55044-10b1-426f-9247-bb680e5fe0c8 9 0:1+0\nimage\n"
        self.put("mask.pgm.spd", simulator.view(edits + mask.read_bytes(), 4).kept)
        self.assertEqual(tool(TOOL, path, mask)[0], 0)
        before = mask.read_bytes()
        self.fails([path, mask, "--inverse"], "has strokes for another mask than this one")
        self.assertEqual(mask.read_bytes(), before)
        self.put("mask.pgm.spd", b"")
        self.assertEqual(tool(TOOL, path, mask, "--inverse")[0], 0)

    def test_refused(self):
        picture, target = self.put("grey.png", png([[1, 2], [3, 4]], 0, 8)), self.folder / "no.pgm"
        self.fails([self.folder / "none.png", target], "none.png: No such file")
        for name, data in (("text.png", b"hello"), ("none.png", b""), ("gif.png", b"GIF89a...")):
            self.fails([self.put(name, data), target], "is no PNG, TIFF, JPEG or PGM: save it as one of these")
        Image.fromarray(self.random((40, 40))).save(self.folder / "cut.jpg")
        whole = {"cut.png": png(self.random((40, 40)).tolist(), 0, 8), "cut.tif": self.tiff(
            "whole.tif", self.random((40, 40))).read_bytes(), "cut.jpg": (self.folder / "cut.jpg").read_bytes(),
                 "deep.png": png(self.random((40, 120), 65535, numpy.uint16).tolist(), 2, 16)}
        for name, data in whole.items():
            for part in (8, 20, 60, len(data) // 2):
                self.fails([self.put(name, data[:part]), target], "cannot be read")
        self.fails([self.put("cut.pgm", b"P5\n3 2\n255\nabc"), target], "samples are not 3 by 2")
        self.fails([picture, target, "--page", 2], "one page alone")
        self.fails([picture, target, "--channel", "red"], "no channel red: choose one of grey")
        self.fails([picture, picture], "is to be a PGM file")
        self.fails([picture, self.folder / "mask.TIF"], "call it")
        self.fails([picture, target, "--preview", target], "names of their own")
        self.fails([self.put("in.pgm", pgm([[1]])), self.folder / "in.pgm"], "names of their own")
        self.fails([picture, self.folder / "no" / "mask.pgm"], "cannot be written")
        os.mkfifo(self.folder / "pipe")
        for name in ("pipe", "."):
            self.fails([picture, self.folder / name], "is no file, so none is put in its place")
            self.fails([picture, target, "--preview", self.folder / name], "is no file")
        self.fails([picture, target, "--preview", self.folder / "no" / "seen.png"], "cannot be written")
        for words in ([picture], [], [picture, target, "--page", 0], [picture, target, "--grey", "hue"],
                      [picture, target, "--channel", "red", "--grey", "max"], [picture, target, "--ground", "red"]):
            self.fails(words, "usage:", 2)

    def test_too_large(self):
        target = self.folder / "no.pgm"
        for width, height in ((16385, 1), (1, 16385), (16384, 4097), (2**31 - 1, 2**31 - 1)):
            head = struct.pack(">IIBBBBB", width, height, 8, 0, 0, 0, 0)
            data = b"\x89PNG\r\n\x1a\n" + chunk(b"IHDR", head) + chunk(b"IDAT", b"") + chunk(b"IEND", b"")
            self.fails([self.put("large.png", data), target], f"has {width} by {height} pixels, and Seedpaint takes")
        self.fails([self.put("large.pgm", b"P5 16384 4097 255 "), target], "cut it into parts, or scale it down")
        self.fails([self.put("empty.pgm", b"P5 0 7 255 "), target], "has 0 by 7 pixels, so there is nothing to see")
        data = b"\x89PNG\r\n\x1a\n" + chunk(b"IHDR", struct.pack(">IIBBBBB", 5, 0, 8, 0, 0, 0, 0)) + chunk(b"IEND", b"")
        self.fails([self.put("empty.png", data), target], "has 5 by 0 pixels")
        self.fails([self.tiff("long.tif", numpy.zeros((1, 16385), numpy.uint8)), target], "has 16385 by 1 pixels")
        Image.new("L", (16385, 1)).save(self.folder / "long.jpg")
        self.fails([self.folder / "long.jpg", target], "has 16385 by 1 pixels")
        self.assertEqual(self.made(self.put("side.png", png([[7] * 16384], 0, 8)))[0], [[7] * 16384])

    def test_without_what_is_needed(self):
        path = self.put("deep.png", png([[1, 2, 3]], 2, 16))
        with unittest.mock.patch("shutil.which", return_value=None):
            self.fails([path, self.folder / "no.pgm"], "install Debian's package netpbm")
        for name, package in (("numpy", "numpy"), ("PIL", "pil"), ("tifffile", "tifffile")):
            done = subprocess.run([sys.executable, "-c", f"import sys; sys.modules[{name!r}] = None; sys.argv = ['x']; "
                                   f"sys.path.insert(0, {str(TOOLS)!r}); import mask_from_picture"],
                                  capture_output=True, text=True, check=False)
            self.assertEqual((done.returncode, done.stdout, done.stderr.count("\n")), (1, "", 1), done.stderr)
            self.assertIn(f"install Debian's package python3-{package}, and call the tool by /usr/bin/python3",
                          done.stderr)

    def test_packed_with_all_bits(self):
        array = self.random((4, 5, 3), 65535, numpy.uint16)
        ppm = b"P6\n5 4\n65535\n" + array.astype(">u2").tobytes()
        packed = subprocess.run(["pamtotiff", "-lzw", "-truecolor"], input=ppm, capture_output=True, check=True).stdout
        self.fails([self.put("deep.tif", packed), self.folder / "no.pgm"], "by `tiffcp -c none")

    def test_examples_as_netpbm_reads_them(self):
        for name in ("cells", "grains"):
            path = TOP / "examples" / f"{name}.png"
            self.made(path)
            done = subprocess.run(["pngtopam"], input=path.read_bytes(), capture_output=True, check=True)
            self.assertEqual((self.folder / "mask.pgm").read_bytes(), done.stdout)

    def test_random_pictures(self):
        chance = random.Random(11)
        for _ in range(40):
            bits, colour = chance.choice((8, 16)), chance.choice((0, 2, 4, 6))
            top, height, width = 2 ** bits - 1, chance.randint(1, 9), chance.randint(1, 9)
            array = numpy.array([[[chance.randint(0, top) for _ in range(CHANNELS[colour])] for _ in range(width)]
                                 for _ in range(height)])
            path = self.put("random.png", png(array.reshape(height, -1).tolist(), colour, bits))
            def grey(pixel, colour=colour):
                return luma(pixel[:3]) if colour in (2, 6) else pixel[0]
            self.check(path, by_pixel(array, grey), top, "--ground", "none")

    def test_link(self):
        (self.folder / "link.pgm").symlink_to("place.pgm")
        self.assertEqual(tool(TOOL, self.put("one.png", png([[1, 2]], 0, 8)), self.folder / "link.pgm")[0], 0)
        self.assertTrue((self.folder / "link.pgm").is_symlink())
        self.assertEqual((self.folder / "place.pgm").read_bytes(), pgm([[1, 2]]))

    def test_as_a_program(self):
        path = self.put("one.png", png([[1, 2]], 0, 8))
        done = subprocess.run([sys.executable, TOOLS / TOOL, path, self.folder / "one.pgm"], capture_output=True,
                              check=True)
        self.assertEqual(done.stdout, b"")
        self.assertEqual(done.stderr.decode(), f"mask_from_picture.py: {path} (PNG, 2 by 1, 8 bits); mask "
                         f"{self.folder / 'one.pgm'}: maxval 255, values 1 to 2\n")
        self.assertEqual((self.folder / "one.pgm").read_bytes(), b"P5\n2 1\n255\n\1\2")


if __name__ == "__main__":
    unittest.main()
