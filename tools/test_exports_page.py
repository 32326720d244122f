#!/usr/bin/env python3
"""Tests of the files that the page exports, outside the gate: other programs read them back.

    /usr/bin/python3 tools/test_exports_page.py

Node.js writes files of made-up labellings with the page's own encoders, page/png.js, tiff.js, tables.js, coco.js and
copies.js, and they are read by scikit-image, Pillow, tifffile and numpy, Python's csv, and the plain readers of
reading_exports.py, which decode COCO's run lengths, too. It takes half a minute, and needs Node.js and Debian's
packages python3-numpy, python3-pil, python3-skimage and python3-tifffile.
"""

import csv
import json
import pathlib
import subprocess
import tempfile
import unittest
import uuid
from typing import NamedTuple

from running import without

try:
    import numpy
    import skimage.io
    import tifffile
    from PIL import Image
    from scipy import ndimage
except ModuleNotFoundError as missing:
    without(missing)

from labels_from_result import rows_of, shown, write_table
from pictures import read_grey
from reading_exports import counts_of, places_of, read_png, read_tiff
from strokes import read_live_strokes, spelled_stroke
from testing import TOP

WRITER = TOP / "page" / "tests" / "write_files.js"
NAMES = {1: "Cells", 2: 'round, "bright"', 3: "=1+2", 4: "Zellkörper\nzwei", 5: "Cells"}
AS_WRITTEN = NAMES | {3: "'=1+2"}


# ---- Made-up labellings ----

def objects_of(labels, chance):
    """The objects of labels, and some that have no pixel."""
    numbers = sorted({*numpy.unique(labels).tolist(), *range(1, 4)} - {0})
    return [object_of(number, int(chance.integers(1, 6)), int(chance.integers(1, 9))) for number in numbers]


def object_of(number, in_class, strokes):
    """An object by its tag, which tells its class."""
    tag = uuid.UUID(f"{7:016x}e{number:010x}0{in_class:02x}00")
    return {"number": number, "gesture": tag.hex[:27], "tag": str(tag), "inClass": in_class, "strokes": strokes}


def strokes_of(objects, width, height, chance):
    """A disc or some runs for each object, in any order, as the page has them."""
    strokes = []
    for each in objects:
        y, x, level = (int(chance.integers(limit)) for limit in (height, width, 65536))
        shape = f"{y}:{x}+3" if chance.integers(2) else f"{y}:{x}-{x},{y}:{x}-{width - 1}"
        strokes.append({"kind": "disc" if "+" in shape else "place", "tag": each["tag"], "level": str(level),
                        "shape": shape})
    chance.shuffle(strokes)
    return strokes


def discs(chance, height, width, count):
    """Discs at random places, the later ones over those before."""
    labels = numpy.zeros((height, width), dtype=numpy.int64)
    rows, columns = numpy.ogrid[:height, :width]
    for number in range(1, count + 1):
        y, x, radius = chance.integers(height), chance.integers(width), chance.integers(1, 2 + min(height, width) // 3)
        labels[(rows - y) ** 2 + (columns - x) ** 2 <= radius * radius] = number
    return labels


def labellings():
    """Names, and labels of many sizes: discs, noise, stripes, all one, a single pixel, borders, and none."""
    chance = numpy.random.default_rng(54)
    found = {"one": numpy.array([[1]]), "none": numpy.zeros((3, 5), dtype=int), "all": numpy.full((7, 3), 2),
             "row": chance.integers(0, 4, (1, 16384)), "column": chance.integers(0, 4, (16384, 1)),
             "wide": numpy.repeat(chance.integers(0, 9, (33, 512)), 32, axis=1),
             "most": chance.choice([0, 1, 255, 256, 65534, 65535], (61, 67)),
             "above": chance.choice([0, 65535, 65536, 70000, 2**20], (43, 29))}
    for number in range(40):
        height, width = (int(side) for side in chance.integers(1, 90, 2))
        found[f"discs{number}"] = discs(chance, height, width, int(chance.integers(1, 12)))
        found[f"noise{number}"] = chance.integers(0, int(chance.integers(2, 700)), (height, width))
    columns = numpy.zeros((9, 12), dtype=int)
    columns[:, 4:7], columns[4:, 7], columns[:2, 8], columns[8, 9], columns[0, 10] = 1, 2, 2, 3, 3
    return found | {"columns": columns}


class Case:
    """A labelling, its mask, and the files that the page's encoders made of them."""

    def __init__(self, folder, name, labels, bits, deep):
        chance = numpy.random.default_rng(labels.size + bits)
        self.path, self.labels = folder / f"{name}-{bits}-{'deep' if deep else 'flat'}", labels
        self.maxval = int(chance.choice([4095, 65535, 256] if deep else [255, 1, 100]))
        self.mask = chance.integers(0, self.maxval + 1, labels.shape)
        self.objects = objects_of(labels, chance)
        height, width = labels.shape
        self.strokes = strokes_of(self.objects, width, height, chance)
        about = {"width": width, "height": height, "bits": bits, "maxval": self.maxval, "objects": self.objects,
                 "names": NAMES, "strokes": self.strokes}
        self.file(".case").write_text(json.dumps(about))
        self.file(".numbers").write_bytes(labels.astype(f"<u{bits // 8}").tobytes())
        self.file(".mask").write_bytes(self.mask.astype("<u2" if deep else "u1").tobytes())

    def file(self, ending):
        """A file of this case."""
        return self.path.with_name(self.path.name + ending)

    def present(self):
        """The objects that have pixels, by their numbers."""
        there = set(numpy.unique(self.labels).tolist())
        return [each for each in self.objects if each["number"] in there]


def decoded(segmentation):
    """The mask of a segmentation."""
    mask = numpy.zeros(segmentation["size"], dtype=bool)
    mask[tuple(numpy.array(places_of(segmentation)).T)] = True
    return mask


class Known(NamedTuple):
    """What the table of labels_from_result.py knows of objects."""
    tags: list
    strokes: list


class Exports(unittest.TestCase):
    """Each file, read back."""

    @classmethod
    def setUpClass(cls):
        folder = tempfile.TemporaryDirectory()
        cls.addClassCleanup(folder.cleanup)
        cls.cases = []
        for number, (name, labels) in enumerate(labellings().items()):
            for bits in [16, 32] if labels.max() < 65536 else [32]:
                cls.cases.append(Case(pathlib.Path(folder.name), name, labels, bits, number % 2 == bits // 32))
        subprocess.run(["node", WRITER, folder.name], check=True)

    def of_each(self):
        """Each case in a test of its own."""
        for case in self.cases:
            with self.subTest(case.path.name):
                yield case

    def same(self, found, expected, kind):
        """Check an array and the kind of its samples."""
        self.assertEqual(found.dtype.newbyteorder("="), numpy.dtype(kind))
        numpy.testing.assert_array_equal(found.reshape(expected.shape), expected)
        self.assertEqual(found.shape, expected.shape)

    def plain(self, samples, bits):
        """What the plain readers find."""
        return samples.shape[1], samples.shape[0], bits, samples.ravel().tolist()

    def test_label_png(self):
        for case in self.of_each():
            if case.labels.max() > 65535:
                self.assertFalse(case.file(".png").exists())
                continue
            with Image.open(case.file(".png")) as picture:
                picture.load()
                self.assertIn(picture.mode, ("I", "I;16"))
                numpy.testing.assert_array_equal(numpy.asarray(picture), case.labels)
            self.same(skimage.io.imread(case.file(".png")), case.labels, "u2")
            self.assertEqual(read_png(case.file(".png").read_bytes()), self.plain(case.labels, 16))

    def test_label_tiff(self):
        for case in self.of_each():
            for bits in (16, 32):
                path = case.file(f".{bits}.tif")
                if bits == 16 and case.labels.max() > 65535:
                    self.assertFalse(path.exists())
                    continue
                with tifffile.TiffFile(path) as file:
                    page = file.pages[0]
                    self.assertEqual((file.byteorder, len(file.pages), page.photometric.name, page.compression.value),
                                     ("<", 1, "MINISBLACK", 1))
                    self.same(page.asarray(), case.labels, f"u{bits // 8}")
                self.same(skimage.io.imread(path), case.labels, f"u{bits // 8}")
                self.assertEqual(read_tiff(path.read_bytes()), self.plain(case.labels, bits))
                with Image.open(path) as picture:
                    numpy.testing.assert_array_equal(numpy.asarray(picture).astype("i8"), case.labels)

    def test_result(self):
        for case in self.of_each():
            head = f"P5\n{case.mask.shape[1]} {case.mask.shape[0]}\n{case.maxval}\n".encode()
            kind = "u1" if case.maxval < 256 else "u2"
            self.assertEqual(case.file(".pgm").read_bytes(), head + case.mask.astype(f">{kind}").tobytes())
            numpy.testing.assert_array_equal(read_grey(case.file(".pgm")), case.mask)
            numpy.testing.assert_array_equal(read_grey(case.file(".mask.png")), case.mask)
            self.same(skimage.io.imread(case.file(".mask.png")), case.mask, kind)

    def test_table(self):
        for case in self.of_each():
            with open(case.file(".csv"), newline="", encoding="utf-8") as file:
                rows = list(csv.DictReader(file, strict=True))
            self.assertEqual([int(row["label"]) for row in rows], [each["number"] for each in case.present()])
            boxes = ndimage.find_objects(case.labels)
            for row, known in zip(rows, case.present()):
                rows_in, columns_in = boxes[known["number"] - 1]
                inside = case.labels[rows_in, columns_in] == known["number"]
                samples = case.mask[rows_in, columns_in][inside]
                y, x = numpy.nonzero(inside)
                sums = [x.sum() + columns_in.start * x.size, y.sum() + rows_in.start * y.size, samples.sum()]
                means = [str(shown(total / x.size)) for total in sums]
                self.assertEqual(row, {name: str(value) for name, value in (
                    ("label", known["number"]), ("class", known["inClass"]), ("name", AS_WRITTEN[known["inClass"]]),
                    ("stroke", known["tag"]), ("strokes", known["strokes"]), ("area", x.size),
                    ("left", columns_in.start), ("top", rows_in.start), ("right", columns_in.stop - 1),
                    ("bottom", rows_in.stop - 1), ("x", means[0]), ("y", means[1]), ("mean", means[2]),
                    ("min", samples.min()), ("max", samples.max()))})

    def test_table_of_the_tool(self):
        for case in self.of_each():
            present = case.present()
            owners = numpy.searchsorted([each["number"] for each in present], case.labels)
            seeds = Known([uuid.UUID(each["tag"]) for each in present], [each["strokes"] for each in present])
            rows = rows_of(numpy.where(case.labels == 0, -1, owners), case.mask, seeds,
                           [each["number"] for each in present], AS_WRITTEN)
            path = case.file(".tool.csv")
            write_table(path, rows)
            self.assertEqual(case.file(".csv").read_bytes(), path.read_bytes())

    def test_coco(self):
        for case in self.of_each():
            found = json.loads(case.file(".json").read_text(encoding="utf-8"))
            height, width = case.labels.shape
            self.assertEqual(found["images"], [{"id": 1, "file_name": "picture.png", "width": width, "height": height}])
            classes = sorted({each["inClass"] for each in case.objects})
            self.assertEqual([each["id"] for each in found["categories"]], classes)
            self.assertEqual(len({each["name"] for each in found["categories"]}), len(classes))
            self.assertEqual([(each["id"], each["category_id"], each["image_id"], each["iscrowd"])
                              for each in found["annotations"]],
                             [(each["number"], each["inClass"], 1, 0) for each in case.present()])
            for each in found["annotations"]:
                mask = decoded(each["segmentation"])
                numpy.testing.assert_array_equal(mask, case.labels == each["id"])
                (rows, columns), = ndimage.find_objects(mask.astype(int))
                self.assertEqual(each["area"], mask.sum())
                self.assertEqual(each["bbox"], [columns.start, rows.start, columns.stop - columns.start,
                                                rows.stop - rows.start])


    def test_edit_lines(self):
        for case in self.of_each():
            lines = case.file(".txt").read_text(encoding="ascii").splitlines()
            self.assertEqual(lines[0], "; edits for the mask 0123456789abcdef0123456789abcdef")
            self.assertEqual(lines[1:], sorted(lines[1:], key=lambda line: line.split(" ")[1]))
            found = read_live_strokes(case.file(".txt"))
            spelled = {uuid.UUID(each["tag"]): spelled_stroke([each[key].encode() for key in each])
                       for each in case.strokes}
            self.assertEqual(found, spelled)


class Decoder(unittest.TestCase):
    """The decoder of run lengths, by strings that were spelled by hand."""

    def test_counts(self):
        for text, counts in [("T3", [100]), ("0T3", [0, 100]), ("?", [15]), ("`0", [16]), ("n0", [30]), ("o0", [31]),
                             ("P1", [32]), ("1520", [1, 5, 2, 5]), ("234N", [2, 3, 4, 1]), ("1`01@", [1, 16, 1, 0]),
                             ("1a01_O", [1, 17, 1, 0])]:
            self.assertEqual(counts_of(text), counts, text)


if __name__ == "__main__":
    unittest.main()
