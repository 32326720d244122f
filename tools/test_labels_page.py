#!/usr/bin/env python3
"""Tests of the labels of the page, outside the gate: page/labelling.js against labels_from_result.py, pixel for pixel,
and the tables of both.

    python3 tools/test_labels_page.py

Node (Debian's package nodejs) runs the page's script on the two examples and on 200 random pictures, of 8 and 16 bits,
with few levels and many, with several strokes an object; each by levels and by shares, joined and cut, with 4 and with
8 neighbours. The results are scikit-image's reconstructions by dilation. It takes 15 seconds.
"""

import base64
import csv
import io
import itertools
import json
import pathlib
import random
import subprocess
import sys
import tempfile
import unittest
import uuid

import running
from running import without

try:
    import numpy
    from scipy import ndimage
    from skimage.morphology import reconstruction
except ModuleNotFoundError as missing:
    without(missing)

from labels_from_result import COLUMNS, kept_by_share, owners_of, rows_of
from pictures import read_grey
from state_files import Stroke
from strokes import seeds_of, spans_of
from testing import TOP

PICTURES = 200
CASES = TOP / "page" / "tests" / "labelling_cases.js"


def tags_of(chance, in_class, count):
    """The tags of so many strokes of one gesture, of a class, or of none where that is 0."""
    author, gesture = f"{chance.getrandbits(64):016x}", f"{chance.getrandbits(40):010x}"
    if in_class == 0:
        return [uuid.UUID(f"{author}{chance.randrange(14):x}{gesture}0{k:04x}") for k in range(count)]
    return [uuid.UUID(f"{author}e{gesture}{k >> 8:x}{in_class:02x}{k & 255:02x}") for k in range(count)]


def random_strokes(chance, height, width, top, most):
    """Strokes by their tags: discs, and runs, one or several an object."""
    strokes = {}
    for _ in range(chance.randint(1, most)):
        count = chance.choice((1, 1, 2, 3))
        for tag in tags_of(chance, chance.choice((0, 1, 2, 255)), count):
            y, x, level = chance.randrange(height), chance.randrange(width), chance.randint(1, top + 2)
            if chance.random() < 0.5:
                strokes[tag] = Stroke(level, [(y, x, chance.randint(0, 4))], True)
            else:
                strokes[tag] = Stroke(level, [(y, x, min(x + chance.randint(0, 9), width - 1))], False)
    return strokes


def random_mask(chance, height, width, top):
    """Noise, blurred noise or flat blocks, so that many values are equal or few."""
    numbers = numpy.random.default_rng(chance.getrandbits(32))
    kind = chance.randrange(4)
    if kind == 0:
        return numbers.integers(0, top + 1, (height, width))
    if kind == 1:
        blocks = numbers.integers(0, top + 1, (height // 5 + 1, width // 5 + 1))
        return blocks.repeat(5, 0).repeat(5, 1)[:height, :width]
    noise = ndimage.gaussian_filter(numbers.random((height, width)), chance.choice((1, 3)))
    noise = (noise - noise.min()) / max(noise.max() - noise.min(), 1e-9) * top
    return noise.astype(int) if kind == 2 else noise.astype(int) // 3 * 3


def grown(strokes, mask, conn):
    """The reconstruction by dilation of strokes under a mask."""
    height, width = mask.shape
    light = numpy.zeros_like(mask)
    for stroke in strokes.values():
        for y, first, last in spans_of(stroke, width, height):
            numpy.maximum(light[y, first:last + 1], numpy.minimum(mask[y, first:last + 1], stroke.level),
                          out=light[y, first:last + 1])
    footprint = ndimage.generate_binary_structure(2, 1 if conn == 4 else 2)
    return reconstruction(light, mask, method="dilation", footprint=footprint).astype(numpy.int32)


def by_tool(mask, result, seeds, choice):
    """The owners that labels_from_result.py finds: -1 is ground."""
    light = numpy.minimum(seeds.levels, mask.ravel()[seeds.places])
    if choice["kind"] == "level":
        kept = result >= choice["level"]
    else:
        kept = kept_by_share(result, seeds, light, choice["share"], choice["conn"])
    return owners_of(kept, seeds, choice["conn"], choice["isCut"])


def choices_for(chance, result, conn):
    """Choices of each kind, joined and cut."""
    levels = [chance.randint(1, max(int(result.max()), 1)) for _ in range(2)]
    shares = [chance.choice((0.01, 0.1, 0.3, 1 / 3, 0.5, 0.75, 0.9, 1, chance.random() or 1)) for _ in range(2)]
    kinds = (*({"kind": "level", "level": level} for level in levels),
             *({"kind": "share", "share": share} for share in shares))
    return [{**kind, "conn": conn, "isCut": is_cut} for kind, is_cut in itertools.product(kinds, (False, True))]


def told(samples):
    """Samples as node takes them."""
    return base64.b64encode(samples.astype("<u2").tobytes()).decode()


class Case:
    """A picture, strokes on it, what they grow into, and choices."""

    def __init__(self, chance, mask, strokes, conn):
        self.mask, self.strokes = mask.astype(numpy.int32), strokes
        self.result = grown(strokes, self.mask, conn)
        self.choices = choices_for(chance, self.result, conn)

    def for_node(self):
        """What node reads, with the strokes in any order."""
        height, width = self.mask.shape
        strokes = [{"tag": str(tag), "level": stroke.level,
                    "runs": [int(part) for span in spans_of(stroke, width, height) for part in span]}
                   for tag, stroke in sorted(self.strokes.items(), key=lambda one: one[0].hex[::-1])]
        return {"width": width, "height": height, "maxval": int(self.mask.max()), "mask": told(self.mask),
                "result": told(self.result), "strokes": strokes, "choices": self.choices}


def random_case(chance, number):
    """A small picture; each tenth is a larger one with many strokes."""
    height, width = (chance.randint(90, 130), chance.randint(90, 130)) if number % 10 == 0 else (
        chance.randint(1, 40), chance.randint(1, 40))
    top = chance.choice((1, 3, 9, 255, 700, 65535))
    strokes = random_strokes(chance, height, width, top, 120 if number % 10 == 0 else 9)
    return Case(chance, random_mask(chance, height, width, top), strokes, chance.choice((4, 8)))


def example(chance, name, conn):
    """An example with short strokes on what is bright."""
    mask = read_grey(str(TOP / "examples" / f"{name}.png")).astype(numpy.int32)
    bright = numpy.argwhere(mask > numpy.percentile(mask, 85)).tolist()
    strokes = {tags_of(chance, number % 3, 1)[0]: Stroke(int(mask[y, x]), [(y, x, 2)], True)
               for number, (y, x) in enumerate(chance.sample(bright, 60))}
    return Case(chance, mask, strokes, conn)


def answers_to(cases):
    """What node answers."""
    with tempfile.TemporaryDirectory() as folder:
        asked, answered = (pathlib.Path(folder) / name for name in ("cases.json", "answers.json"))
        asked.write_text(json.dumps([case.for_node() for case in cases]), encoding="ascii")
        try:
            subprocess.run(["node", str(CASES), str(asked), str(answered)], check=True)
        except FileNotFoundError:
            sys.exit("test_labels_page.py: there is no node: install Debian's package nodejs")
        return json.loads(answered.read_text(encoding="ascii"))


class OfPages(unittest.TestCase):
    """Labels and measures."""

    def compare(self, cases):
        """Compare all labels and all rows of the tables."""
        several = 0
        for case, answers in zip(cases, answers_to(cases), strict=True):
            seeds = seeds_of(case.strokes, case.mask.shape[1], case.mask.shape[0])
            for choice, answer in zip(case.choices, answers, strict=True):
                owners = by_tool(case.mask, case.result, seeds, choice)
                numbers = numpy.array(answer["numbers"]).reshape(case.mask.shape)
                self.assertTrue((numbers == owners + 1).all(), (case.mask.shape, choice))
                self.assertEqual(answer["areas"][1:], numpy.bincount(owners.ravel() + 1, minlength=len(seeds.tags) + 1)
                                 .tolist()[1:])
                self.assertEqual(answer["lonely"], 0)
                self.compare_rows(case, seeds, owners, answer["table"])
                several += (owners >= 0).any() and len(numpy.unique(owners[owners >= 0])) > 2
        return several

    def compare_rows(self, case, seeds, owners, table):
        """Compare the rows of a table, which both have to the last digit."""
        found = [[line[name] for name in COLUMNS] for line in csv.DictReader(io.StringIO(table))]
        names = {number: f"Name of {number}" for number in range(1, 256)}
        rows = rows_of(owners, case.mask, seeds, range(1, len(seeds.tags) + 1), names) if (owners >= 0).any() else []
        self.assertEqual(found, [list(map(str, row)) for row in rows])

    def test_examples(self):
        chance = random.Random(5)
        several = self.compare([example(chance, name, conn) for name in ("cells", "grains") for conn in (4, 8)])
        self.assertGreater(several, 10)

    def test_random_pictures(self):
        chance = random.Random(6)
        several = self.compare([random_case(chance, number) for number in range(PICTURES)])
        self.assertGreater(several, PICTURES)


if __name__ == "__main__":
    running.START = float("inf")  # (so no tool tells how far it is)
    unittest.main()
