#!/usr/bin/env python3
"""Tests of the tools in this folder, outside the gate.

    python3 tools/test_roads.py [--program crates/seedpaint/out/seedpaint]

Expected values are made by hand, or by slow ways of their own: the plain readers and the plain simulator of bench/fuzz,
and floods pixel by pixel. Without a program the simulator grows the strokes.
"""

import argparse
import collections
import csv
import itertools
import pathlib
import random
import subprocess
import sys
import unittest
import uuid

from running import without

try:
    import numpy
    import tifffile
    from PIL import Image, ImageDraw
except ModuleNotFoundError as missing:
    without(missing)

from testing import TOOLS, TOP, InFolder, pgm, tool

sys.path.insert(0, str(TOP / "bench" / "fuzz"))
import readers    # noqa: E402
import simulator  # noqa: E402

PROGRAM = None
HAND_MASK = [[9, 9, 9, 0, 5],
             [0, 0, 9, 0, 5],
             [7, 7, 0, 5, 5]]


def tag_of(number):
    """A tag of an object of its own, rising with the number."""
    return uuid.UUID(int=number << 16)


def gestures_of(tags):
    """The tags, as whole numbers, of each gesture: they differ in the last 16 bits alone."""
    return [list(group) for _, group in itertools.groupby(sorted(tags), key=lambda tag: tag >> 16)]


def grown(edits, mask, conn):
    """What the program writes for edit lines on the bytes of a PGM file."""
    data = edits.encode() + b"image\n" + mask
    if PROGRAM is None:
        answer = simulator.view(data, conn)
        return answer.status, answer.output
    done = subprocess.run([PROGRAM, "view", "--conn", str(conn)], input=data, capture_output=True, check=False)
    return done.returncode, done.stdout


def strokes_in(text):
    """The strokes of edit lines, by the plain reader: tag, level and pixels as pairs of row and column."""
    strokes = {}
    for state in readers.read_edits(text.encode()):
        for tag, stroke in state.strokes.items():
            strokes[uuid.UUID(int=tag)] = (stroke.level, {(y, x) for y, first, last in stroke.shape
                                                          for x in range(first, last + 1)})
    return strokes


def part_around(kept, start, conn):
    """The connected part of a set of pixels, row and column each, that a pixel lies in."""
    part, border = {start}, [start]
    while border:
        y, x = border.pop()
        around = {(y + down, x + across) for down in (-1, 0, 1) for across in (-1, 0, 1)
                  if conn == 8 or down == 0 or across == 0}
        fresh = (around & kept) - part
        border += fresh
        part |= fresh
    return part


def steps_from(starts, kept, conn):
    """How many steps each pixel of a set is away from the nearest start."""
    steps, border = {pixel: 0 for pixel in starts}, collections.deque(starts)
    while border:
        y, x = border.popleft()
        for down in (-1, 0, 1):
            for across in (-1, 0, 1):
                other = (y + down, x + across)
                if (conn == 8 or down == 0 or across == 0) and other in kept and other not in steps:
                    steps[other] = steps[y, x] + 1
                    border.append(other)
    return steps


class OnRoads(InFolder):
    """A test of the tools that lead in and out."""

    def lines(self, *words):
        """The lines of strokes_from_png.py."""
        status, text, fault = tool("strokes_from_png.py", *words)
        self.assertEqual((status, fault), (0, ""))
        return text

    def labels(self, *words, name="labels.tif"):
        """The label image and the table of labels_from_result.py."""
        path, table = self.folder / name, self.folder / "labels.csv"
        status, _, fault = tool("labels_from_result.py", words[0], path, *words[1:], "--table", table)
        self.assertEqual((status, fault), (0, ""))
        image = tifffile.imread(path) if path.suffix == ".tif" else numpy.asarray(Image.open(path))
        with open(table, newline="", encoding="ascii") as file:
            return image, list(csv.reader(file))


class FromPictures(OnRoads):
    """strokes_from_png.py."""

    def test_by_hand(self):
        picture = numpy.array([[0, 2, 2, 0, 1], [0, 2, 0, 1, 1], [0, 0, 0, 2, 0]], numpy.uint8)
        mask = self.put("mask.pgm", pgm([[1, 3, 4, 1, 9], [1, 5, 1, 2, 1], [1, 1, 1, 7, 200]]))
        text = self.lines(self.put("hand.png", picture), "--mask", mask)
        found = [line.split(" ") for line in text.splitlines()]
        self.assertEqual([words[0] for words in found], ["place", "place"])
        self.assertEqual([words[2:] for words in found], [["9", "0:4-4,1:3-4"], ["7", "0:1-2,1:1-1,2:3-3"]])

    def test_tags(self):
        picture = self.put("a.tif", numpy.array([[1, 0, 70000]], numpy.uint32))
        tags = [line.split(" ")[1] for line in self.lines(picture, "--level", 5).splitlines()]
        # `printf a.tif | sha256sum` begins with ed4cf50dec25e5e
        self.assertEqual(tags, ["ed4cf50d-ec25-8e5e-8000-000010000000", "ed4cf50d-ec25-8e5e-8000-111700000000"])
        self.assertEqual(self.lines(picture, "--level", 5), self.lines(picture, "--level", 5))
        self.assertNotIn(tags[0], self.lines(picture, "--level", 5, "--name", "b.tif"))

    def test_colours(self):
        picture = numpy.zeros((2, 4, 4), numpy.uint8)
        picture[0, :2] = (255, 0, 16, 255)
        picture[1, 3] = (255, 0, 16, 100)
        picture[1, 1] = (0, 0, 0, 255)
        picture[0, 3] = (9, 9, 9, 0)
        path = self.put("layer.png", picture)
        shapes = {tag.hex[17:25]: sorted(pixels) for tag, (_, pixels) in
                  strokes_in(self.lines(path, "--level", 7)).items()}
        self.assertEqual(shapes, {"00000000": [(1, 1)], "00ff0010": [(0, 0), (0, 1), (1, 3)]})
        for kind in (">u2", "<u2"):
            wide = self.put("wide.tif", (picture.astype(kind) * 257).astype(kind))
            same = strokes_in(self.lines(wide, "--level", 7)).values()
            self.assertEqual(sorted(sorted(pixels) for _, pixels in same), sorted(shapes.values()))
        opaque = strokes_in(self.lines(path, "--level", 7, "--threshold", 100))
        self.assertEqual(sorted(len(pixels) for _, pixels in opaque.values()), [1, 2])
        apart = strokes_in(self.lines(path, "--level", 7, "--apart"))
        self.assertEqual(sorted(sorted(pixels) for _, pixels in apart.values()), [[(0, 0), (0, 1)], [(1, 1)], [(1, 3)]])

    def test_apart_at_corners_and_on_a_dark_mask(self):
        picture = self.put("slant.png", numpy.array([[1, 0, 0, 1], [0, 1, 0, 2]], numpy.uint8))
        mask = self.put("mask.pgm", pgm([[0, 3, 3, 5], [3, 0, 3, 6]]))
        lines = self.lines(picture, "--mask", mask, "--apart").splitlines()
        self.assertEqual([line.split(" ")[2:] for line in lines],
                         [["1", "0:0-0,1:1-1"], ["5", "0:3-3"], ["6", "1:3-3"]])

    def test_kinds_of_pictures(self):
        labels = numpy.array([[0, 1, 2], [0, 0, 2]])
        expected = [(5, {(0, 1)}), (5, {(0, 2), (1, 2)})]
        palette = Image.fromarray(labels.astype(numpy.uint8), mode="P")
        palette.putpalette([0, 0, 0, 255, 0, 0, 0, 255, 0])
        palette.save(self.folder / "palette.png")
        palette.save(self.folder / "seen.png", transparency=0)
        names = [self.folder / "palette.png", self.folder / "seen.png"]
        for kind in (numpy.uint8, numpy.uint16, numpy.uint32, numpy.int64, numpy.float32):
            names.append(self.put(f"{kind.__name__}.tif", labels.astype(kind)))
        names.append(self.put("imagej.tif", labels.astype(">u2")))
        names.append(self.put("wide.png", labels.astype(numpy.uint16)))
        for name in names:
            found = strokes_in(self.lines(name, "--level", 5)).values()
            self.assertEqual(sorted(found, key=lambda stroke: len(stroke[1])), expected, name)

    def test_cut_at_160_runs(self):
        picture = numpy.zeros((401, 3), numpy.uint8)
        picture[::2, 1] = 4  # 201 runs
        strokes = strokes_in(self.lines(self.put("long.png", picture), "--level", 1))
        self.assertEqual([len(pixels) for _, pixels in strokes.values()], [160, 41])
        self.assertEqual([tag.hex[17:] for tag in strokes], ["00000004" + "0000000", "00000004" + "0000001"])
        self.assertEqual(set.union(*(pixels for _, pixels in strokes.values())), {(y, 1) for y in range(0, 401, 2)})

    def test_random_pictures(self):
        chance = random.Random(1)
        for _ in range(6):
            height, width = chance.randint(1, 40), chance.randint(1, 40)
            picture = numpy.array([[chance.choice((0, 0, 1, 2, 700)) for _ in range(width)] for _ in range(height)])
            picture[0, 0] = 1
            mask = numpy.array([[chance.randint(0, 999) for _ in range(width)] for _ in range(height)])
            text = self.lines(self.put("random.tif", picture.astype(numpy.uint16)),
                              "--mask", self.put("mask.pgm", pgm(mask, 999)))
            found = collections.defaultdict(set)
            for tag, (level, pixels) in strokes_in(text).items():
                label = int(tag.hex[17:25], 16)
                self.assertEqual(level, max(1, max(mask[picture == label])))
                self.assertFalse(found[label] & pixels)
                found[label] |= pixels
            self.assertEqual(found, {label: {tuple(pixel) for pixel in numpy.argwhere(picture == label).tolist()}
                                     for label in set(picture.ravel().tolist()) - {0}})

    def test_photograph(self):
        chance = numpy.random.default_rng(1)
        flat = numpy.kron(chance.integers(1, 250, (32, 32)), numpy.ones((5, 5))).astype(numpy.uint8)
        self.assertGreaterEqual(self.lines(self.put("dense.png", flat), "--level", 9).count("\n"), 200)
        lines = numpy.zeros((300, 200), numpy.uint8)
        lines[:, ::5] = 7
        self.assertEqual(self.lines(self.put("lines.png", lines), "--level", 9).count("\n"), -(-300 * 40 // 160))
        noise = chance.integers(1, 250, (100, 120)).astype(numpy.uint8)
        for name, photograph in (("grey.png", noise), ("colour.png", numpy.stack([noise, noise[::-1], noise], -1))):
            path = self.put(name, photograph)
            self.refused("strokes_from_png.py", [path, "--level", 9], "looks like a photograph: 100 % of it are")
            self.assertGreater(self.lines(path, "--level", 9, "--anyway").count("\n"), 200)

    def test_faults(self):
        picture = self.put("one.png", numpy.ones((2, 3), numpy.uint8))
        mask = self.put("mask.pgm", pgm([[1, 2]]))
        name = "strokes_from_png.py"
        self.refused(name, [picture, "--mask", mask], "has 3 by 2 pixels")
        self.refused(name, [self.put("none.png", numpy.zeros((2, 3), numpy.uint8)), "--level", 1], "no painted pixel")
        self.refused(name, [self.folder / "nothing.png", "--level", 1], "No such file")
        self.refused(name, [self.put("broken.png", b"\x89PNG\r\n\x1a\nabc"), "--level", 1], "cannot be read")
        self.refused(name, [self.put("broken.tif", b"II*\0abc"), "--level", 1], "cannot be read")
        self.refused(name, [self.put("text.png", b"hello"), "--level", 1], "no PGM, PNG or TIFF")
        self.refused(name, [self.put("half.tif", numpy.array([[0.5]], numpy.float32)), "--level", 1], "whole numbers")
        self.refused(name, [picture, "--mask", self.put("cut.pgm", b"P5\n3 2\n255\nabc")], "samples are not 3 by 2")
        palette = Image.fromarray(numpy.ones((2, 3), numpy.uint8), mode="P")
        palette.putpalette([0, 0, 0, 9, 9, 9])
        palette.save(self.folder / "palette.png")
        self.refused(name, [picture, "--mask", self.folder / "palette.png"], "no grey picture")
        deep = self.put("deep.tif", numpy.ones((2, 3), numpy.float32))
        self.refused(name, [picture, "--mask", deep], "no grey picture")
        self.refused(name, [self.put("pages.tif", numpy.ones((5, 2, 7), numpy.uint8)), "--level", 1], "several pages")
        self.refused(name, [self.put("float.tif", numpy.ones((2, 3, 3), numpy.float32)), "--level", 1], "no colours")
        for words in ([picture], [picture, "--level", 0], [picture, "--level", 65536], [], [picture, "--no"]):
            self.refused(name, words, "usage:", 2)


class FromStates(OnRoads):
    """strokes_from_state.py."""

    def test_by_hand(self):
        tags = [uuid.UUID(int=number << 100) for number in (1, 2, 3)]
        edits = (f"disc {tags[1]} 200 2:4+1\nplace {tags[0]} 9 0:0-0,0:2-3,1:1-1\nplace {tags[2]} 7 0:1-1\n"
                 f"withdraw {tags[0]}\n")
        mask = pgm(HAND_MASK)
        state = self.put("one.spd", simulator.view(edits.encode() + b"image\n" + mask, 4).kept)
        live = f"disc {tags[1]} 200 2:4+1\nplace {tags[2]} 7 0:1-1\n"
        self.assertEqual(tool("strokes_from_state.py", state), (0, live, ""))
        told = f"place {tags[0]} 9 0:0-0,0:2-3,1:1-1\n{live}withdraw {tags[0]}\n"
        self.assertEqual(tool("strokes_from_state.py", state, "--all"), (0, told, ""))
        other = f"disc {tags[0]} 1 0:0+0\nimage\n".encode() + mask
        other = self.put("other.spd", simulator.view(other, 4).kept)
        self.refused("strokes_from_state.py", [state, other], "they cannot be joined")
        self.refused("strokes_from_state.py", [self.put("none.spd", b"P5\n")], "is no state file, or is cut off")
        self.refused("strokes_from_state.py", [self.folder / "nothing.spd"], "No such file")
        self.assertEqual(tool("strokes_from_state.py", self.put("empty.spd", b"")), (0, "", ""))

    def test_classes(self):
        plain, two, last = (uuid.UUID(tag) for tag in ("00112233-4455-6677-8899-aabbccdd0200",
                            "00112233-4455-6677-e899-aabbccd00200", "00112233-4455-6677-e899-aabbccdfff05"))
        lines = {tag: f"disc {tag} 9 0:{x}+0\n" for x, tag in enumerate((plain, two, last))}
        edits = "".join(lines.values()) + f"disc {uuid.UUID(int=two.int + 1)} 9 1:1+0\nwithdraw {plain}\n"
        edits += f"withdraw {uuid.UUID(int=two.int + 1)}\ndisc {uuid.UUID(int=7)} 9 1:0+0\n"
        state = self.put("one.spd", simulator.view(edits.encode() + b"image\n" + pgm(HAND_MASK), 4).kept)
        for in_class, expected in ((1, f"disc {uuid.UUID(int=7)} 9 1:0+0\n"), (2, lines[two]), (255, lines[last]),
                                   (3, "")):
            self.assertEqual(tool("strokes_from_state.py", state, "--class", in_class), (0, expected, ""))
        for wrong in (0, 256, "two"):
            self.refused("strokes_from_state.py", [state, "--class", wrong], "a class is a number from 1 to 255", 2)
        self.refused("strokes_from_state.py", [state, "--class", 2, "--all"], "not allowed with", 2)

    def test_there_and_back(self):
        chance, mask = random.Random(5), pgm([[9] * 60] * 50)
        for _ in range(20):
            files, both = [], b""
            for number in range(2):
                edits = ""
                for _ in range(chance.randint(0, 40)):
                    tag, y, x = uuid.UUID(int=chance.getrandbits(128)), chance.randrange(50), chance.randrange(40)
                    edits += (f"disc {tag} {chance.randint(1, 65535)} {y}:{x}+{chance.randint(0, 9)}\n"
                              if chance.random() < 0.5 else f"place {tag} 5 {y}:{x}-{x + 3},{y}:{x + 5}-{x + 6}\n")
                    edits += f"withdraw {tag}\n" if chance.random() < 0.3 else ""
                kept = simulator.view(edits.encode() + b"image\n" + mask, 4).kept
                files.append(self.put(f"{number}.spd", kept))
                both += kept
            text = tool("strokes_from_state.py", *files, "--all")[1]
            joined = simulator.view(b"image\n" + mask, 4, both).kept
            self.assertEqual(simulator.view(text.encode() + b"image\n" + mask, 4).kept, joined)
            lines = text.splitlines(keepends=True)
            gone = {line.split()[1] for line in lines if line.startswith("withdraw")}
            live = "".join(line for line in lines if line.split()[1] not in gone)
            self.assertEqual(tool("strokes_from_state.py", *files), (0, live, ""))


class ToLabels(OnRoads):
    """labels_from_result.py."""

    def hand(self, edits, *words, samples=HAND_MASK, conn=4):
        """Labels and table of edit lines on a mask by hand."""
        mask = pgm(samples)
        status, result = grown(edits, mask, conn)
        self.assertEqual(status, 0)
        return self.labels(self.put("result.pgm", result), "--mask", self.put("mask.pgm", mask), "--strokes",
                           self.put("strokes.txt", edits), "--conn", conn, *words)

    def test_by_hand(self):
        edits = f"place {tag_of(9)} 9 0:0-0\nplace {tag_of(3)} 200 2:4-4\n"
        image, table = self.hand(edits, "--level", 1)
        self.assertEqual(image.tolist(), [[2, 2, 2, 0, 1], [0, 0, 2, 0, 1], [0, 0, 0, 1, 1]])
        self.assertEqual(image.dtype, numpy.uint16)
        self.assertEqual(table, [["label", "stroke", "area", "left", "top", "right", "bottom", "mean", "class", "name",
                                  "strokes", "x", "y", "min", "max"],
                                 ["1", str(tag_of(3)), "4", "3", "0", "4", "2", "5.000", "1", "", "1", "3.750", "1.250",
                                  "5", "5"],
                                 ["2", str(tag_of(9)), "4", "0", "0", "2", "1", "9.000", "1", "", "1", "1.250", "0.250",
                                  "9", "9"]])
        image, _ = self.hand(edits, "--level", 1, conn=8)
        self.assertEqual(image.tolist(), [[1, 1, 1, 0, 1], [0, 0, 1, 0, 1], [1, 1, 0, 1, 1]])
        image, table = self.hand(edits, "--level", 6)
        self.assertEqual(image.tolist(), [[2, 2, 2, 0, 0], [0, 0, 2, 0, 0], [0, 0, 0, 0, 0]])
        self.assertEqual(len(table), 2)

    def test_split_and_withdrawn(self):
        edits = f"place {tag_of(2)} 9 0:0-0\ndisc {tag_of(1)} 9 0:6+0\nplace {tag_of(3)} 9 0:3-3\n"
        edits += f"withdraw {tag_of(3)}\n"
        row = [[9, 9, 9, 9, 9, 9, 9, 0]]
        self.assertEqual(self.hand(edits, "--level", 9, samples=row)[0].tolist(), [[1] * 7 + [0]])
        image, table = self.hand(edits, "--level", 9, "--split", samples=row)
        self.assertEqual((image[0, :3].tolist(), image[0, 4:].tolist()), ([2, 2, 2], [1, 1, 1, 0]))
        self.assertEqual([line[0] for line in table[1:]], ["1", "2"])

    def test_gesture_is_one_object(self):
        # two gestures of one author, of three strokes and of two, whose pixels stand in turns
        author, row = "00f1e2d3c4b5a697", [[9] * 9]
        tags = [uuid.UUID(f"{author}{gesture}{count:04x}") for gesture, count in
                [("80a0b0c0d0e0", 0), ("80a0b0c0d0e0", 1), ("80a0b0c0d0e0", 2), ("80a0b0c0d0e1", 0),
                 ("80a0b0c0d0e1", 1)]]
        places = [1, 5, 8, 3, 7]
        edits = "".join(f"place {tag} 9 0:{x}-{x}\n" for tag, x in zip(tags, places))
        image, table = self.hand(edits, "--level", 1, "--split", samples=row)
        self.assertEqual([image[0, x] for x in places], [1, 1, 1, 2, 2])
        self.assertEqual([line[:2] for line in table[1:]], [["1", str(tags[0])], ["2", str(tags[3])]])
        # the other way round: of version 8, with other digits where a painted tag has zeros
        tags = [uuid.UUID(f"00f1e2d3c4b58697{digits}") for digits in ("90a0b0c0d0e00000", "90a0b0c0d1e00000")]
        edits = "".join(f"place {tag} 9 0:{x}-{x}\n" for tag, x in zip(tags, (1, 7)))
        image, _ = self.hand(edits, "--level", 1, "--split", samples=row)
        self.assertEqual((image[0, 1], image[0, 7]), (1, 2))
        # the share is of the brightest that the gesture shows, also where another stroke of it is darker
        edits = f"place {tag_of(1)} 255 0:0-0\nplace {uuid.UUID(int=1 << 16 | 1)} 255 0:4-4\n"
        image, _ = self.hand(edits, "--share", "0.5", samples=[[100, 40, 20, 20, 60, 49, 51]])
        self.assertEqual(image.tolist(), [[1, 0, 0, 0, 1, 0, 0]])

    def test_split_on_common_pixels(self):
        edits = f"place {tag_of(5)} 9 0:0-3\nplace {tag_of(4)} 9 0:2-5\n"
        image, _ = self.hand(edits, "--level", 1, "--split", samples=[[9, 9, 9, 9, 9, 9, 9]])
        self.assertEqual(image.tolist(), [[2, 2, 1, 1, 1, 1, 1]])

    def test_share(self):
        # the stroke of level 200 shows 100 at its brightest, the other 20: kept are 50 and above, and 10 and above
        edits = f"place {tag_of(1)} 200 0:0-0\nplace {tag_of(2)} 20 0:8-8\n"
        row = [[100, 60, 50, 49, 10, 9, 10, 30, 40]]
        image, _ = self.hand(edits, "--share", "0.5", samples=row)
        self.assertEqual(image.tolist(), [[1, 1, 1, 0, 0, 0, 2, 2, 2]])

    def test_share_where_two_touch(self):
        # between the two the light sinks to 80, more than half of both: one region, or each pixel to the nearest
        edits = f"place {tag_of(7)} 255 0:0-0\nplace {tag_of(8)} 255 0:4-4\n"
        row = [[100, 80, 90, 100, 120, 60, 59]]
        self.assertEqual(self.hand(edits, "--share", "0.5", samples=row)[0].tolist(), [[1, 1, 1, 1, 1, 1, 0]])
        split = self.hand(edits, "--share", "0.5", "--split", samples=row)[0].tolist()[0]
        self.assertEqual((split[:2], split[3:]), ([1, 1], [2, 2, 2, 0]))

    def test_state_file(self):
        mask = pgm(HAND_MASK)
        edits = f"place {tag_of(9)} 9 0:0-0\ndisc {tag_of(3)} 200 2:4+1\nwithdraw {tag_of(9)}\n"
        answer = simulator.view(edits.encode() + b"image\n" + mask, 4)
        image, table = self.labels(self.put("result.pgm", answer.output), "--mask", self.put("mask.pgm", mask),
                                   "--strokes", self.put("session.spd", answer.kept), "--level", 1, name="labels.png")
        self.assertEqual(image.tolist(), [[0, 0, 0, 0, 1], [0, 0, 0, 0, 1], [0, 0, 0, 1, 1]])
        self.assertEqual(table[1][1], str(tag_of(3)))

    def test_wide_labels(self):
        labels = self.put("wide.tif", numpy.array([[70000, 0, 3]], numpy.uint32))
        mask = pgm([[9, 0, 9]])
        edits = self.lines(labels, "--level", 9)
        result, strokes = self.put("result.pgm", grown(edits, mask, 4)[1]), self.put("strokes.txt", edits)
        words = [result, "--mask", self.put("mask.pgm", mask), "--strokes", strokes, "--level", 1, "--painted"]
        image, table = self.labels(*words)
        self.assertEqual((image.tolist(), image.dtype), ([[70000, 0, 3]], numpy.uint32))
        self.assertEqual([line[0] for line in table[1:]], ["3", "70000"])
        self.refused("labels_from_result.py", [words[0], self.folder / "labels.png", *words[1:]], "write a TIFF")

    def test_pieces_of_one_label(self):
        picture = numpy.zeros((401, 1), numpy.uint8)
        picture[::2] = 4
        mask = pgm(numpy.where(picture == 4, 9, 0))
        edits = self.lines(self.put("long.png", picture), "--level", 9)
        image, table = self.labels(self.put("result.pgm", grown(edits, mask, 4)[1]), "--mask", self.put("m.pgm", mask),
                                   "--strokes", self.put("strokes.txt", edits), "--level", 1)
        self.assertEqual((image.ravel().tolist(), len(table)), (([1, 0] * 201)[:401], 2))

    def test_faults(self):
        mask, wrong = self.put("mask.pgm", pgm([[9, 0, 9]])), self.put("wrong.pgm", pgm([[9, 0]]))
        result, high = self.put("result.pgm", pgm([[9, 0, 0]])), self.put("high.pgm", pgm([[9, 1, 0]]))
        strokes = self.put("strokes.txt", f"place {tag_of(1)} 9 0:0-0\n")
        other = self.put("other.txt", f"place {tag_of(1)} 9 0:2-2\n")
        less = self.put("less.txt", f"place {tag_of(1)} 9 0:1-1\n")
        labels, name = self.folder / "labels.tif", "labels_from_result.py"
        none, bad = self.put("none.txt", "; none\n"), self.put("bad.txt", "\nplace 1 9 0:0-0\n")
        cut, out = self.put("cut.spd", b"\0\x50SPD2"), self.put("out.txt", f"disc {tag_of(1)} 9 0:3+9\n")
        for words, line in [
                ([wrong, labels, "--mask", mask, "--strokes", strokes, "--level", 1], "has 2 by 1 pixels"),
                ([high, labels, "--mask", mask, "--strokes", strokes, "--level", 1], "is above"),
                ([result, labels, "--mask", mask, "--strokes", strokes, "--level", 10], "no region"),
                ([result, labels, "--mask", mask, "--strokes", other, "--level", 1], "is below a stroke"),
                ([result, labels, "--mask", mask, "--strokes", less, "--level", 1], "has no stroke"),
                ([result, labels, "--mask", mask, "--strokes", less, "--share", 0.5], "has no stroke"),
                ([result, labels, "--mask", mask, "--strokes", none, "--level", 1], "no live"),
                ([result, labels, "--mask", mask, "--strokes", bad, "--level", 1], "line 2"),
                ([result, labels, "--mask", mask, "--strokes", cut, "--level", 1], "no state file"),
                ([result, labels, "--mask", mask, "--strokes", strokes, "--level", 1, "--painted"], "--painted needs"),
                ([result, labels, "--mask", mask, "--strokes", out, "--level", 1], "does not lie in")]:
            self.refused(name, words, line)
        base = [result, labels, "--mask", mask, "--strokes", strokes]
        for words in (base, [*base, "--share", 0], [*base, "--share", 1.5], [*base, "--level", 1, "--share", 1], []):
            self.refused(name, words, "usage:", 2)
        self.assertFalse(labels.exists())


class ThereAndBack(OnRoads):
    """Both tools, with the program or the simulator between them, on pictures of the examples."""

    def check_labels(self, strokes, result, kept, image, conn, is_split):
        """Compare labels with floods pixel by pixel, where the labels are those of the strokes."""
        everywhere = set(kept)
        for start in everywhere.copy():
            if start not in everywhere:
                continue
            part = part_around(kept, start, conn)
            everywhere -= part
            inside = {label: pixels & part for label, (_, pixels) in strokes.items() if pixels & part}
            if not is_split:
                self.assertEqual({int(image[pixel]) for pixel in part}, {min(inside)})
                continue
            steps = {label: steps_from(pixels, part, conn) for label, pixels in inside.items()}
            nearest = steps_from(set().union(*inside.values()), part, conn)
            self.assertTrue(all(steps[int(image[pixel])][pixel] == nearest[pixel] for pixel in part))
        self.assertEqual(set(map(tuple, numpy.argwhere(image).tolist())), set(kept))
        self.assertTrue(all(result[pixel] > 0 for pixel in kept))

    def example(self, name, dabs, conn):
        """The picture of an example, its strokes by label, edit lines, and what they grow into."""
        source = TOP / "examples" / f"{name}.png"
        samples = numpy.asarray(Image.open(source))
        painted = Image.new("L", samples.shape[::-1])
        pen = ImageDraw.Draw(painted)
        for label, (x, y) in enumerate(dabs, 1):
            pen.line([(x - 2, y - 1), (x + 2, y + 1)], fill=label, width=2)
        painted.save(self.folder / "painted.png")
        edits = self.lines(self.folder / "painted.png", "--mask", source)
        status, result = grown(edits, pgm(samples), conn)
        self.assertEqual(status, 0)
        array = numpy.asarray(painted)
        strokes = {label: (int(samples[array == label].max()), set(map(tuple, numpy.argwhere(array == label).tolist())))
                   for label in range(1, len(dabs) + 1)}
        image = readers.read_image(result)
        paths = [self.put("result.pgm", result), "--mask", source, "--strokes", self.put("strokes.txt", edits)]
        return strokes, numpy.array(image.samples).reshape(image.height, image.width), paths, samples

    def test_levels(self):
        cells = [(91, 71), (206, 188), (285, 142), (205, 68), (220, 101), (53, 158), (85, 141), (66, 207)]
        grains = [(40, 14), (83, 107), (192, 41), (99, 159), (186, 97)]
        for name, dabs, conn, level in [("cells", cells, 4, 100), ("cells", cells, 8, 60), ("grains", grains, 4, 90)]:
            strokes, result, paths, mask = self.example(name, dabs, conn)
            kept = set(map(tuple, numpy.argwhere(result >= level).tolist()))
            for split in ([], ["--split"]):
                image, table = self.labels(*paths, "--conn", conn, "--level", level, *split)
                self.check_labels(strokes, result, kept, image, conn, bool(split))
                for label, _, area, left, top, right, bottom, mean, *_ in table[1:]:
                    rows, columns = numpy.nonzero(image == int(label))
                    self.assertEqual([int(area), int(left), int(top), int(right), int(bottom)],
                                     [len(rows), columns.min(), rows.min(), columns.max(), rows.max()])
                    self.assertAlmostEqual(float(mean), mask[image == int(label)].mean(), 2)

    def test_share(self):
        dabs = [(91, 71), (206, 188), (285, 142), (205, 68), (220, 101)]
        strokes, result, paths, _ = self.example("cells", dabs, 4)
        image, table = self.labels(*paths, "--share", "0.5")
        self.assertEqual(len(table), 1 + len(dabs))
        for label, (level, pixels) in strokes.items():
            kept = {tuple(pixel) for pixel in numpy.argwhere(2 * result >= level).tolist()}
            part = part_around(kept, next(iter(pixels & kept)), 4)
            self.assertEqual(part, set(map(tuple, numpy.argwhere(image == label).tolist())))

    def random_case(self, chance, conn):
        """Mask, live gestures by number in the order of tags, result, and the words that a random input gives.

        Of each gesture the level and the pixels of its strokes.
        """
        height, width, top = chance.randint(1, 12), chance.randint(1, 12), chance.choice((3, 9, 700))
        samples = [[chance.randint(0, top) for _ in range(width)] for _ in range(height)]
        samples[0][0] = top
        edits = f"disc {uuid.UUID(int=1 << 100)} {chance.randint(1, top)} 0:0+1\n"
        for _ in range(chance.randint(0, 5)):
            gesture, level = chance.getrandbits(112), chance.randint(1, top + 3)
            for count in range(chance.choice((1, 1, 2, 4))):
                tag = uuid.UUID(int=gesture << 16 | count)
                y, x = chance.randrange(height), chance.randrange(width)
                edits += f"disc {tag} {level} {y}:{x}+{chance.randint(0, 2)}\n"
                if chance.random() < 0.3:
                    edits += f"withdraw {tag}\n"
        mask = readers.read_image(pgm(samples, top))
        states = readers.read_edits(edits.encode())
        gone = set().union(*(state.tombstones for state in states))
        live = {tag: stroke for state in states for tag, stroke in state.strokes.items() if tag not in gone}
        strokes = {number: (live[tags[0]].level, {divmod(place, width) for tag in tags for place in
                                                  simulator.pixels_of(live[tag].shape, width, height)})
                   for number, tags in enumerate(gestures_of(live), 1)}
        status, written = grown(edits, pgm(samples, top), conn)
        self.assertEqual(status, 0)
        result = numpy.array(readers.read_image(written).samples).reshape(height, width)
        return numpy.array(mask.samples).reshape(height, width), strokes, result, [
            self.put("result.pgm", written), "--mask", self.put("mask.pgm", pgm(samples, top)),
            "--strokes", self.put("strokes.txt", edits), "--conn", conn]

    def test_random_levels(self):
        chance = random.Random(2)
        for _ in range(60):
            conn = chance.choice((4, 8))
            _, strokes, result, words = self.random_case(chance, conn)
            level = chance.randint(1, int(result.max()))
            kept = set(map(tuple, numpy.argwhere(result >= level).tolist()))
            for split in ([], ["--split"]):
                image, _ = self.labels(*words, "--level", level, *split)
                self.check_labels(strokes, result, kept, image, conn, bool(split))

    def lit_by(self, mask, strokes, result, conn):
        """For each pixel the strokes from which a way leads to it along which the result never rises."""
        lit = collections.defaultdict(set)
        for number, (level, pixels) in strokes.items():
            border = [pixel for pixel in pixels if min(level, mask[pixel]) == result[pixel]]
            while border:
                y, x = border.pop()
                if number not in lit[y, x]:
                    lit[y, x].add(number)
                    border += [(row, column) for row in range(max(y - 1, 0), min(y + 2, mask.shape[0]))
                               for column in range(max(x - 1, 0), min(x + 2, mask.shape[1]))
                               if (conn == 8 or row == y or column == x) and result[row, column] <= result[y, x]]
        return lit

    def test_random_shares(self):
        chance = random.Random(3)
        for _ in range(60):
            conn, share = chance.choice((4, 8)), chance.choice((0.1, 0.5, 0.75, 1))
            mask, strokes, result, words = self.random_case(chance, conn)
            bounds = {number: max(1, share * max(min(level, mask[pixel]) for pixel in pixels))
                      for number, (level, pixels) in strokes.items()}
            image, _ = self.labels(*words, "--share", share)
            kept = set(map(tuple, numpy.argwhere(image).tolist()))
            for pixel, numbers in self.lit_by(mask, strokes, result, conn).items():
                judged = {result[pixel] >= bounds[number] for number in numbers}
                self.assertIn(pixel in kept, judged)
            self.check_labels(strokes, result, kept, image, conn, False)

    def test_labels_are_strokes_again(self):
        _, _, paths, _ = self.example("cells", [(91, 71), (206, 188)], 4)
        image, _ = self.labels(*paths, "--level", 100, "--painted")
        again = strokes_in(self.lines(self.folder / "labels.tif", "--mask", TOP / "examples" / "cells.png"))
        for tag, (_, pixels) in again.items():
            self.assertEqual({int(image[pixel]) for pixel in pixels}, {int(tag.hex[17:25], 16)})
        self.assertEqual(sum(len(pixels) for _, pixels in again.values()), numpy.count_nonzero(image))

    def test_as_programs(self):
        picture = self.put("one.png", numpy.ones((1, 2), numpy.uint8))
        for name in ("strokes_from_png.py", "labels_from_result.py", "labels_over_picture.py", "strokes_from_state.py"):
            done = subprocess.run([sys.executable, TOOLS / name, "--help"], capture_output=True, check=False)
            self.assertEqual((done.returncode, done.stderr), (0, b""))
        done = subprocess.run([sys.executable, TOOLS / "strokes_from_png.py", picture, "--level", "3"],
                              capture_output=True, check=True)
        self.assertTrue(done.stdout.endswith(b" 3 0:0-1\n"))
        done = subprocess.run([sys.executable, TOOLS / "strokes_from_png.py", "none.png", "--level", "3"],
                              capture_output=True, check=False)
        line = b"strokes_from_png.py: none.png: No such file or directory\n"
        self.assertEqual((done.returncode, done.stderr), (1, line))

    def test_labels_over_a_picture(self):
        grey = self.put("grey.png", numpy.array([[0, 100, 200]], numpy.uint8))
        layer = numpy.zeros((1, 3, 4), numpy.uint8)
        layer[0, 2] = (10, 20, 30, 255)
        labels = self.put("labels.tif", numpy.array([[0, 1, 2]], numpy.uint16))
        for over in (self.put("layer.png", layer), labels):
            status, _, fault = tool("labels_over_picture.py", grey, over, self.folder / "seen.png", "--scale", 2)
            self.assertEqual((status, fault), (0, ""))
            seen = numpy.asarray(Image.open(self.folder / "seen.png"))
            self.assertEqual((seen.shape, seen[0, 0].tolist()), ((2, 6, 3), [0, 0, 0]))
            if over != labels:
                self.assertEqual((seen[1, 3].tolist(), seen[1, 5].tolist()), ([127, 127, 127], [10, 20, 30]))
            else:
                self.assertEqual(len({tuple(pixel) for pixel in seen[0].tolist()}), 3)
        wrong = self.put("wrong.tif", numpy.array([[0, 1]], numpy.uint16))
        self.refused("labels_over_picture.py", [grey, wrong, self.folder / "no.png"], "has 2 by 1 pixels")

    def test_inputs_of_the_examples(self):
        neurons = TOP / "examples" / "neurons.txt"
        answer = simulator.view(neurons.read_bytes(), 8)
        _, table = self.labels(self.put("result.pgm", answer.output), "--mask", neurons, "--strokes", neurons,
                               "--conn", 8, "--share", "0.5")
        tags = [words.split()[1] for words in neurons.read_text("latin-1").split("\nimage\n")[0].splitlines()
                if words.startswith(("place", "disc"))]
        withdrawn = {words.split()[1] for words in neurons.read_text("latin-1").split("\nimage\n")[0].splitlines()
                     if words.startswith("withdraw")}
        self.assertEqual(sorted(line[1] for line in table[1:]), sorted(set(tags) - withdrawn))


def main():
    """Read the words, run the tests."""
    global PROGRAM
    parser = argparse.ArgumentParser(description="Test the tools in this folder.")
    parser.add_argument("--program", help="the program; without one the plain simulator grows the strokes")
    words, rest = parser.parse_known_args()
    PROGRAM = words.program
    unittest.main(argv=[sys.argv[0], *rest])


if __name__ == "__main__":
    main()
