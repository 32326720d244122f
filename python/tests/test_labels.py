"""Label images into strokes and seeds, and regions of strokes as labels."""

import importlib
import pathlib
import sys
import unittest
import uuid

import numpy

import seedpaint
import slow
from seedpaint import _labels
from seedpaint import strokes as seedpaint_strokes

TOOLS = pathlib.Path(__file__).parents[2] / "tools"


def regions(kept, conn):
    """The connected parts of what is kept, as sets of pixels, pixel by pixel."""
    left = set(zip(*(axis.tolist() for axis in numpy.nonzero(kept))))
    while left:
        region, border = set(), [left.pop()]
        while border:
            y, x = border.pop()
            region.add((y, x))
            for down, right in slow.STEPS[conn]:
                other = (y + down, x + right)
                if other in left:
                    left.remove(other)
                    border.append(other)
        yield region


def kept_by(stroke, image, threshold, conn):
    """What a path leads to from a stroke, on which no value is below a threshold."""
    covered = {
        (y, x)
        for y, first, last in stroke.spans(image.shape)
        for x in range(first, last + 1)
    }
    found = set()
    for region in regions(image >= threshold, conn):
        if region & covered:
            found |= region
    return found


def numbered(shape, kept):
    """A label image of what each stroke keeps: the least number counts."""
    labels = numpy.zeros(shape, dtype=int)
    for number in range(len(kept), 0, -1):
        for pixel in kept[number - 1]:
            labels[pixel] = number
    return labels


def tags_of_tools():
    """The module tools/tags.py, where the package is tested beside it."""
    if not (TOOLS / "tags.py").is_file():
        raise unittest.SkipTest(f"{TOOLS} has no tags.py")
    sys.path.insert(0, str(TOOLS))
    try:
        return importlib.import_module("tags")
    finally:
        sys.path.remove(str(TOOLS))


class Labels(unittest.TestCase):
    def setUp(self):
        self.mask = numpy.array(
            [[9, 9, 0, 5, 5, 0, 4], [9, 9, 0, 5, 1, 1, 4]], dtype=numpy.uint8
        )
        self.session = seedpaint.Session(self.mask, 4)
        for number, (y, x) in enumerate([(0, 0), (0, 3), (0, 6)], 1):
            self.session.disc(y, x, 0, tag=uuid.UUID(int=number << 64))

    def test_by_level(self):
        expected = [[1, 1, 0, 2, 2, 0, 0], [1, 1, 0, 2, 0, 0, 0]]
        self.assertEqual(self.session.labels(level=5).tolist(), expected)
        expected = [[1, 1, 0, 2, 2, 0, 2], [1, 1, 0, 2, 2, 2, 2]]
        self.assertEqual(self.session.labels(level=1).tolist(), expected)

    def test_by_share(self):
        expected = [[1, 1, 0, 2, 2, 0, 3], [1, 1, 0, 2, 0, 0, 3]]
        self.assertEqual(self.session.labels(share=0.9).tolist(), expected)
        self.assertEqual(self.session.labels(share=0.9).dtype, numpy.int32)

    def test_a_share_is_the_number_that_is_written(self):
        for share in (0.07, 0.28, 0.55, 0.56):
            least = round(100 * share)
            mask = numpy.array([[100, least, least - 1]], dtype=numpy.uint8)
            session = seedpaint.Session(mask, 4)
            session.disc(0, 0, 0)
            got = session.labels(share=share)
            self.assertEqual(got.tolist(), [[1, 1, 0]], share)

    def test_a_dim_stroke_keeps_a_bright_cell_that_touches_it(self):
        mask = numpy.array([[2, 2, 9, 9]], dtype=numpy.uint8)
        session = seedpaint.Session(mask, 4)
        session.disc(0, 0, 0, tag=uuid.UUID(int=1 << 96))
        session.disc(0, 3, 0, tag=uuid.UUID(int=2 << 96))
        self.assertEqual(session.labels(share=0.9).tolist(), [[1, 1, 1, 1]])

    def test_a_gesture_is_one_object(self):
        front = "00112233-4455-6677-e899-aabbccd"
        session = seedpaint.Session(self.mask, 4)
        session.disc(0, 0, 0, tag=f"{front}00200")
        session.disc(0, 3, 0, tag=f"{front}002ff")
        session.disc(0, 6, 0, tag="f0112233-4455-6677-8899-aabbccddeeff")
        expected = [[1, 1, 0, 1, 1, 0, 0], [1, 1, 0, 1, 0, 0, 0]]
        self.assertEqual(session.labels(level=5).tolist(), expected)
        expected = [[1, 1, 0, 0, 0, 0, 2], [1, 1, 0, 0, 0, 0, 2]]
        self.assertEqual(session.labels(share=0.9).tolist(), expected)
        expected = [[1, 1, 0, 1, 1, 0, 2], [1, 1, 0, 1, 0, 0, 2]]
        self.assertEqual(session.labels(share=0.5).tolist(), expected)

    def test_without_strokes(self):
        session = seedpaint.Session(self.mask, 4)
        for words in ({"level": 1}, {"share": 1}, {"level": 1, "painted": True}):
            self.assertEqual(session.labels(**words).max(), 0)

    def test_random_strokes_beside_slow_floods(self):
        random = numpy.random.default_rng(13)
        for conn in 20 * (4, 8):
            mask = random.integers(0, 40, (16, 20)).astype(numpy.uint8)
            session = seedpaint.Session(mask, conn)
            for y, x, radius in random.integers(0, [16, 20, 4], (8, 3)):
                session.disc(y, x, radius, int(random.integers(1, 50)))
            image, strokes = session.image(), session.strokes()
            level = int(random.integers(1, 40))
            kept = [kept_by(s, image, level, conn) for s in strokes]
            got = session.labels(level=level)
            numpy.testing.assert_array_equal(got, numbered(mask.shape, kept))
            kept = []
            for s in strokes:
                spans = s.spans(mask.shape)
                shown = max(int(image[y, a : b + 1].max()) for y, a, b in spans)
                own = max(int(mask[y, a : b + 1].max()) for y, a, b in spans)
                threshold = max(1, -(-min(s.level, own) // 2))
                self.assertLessEqual(min(s.level, own), shown)
                kept.append(kept_by(s, image, threshold, conn))
            got = session.labels(share=0.5)
            numpy.testing.assert_array_equal(got, numbered(mask.shape, kept))

    def test_more_strokes_than_levels(self):
        shape, count = (500, 400), 70_000
        mask = numpy.zeros(shape, dtype=numpy.uint8)
        mask[:, ::2] = 9
        strokes = []
        for n in range(count):
            y, x = divmod(n, 200)
            run = (y, 2 * x, 2 * x)
            strokes.append(seedpaint.Stroke(uuid.UUID(int=n + 1), 9, runs=(run,)))
        image = numpy.where(numpy.arange(500)[:, None] < 350, mask, 0)
        image[::2] = 0
        got = _labels.by_level(image, strokes, 5, 4)
        expected = numpy.zeros(shape, dtype=int)
        expected[:, ::2] = numpy.arange(100_000).reshape(500, 200) + 1
        expected[image == 0] = 0
        numpy.testing.assert_array_equal(got, expected)

    def test_the_least_of_more_strokes_than_levels(self):
        near, far = ((0, 0, 0),), ((0, 1, 1),)
        tags = [uuid.UUID(int=n) for n in range(1, 65_538)]
        strokes = [seedpaint.Stroke(tag, 9, runs=near) for tag in tags[:-1]]
        strokes.append(seedpaint.Stroke(tags[-1], 9, runs=far))
        image = numpy.full((1, 2), 9, dtype=numpy.uint8)
        self.assertEqual(_labels.by_level(image, strokes, 5, 4).tolist(), [[1, 1]])

    def test_words(self):
        for words in ({}, {"level": 1, "share": 1}, {"level": 0}, {"share": 0}):
            with self.assertRaises(ValueError):
                self.session.labels(**words)
        with self.assertRaisesRegex(TypeError, "level is 1.5"):
            self.session.labels(level=1.5)
        with self.assertRaisesRegex(ValueError, "strokes_from_labels"):
            self.session.labels(level=1, painted=True)
        for name in ("one", "other"):
            strokes = seedpaint.strokes_from_labels(
                [[3] * 7, [0] * 7], level=9, name=name
            )
            session = seedpaint.Session(self.mask, 4)
            session.add(strokes)
            session.labels(level=1, painted=True)
            self.session.add(strokes)
        with self.assertRaisesRegex(ValueError, "one picture"):
            self.session.labels(level=1, painted=True)


class Painted(unittest.TestCase):
    def test_painted_labels_come_back(self):
        layer = numpy.zeros((40, 500), dtype=numpy.int32)
        layer[2:18] = 70_000
        layer[22:38, ::2] = 3
        mask = numpy.where(layer > 0, 200, 0).astype(numpy.uint8)
        mask[30, :] = 200
        session = seedpaint.Session(mask, 8)
        session.add(reversed(seedpaint.strokes_from_labels(layer, mask)))
        labels = session.labels(level=200, painted=True)
        self.assertEqual(labels.dtype, numpy.uint32)
        self.assertEqual(set(labels[2:18].ravel()), {70_000})
        self.assertEqual(set(labels[22:38, ::2].ravel()), {3})
        self.assertEqual(labels[20].max(), 0)

    def test_strokes_cover_their_labels(self):
        random = numpy.random.default_rng(14)
        for kind in ("?", "u1", ">i4", "u8"):
            for _ in range(20):
                h, w = random.integers(1, 60, 2)
                layer = random.integers(0, 2 if kind == "?" else 4, (h, w)).astype(kind)
                mask = random.integers(0, 300, (h, w))
                painted = numpy.zeros((h, w), dtype=int)
                for stroke in seedpaint.strokes_from_labels(layer, mask):
                    label = seedpaint_strokes.painted_label(stroke.tag)
                    under = mask[layer.astype(int) == label]
                    self.assertEqual(stroke.level, max(1, under.max()))
                    self.assertLessEqual(len(stroke.runs), 160)
                    for y, first, last in stroke.spans((h, w)):
                        painted[y, first : last + 1] += label
                numpy.testing.assert_array_equal(painted, layer.astype(int))

    def test_tags_are_those_of_the_tool(self):
        tool = tags_of_tools()
        for words in (
            ("painted.png", 3, 0),
            ("", 2**32 - 1, 2**28 - 1),
            ("ü.tif", 0, 7),
        ):
            tag = seedpaint_strokes.painted_tag(*words)
            self.assertEqual(tag, tool.painted_tag(*words))
            self.assertEqual((tag.version, tag.variant), (8, uuid.RFC_4122))
            self.assertEqual(seedpaint_strokes.painted_label(tag), words[1])

    def test_objects_and_classes_are_those_of_the_tool(self):
        tool, random = tags_of_tools(), numpy.random.default_rng(16)
        drawn = [bytearray(random.bytes(16)) for _ in range(3000)]
        for number, digits in enumerate(drawn):
            digits[6] = digits[6] & 0x0F | (0x40, 0x80, digits[6])[number % 3]
            digits[8] = digits[8] & 0x0F | (0xE0, 0x80, digits[8])[number // 3 % 3]
            digits[14] = (0, 1, 255, digits[14])[number % 4]
        tags = [uuid.UUID(bytes=bytes(digits)) for digits in drawn]
        classes = set()
        for tag in tags:
            self.assertEqual(seedpaint_strokes.object_of(tag), tool.object_of(tag))
            self.assertEqual(seedpaint_strokes.class_of(tag), tool.class_of(tag))
            painted = seedpaint_strokes.are_of_one_picture([tag])
            self.assertEqual(painted, tool.is_painted(tag))
            classes.add(seedpaint_strokes.class_of(tag))
        self.assertGreater(len(classes), 50)
        numbers = seedpaint_strokes.object_numbers([*tags[:9], *tags[:9]])
        self.assertEqual(numbers, 2 * list(range(1, 10)))

    def test_a_random_tag_of_version_8_is_none_of_a_painted_stroke(self):
        tag = uuid.UUID("00112233-4455-8677-9899-aabbccddeeff")
        self.assertFalse(seedpaint_strokes.are_of_one_picture([tag]))

    def test_a_level_for_all(self):
        layer = [[1, 0, 2]]
        levels = [s.level for s in seedpaint.strokes_from_labels(layer, level=7)]
        self.assertEqual(levels, [7, 7])

    def test_the_greatest_label(self):
        layer = numpy.array([[2**32 - 1, 0]], dtype=numpy.uint64)
        (stroke,) = seedpaint.strokes_from_labels(layer, level=9)
        self.assertEqual(seedpaint_strokes.painted_label(stroke.tag), 2**32 - 1)

    def test_what_is_refused(self):
        strokes_from_labels = seedpaint.strokes_from_labels
        with self.assertRaisesRegex(ValueError, "a mask or a level"):
            strokes_from_labels([[1]])
        with self.assertRaisesRegex(ValueError, "label -1"):
            strokes_from_labels([[-1]], level=9)
        with self.assertRaisesRegex(ValueError, "label 4294967296"):
            strokes_from_labels([[2**32]], level=9)
        with self.assertRaisesRegex(ValueError, r"\(1, 1\), and mask \(1, 2\)"):
            strokes_from_labels([[1]], [[1, 2]])
        with self.assertRaisesRegex(TypeError, "float64"):
            strokes_from_labels([[1.0]], level=9)
        for level in (0, 65536):
            with self.assertRaisesRegex(ValueError, "level"):
                strokes_from_labels([[1]], level=level)


class Seeds(unittest.TestCase):
    def test_a_seed_from_labels(self):
        mask = numpy.array([[9, 9, 0, 5, 5, 0, 4]], dtype=numpy.uint8)
        layer = [[0, 1, 0, 0, 8, 0, 0]]
        seed = seedpaint.seed_from_labels(layer, mask, level=6)
        self.assertEqual(seed.tolist(), [[0, 6, 0, 0, 5, 0, 0]])
        self.assertEqual(seed.dtype, numpy.uint8)
        seed = seedpaint.seed_from_labels(layer, mask, level=60_000)
        self.assertEqual(seed.tolist(), [[0, 9, 0, 0, 5, 0, 0]])
        seed = seedpaint.seed_from_labels(layer, mask > 0, level=1)
        self.assertEqual(seed.dtype, bool)

    def test_it_shows_what_the_strokes_show(self):
        random = numpy.random.default_rng(15)
        for kind in ("u1", ">u2", "i8"):
            mask = random.integers(0, 200, (30, 40)).astype(kind)
            layer = random.integers(0, 30, (30, 40)) * (random.random((30, 40)) < 0.05)
            session = seedpaint.Session(mask, 8)
            session.add(seedpaint.strokes_from_labels(layer, level=150))
            seed = seedpaint.seed_from_labels(layer, mask, level=150)
            grown = seedpaint.reconstruction(seed, mask)
            numpy.testing.assert_array_equal(session.image(), grown)


if __name__ == "__main__":
    unittest.main()
