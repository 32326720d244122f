"""Sessions: what they show, keep and refuse."""

import itertools
import pickle
import unittest
import uuid

import numpy

import seedpaint
import slow

TAG = uuid.UUID(int=1)


def marker(mask, strokes):
    """The marker of strokes on a mask."""
    image = numpy.zeros(mask.shape, dtype=numpy.int64)
    for stroke in strokes:
        for y, first, last in stroke.spans(mask.shape):
            part = image[y, first : last + 1]
            numpy.maximum(part, stroke.level, out=part)
    return numpy.minimum(image, mask)


def painted(random, session, shape, count):
    """Place and withdraw at random."""
    h, w = shape
    for _ in range(count):
        y, x = int(random.integers(h)), int(random.integers(w))
        if random.random() < 0.5:
            session.disc(y, x, int(random.integers(0, 5)), int(random.integers(1, 300)))
        else:
            session.place([(y, x // 2, x)])
        if random.random() < 0.3:
            strokes = session.strokes()
            session.withdraw(strokes[int(random.integers(len(strokes)))].tag)


class Shows(unittest.TestCase):
    def test_random_strokes(self):
        random = numpy.random.default_rng(11)
        for kind in (numpy.uint8, numpy.uint16):
            for conn in (4, 8):
                mask = random.integers(0, 200, (30, 40)).astype(kind)
                session = seedpaint.Session(mask, conn)
                painted(random, session, mask.shape, 20)
                expected = slow.reconstruction(
                    marker(mask, session.strokes()), mask, conn
                )
                numpy.testing.assert_array_equal(session.image(), expected)
                self.assertEqual(session.image().dtype, kind)

    def test_the_pixels_of_a_disc(self):
        h, w = 7, 9
        for y, x, radius in itertools.product(range(h), range(w), (0, 1, 2, 3, 5, 20)):
            spans = seedpaint.Stroke(TAG, 9, disc=(y, x, radius)).spans((h, w))
            covered = {(row, c) for row, a, b in spans for c in range(a, b + 1)}
            rows, columns = numpy.mgrid[:h, :w]
            near = (rows - y) ** 2 + (columns - x) ** 2 <= radius**2
            self.assertEqual(covered, set(zip(*numpy.nonzero(near))))

    def test_the_image_is_the_callers_own(self):
        session = seedpaint.Session(numpy.full((2, 2), 5, dtype=numpy.uint8), 4)
        session.image()[...] = 9
        self.assertEqual(session.image().max(), 0)

    def test_the_mask_is_copied(self):
        for kind in (numpy.uint8, numpy.uint16):
            mask = numpy.full((2, 2), 5, dtype=kind)
            session = seedpaint.Session(mask, 4)
            mask[...] = 0
            session.disc(0, 0, 0)
            self.assertEqual(session.strokes()[0].level, 5)
            self.assertEqual(session.image().min(), 5)

    def test_strokes_come_and_go(self):
        mask = numpy.array([[9, 9, 0, 7, 7]], dtype=numpy.uint8)
        session = seedpaint.Session(mask, 4)
        self.assertEqual(session.image().tolist(), [[0, 0, 0, 0, 0]])
        first, second = session.disc(0, 0, 0), session.disc(0, 4, 0)
        self.assertEqual(session.image().tolist(), mask.tolist())
        session.withdraw(first)
        self.assertEqual(session.image().tolist(), [[0, 0, 0, 7, 7]])
        session.withdraw(str(second))
        self.assertEqual(session.image().max(), 0)
        self.assertEqual(session.strokes(), [])

    def test_a_byte_or_two_for_a_sample(self):
        mask = numpy.array([[200, 100]], dtype=numpy.uint8)
        for maxval in (200, 255, 256, 65535):
            session = seedpaint.Session(mask, 4, maxval=maxval)
            session.disc(0, 0, 1)
            self.assertEqual(session.image().tolist(), mask.tolist())

    def test_kinds_of_masks(self):
        for kind, maxval in (("?", 1), ("u1", 255), (">u2", 65535), ("i8", 65535)):
            mask = numpy.array([[0, 1, 1]], dtype=kind)
            session = seedpaint.Session(mask, 8)
            session.disc(0, 2, 0)
            self.assertEqual(session.image().dtype, mask.dtype.newbyteorder("="))
            self.assertEqual(session.image().tolist(), mask.tolist())
            named = seedpaint.Session(mask, 8, maxval=maxval, state=session.state())
            self.assertEqual(named.state(), session.state())

    def test_a_level_of_its_own(self):
        mask = numpy.array([[0, 7, 9]], dtype=numpy.uint8)
        session = seedpaint.Session(mask, 4)
        session.place([(0, 0, 1)])
        self.assertEqual(session.strokes()[0].level, 7)
        session.disc(0, 0, 0, tag=TAG)
        self.assertEqual(session.strokes()[0].level, 1)


class Keeps(unittest.TestCase):
    def test_states_join_in_any_order(self):
        random = numpy.random.default_rng(12)
        mask = random.integers(0, 200, (30, 40)).astype(numpy.uint8)
        one, other = (seedpaint.Session(mask, 8) for _ in range(2))
        painted(random, one, mask.shape, 15)
        painted(random, other, mask.shape, 15)
        states = one.state(), other.state()
        one.join(states[1])
        other.join(states[0])
        other.join(states[0])
        self.assertEqual(one.state(), other.state())
        numpy.testing.assert_array_equal(one.image(), other.image())
        again = seedpaint.Session(mask, 8, state=states[0] + states[1])
        self.assertEqual(again.state(), one.state())
        self.assertEqual(again.strokes(), one.strokes())

    def test_many_strokes(self):
        mask = numpy.full((50, 50), 9, dtype=numpy.uint8)
        session = seedpaint.Session(mask, 4)
        names = [uuid.UUID(int=n) for n in range(1, 2001)]
        strokes = [
            seedpaint.Stroke(tag, 9, runs=((n % 50, n % 50, n % 50),))
            for n, tag in enumerate(names)
        ]
        session.add(strokes)
        self.assertEqual(session.strokes(), strokes)


class Refuses(unittest.TestCase):
    def setUp(self):
        self.mask = numpy.full((4, 5), 9, dtype=numpy.uint8)
        self.session = seedpaint.Session(self.mask, 4)
        self.session.disc(1, 1, 1, 5, tag=TAG)

    def refused(self, code, words, call):
        before = self.session.state()
        with self.assertRaises(seedpaint.Fault) as caught:
            call()
        self.assertEqual(caught.exception.code, code)
        self.assertIn(words, str(caught.exception))
        self.assertTrue(str(caught.exception).endswith(caught.exception.sentence))
        self.assertEqual(self.session.state(), before)

    def test_strokes(self):
        place, disc = self.session.place, self.session.disc
        many = [(y, 0, 0) for y in range(161)]
        self.refused("E1", "from 0 to 65535", lambda: place([(-1, 0, 0)], 9))
        self.refused("E1", "from 0 to 65535", lambda: place([(-1, 0, 0)]))
        self.refused("E1", "from 0 to 65535", lambda: disc(0, -1, 2))
        self.refused("E1", "from 0 to 65535", lambda: disc(0, 0, -1))
        self.refused("E3", "it has no run", lambda: place([], 9))
        self.refused("E3", "it has no run", lambda: place([]))
        self.refused("E2", "UUID", lambda: disc(1, 1, 1, 5, tag="me"))
        self.refused("E3", "level", lambda: disc(1, 1, 1, 0))
        self.refused("E3", "160", lambda: place(many, 9))
        self.refused("E3", "order", lambda: place([(0, 3, 2)], 9))
        self.refused("E3", "order", lambda: place([(0, 3, 2)]))
        self.refused("E3", "radius", lambda: disc(1, 1, 256))
        self.refused("C1", "lie in", lambda: disc(4, 0, 0, 5))
        self.refused("C1", "lie in", lambda: place([(0, 3, 5)]))
        self.refused("C2", "tag", lambda: disc(1, 1, 2, 5, tag=TAG))

    def test_numbers_that_are_not_whole(self):
        place, disc = self.session.place, self.session.disc
        for call in (
            lambda: place([(0.5, 0, 0)]),
            lambda: place([(0, 0, 0)], 2.5),
            lambda: disc(0, 0, 1.5),
            lambda: disc(0, 0, 1, tag=7),
            lambda: self.session.withdraw(7),
            lambda: self.session.join("state"),
            lambda: self.session.join(5),
            lambda: self.session.edit(5),
        ):
            with self.assertRaises(TypeError):
                call()
        runs = numpy.array([[0, 0, 1], [2, 3, 3]], dtype=numpy.uint8)
        place(runs, numpy.uint16(7))

    def test_nothing_is_withdrawn_by_no_tag(self):
        before = self.session.state()
        words = "tag is None, and it is a uuid.UUID or its text"
        with self.assertRaisesRegex(TypeError, words):
            self.session.withdraw(None)
        self.assertEqual(self.session.state(), before)

    def test_all_lines_or_none(self):
        lines = f"disc {uuid.UUID(int=2)} 5 0:0+0\nplaces\n"
        self.refused("E1", "from 0 to 65535", lambda: self.session.edit(lines))

    def test_states(self):
        state = self.session.state()
        join = self.session.join
        self.refused("M1", "begin", lambda: join(b"\0\4none"))
        self.refused("M3", "cut off", lambda: join(state[:-1]))
        other = seedpaint.Session(self.mask + 1, 4)
        other.disc(0, 0, 0)
        self.refused("D1", "another mask", lambda: join(other.state()))
        other = seedpaint.Session(self.mask, 8)
        other.disc(0, 0, 0)
        self.refused("D1", "connectivity", lambda: join(other.state()))
        other = seedpaint.Session(self.mask, 4)
        other.disc(0, 0, 0, tag=TAG)
        self.refused("C2", str(TAG), lambda: join(other.state()))

    def test_masks(self):
        for connectivity in (None, 3):
            with self.assertRaisesRegex(ValueError, "connectivity"):
                seedpaint.Session(self.mask, connectivity)
        for maxval in (0, 65536):
            with self.assertRaisesRegex(ValueError, "maxval"):
                seedpaint.Session(self.mask, 4, maxval=maxval)
        with self.assertRaisesRegex(ValueError, "value 9, and maxval is 8"):
            seedpaint.Session(self.mask, 4, maxval=8)
        with self.assertRaisesRegex(TypeError, "floats"):
            seedpaint.Session(self.mask / 2, 4)
        with self.assertRaises(seedpaint.Fault):
            seedpaint.Session(self.mask, 4, state=b"none")
        clash = seedpaint.Session(self.mask, 4)
        clash.disc(0, 0, 0, tag=TAG)
        both = self.session.state() + clash.state()
        with self.assertRaisesRegex(seedpaint.Fault, "C2"):
            seedpaint.Session(self.mask, 4, state=both)

    def test_a_fault_can_be_sent_to_another_process(self):
        fault = seedpaint.Fault("seedpaint: E3 1 S1")
        again = pickle.loads(pickle.dumps(fault))
        self.assertEqual((again.code, str(again)), (fault.code, str(fault)))


if __name__ == "__main__":
    unittest.main()
