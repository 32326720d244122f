"""The functions of arrays: values by slow answers, kinds of arrays, and refusals."""

import importlib.metadata
import unittest

import numpy

import seedpaint
import slow
from seedpaint import _arrays

KINDS = ["?", "i1", "u1", "<i2", ">i2", "<u2", ">u2"]
KINDS += ["<i4", ">i4", "<u4", ">u4", "<i8", ">i8", "<u8", ">u8"]


def layouts(array):
    """The same values, held in other ways."""
    yield "contiguous", numpy.ascontiguousarray(array)
    yield "transposed", numpy.ascontiguousarray(array.T).T
    wide = numpy.zeros((2 * array.shape[0], 3 * array.shape[1]), array.dtype)
    wide[::2, ::3] = array
    yield "strided", wide[::2, ::3]
    yield "backwards", numpy.ascontiguousarray(array[::-1, ::-1])[::-1, ::-1]
    fixed = array.copy()
    fixed.flags.writeable = False
    yield "read-only", fixed
    room = numpy.empty(array.nbytes + 1, numpy.uint8)[1:]
    odd = room.view(array.dtype).reshape(array.shape)
    odd[...] = array
    yield "at an odd address", odd


def functions(seed):
    """Each function of one image, beside its slow answer; the seed says a height."""
    h = int(seed.max())
    yield seedpaint.fill_holes, slow.fill
    yield (
        lambda image, **named: seedpaint.h_maxima_reconstruction(image, h, **named),
        lambda image, conn: slow.h_maxima(image, h, conn),
    )
    yield seedpaint.regional_maxima, slow.regional_maxima


class Values(unittest.TestCase):
    def test_random_pictures(self):
        random = numpy.random.default_rng(1)
        for _ in range(300):
            mask, seed, top = slow.picture(random)
            for conn in (4, 8):
                expected = slow.reconstruction(seed, mask, conn)
                got = seedpaint.reconstruction(seed, mask, connectivity=conn)
                numpy.testing.assert_array_equal(got, expected)
                words = (top - seed, top - mask, "erosion", slow.FOOTPRINTS[conn])
                got = seedpaint.reconstruction(*words)
                numpy.testing.assert_array_equal(got, top - expected)

    def test_derived_images(self):
        random = numpy.random.default_rng(3)
        for _ in range(200):
            image, seed, _ = slow.picture(random)
            for conn in (4, 8):
                for function, slowly in functions(seed):
                    got = function(image, connectivity=conn)
                    numpy.testing.assert_array_equal(got, slowly(image, conn))

    def test_sides_of_one_and_the_longest(self):
        for shape in ((1, 1), (1, 9), (9, 1), (1, 16384), (16384, 1)):
            mask = numpy.full(shape, 9, dtype=numpy.uint8)
            seed = numpy.zeros(shape, dtype=numpy.uint8)
            seed[0, 0] = 7
            self.assertTrue((seedpaint.reconstruction(seed, mask) == 7).all())

    def test_the_largest_picture(self):
        mask = numpy.full((4096, 16384), 200, dtype=numpy.uint16)
        seed = numpy.zeros_like(mask)
        seed[4095, 0] = 150
        seedpaint.reconstruction(seed, mask, out=seed)
        self.assertTrue((seed == 150).all())

    def test_eight_neighbours_where_none_are_named(self):
        image = numpy.array(
            [[5, 9, 1, 9, 1], [1, 5, 9, 1, 9], [1, 9, 1, 9, 1], [5, 1, 9, 5, 9]],
            dtype=numpy.uint8,
        )
        seed = numpy.zeros_like(image)
        seed[0, 0] = 5
        grown = seedpaint.reconstruction(seed, image)
        expected = [slow.reconstruction(seed, image, conn) for conn in (4, 8)]
        numpy.testing.assert_array_equal(grown, expected[1])
        self.assertTrue((expected[0] != expected[1]).any())
        for function, slowly in functions(seed):
            expected = [slowly(image, conn) for conn in (4, 8)]
            numpy.testing.assert_array_equal(function(image), expected[1])
            self.assertTrue((expected[0] != expected[1]).any())


class Kinds(unittest.TestCase):
    def test_kinds_and_layouts(self):
        random = numpy.random.default_rng(4)
        for kind in map(numpy.dtype, KINDS):
            top = 1 if kind.kind == "b" else 100
            mask = random.integers(0, top + 1, (7, 11)).astype(kind)
            seed = numpy.where(random.random((7, 11)) < 0.2, mask, 0).astype(kind)
            for (name, one), (_, other) in zip(layouts(seed), layouts(mask)):
                with self.subTest(kind=kind.str, layout=name):
                    self.compare(one, other)

    def compare(self, seed, mask):
        """All functions on this seed and mask, which stay as they are."""
        before = seed.copy(), mask.copy()
        native = seed.dtype.newbyteorder("=")
        grown = seedpaint.reconstruction(seed, mask)
        numpy.testing.assert_array_equal(grown, slow.reconstruction(seed, mask, 8))
        self.assertEqual(grown.dtype, native)
        self.assertTrue(grown.flags.writeable)
        eroded = seedpaint.reconstruction(mask, seed, "erosion")
        self.assertEqual(eroded.dtype, native)
        for function, slowly in functions(seed):
            got = function(mask)
            numpy.testing.assert_array_equal(got, slowly(mask, 8))
            self.assertEqual(got.dtype, native if got.dtype != bool else bool)
        numpy.testing.assert_array_equal(seed, before[0])
        numpy.testing.assert_array_equal(mask, before[1])

    def test_which_memory_the_library_reads(self):
        cells = numpy.ones((5, 6), dtype=numpy.uint16)
        fit = {name for name, array in layouts(cells) if _arrays.is_fit(array)}
        self.assertEqual(fit, {"contiguous", "read-only"})
        for kind in KINDS:
            self.assertEqual(_arrays.is_fit(cells.astype(kind)), kind == "<u2")

    def test_lists(self):
        grown = seedpaint.reconstruction([[0, 5, 0, 0, 0]], [[3, 5, 2, 5, 4]])
        self.assertEqual(grown.tolist(), [[3, 5, 2, 2, 2]])

    def test_two_kinds_give_one_that_has_both(self):
        kinds = [("u1", "u2", "u2"), ("i1", "u1", "i2"), ("?", "u1", "u1")]
        kinds += [(">u2", "i4", "i4"), ("i8", "u8", "i8"), ("u8", "?", "u8")]
        for one, other, both in kinds:
            seed, mask = numpy.zeros((2, 3), one), numpy.ones((2, 3), other)
            self.assertEqual(seedpaint.reconstruction(seed, mask).dtype, both)

    def test_the_greatest_level(self):
        mask = numpy.full((2, 2), 65535, dtype=numpy.int64)
        seed = numpy.array([[65535, 0], [0, 0]])
        self.assertTrue((seedpaint.reconstruction(seed, mask) == 65535).all())
        self.assertTrue(
            (seedpaint.reconstruction(mask, seed, "erosion") == 65535).all()
        )


class Out(unittest.TestCase):
    def setUp(self):
        self.mask = numpy.array([[3, 5, 2, 5, 4]], dtype=numpy.uint16)
        self.seed = numpy.array([[0, 5, 0, 0, 0]], dtype=numpy.uint16)
        self.grown = [[3, 5, 2, 2, 2]]

    def test_the_seed_in_place(self):
        got = seedpaint.reconstruction(self.seed, self.mask, out=self.seed)
        self.assertIs(got, self.seed)
        self.assertEqual(got.tolist(), self.grown)

    def test_another_array_and_one_that_overlaps(self):
        for out in (numpy.empty_like(self.seed), self.mask, self.seed[:, :]):
            got = seedpaint.reconstruction(self.seed, self.mask.copy(), out=out)
            self.assertIs(got, out)
            self.assertEqual(got.tolist(), self.grown)

    def test_the_mask_as_out(self):
        got = seedpaint.reconstruction(self.seed, self.mask, out=self.mask)
        self.assertIs(got, self.mask)
        self.assertEqual(got.tolist(), self.grown)
        self.assertEqual(self.seed.tolist(), [[0, 5, 0, 0, 0]])

    def test_seed_mask_and_out_that_overlap(self):
        room = numpy.array([0, 5, 0, 0, 0, 9, 9], dtype=numpy.uint16)
        seed, out = room[None, :5], room[None, 2:]
        seedpaint.reconstruction(seed, self.mask, out=out)
        self.assertEqual(out.tolist(), self.grown)
        room = numpy.array([9, 3, 5, 2, 5, 4, 9], dtype=numpy.uint16)
        mask, out = room[None, 1:6], room[None, :5]
        seedpaint.reconstruction(self.seed, mask, out=out)
        self.assertEqual(out.tolist(), self.grown)
        both = self.mask.copy()
        seedpaint.reconstruction(both, both, out=both)
        self.assertEqual(both.tolist(), self.mask.tolist())

    def test_a_seed_in_place_that_the_mask_overlaps(self):
        room = numpy.array([[0, 1, 5, 5, 5, 7, 9, 9]], dtype=numpy.uint16)
        seed, mask = room[:, :-1], room[:, 1:]
        expected = slow.reconstruction(seed, mask.copy(), 8)
        seedpaint.reconstruction(seed, mask, out=seed)
        numpy.testing.assert_array_equal(seed, expected)

    def test_in_other_kinds_and_layouts(self):
        for kind in ("u1", ">u2", "i4"):
            seed, mask = self.seed.astype(kind), self.mask.astype(kind)
            out = numpy.zeros((5, 1), dtype=kind).T
            got = seedpaint.reconstruction(seed, mask, out=out)
            self.assertIs(got, out)
            self.assertEqual(got.tolist(), self.grown)

    def test_erosion_in_place(self):
        seed, mask = 9 - self.seed, 9 - self.mask
        got = seedpaint.reconstruction(seed, mask, "erosion", out=seed)
        self.assertIs(got, seed)
        self.assertEqual((9 - got).tolist(), self.grown)

    def test_after_an_error_it_is_as_it_was(self):
        self.seed[0, 2] = 3
        before = self.seed.copy()
        with self.assertRaisesRegex(ValueError, "above mask in row 0, column 2: 3"):
            seedpaint.reconstruction(self.seed, self.mask, out=self.seed)
        numpy.testing.assert_array_equal(self.seed, before)

    def test_what_is_refused(self):
        fixed = self.seed.copy()
        fixed.flags.writeable = False
        for out in (fixed, self.seed[:, 1:], self.seed.astype(numpy.uint8)):
            with self.assertRaisesRegex(ValueError, "out (is|has)"):
                seedpaint.reconstruction(self.seed, self.mask, out=out)
        with self.assertRaisesRegex(TypeError, "list"):
            seedpaint.reconstruction(self.seed, self.mask, out=[])


class Refusals(unittest.TestCase):
    ok = numpy.ones((3, 3), dtype=numpy.uint8)

    def refused(self, error, words, *arguments, **named):
        with self.assertRaisesRegex(error, words):
            seedpaint.reconstruction(*arguments, **named)

    def test_arrays(self):
        ok = self.ok
        self.refused(TypeError, "seed has floats.*rint", ok.astype(float), ok)
        self.refused(TypeError, "mask has floats.*ranks", ok, ok.astype("f2"))
        self.refused(TypeError, "complex128.*integers", ok.astype(complex), ok)
        self.refused(TypeError, "datetime", ok.astype("datetime64[s]"), ok)
        self.refused(ValueError, "2 dimensions$", ok[0, 0], ok[0, 0])
        words = r"\(3,\).*2 dimensions: pass seed\[None\]"
        self.refused(ValueError, words, ok[0], ok[0])
        for stack in (ok[None], ok[None, None]):
            self.refused(ValueError, "planes are grown one by one", stack, stack)
        self.refused(ValueError, r"\(3, 3\), and mask \(2, 3\)", ok, ok[:2])
        self.refused(ValueError, "no pixel", ok[:0], ok[:0])
        self.refused(ValueError, "no pixel", ok[:, :0], ok[:, :0])
        self.refused(ValueError, "value -1,", ok.astype("i1") - 2, ok)
        self.refused(ValueError, "value 65536,", ok, ok.astype(int) + 65535)

    def test_a_seed_that_passes_the_mask(self):
        ok = self.ok
        high = ok.copy()
        high[1, 2] = 7
        words = "seed is above mask in row 1, column 2: 7 there, and mask 1;"
        self.refused(ValueError, words, high, ok)
        words = "seed is below mask in row 1, column 2: 1 there, and mask 7;"
        self.refused(ValueError, words, ok, high, "erosion")

    def test_sides_and_pixels(self):
        for shape in ((1, 16385), (16385, 1), (8193, 8192), (1 << 40, 1 << 20)):
            large = numpy.broadcast_to(numpy.uint8(0), shape)
            self.refused(ValueError, "chunks", large, large)

    def test_words(self):
        ok = self.ok
        self.refused(ValueError, "method is 'opening'", ok, ok, "opening")
        self.refused(ValueError, r"\(5, 5\)", ok, ok, footprint=numpy.ones((5, 5)))
        self.refused(ValueError, "footprint", ok, ok, footprint=numpy.eye(3))
        self.refused(ValueError, "connectivity is 3", ok, ok, connectivity=3)
        self.refused(ValueError, "connectivity is 'x'", ok, ok, connectivity="x")
        cross = slow.FOOTPRINTS[4]
        hollow = [[1, 0, 1], [0, 1, 0], [1, 0, 1]]
        self.refused(ValueError, "neither the cross", ok, ok, footprint=hollow)
        self.refused(ValueError, "agree", ok, ok, footprint=cross, connectivity=2)

    def test_the_centre_of_a_footprint_is_all_the_same(self):
        for conn, whole in slow.FOOTPRINTS.items():
            footprint = whole.copy()
            footprint[1, 1] = False
            self.assertEqual(_arrays.connectivity_of(None, footprint), conn)
            self.assertFalse(footprint[1, 1])

    def test_messages_name_what_a_wheel_has(self):
        try:
            readme = importlib.metadata.metadata("seedpaint")["Description"]
        except importlib.metadata.PackageNotFoundError:
            self.skipTest("the package runs from no wheel")
        for words in ("## Floats", "## Larger pictures"):
            self.assertIn(words, readme)

    def test_heights(self):
        for h in (-1, 65536):
            with self.assertRaisesRegex(ValueError, f"h is {h}"):
                seedpaint.h_maxima_reconstruction(self.ok, h)
        with self.assertRaisesRegex(TypeError, "h is 0.5, and it is an integer"):
            seedpaint.h_maxima_reconstruction(self.ok, 0.5)

    def test_one_image(self):
        functions_of_one = [seedpaint.fill_holes, seedpaint.regional_maxima]
        functions_of_one.append(lambda i: seedpaint.h_maxima_reconstruction(i, 1))
        for function in functions_of_one:
            with self.assertRaisesRegex(TypeError, "image has floats"):
                function(self.ok.astype(float))
            with self.assertRaisesRegex(ValueError, "image has the value -1"):
                function(self.ok.astype(int) - 2)
            with self.assertRaisesRegex(ValueError, "no pixel"):
                function(self.ok[:0])


if __name__ == "__main__":
    unittest.main()
