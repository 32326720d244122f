"""Beside scikit-image, where it is installed: random pictures, and its own examples."""

import itertools
import unittest

import numpy

import seedpaint
import slow

try:
    from scipy import ndimage
    from skimage import data, exposure, morphology
except ImportError:
    morphology = None

PICTURES = 5000


def by_ranks(seed, mask, *words):
    """The reconstruction of floats, by the ranks of their values."""
    values, ranks = numpy.unique([seed, mask], return_inverse=True)
    seed_ranks, mask_ranks = ranks.reshape(2, *mask.shape)
    return values[seedpaint.reconstruction(seed_ranks, mask_ranks, *words)]


@unittest.skipIf(morphology is None, "scikit-image is not installed")
class RandomPictures(unittest.TestCase):
    def test_reconstruction(self):
        random = numpy.random.default_rng(5)
        for _ in range(PICTURES):
            mask, seed, top = slow.picture(random, 70)
            for footprint in slow.FOOTPRINTS.values():
                self.compare(seed, mask, "dilation", footprint)
                self.compare(top - seed, top - mask, "erosion", footprint)

    def compare(self, *words):
        """What both give."""
        numpy.testing.assert_array_equal(
            seedpaint.reconstruction(*words), morphology.reconstruction(*words)
        )

    def test_defaults(self):
        random = numpy.random.default_rng(6)
        for _ in range(100):
            mask, seed, top = slow.picture(random)
            self.compare(seed, mask)
            self.compare(top - seed, top - mask, "erosion")

    def test_h_maxima(self):
        random = numpy.random.default_rng(7)
        for kind, footprint in itertools.product(
            (numpy.uint8, numpy.uint16, numpy.int32), slow.FOOTPRINTS.values()
        ):
            for _ in range(100):
                image, _, _ = slow.picture(random)
                image = (image >> 1).astype(kind) if image.max() > 127 else image
                h = int(random.integers(0, numpy.ptp(image) + 1))
                if h == 0:
                    continue
                conn = 8 if footprint.all() else 4
                ours = seedpaint.h_maxima_reconstruction(image, h, connectivity=conn)
                theirs = morphology.h_maxima(image, h, footprint=footprint)
                numpy.testing.assert_array_equal(image - ours >= h, theirs.astype(bool))

    def test_local_maxima(self):
        random = numpy.random.default_rng(8)
        for _ in range(300):
            image = slow.picture(random)[0]
            for conn, connectivity in ((4, 1), (8, 2)):
                ours = seedpaint.regional_maxima(image, connectivity=conn)
                theirs = morphology.local_maxima(image, connectivity=connectivity)
                expected = theirs if numpy.ptp(image) else ~theirs
                numpy.testing.assert_array_equal(ours, expected)


@unittest.skipIf(morphology is None, "scikit-image is not installed")
class ItsExamples(unittest.TestCase):
    def test_the_curve(self):
        x = numpy.linspace(0, 4 * numpy.pi)
        mask = numpy.cos(x)
        seed = mask.min() * numpy.ones_like(x)
        seed[0], seed[-1] = 0.5, 0
        expected = morphology.reconstruction(seed, mask)
        numpy.testing.assert_array_equal(by_ranks(seed[None], mask[None])[0], expected)

    def test_the_bumps(self):
        y, x = numpy.mgrid[:20:0.5, :20:0.5]
        bumps = numpy.sin(x) + numpy.sin(y)
        seed = bumps - 0.3
        expected = morphology.reconstruction(seed, bumps)
        numpy.testing.assert_array_equal(by_ranks(seed, bumps), expected)

    def test_the_holes_and_peaks_of_the_moon(self):
        image = exposure.rescale_intensity(data.moon(), in_range=(50, 200))
        seed = image.copy()
        seed[1:-1, 1:-1] = image.max()
        expected = morphology.reconstruction(seed, image, "erosion")
        got = seedpaint.reconstruction(seed, image, "erosion")
        numpy.testing.assert_array_equal(got, expected)
        numpy.testing.assert_array_equal(seedpaint.fill_holes(image), expected)
        seed[1:-1, 1:-1] = image.min()
        expected = morphology.reconstruction(seed, image, "dilation")
        got = seedpaint.reconstruction(seed, image, "dilation")
        numpy.testing.assert_array_equal(got, expected)

    def test_the_domes_of_the_coins(self):
        smooth = ndimage.gaussian_filter(data.coins() / 255, 1)
        image = numpy.rint(smooth * 65535).astype(numpy.uint16)
        h = round(0.4 * 65535)
        seed = numpy.where(image > h, image - h, 0).astype(numpy.uint16)
        expected = morphology.reconstruction(seed, image)
        numpy.testing.assert_array_equal(
            seedpaint.reconstruction(seed, image), expected
        )
        got = seedpaint.h_maxima_reconstruction(image, h)
        numpy.testing.assert_array_equal(got, expected)


if __name__ == "__main__":
    unittest.main()
