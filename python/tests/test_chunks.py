"""The example that grows a picture in chunks, beside one call."""

import importlib.util
import pathlib
import unittest

import numpy

import seedpaint
import slow

try:
    import dask.array
except ImportError:
    dask = None

FILE = pathlib.Path(__file__).parents[2] / "examples/python_chunks.py"


def example():
    """The example as a module."""
    spec = importlib.util.spec_from_file_location("python_chunks", FILE)
    module = importlib.util.module_from_spec(spec)
    spec.loader.exec_module(module)
    return module


class InChunks(unittest.TestCase):
    def setUp(self):
        self.example = example()

    def compare(self, seed, mask, side, compute, conn, given_mask):
        """Grown in chunks and in one call."""
        got = self.example.grow_in_chunks(seed.copy(), given_mask, side, compute, conn)
        expected = seedpaint.reconstruction(seed, mask, connectivity=conn)
        numpy.testing.assert_array_equal(got, expected)

    def test_by_threads(self):
        random = numpy.random.default_rng(31)
        for _ in range(150):
            mask, seed, _ = slow.picture(random)
            for conn in (4, 8):
                side = int(random.integers(1, 20))
                self.compare(seed, mask, side, self.example.by_threads, conn, mask)

    @unittest.skipIf(dask is None, "dask is not installed")
    def test_by_dask(self):
        random = numpy.random.default_rng(32)
        for _ in range(30):
            mask, seed, _ = slow.picture(random)
            side = int(random.integers(5, 20))
            lazy = dask.array.from_array(mask, chunks=side)
            for given in (mask, lazy):
                self.compare(seed, mask, side, self.example.by_dask, 8, given)

    def test_a_corridor_through_all_chunks(self):
        mask = numpy.zeros((61, 60), dtype=numpy.uint8)
        mask[::2] = 7
        mask[1::4, -1] = mask[3::4, 0] = 7
        seed = numpy.zeros_like(mask)
        seed[0, 0] = 7
        self.compare(seed, mask, 7, self.example.by_threads, 4, mask)


if __name__ == "__main__":
    unittest.main()
