"""Threads side by side, and memory over many calls and where it is wanting."""

import concurrent.futures
import os
import resource
import subprocess
import sys
import threading
import time
import unittest

import numpy

import seedpaint
import slow

THREADS = 8
CALLS = 100_000

# A program that grows where no more memory may be had than there is already.
WITHOUT_MEMORY = """
import resource, numpy, seedpaint
mask = numpy.full((8000, 8000), 9, dtype=numpy.uint16)
seed = numpy.zeros_like(mask)
seed[0, 0] = 9
pages = int(open("/proc/self/statm").read().split()[0])
bytes_now = pages * resource.getpagesize()
resource.setrlimit(resource.RLIMIT_AS, (bytes_now + (1 << 20), -1))
try:
    seedpaint.reconstruction(seed, mask, out=seed)
except MemoryError as why:
    print(why, numpy.count_nonzero(seed))
"""


class SideBySide(unittest.TestCase):
    def test_random_pictures(self):
        random = numpy.random.default_rng(8)
        pictures = [slow.picture(random) for _ in range(400)]
        expected = [slow.reconstruction(seed, mask, 8) for mask, seed, _ in pictures]

        def grow(picture):
            mask, seed, _ = picture
            return seedpaint.reconstruction(seed, mask)

        with concurrent.futures.ThreadPoolExecutor(THREADS) as pool:
            for _ in range(10):
                for got, right in zip(pool.map(grow, pictures), expected):
                    numpy.testing.assert_array_equal(got, right)

    def test_one_mask_for_all(self):
        mask = numpy.full((300, 300), 9, dtype=numpy.uint16)

        def grow(level):
            seed = numpy.zeros_like(mask)
            seed[level, level] = level
            return (seedpaint.reconstruction(seed, mask) == level).all()

        with concurrent.futures.ThreadPoolExecutor(THREADS) as pool:
            self.assertTrue(all(pool.map(grow, 50 * list(range(1, 10)))))

    def test_sessions(self):
        mask = numpy.random.default_rng(9).integers(0, 99, (40, 50)).astype("u1")

        def play(number):
            session = seedpaint.Session(mask, 8)
            for n in range(20):
                session.disc(n, number, 1)
            seed = numpy.zeros_like(mask)
            for stroke in session.strokes():
                for y, first, last in stroke.spans(mask.shape):
                    part = seed[y, first : last + 1]
                    numpy.maximum(part, stroke.level, out=part)
            seed = numpy.minimum(seed, mask)
            return (session.image() == slow.reconstruction(seed, mask, 8)).all()

        with concurrent.futures.ThreadPoolExecutor(THREADS) as pool:
            self.assertTrue(all(pool.map(play, range(40))))

    def test_the_interpreter_goes_on_meanwhile(self):
        # Were its lock held, no other thread could look at the clock during the call.
        random = numpy.random.default_rng(10)
        mask = random.integers(0, 65536, (2000, 2000)).astype(numpy.uint16)
        seed = numpy.where(random.random(mask.shape) < 1e-5, mask, 0).astype("u2")
        call, looks = [], []

        def grow():
            call.append(time.monotonic())
            seedpaint.reconstruction(seed, mask, out=seed)
            call.append(time.monotonic())

        thread = threading.Thread(target=grow)
        thread.start()
        while thread.is_alive():
            looks.append(time.monotonic())
            time.sleep(0.001)
        quarter = (call[1] - call[0]) / 4
        within = [t for t in looks if call[0] + quarter < t < call[1] - quarter]
        self.assertTrue(within)


class Memory(unittest.TestCase):
    def test_nothing_leaks(self):
        mask = numpy.full((64, 64), 9, dtype=numpy.uint16)
        seed = numpy.zeros_like(mask)
        seed[3, 3] = 9

        def call():
            """Five calls of the library, of which one is refused."""
            seedpaint.reconstruction(seed, mask)
            seedpaint.fill_holes(mask)
            session = seedpaint.Session(mask, 4)
            session.image()
            with self.assertRaises(seedpaint.Fault):
                session.disc(64, 3, 1)

        for _ in range(CALLS // 50):
            call()
        before = resource.getrusage(resource.RUSAGE_SELF).ru_maxrss
        for _ in range(CALLS // 5):
            call()
        after = resource.getrusage(resource.RUSAGE_SELF).ru_maxrss
        self.assertLess(after - before, 1024, "kilobytes at the peak")

    def test_want_of_memory(self):
        done = subprocess.run(
            [sys.executable, "-c", WITHOUT_MEMORY],
            env={**os.environ, "PYTHONPATH": os.pathsep.join(sys.path)},
            capture_output=True,
            text=True,
            check=False,
        )
        self.assertEqual(done.stdout, "out of memory 1\n", done.stderr)


if __name__ == "__main__":
    unittest.main()
