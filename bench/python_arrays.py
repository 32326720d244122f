#!/usr/bin/env python3
"""Compare the package's reconstruction with those of other packages for Python, on arrays in memory.

    taskset -c 0 ~/paint/bin/python bench/python_arrays.py

Prints a table: of each family, side and number of bits the processor milliseconds of the package, and those of
scikit-image and OpenCV as multiples of it, as far as they are installed; medians of calls in turns. Each result is
compared with the package's, and one value of difference ends the script. OpenCV has no reconstruction: it dilates and
takes the minimum until nothing rises, and stops after `--limit` seconds. Behind the table stands what a call on 64 by
64 pixels takes, and what of that is the library's.
"""

import argparse
import statistics
import sys
import time

import numpy

import images
import seedpaint
from seedpaint import _library

FAMILIES = ("cells", "plates", "map", "maze")
FOOTPRINTS = {4: numpy.array([[0, 1, 0], [1, 1, 1], [0, 1, 0]], dtype=bool), 8: numpy.ones((3, 3), dtype=bool)}
CALLS = 2000  # on the small picture


def picture(family, side, bits):
    """The mask of a family, and the marker of its strokes on it."""
    edits, file = images.make(family, side, side).split(b"image\n", 1)
    maxval, raster = file.split(b"\n", 3)[2:]
    mask = numpy.frombuffer(raster, "u1" if int(maxval) < 256 else ">u2").reshape(side, side).astype(numpy.uint16)
    session = seedpaint.Session(mask, 4)
    session.edit(edits)
    seed = numpy.zeros_like(mask)
    for stroke in session.strokes():
        for y, first, last in stroke.spans(mask.shape):
            part = seed[y, first:last + 1]
            numpy.maximum(part, stroke.level, out=part)
    numpy.minimum(seed, mask, out=seed)
    if bits == 8:
        return seed.astype(numpy.uint8), mask.astype(numpy.uint8)
    return 257 * seed, 257 * mask


def by_seedpaint(words):
    """The package's reconstruction."""
    return lambda seed, mask: seedpaint.reconstruction(seed, mask, connectivity=words.conn)


def by_scikit_image(words):
    """scikit-image's reconstruction."""
    from skimage.morphology import reconstruction

    return lambda seed, mask: reconstruction(seed, mask, footprint=FOOTPRINTS[words.conn])


def by_opencv(words):
    """Dilations and minima until nothing rises; nothing where that takes too long."""
    import cv2

    kernel = FOOTPRINTS[words.conn].astype(numpy.uint8)

    def grow(seed, mask):
        end = time.process_time() + words.limit
        while time.process_time() < end:
            risen = cv2.min(cv2.dilate(seed, kernel), mask)
            if (risen == seed).all():
                return seed
            seed = risen
        return None

    return grow


OTHERS = {"scikit-image": by_scikit_image, "OpenCV": by_opencv}


def installed(words):
    """The others that are there, by name."""
    found = {}
    for name, function in OTHERS.items():
        try:
            found[name] = function(words)
        except ImportError:
            print(f"{name} is not installed", file=sys.stderr)
    return found


def timed(function, *arguments):
    """The processor milliseconds of a call, and what it gave."""
    begin = time.process_time()
    result = function(*arguments)
    return 1000 * (time.process_time() - begin), result


def row(words, others, family, side, bits):
    """A row of the table."""
    seed, mask = picture(family, side, bits)
    ours, right = by_seedpaint(words), None
    times = {name: [] for name in ("ours", *others)}
    for turn in range(words.runs + 1):  # (the first of them warms up)
        own, right = timed(ours, seed, mask)
        times["ours"].append(own)
        for name, function in others.items():
            if turn < words.other_runs and None not in times[name]:
                taken, result = timed(function, seed, mask)
                if result is not None and not numpy.array_equal(result, right):
                    sys.exit(f"python_arrays.py: {name} gives another result: {family}, {side}, {bits} bits")
                times[name].append(None if result is None else taken)
    own = statistics.median(times["ours"][1:])
    cells = [family, str(side), str(bits), f"{own:.1f}"]
    for name in others:
        is_over = None in times[name]
        taken = 1000 * words.limit if is_over else statistics.median(times[name])
        times_ours = taken / own
        cells.append(f"{'over ' if is_over else ''}{times_ours:.{0 if times_ours >= 10 else 1}f}")
    return f"| {' | '.join(cells)} |"


def small_calls(runs):
    """The microseconds of a call on 64 by 64 pixels, and those of the library in it: medians of calls in turns."""
    mask = numpy.full((64, 64), 9, dtype=numpy.uint16)
    seed = numpy.zeros_like(mask)
    seed[3, 3] = 9
    image = seed.copy()
    words = (mask.ctypes.data, mask.size, image.ctypes.data, image.size, 64, 64, 8)

    def whole():
        for _ in range(CALLS):
            seedpaint.reconstruction(seed, mask)

    def library_alone():
        for _ in range(CALLS):
            image[...] = seed
            _library._library.seedpaint_grow(*words)

    turns = [(timed(whole)[0], timed(library_alone)[0]) for _ in range(runs)]
    return [1000 * statistics.median(times) / CALLS for times in zip(*turns)]


def main():
    """Measure and print."""
    parser = argparse.ArgumentParser(description="Compare reconstructions of arrays.")
    parser.add_argument("--sizes", type=int, nargs="+", default=[1024, 4096])
    parser.add_argument("--families", nargs="+", choices=FAMILIES, default=FAMILIES)
    parser.add_argument("--bits", type=int, nargs="+", choices=(8, 16), default=(8, 16))
    parser.add_argument("--conn", type=int, choices=(4, 8), default=4)
    parser.add_argument("--runs", type=int, default=9, help="calls of the package")
    parser.add_argument("--other-runs", type=int, default=3, help="calls of each other")
    parser.add_argument("--limit", type=float, default=60, help="seconds that OpenCV may take")
    words = parser.parse_args()
    others = installed(words)
    print(f"| family | side | bits | ms | {' | '.join(others)} |")
    print(f"|---|---:|---:|---:|{len(others) * '---:|'}")
    for side in words.sizes:
        for family in words.families:
            for bits in words.bits:
                print(row(words, others, family, side, bits), flush=True)
    whole, alone = small_calls(words.runs)
    print(f"\n64 by 64: a call {whole:.1f} µs, of which the library {alone:.1f} µs")


if __name__ == "__main__":
    main()
