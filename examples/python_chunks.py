#!/usr/bin/env python3
"""Grow a picture that is larger than one call takes, or than memory holds, in chunks.

    python3 examples/python_chunks.py 32768 32768

makes a picture of soft hills of so many columns and rows and a seed of some pixels, in two files that are thrown away,
grows it, and says how long that took. By `--dask` the chunks are grown by dask, and else by threads. `--compare` grows
it in one call, too, where it is not too large, and compares. docs/PYTHON.md says why the result is the reconstruction.
"""

import argparse
import concurrent.futures
import itertools
import pathlib
import sys
import tempfile
import time

import numpy

import seedpaint

SIDE = 2048
BATCH = 16  # chunks that are grown before what they gave is written


def by_threads(pairs, connectivity):
    """Grow pairs of a seed and a mask side by side in threads."""
    with concurrent.futures.ThreadPoolExecutor() as pool:
        return list(pool.map(lambda pair: seedpaint.reconstruction(*pair, connectivity=connectivity), pairs))


def by_dask(pairs, connectivity):
    """The same by dask, on the scheduler that it has at the moment. Masks may be dask arrays."""
    import dask

    grow = dask.delayed(seedpaint.reconstruction)
    return dask.compute(*[grow(*pair, connectivity=connectivity) for pair in pairs])


def grow_in_chunks(image, mask, side=SIDE, compute=by_threads, connectivity=8):
    """Raise an image in place until it is the reconstruction by dilation of the mask from what it was.

    Both are arrays, or maps of files, of one shape and of any size. A chunk is grown with a rim of one pixel of its
    neighbours, and of what that gives the rim is not kept. Where a pixel on the border of a chunk rose, the chunks that
    touch it there are grown again. When none is left nothing can rise any more.
    """
    counts = [-(-length // side) for length in image.shape]
    waiting = dict.fromkeys(itertools.product(*map(range, counts)))
    while waiting:
        batch = list(itertools.islice(waiting, BATCH))
        for chunk in batch:
            del waiting[chunk]
        windows = [window(chunk, side, 1) for chunk in batch]
        grown = compute([(image[outer], mask[outer]) for outer in windows], connectivity)
        for chunk, outer, part in zip(batch, windows, grown):
            risen = write(image, window(chunk, side, 0), outer, part)
            waiting.update(dict.fromkeys(beside(chunk, risen, counts)))
    return image


def window(chunk, side, rim):
    """The pixels of a chunk, with a rim of so many around it."""
    return tuple(slice(max(place * side - rim, 0), (place + 1) * side + rim) for place in chunk)


def write(image, inner, outer, part):
    """Write what was grown over a chunk, without its rim, and say which pixels rose."""
    offset = [i.start - o.start for i, o in zip(inner, outer)]
    h, w = image[inner].shape
    part = part[offset[0]:offset[0] + h, offset[1]:offset[1] + w]
    risen = part > image[inner]
    if risen.any():
        image[inner] = part
    return risen


def beside(chunk, risen, counts):
    """The chunks that touch a chunk at a pixel that rose."""
    edges = {-1: 0, 0: slice(None), 1: -1}
    for down, right in itertools.product(edges, repeat=2):
        y, x = chunk[0] + down, chunk[1] + right
        is_there = (down, right) != (0, 0) and 0 <= y < counts[0] and 0 <= x < counts[1]
        if is_there and numpy.any(risen[edges[down], edges[right]]):
            yield y, x


def hills(file, width, height):
    """A mask of soft hills in a file, made by rows."""
    mask = numpy.lib.format.open_memmap(file, "w+", numpy.uint8, (height, width))
    across = 60 * numpy.sin(numpy.arange(width) / 97)
    for y in range(height):
        mask[y] = 128 + across + 60 * numpy.sin(y / 131 + across / 40)
    return mask


def timed(words, function, *arguments, **named):
    """What a function gives; how long it took is told."""
    begin = time.monotonic()
    result = function(*arguments, **named)
    print(f"{words}: {time.monotonic() - begin:.1f} s", flush=True)
    return result


def main():
    """Make a picture, grow it, and say how long it took."""
    parser = argparse.ArgumentParser(description="Grow a large picture in chunks.")
    parser.add_argument("width", type=int)
    parser.add_argument("height", type=int)
    parser.add_argument("--side", type=int, default=SIDE, help="of a chunk, up to 8190")
    parser.add_argument("--dask", action="store_true", help="by dask, where it is installed")
    parser.add_argument("--compare", action="store_true", help="with one call on the whole picture")
    words = parser.parse_args()
    with tempfile.TemporaryDirectory() as folder:
        mask = timed("the picture is made", hills, pathlib.Path(folder) / "mask.npy", words.width, words.height)
        file = pathlib.Path(folder) / "image.npy"
        image = numpy.lib.format.open_memmap(file, "w+", numpy.uint8, mask.shape)
        image[::1024, ::1024] = mask[::1024, ::1024]
        if words.compare:
            whole = timed("grown in one call", seedpaint.reconstruction, image, mask)
        compute = by_dask if words.dask else by_threads
        timed("grown in chunks", grow_in_chunks, image, mask, words.side, compute)
        if words.compare and not (image == whole).all():
            sys.exit("python_chunks.py: the two are not equal")


if __name__ == "__main__":
    main()
