#!/usr/bin/env python3
"""Reconstruct a mask from a marker with scikit-image, and tell the processor seconds.

    python3 scikit_image.py 4|8 MASK MARKER OUTPUT

MASK and MARKER are raw PGM files as baseline.c writes them, OUTPUT becomes one.
The seconds run from reading to writing: Python's start and the imports are
left out.
"""

import sys
import time

import numpy
from skimage.morphology import reconstruction


def read(path):
    """The header of a raw PGM file and its samples."""
    with open(path, "rb") as file:
        header = b"".join(file.readline() for _ in range(3))
        samples = file.read()
    _, width, height, maxval = (int(word) if word.isdigit() else word for word in header.split())
    kind = numpy.uint8 if maxval < 256 else ">u2"
    return header, numpy.frombuffer(samples, kind).reshape(height, width)


def main():
    """Read, reconstruct and write."""
    conn, mask_path, marker_path, output_path = sys.argv[1:]
    begin = time.process_time()
    header, mask = read(mask_path)
    _, marker = read(marker_path)
    footprint = numpy.ones((3, 3), bool) if conn == "8" else numpy.array([[0, 1, 0], [1, 1, 1], [0, 1, 0]], bool)
    image = reconstruction(marker, mask, method="dilation", footprint=footprint)
    with open(output_path, "wb") as file:
        file.write(header + image.astype(mask.dtype).tobytes())
    print(time.process_time() - begin)


if __name__ == "__main__":
    main()
