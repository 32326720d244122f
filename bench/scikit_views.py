#!/usr/bin/env python3
"""Derive a view of an image with scikit-image, and tell the processor seconds.

    python3 scikit_views.py fill|hmax|regmax|h_maxima HEIGHT 4|8 IMAGE OUTPUT

IMAGE is a raw PGM file as images.py writes them, OUTPUT becomes one. `fill`
and `hmax` are reconstructions, `regmax` is `local_maxima`. `h_maxima` is
scikit-image's own function of that name, which marks the maxima that rise by
HEIGHT or more; it answers another question than `hmax`, and its OUTPUT is 0
and 1. The seconds run from reading to writing: Python's start and the imports
are left out.
"""

import sys
import time

import numpy
from skimage.morphology import h_maxima, local_maxima, reconstruction

from scikit_image import read


def derive(kind, height, image, footprint):
    """The greatest sample of the view, or None for that of the image, and the view."""
    if kind == "fill":
        seed = numpy.full_like(image, image.max())
        seed[[0, -1], :], seed[:, [0, -1]] = image[[0, -1], :], image[:, [0, -1]]
        return None, reconstruction(seed, image, method="erosion", footprint=footprint)
    if kind == "hmax":
        seed = numpy.where(image > height, image - numpy.minimum(image, height), 0)
        return None, reconstruction(seed, image, method="dilation", footprint=footprint)
    if kind == "regmax":
        return 1, local_maxima(image, footprint=footprint)
    return 1, h_maxima(image, height, footprint=footprint)


def main():
    """Read, derive and write."""
    kind, height, conn, image_path, output_path = sys.argv[1:]
    begin = time.process_time()
    header, image = read(image_path)
    native = image.astype(image.dtype.newbyteorder("="))
    footprint = numpy.ones((3, 3), bool) if conn == "8" else numpy.array([[0, 1, 0], [1, 1, 1], [0, 1, 0]], bool)
    maxval, view = derive(kind, native.dtype.type(int(height)), native, footprint)
    if maxval is not None:
        header = b"\n".join(header.split(b"\n")[:2]) + b"\n%d\n" % maxval
    with open(output_path, "wb") as file:
        file.write(header + view.astype(numpy.uint8 if maxval else image.dtype).tobytes())
    print(time.process_time() - begin)


if __name__ == "__main__":
    main()
