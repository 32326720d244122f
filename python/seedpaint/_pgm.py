"""Raw PGM files, as docs/FORMATS.md has them."""

from __future__ import annotations

from typing import Any

import numpy
from numpy.typing import NDArray


def spelled(image: NDArray[Any], maxval: int) -> bytes:
    """The raw file of an image whose values are at most maxval."""
    h, w = image.shape
    return b"P5\n%d %d\n%d\n" % (w, h, maxval) + image.astype(_kind(maxval)).tobytes()


def read(file: bytes) -> NDArray[Any]:
    """The cells of a raw file that the library wrote. Nobody may change them."""
    _, sides, maxval, raster = file.split(b"\n", 3)
    w, h = map(int, sides.split())
    return numpy.frombuffer(raster, dtype=_kind(int(maxval))).reshape(h, w)


def _kind(maxval: int) -> numpy.dtype[Any]:
    """The type of a sample: a byte, or two with the more significant first."""
    return numpy.dtype("u1" if maxval < 256 else ">u2")
