"""Read and write the pictures of the tools in this folder: PGM, PNG and TIFF files.

`read_grey` reads a greyscale picture as an array of its samples, row by row from the top. `read_painted` reads a
painted picture as a label for each pixel. `write_labels` writes a label image. What goes wrong is a `Fault`.
"""

import pathlib
import re
import warnings
from typing import NamedTuple

from running import Fault, without

try:
    import numpy
    import tifffile
    from PIL import Image
except ModuleNotFoundError as missing:
    without(missing)

MOST_SIDE, MOST_PIXELS = 16_384, 2**26
MOST_LABEL = 2**32 - 1
IMAGE_LINE = re.compile(rb"^image\r?\n", re.MULTILINE)
SEPARATOR = rb"[ \t\r\n](?:[ \t\r\n]|#[^\r\n]*[\r\n])*"
PGM_HEADER = re.compile(rb"P([25])" + 3 * (SEPARATOR + rb"(\d+)") + rb"[ \t\r\n]")
TIFF_MAGICS = (b"II*\0", b"MM\0*", b"II+\0", b"MM\0+")


class Picture(NamedTuple):
    """The array of a file, rows first; whether its last axis ends with alpha; whether its values are shades of grey."""
    array: numpy.ndarray
    has_alpha: bool
    is_grey: bool


def size_of(picture):
    """The size of a picture in words."""
    return f"{picture.shape[1]} by {picture.shape[0]}"


def same_size(name, picture, other_name, other):
    """Refuse two pictures of different sizes."""
    if picture.shape != other.shape:
        raise Fault(f"{name} has {size_of(picture)} pixels, {other_name} has {size_of(other)}")


# ---- Reading ----

def read_grey(name):
    """The samples of a greyscale picture: a PGM, PNG or TIFF, or the PGM behind the `image` line of an input."""
    data = pathlib.Path(name).read_bytes()
    found = None if PGM_HEADER.match(data) else IMAGE_LINE.search(data)
    if found is not None and not is_file_of_pixels(data):
        data = data[found.end():]
    if PGM_HEADER.match(data):
        return read_pgm(name, data)
    picture = read_picture(name, data)
    if not picture.is_grey or picture.array.dtype.kind not in "bu" or picture.array.dtype.itemsize > 2:
        raise Fault(f"{name} is no grey picture of 8 or 16 bits")
    return picture.array.astype(numpy.uint16)


def is_file_of_pixels(data):
    """Whether the bytes begin as a PNG or a TIFF does."""
    return data.startswith(b"\x89PNG") or data.startswith(TIFF_MAGICS)


def read_pgm(name, data):
    """The samples of a PGM file, plain or raw."""
    header = PGM_HEADER.match(data)
    kind, width, height, maxval = map(int, header.groups())
    raster = data[header.end():]
    try:
        if kind == 2:
            samples = numpy.fromstring(raster, dtype=numpy.int64, sep=" ")
        else:
            samples = numpy.frombuffer(raster, ">u2" if maxval > 255 else "u1")
        return judged(name, samples.reshape(height, width))
    except ValueError:
        raise Fault(f"{name} is a PGM whose samples are not {width} by {height}") from None


def judged(name, samples):
    """The samples of a PGM as they are, where each fits into 16 bits."""
    if samples.size and (samples.min() < 0 or samples.max() > 65535):
        raise Fault(f"{name} has a sample above 65535")
    return samples.astype(numpy.uint16)


def read_picture(name, data):
    """The picture of a PNG or TIFF. A palette without transparency is its indices."""
    if not is_file_of_pixels(data):
        raise Fault(f"{name} is no PGM, PNG or TIFF")
    try:
        picture = read_tiff(name) if data.startswith(TIFF_MAGICS) else read_with_pillow(name)
    except (Fault, MemoryError):
        raise
    except Exception as why:  # (decoders raise many kinds where a file is broken)
        raise Fault(f"{name} cannot be read: {' '.join(str(why).split())}") from None
    height, width = picture.array.shape[:2]
    if max(height, width) > MOST_SIDE or height * width > MOST_PIXELS:
        raise Fault(f"{name} has {width} by {height} pixels, which is more than Seedpaint takes")
    return picture


def read_tiff(name):
    """A TIFF of one page. Pillow reads what tifffile has no decoder for."""
    with tifffile.TiffFile(name) as file:
        page = file.pages[0]
        if len(file.pages) > 1 or page.planarconfig == tifffile.PLANARCONFIG.SEPARATE:
            raise Fault(f"{name} has several pages or planes: save one alone")
        try:
            array = page.asarray()
        except (ValueError, ImportError):
            return read_with_pillow(name)
        is_grey = page.photometric == tifffile.PHOTOMETRIC.MINISBLACK
    if array.ndim not in (2, 3):
        raise Fault(f"{name} is no flat picture")
    return Picture(array, array.ndim == 3 and array.shape[2] in (2, 4), is_grey and array.ndim == 2)


def read_with_pillow(name):
    """A picture as Pillow sees it: a palette with transparent entries becomes colours."""
    with warnings.catch_warnings(), Image.open(name, formats=("PNG", "TIFF")) as picture:
        warnings.simplefilter("ignore")
        if "transparency" in picture.info:
            picture = picture.convert("RGBA")
        is_grey = picture.mode in ("1", "L", "I") or picture.mode.startswith("I;16")
        array = numpy.asarray(picture)
    if array.dtype == numpy.int32 and array.size and array.min() >= 0 and array.max() <= 65535:
        array = array.astype(numpy.uint16)
    return Picture(array, array.ndim == 3 and array.shape[2] in (2, 4), is_grey)


# ---- Painted pictures ----

def read_painted(name, threshold):
    """The labels of a painted picture, and which pixels are painted: alpha above the threshold, or no label of 0."""
    array, has_alpha, _ = read_picture(name, pathlib.Path(name).read_bytes())
    if array.ndim == 2:
        labels = whole_numbers(name, array)
        return labels, labels != 0
    if array.dtype.kind != "u" or array.dtype.itemsize > 2 or array.shape[2] > 4:
        raise Fault(f"{name} has no colours of 8 or 16 bits")
    array = array.astype(numpy.int64) >> 8 * (array.dtype.itemsize - 1)
    colours = array[:, :, :-1] if has_alpha else array
    labels = colours[:, :, 0]
    for channel in range(1, colours.shape[2]):
        labels = labels << 8 | colours[:, :, channel]
    return labels, array[:, :, -1] > threshold if has_alpha else labels != 0


def whole_numbers(name, array):
    """The values of a label image, each a whole number from 0 to 2^32 - 1."""
    if array.dtype.kind == "f" and not numpy.array_equal(array, numpy.floor(array)):
        raise Fault(f"{name} has values that are no whole numbers: it is no label image")
    if array.size and (array.min() < 0 or array.max() > MOST_LABEL):
        raise Fault(f"{name} has a label below 0 or above {MOST_LABEL}")
    return array.astype(numpy.int64)


# ---- Writing ----

def write_labels(name, labels):
    """Write a label image: PNG with 16 bits, or TIFF with 16 bits, or with 32 where a label needs them."""
    is_wide = labels.size > 0 and labels.max() > 65535
    if pathlib.Path(name).suffix.lower() == ".png":
        if is_wide:
            raise Fault(f"{name} would need a label above 65535, which a PNG does not hold: write a TIFF")
        Image.fromarray(labels.astype(numpy.uint16)).save(name, format="PNG")
    else:
        tifffile.imwrite(name, labels.astype(numpy.uint32 if is_wide else numpy.uint16))
