"""Read a picture of any usual kind as its channels: PNG, JPEG, TIFF or PGM.

`read_channels` gives the samples as the file has them, one plane for each channel. pictures.py reads masks, results and
label images, which have one channel. What goes wrong is a `Fault` that says what to do.
"""

import logging
import pathlib
import shutil
import struct
import subprocess
import warnings
from typing import NamedTuple

from pictures import MOST_PIXELS, MOST_SIDE, PGM_HEADER, TIFF_MAGICS, read_pgm
from running import Fault, without

try:
    import numpy
    import tifffile
    from PIL import Image
except ModuleNotFoundError as missing:
    without(missing)

logging.getLogger("tifffile").addHandler(logging.NullHandler())  # (it tells of oddities that do no harm)

PNG_MAGIC, JPEG_MAGIC = b"\x89PNG\r\n\x1a\n", b"\xff\xd8\xff"
PNG_GREY = 0  # the colour type, PNG 1.2, 4.1.1
EXIF_ORIENTATION = 0x0112
TIFF_BITS = 258  # the tag BitsPerSample
GREY, COLOURS = ("grey",), ("red", "green", "blue")
PILLOW_MODES = ("1", "L", "LA", "RGB", "RGBA", "I", "F")
ALPHAS = (tifffile.EXTRASAMPLE.ASSOCALPHA, tifffile.EXTRASAMPLE.UNASSALPHA)
PHOTOMETRIC = tifffile.PHOTOMETRIC
PLAIN_KINDS = (PHOTOMETRIC.MINISBLACK, PHOTOMETRIC.MINISWHITE, PHOTOMETRIC.RGB, PHOTOMETRIC.PALETTE)


class Channels(NamedTuple):
    """The channels of a picture by their names, each an array of height by width, all of one dtype.

    The names are `grey`, or `red`, `green` and `blue`, or numbers from 1 where the file gives none; then `alpha`, and
    `index`, the index into the palette. `top` is the sample that is white, or None where the file does not say: with
    signed samples, with more than 16 bits and with floats. `is_laid_on_black` says that alpha is multiplied in. `kind`
    and `notes` are words for who reads what was done.
    """
    planes: dict
    top: int
    kind: str
    notes: tuple = ()
    is_laid_on_black: bool = False

    @property
    def dtype(self):
        """The dtype of the samples."""
        return next(iter(self.planes.values())).dtype


def read_channels(name, page=None):
    """The channels of a picture file; of a TIFF with several pages those of one page, counted from 1."""
    data = pathlib.Path(name).read_bytes()
    is_tiff = data.startswith(TIFF_MAGICS)
    if page is not None and page > 1 and not is_tiff:
        raise Fault(f"{name} has one page alone: leave --page out")
    if PGM_HEADER.match(data):
        return read_grey_map(name, data)
    readers = {PNG_MAGIC: read_png, JPEG_MAGIC: read_jpeg, **dict.fromkeys(TIFF_MAGICS, read_tiff)}
    reader = next((reader for magic, reader in readers.items() if data.startswith(magic)), None)
    if reader is None:
        raise Fault(f"{name} is no PNG, TIFF, JPEG or PGM: save it as one of these")
    try:
        with warnings.catch_warnings():
            warnings.simplefilter("ignore")
            return reader(name, page or 0) if is_tiff else reader(name, data)
    except (Fault, OSError, MemoryError) as why:
        if isinstance(why, OSError) and why.errno is None:  # (so decoders say that a file is broken)
            raise unreadable(name, why) from None
        raise
    except Exception as why:  # (decoders raise many kinds where a file is broken)
        raise unreadable(name, why) from None


def unreadable(name, why):
    """The fault of a file that its decoder refuses."""
    return Fault(f"{name} cannot be read ({' '.join(str(why).split())}): save it anew in the program that made it")


def check_size(name, width, height):
    """Refuse a picture that is larger than Seedpaint takes, or has no pixel, before it is unpacked."""
    if width * height == 0:
        raise Fault(f"{name} has {width} by {height} pixels, so there is nothing to see: save it anew")
    if max(width, height) > MOST_SIDE or width * height > MOST_PIXELS:
        raise Fault(f"{name} has {width} by {height} pixels, and Seedpaint takes sides of up to {MOST_SIDE} and "
                    f"{MOST_PIXELS} pixels: cut it into parts, or scale it down")


def in_planes(names, array):
    """An array of height, width and channels as planes by their names."""
    return {name: array[:, :, number] for number, name in enumerate(names)}


def top_of(dtype):
    """The sample that is white by the dtype alone, or None."""
    return {"uint8": 255, "uint16": 65535}.get(dtype.name)


def read_grey_map(name, data):
    """The one channel of a PGM; white is its maxval."""
    _, width, height, top = map(int, PGM_HEADER.match(data).groups())
    check_size(name, width, height)
    if not 1 <= top <= 65535:
        raise Fault(f"{name} has the maxval {top}, which a PGM cannot have: save it anew")
    samples = read_pgm(name, data)
    if samples.max() > top:
        raise Fault(f"{name} has a sample above its maxval {top}: save it anew")
    return Channels({"grey": samples}, top, "PGM")


# ---- PNG and JPEG ----

def read_png(name, data):
    """The channels of a PNG, by Pillow.

    Netpbm reads what Pillow would not read whole: of 16 bits with colours or alpha the lower half, and of grey which
    sample is transparent.
    """
    width, height, bits, colour = struct.unpack_from(">IIBB", data, 16)
    check_size(name, width, height)
    chunks = dict(chunks_of(data))
    if (bits == 16 and colour != PNG_GREY) or (bits != 8 and colour == PNG_GREY and b"tRNS" in chunks):
        found = read_by_netpbm(name, data, chunks)
    else:
        with opened(name, "PNG") as picture:
            found = from_pillow(picture, "PNG")
    return found._replace(notes=(stretched_bits(bits),)) if bits < 8 and colour == PNG_GREY else found


def stretched_bits(bits):
    """What was done with samples of so many bits, fewer than 8."""
    return f"{bits}-bit samples stretched to 8 bits"


def chunks_of(data):
    """The chunks of a PNG: of each its kind, and where it begins and ends with its length and its checksum."""
    place = len(PNG_MAGIC)
    while place + 8 <= len(data):
        length, kind = struct.unpack_from(">I4s", data, place)
        yield kind, (place, place + 12 + length)
        place += 12 + length


def read_by_netpbm(name, data, chunks):
    """The channels of a PNG and its alpha, by pngtopam; fewer bits than 8 are stretched."""
    if not shutil.which("pngtopam"):
        raise Fault(f"{name} is a PNG of a kind that pngtopam reads: install Debian's package netpbm")
    if b"sBIT" in chunks:  # (where bits are said to be of no significance, pngtopam would shift them out)
        begin, end = chunks[b"sBIT"]
        data = data[:begin] + data[end:]
    done = subprocess.run(["pngtopam", "-alphapam"], input=data, capture_output=True, check=False)
    if done.returncode != 0:
        raise ValueError(done.stderr.decode(errors="replace"))
    head, _, raster = done.stdout.partition(b"ENDHDR\n")
    fields = dict(line.split(maxsplit=1) for line in head.splitlines()[1:])
    height, width, depth, top = (int(fields[field]) for field in (b"HEIGHT", b"WIDTH", b"DEPTH", b"MAXVAL"))
    array = numpy.frombuffer(raster, ">u2" if top > 255 else "u1").reshape(height, width, depth)
    array = array.astype(numpy.uint16) if top > 255 else array * numpy.uint8(255 // top)
    names = (*GREY, "alpha") if depth == 2 else (*COLOURS, "alpha")
    return Channels(in_planes(names, array), top_of(array.dtype), "PNG")


def read_jpeg(name, _):
    """The channels of a JPEG."""
    with opened(name, "JPEG") as picture:
        check_size(name, *picture.size)
        turn = picture.getexif().get(EXIF_ORIENTATION, 1)
        found = from_pillow(picture, "JPEG")
    if turn == 1:
        return found
    return found._replace(notes=(f"rows and columns as stored, without the turn that Exif asks for ({turn})",))


def opened(name, *formats):
    """A picture that Pillow opens, of whatever size: that is judged here."""
    Image.MAX_IMAGE_PIXELS = None
    return Image.open(name, formats=formats)


def from_pillow(picture, kind):
    """The channels of a picture of 8 bits, or of one channel, that Pillow has open."""
    index = {"index": numpy.asarray(picture)} if picture.mode == "P" else {}
    notes = ()
    if picture.mode == "P" or "transparency" in picture.info:
        picture = picture.convert("RGBA" if "transparency" in picture.info else "RGB")
    elif picture.mode in ("CMYK", "YCbCr"):
        notes = (f"{picture.mode} turned into RGB",)
        picture = picture.convert("RGB")
    elif picture.mode not in PILLOW_MODES and not picture.mode.startswith("I;16"):
        raise Fault(f"{picture.filename} has colours of the kind {picture.mode}: save it as RGB or grey")
    array = numpy.asarray(picture)
    if array.dtype == bool:
        array = array.astype(numpy.uint8) * 255
    if kind == "PNG" and array.dtype == numpy.int32:  # (so Pillow gives a PNG of 16 bits)
        array = array.astype(numpy.uint16)
    array = array if array.ndim == 3 else array[:, :, None]
    names = {1: GREY, 2: (*GREY, "alpha"), 3: COLOURS, 4: (*COLOURS, "alpha")}[array.shape[2]]
    return Channels(in_planes(names, array) | index, top_of(array.dtype), kind, notes)


# ---- TIFF ----

def read_tiff(name, number):
    """The channels of one page of a TIFF, counted from 1, or of its only one for 0."""
    with tifffile.TiffFile(name) as file:
        page = page_of(name, file, number)
        if page.ndim < 2 or page.imagedepth > 1:
            raise Fault(f"{name} is no flat picture: save one plane of it alone")
        check_size(name, page.imagewidth, page.imagelength)
        array = unpacked(page) if page.photometric in PLAIN_KINDS else None
        if array is None:
            return tiff_by_pillow(name, page, number)
        if page.axes.startswith("S"):
            array = numpy.moveaxis(array, 0, -1)
        array = array if array.ndim == 3 else array[:, :, None]
        if array.shape[:2] != (page.imagelength, page.imagewidth):
            raise Fault(f"{name} is no flat picture: save one plane of it alone")
        if array.dtype.kind not in "buif":
            raise Fault(f"{name} has samples of the kind {array.dtype}, which are no shades of grey: save it with real "
                        f"numbers")
        kind = numpy.dtype(numpy.uint8) if array.dtype == bool else array.dtype.newbyteorder("=")
        return from_page(page, array.astype(kind, copy=False))


def page_of(name, file, number):
    """The page of this number, counted from 1."""
    count = len(file.pages)
    images = (file.imagej_metadata or {}).get("images", 1) if file.is_imagej else 1
    if count == 1 and (images > 1 or file.series[0].size > file.pages[0].size):
        raise Fault(f"{name} keeps its {max(images, 2)} or more pages as one block: save the page that you want alone")
    if count > 1 and number == 0:
        raise Fault(f"{name} has {count} pages: choose one, by --page 1 up to --page {count}")
    if number > count:
        raise Fault(f"{name} has {count} page{'s' if count > 1 else ''}, so --page goes from 1 to {count}")
    return file.pages[max(number, 1) - 1]


def unpacked(page):
    """The array of a page, or None where tifffile has no decoder for it."""
    try:
        return page.asarray()
    except (ValueError, KeyError, ImportError) as why:
        if "imagecodecs" in str(why) or "not supported" in str(why):
            return None
        raise


def from_page(page, array):
    """The channels of an unpacked page: an array of height, width and samples."""
    notes, index = (), {}
    if page.photometric == PHOTOMETRIC.PALETTE:
        index = {"index": array[:, :, 0]}
        array = colours_of(page.colormap, array[:, :, 0])
    elif page.bitspersample < 8:
        array = array * numpy.uint8(255 // (2 ** page.bitspersample - 1))
        notes = (stretched_bits(page.bitspersample),)
    top = top_of(array.dtype)
    if page.photometric == PHOTOMETRIC.MINISWHITE and top:
        array = top - array
        notes += ("turned, since its 0 is white",)
    colours = GREY if page.photometric in (PHOTOMETRIC.MINISBLACK, PHOTOMETRIC.MINISWHITE) else COLOURS
    extras = page.extrasamples if page.photometric != PHOTOMETRIC.PALETTE else ()
    others = ["alpha" if extra in ALPHAS else str(number)
              for number, extra in enumerate(extras, len(colours) + 1)]
    if colours == GREY and "alpha" not in others and others:
        colours = ("1",)
    return Channels(in_planes((*colours, *others), array) | index, top, "TIFF", notes,
                    tifffile.EXTRASAMPLE.ASSOCALPHA in extras)


def colours_of(colormap, index):
    """The colours of indices by the palette of a TIFF, whose samples of 8 bits are spelled with 16."""
    colours = numpy.moveaxis(colormap[:, index], 0, -1)
    for spelled in (257, 256):
        if not (colormap % spelled).any():
            return (colours // spelled).astype(numpy.uint8)
    return colours


def tiff_by_pillow(name, page, number):
    """The channels of a page that tifffile cannot unpack, where Pillow keeps all of its bits."""
    try:
        with opened(name, "TIFF") as picture:
            picture.seek(max(number, 1) - 1)
            bits = max(picture.tag_v2.get(TIFF_BITS, (1,)))
            if bits <= 8 or len(picture.getbands()) == 1:
                found = from_pillow(picture, "TIFF")
                if page.photometric == PHOTOMETRIC.MINISWHITE and found.top == 65535:
                    found = found._replace(planes={"grey": 65535 - found.planes["grey"]})
                return found
    except (OSError, ValueError, KeyError, SyntaxError):
        pass
    packing = getattr(page.compression, "name", page.compression)
    raise Fault(f"{name} is packed ({packing}) in a way that is not read here: unpack it, by "
                f"`tiffcp -c none {name} plain.tif` of Debian's package libtiff-tools")
