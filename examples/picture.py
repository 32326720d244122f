#!/usr/bin/env python3
"""Turn a PGM picture into a PNG picture.

The input is a plain or raw PGM file, or an input of Seedpaint: then the
picture after its `image` line is taken, and with --strokes the strokes of the
lines before it are painted over the picture: filled in orange, or, of one that
is withdrawn, as an outline in blue.

    python3 examples/picture.py --scale 2 examples/cells.txt cells.png
"""

import argparse
import re
import struct
import sys
import uuid
import zlib
from pathlib import Path

STROKE_COLOUR, WITHDRAWN_COLOUR = bytes((255, 96, 32)), bytes((64, 176, 255))
IMAGE_LINE = re.compile(rb"^image\r?\n", re.MULTILINE)
SEPARATOR = rb"[ \t\r\n](?:[ \t\r\n]|#[^\r\n]*[\r\n])*"
HEADER = re.compile(rb"P([25])" + 3 * (SEPARATOR + rb"(\d+)") + rb"[ \t\r\n]")


def stop(text):
    """End the script as failed, with one line."""
    sys.exit(f"picture.py: {text}")


def split_input(data):
    """The edit lines and the PGM file of an input; a PGM has no lines."""
    found = IMAGE_LINE.search(data)
    if HEADER.match(data) or found is None:
        return b"", data
    return data[:found.start()], data[found.end():]


def read_picture(data):
    """Width, height and the samples, brought to the range 0 to 255."""
    header = HEADER.match(data)
    if header is None:
        stop("not a PGM file")
    kind, width, height, maxval = map(int, header.groups())
    raster = data[header.end():]
    try:
        if kind == 2:
            samples = list(map(int, raster.split()))
        elif maxval < 256:
            samples = raster
        else:
            samples = [sample for sample, in struct.iter_unpack(">H", raster)]
    except (ValueError, struct.error):
        samples = []
    is_whole = len(samples) == width * height > 0 and maxval > 0
    if not is_whole or min(samples) < 0 or max(samples) > maxval:
        stop(f"the PGM file is cut, or has other samples than {width} by {height} from 0 to {maxval}")
    return width, height, [sample * 255 // maxval for sample in samples]


def run_pixels(text):
    """The pixels (x, y) of runs, row:first-last each."""
    for run in text.split(b","):
        y, first, last = map(int, re.split(b"[:-]", run))
        yield from ((x, y) for x in range(first, last + 1))


def disc_pixels(text):
    """The pixels (x, y) of a disc, row:column+radius."""
    row, column, radius = map(int, re.split(rb"[:+]", text))
    around = range(-radius, radius + 1)
    return ((column + across, row + down) for down in around for across in around
            if across * across + down * down <= radius * radius)


def inner(pixels):
    """Those of a set of pixels that have no side on its edge."""
    return {(x, y) for x, y in pixels
            if {(x + 1, y), (x - 1, y), (x, y + 1), (x, y - 1)} <= pixels}


def read_strokes(lines):
    """The pixels to paint, each with its colour; strokes that live come last."""
    strokes, withdrawn = {}, set()
    shapes = {b"place": run_pixels, b"disc": disc_pixels}
    for number, words in enumerate(map(bytes.split, lines.split(b"\n")), 1):
        try:
            if words[:1] == [b"withdraw"]:
                withdrawn.add(uuid.UUID(words[1].decode()))
            elif words and words[0] in shapes:
                strokes[uuid.UUID(words[1].decode())] = set(shapes[words[0]](words[3]))
        except (ValueError, IndexError):
            stop(f"line {number} cannot be read")
    gone = ((pixel, WITHDRAWN_COLOUR) for tag in strokes.keys() & withdrawn
            for pixel in strokes[tag] - inner(inner(strokes[tag])))
    live = ((pixel, STROKE_COLOUR) for tag in strokes.keys() - withdrawn
            for pixel in strokes[tag])
    return [*gone, *live]


def chunk(kind, data):
    """One chunk of a PNG file: length, kind, data, checksum."""
    return (struct.pack(">I", len(data)) + kind + data
            + struct.pack(">I", zlib.crc32(kind + data)))


def png_file(width, height, pixels, scale):
    """The PNG file; a pixel is one byte of grey or three of colour."""
    rows = bytearray()
    for y in range(height):
        row = pixels[y * width:(y + 1) * width]
        rows += scale * (b"\0" + b"".join(scale * pixel for pixel in row))
    colour = 0 if len(pixels[0]) == 1 else 2
    head = struct.pack(">IIBBBBB", width * scale, height * scale,
                       8, colour, 0, 0, 0)
    return (b"\x89PNG\r\n\x1a\n" + chunk(b"IHDR", head)
            + chunk(b"IDAT", zlib.compress(bytes(rows), 9))
            + chunk(b"IEND", b""))


def read_words():
    """What the words of the command line ask for."""
    parser = argparse.ArgumentParser(description="Turn a PGM into a PNG.")
    parser.add_argument("source",
                        help="PGM or input of Seedpaint; - reads standard input")
    parser.add_argument("target", help="PNG file to write")
    parser.add_argument("--scale", type=int, default=1, metavar="N",
                        help="draw each pixel as a square of N by N")
    parser.add_argument("--strokes", action="store_true",
                        help="paint the strokes of the input in colour")
    return parser.parse_args()


def main():
    """Read the source, write the target."""
    words = read_words()
    from_file = words.source != "-"
    data = Path(words.source).read_bytes() if from_file else sys.stdin.buffer.read()
    lines, picture = split_input(data)
    width, height, samples = read_picture(picture)
    channels = 3 if words.strokes else 1
    pixels = [bytes(channels * [sample]) for sample in samples]
    if words.strokes:
        for (x, y), colour in read_strokes(lines):
            if 0 <= x < width and 0 <= y < height:
                pixels[y * width + x] = colour
    Path(words.target).write_bytes(png_file(width, height, pixels, words.scale))


if __name__ == "__main__":
    try:
        main()
    except OSError as why:
        stop(f"{why.filename}: {why.strerror}")
