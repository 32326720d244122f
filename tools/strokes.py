"""Strokes for the tools in this folder: their edit lines, and the pixels that they cover.

docs/FORMATS.md says what the lines and the files are. Which strokes are one object is told by tags.py.
"""

import math
import pathlib
import re
import uuid
from typing import NamedTuple

from running import Fault, without

try:
    import numpy
except ModuleNotFoundError as missing:
    without(missing)

from pictures import IMAGE_LINE
from state_files import Stroke, read_state_file
from tags import object_of

RUN = re.compile(rb"(\d{1,5}):(\d{1,5})-(\d{1,5})")
DISC = re.compile(rb"(\d{1,5}):(\d{1,5})\+(\d{1,5})")


class Seeds(NamedTuple):
    """The pixels of the objects that live strokes make, from the least tag on.

    `tags` has the least tag of each object, and `strokes` how many strokes it has. The arrays say of each pixel its
    place in the flat picture, the number of its object in `tags`, and its level.
    """
    tags: list
    places: numpy.ndarray
    owners: numpy.ndarray
    levels: numpy.ndarray
    strokes: list


# ---- Reading ----

def read_live_strokes(name):
    """The live strokes by their tags, of edit lines, of an input up to its `image` line, or of a state file."""
    data = pathlib.Path(name).read_bytes()
    is_state = data[2:5] == b"SPD"
    strokes, withdrawn = read_state_file(name, data) if is_state else read_edit_lines(name, data)
    live = {tag: stroke for tag, stroke in strokes.items() if tag not in withdrawn}
    if not live:
        raise Fault(f"{name} has no live stroke")
    return live


def read_edit_lines(name, data):
    """The strokes of edit lines, and the tags that they withdraw."""
    image_line = IMAGE_LINE.search(data)
    strokes, withdrawn = {}, set()
    for number, line in enumerate(data[:image_line.start() if image_line else len(data)].split(b"\n"), 1):
        words = line.removesuffix(b"\r").split()
        if not words or words[0].startswith(b";"):
            continue
        try:
            tag = uuid.UUID(words[1].decode())
            if words[0] == b"withdraw" and len(words) == 2:
                withdrawn.add(tag)
            elif strokes.setdefault(tag, stroke := spelled_stroke(words)) != stroke:
                raise Fault(f"{name} has two strokes with the tag {tag}")
        except (ValueError, IndexError):
            raise Fault(f"{name} has no edit line in line {number}") from None
    return strokes, withdrawn


def spelled_stroke(words):
    """The stroke that the words of a line spell."""
    kind, _, level, shape = words
    if kind == b"disc" and (match := DISC.fullmatch(shape)):
        return Stroke(int(level), [tuple(map(int, match.groups()))], True)
    matches = [RUN.fullmatch(run) for run in shape.split(b",")]
    if kind != b"place" or not all(matches):
        raise ValueError
    return Stroke(int(level), [tuple(map(int, match.groups())) for match in matches], False)


# ---- Pixels ----

def spans_of(stroke, width, height):
    """The spans of a stroke in a picture of this size."""
    if not stroke.is_disc:
        return stroke.shape
    (y, x, radius), = stroke.shape
    rows = range(max(y - radius, 0), min(y + radius + 1, height))
    reaches = [math.isqrt(radius * radius - (row - y) ** 2) for row in rows]
    return [(row, max(x - reach, 0), min(x + reach, width - 1)) for row, reach in zip(rows, reaches)]


def lies_in(stroke, width, height):
    """Whether a stroke lies in a picture of this size: of a disc its centre."""
    if stroke.is_disc:
        (y, x, _), = stroke.shape
        return y < height and x < width
    return all(y < height and last < width for y, _, last in stroke.shape)


def seeds_of(strokes, width, height):
    """The seeds of strokes by their tags, in a picture of this size."""
    tags, counts, spans = [], [], []
    for tag in sorted(strokes):
        stroke = strokes[tag]
        if not lies_in(stroke, width, height):
            raise Fault(f"the stroke {tag} does not lie in the picture of {width} by {height} pixels")
        if not tags or object_of(tags[-1]) != object_of(tag):
            tags.append(tag)
            counts.append(0)
        counts[-1] += 1
        spans += [(y * width + first, last - first + 1, len(tags) - 1, stroke.level)
                  for y, first, last in spans_of(stroke, width, height)]
    starts, lengths, owners, levels = numpy.array(spans, dtype=numpy.int64).T
    within = numpy.arange(lengths.sum()) - numpy.repeat(numpy.cumsum(lengths) - lengths, lengths)
    return Seeds(tags, numpy.repeat(starts, lengths) + within, numpy.repeat(owners, lengths),
                 numpy.repeat(levels, lengths), counts)
