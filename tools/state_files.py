"""State files for the tools in this folder, as docs/FORMATS.md says what they are."""

import struct
import uuid
from typing import NamedTuple

from running import Fault


class Stroke(NamedTuple):
    """A level, and runs of row, first and last column; of a disc one triple in their place: row, column and radius."""
    level: int
    shape: list
    is_disc: bool


def read_state_file(name, data):
    """The strokes of a state file, and its tombstones."""
    strokes, withdrawn, place = {}, set(), 0
    try:
        while place < len(data):
            length, = struct.unpack_from(">H", data, place)
            if place + 2 + length > len(data):
                raise ValueError
            read_frame(data[place + 2:place + 2 + length], strokes, withdrawn)
            place += 2 + length
    except (struct.error, ValueError, IndexError):
        raise Fault(f"{name} is no state file, or is cut off") from None
    return strokes, withdrawn


def read_frame(frame, strokes, withdrawn):
    """Add the strokes and the tombstones of a frame."""
    magic, stroke_count, tombstone_count = struct.unpack_from(">4s33xHH", frame)
    if magic not in (b"SPD1", b"SPD2"):
        raise ValueError
    place = 41
    for _ in range(stroke_count):
        place = read_framed_stroke(frame, place, magic == b"SPD2", strokes)
    for _ in range(tombstone_count):
        withdrawn.add(uuid.UUID(bytes=frame[place:place + 16]))
        place += 16


def read_framed_stroke(frame, place, has_kind, strokes):
    """Add the stroke that begins at this place of a frame, and give the place behind it."""
    tag = uuid.UUID(bytes=frame[place:place + 16])
    kind = frame[place + 16] if has_kind else 0
    level, first = struct.unpack_from(">HH", frame, place + 16 + has_kind)
    place += 18 + has_kind
    if kind == 1:
        x, y, radius = struct.unpack_from(">HHH", frame, place)
        strokes[tag] = Stroke(level, [(y, x, radius)], True)
        return place + 6
    runs = struct.unpack_from(f">{3 * first}H", frame, place + 2)
    strokes[tag] = Stroke(level, list(zip(runs[0::3], runs[1::3], runs[2::3])), False)
    return place + 2 + 6 * first
