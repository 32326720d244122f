"""The strokes of a state file, as docs/FORMATS.md says what it is.

Only bytes that the library made are read here, so nothing is judged.
"""

from __future__ import annotations

import struct
import uuid

from seedpaint.strokes import Stroke

_HEADER = struct.Struct(">4s33xHH")
_LENGTH = struct.Struct(">H")
_HEAD_OF_STROKE = struct.Struct(">16sBHH")  # (of a disc the last is its column)
_REST_OF_DISC = struct.Struct(">HH")
_RUN = struct.Struct(">HHH")
_DISC = 1
_TAG_BYTES = 16


def live_strokes(data: bytes) -> list[Stroke]:
    """The strokes that are not withdrawn, by tag."""
    strokes: dict[uuid.UUID, Stroke] = {}
    withdrawn: set[uuid.UUID] = set()
    place = 0
    while place < len(data):
        (length,) = _LENGTH.unpack_from(data, place)
        place += _LENGTH.size
        _read_frame(data[place : place + length], strokes, withdrawn)
        place += length
    return [strokes[tag] for tag in sorted(strokes.keys() - withdrawn)]


def _read_frame(
    frame: bytes, strokes: dict[uuid.UUID, Stroke], withdrawn: set[uuid.UUID]
) -> None:
    """Add the strokes and the tombstones of a frame."""
    _, stroke_count, _ = _HEADER.unpack_from(frame)
    place = _HEADER.size
    for _ in range(stroke_count):
        stroke, place = _read_stroke(frame, place)
        strokes[stroke.tag] = stroke
    for begin in range(place, len(frame), _TAG_BYTES):
        withdrawn.add(uuid.UUID(bytes=frame[begin : begin + _TAG_BYTES]))


def _read_stroke(frame: bytes, place: int) -> tuple[Stroke, int]:
    """The stroke at this place of a frame, and the place behind it."""
    tag_bytes, kind, level, number = _HEAD_OF_STROKE.unpack_from(frame, place)
    tag = uuid.UUID(bytes=tag_bytes)
    place += _HEAD_OF_STROKE.size
    if kind == _DISC:
        y, radius = _REST_OF_DISC.unpack_from(frame, place)
        return Stroke(tag, level, disc=(y, number, radius)), place + _REST_OF_DISC.size
    end = place + number * _RUN.size
    runs = tuple((y, a, b) for y, a, b in _RUN.iter_unpack(frame[place:end]))
    return Stroke(tag, level, runs=runs), end
