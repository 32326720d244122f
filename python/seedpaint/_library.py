"""The shared library, and its functions as this package calls them.

Each wrapper takes arrays and bytes that are fit for the library, keeps them
alive while it runs, and turns its answer into a result or an exception. ctypes
lets go of the interpreter's lock during a call.
"""

from __future__ import annotations

import ctypes
import os
import pathlib
from typing import Any

import numpy
from numpy.typing import NDArray

from seedpaint.errors import Fault

OK, REFUSED, BAD_CONNECTIVITY, NO_MEMORY = range(4)
NO_ROOM, BAD_SIZE, BAD_LENGTH, ABOVE_MASK = range(4, 8)
MAX_SIDE = 16384
MAX_PIXELS = 1 << 26
MAX_LEVEL = 65535

_FAULT_BYTES = 64
_HEADER_BYTES = 20  # (the longest header of a raw PGM file)


class AboveMask(ValueError):
    """The image is above the mask somewhere."""


class Lengths(ctypes.Structure):
    """How many bytes an answer has."""

    _fields_ = [(name, ctypes.c_size_t) for name in ("out", "state", "fault")]


_CELLS = [ctypes.c_void_p, ctypes.c_size_t]  # (a slice: a pointer and a length)
_BYTES = [ctypes.c_void_p, ctypes.c_size_t]
_SIDES = [ctypes.c_uint32, ctypes.c_uint32]
_CONN = [ctypes.c_uint32]
_LENGTHS = [ctypes.POINTER(Lengths)]

_ARGUMENTS: dict[str, list[Any]] = {
    "seedpaint_grow": [*_CELLS, *_CELLS, *_SIDES, *_CONN],
    "seedpaint_fill": [*_CELLS, *_SIDES, *_CONN],
    "seedpaint_hmax": [*_CELLS, *_SIDES, ctypes.c_uint16, *_CONN],
    "seedpaint_regmax": [*_CELLS, *_SIDES, *_CONN],
    "seedpaint_view": [*_BYTES, *_CONN, *2 * _BYTES, *_LENGTHS],
    "seedpaint_view_kept": [*2 * _BYTES, *_CONN, *3 * _BYTES, *_LENGTHS],
    "seedpaint_merge": [*3 * _BYTES, *_SIDES, *_CONN, *2 * _BYTES, *_LENGTHS],
}


def _load() -> ctypes.CDLL:
    """The shared library beside this file, or the one SEEDPAINT_LIBRARY names."""
    beside = pathlib.Path(__file__).with_name("libseedpaint.so")
    try:
        library = ctypes.CDLL(os.environ.get("SEEDPAINT_LIBRARY") or str(beside))
    except OSError as why:
        raise ImportError(
            f"{why}: the wheel that tools/build_python.sh makes has the library"
        ) from None
    for name, arguments in _ARGUMENTS.items():
        function = getattr(library, name)
        function.argtypes = arguments
        function.restype = ctypes.c_uint32
    return library


_library = _load()


# ---- Arrays ----


def grow(mask: NDArray[numpy.uint16], image: NDArray[numpy.uint16], conn: int) -> None:
    """Grow an image in place.

    Both are C-contiguous and aligned, of one shape.

    Raises
    ------
    AboveMask
        Where the image is above the mask somewhere; it is as it was.
    """
    h, w = image.shape
    _judge(_library.seedpaint_grow(*_cells(mask), *_cells(image), w, h, conn))


def fill(image: NDArray[numpy.uint16], conn: int) -> None:
    """Fill the holes of an image in place."""
    h, w = image.shape
    _judge(_library.seedpaint_fill(*_cells(image), w, h, conn))


def hmax(image: NDArray[numpy.uint16], height: int, conn: int) -> None:
    """Cut the domes of an image down in place."""
    h, w = image.shape
    _judge(_library.seedpaint_hmax(*_cells(image), w, h, height, conn))


def regmax(image: NDArray[numpy.uint16], conn: int) -> None:
    """Mark the regional maxima of an image in place."""
    h, w = image.shape
    _judge(_library.seedpaint_regmax(*_cells(image), w, h, conn))


def _cells(image: NDArray[Any]) -> tuple[int, int]:
    """An array as the library takes it: an address and a number of elements."""
    return image.__array_interface__["data"][0], image.size


# ---- Bytes ----


def view(data: bytes, conn: int, pixels: int) -> bytes:
    """The raw PGM file that an input shows, of a mask of so many pixels."""
    fault, lengths = _Buffer(_FAULT_BYTES), Lengths()
    room = _HEADER_BYTES + 2 * pixels
    while True:
        out = _Buffer(room)
        code = _library.seedpaint_view(
            *(data, len(data), conn, *out.slice, *fault.slice),
            ctypes.byref(lengths),
        )
        if code != NO_ROOM:
            break
        room = lengths.out
    _judge(code, fault.front(lengths.fault))
    return out.front(lengths.out)


def view_kept(data: bytes, old: bytes, conn: int, pixels: int) -> tuple[bytes, bytes]:
    """The raw PGM file that an input shows over a state file, and its new bytes."""
    fault, lengths = _Buffer(_FAULT_BYTES), Lengths()
    room, state_room = _HEADER_BYTES + 2 * pixels, _state_room(old, b"")
    while True:
        out, state = _Buffer(room), _Buffer(state_room)
        code = _library.seedpaint_view_kept(
            *(data, len(data), old, len(old), conn),
            *(*out.slice, *state.slice, *fault.slice),
            ctypes.byref(lengths),
        )
        if code != NO_ROOM:
            break
        room, state_room = lengths.out, lengths.state
    _judge(code, fault.front(lengths.fault))
    return out.front(lengths.out), state.front(lengths.state)


def merge(
    edits: bytes, old: bytes, fingerprint: bytes, shape: tuple[int, ...], conn: int
) -> bytes:
    """The bytes of a state file with the strokes of edit lines joined in."""
    h, w = shape
    fault, lengths = _Buffer(_FAULT_BYTES), Lengths()
    room = _state_room(old, edits)
    while True:
        state = _Buffer(room)
        code = _library.seedpaint_merge(
            *(edits, len(edits), old, len(old), fingerprint, len(fingerprint)),
            *(w, h, conn, *state.slice, *fault.slice),
            ctypes.byref(lengths),
        )
        if code != NO_ROOM:
            break
        room = lengths.state
    _judge(code, fault.front(lengths.fault))
    return state.front(lengths.state)


class _Buffer:
    """Bytes that the library writes. It is never empty, so it has an address."""

    def __init__(self, room: int) -> None:
        self._bytes = numpy.empty(max(room, 1), dtype=numpy.uint8)
        self.slice = _cells(self._bytes)

    def front(self, count: int) -> bytes:
        """The first bytes."""
        return self._bytes[:count].tobytes()


def _state_room(old: bytes, edits: bytes) -> int:
    """Room that a state file mostly fits into; where it does not, a call is made anew.

    Frames that are packed anew may end earlier, and a stroke takes fewer bytes
    in a frame than in a line.
    """
    return 1024 + len(old) + len(old) // 8 + len(edits)


# ---- Answers ----


def _judge(code: int, line: bytes = b"") -> None:
    """Raise what an answer says, where it is not 0."""
    if code == OK:
        return
    if code == REFUSED:
        raise Fault(line.decode("ascii"))
    if code == NO_MEMORY:
        raise MemoryError("out of memory")
    if code == ABOVE_MASK:
        raise AboveMask("the image is above the mask somewhere")
    raise ValueError(_SENTENCES[code])


_SENTENCES = {
    BAD_CONNECTIVITY: "connectivity is 4 or 8",
    BAD_SIZE: "an image has sides from 1 to 16384, and at most 2**26 pixels",
    BAD_LENGTH: "there are not as many cells as pixels",
}
