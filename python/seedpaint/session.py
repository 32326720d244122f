"""Sessions: seed strokes over a picture, and what they grow into."""

from __future__ import annotations

import hashlib
import operator
import uuid
from collections.abc import Iterable
from typing import Any, SupportsIndex

import numpy
from numpy.typing import ArrayLike, NDArray

from seedpaint import _arrays, _labels, _library, _pgm, _state_files
from seedpaint.errors import Fault
from seedpaint.strokes import (
    Stroke,
    are_of_one_picture,
    object_numbers,
    painted_label,
    whole_level,
)

__all__ = ["Session"]

_IMAGE_LINE = b"image\n"


class Session:
    """Strokes over a mask, and the image that they show.

    The image is the reconstruction by dilation of the mask from the strokes.
    Strokes and withdrawals count in any order and however often: the states of
    two people are joined, and nothing is lost.

    Parameters
    ----------
    mask : (H, W) array_like of int or bool
        Values are 0 to 65535; H and W are 1 to 16384, H * W at most 2**26. It
        is copied.
    connectivity : {1, 2, 4, 8}
        The neighbours of a pixel: 1 or 4 for an edge, 2 or 8 for an edge or a
        corner. (The program `seedpaint` has 4 where none is named.)
    state : bytes, optional
        A state file to begin with, as the method `state` gives it, and as the
        program and the page write it.
    maxval : int, optional
        The maxval of the mask's PGM file, 1 to 65535, on which a state file
        depends. Where none is given it is 1 for bool, 255 for other types of 8
        bits, and else 65535.

    Raises
    ------
    Fault
        Where the state file is refused: M1 to M7, D1 where it is for another
        mask or connectivity, C1 or C2 where a stroke does not fit.
    TypeError
        Where values are neither integers nor booleans, or state no bytes.
    ValueError
        Where the shape is not that of an image, a value is below 0 or above
        65535 or maxval, or connectivity or maxval is refused.
    MemoryError
        Where memory is wanting. So may each method that makes or reads
        strokes, or grows.

    See Also
    --------
    reconstruction : The image of any seed, without strokes.
    strokes_from_labels : The strokes that a label image paints.

    Notes
    -----
    A session reads and writes no file. Threads that share one have to take
    turns; sessions of their own run side by side. While a call runs nobody may
    write its arrays.

    Examples
    --------
    >>> import numpy
    >>> from seedpaint import Session
    >>> mask = numpy.array([[3, 5, 2, 5, 4]], dtype=numpy.uint8)
    >>> session = Session(mask, 4)
    >>> tag = session.disc(0, 1, 0)
    >>> session.image()
    array([[3, 5, 2, 2, 2]], dtype=uint8)
    >>> session.withdraw(tag)
    >>> session.image()
    array([[0, 0, 0, 0, 0]], dtype=uint8)
    """

    def __init__(
        self,
        mask: ArrayLike,
        connectivity: int,
        *,
        state: bytes = b"",
        maxval: SupportsIndex | None = None,
    ) -> None:
        mask = _arrays.integer_image("mask", mask)
        self._kind = _arrays.native(mask.dtype)
        self._mask = _arrays.cells_of(mask)
        self._shape = mask.shape
        self._conn = _arrays.of_number(connectivity)
        file = _pgm.spelled(self._mask, self._whole_maxval(maxval))
        self._input = _IMAGE_LINE + file
        self._fingerprint = hashlib.sha256(file).digest()
        self._image: _arrays.Image | None = None
        self._state = self._merged(b"", _bytes_of("state", state))

    def __repr__(self) -> str:
        h, w = self._shape
        return f"<Session: {h} rows of {w}, {self._conn} neighbours>"

    # ---- Strokes ----

    def place(
        self,
        runs: Iterable[tuple[SupportsIndex, SupportsIndex, SupportsIndex]],
        level: SupportsIndex | None = None,
        *,
        tag: uuid.UUID | str | None = None,
    ) -> uuid.UUID:
        """Place a stroke of runs of pixels.

        Parameters
        ----------
        runs : iterable of (int, int, int)
            Row, first and last column of each run, from 0, by row and then by
            column; 1 to 160 of them. On one row a pixel lies between two.
        level : int, optional
            How bright it may light up what it touches, 1 to 65535. Where none
            is given, the greatest value of the mask under it, and at least 1.
        tag : uuid.UUID or str, optional
            The stroke's name; a new one where none is given.

        Returns
        -------
        uuid.UUID
            The tag.

        Raises
        ------
        Fault
            E1 to E3, C1 or C2: the strokes are then as they were.
        TypeError
            Where a number is no integer, or tag is neither of both.
        """
        index = operator.index
        triples = tuple((index(y), index(a), index(b)) for y, a, b in runs)
        if not triples:
            raise Fault("seedpaint: E3 1 S2")  # (no edit line spells such a stroke)
        return self._add(Stroke(_tag_or_new(tag), 1, runs=triples), level)

    def disc(
        self,
        y: SupportsIndex,
        x: SupportsIndex,
        radius: SupportsIndex,
        level: SupportsIndex | None = None,
        *,
        tag: uuid.UUID | str | None = None,
    ) -> uuid.UUID:
        """Place a disc.

        Parameters
        ----------
        y, x : int
            Row and column of its centre, from 0.
        radius : int
            0 to 255. It covers the pixels of the mask that are no farther from
            the centre.
        level : int, optional
            As for `place`.
        tag : uuid.UUID or str, optional
            As for `place`.

        Returns
        -------
        uuid.UUID
            The tag.

        Raises
        ------
        Fault
            E1 to E3, C1 or C2: the strokes are then as they were.
        TypeError
            Where a number is no integer, or tag is neither of both.
        """
        disc = (operator.index(y), operator.index(x), operator.index(radius))
        return self._add(Stroke(_tag_or_new(tag), 1, disc=disc), level)

    def add(self, strokes: Iterable[Stroke]) -> None:
        """Place strokes, as `strokes_from_labels` gives them: all, or none.

        Parameters
        ----------
        strokes : iterable of Stroke
            Each with its tag and level. One that is there already is no fault.

        Raises
        ------
        Fault
            At the first that is refused: the strokes are then as they were.
        """
        self.edit("".join(f"{stroke.line()}\n" for stroke in strokes))

    def withdraw(self, tag: uuid.UUID | str) -> None:
        """Withdraw a stroke, whether it is there or still to come.

        Parameters
        ----------
        tag : uuid.UUID or str
            The stroke's tag. It is no fault to withdraw it again.

        Raises
        ------
        Fault
            E2, where the tag is no UUID.
        TypeError
            Where it is neither of both.
        """
        self.edit(f"withdraw {_tag_of(tag)}\n")

    def edit(self, text: str | bytes) -> None:
        """Take edit lines, as the program reads them: all, or none.

        Parameters
        ----------
        text : str or bytes
            Lines that begin with `place`, `disc` or `withdraw`.

        Raises
        ------
        Fault
            E1 to E3 of the first faulty line, else C1 or C2: the strokes are
            then as they were.
        """
        data = text.encode() if isinstance(text, str) else _bytes_of("text", text)
        self._become(self._merged(data, self._state))

    def join(self, state: bytes) -> None:
        """Join the strokes and withdrawals of another state file.

        Parameters
        ----------
        state : bytes
            What the method `state` gave, or a state file of the program or the
            page.

        Raises
        ------
        Fault
            M1 to M7, D1 where it is for another mask or connectivity, C1 or C2
            where a stroke does not fit: the strokes are then as they were.
        TypeError
            Where it is no bytes.
        """
        both = self._state + _bytes_of("state", state)
        self._become(self._merged(b"", both))

    # ---- What there is ----

    def image(self) -> NDArray[Any]:
        """Give the image that the strokes show.

        Returns
        -------
        (H, W) ndarray
            The reconstruction by dilation of the mask from the strokes; a new
            array of the mask's type.
        """
        return self._cells().astype(self._kind)

    def state(self) -> bytes:
        """Give the bytes of a state file of all strokes and withdrawals.

        Returns
        -------
        bytes
            The same bytes for the same strokes, whatever their order was.
        """
        return self._state

    def strokes(self) -> list[Stroke]:
        """Give the strokes that are not withdrawn.

        Returns
        -------
        list of Stroke
            By tag.
        """
        return _state_files.live_strokes(self._state)

    def labels(
        self,
        *,
        level: SupportsIndex | None = None,
        share: float | None = None,
        painted: bool = False,
    ) -> NDArray[Any]:
        """Give the regions of the strokes as a label image.

        Parameters
        ----------
        level : int, optional
            Keep the pixels of the image of at least this value, 1 to 65535.
        share : float, optional
            Keep what a path leads to from a stroke, on which no value is below
            this share of the brightest that its object itself shows: above 0,
            at most 1. Exactly one of level and share is given.
        painted : bool, optional
            Number regions by the labels that `strokes_from_labels` had, and
            not by the order of the objects.

        Returns
        -------
        (H, W) ndarray of int32, or of uint32 where `painted`
            0 where nothing is kept, and else the number of the object: from 1,
            in the order of `strokes`. Where several keep a pixel it is that of
            the one with the least tag.

        Raises
        ------
        TypeError
            Where level is no integer.
        ValueError
            Where not exactly one of level and share is given, or it is out of
            its range; with `painted`, where strokes are not those that
            `strokes_from_labels` made of one picture.

        Notes
        -----
        An object is a stroke, or all strokes of one gesture on the page or of
        one painted label; docs/FORMATS.md of the repository has the rule, under
        "Tags".

        A region in which several objects meet is not cut apart; the tool
        `tools/labels_from_result.py` of the repository does so.

        By `share` it takes the longer, the more strokes meet in one. And each
        object counts by itself: one on a dim cell also keeps a brighter cell
        that touches it, and if it has the lesser tag it takes that cell whole,
        even from an object of the cell's own. There the tool's ``--share``
        gives other regions, for it goes by the object that lights a pixel.
        """
        if (level is None) == (share is None):
            raise ValueError("give one of level and share")
        strokes = self.strokes()
        tags = [stroke.tag for stroke in strokes]
        if painted and not are_of_one_picture(tags):
            raise ValueError(
                "painted is for strokes that strokes_from_labels made of one picture"
            )
        objects = object_numbers(tags)
        numbers = self._numbers(strokes, objects, level, share)
        if painted:
            labels = [0, *map(painted_label, tags)]
            return numpy.array(labels, dtype=numpy.uint32)[numbers]
        if max(objects, default=0) == len(objects):
            return numbers
        return numpy.array([0, *objects], dtype=numpy.int32)[numbers]

    # ---- Within ----

    def _numbers(
        self,
        strokes: list[Stroke],
        objects: list[int],
        level: SupportsIndex | None,
        share: float | None,
    ) -> _labels.Numbers:
        """The number of the stroke that keeps each pixel, from 1, or 0."""
        if level is not None:
            least = whole_level(level)
            return _labels.by_level(self._cells(), strokes, least, self._conn)
        assert share is not None
        if not 0 < share <= 1:
            raise ValueError(f"share is {share!r}, and it is above 0, at most 1")
        thresholds = _labels.thresholds_of(self._mask, strokes, objects, share)
        return _labels.by_thresholds(self._cells(), strokes, thresholds, self._conn)

    def _cells(self) -> _arrays.Image:
        """The image, grown once and kept until strokes change. Nobody writes in it."""
        if self._image is None:
            pixels = self._mask.size
            file, _ = _library.view_kept(self._input, self._state, self._conn, pixels)
            self._image = _pgm.read(file)
        return self._image

    def _add(self, stroke: Stroke, level: SupportsIndex | None) -> uuid.UUID:
        """Take a stroke at a level, or at that of the mask, and give its tag."""
        own = self._level_under(stroke) if level is None else operator.index(level)
        self.edit(f"{stroke._replace(level=own).line()}\n")
        return stroke.tag

    def _level_under(self, stroke: Stroke) -> int:
        """The greatest value of the mask under a stroke, and at least 1.

        What lies beside the mask is passed over: the library refuses it.
        """
        h, w = self._shape
        under = [1]
        for y, first, last in stroke.spans(self._shape):
            if 0 <= y < h and 0 <= first <= last < w:
                under.append(int(self._mask[y, first : last + 1].max()))
        return max(under)

    def _merged(self, lines: bytes, state: bytes) -> bytes:
        """The bytes of a state file with lines joined in."""
        return _library.merge(lines, state, self._fingerprint, self._shape, self._conn)

    def _become(self, state: bytes) -> None:
        """Go on with other bytes."""
        if state != self._state:
            self._state, self._image = state, None

    def _whole_maxval(self, maxval: SupportsIndex | None) -> int:
        """The maxval of the mask's file, by its type where none is given."""
        if maxval is not None:
            most = _arrays.whole_number("maxval", maxval, 1, _library.MAX_LEVEL)
        elif self._kind.kind == "b":
            most = 1
        else:
            most = 255 if self._kind.itemsize == 1 else _library.MAX_LEVEL
        greatest = int(self._mask.max())
        if greatest > most:
            raise ValueError(f"mask has the value {greatest}, and maxval is {most}")
        return most


def _tag_or_new(tag: uuid.UUID | str | None) -> uuid.UUID:
    """A tag, or a new one where there is none."""
    return uuid.uuid4() if tag is None else _tag_of(tag)


def _tag_of(tag: uuid.UUID | str) -> uuid.UUID:
    """A tag, by itself or by its text."""
    if isinstance(tag, uuid.UUID):
        return tag
    if not isinstance(tag, str):
        raise TypeError(f"tag is {tag!r}, and it is a uuid.UUID or its text")
    try:
        return uuid.UUID(tag)
    except ValueError:
        raise Fault("seedpaint: E2 1") from None


def _bytes_of(name: str, data: bytes) -> bytes:
    """Bytes of the caller's."""
    if not isinstance(data, (bytes, bytearray, memoryview)):
        raise TypeError(f"{name} is a {type(data).__name__}, and not bytes")
    return bytes(data)
