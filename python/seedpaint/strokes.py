"""Strokes, and label images turned into strokes and seeds."""

from __future__ import annotations

import hashlib
import math
import uuid
from typing import Any, NamedTuple, Optional, SupportsIndex

import numpy
from numpy.typing import ArrayLike, NDArray

from seedpaint import _arrays, _library

__all__ = ["Stroke", "seed_from_labels", "strokes_from_labels"]

Run = tuple[int, int, int]  # (row, first and last column)
Disc = tuple[int, int, int]  # (row and column of the centre, and radius)

_MOST_RUNS = 160
_NUMBER_BITS, _LABEL_BITS = 28, 32  # (of a painted tag: two zero bits stand above)
_DIGITS_OF_GESTURE, _DIGITS_OF_CLASSED, _DIGITS_OF_LABEL = 28, 27, 25
_CLASS_MARK = "e"  # (digit 17 of tags that tell a class)


class Stroke(NamedTuple):
    """A stroke over a picture.

    Parameters
    ----------
    tag : uuid.UUID
        Its name, for good.
    level : int
        How bright it may light up what it touches, 1 to 65535.
    runs : tuple of (int, int, int), optional
        Row, first and last column of each run, by row and then by column;
        empty where it is a disc.
    disc : (int, int, int), optional
        Row and column of the centre, and radius.
    """

    tag: uuid.UUID
    level: int
    runs: tuple[Run, ...] = ()
    disc: Optional[Disc] = None

    def line(self) -> str:
        """Spell the stroke as an edit line.

        Returns
        -------
        str
            The line, without a newline.
        """
        if self.disc is not None:
            y, x, radius = self.disc
            return f"disc {self.tag} {self.level} {y}:{x}+{radius}"
        runs = ",".join(f"{y}:{first}-{last}" for y, first, last in self.runs)
        return f"place {self.tag} {self.level} {runs}"

    def spans(self, shape: _arrays.Shape) -> list[Run]:
        """Give the pixels that the stroke covers in a picture.

        Parameters
        ----------
        shape : (int, int)
            Rows and columns of the picture, in which the stroke lies.

        Returns
        -------
        list of (int, int, int)
            Row, first and last column of each run of pixels.
        """
        if self.disc is None:
            return list(self.runs)
        y, x, radius = self.disc
        h, w = shape
        spans = []
        for row in range(max(y - radius, 0), min(y + radius + 1, h)):
            reach = math.isqrt(radius * radius - (row - y) ** 2)
            spans.append((row, max(x - reach, 0), min(x + reach, w - 1)))
        return spans


# ---- Label images ----


def seed_from_labels(
    label_image: ArrayLike, mask: ArrayLike, *, level: SupportsIndex | None = None
) -> NDArray[Any]:
    """Make the seed that a label image paints on a mask, for `reconstruction`.

    Parameters
    ----------
    label_image : (H, W) array_like of int or bool
        Each pixel that is not 0 is painted.
    mask : (H, W) array_like of int or bool
        What bounds the growth. Values are 0 to 65535; H and W are 1 to 16384,
        H * W at most 2**26.
    level : int, optional
        How bright painted pixels may be, 1 to 65535. Where none is given, they
        have the mask's values.

    Returns
    -------
    (H, W) ndarray
        On painted pixels the mask's values, at most `level`, and 0 elsewhere;
        of the mask's type.

    Raises
    ------
    TypeError
        Where values are neither integers nor booleans, or `level` is no
        integer.
    ValueError
        Where shapes differ or are not those of an image, a value of the mask
        is below 0 or above 65535, a label below 0 or above 2**32 - 1, or
        `level` is not from 1 to 65535.

    See Also
    --------
    strokes_from_labels : The strokes that a label image paints, for a session.

    Examples
    --------
    >>> import numpy
    >>> from seedpaint import seed_from_labels
    >>> mask = numpy.array([[3, 5, 2, 5, 4]], dtype=numpy.uint8)
    >>> seed_from_labels([[0, 7, 0, 0, 0]], mask)
    array([[0, 5, 0, 0, 0]], dtype=uint8)
    """
    mask = _arrays.integer_image("mask", mask)
    labels = _labels_on(mask.shape, label_image)
    seed = numpy.where(labels != 0, mask, 0)
    if level is not None:
        seed = numpy.minimum(seed, min(whole_level(level), int(mask.max())))
    return seed.astype(_arrays.native(mask.dtype), copy=False)


def strokes_from_labels(
    label_image: ArrayLike,
    mask: ArrayLike | None = None,
    *,
    level: SupportsIndex | None = None,
    name: str = "labels",
) -> list[Stroke]:
    """Turn a label image, as napari or ImageJ have it, into strokes.

    Parameters
    ----------
    label_image : (H, W) array_like of int or bool
        Each label above 0, up to 2**32 - 1, becomes a stroke, or several where
        it has more than 160 runs of pixels side by side on a row.
    mask : (H, W) array_like of int or bool, optional
        Gives each label its level where `level` does not: the greatest value
        under the label, and at least 1.
    level : int, optional
        The level of each stroke, 1 to 65535.
    name : str, optional
        What the tags are made of, with the labels: the same name and labels
        give the same tags again. Where a painted picture changed, take another
        name, and withdraw the old strokes.

    Returns
    -------
    list of Stroke
        By label, and within one from the top.

    Raises
    ------
    TypeError
        Where values are neither integers nor booleans, or `level` is no
        integer.
    ValueError
        Where shapes differ or are not those of an image, a value of the mask
        is below 0 or above 65535, a label below 0 or above 2**32 - 1, `level`
        is not from 1 to 65535, or neither mask nor level is given.

    See Also
    --------
    Session.add : Place strokes.
    Session.labels : The regions of strokes as a label image.
    seed_from_labels : A seed of the same pixels, without strokes.

    Examples
    --------
    >>> import numpy
    >>> from seedpaint import strokes_from_labels
    >>> mask = numpy.array([[3, 5, 2, 5, 4]], dtype=numpy.uint8)
    >>> for stroke in strokes_from_labels([[7, 7, 0, 0, 9]], mask):
    ...     print(stroke.level, stroke.runs)
    5 ((0, 0, 1),)
    4 ((0, 4, 4),)
    """
    if level is None and mask is None:
        raise ValueError("give a mask or a level: a stroke needs one")
    all_levels = 0 if level is None else whole_level(level)
    if mask is not None:
        mask = _arrays.integer_image("mask", mask)
    labels = _labels_on(None if mask is None else mask.shape, label_image)
    runs = _runs_of(labels, mask)
    edges = numpy.flatnonzero(numpy.diff(runs.labels, prepend=0, append=0))
    strokes: list[Stroke] = []
    for begin, end in zip(edges[:-1], edges[1:]):
        brightest = int(runs.brightest[begin:end].max())
        strokes += _strokes_of(runs, begin, end, all_levels or max(1, brightest), name)
    return strokes


def whole_level(level: SupportsIndex) -> int:
    """The level of a stroke, where it is one."""
    return _arrays.whole_number("level", level, 1, _library.MAX_LEVEL)


def _labels_on(shape: _arrays.Shape | None, label_image: ArrayLike) -> _arrays.Image:
    """A label image as an array, of this shape where one is given."""
    labels = numpy.asarray(label_image)
    if labels.dtype.kind not in "biu":
        raise TypeError(
            f"label_image has values of type {labels.dtype}, and labels are integers"
        )
    _arrays.check_shape("label_image", labels)
    if shape is not None and labels.shape != shape:
        raise ValueError(f"label_image has the shape {labels.shape}, and mask {shape}")
    least, greatest = int(labels.min()), int(labels.max())
    if least < 0 or greatest >= 1 << _LABEL_BITS:
        value = least if least < 0 else greatest
        raise ValueError(f"label_image has the label {value}: labels are 0 to 2**32-1")
    return labels


# ---- Runs of labels ----


class _Runs(NamedTuple):
    """Runs of equal labels above 0, by label and then from the top.

    Of each its label, row, first and last column, and the greatest value of
    the mask under it, or 0 where there is none.
    """

    labels: NDArray[Any]
    rows: NDArray[Any]
    firsts: NDArray[Any]
    lasts: NDArray[Any]
    brightest: NDArray[Any]


def _runs_of(labels: _arrays.Image, mask: _arrays.Image | None) -> _Runs:
    """The runs of a label image."""
    h, w = labels.shape
    begins = numpy.ones(labels.shape, dtype=bool)
    begins[:, 1:] = labels[:, 1:] != labels[:, :-1]
    starts = numpy.flatnonzero(begins)
    lengths = numpy.diff(starts, append=h * w)
    found = labels.ravel()[starts].astype(numpy.int64)
    if mask is None:
        brightest = numpy.zeros_like(found)
    else:
        brightest = numpy.maximum.reduceat(mask.ravel(), starts)
    order = numpy.argsort(found, kind="stable")
    order = order[found[order] > 0]
    rows, firsts = numpy.divmod(starts[order], w)
    lasts = firsts + lengths[order] - 1
    return _Runs(found[order], rows, firsts, lasts, brightest[order])


def _strokes_of(
    runs: _Runs, begin: int, end: int, level: int, name: str
) -> list[Stroke]:
    """The strokes of a label, which has these of the runs."""
    label = int(runs.labels[begin])
    strokes = []
    for number, first in enumerate(range(begin, end, _MOST_RUNS)):
        part = slice(first, min(first + _MOST_RUNS, end))
        columns = (runs.rows[part], runs.firsts[part], runs.lasts[part])
        triples = tuple(zip(*(column.tolist() for column in columns)))
        strokes.append(Stroke(painted_tag(name, label, number), level, runs=triples))
    return strokes


# ---- Tags: docs/FORMATS.md has the rules, and tools/tags.py is the same for tools ----


def painted_tag(name: str, label: int, number: int) -> uuid.UUID:
    """The tag of a stroke of a label that was painted in a picture of a name."""
    digest = int.from_bytes(hashlib.sha256(name.encode()).digest(), "big")
    front, middle = digest >> 208, digest >> 196 & 0xFFF
    low = 0b10 << 62 | label << _NUMBER_BITS | number
    return uuid.UUID(int=front << 80 | 8 << 76 | middle << 64 | low)


def painted_label(tag: uuid.UUID) -> int:
    """The label in the tag of a painted stroke."""
    return tag.int >> _NUMBER_BITS & (1 << _LABEL_BITS) - 1


def are_of_one_picture(tags: list[uuid.UUID]) -> bool:
    """Whether all are tags of strokes that were painted in one picture."""
    bits = {tag.int >> _NUMBER_BITS + _LABEL_BITS for tag in tags}
    return all(_is_painted(tag) for tag in tags) and len(bits) <= 1


def object_numbers(tags: list[uuid.UUID]) -> list[int]:
    """The object of each tag, from 1 on in the order in which they come."""
    numbers: dict[str, int] = {}
    return [numbers.setdefault(object_of(tag), len(numbers) + 1) for tag in tags]


def object_of(tag: uuid.UUID) -> str:
    """The digits that the tags of all strokes of one object begin with.

    An object is a gesture of the page or a painted label, with all its strokes,
    or a stroke of anybody else.
    """
    if _is_painted(tag):
        return tag.hex[:_DIGITS_OF_LABEL]
    return tag.hex[: _DIGITS_OF_CLASSED if _told_class(tag) else _DIGITS_OF_GESTURE]


def class_of(tag: uuid.UUID) -> int:
    """The class of a stroke, 1 to 255: 1 where its tag tells none."""
    return _told_class(tag) or 1


def _told_class(tag: uuid.UUID) -> int:
    """The class that a tag of the page tells, or 0."""
    return int(tag.hex[28:30], 16) if tag.hex[16] == _CLASS_MARK else 0


def _is_painted(tag: uuid.UUID) -> bool:
    """Whether a tag is that of a painted stroke: two zero bits behind the variant."""
    return tag.hex[12] == tag.hex[16] == "8"
