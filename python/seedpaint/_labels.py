"""Regions of strokes in what they show."""

from __future__ import annotations

import math
from collections.abc import Iterator
from fractions import Fraction
from typing import Any

import numpy
from numpy.typing import NDArray

from seedpaint import _arrays, _library
from seedpaint.strokes import Stroke

Numbers = NDArray[numpy.int32]  # (of strokes, from 1; 0 is none)

_MOST_NUMBERS = _library.MAX_LEVEL  # (that one growth tells apart)


def by_level(
    image: _arrays.Image, strokes: list[Stroke], level: int, conn: int
) -> Numbers:
    """For each pixel of at least a level the least stroke that reaches it there.

    A pixel below the level has 0.
    """
    numbers = numpy.zeros(image.shape, dtype=numpy.int32)
    for number in range(len(strokes), 0, -1):
        for y, first, last in strokes[number - 1].spans(image.shape):
            numbers[y, first : last + 1] = number
    return _spread(image >= level, numbers, len(strokes), conn)


def by_thresholds(
    image: _arrays.Image, strokes: list[Stroke], thresholds: list[int], conn: int
) -> Numbers:
    """For each pixel the least stroke that keeps it, or 0.

    A stroke keeps what a path leads to from it, on which no value is below its
    threshold. What it keeps lies in regions of the lowest threshold of all, so
    strokes in other ones are looked at in the same round.
    """
    regions = by_level(image, strokes, min(thresholds, default=1), conn)
    result = numpy.zeros(image.shape, dtype=numpy.int32)
    for threshold_of in _rounds(strokes, thresholds, regions):
        limits = threshold_of[regions]
        numbers = _painted_at(limits, strokes, thresholds)
        kept = _spread(image >= limits, numbers, len(strokes), conn)
        better = (kept > 0) & ((result == 0) | (kept < result))
        result[better] = kept[better]
    return result


def thresholds_of(
    mask: _arrays.Cells, strokes: list[Stroke], objects: list[int], share: float
) -> list[int]:
    """The least value that each stroke keeps.

    It is the share of the brightest that its object itself shows. The share
    counts as it is written.
    """
    exact = Fraction(repr(float(share)))  # (so that 0.07 of 100 is 7)
    brightest: dict[int, int] = {}
    for stroke, number in zip(strokes, objects):
        brightest[number] = max(_shown(stroke, mask), brightest.get(number, 0))
    return [max(1, math.ceil(exact * brightest[number])) for number in objects]


def _shown(stroke: Stroke, mask: _arrays.Cells) -> int:
    """The brightest that a stroke itself shows."""
    spans = stroke.spans(mask.shape)
    brightest = max(int(mask[y, first : last + 1].max()) for y, first, last in spans)
    return min(stroke.level, brightest)


def _rounds(
    strokes: list[Stroke], thresholds: list[int], regions: Numbers
) -> Iterator[NDArray[numpy.int32]]:
    """Thresholds of strokes, one for each region in which one is left, round by round.

    Where none is left it is above all levels.
    """
    above_all = _library.MAX_LEVEL + 1
    left: dict[int, set[int]] = {}
    for stroke, threshold in zip(strokes, thresholds):
        for y, first, last in stroke.spans(regions.shape):
            for region in set(regions[y, first : last + 1].tolist()) - {0}:
                left.setdefault(region, set()).add(threshold)
    while left:
        threshold_of = numpy.full(len(strokes) + 1, above_all, dtype=numpy.int32)
        for region, own in left.items():
            threshold_of[region] = own.pop()
        left = {region: own for region, own in left.items() if own}
        yield threshold_of


def _painted_at(
    limits: NDArray[numpy.int32], strokes: list[Stroke], thresholds: list[int]
) -> Numbers:
    """For each pixel the least number of a stroke on it whose threshold is there."""
    numbers = numpy.zeros(limits.shape, dtype=numpy.int32)
    for number in range(len(strokes), 0, -1):
        for y, first, last in strokes[number - 1].spans(limits.shape):
            part = slice(first, last + 1)
            numbers[y, part][limits[y, part] == thresholds[number - 1]] = number
    return numbers


def _spread(kept: NDArray[Any], numbers: Numbers, count: int, conn: int) -> Numbers:
    """For each pixel that is kept the least number in its region, or 0.

    A region is a connected part of what is kept. The greatest value spreads
    through it: so the least number is given the greatest value, for as many
    numbers at once as there are values.
    """
    limits = numpy.where(kept, numpy.uint16(_library.MAX_LEVEL), numpy.uint16(0))
    result = numpy.zeros(kept.shape, dtype=numpy.int32)
    for base in reversed(range(0, count, _MOST_NUMBERS)):
        here = kept & (numbers > base) & (numbers <= base + _MOST_NUMBERS)
        top = base + _MOST_NUMBERS + 1
        grown = _arrays.cells_of(numpy.where(here, top - numbers, 0))
        _library.grow(limits, grown, conn)
        reached = grown > 0
        result[reached] = top - grown[reached].astype(numpy.int32)
    return result
