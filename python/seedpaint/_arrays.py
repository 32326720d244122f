"""Arrays of the caller, as cells of 16 bits and back."""

from __future__ import annotations

import operator
from typing import Any, SupportsIndex

import numpy
from numpy.typing import ArrayLike, NDArray

from seedpaint import _library

Image = NDArray[Any]  # (of integers or booleans, with two dimensions)
Cells = NDArray[numpy.uint16]
Shape = tuple[int, ...]  # (rows and columns)

_CONNECTIVITIES = {1: 4, 2: 8, 4: 4, 8: 8}
_CROSS = numpy.array([[0, 1, 0], [1, 1, 1], [0, 1, 0]], dtype=bool)

# What to do with other dimensions, by their number.
_ADVICE = {
    0: "",
    1: ": pass {}[None]",
    3: ": planes are grown one by one, and nothing spreads between them",
}


# ---- What is taken, and what is refused ----


def integer_image(name: str, image: ArrayLike) -> Image:
    """The image as an array, once its kind, shape and values are found fit.

    Raises
    ------
    TypeError
        Where its values are neither integers nor booleans.
    ValueError
        Where it is not 2-D, has a side of 0 or too many pixels, or a value
        below 0 or above 65535.
    """
    image = numpy.asarray(image)
    _check_kind(name, image)
    check_shape(name, image)
    if image.dtype.kind == "i" or image.dtype.itemsize > 2:
        _check_range(name, image)
    return image


def _check_kind(name: str, image: Image) -> None:
    """Refuse what has neither integers nor booleans."""
    if image.dtype.kind == "f":
        raise TypeError(
            f"{name} has floats, and levels are integers from 0 to 65535: scale it, as "
            "by numpy.rint(image * 65535).astype(numpy.uint16) where it is from 0 to "
            "1, or take the ranks of its values, as the package's README shows"
        )
    if image.dtype.kind not in "biu":
        raise TypeError(
            f"{name} has values of type {image.dtype}, and levels are integers"
        )


def check_shape(name: str, image: Image) -> None:
    """Refuse shapes that no image has."""
    shape = image.shape
    if len(shape) != 2:
        advice = _ADVICE[min(len(shape), 3)].format(name)
        raise ValueError(
            f"{name} has the shape {shape}, and an image has 2 dimensions{advice}"
        )
    if image.size == 0:
        raise ValueError(f"{name} has the shape {shape}, so it has no pixel")
    if max(shape) > _library.MAX_SIDE or image.size > _library.MAX_PIXELS:
        raise ValueError(
            f"{name} has the shape {shape}, and an image has sides up to 16384 and at "
            "most 2**26 pixels: a larger one is grown in chunks, as the package's "
            "README says"
        )


def _check_range(name: str, image: Image) -> None:
    """Refuse values that are no levels."""
    least, greatest = int(image.min()), int(image.max())
    if least < 0 or greatest > _library.MAX_LEVEL:
        value = least if least < 0 else greatest
        raise ValueError(f"{name} has the value {value}, and levels are 0 to 65535")


def whole_number(name: str, value: SupportsIndex, least: int, most: int) -> int:
    """A number of the caller's, once it is found to be whole and within bounds."""
    try:
        number = operator.index(value)
    except TypeError:
        raise TypeError(f"{name} is {value!r}, and it is an integer") from None
    if not least <= number <= most:
        raise ValueError(f"{name} is {number}, and it is from {least} to {most}")
    return number


# ---- Cells ----


def cells_of(image: Image) -> Cells:
    """New cells of 16 bits with the values of an image: contiguous and aligned."""
    return numpy.array(image, dtype=numpy.uint16, order="C")


def cells_over(image: Image) -> Cells:
    """The image itself where it is fit to be read as cells, else new ones."""
    return image if is_fit(image) else cells_of(image)


def is_fit(image: Image) -> bool:
    """Whether the library can read the memory of an image as it is."""
    flags = image.flags
    return image.dtype == numpy.uint16 and flags.c_contiguous and flags.aligned


def kind_of_both(one: Image, other: Image) -> numpy.dtype[Any]:
    """The type that numpy gives both; of 64 bits where it knows none of integers."""
    kind = numpy.result_type(one.dtype, other.dtype)
    return numpy.dtype(numpy.int64) if kind.kind == "f" else native(kind)


def native(kind: numpy.dtype[Any]) -> numpy.dtype[Any]:
    """The type with the bytes of a number in this machine's order."""
    return kind.newbyteorder("=")


# ---- Neighbours ----


def connectivity_of(
    connectivity: int | None, footprint: ArrayLike | None = None
) -> int:
    """4 or 8, by a number or by a footprint; 8 where there is neither.

    Raises
    ------
    ValueError
        Where the number is none of 1, 2, 4 and 8, the footprint is neither the
        cross nor the square of 3 by 3, or they do not agree.
    """
    by_number = None if connectivity is None else of_number(connectivity)
    by_footprint = None if footprint is None else _of_footprint(footprint)
    if by_number and by_footprint and by_number != by_footprint:
        raise ValueError("footprint and connectivity do not agree: pass one of them")
    return by_number or by_footprint or 8


def of_number(connectivity: int) -> int:
    """4 or 8, by a number."""
    try:
        return _CONNECTIVITIES[connectivity]
    except (KeyError, TypeError):
        raise ValueError(
            f"connectivity is {connectivity!r}, and it is 1 or 4 for pixels that share "
            "an edge, 2 or 8 for an edge or a corner"
        ) from None


def _of_footprint(footprint: ArrayLike) -> int:
    """4 or 8, by a footprint; whether it has its centre is all the same."""
    inside = numpy.array(footprint).astype(bool)
    if inside.shape == (3, 3):
        inside[1, 1] = True
        if inside.all():
            return 8
        if (inside == _CROSS).all():
            return 4
    raise ValueError(
        f"a footprint of shape {inside.shape} is neither the cross nor the square of "
        "3 by 3, and there is no growth by another one"
    )
