"""Morphological reconstruction."""

from __future__ import annotations

from typing import Any, Literal

import numpy
from numpy.typing import ArrayLike, NDArray

from seedpaint import _arrays, _library

__all__ = ["reconstruction"]


def reconstruction(
    seed: ArrayLike,
    mask: ArrayLike,
    method: Literal["dilation", "erosion"] = "dilation",
    footprint: ArrayLike | None = None,
    *,
    connectivity: int | None = None,
    out: NDArray[Any] | None = None,
) -> NDArray[Any]:
    """Reconstruct an image from a seed, by dilation or by erosion.

    The values of `seed` spread from pixel to neighbouring pixel, as far as
    `mask` lets them: by dilation they rise, up to the mask; by erosion they
    fall, down to it.

    Parameters
    ----------
    seed : (H, W) array_like of int or bool
        What spreads. By dilation it is at most the mask everywhere, by erosion
        at least. Values are 0 to 65535, whatever the type; H and W are 1 to
        16384, and H * W is at most 2**26.
    mask : (H, W) array_like of int or bool
        What bounds it.
    method : {'dilation', 'erosion'}, optional
        Whether values rise or fall.
    footprint : (3, 3) array_like, optional
        The neighbours of a pixel: the cross, or the square. No other one is
        taken.
    connectivity : {1, 2, 4, 8}, optional
        The neighbours by a number: 1 or 4 for the four that share an edge, 2
        or 8 for the eight that share an edge or a corner. Where neither this
        nor a footprint is given there are 8, as in scikit-image. (The program
        `seedpaint` has 4.)
    out : (H, W) ndarray, optional
        Where the result goes, of the result's type. It may be `seed`: where
        that is C-contiguous and of `uint16`, it is grown where it stands, with
        no copy. After an error it is as it was.

    Returns
    -------
    (H, W) ndarray
        The reconstruction: `out` where one is given, else a new array. Its
        type is that of seed and mask, or the one that numpy gives both, or
        int64 where that is no integer type.

    Raises
    ------
    TypeError
        Where values are neither integers nor booleans: of floats the message
        says what to do.
    ValueError
        Where shapes differ or are not those of an image, a value is below 0 or
        above 65535, the seed passes the mask somewhere, or method, footprint,
        connectivity or out is refused.
    MemoryError
        Where memory is wanting.

    See Also
    --------
    fill_holes : Reconstruction by erosion from the border.
    h_maxima_reconstruction : Reconstruction of an image from itself less a
        height.
    seed_from_labels : A seed that a label image paints.

    Notes
    -----
    The definition is Vincent's [1]_: by dilation the value at a pixel is the
    greatest level at which a path leads to it from a pixel of the seed of at
    least that level, with no value of the mask below it on the path. That the
    library answers this is proved.

    The interpreter's lock is released while the library runs. While a call
    runs nobody may write its arrays, nor touch `out`.

    References
    ----------
    .. [1] L. Vincent, "Morphological Grayscale Reconstruction in Image
       Analysis: Applications and Efficient Algorithms", IEEE Transactions on
       Image Processing 2, 1993.

    Examples
    --------
    >>> import numpy
    >>> from seedpaint import reconstruction
    >>> mask = numpy.array([[3, 5, 2, 5, 4]], dtype=numpy.uint8)
    >>> seed = numpy.array([[0, 5, 0, 0, 0]], dtype=numpy.uint8)
    >>> reconstruction(seed, mask)
    array([[3, 5, 2, 2, 2]], dtype=uint8)
    """
    if method not in ("dilation", "erosion"):
        raise ValueError(f"method is {method!r}, and it is 'dilation' or 'erosion'")
    conn = _arrays.connectivity_of(connectivity, footprint)
    seed = _arrays.integer_image("seed", seed)
    mask = _arrays.integer_image("mask", mask)
    if seed.shape != mask.shape:
        raise ValueError(f"seed has the shape {seed.shape}, and mask {mask.shape}")
    kind = _arrays.kind_of_both(seed, mask)
    if out is not None:
        _check_out(out, seed.shape, kind)
    try:
        if out is not None and method == "dilation" and _is_in_place(out, seed, mask):
            _library.grow(_arrays.cells_over(mask), out, conn)
            return out
        grown = _grown(seed, mask, method, conn)
    except _library.AboveMask:
        raise ValueError(_where_it_passes(seed, mask, method)) from None
    if out is None:
        return grown.astype(kind, copy=False)
    out[...] = grown
    return out


def _grown(
    seed: _arrays.Image, mask: _arrays.Image, method: str, conn: int
) -> _arrays.Cells:
    """New cells, grown from the seed."""
    grown, limits = _arrays.cells_of(seed), _arrays.cells_over(mask)
    if method == "dilation":
        _library.grow(limits, grown, conn)
        return grown
    numpy.invert(grown, out=grown)
    _library.grow(~limits, grown, conn)
    return numpy.invert(grown, out=grown)


def _is_in_place(out: _arrays.Image, seed: _arrays.Image, mask: _arrays.Image) -> bool:
    """Whether `out` is the seed's memory, and the library can grow it there."""
    return (
        _arrays.is_fit(out)
        and _arrays.is_fit(seed)
        and out.ctypes.data == seed.ctypes.data
        and not numpy.may_share_memory(out, mask)
    )


def _check_out(out: NDArray[Any], shape: _arrays.Shape, kind: numpy.dtype[Any]) -> None:
    """Refuse what the result does not go into."""
    if not isinstance(out, numpy.ndarray):
        raise TypeError(f"out is a {type(out).__name__}, and not a numpy array")
    if out.shape != shape:
        raise ValueError(f"out has the shape {out.shape}, and the result {shape}")
    if _arrays.native(out.dtype) != kind:
        raise ValueError(f"out has the type {out.dtype}, and the result {kind}")
    if not out.flags.writeable:
        raise ValueError("out is read-only")


def _where_it_passes(seed: _arrays.Image, mask: _arrays.Image, method: str) -> str:
    """A sentence about the first pixel at which the seed passes the mask."""
    passes = seed > mask if method == "dilation" else seed < mask
    y, x = (int(n) for n in numpy.unravel_index(numpy.argmax(passes), seed.shape))
    words = ("above", "most") if method == "dilation" else ("below", "least")
    return (
        f"seed is {words[0]} mask in row {y}, column {x}: {seed[y, x]} there, and mask "
        f"{mask[y, x]}; for reconstruction by {method} it is at {words[1]} the mask "
        "everywhere"
    )
