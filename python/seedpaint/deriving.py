"""Images that are derived from one image."""

from __future__ import annotations

from typing import Any, SupportsIndex

import numpy
from numpy.typing import ArrayLike, NDArray

from seedpaint import _arrays, _library

__all__ = ["fill_holes", "h_maxima_reconstruction", "regional_maxima"]


def fill_holes(image: ArrayLike, *, connectivity: int | None = None) -> NDArray[Any]:
    """Fill the holes of an image.

    Each pixel becomes the least level at which a path leads from it to the
    border of the image, with no value on the path above that level [1]_. So a
    dark spot that brighter pixels enclose is filled up to the lowest way out.

    Parameters
    ----------
    image : (H, W) array_like of int or bool
        Values are 0 to 65535; H and W are 1 to 16384, H * W at most 2**26.
    connectivity : {1, 2, 4, 8}, optional
        The neighbours along which paths lead: 1 or 4 for an edge, 2 or 8 for
        an edge or a corner. 8 where none is given.

    Returns
    -------
    (H, W) ndarray
        A new image of the same type.

    Raises
    ------
    TypeError
        Where values are neither integers nor booleans.
    ValueError
        Where the shape is not that of an image, a value is below 0 or above
        65535, or connectivity is refused.
    MemoryError
        Where memory is wanting.

    See Also
    --------
    reconstruction : What this does by erosion, from the border of the image.

    Notes
    -----
    The neighbours are those of the ways out. `scipy.ndimage.binary_fill_holes`
    has 4 of them by default.

    References
    ----------
    .. [1] P. Soille, "Morphological Image Analysis", Springer.

    Examples
    --------
    >>> import numpy
    >>> from seedpaint import fill_holes
    >>> ring = numpy.array([[5, 5, 5], [5, 1, 4], [5, 5, 5]], dtype=numpy.uint8)
    >>> fill_holes(ring, connectivity=4)
    array([[5, 5, 5],
           [5, 4, 4],
           [5, 5, 5]], dtype=uint8)
    """
    conn = _arrays.connectivity_of(connectivity)
    image = _arrays.integer_image("image", image)
    cells = _arrays.cells_of(image)
    _library.fill(cells, conn)
    return cells.astype(_arrays.native(image.dtype), copy=False)


def h_maxima_reconstruction(
    image: ArrayLike, h: SupportsIndex, *, connectivity: int | None = None
) -> NDArray[Any]:
    """Cut the domes of an image down: reconstruct it from itself less `h`.

    Each dome loses up to `h` at its top [1]_. No value of the seed falls below
    0.

    Parameters
    ----------
    image : (H, W) array_like of int or bool
        Values are 0 to 65535; H and W are 1 to 16384, H * W at most 2**26.
    h : int
        How much a dome loses, 0 to 65535. With 0 the answer is the image.
    connectivity : {1, 2, 4, 8}, optional
        The neighbours of a pixel: 1 or 4 for an edge, 2 or 8 for an edge or a
        corner. 8 where none is given.

    Returns
    -------
    (H, W) ndarray
        A new image of the same type.

    Raises
    ------
    TypeError
        Where values are neither integers nor booleans, or `h` is no integer.
    ValueError
        Where the shape is not that of an image, a value or `h` is below 0 or
        above 65535, or connectivity is refused.
    MemoryError
        Where memory is wanting.

    See Also
    --------
    regional_maxima : The plateaus that lower pixels surround.

    Notes
    -----
    `skimage.morphology.h_maxima` answers another question: it marks the tops
    of the domes that are at least `h` high. Of integers those are
    ``image - h_maxima_reconstruction(image, h) >= h``, for `h` from 1 up to
    the greatest difference of two values of the image.

    References
    ----------
    .. [1] L. Vincent, "Morphological Grayscale Reconstruction in Image
       Analysis: Applications and Efficient Algorithms", IEEE Transactions on
       Image Processing 2, 1993.

    Examples
    --------
    >>> import numpy
    >>> from seedpaint import h_maxima_reconstruction
    >>> image = numpy.array([[1, 4, 3, 5, 1]], dtype=numpy.uint8)
    >>> h_maxima_reconstruction(image, 2)
    array([[1, 3, 3, 3, 1]], dtype=uint8)
    """
    conn = _arrays.connectivity_of(connectivity)
    height = _arrays.whole_number("h", h, 0, _library.MAX_LEVEL)
    image = _arrays.integer_image("image", image)
    cells = _arrays.cells_of(image)
    _library.hmax(cells, height, conn)
    return cells.astype(_arrays.native(image.dtype), copy=False)


def regional_maxima(
    image: ArrayLike, *, connectivity: int | None = None
) -> NDArray[numpy.bool_]:
    """Mark the regional maxima of an image.

    A regional maximum is a plateau that strictly lower pixels surround [1]_. A
    plateau that is the whole image counts, where
    `skimage.morphology.local_maxima` marks none.

    Parameters
    ----------
    image : (H, W) array_like of int or bool
        Values are 0 to 65535; H and W are 1 to 16384, H * W at most 2**26.
    connectivity : {1, 2, 4, 8}, optional
        The neighbours of a pixel: 1 or 4 for an edge, 2 or 8 for an edge or a
        corner. 8 where none is given.

    Returns
    -------
    (H, W) ndarray of bool
        True on the regional maxima.

    Raises
    ------
    TypeError
        Where values are neither integers nor booleans.
    ValueError
        Where the shape is not that of an image, a value is below 0 or above
        65535, or connectivity is refused.
    MemoryError
        Where memory is wanting.

    See Also
    --------
    h_maxima_reconstruction : Cut down the domes that are lower than a height.

    References
    ----------
    .. [1] L. Vincent, "Morphological Grayscale Reconstruction in Image
       Analysis: Applications and Efficient Algorithms", IEEE Transactions on
       Image Processing 2, 1993.

    Examples
    --------
    >>> import numpy
    >>> from seedpaint import regional_maxima
    >>> image = numpy.array([[1, 4, 3, 5, 1]], dtype=numpy.uint8)
    >>> regional_maxima(image)
    array([[False,  True, False,  True, False]])
    """
    conn = _arrays.connectivity_of(connectivity)
    cells = _arrays.cells_of(_arrays.integer_image("image", image))
    _library.regmax(cells, conn)
    return cells.astype(bool)
