"""Slow answers by the definitions, to compare with, and pictures to ask about."""

import numpy

STEPS = {
    4: [(-1, 0), (0, -1), (0, 1), (1, 0)],
    8: [(y, x) for y in (-1, 0, 1) for x in (-1, 0, 1) if (y, x) != (0, 0)],
}
FOOTPRINTS = {
    4: numpy.array([[0, 1, 0], [1, 1, 1], [0, 1, 0]], dtype=bool),
    8: numpy.ones((3, 3), dtype=bool),
}


def neighbours_most(image, conn, beyond):
    """The greatest value among each pixel and its neighbours."""
    h, w = image.shape
    padded = numpy.pad(image, 1, constant_values=beyond)
    shifted = [padded[1 + y : 1 + y + h, 1 + x : 1 + x + w] for y, x in STEPS[conn]]
    return numpy.maximum.reduce([image, *shifted])


def reconstruction(seed, mask, conn):
    """Dilate and bound, until nothing rises."""
    image = seed.astype(numpy.int64)
    while True:
        risen = numpy.minimum(neighbours_most(image, conn, -1), mask)
        if (risen == image).all():
            return image
        image = risen


def fill(image, conn):
    """The reconstruction by erosion from the border."""
    top = 65535
    border = numpy.zeros(image.shape, dtype=numpy.int64)
    upside = top - image.astype(numpy.int64)
    for edge in (numpy.s_[0, :], numpy.s_[-1, :], numpy.s_[:, 0], numpy.s_[:, -1]):
        border[edge] = upside[edge]
    return top - reconstruction(border, upside, conn)


def h_maxima(image, h, conn):
    """The reconstruction of the image from itself less h."""
    image = image.astype(numpy.int64)
    return reconstruction(numpy.maximum(image - h, 0), image, conn)


def regional_maxima(image, conn):
    """The image less 1 stays below it there, also where that is below 0."""
    image = image.astype(numpy.int64) + 1
    return reconstruction(image - 1, image, conn) < image


def picture(random, most=40):
    """A mask and a seed below it: of few levels or many, with plateaus or without."""
    h, w = random.integers(1, most, 2)
    top = int(random.choice([1, 2, 5, 255, 65535]))
    mask = random.integers(0, top + 1, (h, w))
    if random.random() < 0.4:
        mask = numpy.repeat(numpy.repeat(mask, 3, 0), 3, 1)[:h, :w]
    share = random.choice([0.002, 0.02, 0.5, 1])
    levels = numpy.minimum(mask, random.integers(0, top + 1, (h, w)))
    return mask, numpy.where(random.random((h, w)) < share, levels, 0), top
