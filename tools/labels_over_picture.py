#!/usr/bin/env python3
"""Show labels, or a painted layer, over a grey picture.

    python3 tools/labels_over_picture.py cells.png labels.tif seen.png --scale 2

Each label has a colour of its own, with a bright rim; a layer with transparency keeps its colours.
"""

import argparse
import pathlib
import sys

from running import run, without

try:
    import numpy
    from PIL import Image
    from skimage import segmentation
except ModuleNotFoundError as missing:
    without(missing)

from pictures import read_grey, read_picture, same_size, whole_numbers

TURN = 0.618034  # of the circle of hues, from one label to the next
SHARE = 0.45  # of a label's colour within it


def colours_of(labels):
    """A colour for each label: hues far from each other, one after another."""
    wheel = labels[:, :, None] * TURN * 6 + numpy.array([0, 4, 2])
    return 255 * numpy.clip(numpy.abs(wheel % 6 - 3) - 1, 0, 1)


def labels_over(grey, labels):
    """A picture with the colours of labels over it."""
    rim = labels * segmentation.find_boundaries(labels, mode="inner") > 0
    strength = numpy.where(rim, 1, numpy.where(labels > 0, SHARE, 0))[:, :, None]
    return (grey[:, :, None] * (1 - strength) + colours_of(labels) * strength).astype(numpy.uint8)


def layer_over(grey, layer):
    """A picture with a layer over it whose last channel is alpha."""
    colours, alpha = layer[:, :, :-1], layer[:, :, -1:] / 255
    return (grey[:, :, None] * (1 - alpha) + colours * alpha).astype(numpy.uint8)


def read_words():
    """What the words of the command line ask for."""
    parser = argparse.ArgumentParser(description="Show labels over a grey picture.")
    parser.add_argument("picture", help="a grey PGM, PNG or TIFF; its brightest sample is shown as white")
    parser.add_argument("labels", help="a label image, or a layer with transparency of 8 bits: PNG or TIFF")
    parser.add_argument("target", help="PNG file to write")
    parser.add_argument("--scale", type=int, choices=range(1, 9), default=1, metavar="N",
                        help="draw each pixel as a square of N by N, 1 to 8")
    return parser.parse_args()


def main():
    """Read picture and labels, write what is seen."""
    words = read_words()
    picture = read_grey(words.picture)
    over, has_alpha, _ = read_picture(words.labels, pathlib.Path(words.labels).read_bytes())
    same_size(words.labels, over[:, :, 0] if over.ndim == 3 else over, words.picture, picture)
    grey = picture * (255 / max(1, picture.max()))
    seen = layer_over(grey, over) if has_alpha else labels_over(grey, whole_numbers(words.labels, over))
    Image.fromarray(seen.repeat(words.scale, axis=0).repeat(words.scale, axis=1)).save(words.target, format="PNG")


if __name__ == "__main__":
    sys.exit(run(main))
