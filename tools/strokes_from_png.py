#!/usr/bin/env python3
"""Turn what somebody painted into edit lines of Seedpaint.

    python3 tools/strokes_from_png.py painted.png --mask mask.pgm > strokes.txt

The picture is a layer with transparency, whose every colour is a label, or a label image as napari or ImageJ write it,
whose every value but 0 is one: PNG or TIFF. Each label becomes a stroke, or several where it has more than 160 runs.
docs/LABELS.md leads through an example and says what the tags are. A picture that looks like a photograph is refused.
"""

import argparse
import pathlib
import sys

from running import Fault, level_of, run, tell, without

try:
    import numpy
    from skimage import measure
except ModuleNotFoundError as missing:
    without(missing)

from pictures import read_grey, read_painted, same_size
from tags import painted_tag

MOST_RUNS = 160
# A photograph is more than half painted, in many runs of few pixels on average.
PHOTOGRAPH_SHARE, PHOTOGRAPH_RUNS, PHOTOGRAPH_LENGTH = 0.5, 10_000, 4


def runs_of(keys, mask):
    """The runs of equal keys above 0, by key and then from the top.

    Of each: its key, row, first and last column, and the mask's maximum, or 0 where there is no mask.
    """
    height, width = keys.shape
    begins = numpy.ones(keys.shape, dtype=bool)
    begins[:, 1:] = keys[:, 1:] != keys[:, :-1]
    starts = numpy.flatnonzero(begins)
    ends = numpy.append(starts[1:], height * width)
    maxima = numpy.zeros(len(starts), int) if mask is None else numpy.maximum.reduceat(mask.ravel(), starts)
    found = keys.ravel()[starts]
    order = numpy.flatnonzero(found)
    order = order[numpy.argsort(found[order], kind="stable")]
    rows, columns = numpy.divmod(starts[order], width)
    return found[order], rows, columns, columns + (ends - starts)[order] - 1, maxima[order]


def lines_of(name, keys, mask, level):
    """The edit lines of painted keys, a label plus 1 each. The level is this, or the mask's maximum under the label."""
    found, rows, firsts, lasts, maxima = runs_of(keys, mask)
    tell(f"{len(found)} runs")
    edges = numpy.append(numpy.flatnonzero(numpy.diff(found, prepend=-1)), len(found))
    texts = [f"{y}:{first}-{last}" for y, first, last in zip(rows.tolist(), firsts.tolist(), lasts.tolist())]
    for begin, end in zip(edges[:-1].tolist(), edges[1:].tolist()):
        label = int(found[begin]) - 1
        own = level or max(1, int(maxima[begin:end].max()))
        for number, first in enumerate(range(begin, end, MOST_RUNS)):
            runs = ",".join(texts[first:min(first + MOST_RUNS, end)])
            yield f"place {painted_tag(name, label, number)} {own} {runs}\n"


def judge_photograph(name, keys):
    """Refuse a picture whose painted pixels have nearly each another label than the one beside it."""
    painted = numpy.count_nonzero(keys)
    runs = numpy.count_nonzero((keys[:, 1:] != keys[:, :-1]) & (keys[:, 1:] > 0)) + numpy.count_nonzero(keys[:, 0])
    if runs > PHOTOGRAPH_RUNS and painted > PHOTOGRAPH_SHARE * keys.size and painted < PHOTOGRAPH_LENGTH * runs:
        raise Fault(f"{name} looks like a photograph: {100 * painted // keys.size} % of it are painted, in {runs} "
                    f"pieces. Paint on a transparent layer of its own and give that, or add --anyway")


def keys_of(name, threshold, is_apart):
    """For each pixel its label plus 1, or 0 where it is not painted."""
    labels, painted = read_painted(name, threshold)
    if not painted.any():
        raise Fault(f"{name} has no painted pixel")
    keys = numpy.where(painted, labels + 1, 0)
    if not is_apart:
        return keys
    parts = measure.label(keys, background=0, connectivity=2)
    return numpy.where(painted, parts + 1, 0)


def alpha_of(word):
    """An alpha of the command line."""
    if not word.isascii() or not word.isdigit() or int(word) > 254:
        raise argparse.ArgumentTypeError("a threshold is a number from 0 to 254")
    return int(word)


def read_words():
    """What the words of the command line ask for."""
    parser = argparse.ArgumentParser(description="Turn a painted picture into edit lines of Seedpaint.")
    parser.add_argument("painted", help="PNG or TIFF: a layer with transparency, or a label image")
    parser.add_argument("--mask", help="the mask, a PGM, PNG or TIFF: its size is compared, and it gives the levels")
    parser.add_argument("--level", type=level_of, metavar="N", help="give each stroke this level, 1 to 65535")
    parser.add_argument("--threshold", type=alpha_of, default=0, metavar="N",
                        help="painted is where alpha is above N, 0 to 254; 0 where none is named")
    parser.add_argument("--apart", action="store_true",
                        help="make each connected part a label of its own, numbered from the top: for one brush colour")
    parser.add_argument("--anyway", action="store_true", help="take a picture that looks like a photograph, too")
    parser.add_argument("--name", help="the name that the tags are made of; the file's own where none is given")
    words = parser.parse_args()
    if words.mask is None and words.level is None:
        parser.error("give --mask or --level")
    return words


def main():
    """Read the painted picture, write the lines."""
    words = read_words()
    keys = keys_of(words.painted, words.threshold, words.apart)
    tell(f"read {words.painted}")
    if not words.anyway:
        judge_photograph(words.painted, keys)
    mask = None
    if words.mask is not None:
        mask = read_grey(words.mask)
        same_size(words.painted, keys, words.mask, mask)
    name = words.name or pathlib.Path(words.painted).name
    sys.stdout.writelines(lines_of(name, keys, mask, words.level))


if __name__ == "__main__":
    sys.exit(run(main))
