#!/usr/bin/env python3
"""Turn the result of Seedpaint into a label image, and a table of the labels.

    python3 tools/labels_from_result.py result.pgm labels.tif --mask mask.pgm --strokes strokes.txt --share 0.5 \\
        --table labels.csv

A region is a connected part of what is kept: the pixels of at least a level, or those of at least a share of what the
object that lights them shows at its brightest. It has the number of its object: a stroke, a gesture on the page with
all its strokes, or a painted label. docs/LABELS.md leads through an example, and says what happens where several meet.
"""

import argparse
import csv
import pathlib
import sys
from decimal import ROUND_HALF_UP, Decimal

from running import Fault, level_of, run, tell, without

try:
    import numpy
    from scipy import ndimage
    from skimage import measure, segmentation
except ModuleNotFoundError as missing:
    without(missing)

from pictures import read_grey, same_size, write_labels
from strokes import read_live_strokes, seeds_of
from tags import class_of, is_painted, painted_label, picture_bits

NOBODY = -1
MOST_SAMPLE = 65535
COLUMNS = ["label", "stroke", "area", "left", "top", "right", "bottom", "mean", "class", "name", "strokes", "x", "y",
           "min", "max"]


def parts_of(kept, conn):
    """The connected parts of a set of pixels, numbered from 1; 0 elsewhere."""
    return measure.label(kept, connectivity=1 if conn == 4 else 2)


def flooded(values, kept, places, owners, conn):
    """The owner of each kept pixel: who reaches it first, where the pixels are taken from the greatest value down.

    Of equal ones who was reached first is taken first, and the seeds at these places before all of them, from the least
    owner on. So no order of neighbours counts, and none of the seeds of one owner. Parts with seeds of one owner alone
    need no flood.
    """
    parts = parts_of(kept, conn)
    least, greatest = ends_of_owners(parts, places, owners)
    shared = (least < greatest)[parts]
    result = least[parts]
    if shared.any():
        tell("parts with several objects are flooded")
        markers = numpy.zeros(kept.shape, dtype=numpy.int32)
        markers.ravel()[places[::-1]] = owners[::-1] + 1
        relief = -values.astype(numpy.float64)
        relief -= numpy.where(markers > 0, 0.5 - markers / (2 * (owners.max() + 2)), 0)
        basins = segmentation.watershed(relief, markers * shared, connectivity=1 if conn == 4 else 2, mask=shared)
        result[shared] = basins[shared] - 1
    return result


def ends_of_owners(parts, places, owners):
    """The least and the greatest owner of the seeds in each part; the places rise by owner. NOBODY without seeds."""
    least = numpy.full(parts.max() + 1, NOBODY)
    greatest = least.copy()
    met = parts.ravel()[places]
    least[met[::-1]] = owners[::-1]
    greatest[met] = owners
    least[0] = greatest[0] = NOBODY
    return least, greatest


def kept_by_share(result, seeds, light, share, conn):
    """The pixels whose result is at least a share of the brightest light of the object that lights them."""
    own = numpy.zeros(len(seeds.tags), dtype=numpy.int64)
    numpy.maximum.at(own, seeds.owners, light)
    thresholds = numpy.maximum(share * own, 1)
    floor = result >= thresholds.min()
    lit = (light == result.ravel()[seeds.places]) & floor.ravel()[seeds.places]
    owners = flooded(result, floor, seeds.places[lit], seeds.owners[lit], conn)
    return floor & (result >= numpy.append(thresholds, 1)[owners])


def owners_of(kept, seeds, conn, is_split):
    """The object of each kept pixel: that with the least tag in its region, or the nearest in it. NOBODY elsewhere."""
    inside = kept.ravel()[seeds.places]
    places, owners = seeds.places[inside], seeds.owners[inside]
    parts = parts_of(kept, conn)
    least, _ = ends_of_owners(parts, places, owners)
    lonely = numpy.flatnonzero(least[1:] == NOBODY)
    if len(lonely):
        y, x = numpy.argwhere(parts == lonely[0] + 1)[0]
        raise Fault(f"the region at row {y}, column {x} has no stroke of these, with {conn} neighbours")
    if is_split:
        return flooded(numpy.zeros(kept.shape, dtype=numpy.uint8), kept, places, owners, conn)
    return least[parts]


def numbers_of(tags, has_painted):
    """The label of each object: its place in the order of tags, from 1, or the label that it was painted with."""
    if not has_painted:
        return numpy.arange(1, len(tags) + 1)
    if not all(map(is_painted, tags)) or len({picture_bits(tag) for tag in tags}) > 1:
        raise Fault("--painted needs strokes that strokes_from_png.py made of one picture")
    if painted_label(tags[0]) == 0:
        raise Fault("a stroke was painted in black, which is 0 and the ground of a label image: leave --painted out")
    return numpy.array([painted_label(tag) for tag in tags])


def judge(result, mask, seeds, light, names):
    """Refuse a result that these strokes cannot have on this mask."""
    if (result > mask).any():
        y, x = numpy.argwhere(result > mask)[0]
        raise Fault(f"{names.result} is above {names.mask} at row {y}, column {x}: it is no result on this mask")
    dark = seeds.places[result.ravel()[seeds.places] < light]
    if len(dark):
        y, x = divmod(int(dark[0]), mask.shape[1])
        raise Fault(f"{names.result} is below a stroke at row {y}, column {x}: it is no result of these strokes")


def rows_of(owners, mask, seeds, numbers, names):
    """The rows of the table, by label."""
    boxes, inside = ndimage.find_objects(owners + 1), owners >= 0
    met, samples = owners[inside], mask[inside]
    y, x = numpy.nonzero(inside)
    areas = numpy.bincount(met)
    sums = {name: numpy.bincount(met, weights=values) for name, values in (("x", x), ("y", y), ("mean", samples))}
    least, greatest = numpy.full(len(areas), MOST_SAMPLE), numpy.zeros(len(areas), dtype=mask.dtype)
    numpy.minimum.at(least, met, samples)
    numpy.maximum.at(greatest, met, samples)
    for owner in numpy.flatnonzero(areas):
        rows, columns = boxes[owner]
        means = {name: shown(sums[name][owner] / areas[owner]) for name in sums}
        in_class = class_of(seeds.tags[owner])
        yield [numbers[owner], seeds.tags[owner], areas[owner], columns.start, rows.start, columns.stop - 1,
               rows.stop - 1, means["mean"], in_class, names.get(in_class, ""), seeds.strokes[owner], means["x"],
               means["y"], least[owner], greatest[owner]]


def shown(mean):
    """A mean with three decimals; what is in the middle is rounded up, as the page does."""
    return Decimal(float(mean)).quantize(Decimal("0.001"), ROUND_HALF_UP)


def write_table(name, rows):
    """Write the rows as comma-separated values, RFC 4180, with LF."""
    with open(name, "w", newline="", encoding="utf-8") as file:
        table = csv.writer(file, lineterminator="\n")
        table.writerow(COLUMNS)
        table.writerows(rows)


def read_names(name):
    """The names of classes: lines with a number, a blank and a name."""
    names = {}
    for line in pathlib.Path(name).read_text(encoding="utf-8").splitlines():
        number, _, called = line.strip().partition(" ")
        if not number:
            continue
        if not number.isascii() or not number.isdigit() or not 1 <= int(number) <= 255 or not called.strip():
            raise Fault(f"{name}: {line!r} is no class, 1 to 255, with a name")
        names[int(number)] = called.strip()
    return names


def share_of(word):
    """A share of the command line."""
    try:
        share = float(word)
    except ValueError:
        share = 0
    if not 0 < share <= 1:
        raise argparse.ArgumentTypeError("a share is above 0 and at most 1")
    return share


def read_words():
    """What the words of the command line ask for."""
    parser = argparse.ArgumentParser(description="Turn a result of Seedpaint into a label image.")
    parser.add_argument("result", help="what seedpaint view wrote, a PGM (or a PNG or TIFF of it)")
    parser.add_argument("labels", help="the label image to write: PNG where the name ends with .png, else TIFF")
    parser.add_argument("--mask", required=True, help="the mask, a PGM, PNG or TIFF")
    parser.add_argument("--strokes", required=True, help="edit lines, an input of the program, or a state file")
    kept = parser.add_mutually_exclusive_group(required=True)
    kept.add_argument("--level", type=level_of, metavar="N", help="keep the pixels of at least this level, 1 to 65535")
    kept.add_argument("--share", type=share_of, metavar="S",
                      help="keep the pixels of at least this share of the brightest of their object, as 0.5")
    parser.add_argument("--conn", type=int, choices=(4, 8), default=4,
                        help="neighbours of a pixel, as for the result; 4 where none is named")
    parser.add_argument("--split", action="store_true",
                        help="where several objects meet in a region, give each pixel to the nearest of them")
    parser.add_argument("--painted", action="store_true",
                        help="number the regions by the labels that the strokes were painted with")
    parser.add_argument("--table", metavar="CSV",
                        help="write label, stroke, area, box, class and measures of the mask as a table")
    parser.add_argument("--names", metavar="FILE",
                        help="names of the classes for the table: lines as `2 nuclei`")
    return parser.parse_args()


def main():
    """Read result, mask and strokes; write the label image, and the table."""
    words = read_words()
    result, mask = (read_grey(name).astype(numpy.int32) for name in (words.result, words.mask))
    same_size(words.result, result, words.mask, mask)
    strokes = read_live_strokes(words.strokes)
    seeds = seeds_of(strokes, result.shape[1], result.shape[0])
    light = numpy.minimum(seeds.levels, mask.ravel()[seeds.places])
    judge(result, mask, seeds, light, words)
    tell(f"{len(strokes)} live strokes on {result.shape[1]} by {result.shape[0]} pixels")
    kept = result >= words.level if words.level else kept_by_share(result, seeds, light, words.share, words.conn)
    if not kept.any():
        raise Fault(f"{words.result} has no pixel at that level: no region")
    owners = owners_of(kept, seeds, words.conn, words.split)
    tell("regions have their strokes")
    numbers = numbers_of(seeds.tags, words.painted)
    write_labels(words.labels, numpy.append(numbers, 0)[owners])
    if words.table:
        names = read_names(words.names) if words.names else {}
        write_table(words.table, rows_of(owners, mask, seeds, numbers, names))


if __name__ == "__main__":
    sys.exit(run(main))
