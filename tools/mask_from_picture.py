#!/usr/bin/env python3
"""Turn a picture of your own into a mask of Seedpaint, and say on standard error in one line what was done.

    /usr/bin/python3 tools/mask_from_picture.py mine.png mine.pgm

The picture is a PNG, TIFF, JPEG or PGM. Samples of 8 and 16 bits without sign stay as they are, in a PGM of maxval 255
or 65535. Others need --range. Colours become grey by --grey, and --channel takes one of them alone. --inverse is for
dark objects on light ground. Where it fails nothing is written. docs/PAINT.md begins with it, and has all choices.

It needs Debian's packages python3-numpy, python3-pil and python3-tifffile, and for a PNG of 16 bits with colours or
transparency netpbm, too.
"""

import argparse
import hashlib
import io
import math
import os
import pathlib
import sys

from running import Fault, run, without

try:
    import numpy
    from PIL import Image
except ModuleNotFoundError as missing:
    without(missing)

from channels import COLOURS, read_channels

LUMA = (299, 587, 114)  # thousandths of red, green and blue, ITU-R BT.601
RULES = {"luma": "0.299 red + 0.587 green + 0.114 blue", "mean": "their mean", "max": "the greatest of them",
         "min": "the least of them"}
GROUNDS = ("black", "white", "none")
MOST_PREVIEW_SIDE = 1024
NO_MASK = (".png", ".jpg", ".jpeg", ".tif", ".tiff")
FINGERPRINT = slice(7, 39)  # of the first frame of a state file


# ---- To one channel ----

def grey_of(name, channels, chosen, rule, ground):
    """The one plane that counts, and in words how it came about."""
    planes = channels.planes
    if chosen:
        if chosen not in planes:
            raise Fault(f"{name} has no channel {chosen}: choose one of {', '.join(planes)}")
        return planes[chosen], [f"channel {chosen}"] if len(planes) > 1 else []
    shown = {key: plane for key, plane in planes.items() if key not in ("alpha", "index")}
    words = []
    if "alpha" in planes:
        shown, words = on_ground(name, channels, shown, ground)
    if len(shown) == 1 and "1" not in shown:
        return shown["grey"], words
    if not all(colour in shown for colour in COLOURS):
        raise Fault(f"{name} has {len(shown)} channels without a colour: choose one, by --channel {next(iter(shown))} "
                    f"up to --channel {list(shown)[-1]}")
    colours = [shown[colour] for colour in COLOURS]
    if all(numpy.array_equal(colours[0], other) for other in colours[1:]):
        return colours[0], [*words, "grey, since its colours are equal"]
    left_out = [key for key in shown if key not in COLOURS]
    words += [f"without channel {', '.join(left_out)}"] if left_out else []
    return by_rule(rule, colours), [*words, f"grey by {rule}: {RULES[rule]}"]


def by_rule(rule, colours):
    """Grey of red, green and blue: of whole numbers the nearest one, and of two as near the greater one."""
    if rule in ("max", "min"):
        return getattr(numpy, rule)(colours, axis=0)
    weights = LUMA if rule == "luma" else (1, 1, 1)
    is_whole = colours[0].dtype.kind in "iu"
    total = sum(weight * plane.astype(numpy.int64 if is_whole else numpy.float64)
                for weight, plane in zip(weights, colours))
    if not is_whole:
        return total / sum(weights)
    return ((2 * total + sum(weights)) // (2 * sum(weights))).astype(colours[0].dtype)


def on_ground(name, channels, shown, ground):
    """Planes with alpha, laid on black or white ground, and in words what was done."""
    alpha, top = channels.planes["alpha"], channels.top
    if top is None:
        raise Fault(f"{name} has alpha and no samples of 8 or 16 bits: choose a channel, by --channel "
                    f"{next(iter(shown))}")
    if ground == "none" or alpha.min() == top:
        return shown, [] if ground != "none" else ["alpha left out"]
    if ground is None:
        raise Fault(f"{name} has transparent pixels: lay it on --ground black or --ground white, or leave "
                    f"transparency out by --ground none")
    behind = (top if ground == "white" else 0) * (top - alpha.astype(numpy.int64))
    front = top if channels.is_laid_on_black else alpha.astype(numpy.int64)
    laid = {}
    for key, plane in shown.items():
        both = plane.astype(numpy.int64) * front + behind
        laid[key] = numpy.minimum((2 * both + top) // (2 * top), top).astype(plane.dtype)
    return laid, [f"on {ground} ground"]


# ---- To the values of a mask ----

def in_words(dtype):
    """A dtype in words."""
    sign = {"f": "floats of ", "i": "signed, ", "u": ""}[dtype.kind]
    return f"{sign}{8 * dtype.itemsize} bits"


def in_digits(value):
    """A value in few digits."""
    return f"{value:.6g}" if isinstance(value, (float, numpy.floating)) else str(value)


def without_gaps(name, grey, missing):
    """The plane with a value in the place of each NaN, and in words what was done."""
    gaps = numpy.isnan(grey) if grey.dtype.kind == "f" else None
    if gaps is None or not gaps.any():
        return grey, []
    if missing is None:
        raise Fault(f"{name} has {numpy.count_nonzero(gaps)} pixels without a number (NaN): say by --missing which "
                    f"value they count as")
    return numpy.where(gaps, missing, grey), [f"{numpy.count_nonzero(gaps)} pixels without a number are {missing:g}"]


def ends_of(name, grey, bounds):
    """The two values of a range whose bounds are numbers or percentages of the pixels, which are floats."""
    with numpy.errstate(invalid="ignore"):  # (between infinite values there is no number)
        low, high = (float(numpy.percentile(grey, value)) if is_percentage else value
                     for value, is_percentage in bounds)
    if not low < high or not math.isfinite(high - low):
        raise Fault(f"the range of {name} goes from {low:g} to {high:g}: name one, by --range LOW HIGH, whose ends are "
                    f"finite and whose low end is below the high one")
    return low, high


def stretched(name, grey, bounds, top):
    """The plane brought from a range to 0 up to top, nearest whole numbers, and in words what was done."""
    grey = grey.astype(numpy.float64)
    low, high = ends_of(name, grey, bounds)
    outside = numpy.count_nonzero((grey < low) | (grey > high))
    values = (numpy.clip(grey, low, high) - low) * (top / (high - low))
    words = f"from {low:g} to {high:g} made 0 to {top}"
    if outside:
        words += f", {100 * outside / grey.size:.2g} % of the pixels beyond"
    return numpy.floor(values + 0.5).astype(numpy.uint16), [words]


def mask_of(words):
    """The samples and the maxval of the mask that the words ask for, and in words how it was made."""
    name = words.picture
    channels = read_channels(name, words.page)
    grey, steps = grey_of(name, channels, words.channel, words.grey, words.ground)
    top = channels.top
    kind = f"{channels.kind}, {grey.shape[1]} by {grey.shape[0]}, {in_words(channels.dtype)}"
    page = [f"page {words.page}"] if words.page else []
    grey, gaps = without_gaps(name, grey, words.missing)
    if top is None and words.range is None:
        raise Fault(f"{name} has samples of this kind: {in_words(channels.dtype)}, from {in_digits(grey.min())} to "
                    f"{in_digits(grey.max())}. Say by --range LOW HIGH which become black and white, as by "
                    f"--range 0% 100% the least and the greatest")
    steps = [*channels.notes, *steps, *gaps]
    if words.range is not None:
        top = top or 65535
        grey, done = stretched(name, grey, words.range, top)
        steps += done
    if words.inverse:
        grey = top - grey
        steps.append("inverse")
    return grey, top, "; ".join([f"{name} ({', '.join([kind, *page])})", *steps])


# ---- Writing ----

def pgm_of(grey, top):
    """The raw PGM file of samples up to top, as Seedpaint itself spells it."""
    head = f"P5\n{grey.shape[1]} {grey.shape[0]}\n{top}\n".encode()
    return head + grey.astype(">u2" if top > 255 else numpy.uint8).tobytes()


def preview_of(grey, top):
    """A PNG of 8 bits with no side above 1024 pixels; of 16 bits the highest sample is white."""
    white = top if top < 256 else max(1, int(grey.max()))
    picture = Image.fromarray((grey.astype(numpy.uint32) * 255 // white).astype(numpy.uint8))
    picture.thumbnail((MOST_PREVIEW_SIDE, MOST_PREVIEW_SIDE), Image.Resampling.BOX)
    data = io.BytesIO()
    picture.save(data, format="PNG")
    return data.getvalue()


def judge_targets(words):
    """Refuse names under which the files would do harm."""
    targets = [pathlib.Path(target) for target in (words.mask, words.preview) if target]
    if targets[0].suffix.lower() in NO_MASK:
        raise Fault(f"{words.mask} is to be a PGM file, whatever its name: call it {targets[0].with_suffix('.pgm')}")
    resolved = [path.resolve() for path in (pathlib.Path(words.picture), *targets)]
    if len(set(resolved)) < len(resolved):
        raise Fault("picture, mask and preview need names of their own: give another one")
    for target in targets:
        if target.exists() and not target.is_file():
            raise Fault(f"{target} is no file, so none is put in its place: give the name of a file")


def judge_state(mask, data):
    """Refuse a mask beside which there is a state file for another one."""
    state = pathlib.Path(f"{mask}.spd")
    kept = state.read_bytes() if state.is_file() else b""
    if kept and kept[FINGERPRINT] != hashlib.sha256(data).digest():
        raise Fault(f"{state} has strokes for another mask than this one: give this mask another name, or move that "
                    f"file away")


def write_all(files):
    """Write these bytes under these names, all of them or none: first beside each, and then in its place.

    Of a link that is done where it leads to.
    """
    beside = {name: f"{os.path.realpath(name)}.{os.getpid()}.new" for name in files}
    try:
        for name, data in files.items():
            pathlib.Path(beside[name]).write_bytes(data)
        for name in files:
            os.replace(beside[name], os.path.realpath(name))
    except OSError as why:
        raise Fault(f"{', '.join(files)} cannot be written ({why.strerror}): name a folder that is there, in which you "
                    f"may write") from None
    finally:
        for name in beside.values():
            pathlib.Path(name).unlink(missing_ok=True)


# ---- Words ----

def bound_of(word):
    """An end of a range: a number, or a percentage of the pixels; and which of both."""
    try:
        value = float(word.removesuffix("%"))
    except ValueError:
        value = math.nan
    is_percentage = word.endswith("%")
    if not math.isfinite(value) or (is_percentage and not 0 <= value <= 100):
        raise argparse.ArgumentTypeError("an end of a range is a number, or a percentage from 0% to 100%")
    return value, is_percentage


def value_of(word):
    """A finite number of the command line."""
    value = float(word)
    if not math.isfinite(value):
        raise argparse.ArgumentTypeError("a value is a finite number")
    return value


def page_number(word):
    """A page of the command line."""
    if not word.isascii() or not word.isdigit() or int(word) == 0:
        raise argparse.ArgumentTypeError("pages are counted from 1")
    return int(word)


def read_words():
    """What the words of the command line ask for."""
    parser = argparse.ArgumentParser(description="Turn a picture of your own into a mask of Seedpaint.")
    parser.add_argument("picture", help="a PNG, TIFF, JPEG or PGM")
    parser.add_argument("mask", help="the PGM file to write")
    one = parser.add_mutually_exclusive_group()
    one.add_argument("--grey", choices=RULES, default="luma", help="how colours become grey; luma where none is named")
    one.add_argument("--channel", metavar="NAME",
                     help="take this channel alone: red, green, blue, alpha, index (into a palette), or its number")
    parser.add_argument("--ground", choices=GROUNDS, help="what is behind transparent pixels; none leaves alpha out")
    parser.add_argument("--page", type=page_number, metavar="N", help="the page of a TIFF with several, from 1")
    parser.add_argument("--range", type=bound_of, nargs=2, metavar=("LOW", "HIGH"),
                        help="make these values black and white, and all between in proportion; each is a number, or "
                             "a percentage of the pixels, as 0%% 99.9%%")
    parser.add_argument("--missing", type=value_of, metavar="VALUE",
                        help="what a pixel without a number (NaN) counts as")
    parser.add_argument("--inverse", action="store_true", help="make bright dark: for dark objects on light ground")
    parser.add_argument("--preview", metavar="PNG", help="write a small picture of the mask, to look at")
    return parser.parse_args()


def main():
    """Read the picture, write the mask and the preview, say what was done."""
    words = read_words()
    judge_targets(words)
    grey, top, done = mask_of(words)
    files = {words.mask: pgm_of(grey, top)}
    judge_state(words.mask, files[words.mask])
    if words.preview:
        files[words.preview] = preview_of(grey, top)
    write_all(files)
    preview = f"; preview {words.preview}" if words.preview else ""
    values = f"maxval {top}, values {grey.min()} to {grey.max()}"
    print(f"mask_from_picture.py: {done}; mask {words.mask}: {values}{preview}", file=sys.stderr)


if __name__ == "__main__":
    sys.exit(run(main))
