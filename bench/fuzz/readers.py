"""Plain readers of all that Seedpaint reads, written from docs/FORMATS.md to be believed and not to be fast.

`read_image` reads a PGM file, `split_input` cuts an input of `view`, `read_edits` reads edit text, `read_frame` a frame
and `read_state_file` a state file. Each raises `Refused` with the first fault, as it stands behind `seedpaint: ` in the
line of the program: `P6`, `E3 2 S4`, `M5 S1`.
"""

import re
from typing import NamedTuple

WHITE = b" \t\r\n"
LINE_ENDS = b"\r\n"
DIGITS = b"0123456789"
MOST_SIDE, MOST_PIXELS, MOST_LEVEL = 16_384, 2**26, 65_535
MOST_COORDINATE, MOST_RUNS, MOST_RADIUS = 65_535, 160, 255
MOST_FRAME = 1_400  # bytes
FINGERPRINT = 32  # bytes of a SHA-256


class Refused(Exception):
    """A fault, by its code and what stands behind the code."""


class BadStroke(Refused):
    """S1 to S4, S7 and S8: why a stroke is none."""


class Image(NamedTuple):
    """A greyscale image: its samples row by row from the top."""
    width: int
    height: int
    maxval: int
    samples: list


class Run(NamedTuple):
    """Pixels side by side: their row, the first column, and the last."""
    y: int
    x0: int
    x1: int


class Disc(NamedTuple):
    """The pixels whose distance from a centre is at most the radius."""
    x: int
    y: int
    radius: int


class Stroke(NamedTuple):
    """A level, and a tuple of runs or a disc."""
    level: int
    shape: tuple


class State(NamedTuple):
    """Strokes by their tags, and the tombstones: a set of tags. A tag is a number of 128 bits."""
    strokes: dict
    tombstones: frozenset


class Frame(NamedTuple):
    """A state, and the connectivity and the fingerprint of the mask that it is meant for."""
    conn: int
    fingerprint: bytes
    state: State


# ---- PGM files ----

def read_image(data):
    """The image of a PGM file, plain or raw. P1 to P9."""
    magic = data[:2]
    if magic not in (b"P2", b"P5"):
        raise Refused("P1")
    width, place = header_number(data, behind_white_byte(data, 2))
    if width == 0:
        raise Refused("P3")
    if width > MOST_SIDE:
        raise Refused("P4")
    height, place = header_number(data, place)
    if height == 0:
        raise Refused("P3")
    if height > MOST_SIDE or width * height > MOST_PIXELS:
        raise Refused("P4")
    maxval, place = header_number(data, place)
    if maxval == 0 or maxval > MOST_LEVEL:
        raise Refused("P5")
    raster = plain_raster if magic == b"P2" else raw_raster
    return Image(width, height, maxval, raster(data, place, width * height, maxval))


def header_number(data, place):
    """A number of the header behind blanks and comments, and the place behind the whitespace byte that ends it."""
    first = behind_gap(data, place)
    if first == len(data):
        raise Refused("P6")
    if data[first] not in DIGITS:
        raise Refused("P2")
    end = behind_digits(data, first)
    return number(data[first:end]), behind_white_byte(data, end)


def behind_white_byte(data, place):
    """The place behind the whitespace byte that has to stand here in the header."""
    if place == len(data):
        raise Refused("P6")
    if data[place] not in WHITE:
        raise Refused("P2")
    return place + 1


def behind_gap(data, place):
    """The place behind whitespace and comments. A comment that the end cuts off reaches to the end."""
    while place < len(data) and (data[place] in WHITE or data[place] == ord("#")):
        if data[place] == ord("#"):
            while place < len(data) and data[place] not in LINE_ENDS:
                place += 1
        place = min(place + 1, len(data))
    return place


def behind_white(data, place):
    """The place behind whitespace."""
    while place < len(data) and data[place] in WHITE:
        place += 1
    return place


def behind_digits(data, place):
    """The place behind digits."""
    while place < len(data) and data[place] in DIGITS:
        place += 1
    return place


def number(digits):
    """The value of digits. Where it has more than 20 digits it is above all limits, and some such value is given."""
    counting = digits.lstrip(b"0")[:21]
    return int(counting) if counting else 0


def plain_raster(data, place, count, maxval):
    """The samples of a plain raster, to the end of the file."""
    samples = []
    for _ in range(count):
        first = behind_white(data, place)
        if first == len(data):
            raise Refused("P6")
        if data[first] not in DIGITS:
            raise Refused("P8")
        place = behind_digits(data, first)
        value = number(data[first:place])
        if value > maxval:
            raise Refused("P7")
        if place < len(data) and data[place] not in WHITE:
            raise Refused("P8")
        samples.append(value)
    if behind_white(data, place) < len(data):
        raise Refused("P9")
    return samples


def raw_raster(data, place, count, maxval):
    """The samples of a raw raster, to the end of the file."""
    size = 1 if maxval < 256 else 2
    samples = []
    for _ in range(count):
        if place + size > len(data):
            raise Refused("P6")
        value = int.from_bytes(data[place:place + size], "big")
        if value > maxval:
            raise Refused("P7")
        samples.append(value)
        place += size
    if place < len(data):
        raise Refused("P9")
    return samples


# ---- Strokes ----

def judge_level(level):
    """S1."""
    if not 1 <= level <= MOST_LEVEL:
        raise BadStroke("S1")


def judge_count(count):
    """S2 and S3, of a number of runs."""
    if count == 0:
        raise BadStroke("S2")
    if count > MOST_RUNS:
        raise BadStroke("S3")


def judge_run(before, run):
    """S4, of a run behind another one, or behind none."""
    if run.x0 > run.x1:
        raise BadStroke("S4")
    if before is not None and not (run.y > before.y or (run.y == before.y and run.x0 > before.x1 + 1)):
        raise BadStroke("S4")


def judge_radius(radius):
    """S7."""
    if radius > MOST_RADIUS:
        raise BadStroke("S7")


def judge_stroke(stroke):
    """S1; of runs S2, S3 and S4, of a disc S7."""
    judge_level(stroke.level)
    if isinstance(stroke.shape, Disc):
        judge_radius(stroke.shape.radius)
        return
    judge_count(len(stroke.shape))
    for before, run in zip((None, *stroke.shape), stroke.shape):
        judge_run(before, run)


# ---- Edit text ----

FIVE_DIGITS = rb"([0-9]{1,5})"
RUN = re.compile(FIVE_DIGITS + rb":" + FIVE_DIGITS + rb"-" + FIVE_DIGITS)
DISC = re.compile(FIVE_DIGITS + rb":" + FIVE_DIGITS + rb"\+" + FIVE_DIGITS)
HYPHENATED = rb"[0-9a-fA-F]{8}(?:-[0-9a-fA-F]{4}){3}-[0-9a-fA-F]{12}"
TAG = re.compile(rb"[0-9a-fA-F]{32}|%b|\{%b\}|(?i:urn:uuid:)%b" % (HYPHENATED, HYPHENATED, HYPHENATED))


def split_input(data):
    """The edit text and the file of an input: what stands before and behind its first `image` line. V1."""
    place = 0
    while (end := data.find(b"\n", place)) >= 0:
        if data[place:end] in (b"image", b"image\r"):
            return data[:place], data[end + 1:]
        place = end + 1
    raise Refused("V1")


def read_edits(text):
    """The states that the lines of an edit text mean, in order, each of one stroke or of one tombstone. E1 to E3."""
    states = [read_line(n, words_of(line)) for n, line in enumerate(lines_of(text), 1)]
    return [state for state in states if state is not None]


def lines_of(text):
    """The lines, each without its LF and one CR before that. What follows the last LF is no line if it is empty."""
    lines = text.split(b"\n")
    if lines[-1] == b"":
        lines.pop()
    return [line.removesuffix(b"\r") for line in lines]


def words_of(line):
    """The longest runs of bytes other than blank and TAB."""
    return [word for word in line.replace(b"\t", b" ").split(b" ") if word]


def read_line(n, words):
    """The state that line n means by its words, or None where it means nothing."""
    if not words or words[0].startswith(b";"):
        return None
    stroke = spelled_edit(n, words)
    if not TAG.fullmatch(words[1]):
        raise Refused(f"E2 {n}")
    tag = int(words[1].lower().removeprefix(b"urn:uuid:").strip(b"{}").replace(b"-", b""), 16)
    if stroke is None:
        return State({}, frozenset([tag]))
    try:
        judge_stroke(stroke)
    except BadStroke as why:
        raise Refused(f"E3 {n} {why}") from None
    return State({tag: stroke}, frozenset())


def spelled_edit(n, words):
    """The stroke of `place` and `disc`, not judged yet, or None for `withdraw`. E1."""
    if words[0] == b"withdraw" and len(words) == 2:
        return None
    if words[0] not in (b"place", b"disc") or len(words) != 4 or not re.fullmatch(FIVE_DIGITS, words[2]):
        raise Refused(f"E1 {n}")
    shape = spelled_runs(words[3]) if words[0] == b"place" else spelled_disc(words[3])
    if shape is None:
        raise Refused(f"E1 {n}")
    return Stroke(int(words[2]), shape)


def spelled_runs(word):
    """One or more runs with a comma between two, or None."""
    runs = []
    for part in word.split(b","):
        numbers = coordinates(RUN.fullmatch(part))
        if numbers is None:
            return None
        runs.append(Run(*numbers))
    return tuple(runs)


def spelled_disc(word):
    """A disc, or None."""
    numbers = coordinates(DISC.fullmatch(word))
    if numbers is None:
        return None
    y, x, radius = numbers
    return Disc(x, y, radius)


def coordinates(match):
    """The three numbers that were matched, or None where there was no match or one of them is above 65535."""
    numbers = [int(digits) for digits in match.groups()] if match else []
    return numbers if numbers and max(numbers) <= MOST_COORDINATE else None


# ---- Frames ----

class Fields:
    """The fields of a frame, one after another."""

    def __init__(self, data):
        self.data, self.place = data, 0

    def bytes(self, size):
        """The next field of this size. M3 where the bytes end before it does."""
        if self.place + size > len(self.data):
            raise Refused("M3")
        self.place += size
        return self.data[self.place - size:self.place]

    def number(self, size):
        """The next field of this size as a number, its high byte first."""
        return int.from_bytes(self.bytes(size), "big")


def read_frame(data):
    """The frame that the bytes are. M1 to M7."""
    if len(data) > MOST_FRAME:
        raise Refused("M6")
    fields = Fields(data)
    version = read_magic(fields)
    conn = fields.number(1)
    if conn not in (4, 8):
        raise Refused("M2")
    fingerprint = fields.bytes(FINGERPRINT)
    stroke_count, tombstone_count = fields.number(2), fields.number(2)
    strokes, tombstones = {}, []
    last = -1
    for _ in range(stroke_count):
        last = read_tag(fields, last)
        strokes[last] = read_stroke(fields, version)
    last = -1
    for _ in range(tombstone_count):
        last = read_tag(fields, last)
        tombstones.append(last)
    if fields.place < len(data):
        raise Refused("M7")
    return Frame(conn, fingerprint, State(strokes, frozenset(tombstones)))


def read_magic(fields):
    """The version, 1 or 2, of `SPD1` and `SPD2`."""
    for byte in b"SPD":
        if fields.number(1) != byte:
            raise Refused("M1")
    last = fields.bytes(1)
    if last not in (b"1", b"2"):
        raise Refused("M1")
    return int(last)


def read_tag(fields, last):
    """A tag that is above the last one."""
    tag = fields.number(16)
    if tag <= last:
        raise Refused("M4")
    return tag


def read_stroke(fields, version):
    """A stroke behind its tag, judged field by field."""
    try:
        kind = fields.number(1) if version == 2 else 0
        if kind > 1:
            raise BadStroke("S8")
        level = fields.number(2)
        judge_level(level)
        return Stroke(level, read_disc(fields) if kind == 1 else read_runs(fields))
    except BadStroke as why:
        raise Refused(f"M5 {why}") from None


def read_runs(fields):
    """The runs of a stroke."""
    count = fields.number(2)
    judge_count(count)
    runs = []
    for _ in range(count):
        run = Run(fields.number(2), fields.number(2), fields.number(2))
        judge_run(runs[-1] if runs else None, run)
        runs.append(run)
    return tuple(runs)


def read_disc(fields):
    """The disc of a stroke."""
    disc = Disc(fields.number(2), fields.number(2), fields.number(2))
    judge_radius(disc.radius)
    return disc


def read_state_file(data):
    """The frames of a state file, in order. M1 to M7."""
    frames, place = [], 0
    while place < len(data):
        if place + 2 > len(data):
            raise Refused("M3")
        length = int.from_bytes(data[place:place + 2], "big")
        if length > MOST_FRAME:
            raise Refused("M6")
        if place + 2 + length > len(data):
            raise Refused("M3")
        frames.append(read_frame(data[place + 2:place + 2 + length]))
        place += 2 + length
    return frames
