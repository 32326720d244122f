"""Random inputs for Seedpaint: images, edit lines and frames, good ones and ones with slips, and mutated bytes.

Each function takes `chance`, a `random.Random`, first: the same seed makes the same inputs.
"""

import re

from readers import Disc, Image, MOST_LEVEL, MOST_RUNS, Run, State, Stroke
from simulator import EMPTY, frame_bytes, join, raw_file, state_file, stroke_bytes, tag_text, with_length

TOPS = [1, 2, 9, 99, 254, 255, 256, 257, 4095, 65534, 65535]
LIMITS = [b"0", b"1", b"00", b"2", b"9", b"10", b"160", b"161", b"254", b"255", b"256", b"257", b"4096", b"4097",
          b"8192", b"16383", b"16384", b"16385", b"32767", b"65534", b"65535", b"65536", b"99999", b"00001", b"000001",
          b"100000", b"4294967295", b"4294967296", b"18446744073709551616", b"9" * 40, b"0" * 40 + b"1"]
SPECIAL = b" \t\r\n#;,:-+{}09aAfFgGimagePSD\x00\x01\x02\x04\x08\x0b\x0c\x7f\x80\xff"
GAPS = [b" ", b"\n", b"\t", b"\r", b"\r\n", b"  ", b" \n", b"\n\n", b"\t \r\n "]
COMMENTS = [b"#\n", b"# a comment\n", b"#\r", b"# 1 2 3\r\n", b"##\xff\x00 #\n", b"#\n#\n", b"#P5\n"]


# ---- Images ----

def sides(chance):
    """Width and height: mostly small, sometimes long and narrow, sometimes more than one tile of 8."""
    kind = chance.random()
    if kind < 0.6:
        return chance.randint(1, 9), chance.randint(1, 9)
    if kind < 0.75:
        long = [chance.randint(1, 3), chance.randint(1, 200)]
        chance.shuffle(long)
        return tuple(long)
    return chance.randint(1, 34), chance.randint(1, 34)


def image(chance):
    """A random image of one of five kinds."""
    (width, height), top = sides(chance), chance.choice(TOPS)
    kind = chance.randrange(5)
    if kind == 0:
        samples = [chance.randint(0, top) for _ in range(width * height)]
    elif kind == 1:
        low, high = chance.randint(0, top), chance.randint(0, top)
        samples = [high if chance.random() < 0.6 else low for _ in range(width * height)]
    elif kind == 2:
        samples = [chance.randint(0, top)] * (width * height)
    elif kind == 3:
        walls = chance.randint(2, 4)
        samples = [chance.randint(0, top) if y % walls or x % (2 * walls) == 1 else 0
                   for y in range(height) for x in range(width)]
    else:
        samples = [min(top, (y * 7 + x * 3) % (top + 1)) for y in range(height) for x in range(width)]
    return Image(width, height, top, samples)


def spelled_image(chance, picture):
    """A PGM file of an image: plain or raw, with any blanks, comments and leading zeros that may stand there."""
    if chance.random() < 0.3:
        return raw_file(picture)
    magic = chance.choice([b"P2", b"P5"])
    header = magic + separator(chance) + zeros(chance) + b"%d" % picture.width
    header += separator(chance) + zeros(chance) + b"%d" % picture.height
    header += separator(chance) + zeros(chance) + b"%d" % picture.maxval + chance.choice([b" ", b"\n", b"\t", b"\r"])
    if magic == b"P5":
        size = 1 if picture.maxval < 256 else 2
        return header + b"".join(sample.to_bytes(size, "big") for sample in picture.samples)
    tidy = chance.random() < 0.5
    gaps = [b" "] if tidy else GAPS
    body = b"".join((b"" if tidy else zeros(chance)) + b"%d" % sample + chance.choice(gaps)
                    for sample in picture.samples)
    return header + (b"" if tidy else chance.choice([b"", *GAPS])) + (body.rstrip() if chance.random() < 0.3 else body)


def separator(chance):
    """A separator of a header."""
    made = chance.choice(GAPS)
    while chance.random() < 0.25:
        made += chance.choice(GAPS + COMMENTS)
    return made


def zeros(chance):
    """Leading zeros, mostly none."""
    return b"0" * chance.choice([0, 0, 0, 0, 1, 2, 60])


# ---- Strokes and edit lines ----

def tag(chance):
    """A tag: often one of few, so that tags meet again."""
    kind = chance.random()
    if kind < 0.7:
        return chance.randrange(12)
    if kind < 0.8:
        return 2**128 - 1 - chance.randrange(3)
    return chance.getrandbits(128) if kind < 0.9 else chance.randrange(12) << 120


def level(chance, top):
    """A level, often one of the image."""
    return chance.choice([1, top, MOST_LEVEL, max(1, top - 1), chance.randint(1, top), chance.randint(1, MOST_LEVEL)])


def stroke(chance, width, height, top):
    """A stroke that lies in an image of these sides."""
    if chance.random() < 0.4:
        radius = chance.choice([0, 0, 1, 1, 2, 3, 5, 8, 100, 255])
        return Stroke(level(chance, top), Disc(chance.randrange(width), chance.randrange(height), radius))
    runs = []
    for y in sorted(chance.sample(range(height), min(height, chance.choice([1, 1, 1, 2, 4, MOST_RUNS])))):
        x = chance.randrange(width)
        while x < width and len(runs) < MOST_RUNS:
            end = chance.randint(x, min(width - 1, x + chance.choice([0, 0, 1, 6, 60])))
            runs.append(Run(y, x, end))
            x = end + 2 + chance.randrange(width) if chance.random() < 0.5 else width
    return Stroke(level(chance, top), tuple(runs[:MOST_RUNS]))


def outside(chance, width, height, top):
    """A stroke that does not lie in an image of these sides, but nearly."""
    if chance.random() < 0.5:
        made = [chance.randrange(width), height] if chance.random() < 0.5 else [width, chance.randrange(height)]
        return Stroke(level(chance, top), Disc(*made, chance.choice([0, 1, 200])))
    made = Run(0, 0, width) if chance.random() < 0.5 else Run(height, 0, 0)
    return Stroke(level(chance, top), (made,))


def tag_form(chance, number):
    """A tag in one of the four forms, in digits of some case."""
    text = tag_text(number)
    form = chance.randrange(6)
    if form == 1:
        text = text.replace("-", "")
    if chance.random() < 0.2:
        text = text.upper()
    if chance.random() < 0.1:
        text = "".join(chance.choice([digit, digit.upper()]) for digit in text)
    if form == 2:
        text = "{" + text + "}"
    return "urn:uuid:" + text if form == 3 else text


def edit_line(chance, number, made):
    """The line that places a stroke under a tag, or withdraws the tag where there is no stroke."""
    name = tag_form(chance, number)
    if made is None:
        words = ["withdraw", name]
    elif isinstance(made.shape, Disc):
        words = ["disc", name, str(made.level), f"{made.shape.y}:{made.shape.x}+{made.shape.radius}"]
    else:
        words = ["place", name, str(made.level), ",".join(f"{run.y}:{run.x0}-{run.x1}" for run in made.shape)]
    if chance.random() < 0.9:
        return " ".join(words)
    front, between, end = (chance.choice(gaps) for gaps in (["", " ", "\t"], ["  ", "\t", " \t "], ["", " ", "\t"]))
    return front + between.join(words) + end


def edits(chance, picture, count, trouble=0.03):
    """Edit lines, so many of which mean something.

    A part of them is trouble: a stroke that lies outside, or another stroke of a tag that is there.
    """
    lines, placed = [], {}
    while len(lines) < count:
        number = tag(chance)
        kind = chance.random()
        if kind < 0.2:
            made = None
        elif kind < 0.2 + trouble:
            made = outside(chance, picture.width, picture.height, picture.maxval)
        elif number in placed and kind < 1 - trouble:
            made = placed[number]
        else:
            made = placed[number] = stroke(chance, picture.width, picture.height, picture.maxval)
        lines.append(edit_line(chance, number, made))
        if chance.random() < 0.05:
            lines.append(chance.choice(["", " \t", "; a comment", ";image", "\t ;; place 1"]))
    return lines


def edit_text(chance, lines):
    """The text of edit lines, with an end of line of one of three kinds."""
    end = chance.choice(["\n", "\n", "\n", "\r\n", None])
    return "".join(line + (end or chance.choice(["\n", "\r\n"])) for line in lines).encode()


def slipped_line(chance, picture):
    """An edit line that is no good, or only just."""
    width, height, top = picture.width, picture.height, picture.maxval
    name = tag_form(chance, tag(chance))
    kind = chance.randrange(9)
    if kind == 0:
        runs = ",".join(f"{y}:0-0" for y in range(chance.choice([160, 161, 400])))
        return f"place {name} 1 {runs}"
    if kind == 1:
        radius = chance.choice([254, 255, 256, 65535, 65536])
        return f"disc {name} 1 {chance.randrange(height)}:{chance.randrange(width)}+{radius}"
    if kind == 2:
        low, high = sorted([chance.randrange(9), chance.randrange(9)])
        return f"place {name} 1 0:{high}-{low}"
    if kind == 3:
        return f"place {name} 1 0:0-{chance.randrange(3)},0:{chance.randrange(5)}-4"
    if kind == 4:
        return f"place {name} {chance.choice(['0', '00000', '65535', '65536', '99999', '000001', ''])} 0:0-0"
    if kind == 5:
        return edit_line(chance, tag(chance), None) + chance.choice([" x", " ;", ""])
    if kind == 6:
        made = chance.choice(["zz", name + "0", name[:-1], "{" + name, name.replace("-", "", 1), "{" + name + "}"])
        return f"withdraw {made}"
    if kind == 7:
        first = chance.choice(["Place", "places", "place", "disc", "withdraw", "image ", "imag", "\x0b", "-"])
        return f"{first} {name} 1 0:0-0"
    return edit_line(chance, tag(chance), outside(chance, width, height, top))


# ---- Frames and state files ----

def state(chance, picture, count, trouble=0.0):
    """A random state of strokes and tombstones; a part of the strokes does not lie in the image."""
    strokes, tombstones = {}, set()
    for _ in range(count):
        number = tag(chance)
        kind = chance.random()
        if kind < 0.25:
            tombstones.add(number)
        else:
            maker = outside if kind > 1 - trouble else stroke
            strokes[number] = maker(chance, picture.width, picture.height, picture.maxval)
    return State(strokes, frozenset(tombstones))


def frame_of(chance, conn, fingerprint, made):
    """The bytes of a frame of a state, in some version that has it; it may be too long."""
    version = 2 if any(isinstance(each.shape, Disc) for each in made.strokes.values()) else chance.choice([1, 2])
    strokes = [stroke_bytes(number, made.strokes[number], version) for number in sorted(made.strokes)]
    tombstones = [number.to_bytes(16, "big") for number in sorted(made.tombstones)]
    return frame_bytes(conn, fingerprint, strokes, tombstones, version)


def slipped_frame(chance, conn, fingerprint, picture):
    """A frame with one slip, which may be that there is none."""
    made = state(chance, picture, chance.randrange(1, 4))
    strokes = [stroke_bytes(number, made.strokes[number]) for number in sorted(made.strokes)]
    tombstones = [number.to_bytes(16, "big") for number in sorted(made.tombstones)]
    kind = chance.randrange(12)
    if kind < 6:
        strokes.append(slipped_stroke(chance, kind))
    elif kind == 6:
        chance.shuffle(strokes)
        tombstones = tombstones + tombstones[-1:]
    elif kind == 7:
        tombstones += [number.to_bytes(16, "big") for number in range(2**127, 2**127 + 100)]
    elif kind == 8:
        conn = chance.choice([0, 1, 4, 5, 8, 12, 255])
    elif kind == 9:
        fingerprint = bytes(32) if chance.random() < 0.5 else fingerprint[:31] + bytes([fingerprint[31] ^ 1])
    data = frame_bytes(conn, fingerprint, strokes, tombstones, chance.choice([2, 2, 2, 1, 3]) if kind == 10 else 2)
    return data + chance.choice([b"", b"\0"]) if kind == 11 else data


def slipped_stroke(chance, kind):
    """The bytes of a stroke with a slip of a kind from 0 to 5, under the greatest tag."""
    number, run, value = 2**128 - 1, Run(0, 0, 0), chance.choice([255, 256, 65535])
    if kind == 0:
        return stroke_bytes(number, Stroke(0, (run,)))
    if kind == 1:
        return stroke_bytes(number, Stroke(1, ()))
    if kind == 2:
        return stroke_bytes(number, Stroke(1, tuple(Run(y, 0, 0) for y in range(161))))
    if kind == 3:
        return stroke_bytes(number, Stroke(1, chance.choice([(Run(0, 1, 0),), (run, run), (run, Run(0, 1, 1))])))
    if kind == 4:
        return stroke_bytes(number, Stroke(1, Disc(0, 0, value)))
    made = bytearray(stroke_bytes(number, Stroke(1, (run,))))
    made[16] = value % 256
    return bytes(made)


def state_bytes(chance, conn, fingerprint, made):
    """A state file of a state: as it is written, or cut into other frames of both versions in another order."""
    if chance.random() < 0.5:
        return state_file(conn, fingerprint, made)
    parts = [State({number: each}, frozenset()) for number, each in made.strokes.items()]
    parts += [State({}, frozenset([number])) for number in made.tombstones]
    chance.shuffle(parts)
    while len(parts) > 1 and chance.random() < 0.6:
        parts.append(join(parts.pop(), parts.pop()))
    if chance.random() < 0.3:
        parts.append(EMPTY)
    frames = [frame_of(chance, conn, fingerprint, part) for part in parts]
    if any(len(frame) > 1400 for frame in frames):
        return state_file(conn, fingerprint, made)
    return b"".join(with_length(frame) for frame in frames)


# ---- Mutated bytes ----

def mutated(chance, data, head=24):
    """Bytes with one to three mutations, half of them among the first bytes."""
    for _ in range(chance.choice([1, 1, 1, 2, 3])):
        data = one_mutation(chance, data, head)
    return data


def place_in(chance, data, head):
    """A place in the bytes, or behind them."""
    return chance.randint(0, min(head, len(data)) if chance.random() < 0.5 else len(data))


def one_mutation(chance, data, head):
    """Bytes with one mutation."""
    place = place_in(chance, data, head)
    end = min(len(data), place + chance.choice([1, 1, 2, 3, 6, 16, 40]))
    kind = chance.randrange(10)
    if kind == 0:
        return data[:place] + bytes([chance.randrange(256)]) + data[place + 1:]
    if kind == 1:
        flipped = bytes(byte ^ (1 << chance.randrange(8)) for byte in data[place:place + 1])
        return data[:place] + flipped + data[place + 1:]
    if kind == 2:
        return data[:place] + bytes([chance.choice(SPECIAL)]) + data[place + chance.randrange(2):]
    if kind == 3:
        return data[:place] + data[end:]
    if kind == 4:
        return data[:end] + data[place:end] + data[end:]
    if kind == 5:
        return data[:place]
    if kind == 6:
        return data[:place] + chance.choice([b"\0\0", b"\0\1", b"\0\xff", b"\1\0", b"\xff\xff", b"\0\xa0", b"\0\xa1",
                                             b"\5\x78", b"\5\x79"]) + data[place + 2:]
    if kind == 7:
        return data[:place] + chance.choice(GAPS + COMMENTS) + data[place:]
    if kind == 8:
        return data.replace(b"\n", b"\r\n", chance.choice([1, 2, -1]))
    return with_limit(chance, data, head)


def with_limit(chance, data, head):
    """Bytes with one number at a limit."""
    numbers = list(re.finditer(rb"[0-9]+", data[:4096]))
    near = [each for each in numbers if each.start() < head]
    if not numbers:
        return data
    match = chance.choice(near if near and chance.random() < 0.5 else numbers)
    value = chance.choice([*LIMITS, b"%d" % (int(match.group()[:30]) + 1)])
    return data[:match.start()] + value + data[match.end():]
