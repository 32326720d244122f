"""A plain simulator of the program, written from docs/FORMATS.md and docs/DEFINITIONS.md to be believed.

`view` and `derive` give the `Answer` of a run: its status, the line of its fault, what it writes, and what its state
file holds at the end. An image is grown by `reconstruction`, a flood from the brightest pixel down. `by_thresholds`
does the same slowly, level by level, and check.py compares the two.
"""

import functools
import hashlib
import heapq
from typing import NamedTuple

from readers import (Disc, Image, MOST_FRAME, Refused, State, read_edits, read_image, read_state_file, split_input)

EMPTY = State({}, frozenset())


class Answer(NamedTuple):
    """What a run comes to: the bytes of standard output and of the state file, and the line of a fault or nothing."""
    status: int
    line: bytes
    output: bytes
    kept: bytes


def refused(why, kept, status=1):
    """The answer of a run that a fault ends."""
    return Answer(status, f"seedpaint: {why}\n".encode(), b"", kept)


# ---- Images ----

def raw_file(image):
    """The raw PGM file of an image."""
    size = 1 if image.maxval < 256 else 2
    header = f"P5\n{image.width} {image.height}\n{image.maxval}\n".encode()
    return header + b"".join(sample.to_bytes(size, "big") for sample in image.samples)


def fingerprint_of(mask):
    """The SHA-256 of the raw file of a mask."""
    return hashlib.sha256(raw_file(mask)).digest()


def neighbours(width, height, conn, pixel):
    """The pixels that touch one: by an edge where conn is 4, by an edge or a corner where it is 8."""
    y, x = divmod(pixel, width)
    for row in range(max(y - 1, 0), min(y + 2, height)):
        for column in range(max(x - 1, 0), min(x + 2, width)):
            if (row, column) != (y, x) and (conn == 8 or row == y or column == x):
                yield row * width + column


def reconstruction(mask, marker, conn):
    """At each pixel the greatest k such that a path where the mask is at least k leads to a marker of at least k."""
    result = list(marker)
    heap = [(-value, pixel) for pixel, value in enumerate(marker) if value > 0]
    heapq.heapify(heap)
    while heap:
        value, pixel = heapq.heappop(heap)
        if -value < result[pixel]:
            continue  # (it rose meanwhile, and stands in the heap again)
        for other in neighbours(mask.width, mask.height, conn, pixel):
            risen = min(-value, mask.samples[other])
            if risen > result[other]:
                result[other] = risen
                heapq.heappush(heap, (-risen, other))
    return result


def by_thresholds(mask, marker, conn):
    """The same, by a flood of its own for each level."""
    result = [0] * len(marker)
    for level in sorted(set(marker) | set(mask.samples)):
        reached = {pixel for pixel, value in enumerate(marker) if value >= level}
        border = list(reached)
        while border:
            for other in neighbours(mask.width, mask.height, conn, border.pop()):
                if other not in reached and mask.samples[other] >= level:
                    reached.add(other)
                    border.append(other)
        for pixel in reached:
            result[pixel] = level
    return result


# ---- States ----

def tag_text(tag):
    """A tag in its hyphenated form."""
    digits = f"{tag:032x}"
    return "-".join([digits[:8], digits[8:12], digits[12:16], digits[16:20], digits[20:]])


def lies_in(stroke, width, height):
    """Whether a stroke lies in an image of these sides: of a disc its centre."""
    if isinstance(stroke.shape, Disc):
        return stroke.shape.x < width and stroke.shape.y < height
    return all(run.y < height and run.x1 < width for run in stroke.shape)


def join(first, second):
    """The strokes and tombstones of both states, which do not clash."""
    return State({**first.strokes, **second.strokes}, first.tombstones | second.tombstones)


def merged(state, delta, width, height):
    """The state with a delta. C1 with the least tag whose stroke does not lie in the image; C2 with the least clash."""
    for tag in sorted(delta.strokes):
        if not lies_in(delta.strokes[tag], width, height):
            raise Refused(f"C1 {tag_text(tag)}")
    for tag in sorted(delta.strokes):
        if state.strokes.get(tag, delta.strokes[tag]) != delta.strokes[tag]:
            raise Refused(f"C2 {tag_text(tag)}")
    return join(state, delta)


def is_below(first, second):
    """Whether each stroke and each tombstone of the first state stands in the second."""
    return first.strokes.items() <= second.strokes.items() and first.tombstones <= second.tombstones


def pixels_of(shape, width, height):
    """The pixels of an image that a shape covers."""
    if not isinstance(shape, Disc):
        return [run.y * width + x for run in shape for x in range(run.x0, run.x1 + 1)]
    rows = range(max(shape.y - shape.radius, 0), min(shape.y + shape.radius + 1, height))
    columns = range(max(shape.x - shape.radius, 0), min(shape.x + shape.radius + 1, width))
    return [y * width + x for y in rows for x in columns
            if (x - shape.x) ** 2 + (y - shape.y) ** 2 <= shape.radius ** 2]


def marker_of(mask, state):
    """At each pixel the greatest level of a live stroke on it, but at most the mask."""
    marker = [0] * len(mask.samples)
    for tag, stroke in state.strokes.items():
        if tag not in state.tombstones:
            for pixel in pixels_of(stroke.shape, mask.width, mask.height):
                marker[pixel] = max(marker[pixel], min(stroke.level, mask.samples[pixel]))
    return marker


def image_of(mask, state, conn):
    """The image that a state shows on a mask."""
    return mask._replace(samples=reconstruction(mask, marker_of(mask, state), conn))


# ---- Frames and state files ----

def short(value):
    """A number in two bytes."""
    return value.to_bytes(2, "big")


def stroke_bytes(tag, stroke, version=2):
    """A stroke in a frame."""
    shape = stroke.shape
    if isinstance(shape, Disc):
        kind, body = b"\1", short(shape.x) + short(shape.y) + short(shape.radius)
    else:
        kind = b"\0"
        body = short(len(shape)) + b"".join(short(run.y) + short(run.x0) + short(run.x1) for run in shape)
    return tag.to_bytes(16, "big") + (kind if version == 2 else b"") + short(stroke.level) + body


def frame_bytes(conn, fingerprint, strokes, tombstones, version=2):
    """A frame of strokes and tombstones that are bytes already."""
    head = b"SPD%d" % version + bytes([conn]) + fingerprint + short(len(strokes)) + short(len(tombstones))
    return head + b"".join(strokes) + b"".join(tombstones)


def pieces_of(conn, fingerprint, state):
    """The frames of the pieces of a state: what does not fit into one begins the next."""
    items = [(True, stroke_bytes(tag, state.strokes[tag])) for tag in sorted(state.strokes)]
    items += [(False, tag.to_bytes(16, "big")) for tag in sorted(state.tombstones)]
    frames, piece = [], []
    for item in items:
        if len(one_frame(conn, fingerprint, [*piece, item])) > MOST_FRAME:
            frames.append(one_frame(conn, fingerprint, piece))
            piece = []
        piece.append(item)
    return [*frames, one_frame(conn, fingerprint, piece)] if piece else frames


def one_frame(conn, fingerprint, piece):
    """The frame of a piece."""
    strokes = [item for is_stroke, item in piece if is_stroke]
    return frame_bytes(conn, fingerprint, strokes, [item for is_stroke, item in piece if not is_stroke])


def with_length(frame):
    """A frame behind its length."""
    return short(len(frame)) + frame


def state_file(conn, fingerprint, state):
    """The state file of a state."""
    return b"".join(with_length(frame) for frame in pieces_of(conn, fingerprint, state))


# ---- Runs ----

@functools.lru_cache(2)
def mask_of(file):
    """The mask that a file spells, and its fingerprint."""
    mask = read_image(file)
    return mask, fingerprint_of(mask)


def gathered(data, conn, old):
    """The mask and the state of an input over the bytes of a state file."""
    text, file = split_input(data)
    deltas = read_edits(text)
    mask, fingerprint = mask_of(file)
    frames = read_state_file(old)
    if any((frame.conn, frame.fingerprint) != (conn, fingerprint) for frame in frames):
        raise Refused("D1")
    state = EMPTY
    for delta in [frame.state for frame in frames] + deltas:
        state = merged(state, delta, mask.width, mask.height)
    return mask, state


def view(data, conn, old=b""):
    """The answer of `view` to an input, over the bytes of a state file."""
    try:
        mask, state = gathered(data, conn, old)
    except Refused as why:
        return refused(why, old)
    return shown(mask, state, conn)


def shown(mask, state, conn):
    """The answer of a run without a fault that ends in this state."""
    kept = state_file(conn, fingerprint_of(mask), state)
    return Answer(0, b"", raw_file(image_of(mask, state, conn)), kept)


def derive(data, kind, height, conn):
    """The answer of `derive` to a file."""
    try:
        image = read_image(data)
    except Refused as why:
        return refused(why, b"")
    derived = {"fill": lambda: filled(image, conn), "hmax": lambda: h_maxima(image, height, conn),
               "regmax": lambda: regional_maxima(image, conn)}[kind]()
    return Answer(0, b"", raw_file(derived), b"")


def filled(image, conn):
    """Each pixel at the least level at which a path over pixels of at most that level leads from it to the border."""
    width, height = image.width, image.height
    result = [None] * len(image.samples)
    heap = [(value, pixel) for pixel, value in enumerate(image.samples)
            if pixel // width in (0, height - 1) or pixel % width in (0, width - 1)]
    heapq.heapify(heap)
    while heap:
        level, pixel = heapq.heappop(heap)
        if result[pixel] is None:
            result[pixel] = level
            for other in neighbours(width, height, conn, pixel):
                heapq.heappush(heap, (max(level, image.samples[other]), other))
    return image._replace(samples=result)


def h_maxima(image, height, conn):
    """The reconstruction of an image from itself, less so much."""
    lowered = [max(value - height, 0) for value in image.samples]
    return image._replace(samples=reconstruction(image, lowered, conn))


def regional_maxima(image, conn):
    """1 on each plateau that no neighbour rises above, 0 elsewhere; the maxval is 1."""
    result = [None] * len(image.samples)
    for start, level in enumerate(image.samples):
        if result[start] is not None:
            continue
        plateau, border, is_maximum = {start}, [start], True
        while border:
            for other in neighbours(image.width, image.height, conn, border.pop()):
                if image.samples[other] > level:
                    is_maximum = False
                elif image.samples[other] == level and other not in plateau:
                    plateau.add(other)
                    border.append(other)
        for pixel in plateau:
            result[pixel] = int(is_maximum)
    return Image(image.width, image.height, 1, result)
