"""Plain readers of the files that the page exports, for its tests: PNG, TIFF, and the run lengths of COCO's masks.

Each is written from the definition of its format, needs Python alone, and refuses what the page does not write.
"""

import struct
import zlib

PNG_SIGNATURE = b"\x89PNG\r\n\x1a\n"
FILTER_NONE, FILTER_UP = 0, 2
SIZES = {3: "H", 4: "I"}  # kinds of values in a TIFF, by their numbers there
REQUIRED = {256, 257, 258, 259, 262, 273, 277, 278, 279, 282, 283, 296}  # the tags of a baseline grey TIFF


class Unreadable(Exception):
    """That a file is not what the page writes."""


def demand(holds, what):
    """Refuses a file where something does not hold."""
    if not holds:
        raise Unreadable(what)


# ---- PNG ----

def chunks_of(data):
    """The chunks of a PNG, each by its type and its data."""
    demand(data.startswith(PNG_SIGNATURE), "no PNG")
    place = len(PNG_SIGNATURE)
    while place < len(data):
        size, = struct.unpack_from(">I", data, place)
        body, (total,) = data[place + 4:place + 8 + size], struct.unpack_from(">I", data, place + 8 + size)
        demand(len(body) == 4 + size and zlib.crc32(body) == total, "a check sum is wrong")
        yield body[:4], body[4:]
        place += size + 12


def read_png(data):
    """Width, height, bits and samples of a grey PNG of 8 or 16 bits."""
    chunks = list(chunks_of(data))
    kinds = [kind for kind, _ in chunks]
    demand(kinds[0] == b"IHDR" and kinds[-1] == b"IEND" and set(kinds[1:-1]) == {b"IDAT"}, f"chunks {kinds}")
    width, height, bits, *more = struct.unpack(">IIBBBBB", chunks[0][1])
    demand(bits in (8, 16) and more == [0, 0, 0, 0], f"a PNG of kind {bits}, {more}")
    raw = zlib.decompress(b"".join(body for kind, body in chunks if kind == b"IDAT"))
    size = width * bits // 8
    demand(len(raw) == height * (size + 1), "rows are missing, or too many")
    above, rows = bytes(size), []
    for start in range(0, len(raw), size + 1):
        demand(raw[start] in (FILTER_NONE, FILTER_UP), f"a filter {raw[start]}")
        row = raw[start + 1:start + 1 + size]
        above = bytes((one + other) & 255 for one, other in zip(row, above)) if raw[start] == FILTER_UP else row
        rows.append(above)
    flat = b"".join(rows)
    return width, height, bits, list(flat if bits == 8 else struct.unpack(f">{width * height}H", flat))


# ---- TIFF ----

def fields_of(data):
    """The fields of the one directory of a TIFF, each by its tag; of those that are pairs the numbers in a row."""
    demand(data[:4] == b"II*\0", "no little endian TIFF")
    place, = struct.unpack_from("<I", data, 4)
    count, = struct.unpack_from("<H", data, place)
    fields = {}
    for start in range(place + 2, place + 2 + 12 * count, 12):
        tag, kind, length = struct.unpack_from("<HHI", data, start)
        spelled = f"<{length}{SIZES[kind]}" if kind in SIZES else f"<{2 * length}I"
        size = struct.calcsize(spelled)
        where = start + 8 if size <= 4 else struct.unpack_from("<I", data, start + 8)[0]
        demand(tag > max(fields, default=0) and where % 2 == 0, "fields that do not rise, or begin at odd places")
        fields[tag] = struct.unpack_from(spelled, data, where)
    demand(struct.unpack_from("<I", data, place + 2 + 12 * count) == (0,), "several pages")
    return fields


def read_tiff(data):
    """Width, height, bits and samples of a grey TIFF of 16 or 32 bits, which is not compressed."""
    fields = fields_of(data)
    demand(REQUIRED <= set(fields), "fields of a baseline TIFF are missing")
    (width,), (height,), (bits,) = fields[256], fields[257], fields[258]
    demand(bits in (16, 32) and fields[259] == (1,) and fields[262] == (1,) and fields[277] == (1,), "another kind")
    strips = [data[start:start + size] for start, size in zip(fields[273], fields[279], strict=True)]
    rows, = fields[278]
    demand([len(strip) for strip in strips] == [min(rows, height - top) * width * bits // 8
                                                for top in range(0, height, rows)], "strips of wrong sizes")
    flat = b"".join(strips)
    return width, height, bits, list(struct.unpack(f"<{width * height}{'H' if bits == 16 else 'I'}", flat))


# ---- COCO ----

def counts_of(text):
    """The counts that a compressed string spells: five bits a character, from the fourth count on as differences."""
    counts, place = [], 0
    while place < len(text):
        value = shift = 0
        is_more = True
        while is_more:
            code = ord(text[place]) - 48
            demand(0 <= code < 64, f"no character of counts: {text[place]}")
            value |= (code & 31) << shift
            is_more, place, shift = bool(code & 32), place + 1, shift + 5
        if code & 16:
            value -= 1 << shift
        counts.append(value + counts[-2] if len(counts) > 2 else value)
    return counts


def places_of(segmentation):
    """The pixels of a segmentation, each by row and column, in the order of columns."""
    height, width = segmentation["size"]
    counts = counts_of(segmentation["counts"])
    demand(all(count > 0 for count in counts[1:]) and counts[0] >= 0, "a count is not above 0")
    demand(sum(counts) == height * width, "counts that are not the pixels of the picture")
    places, start = [], 0
    for number, count in enumerate(counts):
        if number % 2 == 1:
            places += [(place % height, place // height) for place in range(start, start + count)]
        start += count
    return places
