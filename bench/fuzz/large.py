#!/usr/bin/env python3
"""Give the program large inputs where small ones belong, and print what it answers, how long it takes, and its memory.

    python3 bench/fuzz/large.py crates/seedpaint/out/seedpaint

The images have at most 16,384 pixels, so that no grid counts beside the input. The answers are known beforehand;
another answer ends the script with status 1. README.md says what the columns of its table mean.
"""

import argparse
import hashlib
import os
import pathlib
import resource
import subprocess
import sys
import tempfile
import time
from typing import NamedTuple

MILLION = 1_000_000
BLOCK = 2**20  # bytes that are written at once
MOST = 20  # the multiple of the input above which memory is remarked
DARK = b"image\nP2\n2 1\n9\n0 0\n"  # an image of two pixels, both 0
DARK_WRITTEN = b"P5\n2 1\n9\n\0\0"
FLAT = b"image\nP2\n2 1\n9\n9 9\n"  # one with two of the same light
FLAT_LIT = b"P5\n2 1\n9\n\x09\x09"
HUGE = b"image\nP5\n16384 4096\n9\n"  # the header of the largest image
END = b"2 1\n9\n\0\0"  # the end of a raw file of two pixels
NINES = b"9" * 40


class Row(NamedTuple):
    """A large input: a name, the parts of it, those of a state file, the line of its answer, and what it writes."""
    name: str
    parts: object
    state: object = None
    line: bytes = b""
    output: bytes = b""


# ---- The inputs, in parts ----

def parts_of(*parts):
    """A function that gives these parts."""
    return lambda: parts


def many(piece, size, front=b"", end=b""):
    """A function that gives a front, so many bytes of a piece, and an end."""
    def give():
        block = piece * (BLOCK // len(piece))
        yield front
        for _ in range(size // len(block)):
            yield block
        yield piece * (size % len(block) // len(piece)) + end
    return give


def numbered(line, count, end, front=b""):
    """A function that gives a line with each number below the count, and an end."""
    def give():
        yield front
        for first in range(0, count, 1_000):
            yield b"".join(line(n) for n in range(first, min(count, first + 1_000)))
        yield end
    return give


def tag(n):
    """The text of a tag."""
    return b"00000000-0000-0000-0000-%012x" % n


def place_line(n):
    """A line that places a pixel under a tag of its own."""
    return b"place %b 9 0:1-1\n" % tag(n)


def withdraw_line(n):
    """A line that withdraws a tag."""
    return b"withdraw %b\n" % tag(n)


def wide_line(n):
    """A line that places 160 runs over a row of 16,384 pixels."""
    runs = b",".join(b"0:%d-%d" % (x, x + 100) for x in range(n % 50, n % 50 + 160 * 102, 102))
    return b"place %b 9 %b\n" % (tag(n), runs)


def two_lines_a_tag(text):
    """A function that gives two lines a tag, all withdrawals and then all strokes, and a text."""
    def give():
        for line in (withdraw_line, place_line):
            yield from numbered(line, MILLION, b"")()
        yield text
    return give


PLACE = b"place %b 9 " % tag(1)


def head_of_frame(strokes, file):
    """The head of a frame for a mask, with so many strokes and no tombstone."""
    return b"SPD2\4" + hashlib.sha256(file).digest() + strokes.to_bytes(2, "big") + b"\0\0"


def frame_of_one(n):
    """A frame of one stroke of one pixel under a tag of its own, behind its length."""
    stroke = n.to_bytes(16, "big") + b"\0\0\x09\0\1\0\0\0\1\0\1"
    return b"\0\x44" + HEAD + stroke


HEAD = head_of_frame(1, b"P5\n2 1\n9\n\x09\x09")
EMPTY_FRAME = b"\0\x29" + head_of_frame(0, b"P5\n2 1\n9\n\x09\x09")
WIDE = b"image\nP5\n16384 1\n9\n" + b"\x09" * 16384

ROWS = [
    Row("a width of 40 nines", parts_of(b"image\nP5\n", NINES, b" 1\n9\n"), line=b"P4"),
    Row("a height of 40 nines", parts_of(b"image\nP5\n1 ", NINES, b"\n9\n"), line=b"P4"),
    Row("a maxval of 40 nines", parts_of(b"image\nP5\n1 1\n", NINES, b"\n"), line=b"P5"),
    Row("a sample of 40 nines", parts_of(b"image\nP2\n1 1\n9\n", NINES, b"\n"), line=b"P7"),
    Row("16,384 by 4,096 pixels announced over 10 bytes", parts_of(HUGE, bytes(10)), line=b"P6"),
    Row("the same, plain", parts_of(b"image\nP2\n16384 4096\n9\n", b"0 " * 5), line=b"P6"),
    Row("the same, with 16 bits", parts_of(b"image\nP5\n16384 4096\n999\n", bytes(10)), line=b"P6"),
    Row("100 MB of blanks in the header", many(b" ", 100 * MILLION, b"image\nP5", END), output=DARK_WRITTEN),
    Row("a comment of 100 MB", many(b"x", 100 * MILLION, b"image\nP5\n#", b"\n" + END), output=DARK_WRITTEN),
    Row("a comment of 100 MB that does not end", many(b"x", 100 * MILLION, b"image\nP5\n#"), line=b"P6"),
    Row("a width of 100 MB of zeros and a 2", many(b"0", 100 * MILLION, b"image\nP5\n", END), output=DARK_WRITTEN),
    Row("a sample of 100 MB of zeros", many(b"0", 100 * MILLION, b"image\nP2\n2 1\n9\n", b" 0"), output=DARK_WRITTEN),
    Row("100 MB of whitespace behind a plain raster", many(b"\n", 100 * MILLION, DARK), output=DARK_WRITTEN),
    Row("100 MB behind a raw raster", many(b"\n", 100 * MILLION, b"image\nP5\n2 1\n9\n\0\0"), line=b"P9"),
    Row("100 MB of blank lines", many(b"\n", 100 * MILLION, b"", FLAT), output=DARK_WRITTEN),
    Row("a comment line of 10 MB", many(b"x", 10 * MILLION, b";", b"\n" + FLAT), output=DARK_WRITTEN),
    Row("a line of one word of 10 MB", many(b"x", 10 * MILLION, b"", b"\n" + FLAT), line=b"E1 1"),
    Row("a line of 5 million words", many(b"x ", 10 * MILLION, b"", b"\n" + FLAT), line=b"E1 1"),
    Row("a tag of 10 MB", many(b"0", 10 * MILLION, b"withdraw ", b"\n" + FLAT), line=b"E2 1"),
    Row("a line of 2.5 million bad runs", many(b"0:0,", 10 * MILLION, PLACE, b"0:0\n" + FLAT), line=b"E1 1"),
    Row("a line of 2 million runs", many(b"0:0-0,", 12 * MILLION, PLACE, b"0:0-0\n" + FLAT), line=b"E3 1 S3"),
    Row("100 MB without an `image` line", many(b"image", 100 * MILLION), line=b"V1"),
    Row("a million strokes", numbered(place_line, MILLION, FLAT), output=FLAT_LIT),
    Row("one stroke a million times", many(place_line(1), MILLION * len(place_line(1)), b"", FLAT), output=FLAT_LIT),
    Row("a million tombstones", numbered(withdraw_line, MILLION, FLAT), output=DARK_WRITTEN),
    Row("a million tombstones, and then their strokes", two_lines_a_tag(FLAT), output=DARK_WRITTEN),
    Row("a million good lines and a bad one", numbered(withdraw_line, MILLION, b"x\n" + FLAT), line=b"E1 1000001"),
    Row("a state file of a million empty frames", parts_of(FLAT), many(EMPTY_FRAME, MILLION * len(EMPTY_FRAME)),
        output=DARK_WRITTEN),
    Row("a state file of a million frames of one stroke", parts_of(FLAT), numbered(frame_of_one, MILLION, b""),
        output=FLAT_LIT),
    Row("the same frame of one stroke a million times", parts_of(FLAT),
        many(frame_of_one(1), MILLION * len(frame_of_one(1))), output=FLAT_LIT),
    Row("160 runs over a row of 16,384 pixels, 10,000 times", numbered(wide_line, 10_000, WIDE), output=WIDE[6:]),
]


# ---- Measuring ----

def written(path, parts):
    """Write a file in parts, and give its length."""
    with open(path, "wb") as file:
        for part in parts():
            file.write(part)
    return path.stat().st_size


def measure(program, row, folder):
    """Run a row: the bytes of its input, its answer, seconds, and the most bytes of memory."""
    given, kept, out, err = (folder / name for name in ("in", "kept.spd", "out", "err"))
    kept.unlink(missing_ok=True)
    size = written(given, row.parts) + (written(kept, row.state) if row.state else 0)
    words = ["view", "--state", str(kept)] if row.state else ["view"]
    begun = time.perf_counter()
    with open(given, "rb") as source, open(out, "wb") as output, open(err, "wb") as errors:
        child = subprocess.Popen([program, *words], stdin=source, stdout=output, stderr=errors)
        _, status, usage = os.wait4(child.pid, 0)
    seconds = time.perf_counter() - begun
    child.returncode = os.waitstatus_to_exitcode(status)
    return size, (child.returncode, err.read_bytes(), out.read_bytes()), seconds, usage.ru_maxrss * 1024


def is_wanted(row, answer):
    """Whether a row was answered as it should be."""
    line = b"seedpaint: %b\n" % row.line if row.line else b""
    return answer == (1 if row.line else 0, line, row.output)


def told(row, size, answer, seconds, peak):
    """The row of the table. A peak that is not above this process's own is only known to be at most that."""
    own = resource.getrusage(resource.RUSAGE_SELF).ru_maxrss * 1024
    is_small = peak <= own
    multiple = "-" if is_small or size < BLOCK else f"{peak / size:.1f}"
    remark = f" (above {MOST})" if multiple != "-" and peak / size > MOST else ""
    text = answer[1].decode(errors="replace").strip() or f"{len(answer[2])} bytes"
    if not is_wanted(row, answer):
        text += f" **not wanted** (status {answer[0]})"
    memory = f"{'at most ' if is_small else ''}{peak / 2**20:.0f}"
    cells = [row.name, f"{size:,}", text, f"{seconds:.2f}", memory, multiple + remark]
    return "| " + " | ".join(cells) + " |"


def main():
    """Print a row for each input."""
    parser = argparse.ArgumentParser(description="Give Seedpaint large inputs, and measure what it takes.")
    parser.add_argument("program", type=pathlib.Path, help="crates/seedpaint/out/seedpaint")
    parser.add_argument("--only", default="", metavar="WORD", help="the rows whose name has this (all)")
    words = parser.parse_args()
    if not words.program.is_file():
        parser.error(f"{words.program} is not there; `rt run` in crates/seedpaint makes the program")
    program, is_good = str(words.program.resolve()), True
    print("| Input | Bytes | Answer | Seconds | Peak MB | Peak by the bytes |\n|---|---|---|---|---|---|", flush=True)
    with tempfile.TemporaryDirectory() as folder:
        for row in (row for row in ROWS if words.only in row.name):
            measured = measure(program, row, pathlib.Path(folder))
            is_good = is_good and is_wanted(row, measured[1])
            print(told(row, *measured), flush=True)
    sys.exit(0 if is_good else 1)


if __name__ == "__main__":
    main()
