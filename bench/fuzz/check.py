#!/usr/bin/env python3
"""Check the reference against itself and against worked examples, without the program.

    python3 bench/fuzz/check.py

The examples are those of docs/FORMATS.md and of the tests in crates/core_tests. The first that fails ends the script
with status 1.
"""

import pathlib
import random
import sys

import inputs
import readers
import simulator
from readers import Disc, Refused, Run, State, Stroke

SEEDPAINT = pathlib.Path(__file__).resolve().parents[2] / "crates" / "seedpaint"
TAG = b"00000000-0000-0000-0000-000000000001"

FILES = [  # a PGM file, and its samples or its fault
    (b"P5\n# CREATOR: x\n2 1\n255\n\x0a\x23", [10, 35]),
    (b"P5\n# CREATOR: x\n2 1\n255\n\x0a", "P6"),
    (b"P5\n2 1\n255\n\x0a\x23\x00", "P9"),
    (b"P5\n2 1\n255\r\n\x0a\x23", "P9"),
    (b"P5\n1 1\n256\n\x01\x00", [256]),
    (b"P5\n1 1\n256\n\x01\x01", "P7"),
    (b"P5\n1 1\n256\n\x01", "P6"),
    (b"P5\n1 1\n0\n", "P5"),
    (b"P5\n1 1\n65536\n", "P5"),
    (b"P5\n0 1\n", "P3"),
    (b"P5\n1 0\n", "P3"),
    (b"P5\n16385 1\n", "P4"),
    (b"P5\n1 16385\n", "P4"),
    (b"P5\n16384 4097\n", "P4"),
    (b"P5\n16384 4096\n9\n", "P6"),
    (b"P5\n" + b"9" * 40 + b" ", "P4"),
    (b"P5\n" + b"0" * 40 + b"1 1 9\n\x07", [7]),
    (b"P6 1 1 9\n", "P1"),
    (b"P", "P1"),
    (b"", "P1"),
    (b"P5", "P6"),
    (b"P5#x", "P2"),
    (b"P5 #x", "P6"),
    (b"P5 #x\r1#", "P2"),
    (b"P5 1", "P6"),
    (b"P5 x", "P2"),
    (b"P2 1 1 9 10x", "P7"),
    (b"P2 1 1 9 5x", "P8"),
    (b"P2 1 1 9 5 x", "P9"),
    (b"P2 1 1 9 5 6", "P9"),
    (b"P2 1 1 9 5", [5]),
    (b"P2 1 1 9 10", "P7"),
    (b"P2 2 1 9 5", "P6"),
    (b"P2 2 1 9 5 #", "P8"),
    (b"P2 2 1 9\r\n05\t9 \n", [5, 9]),
]

LINES = [  # edit text, and how many states it means or its fault
    (b"", 0),
    (b"\n \t\n;\xff\n ; x\r\n", 0),
    (b"place " + TAG + b" 9 0:1-2,0:4-4", 1),
    (b"place " + TAG + b" 9 0:1-2,0:3-4", "E3 1 S4"),
    (b"place " + TAG + b" 9 0:2-1", "E3 1 S4"),
    (b"place " + TAG + b" 9 1:1-1,0:3-3", "E3 1 S4"),
    (b"place " + TAG + b" 9 0:1", "E1 1"),
    (b"place " + TAG + b" 9 0:1-1,", "E1 1"),
    (b"place " + TAG + b" 9 0:1-65536", "E1 1"),
    (b"place " + TAG + b" 9 0:1-000001", "E1 1"),
    (b"place " + TAG + b" 000009 0:1-1", "E1 1"),
    (b"place " + TAG + b" 0 0:1-1", "E3 1 S1"),
    (b"place " + TAG + b" 65536 0:1-1", "E3 1 S1"),
    (b"place " + TAG + b" 9 " + b",".join(b"%d:0-0" % y for y in range(161)), "E3 1 S3"),
    (b"\nplace zz 0 0:1-1\n", "E2 2"),
    (b"withdraw " + TAG + b" x", "E1 1"),
    (b"withdraw zz\r\n", "E2 1"),
    (b"withdraw " + TAG + b"\r\r\n", "E2 1"),
    (b"disc {" + TAG + b"} 9 0:1+255\ndisc urn:uuid:" + TAG + b" 9 0:1+255", 2),
    (b"disc {" + TAG.replace(b"-", b"") + b"} 9 0:1+255", "E2 1"),
    (b"disc URN:UUID:" + TAG + b" 9 0:1+255", 1),
    (b"disc " + TAG + b" 9 0:1+256", "E3 1 S7"),
    (b"disc " + TAG + b" 9 0:1-1", "E1 1"),
]

INPUTS = [  # an input of `view`, and the samples that it writes or its fault
    (b"", "V1"),
    (b"image", "V1"),
    (b" image\nimage\r\r\nImage\n", "V1"),
    (b"image\n", "P1"),
    (b"zz\nimage\nP", "E1 1"),
    (b"image\r\nP2\n5 1\n9\n3 5 2 5 4\n", [0, 0, 0, 0, 0]),
    (b"place %b 9 0:1-1\nimage\nP2\n5 1\n9\n3 5 2 5 4\n" % TAG, [3, 5, 2, 2, 2]),
    (b"place %b 9 0:5-5\nimage\nP2\n5 1\n9\n3 5 2 5 4\n" % TAG, "C1 " + TAG.decode()),
    (b"place %b 3 0:1-1\nplace %b 4 0:1-1\nimage\nP2\n5 1\n9\n3 5 2 5 4\n" % (TAG, TAG), "C2 " + TAG.decode()),
    (b"withdraw %b\nplace %b 4 0:1-1\nimage\nP2\n5 1\n9\n3 5 2 5 4\n" % (TAG, TAG), [0, 0, 0, 0, 0]),
]

RING = b"P2 5 5 6 0 0 0 0 0 0 6 6 6 0 0 6 1 6 0 0 6 6 6 0 0 0 0 0 0\n"
OPEN_RING = b"P2 5 5 6 0 0 0 0 0 0 0 6 0 0 0 6 1 6 0 0 0 6 0 0 0 0 0 0 0\n"

DERIVED = [  # a file, a view of it, its height, neighbours, a pixel, and its sample
    (RING, "fill", 1, 8, 12, 6),
    (OPEN_RING, "fill", 1, 4, 12, 6),
    (OPEN_RING, "fill", 1, 8, 12, 1),
    (b"P2 5 1 9 1 4 3 5 1", "hmax", 2, 4, 1, 3),
    (b"P2 3 1 9 0 1 0", "regmax", 1, 4, 0, 0),
    (b"P2 3 1 9 0 1 0", "regmax", 1, 4, 1, 1),
    (b"P2 3 1 9 0 0 0", "regmax", 1, 4, 1, 1),
]

HEAD = bytes(33)  # the end of a frame's head: the fingerprint and the high byte of the number of strokes
ONE = Stroke(9, (Run(0, 1, 1),))
GREAT = Stroke(5, Disc(2, 3, 255))

FRAMES = [  # a frame, and its state or its fault
    (b"SPD2\4" + HEAD + b"\1\0\0" + bytes(15) + b"\1\0\0\x09\0\1\0\0\0\1\0\1", State({1: ONE}, frozenset())),
    (b"SPD1\4" + HEAD + b"\1\0\0" + bytes(15) + b"\1\0\x09\0\1\0\0\0\1\0\1", State({1: ONE}, frozenset())),
    (b"SPD2\x08" + HEAD + b"\1\0\2" + b"\xff" * 16 + b"\1\0\5\0\2\0\3\0\xff" + bytes(15) + b"\7" + bytes(14) + b"\1\2",
     State({2**128 - 1: GREAT}, frozenset([7, 258]))),
    (b"SPD2\4" + HEAD + b"\1\0\0" + bytes(15) + b"\1\2\0\x09", "M5 S8"),
    (b"SPD2\4" + HEAD + b"\1\0\0" + bytes(15) + b"\1\1\0\x09\0\2\0\2\1\0", "M5 S7"),
    (b"SPD2\4" + HEAD + b"\1\0\0" + bytes(15) + b"\1\0\0\0", "M5 S1"),
    (b"SPD2\4" + HEAD + b"\1\0\0" + bytes(15) + b"\1\0\0\1\0\0", "M5 S2"),
    (b"SPD2\4" + HEAD + b"\1\0\0" + bytes(15) + b"\1\0\0\1\0\xa1", "M5 S3"),
    (b"SPD1\4" + HEAD + b"\0\0\2" + bytes(32), "M4"),
    (b"SPD1\4" + HEAD + b"\0\0\0\0", "M7"),
    (b"SPD1\5", "M2"),
    (b"SPD3", "M1"),
    (b"SPD", "M3"),
    (bytes(1401), "M6"),
]


def found(reading, data):
    """What a reader gives, or the text of its fault."""
    try:
        return reading(data)
    except Refused as why:
        return str(why)


def expect(what, got, wanted):
    """End the script where two things differ."""
    if got != wanted:
        sys.exit(f"{what!r}: {got!r} is not {wanted!r}")


def check_examples():
    """The worked examples."""
    for data, wanted in FILES:
        got = found(readers.read_image, data)
        expect(data, got if isinstance(got, str) else got.samples, wanted)
    for data, wanted in LINES:
        got = found(readers.read_edits, data)
        expect(data, got if isinstance(got, str) else len(got), wanted)
    for data, wanted in FRAMES:
        got = found(readers.read_frame, data)
        expect(data, got if isinstance(got, str) else got.state, wanted)
    for data, wanted in INPUTS:
        answer = simulator.view(data, 4)
        fault = answer.line.decode().strip().removeprefix("seedpaint: ")
        expect(data, fault or readers.read_image(answer.output).samples, wanted)
    for data, kind, height, conn, pixel, wanted in DERIVED:
        answer = simulator.derive(data, kind, height, conn)
        expect((data, kind, conn), readers.read_image(answer.output).samples[pixel], wanted)


def check_stored_run():
    """The stored run of the program."""
    kept = (SEEDPAINT / "data" / "strokes.spd").read_bytes()
    answer = simulator.view((SEEDPAINT / "stdin").read_bytes(), 4, kept)
    expect("the stored run", answer.output, (SEEDPAINT / "stdout").read_bytes())


def check_pieces():
    """A stroke of 160 runs and 30 tombstones make two pieces: all but seven tombstones, and these."""
    state = State({1: Stroke(9, tuple(Run(y, 0, 0) for y in range(160)))}, frozenset(range(30)))
    pieces = simulator.pieces_of(4, bytes(32), state)
    expect("the lengths of pieces", [len(piece) for piece in pieces], [41 + 981 + 23 * 16, 41 + 7 * 16])


def check_random(times):
    """What is written is read again; a flood by thresholds gives the same; a state is above its parts."""
    chance = random.Random(1)
    for _ in range(times):
        mask = inputs.image(chance)
        expect("a raw file", readers.read_image(simulator.raw_file(mask)), mask)
        expect("a spelled file", readers.read_image(inputs.spelled_image(chance, mask)), mask)
        conn, state = chance.choice([4, 8]), simulator.EMPTY
        for line in inputs.edits(chance, mask, chance.randrange(30)):
            for delta in readers.read_edits(line.encode() + b"\n"):
                try:
                    state = simulator.merged(state, delta, mask.width, mask.height)
                except Refused:
                    pass
        marker = simulator.marker_of(mask, state)
        expect("a flood", simulator.reconstruction(mask, marker, conn), simulator.by_thresholds(mask, marker, conn))
        file = simulator.state_file(conn, simulator.fingerprint_of(mask), state)
        again = simulator.EMPTY
        for frame in readers.read_state_file(file):
            again = simulator.join(again, frame.state)
        expect("a state file", again, state)


def main():
    """Check all of it."""
    check_examples()
    check_stored_run()
    check_pieces()
    check_random(300)
    print("the reference agrees with itself and with all examples")


if __name__ == "__main__":
    main()
