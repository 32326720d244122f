"""Views and merging beside the plain simulator of bench/fuzz and beside the program.

Inputs and state files are those of bench/fuzz, good ones and mutated ones. Bytes and
lines of faults have to be equal. The program is the one that SEEDPAINT names, or that
`rt run` made; without it that comparison is left out.
"""

import hashlib
import os
import pathlib
import random
import sys
import tempfile
import unittest
import unittest.mock

import seedpaint
from seedpaint import _library, errors

TOP = pathlib.Path(__file__).parents[2]
sys.path.insert(0, str(TOP / "bench/fuzz"))
import cases as fuzz  # noqa: E402
import run as makers  # noqa: E402
import simulator  # noqa: E402
from readers import Refused, split_input  # noqa: E402

PROGRAM = os.environ.get("SEEDPAINT", str(TOP / "crates/seedpaint/out/seedpaint"))
KINDS = ("pgm", "edits", "frames", "states", "script")
BESIDE_SIMULATOR = 4000  # cases of each kind
BESIDE_PROGRAM = 400


def views(count):
    """Of so many cases of each kind those that are views, without troubles of files."""
    for kind in KINDS:
        for number in range(count):
            case = getattr(makers, kind)(random.Random(f"{kind} {number}"))
            if not case.call.kind and not case.trouble:
                yield case


def by_library(case, pixels):
    """What the library answers: a fault's line, the image's file and the state file."""
    old = case.old or b""
    try:
        if not case.has_file:
            return b"", _library.view(case.stdin, case.call.conn, pixels), None
        return b"", *_library.view_kept(case.stdin, old, case.call.conn, pixels)
    except seedpaint.Fault as fault:
        return fault.line.encode() + b"\n", b"", case.old if case.has_file else None


def same_form(answer):
    """The same of an answer of the simulator or the program."""
    return answer.line, answer.output, answer.kept


def by_merging(text, mask, fingerprint, case):
    """What merging answers: the line of a fault, or the state file."""
    shape = (mask.height, mask.width)
    try:
        return _library.merge(text, case.old or b"", fingerprint, shape, case.call.conn)
    except seedpaint.Fault as fault:
        return fault.line.encode() + b"\n"


class Views(unittest.TestCase):
    def test_beside_the_simulator(self):
        codes = set()
        for number, case in enumerate(views(BESIDE_SIMULATOR)):
            expected = fuzz.expected(case)
            codes.add(fuzz.code_of(expected))
            got = by_library(case, (0, 5000)[number % 2])
            self.assertEqual(got, same_form(expected), case)
        self.assertLessEqual({code[:2] for code in codes}, {"wr", *errors._SENTENCES})
        for code in ("written", "V1", "E1", "E2", "E3 S4", "P6", "P7", "C1", "C2"):
            self.assertIn(code, codes)
        for code in ("M1", "M2", "M3", "M4", "M5 S4", "M6", "M7", "D1"):
            self.assertIn(code, codes)

    @unittest.skipUnless(os.path.exists(PROGRAM), "the program is not built")
    def test_beside_the_program(self):
        with tempfile.TemporaryDirectory() as name:
            folder = pathlib.Path(name) / "case"
            for case in views(BESIDE_PROGRAM):
                answer = fuzz.play(PROGRAM, folder, case)
                self.assertEqual(by_library(case, 5000), same_form(answer), case)

    def test_merging(self):
        tried = 0
        for case in views(BESIDE_SIMULATOR // 4):
            try:
                text, file = split_input(case.stdin)
                mask, fingerprint = simulator.mask_of(file)
            except Refused:
                continue
            answer = simulator.view(case.stdin, case.call.conn, case.old or b"")
            got = by_merging(text, mask, fingerprint, case)
            self.assertEqual(got, answer.line or answer.kept, case)
            tried += 1
        self.assertGreater(tried, BESIDE_SIMULATOR // 2)


class Buffers(unittest.TestCase):
    def test_one_that_is_too_short_is_told_and_left_alone(self):
        data = b"image\nP5\n3 2\n255\nabcdef"
        code, out, lengths = self.view(data, 5)
        self.assertEqual(code, _library.NO_ROOM)
        self.assertEqual(lengths.out, len(data) - 6)
        self.assertEqual(bytes(out), 5 * b"\7")
        code, out, lengths = self.view(data, 25)
        self.assertEqual((code, lengths.out), (_library.OK, len(data) - 6))
        self.assertEqual(bytes(out), b"P5\n3 2\n255\n" + 6 * b"\0" + 8 * b"\7")

    def test_a_state_file_is_asked_for_again_where_it_has_no_room(self):
        data = b"image\nP5\n3 2\n255\nabcdef"
        edits = b"disc 00000000-0000-4000-8000-000000000001 9 0:0+1\n"
        print_of_mask = hashlib.sha256(data[6:]).digest()

        def both():
            state = _library.merge(edits, b"", print_of_mask, (2, 3), 4)
            return state, *_library.view_kept(edits + data, b"", 4, 6)

        expected = both()
        self.assertEqual(expected[0], expected[2])
        with unittest.mock.patch.object(_library, "_state_room", return_value=1):
            self.assertEqual(both(), expected)

    def view(self, data, room):
        """The code, buffer and lengths of a view into a buffer of this length."""
        out = (_library.ctypes.c_ubyte * room)(*room * [7])
        fault = (_library.ctypes.c_ubyte * 64)()
        lengths = _library.Lengths()
        address = _library.ctypes.addressof
        code = _library._library.seedpaint_view(
            *(data, len(data), 4, address(out), room, address(fault), 64),
            _library.ctypes.byref(lengths),
        )
        return code, out, lengths


if __name__ == "__main__":
    unittest.main()
