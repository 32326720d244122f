#!/usr/bin/env python3
"""Write the strokes of state files as edit lines.

    python3 tools/strokes_from_state.py mine.pgm.spd > strokes.txt

The lines are those of the live strokes, rising by tag, as docs/FORMATS.md spells them; of several files they are those
of the join. With --class N those of this class alone come, 1 to 255, as their tags tell it. With --all strokes that are
withdrawn come too, and a line `withdraw TAG` for each withdrawal behind them: from these lines and the mask the program
makes the same state again. It needs Python alone.
"""

import argparse
import pathlib
import sys

from running import Fault, run
from state_files import read_state_file
from tags import class_of


def line_of(tag, stroke):
    """The edit line of a stroke."""
    if stroke.is_disc:
        (y, x, radius), = stroke.shape
        return f"disc {tag} {stroke.level} {y}:{x}+{radius}\n"
    runs = ",".join(f"{y}:{first}-{last}" for y, first, last in stroke.shape)
    return f"place {tag} {stroke.level} {runs}\n"


def joined(names):
    """The strokes and the withdrawn tags of all these state files."""
    strokes, withdrawn = {}, set()
    for name in names:
        its_strokes, its_withdrawn = read_state_file(name, pathlib.Path(name).read_bytes())
        for tag, stroke in its_strokes.items():
            if strokes.setdefault(tag, stroke) != stroke:
                raise Fault(f"{name} has another stroke with the tag {tag} than a file before it: they cannot be "
                            f"joined")
        withdrawn |= its_withdrawn
    return strokes, withdrawn


def class_number(word):
    """A class of the command line."""
    if not word.isascii() or not word.isdigit() or not 1 <= int(word) <= 255:
        raise argparse.ArgumentTypeError("a class is a number from 1 to 255")
    return int(word)


def read_words():
    """What the words of the command line ask for."""
    parser = argparse.ArgumentParser(description="Write the strokes of state files as edit lines.")
    parser.add_argument("states", nargs="+", help="state files, for one mask")
    which = parser.add_mutually_exclusive_group()
    which.add_argument("--all", action="store_true", help="write withdrawn strokes and withdrawals, too")
    which.add_argument("--class", type=class_number, dest="in_class", metavar="N", help="write this class alone")
    return parser.parse_args()


def main():
    """Read the state files, write the lines."""
    words = read_words()
    strokes, withdrawn = joined(words.states)
    shown = sorted(tag for tag in strokes if words.all or tag not in withdrawn)
    if words.in_class:
        shown = [tag for tag in shown if class_of(tag) == words.in_class]
    sys.stdout.writelines(line_of(tag, strokes[tag]) for tag in shown)
    if words.all:
        sys.stdout.writelines(f"withdraw {tag}\n" for tag in sorted(withdrawn))


if __name__ == "__main__":
    sys.exit(run(main))
