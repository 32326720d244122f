#!/usr/bin/env python3
"""Measure withdrawals by requests to `seedpaint paint`, without a browser, and print a table in Markdown.

    python3 tools/paint_timing_requests.py --lit crates/seedpaint/out/seedpaint paint

The words, the picture and the strokes are those of `paint_timing.py`. Strokes are withdrawn one after another, as the
page does it: it asks for numbers alone until nothing grows any more, here without a pause, and then for all that
changed. With `--lit` each of them resets all tiles. It needs Python 3 and takes some seconds.
"""

import pathlib
import random
import shutil
import sys
import tempfile
import time

from browser import Fault
from paint_testing import Program
from paint_timing import NEVER, Client, cells_of, peak_size, place_discs, read_words, spread, write_mask

WITHDRAWALS = 12


class Times:
    """The milliseconds of withdrawals, by what they are of."""

    def __init__(self):
        self.answers, self.looks, self.growths, self.changes = [], [], [], []

    def rows(self):
        """Each list with its name."""
        return [("the withdrawal's own answer, ms", self.answers),
                ("a request without pixels while tiles are left, ms", self.looks),
                ("from the withdrawal until all is grown, ms", self.growths),
                ("all that changed, behind that, ms", self.changes)]


def withdraw(client, tag, times):
    """Withdraws a stroke and waits until all is grown."""
    run, _, since, *_ = client.await_quiet()
    begun = time.perf_counter()
    _, milliseconds = client.ask("POST", f"edits?run={run}&since={NEVER}", f"withdraw {tag}\n")
    times.answers.append(milliseconds)
    (_, _, _, quiet, _), milliseconds = client.numbers(run, NEVER)
    while not quiet:
        times.looks.append(milliseconds)
        (_, _, _, quiet, _), milliseconds = client.numbers(run, NEVER)
    times.growths.append(1000 * (time.perf_counter() - begun))
    times.changes.append(client.ask("GET", f"changes?run={run}&since={since}")[1])


def measure(words, folder):
    """All withdrawals, and the lines that tell their times."""
    rng = random.Random(7)
    cells = cells_of(words.size, words.cells, rng)
    mask = folder / "cells.pgm"
    write_mask(mask, words, cells, rng)
    program = Program(words.command, folder)
    program.start(mask)
    try:
        client, times = Client(program.address), Times()
        place_discs(client, cells[:words.strokes])
        for k in range(WITHDRAWALS):
            withdraw(client, f"{k:08x}-0000-4000-8000-000000000000", times)
        for name, milliseconds in times.rows():
            print(f"| {name} | {spread(milliseconds)} |")
        print(f"| memory of the program, MB | {peak_size(program.process.pid):.0f} | | |", flush=True)
    finally:
        program.stop()


def main():
    """Measure in a folder that is thrown away."""
    words = read_words()
    folder = pathlib.Path(tempfile.mkdtemp(prefix="paint-timing-"))
    print(f"| {words.size} by {words.size}, {WITHDRAWALS} withdrawals | median | 95 % | most |\n"
          "| --- | ---: | ---: | ---: |", flush=True)
    try:
        measure(words, folder)
    except Fault as fault:
        sys.exit(f"paint_timing_requests.py: {fault}")
    finally:
        shutil.rmtree(folder, ignore_errors=True)


if __name__ == "__main__":
    main()
