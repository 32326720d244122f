#!/usr/bin/env python3
"""Measure the view of labels of `seedpaint paint` in Chromium, and print a table in Markdown.

    python3 tools/paint_timing_labels.py [--lit] crates/seedpaint/out/seedpaint paint

The words, the picture and the strokes are those of `paint_timing.py`. Measured are the first labels, steps of the
slider until their labels are drawn, strokes that are painted in the view, and the memory of the page. Slider and
strokes have a minute each: on a busy machine a row tells how many it had by then. It needs Python 3 and Debian's
package chromium, and takes some minutes.
"""

import pathlib
import random
import shutil
import sys
import tempfile
import time

from browser import Browser, Fault
from paint_testing import Page, Program
from paint_timing import (Client, cells_of, largest_renderer, paint_strokes, place_discs, read_words, spread,
                          write_mask)

QUIET = "labels.shown && labels.asked === 0 && !labels.isWanted && labels.newsFrom === 0"
STEPS = 40
MOST_SECONDS = 60        # for the steps of each kind, and for the strokes
STROKES_IN_TURN = 10
MOST_STEP_SECONDS = 20
STEP = """(async () => {
    const frame = () => new Promise(requestAnimationFrame), end = performance.now() + 1000 * %d;
    const isOver = () => performance.now() > end;
    if (labels.choice.kind !== "%s") setLabelChoice({ kind: "%s" });
    while ((labels.asked > 0 || labels.isWanted) && !isOver()) await frame();
    const before = labels.stamp, begun = performance.now();
    setThreshold(%r);
    while ((labels.stamp === before || asked.picture) && !isOver()) await frame();
    return isOver() ? null : performance.now() - begun; })()"""


def within_time(works):
    """What works give, one after the other, until all are done or the time is over. One that gave up ends them, too."""
    found, end = [], time.monotonic() + MOST_SECONDS
    for work in works:
        if time.monotonic() > end:
            break
        values = work()
        if None in values:
            break
        found += values
    return found


def row(name, found, wanted):
    """A row of the table, which says where not all was seen."""
    seen = "" if len(found) == wanted else f" ({len(found)} of {wanted} in {MOST_SECONDS} s)"
    print(f"| {name}{seen}, ms | {spread(found)} |", flush=True)


def measure(words, folder, browser):
    """Everything, row by row."""
    rng = random.Random(7)
    cells = cells_of(words.size, words.cells, rng)
    mask = folder / "cells.pgm"
    write_mask(mask, words, cells, rng)
    program = Program(words.command, folder)
    program.start(mask)
    try:
        page = Page(browser.open(program.address))
        place_discs(Client(program.address), cells[:words.strokes])
        page.settle(words.strokes, 120)
        begun = time.perf_counter()
        page.tab.key("l")
        page.tab.wait(f"{QUIET} && !asked.picture", 120)
        print(f"| the first labels, s | {time.perf_counter() - begun:.2f} | | |", flush=True)
        tell(words, browser, page, cells)
    finally:
        program.stop()


def slide(page, kind, values):
    """The milliseconds of steps of the slider."""
    script = {value: STEP % (MOST_STEP_SECONDS, kind, kind, value) for value in values}
    return within_time(lambda value=value: [page.tab.run(script[value])] for value in values)


def paint(page, cells, known):
    """The times of strokes, some in turn."""
    def some(start):
        return paint_strokes(page, cells[start:start + STROKES_IN_TURN], known + start)
    return within_time(lambda start=start: some(start) for start in range(0, len(cells), STROKES_IN_TURN))


def tell(words, browser, page, cells):
    """The rows of slider, strokes and memory."""
    most = 255 if words.bits == 8 else 65_535
    for kind, values in (("share", [0.1 + 0.8 * k / STEPS for k in range(STEPS)]),
                         ("level", [round(most * (0.1 + 0.6 * k / STEPS)) for k in range(STEPS)])):
        row(f"a step of the slider for the {kind} until drawn", slide(page, kind, values), STEPS)
    page.tab.run("setLabelChoice({ kind: 'share', share: .5 }), 0")
    painted = paint(page, cells[words.strokes:words.strokes + words.edits], words.strokes)
    for name, key in (("pixels drawn", "drawn"), ("its answer", "answered")):
        times = [timing[key] - timing["begun"] for timing in painted]
        row(f"a stroke in the view, from button up to {name}", times, words.edits)
    begun = time.perf_counter()
    page.tab.wait(f"{QUIET} && labels.shown.objects.length === {words.strokes + len(painted)}", 120)
    print(f"| behind the last stroke until its label, s | {time.perf_counter() - begun:.2f} | | |")
    print(f"| memory of the page's tab, MB | {largest_renderer(browser):.0f} | | |", flush=True)


def main():
    """Measure in a folder that is thrown away."""
    words = read_words()
    folder = pathlib.Path(tempfile.mkdtemp(prefix="paint-timing-"))
    ground = "ground nowhere 0" if words.lit else "black ground"
    print(f"| {words.size} by {words.size}, {words.bits} bits, {words.strokes} strokes, {ground} | median | 95 % "
          "| most |\n| --- | ---: | ---: | ---: |", flush=True)
    try:
        with Browser() as browser:
            measure(words, folder, browser)
    except Fault as fault:
        sys.exit(f"paint_timing_labels.py: {fault}")
    finally:
        shutil.rmtree(folder, ignore_errors=True)


if __name__ == "__main__":
    main()
