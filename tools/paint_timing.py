#!/usr/bin/env python3
"""Measure the page of `seedpaint paint` in Chromium, and print tables in Markdown.

    python3 tools/paint_timing.py crates/seedpaint/out/seedpaint paint

The words are the command that serves. The picture has 5,000 cells and 4,000 strokes; `--size`, `--cells`, `--strokes`
and `--bits` choose others. Strokes are painted with real mouse events, and the page itself takes the times, from button
up to pixels drawn, in the view of what is kept and in that of labels, for the slider of labels, and for the export of a
label image. With `--lit` the ground is nowhere 0, so that a withdrawal resets all tiles; then a withdrawal is
measured, too. It needs Python 3 and Debian's package chromium, and takes some minutes.
"""

import argparse
import http.client
import pathlib
import random
import shutil
import statistics
import sys
import tempfile
import threading
import time
import urllib.parse

from browser import Browser, Fault
from paint_testing import Page, Program

STROKES_A_POST = 2_000
# How many strokes are withdrawn while nobody else looks.
WITHDRAWALS = 9
# A step that no board comes to.
NEVER = 10 ** 18


# ---- The picture ----

def spans_of(radius):
    """The rows of a disc, each with half its width."""
    return [(row, int((radius * radius - row * row) ** 0.5)) for row in range(-radius, radius + 1)]


def cells_of(size, count, rng):
    """Centres and radii of cells that do not touch, on a grid with places to spare."""
    side = int(size / (count ** 0.5 + 1))
    places = [(column * side + side // 2, row * side + side // 2)
              for row in range(size // side) for column in range(size // side)]
    return [(x, y, rng.randrange(side // 5, side * 2 // 5)) for x, y in rng.sample(places, count)]


def write_mask(path, words, cells, rng):
    """A picture of cells on black ground, or on ground that is nowhere 0."""
    ground = 20 if words.lit else 0
    samples = bytearray([ground]) * (words.size * words.size)
    for x, y, radius in cells:
        level = bytes([rng.randrange(120, 250)])
        for row, half in spans_of(radius):
            start = (y + row) * words.size + x - half
            samples[start:start + 2 * half + 1] = level * (2 * half + 1)
    if words.bits == 16:
        samples = b"".join(bytes([sample, 255 - sample]) for sample in samples)
    maxval = 255 if words.bits == 8 else 65_535
    path.write_bytes(f"P5\n{words.size} {words.size}\n{maxval}\n".encode() + samples)


# ---- Requests beside the page ----

class Client:
    """Requests over one connection, as the page makes them."""

    def __init__(self, address):
        parts = urllib.parse.urlsplit(address)
        self.host, self.path = parts.netloc, parts.path
        self.connection = http.client.HTTPConnection(self.host)

    def ask(self, method, path, body=None):
        """The answer's bytes, and the milliseconds until they were all there."""
        begun = time.perf_counter()
        self.connection.request(method, self.path + path, body, {"Origin": f"http://{self.host}"})
        answer = self.connection.getresponse()
        data = answer.read()
        if answer.status != 200:
            raise Fault(f"{method} {path}: {answer.status} {data[:100]}")
        return data, 1000 * (time.perf_counter() - begun)

    def numbers(self, run=0, since=0):
        """RUN, VERSION, STEP, QUIET and TILES-LEFT, and the milliseconds of the request."""
        data, milliseconds = self.ask("GET", f"changes?run={run}&since={since}")
        return [int(word) for word in data.split(b"\n", 1)[0].split()], milliseconds

    def await_quiet(self):
        """Waits until nothing grows any more, and gives the numbers."""
        numbers, _ = self.numbers()
        while not numbers[3]:
            time.sleep(0.02)
            numbers, _ = self.numbers(numbers[0], numbers[2])
        return numbers


def place_discs(client, cells):
    """A disc in each of the cells."""
    for start in range(0, len(cells), STROKES_A_POST):
        lines = [f"disc {start + k:08x}-0000-4000-8000-000000000000 65535 {y}:{x}+2\n"
                 for k, (x, y, _) in enumerate(cells[start:start + STROKES_A_POST])]
        client.ask("POST", "edits?run=0&since=0", "".join(lines))
    client.await_quiet()


# ---- Figures ----

def spread(milliseconds):
    """Median, 95 % and the most, of a list; or that it has none."""
    ranked = sorted(milliseconds)
    if not ranked:
        return "none seen | |"
    at = [statistics.median(ranked), ranked[min(len(ranked) - 1, int(0.95 * len(ranked)))], ranked[-1]]
    return " | ".join(f"{value:.1f}" for value in at)


def proportional_size(pid):
    """The memory of a process in MB, with its part of what it shares."""
    for line in pathlib.Path(f"/proc/{pid}/smaps_rollup").read_text().splitlines():
        if line.startswith("Pss:"):
            return int(line.split()[1]) / 1000
    raise Fault(f"no memory of process {pid}")


def peak_size(pid):
    """The most memory that a process had, in MB."""
    for line in pathlib.Path(f"/proc/{pid}/status").read_text().splitlines():
        if line.startswith("VmHWM:"):
            return int(line.split()[1]) / 1000
    raise Fault(f"no memory of process {pid}")


def largest_renderer(browser):
    """The memory in MB of the browser's largest process that shows pages."""
    sizes = []
    for entry in pathlib.Path("/proc").glob("[0-9]*"):
        try:
            words = (entry / "cmdline").read_bytes()
        except OSError:
            continue
        if b"--type=renderer" in words and str(browser.folder).encode() in words:
            sizes.append(proportional_size(entry.name))
    return max(sizes)


# ---- What is measured ----

def look_at(tab, x, y, zoom):
    """Brings a pixel into the middle of the page."""
    tab.run(f"sight.zoom = {zoom}; sight.left = picture.width / 2 - {x * zoom};"
            f" sight.top = picture.height / 2 - {y * zoom}; redraw(); 0")


def paint_strokes(page, cells, known):
    """Strokes painted one after another, each in a cell that has none: their times in the page."""
    page.tab.run("timings.length = 0; setRadius(3); performance.setResourceTimingBufferSize(100000);"
                 " performance.clearResourceTimings(); 0")
    for k, (x, y, _) in enumerate(cells, 1):
        look_at(page.tab, x, y, 1)
        page.drag((x - 4, y - 1), (x, y), (x + 3, y + 2))
        page.tab.wait(f"board.strokes.size === {known + k} && board.isQuiet && timings.length === {k}"
                      f" && timings[{k - 1}].grown > 0")
    return page.tab.run("timings")


def slide_labels(page, shares):
    """The milliseconds from each share of the labels until they are drawn."""
    return [page.tab.run(f"""new Promise(done => {{
        const {{ stamp }} = labels, begun = performance.now();
        setThreshold({share});
        (function look() {{
            if (labels.stamp === stamp || labels.asked) setTimeout(look);
            else requestAnimationFrame(() => setTimeout(() => done(performance.now() - begun)));
        }})(); }})""") for share in shares]


def export_labels(page, count):
    """The seconds from the button until each file of a label image is there."""
    return [page.tab.run("""(async () => {
        const begun = performance.now();
        await exportFile("exportLabelsPng");
        return (performance.now() - begun) / 1000; })()""") for _ in range(count)]


def requests_of(page, name):
    """The milliseconds of the page's requests of this name."""
    return page.tab.run(f"""performance.getEntriesByType("resource").filter(entry => entry.name.includes("/{name}?"))
        .map(entry => entry.responseEnd - entry.requestStart)""")


def frames(page, act, seconds=3):
    """The milliseconds between frames while the pointer acts."""
    page.tab.run("""window.frames_seen = []; window.counts_frames = true; (function next(now) {
        frames_seen.push(performance.now()); if (counts_frames) requestAnimationFrame(next); })(); 0""")
    end = time.monotonic() + seconds
    while time.monotonic() < end:
        act()
    page.tab.run("counts_frames = false; 0")
    seen = page.tab.run("frames_seen")
    return [later - earlier for earlier, later in zip(seen, seen[1:])]


def frames_of_zoom(page):
    """The whole way in and out at the middle of the picture."""
    turns = [-120] * 16 + [120] * 16
    page.tab.key("f")
    point = page.at(*page.tab.run("[board.width >> 1, board.height >> 1]"))

    def act():
        for turn in turns:
            page.tab.wheel(*point, turn)
    return frames(page, act)


def frames_of_pan(page, zoom):
    """To and fro with the middle button."""
    look_at(page.tab, *page.tab.run("[board.width >> 1, board.height >> 1]"), zoom)
    return frames(page, lambda: page.tab.drag([(400 + 20 * abs(k), 300 + 10 * abs(k)) for k in range(-15, 16)],
                                              button="middle"))


class Looker(threading.Thread):
    """Looks for news without a pause, in a thread of its own: the milliseconds of each look, and the tiles left.

    Without news it asks for what is newer than anything, so that its answers have numbers alone.
    """

    def __init__(self, address, news=True):
        super().__init__(daemon=True)
        self.client, self.milliseconds, self.tiles_left, self.is_ended = Client(address), [], [], False
        self.news = news
        self.start()

    def run(self):
        (run, _, since, *_), _ = self.client.numbers()
        while not self.is_ended:
            (run, _, step, _, left), milliseconds = self.client.numbers(run, since if self.news else NEVER)
            since = step
            self.milliseconds.append(milliseconds)
            self.tiles_left.append(left)

    def in_growth(self):
        """The milliseconds of those looks that began and ended while tiles were left."""
        befores = self.tiles_left[:-1]
        return [time for time, before, after in zip(self.milliseconds[1:], befores, self.tiles_left[1:])
                if before and after]

    def end(self):
        """Ends it."""
        self.is_ended = True
        self.join()


def withdraw_strokes(page, cells, known):
    """Strokes withdrawn one after another by a click on each, while nobody else looks: their times in the page."""
    page.tab.key("x")
    page.tab.run("timings.length = 0; 0")
    for k, (x, y, _) in enumerate(cells, 1):
        look_at(page.tab, x, y, 1)
        page.drag((x, y))
        page.tab.wait(f"board.strokes.size === {known - k} && board.isQuiet && timings.length === {k}"
                      f" && timings[{k - 1}].grown > 0", 120)
    page.tab.key("b")
    return page.tab.run("timings")


def withdraw(page, address, cell, known):
    """A withdrawal by a click while two other clients look without a pause, one of them for no news: seconds of growth,
    and the looks of both."""
    x, y, _ = cell
    page.tab.key("x")
    look_at(page.tab, x, y, 1)
    looker, waiter = Looker(address), Looker(address, news=False)
    begun = time.perf_counter()
    page.drag((x, y))
    page.tab.wait(f"outbox.length === 0 && board.isQuiet && board.strokes.size === {known - 1}", 120)
    seconds = time.perf_counter() - begun
    looker.end()
    waiter.end()
    page.tab.key("b")
    return seconds, looker, waiter


def measure(words, folder, browser):
    """Everything, and the lines that tell it."""
    rng = random.Random(7)
    cells = cells_of(words.size, words.cells, rng)
    mask = folder / "cells.pgm"
    write_mask(mask, words, cells, rng)
    program = Program(words.command, folder)
    begun = time.perf_counter()
    program.start(mask)
    try:
        page = Page(browser.open(program.address))
        page.tab.download_to(folder)
        page.tab.wait("!asked.picture")
        shown = time.perf_counter() - begun
        print(f"| start until the page shows the mask, s | {shown:.2f} | | |", flush=True)
        client = Client(program.address)
        place_discs(client, cells[:words.strokes])
        page.settle(words.strokes, 120)
        tell(words, program, browser, page, cells)
    finally:
        program.stop()


def tell(words, program, browser, page, cells):
    """The rows of the table, one by one."""
    half = words.edits // 2
    tell_labels(page, cells[words.strokes:words.strokes + half], words.strokes)
    painted = paint_strokes(page, cells[words.strokes + half:words.strokes + words.edits], words.strokes + half)
    for name, key in (("pixels drawn", "drawn"), ("all of it grown and drawn", "grown"), ("its answer", "answered")):
        times = [timing[key] - timing["begun"] for timing in painted]
        print(f"| a stroke, from button up to {name}, ms | {spread(times)} |", flush=True)
    print(f"| `POST edits`, in the page, ms | {spread(requests_of(page, 'edits'))} |")
    client = Client(program.address)  # (the one before was idle for longer than a connection may be)
    run, _, since, *_ = client.await_quiet()
    print(f"| a look with no news, ms | {spread([client.numbers(run, since)[1] for _ in range(500)])} |", flush=True)
    print(f"| between two frames of zooming, ms | {spread(frames_of_zoom(page))} |")
    for zoom in (0.25, 1, 4):
        figures = spread(frames_of_pan(page, zoom))
        print(f"| between two frames of panning at {100 * zoom:g} %, ms | {figures} |", flush=True)
    if words.lit:
        known = words.strokes + words.edits
        withdrawn = withdraw_strokes(page, cells[1:1 + WITHDRAWALS], known)
        for name, key in (("its answer", "answered"), ("all of it grown and drawn", "grown")):
            times = [timing[key] - timing["begun"] for timing in withdrawn]
            print(f"| a withdrawal, from button up to {name}, ms | {spread(times)} |", flush=True)
        seconds, looker, waiter = withdraw(page, program.address, cells[0], known - WITHDRAWALS)
        print("| a withdrawal beside two that look without a pause, until all is grown and drawn, s "
              f"| {seconds:.2f} | | |")
        print(f"| a look meanwhile, ms | {spread(looker.milliseconds)} |")
        print(f"| a request without pixels while tiles are left, ms | {spread(waiter.in_growth())} |")
        print(f"| most tiles left meanwhile | {max(looker.tiles_left)} | | |")
    print(f"| memory of the program, MB | {peak_size(program.process.pid):.0f} | | |")
    print(f"| memory of the page's tab, MB | {largest_renderer(browser):.0f} | | |", flush=True)


def tell_labels(page, cells, known):
    """The rows of the view of labels; behind them what is kept is shown again."""
    page.show("labels")
    page.tab.wait("labels.shown && !labels.asked", 120)
    painted = paint_strokes(page, cells, known)
    times = [timing["drawn"] - timing["begun"] for timing in painted]
    print(f"| a stroke in the view of labels, from button up to pixels drawn, ms | {spread(times)} |", flush=True)
    page.tab.run("currentLabelling().then(() => 0)")
    shares = [.3 + .02 * number for number in range(20)]
    print(f"| labels of another share, until they are drawn, ms | {spread(slide_labels(page, shares))} |", flush=True)
    print(f"| the export of a label image as PNG, s | {spread(export_labels(page, 5))} |", flush=True)
    page.show("kept")


def read_words():
    """The words of the command line."""
    parser = argparse.ArgumentParser(description="Measure the page of `seedpaint paint` in Chromium.")
    parser.add_argument("--size", type=int, default=4096, metavar="N", help="side of the picture (4096)")
    parser.add_argument("--bits", type=int, default=8, choices=(8, 16), help="bits of a sample (8)")
    parser.add_argument("--cells", type=int, default=5000, metavar="N", help="cells in the picture (5000)")
    parser.add_argument("--strokes", type=int, default=4000, metavar="N", help="strokes to begin with (4000)")
    parser.add_argument("--edits", type=int, default=200, metavar="N", help="strokes that are measured (200)")
    parser.add_argument("--lit", action="store_true", help="a ground that is nowhere 0; a withdrawal is measured")
    parser.add_argument("command", nargs=argparse.REMAINDER, help="the words that serve, as `seedpaint paint`")
    words = parser.parse_args()
    if not words.command or words.strokes + words.edits > words.cells:
        parser.error("the command that serves is missing, or the cells do not suffice")
    if not shutil.which(words.command[0]):
        parser.error(f"{words.command[0]} is not there; `rt run` in crates/seedpaint makes the program")
    return words


def main():
    """Measure in a folder that is thrown away."""
    words = read_words()
    folder = pathlib.Path(tempfile.mkdtemp(prefix="paint-timing-"))
    ground = "ground nowhere 0" if words.lit else "black ground"
    print(f"| {words.size} by {words.size}, {words.bits} bits, {words.cells} cells, {words.strokes} strokes, {ground} "
          "| median | 95 % | most |\n| --- | ---: | ---: | ---: |", flush=True)
    try:
        with Browser() as browser:
            measure(words, folder, browser)
    except Fault as fault:
        sys.exit(f"paint_timing.py: {fault}")
    finally:
        shutil.rmtree(folder, ignore_errors=True)


if __name__ == "__main__":
    main()
