"""What tests of the page share: a program that serves, pages in tabs, masks, what is expected, and how checks run.

A file `paint_test_NAME.py` has functions, each of which takes a sitting and begins with a state file of its own:

    from paint_testing import BOTH_DEPTHS, check, run_alone

    def two_strokes(sitting):
        for mask in BOTH_DEPTHS:                                # the cells with 8 and with 16 bits
            sitting.open_anew(mask, f"two-{mask}.spd")          # the program is started anew, both tabs open its page
            page = sitting.first                                # and sitting.second, each in a browser of its own
            page.drag((83, 66), (91, 71), (101, 77))            # by pixels of the mask
            page.drag((206, 188))                               # a disc
            sitting.both(2)                                     # both pages have two strokes, all kept and grown
            page.click("strokesShown")                          # a button by its id
            page.tab.key("b")                                   # and whatever else a Tab of browser.py can do
            check(page.tab.text("kept") == "all kept", f"{mask}: what holds, in words")
            sitting.look(f"two-strokes-{mask}")                 # a picture, where `--screens FOLDER` asks for one

    CHECKS = [two_strokes]

    if __name__ == "__main__":
        run_alone(__doc__, CHECKS)

Each file runs alone, `python3 tools/paint_test_NAME.py [--only two] seedpaint paint`, and all of them are run by
`paint_test.py`, which finds them by their names. A file has two browsers and a folder of its own, so what a check
leaves in the storage of a browser is there for the next one of its file alone. Behind each check an exception in either
page, one that nobody caught in a worker, and a report of the content security policy are faults.
"""

import argparse
import base64
import contextlib
import math
import pathlib
import shutil
import signal
import subprocess
import sys
import tempfile
import time
import urllib.parse
import urllib.request

from browser import SHIFT, Browser, Fault, be_patient, wait_for

TOP = pathlib.Path(__file__).resolve().parent.parent
sys.path.insert(0, str(TOP / "bench" / "fuzz"))
import readers  # noqa: E402
import simulator  # noqa: E402

BOTH_DEPTHS = ("cells", "deep")  # the names of the masks of the cells with 8 and with 16 bits
COLLEAGUE = [b"disc 7e57ab1e-0000-4000-8000-00000000000%d %d %d:%d+2\n" % (k, level, y, x)
             for k, (level, y, x) in enumerate([(200, 30, 40), (255, 188, 206), (255, 142, 285)])]


def check(holds, name):
    """Says that a check passed, or ends."""
    if not holds:
        raise Fault(f"failed: {name}")
    print(f"ok: {name}", flush=True)


# ---- The program ----

class Program:
    """The program that serves, with its mask, its state file and its port."""

    def __init__(self, words, folder):
        self.words, self.state, self.port = words, folder / "strokes.spd", 0
        self.process, self.address = None, None

    def start(self, mask):
        """Starts it, at the port that it had, or else at a free one; the address is its first line."""
        command = [*self.words, str(mask), "--state", str(self.state), "--port", str(self.port)]
        self.process = subprocess.Popen(command, stdout=subprocess.PIPE, text=True)
        self.address = self.process.stdout.readline().strip()
        if not self.address:
            raise Fault(f"{' '.join(command)} printed no address")
        self.port = int(self.address.split(":")[2].split("/")[0])

    def start_elsewhere(self, mask):
        """Starts it at another port than it had."""
        before = self.port
        while self.port == before:
            self.stop()
            self.port = 0
            self.start(mask)

    def stop(self):
        """Ends it as a terminal does."""
        if self.process and self.process.poll() is None:
            self.process.send_signal(signal.SIGINT)
            try:
                self.process.wait(5)
            except subprocess.TimeoutExpired:
                self.process.kill()
                self.process.wait()

    @contextlib.contextmanager
    def paused(self):
        """Meanwhile it does nothing, and its connections stay."""
        self.process.send_signal(signal.SIGSTOP)
        try:
            yield
        finally:
            self.process.send_signal(signal.SIGCONT)

    def told_name(self):
        """The name of the mask's file, where it tells one."""
        with urllib.request.urlopen(self.address + "mask") as answer:
            disposition = answer.headers.get("Content-Disposition", "")
        return urllib.parse.unquote(disposition.partition("filename*=UTF-8''")[2])

    def get(self, path):
        """What it answers to GET."""
        with urllib.request.urlopen(self.address + path) as answer:
            return answer.read()


# ---- The page ----

class Page:
    """A page in a tab, by the places of the mask's pixels."""

    def __init__(self, tab):
        self.tab = tab
        self.await_open()

    def await_open(self):
        """Waits until the picture is there."""
        self.tab.wait("board.isOpen && document.title.includes('×')")

    def at(self, x, y):
        """Where a pixel of the mask lies in the window."""
        return self.tab.run(f"""(() => {{
            const box = overlay.getBoundingClientRect(), ratio = overlay.width / box.width;
            return [Math.round(box.left + (sight.left + ({x} + .5) * sight.zoom) / ratio - .5),
                    Math.round(box.top + (sight.top + ({y} + .5) * sight.zoom) / ratio - .5)]; }})()""")

    def drag(self, *pixels, **more):
        """Presses the button at the first pixel and lets it go at the last."""
        self.tab.drag([self.at(*pixel) for pixel in pixels], **more)

    def go(self, address):
        """Goes to an address, and waits until the picture is there."""
        self.tab.run("document.title = ''")
        self.tab.go(address)
        self.await_open()

    def move_to(self, address):
        """Enters an address where the page asks for a new one, and waits until its picture is there."""
        self.tab.run("element('newAddress').value = '', document.title = ''")
        self.tab.click_element("newAddress")
        self.tab.type(address)
        self.tab.click_element("goThere")
        self.await_open()

    def strokes(self):
        """The live strokes that the page knows, as lines."""
        return self.tab.run("[...board.strokes.values()].map(({ kind, tag, level, shape }) =>"
                            " `${kind} ${tag} ${level} ${shape}`)")

    def stem(self):
        """What the names of its files begin with, where none was typed."""
        return self.tab.run("board.name.replace(/\\.pgm$/, '') || `mask-${board.fingerprint.slice(0, 8)}`")

    def author(self):
        """What the tags of its own strokes begin with, as its cookie says."""
        return self.tab.run("/seedpaint-author=([0-9a-f]{16})/.exec(document.cookie)?.[1]")

    def painted(self, number):
        """A stroke that the page knows, and its pixels."""
        (stroke,) = readers.read_edits(self.strokes()[number].encode())[0].strokes.values()
        size = self.tab.run("[board.width, board.height]")
        return stroke, set(simulator.pixels_of(stroke.shape, *size))

    def settle(self, count, seconds=20):
        """Waits until all edits are answered and grown, and so many strokes are there."""
        self.tab.wait(f"outbox.length === 0 && board.isQuiet && board.strokes.size === {count}", seconds)

    def reload(self):
        """Loads the page anew, and waits until the picture is there."""
        self.tab.run("document.title = ''")
        self.tab.call("Page.reload")
        self.await_open()

    def shades(self):
        """The red parts of the picture on the canvas, row by row, where the zoom is 100 % and all is in sight."""
        text = self.tab.run("""new Promise(done => requestAnimationFrame(() => requestAnimationFrame(() => {
            const pixels = pictureContext.getImageData(screenX(0), screenY(0), board.width, board.height).data;
            let text = "";
            for (let k = 0; k < pixels.length; k += 4) text += String.fromCharCode(pixels[k]);
            done(btoa(text)); })))""")
        return list(base64.b64decode(text))

    def click(self, name):
        """Clicks a button, by its id."""
        self.tab.click_element(name)

    def show(self, view):
        """Shows a view, by its button."""
        self.click("show" + view.capitalize())

    def result_shades(self):
        """The shades of the result alone, without strokes, pixel for pixel."""
        return self.shades_in("result")

    def mask_shades(self):
        """The shades of the mask alone, without strokes, pixel for pixel."""
        return self.shades_in("mask")

    def shades_in(self, view):
        """The shades of a view without strokes, pixel for pixel; then the view of before is shown again."""
        before = self.tab.run("view.name")
        self.show(view)
        for key, modifiers in (("h", 0), ("f", 0), ("F", SHIFT)):
            self.tab.key(key, modifiers)
        shades = self.shades()
        self.show(before)
        for key in ("h", "f"):
            self.tab.key(key)
        return shades

    def window(self):
        """The low and the high value through which the picture is shown."""
        return self.tab.run("[contrast.look.low, contrast.look.high]")

    def slide(self, name, *values):
        """Drags the handle of a slider from value to value. It is taken to be ten pixels wide."""
        left, width, middle, least, most = self.tab.run(f"""(() => {{
            const box = element('{name}').getBoundingClientRect(), {{ min, max }} = element('{name}');
            return [box.x, box.width, box.y + box.height / 2, Number(min), Number(max)]; }})()""")
        self.tab.drag([(left + 5 + (value - least) * (width - 10) / (most - least), middle) for value in values])

    def colour_at(self, x, y):
        """The colour of a pixel of the mask on the canvas."""
        return self.tab.run(f"""new Promise(done => requestAnimationFrame(() => requestAnimationFrame(() => {{
            const data = pictureContext.getImageData(screenX({x}), screenY({y}), 1, 1).data;
            done([...data]); }})))""")

    def under_pointer(self):
        """What the foot says of the pixel under the pointer."""
        return self.tab.text("pixel").split(" · mask")[0]


# ---- What is expected ----

def author_of(line):
    """The author in the tag of a stroke's line."""
    return line.split(" ")[1].replace("-", "")[:16]


def brushed(path, radius, width):
    """The pixels of discs at all pixels of the lines between the pixels of a path, away from the picture's border."""
    centres = set()
    for (x0, y0), (x1, y1) in zip(path, path[1:]):
        steps = max(abs(x1 - x0), abs(y1 - y0))
        centres |= {((2 * (x0 * steps + (x1 - x0) * k) + steps) // (2 * steps),
                     (2 * (y0 * steps + (y1 - y0) * k) + steps) // (2 * steps)) for k in range(steps + 1)}
    around = range(-radius, radius + 1)
    return {(y + down) * width + x + across for x, y in centres for down in around for across in around
            if across * across + down * down <= radius * radius}


def reference(program, mask, view):
    """The raw file that the strokes of the program grow into, by the plain reference or by the program's view."""
    data = program.get("strokes") + b"image\n" + mask.read_bytes()
    if view:
        return subprocess.run([view, "view"], input=data, stdout=subprocess.PIPE, check=True).stdout
    return simulator.view(data, 4).output


def percentiles(image, cut=0.1):
    """The samples behind which so many percent lie at either end."""
    samples = sorted(image.samples)
    ranks = [math.ceil(share * len(samples)) for share in (cut / 100, 1 - cut / 100)]
    return [samples[max(1, rank) - 1] for rank in ranks]


def first_window(image):
    """The low and the high value through which a mask is shown at first."""
    return [0, image.maxval] if image.maxval < 256 else percentiles(image)


def shades_through(window, samples, gamma=1):
    """The grey shades in which samples are shown through a window."""
    low, high = window
    inside = [min(max(sample, low), high) - low for sample in samples]
    if gamma == 1:
        return [sample * 255 // (high - low) for sample in inside]
    return [math.floor(255 * (sample / (high - low)) ** gamma) for sample in inside]


def shades_of(raw, mask):
    """The grey shades in which the samples of a raw file are shown at first."""
    window = first_window(readers.read_image(mask.read_bytes()))
    return shades_through(window, readers.read_image(raw).samples)


def check_shown(page, program, mask, view, name):
    """The canvas shows the reference, and `image` is it."""
    raw = reference(program, mask, view)
    check(program.get("image") == raw, f"{name}: `image` is the reference")
    check(page.result_shades() == shades_of(raw, mask), f"{name}: the canvas's pixels are those of the reference")
    check(sorted(page.strokes()) == sorted(program.get("strokes").decode().splitlines()), f"{name}: the strokes, too")


# ---- The masks ----

def write_masks(folder):
    """The cells of the examples with 8 and with 16 bits, these with one hot pixel, and grains as another mask."""
    cells = readers.read_image(readers.split_input((TOP / "examples" / "cells.txt").read_bytes())[1])
    deep = cells._replace(maxval=65_535, samples=[sample * 16 + 15 for sample in cells.samples])
    grains = subprocess.run([sys.executable, str(TOP / "examples" / "grains.py")], stdout=subprocess.PIPE, check=True)
    hot = deep._replace(samples=[65_535, *deep.samples[1:]])
    masks = {"cells": simulator.raw_file(cells), "deep": simulator.raw_file(deep), "hot": simulator.raw_file(hot),
             "grains": simulator.raw_file(readers.read_image(grains.stdout))}
    for name, data in masks.items():
        (folder / f"{name}.pgm").write_bytes(data)
    return {name: folder / f"{name}.pgm" for name in masks}


def write_state(path, mask):
    """A colleague's state file for a mask."""
    raw = mask.read_bytes()
    state = simulator.EMPTY
    for delta in readers.read_edits(b"".join(COLLEAGUE)):
        state = simulator.join(state, delta)
    path.write_bytes(simulator.state_file(4, simulator.fingerprint_of(readers.read_image(raw)), state))


# ---- A sitting ----

class Sitting:
    """Two people with a browser each, one program, and what a check of them needs."""

    def __init__(self, words, folder, browsers):
        self.words, self.folder, self.masks = words, folder, write_masks(folder)
        self.program = Program(words.command, folder)
        self.program.start(self.masks["cells"])
        self.first, self.second = (Page(browser.open(self.program.address)) for browser in browsers)

    def shown(self, name):
        """The first page shows the reference."""
        check_shown(self.first, self.program, self.masks["cells"], self.words.view, name)

    def open_anew(self, mask, state):
        """Starts the program over another mask or state file, and opens its page in both tabs."""
        self.program.stop()
        self.program.state = self.folder / state
        self.program.start(self.masks[mask])
        self.go_on()

    def go_on(self):
        """Opens the page under the program's address in both tabs."""
        for page in (self.first, self.second):
            page.go(self.program.address)

    def both(self, count):
        """Both pages have so many strokes, all of them kept and grown."""
        self.first.settle(count)
        self.second.settle(count)

    def put_mask(self, name, width, height, maxval, samples):
        """Writes a mask under a name that `open_anew` takes."""
        self.masks[name] = self.folder / f"{name}.pgm"
        self.masks[name].write_bytes(simulator.raw_file(readers.Image(width, height, maxval, list(samples))))

    def mask(self, name):
        """A mask, as bench/fuzz reads it: with `width`, `height`, `maxval` and `samples`, row by row."""
        return readers.read_image(self.masks[name].read_bytes())

    def download(self, page, button, name):
        """The bytes that a button of a page saves under this name."""
        folder = pathlib.Path(tempfile.mkdtemp(dir=self.folder))
        page.tab.download_to(folder)
        page.click(button)
        wait_for(lambda: (folder / name).is_file() and not list(folder.glob("*.crdownload")), f"the file {name}")
        time.sleep(0.2)
        return (folder / name).read_bytes()

    def look(self, name, page=None):
        """Writes a picture of a page, or else of the first one, into the folder of `--screens`."""
        if self.words.screens:
            (page or self.first).tab.screenshot(self.words.screens / f"{name}.png")

    def faults(self):
        """What either page has thrown, and the reports of its policy."""
        return self.first.tab.faults() + self.second.tab.faults()


# ---- How checks run ----

def sit(words, checks, behind=None):
    """Checks, one after the other, with browsers and a folder of their own, and what is done behind them."""
    folder = pathlib.Path(tempfile.mkdtemp(prefix="paint-test-"))
    try:
        with Browser() as one, Browser() as other:
            sit_down(Sitting(words, folder, (one, other)), checks, behind)
    finally:
        shutil.rmtree(folder, ignore_errors=True)


def sit_down(sitting, checks, behind):
    """The same in a sitting. Behind each check, neither page has thrown or broken its policy."""
    try:
        for each in checks:
            each(sitting)
            if sitting.faults():
                raise Fault(f"{each.__name__}: {sitting.faults()}")
        check(True, "no exception, and no report of the content security policy")
        if behind:
            behind(sitting)
    finally:
        if sitting.words.look:
            sitting.first.tab.screenshot(sitting.words.look)
        sitting.program.stop()


def parser_of(about):
    """What reads the words of the command line that all tests of the page take."""
    parser = argparse.ArgumentParser(description=about.partition("\n")[0])
    parser.add_argument("--view", metavar="PROGRAM", help="compare with `PROGRAM view`, not with the plain reference")
    parser.add_argument("--look", type=pathlib.Path, metavar="FILE", help="write a picture of the end, or of a failure")
    parser.add_argument("--slack", type=float, default=1, metavar="N", help="let it take N times as long")
    parser.add_argument("--screens", type=pathlib.Path, metavar="FOLDER", help="write pictures of the states there")
    parser.add_argument("command", nargs=argparse.REMAINDER, help="the words that serve, as `seedpaint paint`")
    return parser


def read_words(parser):
    """The words of the command line."""
    words = parser.parse_args()
    if not words.command:
        parser.error("the command that serves is missing")
    if not shutil.which(words.command[0]):
        parser.error(f"{words.command[0]} is not there; `rt run` in crates/seedpaint makes the program")
    be_patient(words.slack)
    if words.screens:
        words.screens.mkdir(parents=True, exist_ok=True)
    return words


def run_alone(about, checks):
    """Runs the checks of one file, or those of them in whose names the word of `--only` stands."""
    parser = parser_of(about)
    parser.add_argument("--only", default="", metavar="WORD", help="run the checks with this in their names alone")
    words = read_words(parser)
    chosen = [each for each in checks if words.only in each.__name__]
    if not chosen:
        parser.error(f"no check has {words.only} in its name")
    end_with_fault(lambda: sit(words, chosen))


def end_with_fault(work):
    """Does some work; a fault ends the script in one line."""
    try:
        work()
    except (Fault, OSError) as fault:
        sys.exit(f"{pathlib.Path(sys.argv[0]).name}: {fault}")
