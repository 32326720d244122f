#!/usr/bin/env python3
"""Test the page of `seedpaint paint` in Chromium, with real events of mouse, pen, fingers and keys.

    python3 tools/paint_test.py crates/seedpaint/out/seedpaint paint

The words are the command that serves. It is started with a mask, `--state FILE` and `--port N` behind them, where N is
0, or the port that it had before, and its first line is the address. What the page shows is compared with the plain
reconstruction of bench/fuzz, or with the program's own view where `--view` names it. The first check that fails ends
the script with status 1. With `--pictures FOLDER` it writes the pictures of the README.

The checks of painting stand here. Those of each other concern stand in a file `paint_test_NAME.py` beside this one, and
are run behind them; with `--concern NAME` those of that file alone, and with `--concern paint` those of this one.
`paint_testing.py` has what all of them share.

It needs Python 3 and Debian's package chromium.
"""

import importlib
import pathlib
import time

from browser import ALT, CONTROL, SHIFT
from paint_testing import (author_of, brushed, check, end_with_fault, parser_of, read_words, readers, sit, write_state)

MOST_SECONDS_TO_THE_OTHER = 0.5
MINE = [[(51, 54), (60, 44)], [(84, 68), (98, 74)], [(120, 140), (127, 136)], [(200, 30)], [(206, 188)],
        [(40, 162), (58, 168), (66, 170)]]  # the strokes of the pictures, each by its pixels
THEIRS = [[(285, 138), (287, 148)], [(297, 42)], [(264, 222), (276, 234)]]


def paint_run_and_disc(sitting):
    """A stroke and a disc, which the other page shows within half a second."""
    first, second = sitting.first, sitting.second
    second.tab.run("""window.seen = new Promise(done => { const look = () => {
        if (board.strokes.size === 1 && !asked.picture) done(performance.timeOrigin + performance.now());
        else requestAnimationFrame(look); }; look(); }), 0""")
    first.drag((83, 66), (91, 71), (101, 77))
    first.settle(1)
    seen = second.tab.run("seen") - first.tab.run("performance.timeOrigin + timings[0].answered")
    most = 1000 * MOST_SECONDS_TO_THE_OTHER * sitting.words.slack
    check(seen < most, f"the other page draws the stroke, {seen:.0f} ms after its answer")
    image, (stroke, pixels) = readers.read_image(sitting.masks["cells"].read_bytes()), first.painted(0)
    check(isinstance(stroke.shape, tuple) and pixels == brushed([(83, 66), (91, 71), (101, 77)], 6, image.width),
          "a drag is the runs of the brush along its path")
    check(stroke.level == max(image.samples[pixel] for pixel in pixels), "its level is the mask's highest under them")
    first.drag((206, 188))
    sitting.both(2)
    line = next(line for line in first.strokes() if "disc" in line)
    check(line.endswith(" 188:206+6"), "a click is a disc")
    check(author_of(line) == first.author() != second.author(), "its tag begins with the author")
    sitting.shown("after a stroke and a disc")


def undo_and_redo(sitting):
    """Undo withdraws the disc, redo places it under another tag."""
    before = sitting.first.strokes()
    sitting.first.tab.key("z", CONTROL)
    sitting.both(1)
    check(sitting.first.strokes() == before[:1], "undo withdraws the last gesture, on both pages")
    sitting.first.tab.key("Z", CONTROL | SHIFT)
    sitting.both(2)
    (_, gone, *shape), (_, tag, *again) = before[1].split(" "), sitting.first.strokes()[1].split(" ")
    check(again == shape and tag != gone, "redo places it under a new tag")


def withdraw_the_others(sitting):
    """A click withdraws a stroke of the other page; its own undo brings it back."""
    first, second = sitting.first, sitting.second
    second.tab.key("]")
    second.drag((116, 136), (124, 140))
    sitting.both(3)
    before = first.strokes()
    first.tab.key("x")
    first.tab.mouse("mouseMoved", *first.at(120, 138))
    check(first.tab.run("hand.hovered !== null && hand.hovered.colour > 1"), "hovering finds the other's stroke")
    first.drag((120, 138))
    first.drag((120, 138))
    sitting.both(2)
    check(True, "a click withdraws the other's stroke, on both pages")
    check(first.tab.run("hand.hovered === null && done.length === 3"), "a second click there takes nothing more")
    first.tab.key("z", CONTROL)
    sitting.both(3)
    line = next(line for line in first.strokes() if line not in before)
    check(author_of(line) == second.author(), "undo of a withdrawal places it anew, as the other's")
    first.tab.key("b")
    sitting.shown("after a withdrawal")


def levels(sitting):
    """Fixed levels: of a pixel, and the greatest."""
    page = sitting.first
    value = page.tab.run("board.mask[136 * board.width + 117]")
    page.drag((117, 136), modifiers=ALT)
    check(page.tab.run("brush.level") == value, "Alt+click takes the value of the pixel")
    page.drag((240, 70))
    page.settle(4)
    check(page.strokes()[3].split(" ")[2] == str(value), "a fixed level is used")
    page.tab.key("m")
    check(page.tab.run("brush.level") == 255, "M takes the greatest level")
    page.tab.key("z", CONTROL)
    page.tab.key("a")
    sitting.both(3)


def long_gesture(sitting):
    """A gesture of more than 160 runs is several strokes, and comes off with one undo."""
    page = sitting.first
    page.drag((300, 2), (310, 254))
    page.settle(5)
    check(all(line.split(" ")[3].count(",") < 160 for line in page.strokes()), "runs are cut at 160 a stroke")
    page.tab.key("z", CONTROL)
    sitting.both(3)
    check(True, "they come off with one undo")
    page.tab.mouse("mousePressed", *page.at(50, 50), "left")
    page.tab.mouse("mouseMoved", *page.at(60, 60), "left")
    page.tab.key("Escape")
    page.tab.mouse("mouseReleased", *page.at(60, 60), "left")
    time.sleep(0.3)
    check(page.tab.run("board.strokes.size + outbox.length") == 3, "Escape drops the stroke in hand")


def at_the_border(sitting):
    """What a brush has outside the picture is left out."""
    page = sitting.first
    page.drag((3, 100), (-9, 104))
    page.settle(4)
    stroke, pixels = page.painted(3)
    check(pixels and all(run.x0 >= 0 for run in stroke.shape), "a stroke over the border is cut there")
    page.drag((-2, 60))
    page.settle(5)
    stroke, _ = page.painted(4)
    check(isinstance(stroke.shape, tuple), "a disc whose centre lies outside is runs")
    page.drag((-40, 60))
    page.tab.key("z", CONTROL)
    page.tab.key("z", CONTROL)
    sitting.both(3)
    check(page.tab.text("message") == "", "and nothing of it is refused")


def strokes_shown(sitting):
    """Strokes are seen on the canvas, mine and the other's in two colours, and H hides them."""
    colours = [page.colour_at(206, 188) for page in (sitting.first, sitting.second)]
    sitting.first.tab.key("h")
    hidden = sitting.first.colour_at(206, 188)
    sitting.first.tab.key("h")
    check(len({tuple(colour) for colour in (*colours, hidden)}) == 3,
          "a stroke has a colour of its own in each page, and none once H hides it")


def join_files(sitting):
    """A colleague's file is dropped on the page, and one for another mask is refused."""
    page, folder = sitting.first, sitting.folder
    write_state(folder / "colleague.spd", sitting.masks["cells"])
    write_state(folder / "stranger.spd", sitting.masks["grains"])
    page.tab.drop(*page.at(160, 128), folder / "colleague.spd")
    sitting.both(6)
    check("3 strokes came" in page.tab.text("message"), "a dropped state file is joined, on both pages")
    page.tab.drop(*page.at(160, 128), folder / "stranger.spd")
    page.tab.wait("element('message').textContent.includes('D1')")
    check("another picture" in page.tab.text("message"), "a file for another mask is refused in words")
    (folder / "photo.jpg").write_bytes(b"\xff\xd8\xff\xe0 a photograph" * 300_000)
    page.tab.drop(*page.at(160, 128), folder / "photo.jpg")
    page.tab.wait("element('message').textContent.includes('photo.jpg')")
    check("no state file" in page.tab.text("message") and page.tab.run("outbox.length") == 0,
          "so is a large file that is no state file, as a whole")
    join_long_text(sitting)
    sitting.shown("after a join")


def join_long_text(sitting):
    """A long text goes in parts, each of which is taken or refused by itself."""
    page, folder = sitting.first, sitting.folder
    tags = [f"67e55044-10b1-426f-9247-{number:012x}" for number in range(5_000)]
    lines = [f"disc {tag} 9 {number % 100}:{number % 90}+2" for number, tag in enumerate(tags)]
    lines += [f"withdraw {tag}" for tag in tags]
    edits = "performance.getEntriesByType('resource').filter(({ name }) => name.includes('/edits?')).length"
    page.tab.run("performance.clearResourceTimings()")
    (folder / "long.txt").write_text("\n".join(lines) + "\n")
    page.tab.drop(*page.at(160, 128), folder / "long.txt")
    page.tab.wait(f"{edits} > 1")
    sitting.both(6)
    check(page.tab.text("message").find("Refused") < 0, "a long text goes in parts, and all of it is taken")
    (folder / "wrong.txt").write_text("\n".join([*lines, "nonsense"]) + "\n")
    page.tab.drop(*page.at(160, 128), folder / "wrong.txt")
    page.tab.wait("element('message').textContent.includes('wrong.txt from line')")
    check("E1" in page.tab.text("message"), "a part that is refused tells at which line it begins")
    sitting.both(6)


def save_copy(sitting):
    """The state file as a download."""
    page = sitting.first
    name, told = page.tab.run("element('save').download"), sitting.program.told_name()
    expected = told.removesuffix(".pgm") if told else f"mask-{page.tab.run('board.fingerprint')[:8]}"
    check(name == f"{expected}.spd", "a copy is called as the mask's file, or else by the mask's fingerprint")
    saved = sitting.download(page, "save", name)
    check(saved == sitting.program.get("state") == sitting.program.state.read_bytes(),
          "the download is the state file")


def take_pictures(sitting):
    """The pictures of the README: the work of two people, what it grew into, and a stroke about to be withdrawn."""
    first, second, folder = sitting.first, sitting.second, sitting.words.pictures
    for page, author in ((first, 16 * "1"), (second, 16 * "2")):
        page.tab.run(f"document.cookie = 'seedpaint-author={author}; Max-Age=3600; Path=/; SameSite=Strict'")
    sitting.open_anew("cells", "pictures.spd")
    for count, line in enumerate(MINE, 1):
        first.drag(*line)
        first.settle(count)
    for count, line in enumerate(THEIRS, 1 + len(MINE)):
        second.drag(*line)
        sitting.both(count)
    first.tab.run("say(''), 0")
    first.tab.mouse("mouseMoved", *first.at(250, 118))
    first.tab.screenshot(folder / "paint-page.png")
    second.show("result")
    second.tab.key("h")
    second.tab.mouse("mouseMoved", *second.at(140, 195))
    second.tab.screenshot(folder / "paint-result.png")
    second.tab.key("c")
    second.tab.click_element("magmaTable")
    second.tab.screenshot(folder / "paint-contrast.png")
    first.tab.key("x")
    first.tab.mouse("mouseMoved", *first.at(270, 228))
    first.tab.screenshot(folder / "paint-withdraw.png")
    first.tab.key("b")
    take_picture_of_labels(first, folder)


def take_picture_of_labels(page, folder):
    """The picture of labels: three of the objects are of another class."""
    page.tab.key("2")
    for pixel in ((206, 188), (200, 30), (58, 168)):
        page.tab.mouse("mouseMoved", *page.at(*pixel))
        page.tab.key("t")
        page.tab.wait("outbox.length === 0 && board.isQuiet")
    page.show("labels")
    page.tab.run("setThreshold(.3), 0")
    page.tab.wait("labels.shown && !labels.asked")
    page.tab.run("say(''), 0")
    page.tab.mouse("mouseMoved", *page.at(206, 180))
    page.tab.screenshot(folder / "paint-labels.png")


CHECKS = [paint_run_and_disc, undo_and_redo, withdraw_the_others, levels, long_gesture, at_the_border, strokes_shown,
          join_files, save_copy]


def concerns():
    """The checks of each concern, by its name: those of this file, and of the files `paint_test_NAME.py` beside it."""
    found = {"paint": CHECKS}
    for path in sorted(pathlib.Path(__file__).resolve().parent.glob("paint_test_*.py")):
        found[path.stem.removeprefix("paint_test_")] = importlib.import_module(path.stem).CHECKS
    return found


def main():
    """Run the checks of each concern in a sitting of its own."""
    parser, found = parser_of(__doc__), concerns()
    parser.add_argument("--pictures", type=pathlib.Path, metavar="FOLDER", help="write the README's pictures there")
    parser.add_argument("--concern", action="append", choices=list(found), help="run the checks of this one alone")
    words = read_words(parser)
    for name in words.concern or found:
        print(f"-- {name}", flush=True)
        behind = take_pictures if words.pictures and name == "paint" else None
        end_with_fault(lambda name=name, behind=behind: sit(words, found[name], behind))


if __name__ == "__main__":
    main()
