#!/usr/bin/env python3
"""Test what is seen in the page of `seedpaint paint` and what points at it: zoom, screens, fingers, pens, the name.

    python3 tools/paint_test_sight.py crates/seedpaint/out/seedpaint paint

`paint_test.py` runs these checks, too.
"""

import time

from browser import CONTROL, Fault
from paint_testing import brushed, check, check_shown, run_alone


def three_strokes(sitting):
    """The strokes that are there already."""
    for count, pixel in enumerate([(84, 68), (206, 188), (120, 140)], 1):
        sitting.first.drag(pixel)
        sitting.first.settle(count)
    sitting.both(3)


def zoom_and_pan(sitting):
    """The pixel under the pointer stays there."""
    page = sitting.first
    point = page.at(123, 87)
    page.tab.mouse("mouseMoved", *point)
    for delta in (-120,) * 9 + (120,) * 16 + (-120,) * 5 + (-7, -9, 12, 20, -33):
        page.tab.wheel(*point, delta)
        if page.under_pointer() != "x 123 · y 87":
            raise Fault(f"after a turn by {delta} the pointer is at {page.under_pointer()}")
    check(True, "zooming keeps the pixel under the pointer")
    check_seen_pixel(page, point)
    goal = (point[0] + 151, point[1] - 67)
    page.tab.key_down(" ")
    page.tab.drag([point, (point[0] + 40, point[1] + 3), goal])
    page.tab.key_up(" ")
    check(page.under_pointer() == "x 123 · y 87", "panning with space takes the pixel along")
    page.tab.drag([goal, point], button="middle")
    check(page.under_pointer() == "x 123 · y 87", "so does the middle button")
    check_zoom_limits(page, point)
    page.tab.key("f")


def check_seen_pixel(page, point):
    """The canvas has under the pointer the colour of the mask's pixel."""
    page.tab.key("h")
    page.show("mask")
    page.tab.run("new Promise(done => requestAnimationFrame(() => requestAnimationFrame(done)))")
    top = page.tab.run("overlay.getBoundingClientRect().top")
    seen = page.tab.run(f"pictureContext.getImageData({point[0]}, {point[1] - top}, 1, 1).data[0]")
    check(seen == page.tab.run("board.mask[87 * board.width + 123]"), "the canvas shows that pixel there")
    page.show("kept")
    page.tab.key("h")


def check_zoom_limits(page, point):
    """2 % and 6400 %."""
    for _ in range(40):
        page.tab.wheel(*point, -120)
    check(page.tab.run("sight.zoom") == 64, "zoom ends at 6400 %")
    for _ in range(40):
        page.tab.wheel(*point, 120)
    check(page.tab.run("sight.zoom") == 0.02, "and at 2 %")


def another_ratio(sitting):
    """Another pixel ratio while the page is open: what is seen stays, and strokes land under the pointer."""
    page, place, count = sitting.first, sitting.first.at(160, 128), len(sitting.first.strokes())
    for ratio in (2, 1):
        page.tab.have_ratio(ratio)
        page.tab.mouse("mouseMoved", *place)
        page.tab.wait(f"picture.width === {ratio} * overlay.getBoundingClientRect().width")
        across, down = page.at(160, 128)
        check(abs(across - place[0]) <= 1 and abs(down - place[1]) <= 1, f"at ratio {ratio} the picture stays in place")
        page.drag((150, 30))
        page.settle(count + 1)
        check(any(line.endswith(" 30:150+6") for line in page.strokes()), "and a disc is where the pointer was")
        page.tab.key("z", CONTROL)
        sitting.both(count)


def one_finger(sitting):
    """A finger paints, and withdraws."""
    page, count = sitting.first, len(sitting.first.strokes())
    path = [(240, 70), (246, 74), (252, 75)]
    for pixel in path:
        page.tab.touch(page.at(*pixel))
    page.tab.touch()
    page.settle(count + 1)
    _, pixels = page.painted(count)
    check(pixels == brushed(path, 6, page.tab.run("board.width")), "a finger paints along its path")
    page.tab.key("x")
    page.tab.touch(page.at(246, 74))
    page.tab.touch()
    sitting.both(count)
    check(True, "and withdraws a stroke")
    page.tab.key("b")


def two_fingers(sitting):
    """A second finger drops the stroke in hand; the two zoom and move the picture."""
    page, strokes = sitting.first, sitting.first.strokes()
    middle, zoom = page.at(160, 128), page.tab.run("sight.zoom")

    def at(across, down, half):
        return [(middle[0] + across + side * half, middle[1] + down) for side in (-1, 1)]

    page.tab.touch(at(0, 0, 60)[0])
    page.tab.touch(at(0, 5, 60)[0])
    page.tab.wait("hand.gesture !== null")
    page.tab.touch(*at(0, 0, 60))
    page.tab.wait("hand.gesture === null")
    check(True, "a second finger drops the stroke in hand")
    page.tab.touch(*at(20, 10, 90))
    page.tab.touch(*at(70, -30, 120))
    page.tab.wait(f"Math.abs(sight.zoom / {zoom} - 2) < .1")
    check(True, "at twice the distance the zoom is twice as much")
    across, down = page.at(160, 128)
    check(abs(across - middle[0] - 70) < 4 and abs(down - middle[1] + 30) < 4, "and the picture goes with the fingers")
    page.tab.touch(at(70, -30, 120)[0])
    page.tab.touch(at(20, -20, 120)[0])
    page.tab.touch()
    time.sleep(0.3)
    check(page.strokes() == strokes and page.tab.run("outbox.length") == 0, "nothing of it is painted")
    page.tab.key("f")


def pen(sitting):
    """A pen paints, and fingers do nothing meanwhile."""
    page, count = sitting.first, len(sitting.first.strokes())
    path = [(240, 70), (246, 74), (252, 75)]
    start, middle, end = (page.at(*pixel) for pixel in path)
    page.tab.mouse("mouseMoved", *start, pointerType="pen")
    page.tab.mouse("mousePressed", *start, "left", pointerType="pen")
    page.tab.touch(page.at(40, 40), page.at(80, 40))
    page.tab.mouse("mouseMoved", *middle, "left", pointerType="pen")
    page.tab.touch(page.at(60, 40), page.at(80, 60))
    page.tab.touch()
    page.tab.mouse("mouseMoved", *end, "left", pointerType="pen")
    page.tab.mouse("mouseReleased", *end, "left", pointerType="pen")
    page.settle(count + 1)
    _, pixels = page.painted(count)
    check(pixels == brushed(path, 6, page.tab.run("board.width")), "a pen paints, and fingers meanwhile do nothing")
    page.tab.touch(page.at(40, 40))
    page.tab.touch()
    time.sleep(0.3)
    check(page.tab.run("board.strokes.size + outbox.length") == count + 1, "nor do they while it is near")
    page.tab.mouse("mouseMoved", 5, 5, pointerType="pen")
    page.tab.touch(page.at(40, 40))
    page.tab.touch()
    page.settle(count + 2)
    check(True, "once it is away a finger paints")
    page.tab.key("z", CONTROL)
    page.tab.key("z", CONTROL)
    sitting.both(count)


def name_of_the_picture(sitting):
    """The name of the mask's file, or one that is typed, stands in the title and the footer, and what is saved is
    called by it."""
    page, told, size = sitting.first, sitting.program.told_name(), "Seedpaint 320 × 256"
    shown = [f"{told} · {size}" if told else size, told]
    check([page.tab.run("document.title"), page.tab.text("name")] == shown, f"what the program tells: '{told}'")
    page.click("exportsShown")
    page.click("pictureName")
    page.tab.type("wells: 7.tif")
    page.click("exportsShown")
    check(page.tab.run("document.title") == f"wells: 7.tif · {size}", "a name that is typed stands in the title")
    check(page.tab.text("name") == "wells: 7.tif", "and in the footer")
    check(sitting.download(page, "save", "wells_ 7.spd") == sitting.program.get("state"), "a copy is called by it")
    page.reload()
    check(page.tab.text("name") == "wells: 7.tif", "a reload keeps it")
    page.tab.run("element('pictureName').value = '', keepPictureName()")
    check([page.tab.run("document.title"), page.tab.text("name")] == shown, "and it can be taken away")


def deep_mask(sitting):
    """A mask of 16 bits."""
    page, program = sitting.first, sitting.program
    sitting.open_anew("deep", "deep.spd")
    page.drag((83, 66), (101, 77))
    page.drag((206, 188))
    page.settle(2)
    check(max(int(line.split(" ")[2]) for line in page.strokes()) > 255, "levels of 16 bits")
    check_shown(page, program, sitting.masks["deep"], sitting.words.view, "16 bits")


CHECKS = [three_strokes, zoom_and_pan, another_ratio, one_finger, two_fingers, pen, name_of_the_picture, deep_mask]

if __name__ == "__main__":
    run_alone(__doc__, CHECKS)
