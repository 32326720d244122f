#!/usr/bin/env python3
"""Test the hands of the page: eraser, lines, polygons, the brush's shadow, a pen's other end, keys alone, names.

    python3 tools/paint_test_hands.py [--only WORD] [--screens FOLDER] crates/seedpaint/out/seedpaint paint

What strokes the program has is read from itself and compared with sets of pixels that are found slowly here. It needs
Python 3 and Debian's package chromium.
"""

import base64
import time
import uuid

from browser import CONTROL, SHIFT
from paint_testing import BOTH_DEPTHS, author_of, brushed, check, check_shown, readers, run_alone, simulator
from tags import class_of, object_of

STROKE, DISC = [(83, 66), (91, 71), (101, 77)], (206, 188)
RUBBED = [(90, 60), (92, 80), (206, 186)]  # a path of the eraser over both
LONG = [(310, 2), (300, 254)]  # a gesture of more than 160 runs
CORNERS = [(250, 50), (300, 60), (250, 100), (290, 40), (230, 80)]  # a polygon that crosses itself
ROLES = {"button", "checkbox", "combobox", "ColorWell", "link", "radio", "slider", "spinbutton", "textbox", "searchbox",
         "menuitem", "option", "switch", "tab", "application", "LabelText", "listbox"}  # of what one can act on
OTHER_END = """(([down, ...path]) => {
    const send = (kind, [clientX, clientY], button, buttons) => overlay.dispatchEvent(new PointerEvent(kind, { clientX,
        clientY, button, buttons, pointerId: 1, pointerType: "pen", isPrimary: true, bubbles: true }));
    send("pointerdown", down, 5, 32);
    for (const point of path) send("pointermove", point, -1, 32);
    send("pointerup", path.at(-1), 5, 0); })"""


# ---- What the program has ----

def painted_in(sitting, mask):
    """The live strokes of the program: for each its line, its level, and its pixels."""
    lines = sitting.program.get("strokes").decode().splitlines()
    image = sitting.mask(mask)
    strokes = [next(iter(readers.read_edits(line.encode())[0].strokes.values())) for line in lines]
    return [(line, stroke.level, frozenset(simulator.pixels_of(stroke.shape, image.width, image.height)))
            for line, stroke in zip(lines, strokes)]


def sets_of(painted, author=None):
    """The levels and pixels of strokes, without their tags, in an order of their own."""
    return sorted((level, sorted(pixels)) for line, level, pixels in painted if author in (None, author_of(line)))


def objects_of(painted):
    """The pixels of each object."""
    found = {}
    for line, _, pixels in painted:
        found.setdefault(object_of(uuid.UUID(line.split(" ")[1])), set()).update(pixels)
    return sorted(sorted(pixels) for pixels in found.values())


def all_kept(page):
    """Waits until all is kept and grown."""
    page.tab.wait("outbox.length === 0 && board.isQuiet")


def without(painted, rubbed):
    """The levels and the pixels that are left of strokes, joined by level."""
    left = {}
    for _, level, pixels in painted:
        left.setdefault(level, set()).update(pixels - rubbed)
    return {level: pixels for level, pixels in left.items() if pixels}


def filled(corners, width, height):
    """The pixels of a polygon, slowly: by even and odd crossings of a ray, and those of its border."""
    sides = list(zip(corners, [*corners[1:], corners[0]]))
    border = brushed([*corners, corners[0]], 0, width)
    inside = {y * width + x for y in range(height) for x in range(width)
              if sum((y0 > y) != (y1 > y) and (x - x0) * abs(y1 - y0) < (x1 - x0) * (y - y0) * (1 if y1 > y0 else -1)
                     for (x0, y0), (x1, y1) in sides) % 2}
    return inside | border


def begin(sitting, mask, state):
    """Starts with a state file of its own, and with nothing to undo."""
    sitting.open_anew(mask, state)
    for page in (sitting.first, sitting.second):
        page.tab.run("done = [], undone = [], keepActs(), setTool('brush'), setRadius(6), chooseClass(1), 0")


# ---- The checks ----

def erase(sitting):
    """The eraser takes off of own strokes what it touches; one undo brings them back, and redo takes it off again."""
    for mask in BOTH_DEPTHS:
        begin(sitting, mask, f"erase-{mask}.spd")
        first, second, width = sitting.first, sitting.second, sitting.mask(mask).width
        first.drag(*STROKE)
        first.drag(DISC)
        sitting.both(2)
        second.drag((86, 72), (96, 66))
        sitting.both(3)
        before, mine = painted_in(sitting, mask), first.author()
        others = [each for each in before if author_of(each[0]) != mine]
        rubbed = brushed(RUBBED, 6, width)
        first.tab.key("d")
        rub(sitting, mask, RUBBED)
        sitting.both(3)
        check(author_of(others[0][0]) == second.author() and others[0] in painted_in(sitting, mask),
              f"{mask}: a stroke of another's stays, under its tag")
        own = [each for each in painted_in(sitting, mask) if author_of(each[0]) == mine]
        expected = without([each for each in before if author_of(each[0]) == mine], rubbed)
        check(without(own, set()) == expected, f"{mask}: what the eraser touched is gone, and the rest is there")
        check(all(line.startswith("place ") for line, *_ in own), f"{mask}: as runs")
        check(first.tab.run("done.length") == 3, f"{mask}: that is one act")
        check_shown(first, sitting.program, sitting.masks[mask], sitting.words.view, f"{mask}, erased")
        erased = sets_of(painted_in(sitting, mask))
        undo_and_redo(sitting, mask, before, erased)


def rub(sitting, mask, path):
    """Drags the eraser along a path, which is shown meanwhile."""
    tab, points = sitting.first.tab, [sitting.first.at(*pixel) for pixel in path]
    tab.mouse("mouseMoved", *points[0])
    tab.mouse("mousePressed", *points[0], "left")
    for point in points[1:]:
        tab.mouse("mouseMoved", *point, "left")
    tab.wait("hand.gesture?.tool === 'eraser' && !asked.frame")
    opacity = tab.run("overlayContext.getImageData(screenX(149), screenY(133), 1, 1).data[3]")
    check(opacity > 100, f"{mask}: the eraser's path is seen while it is dragged")
    sitting.look(f"erasing-{mask}")
    tab.mouse("mouseReleased", *points[-1], "left")


def undo_and_redo(sitting, mask, before, erased):
    """Undo of an erasure brings the strokes back under new tags, also behind a reload; redo erases them again."""
    first = sitting.first
    first.tab.key("z", CONTROL)
    first.tab.wait("undone.length === 1")
    sitting.both(3)
    again = painted_in(sitting, mask)
    check(sets_of(again) == sets_of(before) and objects_of(again) == objects_of(before),
          f"{mask}: one undo brings the strokes back, each as an object of its own")
    same = {line.split(" ")[1] for line, *_ in before} & {line.split(" ")[1] for line, *_ in again}
    check(len(same) == 1, f"{mask}: under new tags, but for the other's")
    first.tab.key("Z", CONTROL | SHIFT)
    first.tab.wait("undone.length === 0")
    all_kept(first)
    check(sets_of(painted_in(sitting, mask)) == erased, f"{mask}: redo erases them again")
    first.reload()
    all_kept(first)
    first.tab.key("z", CONTROL)
    first.tab.wait("undone.length === 1")
    all_kept(first)
    check(sets_of(painted_in(sitting, mask)) == sets_of(before), f"{mask}: behind a reload undo goes on")


def erase_long(sitting):
    """A long gesture that is erased in the middle stays one object of strokes that are short enough, and its class."""
    begin(sitting, "deep", "erase-long.spd")
    page, width = sitting.first, sitting.mask("deep").width
    page.tab.run("chooseClass(7), 0")
    page.drag(*LONG)
    page.settle(2)
    before = painted_in(sitting, "deep")
    page.tab.key("d")
    page.drag((295, 60), (318, 60), (318, 190), (295, 190))
    page.tab.wait("done.length === 2")
    all_kept(page)
    after, rubbed = painted_in(sitting, "deep"), brushed([(295, 60), (318, 60), (318, 190), (295, 190)], 6, width)
    rubbed = {pixel for pixel in rubbed if pixel % width >= 289}
    check(without(after, set()) == without(before, rubbed), "of a long gesture the rest is there")
    check(len(objects_of(after)) == 1 and {class_of(uuid.UUID(line.split(" ")[1])) for line, *_ in after} == {7},
          "it is one object, of its class")
    check(all(line.count(",") < 160 for line, *_ in after), "of strokes of 160 runs at most")
    page.tab.run("setRadius(60), 0")
    page.drag(*LONG)
    page.tab.wait("done.length === 3")
    page.settle(0)
    check(True, "where nothing is left nothing is placed")
    for count in (2, 3):
        page.tab.key("z", CONTROL)
        page.tab.wait(f"undone.length === {count - 1}")
    all_kept(page)
    check(sets_of(painted_in(sitting, "deep")) == sets_of(before), "two undos bring all of it back")


def erase_what_stays(sitting):
    """Locked and hidden classes, strokes of others, and what is not touched, stay as they are."""
    begin(sitting, "cells", "erase-stays.spd")
    first, second = sitting.first, sitting.second
    first.tab.run("chooseClass(3), 0")
    first.drag(DISC)
    sitting.both(1)
    before = painted_in(sitting, "cells")
    first.tab.key("d")
    for flag in ("isLocked", "isHidden"):
        first.tab.run(f"classes.change(3, {{ {flag}: true }}), 0")
        first.drag(DISC)
        first.tab.wait("element('message').textContent.includes('locked or hidden')")
        check(first.tab.run("outbox.length") == 0, f"a class that {flag} is not erased, and the page says so")
        first.tab.run(f"classes.change(3, {{ {flag}: false }}), 0")
    first.drag((20, 20))
    second.tab.key("d")
    second.drag(DISC)
    second.tab.wait("element('message').textContent.includes('of others')")
    time.sleep(0.3)
    check(painted_in(sitting, "cells") == before and second.tab.run("done.length") == 0,
          "another's stroke is not erased, and the page says so")


def lines(sitting):
    """A line by two clicks, by a drag, and by Shift while painting."""
    for mask in BOTH_DEPTHS:
        begin(sitting, mask, f"lines-{mask}.spd")
        page, width = sitting.first, sitting.mask(mask).width
        page.tab.key("i")
        page.drag((40, 40))
        page.tab.mouse("mouseMoved", *page.at(80, 90))
        check(page.tab.run("board.strokes.size + outbox.length") == 0, f"{mask}: the first click paints nothing")
        sitting.look(f"line-{mask}")
        page.drag((90, 61))
        page.settle(1)
        check(page.painted(0)[1] == brushed([(40, 40), (90, 61)], 6, width), f"{mask}: the second one paints the line")
        page.drag((150, 40), (170, 100), (200, 60))
        page.settle(2)
        check(page.painted(1)[1] == brushed([(150, 40), (200, 60)], 6, width), f"{mask}: a drag paints from end to end")
        page.drag((20, 200))
        page.tab.key("Escape")
        page.drag((60, 200))
        page.tab.key("Escape")
        page.tab.key("b")
        page.drag((100, 200), (150, 120), (160, 205), modifiers=SHIFT)
        page.settle(3)
        check(page.painted(2)[1] == brushed([(100, 200), (160, 205)], 6, width),
              f"{mask}: Shift makes a stroke straight; Escape dropped what a click began")
        page.drag((240, 180), (260, 200), (270, 190))
        page.settle(4)
        check(page.painted(3)[1] == brushed([(240, 180), (260, 200), (270, 190)], 6, width), f"{mask}: a stroke bends")


def polygons(sitting):
    """A polygon is filled by Enter, by a double click, and by a click on its first corner; a corner is taken back."""
    for mask in BOTH_DEPTHS:
        begin(sitting, mask, f"polygons-{mask}.spd")
        page, image = sitting.first, sitting.mask(mask)
        page.tab.key("g")
        for corner in [*CORNERS[:2], (20, 20), *CORNERS[2:]]:
            page.drag(corner)
            if corner == (20, 20):
                page.tab.key("Backspace")
        page.tab.mouse("mouseMoved", *page.at(260, 60))
        check(page.tab.run("polygon.corners.map(({ x, y }) => [x, y])") == [list(corner) for corner in CORNERS],
              f"{mask}: clicks set corners, Backspace takes one back")
        sitting.look(f"polygon-{mask}")
        page.tab.key("Enter")
        page.settle(1)
        stroke, pixels = page.painted(0)
        check(pixels == filled(CORNERS, image.width, image.height), f"{mask}: Enter fills it, by even and odd")
        check(stroke.level == max(image.samples[pixel] for pixel in pixels), f"{mask}: at the highest level under it")
        for corner in [(20, 150), (60, 150), (40, 190), (20, 150)]:
            page.drag(corner)
        page.settle(2)
        check(page.painted(1)[1] == filled([(20, 150), (60, 150), (40, 190)], image.width, image.height),
              f"{mask}: a click on the first corner fills it")
        for corner in [(120, 150), (160, 150), (140, 190), (140, 190)]:
            page.drag(corner)
        page.settle(3)
        check(page.painted(2)[1] == filled([(120, 150), (160, 150), (140, 190)], image.width, image.height),
              f"{mask}: so does a double click")
        page.tab.key("z", CONTROL)
        page.settle(2)
        check(page.tab.run("polygon.corners.length") == 0, f"{mask}: undo takes it off")
    large_polygon(sitting)
    open_polygon(sitting)


def large_polygon(sitting):
    """One of more than 160 rows is several strokes of one object."""
    page, image = sitting.first, sitting.mask("deep")
    corners = [(5, 5), (310, 20), (200, 250), (10, 240)]
    for corner in corners:
        page.drag(corner)
    page.tab.key("Enter")
    page.settle(4)
    found = max(objects_of(painted_in(sitting, "deep")), key=len)
    check(set(found) == filled(corners, image.width, image.height), "a large polygon is one object of several strokes")
    page.tab.key("z", CONTROL)
    page.settle(2)


def open_polygon(sitting):
    """While a polygon is open, nothing is lost or painted by accident."""
    page = sitting.first
    for corner in [(20, 20), (60, 30), (40, 60)]:
        page.drag(corner)
    page.tab.run("dispatchEvent(new Event('blur')), 0")
    page.tab.mouse("mouseMoved", 5, 5)
    page.tab.mouse("mousePressed", *page.at(90, 90), "left")
    page.tab.mouse("mouseMoved", *page.at(90, 91), "left")  # (only then it is captured)
    page.tab.run("overlay.hasPointerCapture(hand.pointer) && overlay.releasePointerCapture(hand.pointer), 0")
    page.tab.mouse("mouseMoved", *page.at(91, 91), "left")
    page.tab.mouse("mouseReleased", *page.at(92, 92), "left")
    page.tab.key("b")
    page.tab.key("g")
    check(page.tab.run("[polygon.corners.length, outbox.length, board.strokes.size]") == [3, 0, 2],
          "a window without focus, a pointer that leaves or is lost, another tool: corners stay, nothing is painted")
    page.tab.wheel(*page.at(40, 40), -120)
    page.tab.key("ArrowLeft")
    check(page.tab.run("polygon.corners.length") == 3, "so they do while one zooms and moves the picture")
    page.tab.key("z", CONTROL)
    check(page.tab.run("[polygon.corners.length, board.strokes.size]") == [2, 2], "undo takes a corner back")
    page.tab.key("Enter")
    check("three corners" in page.tab.text("message") and page.tab.run("polygon.corners.length") == 2,
          "two corners are told to be too few")
    page.tab.key("Escape")
    check(page.tab.run("polygon.corners.length + outbox.length") == 0, "Escape drops it")
    page.tab.key("b")
    page.tab.key("f")


def too_much(sitting):
    """What no request carries is refused in words, and nothing of it is lost."""
    begin(sitting, "cells", "too-much.spd")
    page = sitting.first
    page.drag(DISC)
    page.settle(1)
    page.tab.run("""perform([sideToCome(Array.from({ length: 3000 }, () => ({ kind: "place", level: "9", inClass: 1,
        shape: Array.from({ length: 160 }, (_, y) => `${y}:10-20`).join() })))]), 0""")
    check("4 MiB" in page.tab.text("message") and page.tab.run("[done.length, outbox.length]") == [1, 0],
          "what is more than one request carries is refused in words")
    check(len(page.strokes()) == 1, "and nothing else changes")


def shadow(sitting):
    """The shadow is what the brush would light: from its pixels on, over a mask of half their highest."""
    for mask in BOTH_DEPTHS:
        begin(sitting, mask, f"shadow-{mask}.spd")
        page, image = sitting.first, sitting.mask(mask)
        page.tab.mouse("mouseMoved", *page.at(*DISC))
        page.tab.wait("shadow.drawn !== null && !asked.frame")
        own = set(simulator.pixels_of(readers.Disc(*DISC, 6), image.width, image.height))
        check(shadow_of(page, image.width) == lit_by(own, image), f"{mask}: the shadow is what the brush would light")
        sitting.look(f"shadow-{mask}")
        page.tab.key("s")
        page.tab.mouse("mouseMoved", *page.at(DISC[0] + 1, DISC[1]))
        page.tab.wait("!asked.frame")
        check(not page.tab.run("castsShadow()") and page.tab.run("element('shadowShown').ariaPressed") == "false",
              f"{mask}: S puts it off")
        page.reload()
        check(not page.tab.run("shadow.isShown"), f"{mask}: also behind a reload")
        page.click("shadowShown")
        page.drag(DISC)
        page.settle(1)
        check(page.tab.run("shadow.isShown && shadow.isResting && !castsShadow()"),
              f"{mask}: behind a stroke it rests until the pointer moves")


def shadow_of(page, width):
    """The pixels of the shadow."""
    left, top, across, text = page.tab.run("""(() => { const { left, top, width, height } = shadow.drawn;
        const { data } = shadow.context.getImageData(0, 0, width, height);
        let text = "";
        for (let k = 3; k < data.length; k += 4) text += String.fromCharCode(data[k]);
        return [left, top, width, btoa(text)]; })()""")
    return {(top + k // across) * width + left + k % across for k, alpha in enumerate(base64.b64decode(text)) if alpha}


def lit_by(own, image):
    """The pixels that a stroke lights at least half as brightly as its brightest one, slowly."""
    least = max(1, max(image.samples[pixel] for pixel in own) / 2)
    found, todo = set(), [pixel for pixel in own if image.samples[pixel] >= least]
    while todo:
        pixel = todo.pop()
        if pixel in found or image.samples[pixel] < least:
            continue
        found.add(pixel)
        x, y = pixel % image.width, pixel // image.width
        todo += [y * image.width + x + step for step in (-1, 1) if 0 <= x + step < image.width]
        todo += [(y + step) * image.width + x for step in (-1, 1) if 0 <= y + step < image.height]
    return found


def other_end(sitting):
    """The other end of a pen erases, whatever the tool; the page's tool stays."""
    for mask in BOTH_DEPTHS:
        begin(sitting, mask, f"other-end-{mask}.spd")
        page = sitting.first
        page.drag(DISC)
        page.settle(1)
        before = painted_in(sitting, mask)
        path = [(212, 180), (212, 196)]
        page.tab.run(f"{OTHER_END}({[list(page.at(*pixel)) for pixel in path]}), 0")
        page.tab.wait("done.length === 2")
        all_kept(page)
        rubbed = brushed(path, 6, sitting.mask(mask).width)
        check(without(painted_in(sitting, mask), set()) == without(before, rubbed), f"{mask}: a pen's other end erases")
        check(page.tab.run("hand.tool") == "brush", f"{mask}: and the tool stays the brush")
        page.tab.mouse("mouseMoved", 5, 5)


def lost_pointers(sitting):
    """A button that goes up unseen ends the stroke; a finger that the system takes away paints nothing."""
    begin(sitting, "cells", "lost.spd")
    page, width = sitting.first, sitting.mask("cells").width
    page.tab.mouse("mousePressed", *page.at(*STROKE[0]), "left")
    page.tab.mouse("mouseMoved", *page.at(*STROKE[1]), "left")
    page.tab.mouse("mouseMoved", *page.at(200, 30))
    page.settle(1)
    check(page.painted(0)[1] == brushed(STROKE[:2], 6, width), "a button that went up unseen ended the stroke there")
    page.tab.touch(page.at(40, 40))
    page.tab.touch(page.at(60, 40))
    page.tab.call("Input.dispatchTouchEvent", type="touchCancel", touchPoints=[])
    page.tab.fingers = 0
    time.sleep(0.3)
    check(page.tab.run("[board.strokes.size, outbox.length, hand.gesture]") == [1, 0, None],
          "a finger that the system takes away paints nothing")


# ---- By keyboard alone ----

def enter(tab, key=" "):
    """Presses a key that acts on the element that has the focus."""
    code = {"Enter": 13, " ": 32}[key]
    text = "\r" if key == "Enter" else " "
    tab.call("Input.dispatchKeyEvent", type="keyDown", key=key, text=text, windowsVirtualKeyCode=code)
    tab.call("Input.dispatchKeyEvent", type="keyUp", key=key, windowsVirtualKeyCode=code)


def tab_order(page, most=120):
    """The names or numbers of the elements that Tab goes through, from the first one of the page on."""
    page.tab.run("document.activeElement.blur(), getSelection().removeAllRanges(), 0")
    page.tab.run("window.firstOne = document.querySelector('header button'), firstOne.focus(), 0")
    seen = [page.tab.run("document.activeElement.id")]
    for _ in range(most):
        page.tab.key("Tab")
        if page.tab.run("document.activeElement === firstOne || document.activeElement === document.body"):
            break
        seen.append(page.tab.run("document.activeElement.id || document.activeElement.className"))
    return seen


def keys_alone(sitting):
    """Tab reaches every button and slider in their order, keys act on them, Escape gives the keys to the picture."""
    begin(sitting, "cells", "keys.spd")
    page, tab = sitting.first, sitting.first.tab
    page.drag(DISC)
    page.settle(1)
    order = tab_order(page)
    wanted = tab.run("""[...document.querySelectorAll("header button, header input, header a, #overlay")].filter(each =>
        !each.disabled && each.offsetParent !== null).map(each => each.id)""")
    check([name for name in order if name in wanted] == wanted and "file" in wanted and "overlay" in wanted,
          f"Tab goes through all that is in the header, and to the picture: {len(wanted)} stops")
    check(tab.run("view.name") == "kept", "and changes no view")
    tab.run("element('eraser').focus(), 0")
    enter(tab)
    check(tab.run("[hand.tool, document.activeElement.id, hand.isSpaceHeld]") == ["eraser", "eraser", False],
          "Space presses a button, which keeps the keys")
    tab.key("b")
    check(tab.run("hand.tool") == "brush", "letters act all the same")
    tab.run("element('radius').focus(), 0")
    before = tab.run("[brush.radius, sight.left]")
    tab.key("ArrowRight")
    tab.key("ArrowRight")
    check(tab.run("[brush.radius, sight.left]") == [before[0] + 2, before[1]], "arrows move a slider, not the picture")
    tab.key("Escape")
    check(tab.run("document.activeElement.id") == "overlay", "Escape gives the keys to the picture")
    pan_and_zoom(tab)
    for name in ("result", "mask"):
        tab.key("v")
        check(tab.run("view.name") == name, f"V goes on to the view {name}")
    tab.key("V", SHIFT)
    tab.key("V", SHIFT)
    check(tab.run("view.name") == "kept", "Shift+V goes back")
    panels_by_keys(page)


def pan_and_zoom(tab):
    """Arrows move the picture, plus and minus zoom."""
    before = tab.run("[sight.left, sight.top]")
    tab.key("ArrowRight")
    tab.key("ArrowDown")
    near = tab.run("[sight.left, sight.top]")
    check(near[0] < before[0] and near[1] < before[1], "arrows move the picture")
    tab.key("ArrowLeft", SHIFT)
    check(tab.run("sight.left") > near[0] + 3 * (before[0] - near[0]), "Shift+arrows by a lot")
    zoom = tab.run("sight.zoom")
    tab.key("+")
    check(tab.run("sight.zoom") > zoom, "plus zooms in")
    tab.key("-")
    tab.key("-")
    check(tab.run("sight.zoom") < zoom, "minus zooms out")
    tab.key("f")


def panels_by_keys(page):
    """Each panel is opened by its key, its elements are reached, and Escape closes it."""
    for key, name in [("c", "contrast"), ("k", "classes"), ("e", "exports")]:
        page.tab.key(key)
        page.tab.wait(f"!element('{name}').hidden")
        check(page.tab.run(f"element('{name}').contains(document.activeElement)"), f"the keys go into the panel {name}")
        tab_through(page, name)
        page.tab.key("Tab", SHIFT)
        page.tab.key("Escape")
        page.tab.wait(f"element('{name}').hidden")
        page.tab.key("Escape")
        check(page.tab.run("document.activeElement.id") == "overlay", f"Escape closes {name}: the picture has the keys")


    page.tab.key("l")
    page.tab.wait("!element('labels').hidden")
    tab_through(page, "labels")
    page.tab.key("Escape")
    page.tab.key("v")
    page.tab.wait("element('labels').hidden")


def tab_through(page, name):
    """Tab reaches each element of a panel that one can act on, from its first one on."""
    inside = page.tab.run(f"""(() => {{
        const all = [...element('{name}').querySelectorAll("button, input, select, a")];
        const usable = all.filter(each => !each.disabled && each.offsetParent !== null);
        usable[0].focus();
        return usable.length; }})()""")
    reached = 0
    while page.tab.run(f"element('{name}').contains(document.activeElement)") and reached <= inside:
        reached += 1
        page.tab.key("Tab")
    check(reached == inside, f"Tab goes through the {inside} elements of the panel {name}")


def names(sitting):
    """A screen reader finds a name for all that one can act on, with each panel open, and for the picture."""
    begin(sitting, "cells", "names.spd")
    page = sitting.first
    page.drag(DISC)
    page.settle(1)
    for button in ("helpButton", "contrastShown", "classesShown", "exportsShown", "showLabels"):
        page.tab.run(f"element('{button}').click(), 0")
    page.tab.run("[...document.querySelectorAll('.unfold')].forEach(each => each.click()), 0")
    time.sleep(0.3)
    sitting.look("all-panels")
    page.tab.call("Accessibility.enable")
    nodes = page.tab.call("Accessibility.getFullAXTree")["nodes"]
    shown = [node for node in nodes if not node.get("ignored")]
    acting = [node for node in shown if node["role"]["value"] in ROLES - {"LabelText"}]
    unnamed = [node["role"]["value"] for node in acting if not node.get("name", {}).get("value", "").strip()]
    check(len(acting) > 40 and unnamed == [], f"all {len(acting)} elements that one can act on have a name")
    roles = {node["role"]["value"] for node in shown}
    check({"application", "status", "banner", "main", "complementary"} <= roles,
          "picture, message, header and panels have roles")
    sides = [node for node in shown if node["role"]["value"] == "complementary"]
    check(all(node.get("name", {}).get("value") for node in sides), f"the {len(sides)} panels have names")


CHECKS = [erase, erase_long, erase_what_stays, lines, polygons, too_much, shadow, other_end, lost_pointers, keys_alone,
          names]

if __name__ == "__main__":
    run_alone(__doc__, CHECKS)
