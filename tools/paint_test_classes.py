#!/usr/bin/env python3
"""Test the classes of strokes on the page: keys, the list, hidden and locked classes, two browsers, a restart.

    python3 tools/paint_test_classes.py [--only WORD] [--screens FOLDER] crates/seedpaint/out/seedpaint paint

It needs Python 3 and Debian's package chromium.
"""

import time
import uuid

from browser import CONTROL, SHIFT
from paint_testing import BOTH_DEPTHS, author_of, check, run_alone
from tags import class_of, object_of

ONE, TWO, THREE = (206, 188), (127, 136), (300, 42)  # pixels in three cells
KEEP = [[(83, 66), (91, 71), (101, 77)], [ONE]]
SKY, VERMILION, YELLOW = [86, 180, 233], [213, 94, 0], [240, 228, 66]
LONG = [(310, 2), (300, 254)]  # a gesture of more than 160 runs


def class_in(line):
    """The class that the tag of a stroke's line tells."""
    return class_of(uuid.UUID(line.split(" ")[1]))


def press_digits(page, text):
    """Types digits fast, behind a pause."""
    time.sleep(0.6)
    for digit in text:
        page.tab.key(digit)


def row(number, part):
    """The script of a part of the row of a class."""
    return f"""document.querySelector("[data-number='{number}'] .{part}")"""


def listed(page):
    """The classes in the list, in their order."""
    return page.tab.run("[...element('classList').children].map(row => Number(row.dataset.number))")


def text_in_row(page, number, part):
    """What stands in a part of the row of a class."""
    return page.tab.run(row(number, part) + ".textContent")


def click_row(page, number, part):
    """Clicks a part of the row of a class, with the mouse."""
    page.tab.run(row(number, part) + ".scrollIntoView({ block: 'nearest' }), 0")
    left, top, width, height = page.tab.run(
        f"(box => [box.x, box.y, box.width, box.height])({row(number, part)}.getBoundingClientRect())")
    page.tab.click(left + width / 2, top + height / 2)


def with_and_without(page, pixel):
    """The colours of a pixel of the mask on the canvas, with strokes and without."""
    seen = []
    for _ in range(2):
        seen.append(page.colour_at(*pixel)[:3])
        page.tab.key("h")
    return seen


def is_marked(page, pixel, colour):
    """Whether a pixel is marked with a colour: half of that, and half of what is there without strokes."""
    seen, plain = with_and_without(page, pixel)
    return all(abs(2 * (one - other // 2) - part) <= 3 for one, other, part in zip(seen, plain, colour))


def is_plain(page, pixel):
    """Whether a pixel looks as it does without strokes."""
    seen, plain = with_and_without(page, pixel)
    return seen == plain


def two_classes(sitting):
    """A digit chooses the class, strokes get it in their tags, and both pages show its colour."""
    for mask in BOTH_DEPTHS:
        sitting.open_anew(mask, f"two-classes-{mask}.spd")
        first, second = sitting.first, sitting.second
        first.drag(ONE)
        sitting.both(1)
        check(class_in(first.strokes()[0]) == 1, f"{mask}: what is painted at first is of class 1")
        check(first.tab.run("marking.isByClass") is False, f"{mask}: with class 1 alone strokes are drawn by authors")
        first.tab.key("2")
        check(first.tab.text("className") == "Class 2", f"{mask}: a digit chooses a class, and the header says so")
        first.drag(TWO)
        sitting.both(2)
        check(class_in(first.strokes()[1]) == 2, f"{mask}: the tag of what is painted tells the class")
        check(all(is_marked(page, ONE, SKY) and is_marked(page, TWO, VERMILION) for page in (first, second)),
              f"{mask}: both pages draw each stroke in the colour of its class")
        check(second.tab.text("counts") == "0 mine2 of others", f"{mask}: and tell one's own from those of others")
        sitting.look(f"classes-{mask}")


def numbers_typed(sitting):
    """Digits that come fast are one number; none of them zooms."""
    sitting.open_anew("cells", "numbers.spd")
    page, zoom = sitting.first, sitting.first.tab.run("sight.zoom")
    for text, expected in (("17", 17), ("256", 6), ("040", 40), ("9", 9), ("0", 9)):
        press_digits(page, text)
        check(page.tab.run("brush.inClass") == expected, f"{text} chooses class {expected}")
    press_digits(page, "1")
    press_digits(page, "2")
    check(page.tab.run("brush.inClass") == 2, "a digit behind a pause begins anew")
    check(page.tab.run("sight.zoom") == zoom, "and no digit zooms")
    page.tab.key("F", SHIFT)
    check(page.tab.run("sight.zoom") == 1, "Shift+F goes pixel for pixel")
    page.tab.key("f")
    check(page.tab.run("sight.zoom") == zoom, "F fits the whole picture")
    press_digits(page, "255")
    page.drag(THREE)
    sitting.both(1)
    check(class_in(sitting.second.strokes()[0]) == 255, "class 255 reaches the other page")


def undo_keeps_the_class(sitting):
    """What undo and redo bring back is of its class and its author; a gesture of many strokes is one object."""
    sitting.open_anew("cells", "undo.spd")
    first, second = sitting.first, sitting.second
    press_digits(second, "3")
    second.drag(*LONG)
    sitting.both(2)
    tags = [uuid.UUID(line.split(" ")[1]) for line in second.strokes()]
    check({class_of(tag) for tag in tags} == {3} and len({object_of(tag) for tag in tags}) == 1,
          "a long gesture is several strokes of its class, and one object")
    press_digits(first, "2")
    first.tab.key("x")
    first.drag(LONG[0], modifiers=SHIFT)
    sitting.both(0)
    first.tab.key("z", CONTROL)
    sitting.both(2)
    lines = first.strokes()
    check({class_in(line) for line in lines} == {3} and {author_of(line) for line in lines} == {second.author()},
          "undo of a withdrawal keeps class and author, whatever class is painted with")
    check(len({object_of(uuid.UUID(line.split(" ")[1])) for line in lines}) == 1, "and one object")
    first.tab.key("b")
    first.drag(ONE)
    sitting.both(3)
    first.tab.key("z", CONTROL)
    press_digits(first, "7")
    first.tab.key("Z", CONTROL | SHIFT)
    sitting.both(3)
    check(class_in(next(line for line in first.strokes() if "188:206" in line)) == 2, "redo keeps the class, too")


def the_list(sitting):
    """The list names, colours, counts, adds and picks classes."""
    for mask in BOTH_DEPTHS:
        sitting.open_anew(mask, f"list-{mask}.spd")
        page = sitting.first
        press_digits(page, "1")
        for path in (*KEEP, LONG):
            page.drag(*path)
        page.settle(4)
        press_digits(page, "3")
        page.drag(TWO)
        page.settle(5)
        page.tab.key("k")
        check(page.tab.run("!element('classes').hidden && document.activeElement === "
                           + row(3, "pick")), f"{mask}: K opens the list, and leads the keys to the class")
        check(listed(page) == [1, 3], f"{mask}: it has the classes that are used")
        check("3 objects · 4 strokes" in text_in_row(page, 1, "unfold"), f"{mask}: with their objects and strokes")
        name_class(page, 3, "Zellkern; „A“")
        check(page.tab.text("className") == "3 · Zellkern; „A“", f"{mask}: a class gets a name")
        colour_class(page, 3, "#f0e442")
        check(is_marked(page, TWO, YELLOW) and page.tab.run("classColour(3)") == YELLOW, f"{mask}: and a colour")
        click_row(page, 1, "pick")
        check(page.tab.run("brush.inClass") == 1, f"{mask}: a click picks a class to paint with")
        page.click("addClass")
        check(listed(page) == [1, 2, 3] and page.tab.run("brush.inClass") == 2,
              f"{mask}: a class is added, and painted with")
        page.tab.type("Plate")
        page.tab.key("Enter")
        check(page.tab.text("className") == "2 · Plate", f"{mask}: its name is typed at once")
        page.click("byAuthor")
        check(not is_marked(page, TWO, YELLOW) and page.tab.run("marking.isByClass") is False,
              f"{mask}: a switch draws strokes by their authors")
        page.click("byClass")
        check(is_marked(page, TWO, YELLOW), f"{mask}: and by their classes again")
        sitting.look(f"classes-list-{mask}")
        page.tab.key("k")
        page.tab.key("k")
        page.tab.key("Escape")
        check(page.tab.run("element('classes').hidden"), f"{mask}: Escape closes the list")
        kept_over_a_reload(sitting, page, mask)


def kept_over_a_reload(sitting, page, mask):
    """Names, colours and the class that is painted with."""
    kept = "[[1, 2, 3].map(number => classes.get(number)), brush.inClass, marking.isByClass]"
    before = page.tab.run(kept)
    page.reload()
    page.settle(5)
    check(page.tab.run(kept) == before and page.tab.text("className") == "2 · Plate",
          f"{mask}: a reload keeps names, colours and the class")
    sitting.open_anew(mask, f"list-{mask}.spd")
    page.settle(5)
    check(page.tab.run(kept) == before and is_marked(page, TWO, YELLOW), f"{mask}: a restart does, too")
    check(sitting.second.tab.run("classes.get(3).name") == "Class 3", f"{mask}: the other browser has names of its own")


def name_class(page, number, name):
    """Types a name for a class."""
    click_row(page, number, "name")
    page.tab.run("document.activeElement.select()")
    page.tab.type(name)
    page.tab.key("Enter")


def colour_class(page, number, colour):
    """Gives a class a colour, as the browser's dialog does: that has no place in a window without a screen."""
    page.tab.run(f"""(input => {{ input.value = '{colour}';
        for (const kind of ["input", "change"]) input.dispatchEvent(new Event(kind, {{ bubbles: true }})); }})(
        {row(number, "colour")}), 0""")


def hidden_and_locked(sitting):
    """Hidden classes are not drawn and not hit; locked ones stay as they are."""
    for mask in BOTH_DEPTHS:
        sitting.open_anew(mask, f"hidden-{mask}.spd")
        page = sitting.first
        press_digits(page, "1")
        page.drag(ONE)
        page.settle(1)
        press_digits(page, "2")
        page.drag(ONE)
        page.settle(2)
        page.drag(TWO)
        page.settle(3)
        check(is_marked(page, ONE, VERMILION), f"{mask}: the stroke on top is seen")
        page.click("classesShown")
        click_row(page, 2, "hide")
        check(is_marked(page, ONE, SKY) and is_plain(page, TWO), f"{mask}: a hidden class is not drawn")
        sitting.look(f"classes-hidden-{mask}")
        page.tab.key("x")
        page.tab.mouse("mouseMoved", *page.at(*TWO))
        check(page.tab.run("hand.hovered") is None, f"{mask}: and not hit by a click")
        page.tab.key("b")
        page.drag(THREE)
        page.settle(4)
        check(page.tab.run("isHiddenClass(2)") is False and is_marked(page, TWO, VERMILION),
              f"{mask}: painting in it shows it again")
        click_row(page, 2, "lock")
        before = page.strokes()
        page.drag((60, 60), (70, 70))
        check("locked" in page.tab.text("message") and page.tab.run("outbox.length") == 0,
              f"{mask}: a locked class takes no stroke, and the foot says so")
        page.tab.key("x")
        page.drag(TWO)
        check("locked" in page.tab.text("message"), f"{mask}: a click on one of its strokes takes nothing")
        page.drag(ONE)
        page.settle(3)
        check(sorted(page.strokes()) == sorted(before[1:]), f"{mask}: but one below that is not locked")
        page.tab.key("z", CONTROL)
        page.settle(4)
        page.tab.key("z", CONTROL)
        time.sleep(0.3)
        check(len(page.strokes()) == 4 and "locked" in page.tab.text("message"),
              f"{mask}: undo leaves a locked class alone, and says so")
        page.tab.key("b")
        click_row(page, 2, "lock")
        page.tab.key("z", CONTROL)
        page.settle(3)
        check(True, f"{mask}: and goes on once it is unlocked")
        page.click("classesShown")


def both_have(sitting, number, count):
    """Waits until both pages have so many strokes, all of them of this class."""
    sitting.both(count)
    for page in (sitting.first, sitting.second):
        page.tab.wait(f"liveOf({number}).strokes === {count}")
    sitting.both(count)


def to_another_class(sitting):
    """An object goes to another class from the list, and by a key; one undo takes it back."""
    sitting.open_anew("cells", "bring.spd")
    first, second = sitting.first, sitting.second
    press_digits(second, "1")
    second.drag(*LONG)
    sitting.both(2)
    press_digits(first, "4")
    first.click("classesShown")
    click_row(first, 1, "unfold")
    check("of another" in text_in_row(first, 1, "goTo"), "the list says which object is another's")
    click_row(first, 1, "toClass")
    both_have(sitting, 4, 2)
    lines = second.strokes()
    check({class_in(line) for line in lines} == {4} and {author_of(line) for line in lines} == {second.author()},
          "a button brings an object to the class that is painted with, and it stays its author's")
    check(len({object_of(uuid.UUID(line.split(" ")[1])) for line in lines}) == 1, "and one object")
    first.tab.key("z", CONTROL)
    both_have(sitting, 1, 2)
    check({class_in(line) for line in first.strokes()} == {1}, "one undo takes that back")
    first.tab.mouse("mouseMoved", *first.at(*LONG[0]))
    first.tab.key("t")
    both_have(sitting, 4, 2)
    check({class_in(line) for line in second.strokes()} == {4}, "T brings the object under the pointer there")
    first.click("classesShown")


def many_objects(sitting):
    """With 1,500 objects the list has 200 and says how many more; it goes to one of them."""
    sitting.open_anew("cells", "many.spd")
    page = sitting.first
    tags = [f"00112233-4455-6677-e{number:03x}-00000001{number % 2 + 1:02x}00" for number in range(1500)]
    lines = [f"disc {tag} 9 {8 + number // 50 * 8}:{6 + number % 50 * 6}+1" for number, tag in enumerate(tags)]
    (sitting.folder / "many.txt").write_text("\n".join(lines) + "\n")
    page.tab.drop(*page.at(160, 128), sitting.folder / "many.txt")
    sitting.both(1500)
    press_digits(page, "2")
    page.tab.key("k")
    click_row(page, 2, "unfold")
    count = "document.querySelectorAll('.goTo').length"
    check(page.tab.run(count) == 200 and text_in_row(page, 2, "more") == "and 550 more",
          "of 750 objects the list has 200, and says how many more there are")
    click_row(page, 2, "more")
    check(page.tab.run(count) == 400, "and has 200 more once they are asked for")
    begun = page.tab.run("performance.now()")
    page.tab.run("drawClasses(), 0")
    spent = page.tab.run("performance.now()") - begun
    check(spent < 300, f"it is brought up to date in {spent:.0f} ms")
    sitting.look("classes-many")
    go_to_objects(sitting, page)


def go_to_objects(sitting, page):
    """A click goes to an object and outlines it; so do keys."""
    page.tab.run("document.querySelectorAll('.goTo')[3].scrollIntoView(), 0")
    shown = "pointed.gesture"
    click_row(page, 2, "goTo")
    gesture = page.tab.run("document.querySelector('.objects li').dataset.gesture")
    check(page.tab.run(shown) == gesture, "a click goes to an object")
    sitting.look("classes-go-to")
    middle = page.tab.run("""(() => { const { box } = strokesOfGesture(pointed.gesture)[0];
        const left = coveredAtLeft(), x = sight.left + (box.left + box.right) / 2 * sight.zoom;
        return [x - (left + (picture.width - left) / 2),
            sight.top + (box.top + box.bottom) / 2 * sight.zoom - picture.height / 2, sight.zoom]; })()""")
    check(abs(middle[0]) < 1 and abs(middle[1]) < 1 and middle[2] >= 2, "which is in the middle of what is seen then")
    page.tab.wait(f"{shown} === ''")
    check(True, "and outlined for a moment")
    page.tab.run("document.querySelector('.goTo').focus()")
    page.tab.key("ArrowDown")
    page.tab.key("ArrowDown")
    page.tab.key("ArrowUp")
    check(page.tab.run("document.activeElement === document.querySelectorAll('.goTo')[1]"),
          "arrows go from object to object")
    page.tab.run("document.activeElement.click(), 0")
    check(page.tab.run(f"{shown} === document.querySelectorAll('.objects li')[1].dataset.gesture"),
          "and a key goes to it")
    page.tab.key("Escape")


def at_another_port(sitting):
    """What is kept of classes comes along to the address of a program that was started at another port."""
    sitting.open_anew("cells", "moved.spd")
    page = sitting.first
    press_digits(page, "5")
    page.drag(ONE)
    page.settle(1)
    page.tab.key("k")
    name_class(page, 5, "Mitose")
    page.tab.key("k")
    sitting.program.stop()
    page.tab.wait("!element('banner').hidden")
    sitting.program.start_elsewhere(sitting.masks["cells"])
    page.move_to(sitting.program.address)
    page.settle(1)
    check(page.tab.run("classes.get(5).name") == "Mitose", "at another port the names of classes come along")
    check(page.tab.run("location.href") == sitting.program.address, "and the address has nothing of them any more")


CHECKS = [two_classes, numbers_typed, undo_keeps_the_class, the_list, hidden_and_locked, to_another_class, many_objects,
          at_another_port]


if __name__ == "__main__":
    run_alone(__doc__, CHECKS)
