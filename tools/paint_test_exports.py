#!/usr/bin/env python3
"""Test what the page exports: each button is pressed, and the file that comes is read back.

    python3 tools/paint_test_exports.py [--only WORD] [--screens FOLDER] crates/seedpaint/out/seedpaint paint

The files are read by the plain readers of reading_exports.py, and by Python's csv and json. It needs Python 3 and
Debian's package chromium.
"""

import csv
import io
import json
import random

from browser import wait_for
from paint_testing import BOTH_DEPTHS, check, readers, run_alone
from reading_exports import places_of, read_png, read_tiff

STROKES = [[(83, 66), (91, 71), (101, 77)], [(206, 188)], [(120, 140), (127, 136)]]
NAME = '=big, "round"'  # of class 2
LABELLING = "currentLabelling().then(({ numbers, objects }) => ({ numbers: [...numbers], objects }))"
SLOWLY = """(() => { const filter = filterPairs;
    window.filterPairs = (...row) => {
        const end = performance.now() + .2;
        while (performance.now() < end);
        filter(...row);
    };
    window.breathe = () => new Promise(done => setTimeout(done, 300)); })()"""
MANY_LABELS = """window.currentLabelling = async () => ({ width: board.width, height: board.height,
    numbers: new Uint32Array(board.width * board.height).fill(70000), areas: [0, 1],
    objects: [{ number: 70000, gesture: '', tag: [...board.strokes.keys()][0], inClass: 1, strokes: 1 }] }), 0"""
NO_MEMORY = "window.currentLabelling = async () => { throw new RangeError('Array buffer allocation failed'); }, 0"


def begin(sitting, mask, state, strokes=STROKES):
    """Opens a mask, paints strokes, the last one in class 2, and opens the panel."""
    sitting.open_anew(mask, state)
    page = sitting.first
    for number, stroke in enumerate(strokes, 1):
        page.tab.run(f"brush.inClass = {1 if number < len(STROKES) else 2}, 0")
        page.drag(*stroke)
    sitting.both(len(strokes))
    page.click("exportsShown")
    return page


def told(page, words):
    """Waits until the foot of the page says something, as a fault."""
    page.tab.wait(f"element('message').textContent.includes({json.dumps(words)})")
    check(page.tab.run("element('message').classList.contains('isFault')"), f"it is said: {page.tab.text('message')}")


def result_and_strokes(sitting):
    """The result as PGM and PNG, the strokes as lines, and the state file."""
    for mask in BOTH_DEPTHS:
        page, program = begin(sitting, mask, f"result-{mask}.spd"), sitting.program
        sitting.look(f"exports-{mask}")
        image = readers.read_image(program.get("image"))
        pgm = sitting.download(page, "exportResultPgm", f"{page.stem()}-result.pgm")
        check(pgm == program.get("image"), f"{mask}: the PGM is the program's")
        png = sitting.download(page, "exportResultPng", f"{page.stem()}-result.png")
        bits = 8 if image.maxval < 256 else 16
        check(read_png(png) == (image.width, image.height, bits, image.samples), f"{mask}: so are the PNG's samples")
        state = sitting.download(page, "exportState", f"{page.stem()}.spd")
        check(state == program.get("state"), f"{mask}: the state file is the program's")
        lines = sitting.download(page, "exportStrokes", f"{page.stem()}-strokes.txt").decode()
        first, rest = lines.split("\n", 1)
        check(first == f"; edits for the mask {page.tab.run('board.fingerprint')}", f"{mask}: lines tell their mask")
        check(rest.encode() == program.get("strokes"), f"{mask}: and are the program's")
        join_lines(sitting, mask, lines)


def join_lines(sitting, mask, lines):
    """The lines are dropped on a page without strokes, and all of them come; on one for another mask none does."""
    path, strokes = sitting.folder / f"lines-{mask}.txt", sorted(sitting.first.strokes())
    path.write_text(lines)
    sitting.open_anew(mask, f"joined-{mask}.spd")
    page = sitting.first
    page.tab.drop(*page.at(160, 128), path)
    sitting.both(len(strokes))
    check(sorted(page.strokes()) == strokes, f"{mask}: dropped on a page for the mask, all strokes come")
    sitting.open_anew("grains", f"grains-{mask}.spd")
    page.tab.drop(*page.at(160, 128), path)
    told(page, "another picture")


def labels(sitting):
    """The label image as PNG and TIFF, the table, and COCO's JSON, of the labels that the page shows."""
    for mask in BOTH_DEPTHS:
        page, image = begin(sitting, mask, f"labels-{mask}.spd"), sitting.mask(mask)
        page.tab.run(f"classes.change(2, {{ name: {json.dumps(NAME)} }}), 0")
        shown = page.tab.run(LABELLING)
        size = image.width, image.height
        check(len(set(shown["numbers"]) - {0}) >= 2, f"{mask}: there are labels")
        for button, ending, bits, read in (("exportLabelsPng", "-labels.png", 16, read_png),
                                           ("exportLabelsTiff", "-labels.tif", 16, read_tiff),
                                           ("exportLabelsTiff32", "-labels-32.tif", 32, read_tiff)):
            found = read(sitting.download(page, button, page.stem() + ending))
            check(found == (*size, bits, shown["numbers"]), f"{mask}: {ending} has the labels that are shown")
        table = sitting.download(page, "exportTable", f"{page.stem()}-labels.csv").decode()
        check_table(list(csv.DictReader(io.StringIO(table, newline=""), strict=True)), shown, image, mask)
        coco = sitting.download(page, "exportCoco", f"{page.stem()}-coco.json")
        check_coco(json.loads(coco), shown, image, f"{page.stem()}.pgm", mask)


def pixels_by_label(shown, width):
    """The pixels of each label, by row and column."""
    found = {}
    for place, number in enumerate(shown["numbers"]):
        if number:
            found.setdefault(number, []).append(divmod(place, width))
    return dict(sorted(found.items()))


def check_table(rows, shown, image, mask):
    """The table measures what is shown."""
    known = {each["number"]: each for each in shown["objects"]}
    expected = []
    for number, pixels in pixels_by_label(shown, image.width).items():
        samples = [image.samples[y * image.width + x] for y, x in pixels]
        rows_in, columns_in, each = [y for y, _ in pixels], [x for _, x in pixels], known[number]
        sums = {"x": sum(columns_in), "y": sum(rows_in), "mean": sum(samples)}
        name = "Class 1" if each["inClass"] == 1 else "'" + NAME
        expected.append({"label": number, "stroke": each["tag"], "area": len(pixels), "left": min(columns_in),
                         "top": min(rows_in), "right": max(columns_in), "bottom": max(rows_in),
                         "class": each["inClass"], "name": name, "strokes": each["strokes"],
                         "min": min(samples), "max": max(samples)})
        row = rows[len(expected) - 1]
        check(all(abs(float(row[name]) - total / len(pixels)) <= 0.0005001 for name, total in sums.items()),
              f"{mask}: label {number} has its centre and mean in the table")
    means = ("x", "y", "mean")
    found = [{name: value for name, value in row.items() if name not in means} for row in rows]
    check(found == [{name: str(value) for name, value in row.items()} for row in expected],
          f"{mask}: the table has all else of {len(rows)} labels, and the name is no formula")


def check_coco(found, shown, image, name, mask):
    """COCO's JSON has the same pixels, their boxes and their classes."""
    known, pixels = {each["number"]: each for each in shown["objects"]}, pixels_by_label(shown, image.width)
    check(found["images"] == [{"id": 1, "file_name": name, "width": image.width, "height": image.height}],
          f"{mask}: COCO's JSON tells its picture")
    check([(each["id"], each["name"]) for each in found["categories"]] == [(1, "Class 1"), (2, NAME)],
          f"{mask}: and the classes")
    check([each["id"] for each in found["annotations"]] == list(pixels), f"{mask}: and has the labels")
    for each in found["annotations"]:
        own = pixels[each["id"]]
        left, top = min(x for _, x in own), min(y for y, _ in own)
        box = [left, top, max(x for _, x in own) - left + 1, max(y for y, _ in own) - top + 1]
        check(sorted(places_of(each["segmentation"])) == own and each["area"] == len(own) and each["bbox"] == box
              and each["category_id"] == known[each["id"]]["inClass"], f"{mask}: label {each['id']} as it is shown")


def names_and_keys(sitting):
    """The name of the picture, which a reload keeps; and the panel by keys alone."""
    page = begin(sitting, "cells", "names.spd")
    page.click("pictureName")
    page.tab.type("my cells.tif")
    page.tab.key("Tab")
    coco = json.loads(sitting.download(page, "exportCoco", "my cells-coco.json"))
    check(coco["images"][0]["file_name"] == "my cells.tif", "files and COCO's JSON have the name that was typed")
    page.reload()
    page.settle(3)
    check(page.tab.run("element('exports').hidden"), "the panel is closed at first")
    page.tab.key("e")
    check(page.tab.run("document.activeElement.id") == "exportLabelsPng", "E opens it, and leads the keys there")
    for _ in range(5):
        page.tab.key("Tab")
    check(page.tab.run("document.activeElement.id") == "exportResultPgm", "Tab goes on from button to button")
    folder = sitting.folder / "by-key"
    page.tab.download_to(folder)
    for kind, more in (("keyDown", {"text": "\r"}), ("keyUp", {})):
        page.tab.call("Input.dispatchKeyEvent", type=kind, key="Enter", windowsVirtualKeyCode=13, **more)
    wait_for((folder / "my cells-result.pgm").is_file, "the file of a button that Enter pressed")
    check(True, "Enter presses one, and a reload keeps the name")
    page.tab.key("Escape")
    check(page.tab.run("element('exports').hidden"), "Escape closes it")
    page.tab.run("element('pictureName').value = '', keepPictureName()")


def while_a_file_is_made(sitting):
    """Meanwhile the page says how far it is, and paints; it can be stopped."""
    chance = random.Random(54)
    sitting.put_mask("noise", 1000, 1000, 65535, (chance.randrange(65536) for _ in range(10**6)))
    page = begin(sitting, "noise", "noise.spd", [[(500, 500)]])
    page.tab.run(SLOWLY)
    page.click("exportResultPng")
    page.tab.wait("element('exportShare').value > 0")
    sitting.look("exports-progress")
    page.drag((200, 700), (300, 710))
    page.settle(2)
    check(page.tab.run("exporting.name !== '' && !element('exportProgress').hidden"), "while a file is made one can paint")
    page.click("exportTable")
    told(page, "is being made")
    page.click("exportStop")
    told(page, "stopped")
    check(page.tab.run("exporting.name === '' && element('exportProgress').hidden"), "and it can be stopped")
    page.reload()
    page.settle(2)
    page.tab.key("e")
    width, height, bits, samples = read_png(sitting.download(page, "exportResultPng", f"{page.stem()}-result.png"))
    image = readers.read_image(sitting.program.get("image"))
    check((width, height, bits, samples) == (1000, 1000, 16, image.samples), "made anew it has both strokes")


def refusals(sitting):
    """What cannot be exported is said in a sentence, and strokes can be saved while the program is away."""
    page = begin(sitting, "cells", "refusals.spd", [])
    page.click("exportLabelsPng")
    told(page, "no stroke is kept")
    page.drag((206, 188))
    page.settle(1)
    page.tab.run(MANY_LABELS)
    for button in ("exportLabelsPng", "exportLabelsTiff"):
        page.tab.run("say(''), 0")
        page.click(button)
        told(page, "go up to 70000")
    *_, bits, samples = read_tiff(sitting.download(page, "exportLabelsTiff32", f"{page.stem()}-labels-32.tif"))
    check(bits == 32 and set(samples) == {70000}, "a TIFF of 32 bits has labels above 65535")
    page.tab.run(NO_MEMORY)
    page.click("exportTable")
    told(page, "no memory")
    sitting.program.stop()
    page.click("exportState")
    told(page, "does not answer")
    page.tab.wait("silence.failures > 0 && exporting.name === ''")
    lines = sitting.download(page, "exportStrokes", f"{page.stem()}-strokes.txt").decode().splitlines()
    check(lines[1:] == page.strokes(), "while the program is away the strokes can be saved")


CHECKS = [result_and_strokes, labels, names_and_keys, while_a_file_is_made, refusals]

if __name__ == "__main__":
    run_alone(__doc__, CHECKS)
