#!/usr/bin/env python3
"""Test the view of labels of the page: the same regions as labels_from_result.py, the panel, and painting meanwhile.

    python3 tools/paint_test_labels.py [--only WORD] [--screens FOLDER] crates/seedpaint/out/seedpaint paint

It needs Python 3, Debian's package chromium, and what labels_from_result.py needs of /usr/bin/python3.
"""

import csv
import json
import struct
import subprocess

from paint_testing import TOP, check, run_alone

# Strokes in cells: the third and the fourth lie in cells that touch, and the last one is of class 2.
STROKES = [[(83, 66), (91, 71), (101, 77)], [(206, 188)], [(205, 68)], [(220, 101)], [(285, 142)]]
QUIET = "labels.shown && labels.asked === 0 && !labels.isWanted && labels.newsFrom === 0"
PYTHON = "/usr/bin/python3"  # which sees Debian's packages

# Runs the tool with each list of words, and writes the labels as plain numbers beside each label image.
TOOL = """import json, pathlib, sys
sys.path.insert(0, sys.argv[1])
import labels_from_result, tifffile
for words in json.loads(sys.argv[2]):
    sys.argv = ["labels_from_result.py", *words]
    labels_from_result.main()
    pathlib.Path(words[1] + ".raw").write_bytes(tifffile.imread(words[1]).astype("<u4").tobytes())"""


def begin(sitting, mask, state, strokes=STROKES):
    """Opens a mask, paints strokes, the last one in class 2, and shows the view of labels."""
    sitting.open_anew(mask, state)
    page = sitting.first
    for number, stroke in enumerate(strokes, 1):
        page.tab.run(f"brush.inClass = {1 if number < len(strokes) else 2}, 0")
        page.drag(*stroke)
    sitting.both(len(strokes))
    page.tab.run("local.drop(labelsName()), openLabels(), 0")  # (the check before may have left another choice)
    page.tab.key("l")
    page.tab.wait(QUIET, 60)
    return page


def by_tool(sitting, mask, *choices):
    """The label of each pixel and the table, as labels_from_result.py makes them of what the program has, for each
    choice, which is a list of its words."""
    result, strokes = sitting.folder / "tool.pgm", sitting.folder / "tool.txt"
    result.write_bytes(sitting.program.get("image"))
    strokes.write_bytes(sitting.program.get("strokes"))
    calls = [[result, sitting.folder / f"tool-{k}.tif", "--mask", sitting.masks[mask], "--strokes", strokes, "--table",
              sitting.folder / f"tool-{k}.csv", *choice] for k, choice in enumerate(choices)]
    words = json.dumps([list(map(str, call)) for call in calls])
    subprocess.run([PYTHON, "-c", TOOL, TOP / "tools", words], check=True, stderr=subprocess.DEVNULL)
    for k in range(len(choices)):
        raw = (sitting.folder / f"tool-{k}.tif.raw").read_bytes()
        with (sitting.folder / f"tool-{k}.csv").open() as table:
            yield [number for number, in struct.iter_unpack("<I", raw)], list(csv.DictReader(table))


def shown(page):
    """The label of each pixel on the page, once the worker has nothing to do, and what the panel says."""
    page.tab.wait(QUIET, 60)
    return page.tab.run("[...labels.shown.numbers]"), page.tab.text("labelCount")


def compare(sitting, mask, seen):
    """Page and tool have the same labels. Of what was seen it takes a name, the tool's words, and what was shown."""
    tables = by_tool(sitting, mask, *(words for _, words, _ in seen))
    for (name, _, (numbers, count)), (expected, table) in zip(seen, tables, strict=True):
        check(numbers == expected, f"{mask}: {name}: the same labels as the tool, pixel for pixel")
        check(count.startswith(f"{len(table)} label"), f"{mask}: {name}: {count}")


def same(sitting, mask, name, *words):
    """Page and tool have the same labels now."""
    compare(sitting, mask, [(name, words, shown(sitting.first))])


def put_value(page, text):
    """Types a number into the field of the panel."""
    page.tab.run("element('thresholdValue').value = '', element('thresholdValue').focus(), 0")
    page.tab.type(str(text))
    page.tab.key("Enter")
    page.tab.run("element('thresholdValue').blur(), 0")


def as_by_the_tool(sitting, mask):
    """By share and by level, cut and joined."""
    page = begin(sitting, mask, f"labels-{mask}.spd")
    check(page.tab.run("!element('labels').hidden && view.name") == "labels", f"{mask}: L shows labels")
    seen = [("at first", ["--share", 0.5, "--split"], shown(page))]
    check(seen[0][2][1].startswith(f"{len(STROKES)} labels"), f"{mask}: each stroke has a label")
    sitting.look(f"labels-{mask}")
    page.slide("threshold", 0.5, 0.3, 0.15)
    share = page.tab.run("labels.choice.share")
    check(abs(share - 0.15) < 0.04, f"{mask}: the slider is dragged to a share, {share}")
    seen.append((f"share {share}, cut", ["--share", share, "--split"], shown(page)))
    page.click("ownColours")
    sitting.look(f"labels-own-{mask}")
    page.click("joinedUp")
    seen.append((f"share {share}, joined", ["--share", share], shown(page)))
    page.click("byLevel")
    level = page.tab.run("labels.choice.level")
    seen.append((f"level {level}, joined", ["--level", level], shown(page)))
    put_value(page, level // 2)
    seen.append((f"level {level // 2}, joined", ["--level", level // 2], shown(page)))
    page.click("cutApart")
    seen.append((f"level {level // 2}, cut", ["--level", level // 2, "--split"], shown(page)))
    sitting.look(f"labels-level-{mask}")
    compare(sitting, mask, seen)


def with_8_bits(sitting):
    """The cells with 8 bits."""
    as_by_the_tool(sitting, "cells")


def with_16_bits(sitting):
    """The cells with 16 bits."""
    as_by_the_tool(sitting, "deep")


def painting_goes_on(sitting):
    """Labels follow what is painted, here and by others, and what is withdrawn; a reload keeps the choice."""
    page = begin(sitting, "cells", "labels-live.spd", STROKES[:2])
    page.slide("threshold", 0.5, 0.3)
    share = page.tab.run("labels.choice.share")
    page.drag((53, 158))
    sitting.both(3)
    page.tab.wait("labels.newsFrom !== 0 || labels.shown.objects.length === 3")
    same(sitting, "cells", "a stroke that was painted in the view", "--share", share, "--split")
    check(page.tab.text("labelCount").startswith("3 labels"), "it has a label")
    sitting.second.drag((285, 142))
    sitting.both(4)
    page.tab.wait("labels.shown.objects.length === 4", 60)
    same(sitting, "cells", "a stroke of somebody else", "--share", share, "--split")
    page.tab.key("z", 2)
    sitting.both(3)
    page.tab.wait("labels.shown.objects.length === 3", 60)
    same(sitting, "cells", "a stroke that was taken back", "--share", share, "--split")
    page.reload()
    page.settle(3)
    check(page.tab.run("labels.choice.share") == share, "a reload keeps the choice")
    page.show("labels")
    same(sitting, "cells", "behind a reload", "--share", share, "--split")


def eight_neighbours(sitting):
    """The page takes as many neighbours as the program has."""
    words = sitting.program.words
    sitting.program.words = [*words, "--conn", "8"]
    try:
        page = begin(sitting, "cells", "labels-eight.spd")
        same(sitting, "cells", "with 8 neighbours", "--share", 0.5, "--split", "--conn", 8)
        check("8 neighbours" in page.tab.text("labelCount"), "the panel says how many neighbours there are")
        page.slide("threshold", 0.5, 0.2, 0.1)
        share = page.tab.run("labels.choice.share")
        same(sitting, "cells", f"with 8 neighbours, share {share}", "--share", share, "--split", "--conn", 8)
    finally:
        sitting.program.words = words
        sitting.open_anew("cells", "labels-four.spd")


def colours_and_words(sitting):
    """Regions have the colours of their classes, hidden ones none; the foot tells what is under the pointer."""
    page = begin(sitting, "cells", "labels-colours.spd")
    page.tab.key("h")
    one, two = page.colour_at(206, 180), page.colour_at(285, 150)
    check(one[2] > one[0] + 40, f"a label of class 1 is blue: {one}")
    check(two[0] > two[2] + 40, f"and one of class 2 vermilion: {two}")
    page.tab.mouse("mouseMoved", *page.at(285, 150))
    words = page.tab.text("pixel")
    (_, table), = by_tool(sitting, "cells", ["--share", 0.5, "--split"])
    (line,) = [line for line in table if line["class"] == "2"]
    expected = f"x 285 · y 150 · label {line['label']} · class 2 · {line['area']} pixels"
    check(words == expected, f"the foot says: {words}")
    page.tab.run("classes.change(2, { name: 'nuclei' }), 0")
    page.tab.mouse("mouseMoved", *page.at(284, 150))
    check("class 2 nuclei" in page.tab.text("pixel"), "and the name of the class")
    page.tab.run("classes.change(2, { isHidden: true }), 0")
    hidden = page.colour_at(285, 150)
    check(hidden[0] == hidden[1] == hidden[2], f"a hidden class has no colour: {hidden}")
    page.tab.run("classes.change(2, { isHidden: false, name: '' }), 0")
    page.tab.mouse("mouseMoved", *page.at(2, 2))
    check(page.tab.text("pixel") == "x 2 · y 2 · no label", "ground has no label")
    page.tab.key("h")


CHECKS = [with_8_bits, with_16_bits, painting_goes_on, eight_neighbours, colours_and_words]

if __name__ == "__main__":
    run_alone(__doc__, CHECKS)
