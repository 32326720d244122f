#!/usr/bin/env python3
"""Run the Python of docs/PYTHON.md from top to bottom, as a notebook would.

    ~/paint/bin/python tools/python_page.py
    ~/paint/bin/python tools/python_page.py --pictures

It needs the package, which that page installs, and python3-skimage. In a folder that is thrown away it makes the two
files with which "From a TIFF to labels" begins. Each block that is Python runs in the same session, and what stands
below a line with `>>>` has to be what it gives, or the script ends with status 1. With `--pictures` it then draws the
pictures of that section in docs/pictures.
"""

import argparse
import doctest
import os
import pathlib
import re
import sys
import tempfile

from running import Fault, run, without

try:
    import numpy
    import tifffile
    from PIL import Image, ImageDraw
except ModuleNotFoundError as missing:
    without(missing)

from labels_over_picture import labels_over

ROOT = pathlib.Path(__file__).resolve().parent.parent
sys.path.insert(0, str(ROOT / "examples"))
import painted  # noqa: E402

SCALE = 2
SHELL = re.compile(r"(apt-get|cc -\S+|tools/\S+|/usr/bin/\S+|~/\S+|LD_LIBRARY_PATH=\S+)( |$)")


def make_files():
    """The picture of cells, and a label image with a line on each of ten of them."""
    tifffile.imwrite("cells.tif", numpy.array(Image.open(ROOT / "examples/cells.png").convert("L")))
    layer = Image.new("L", painted.SIZE)
    pencil = ImageDraw.Draw(layer)
    for label, line in enumerate(painted.LINES.values(), 1):
        pencil.line(line, fill=label, width=3)
    tifffile.imwrite("painted.tif", numpy.array(layer))


def blocks():
    """The page's lines of code, up to each blank line."""
    text = (ROOT / "docs/PYTHON.md").read_text()
    return [re.sub("^    ", "", block, flags=re.M) for block in re.findall("(?:^    .*\n)+", text, re.M)]


def is_of_a_shell(block):
    """Whether each line of a block is a command that the page gives a shell."""
    return all(SHELL.match(line) for line in block.splitlines())


def compiled(block):
    """The code of a block of Python."""
    try:
        return compile(block, "block", "exec")
    except SyntaxError as why:
        line = block.splitlines()[why.lineno - 1]
        raise Fault(f"a line of the page is neither Python nor a command of a shell: {line}") from None


def run_page(names):
    """Run the blocks that are Python among these names, and give how many answers were compared."""
    runner = doctest.DocTestRunner(verbose=False)
    for block in blocks():
        if block.startswith(">>>"):
            test = doctest.DocTestParser().get_doctest(block, names, "docs/PYTHON.md", None, 0)
            runner.run(test)
        elif not is_of_a_shell(block):
            exec(compiled(block), names)
    if runner.failures:
        raise Fault("the page says another answer")
    return runner.tries


def draw(name, picture):
    """Write a picture for the page."""
    large = picture.repeat(SCALE, axis=0).repeat(SCALE, axis=1)
    Image.fromarray(large).save(ROOT / f"docs/pictures/python-{name}.png", optimize=True)


def main():
    """Run the page, and draw its pictures where they are asked for."""
    parser = argparse.ArgumentParser(description="Run the Python of docs/PYTHON.md.")
    parser.add_argument("--pictures", action="store_true", help="draw the pictures of the page, too")
    words = parser.parse_args()
    names = {}
    with tempfile.TemporaryDirectory() as folder:
        os.chdir(folder)
        make_files()
        tried = run_page(names)
        os.chdir(ROOT)
    if words.pictures:
        grey = names["cells"] * (255 / names["cells"].max())
        draw("painted", labels_over(grey, names["layer"].astype(int)))
        draw("kept", names["kept"])
        draw("regions", labels_over(grey, names["regions"].astype(int)))
    print(f"{tried} answers are those of the page")


if __name__ == "__main__":
    sys.exit(run(main))
