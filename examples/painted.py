#!/usr/bin/env python3
"""Paint strokes on the picture of cells, as somebody would in a layer of GIMP with the pencil.

    python3 examples/painted.py /tmp/painted.png

The layer is transparent but for a short line on each of ten cells, in ten colours; three of the cells touch. It needs
Pillow (Debian's python3-pil).
"""

import sys

try:
    from PIL import Image, ImageDraw
except ModuleNotFoundError:
    sys.exit("painted.py: Pillow is missing: install Debian's package python3-pil, and call it by /usr/bin/python3")

SIZE = (320, 256)
LINES = {  # colour: first and last pixel of the line, column and row each
    "#e6194b": (82, 145, 88, 137),
    "#3cb44b": (120, 143, 127, 135),
    "#ffe119": (95, 175, 102, 167),
    "#4363d8": (50, 162, 57, 154),
    "#f58231": (203, 71, 209, 64),
    "#911eb4": (216, 104, 223, 97),
    "#46f0f0": (88, 74, 95, 66),
    "#f032e6": (202, 192, 209, 185),
    "#bcf60c": (281, 146, 288, 138),
    "#fabebe": (166, 228, 173, 220),
}


def main():
    """Write the layer."""
    layer = Image.new("RGBA", SIZE)
    pencil = ImageDraw.Draw(layer)
    for colour, line in LINES.items():
        pencil.line(line, fill=colour, width=3)
    layer.save(sys.argv[1], format="PNG")


if __name__ == "__main__":
    main()
