#!/usr/bin/env python3
"""Write an example input of Seedpaint: seed strokes on a picture of cells.

The picture is drawn, not photographed: cells with a grainy body and a bright
nucleus on a dark, uneven background, many of them touching. A few cells carry
a seed stroke. The reconstruction keeps those cells and flattens the others.

Random numbers come from a fixed seed, and only sums, products, quotients
and square roots are taken of them, so every machine writes the same bytes.
"""

import math
import random
import textwrap
import uuid
from collections import namedtuple

WIDTH, HEIGHT, MAXVAL, CELLS = 320, 256, 255, 58
SEEDED = [29, 12, 38, 23, 36, 9, 20, 28, 10]
LEVELS = [255, 255, 255, 255, 120, 255, 255, 255, 255]

# An ellipse: centre, mean radius, axis, stretch along it, brightness from 0 to 1.
Cell = namedtuple("Cell", "x y radius axis_x axis_y stretch brightness")

HEADING = """\
; Cells under the microscope, a seed stroke on each cell to be kept.
; A stroke is: place TAG LEVEL RUNS, a run being row:first-last column.
; The fifth stroke has a lower level and keeps its cell only up to that.
; The picture, a plain PGM, follows the line that is the word image."""


def smooth_step(low, high, value):
    """Rise smoothly from 0 at low to 1 at high."""
    share = min(1.0, max(0.0, (value - low) / (high - low)))
    return share * share * (3.0 - 2.0 * share)


def texture(generator, spacing):
    """A function of the pixel: random hills between -1 and 1."""
    knots = [[2.0 * generator.random() - 1.0 for _ in range(WIDTH // spacing + 2)]
             for _ in range(HEIGHT // spacing + 2)]

    def height(x, y):
        column, row = x // spacing, y // spacing
        right, down = (smooth_step(0, spacing, place % spacing) for place in (x, y))
        upper, lower = (line[column] + (line[column + 1] - line[column]) * right
                        for line in knots[row:row + 2])
        return upper + (lower - upper) * down
    return height


def length(across, down):
    """The length of a vector."""
    return math.sqrt(across * across + down * down)


def light_of(cell, x, y, bend):
    """The light of body and nucleus at a pixel; bend moves the outline."""
    across, down = x - cell.x, y - cell.y
    along = (across * cell.axis_x + down * cell.axis_y) / cell.stretch
    aside = (down * cell.axis_x - across * cell.axis_y) * cell.stretch
    distance = length(along, aside) / cell.radius + bend
    body = (0.62 - 0.14 * distance) * smooth_step(1.10, 0.80, distance)
    return cell.brightness * (body + 0.38 * smooth_step(0.52, 0.30, distance))


def scatter(generator):
    """Cells at random places, some close enough to touch."""
    cells = []
    while len(cells) < CELLS:
        turn_x, turn_y = generator.random() - 0.5, generator.random() - 0.5
        turn = length(turn_x, turn_y)
        cell = Cell(WIDTH * generator.random(), HEIGHT * generator.random(),
                    13.0 + 7.0 * generator.random(), turn_x / turn, turn_y / turn,
                    1.0 + 0.18 * generator.random(), 0.7 + 0.3 * generator.random())
        if all(length(cell.x - other.x, cell.y - other.y)
               > 0.84 * (cell.radius + other.radius) for other in cells):
            cells.append(cell)
    return cells


def draw(cells, generator):
    """The picture: rows of samples from 0 to MAXVAL."""
    slow, bends, grain = (texture(generator, spacing) for spacing in (64, 11, 4))

    def sample(x, y):
        bend = 0.10 * bends(x, y)
        lights = sorted(light_of(cell, x, y, bend) for cell in cells
                        if abs(cell.x - x) + abs(cell.y - y) < 60)
        second, first = ([0.0, 0.0] + lights)[-2:]
        light = first - 0.7 * second  # a groove where two cells touch
        noise = generator.random() + generator.random() - 1.0
        value = (24.0 + 7.0 * slow(x, y) + 4.0 * noise
                 + light * (222.0 + 44.0 * grain(x, y) + 22.0 * noise))
        return min(MAXVAL, max(0, int(value)))
    return [[sample(x, y) for x in range(WIDTH)] for y in range(HEIGHT)]


def runs(cell):
    """The runs of a short slanted stroke through the middle of a cell."""
    x, y = int(cell.x), int(cell.y)
    return ",".join(f"{y + row}:{x - row - 3}-{x - row + 3}" for row in range(-3, 4))


def main():
    """Write strokes and picture to standard output."""
    generator = random.Random(1993)
    cells = scatter(generator)
    print(HEADING)
    for number, level in zip(SEEDED, LEVELS):
        tag = uuid.UUID(int=generator.getrandbits(128), version=4)
        print("place", tag, level, runs(cells[number]))
    print(f"image\nP2\n{WIDTH} {HEIGHT}\n{MAXVAL}")
    for row in draw(cells, generator):
        print(textwrap.fill(" ".join(map(str, row)), 70))


if __name__ == "__main__":
    main()
