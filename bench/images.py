#!/usr/bin/env python3
"""Write an input of Seedpaint for a benchmark: edit lines, `image`, a raw PGM.

    python3 bench/images.py cells --size 2048 > /tmp/cells.txt
    python3 bench/images.py maze 1500 900 > /tmp/maze.txt

Families of images, of any size:

cells   bright round cells with noise on black ground, a seed in most of them
plates  large flat plates at slightly different levels, with scratches
map     smooth hills, quantised to height lines
spiral  a corridor one pixel wide that winds inwards, one seed at its outer end
maze    a perfect maze of corridors one pixel wide, one seed
noise   16-bit white noise, a few seeds
rising  a flat plate with 64 seeds from top to bottom, each brighter than the one above it
corner  cells on a noisy ground that is nowhere 0, one seed in the lower right corner that lights all of it
snake   a corridor one pixel wide that winds up and down through the whole image, one seed at its right end

A family of many strokes, for `strokes.py`, with `--discs N` and `--withdrawn K`:

discs   plates under N discs of radius 0 to 3, of which the last K lines withdraw some

Families for one edit on a settled image. At a side of 4096 they have 5,000 cells, and behind the other edits 200 that
are measured: a stroke is placed on a cell and withdrawn again, on 100 cells.

few-lit     cells on black ground, a stroke on every fifth
all-lit     the same, a stroke on each
lit-ground  as few-lit, on a noisy ground that is nowhere 0

A family for the views of an image, of 16 bits and without strokes:

relief      smooth hills with a little noise

The same bytes come out each time, and on every machine: random numbers are of
numpy's frozen RandomState with a fixed seed, and of them only sums, products,
quotients and square roots are taken.
"""

import argparse
import sys
import uuid

import numpy

SEED = 1993


class Strokes:
    """Edit lines, each stroke under a tag of its own and cut to the image."""

    def __init__(self, width, height, scattered=False):
        self.width, self.height, self.scattered = width, height, scattered
        self.lines = []

    def tag(self):
        """A tag for the next line: the number of the line, or scattered over all tags as those of `uuidgen` are."""
        number = len(self.lines) + 1
        return uuid.UUID(int=number * 0x9E3779B97F4A7C15F39CC0605CEDC835 % 2 ** 128 if self.scattered else number)

    def dash(self, row, column, reach, level):
        """A slanted stroke of 2 * reach + 1 rows through a pixel."""
        runs = []
        for step in range(-reach, reach + 1):
            first = max(0, column - step - reach)
            last = min(self.width - 1, column - step + reach)
            if 0 <= row + step < self.height and first <= last:
                runs.append(f"{row + step}:{first}-{last}")
        self.lines.append(f"place {self.tag()} {level} {','.join(runs)}")

    def disc(self, row, column, radius, level):
        """A round stroke."""
        self.lines.append(f"disc {self.tag()} {level} {row}:{column}+{radius}")

    def withdraw_last(self):
        """Take the last stroke back."""
        self.lines.append(f"withdraw {self.lines[-1].split()[1]}")


def draw_cell(mask, generator):
    """Draw a round cell with a noisy dome of light at a random place; give its middle and its light."""
    row, column = generator.randint(mask.shape[0]), generator.randint(mask.shape[1])
    radius, light = generator.randint(9, 23), generator.randint(130, 230)
    top, left = max(0, row - radius), max(0, column - radius)
    window = mask[top:row + radius + 1, left:column + radius + 1]
    rows, columns = numpy.ogrid[:window.shape[0], :window.shape[1]]
    distance = ((rows + (top - row)) ** 2 + (columns + (left - column)) ** 2) / radius ** 2
    body = light * (1 - 0.5 * distance) + generator.randint(-20, 21, window.shape)
    body = numpy.where(distance <= 1, body, 0)
    window[:] = numpy.maximum(window, body.astype(numpy.uint8))
    return row, column, light


def cells(width, height, generator):
    """Round cells with a noisy dome of light; they cover a quarter of the image."""
    mask = numpy.zeros((height, width), numpy.uint8)
    strokes = Strokes(width, height)
    for number in range(max(1, width * height // 2900)):
        row, column, light = draw_cell(mask, generator)
        if number % 3 == 0:
            strokes.disc(row, column, 3, 255)
        elif number % 3 == 1:
            strokes.dash(row, column, 2, 100 + light // 2)
        if number % 30 == 0:
            strokes.withdraw_last()
    return mask, 255, strokes


def cut(width, height, generator):
    """Rectangles (top, left, bottom, right) that fill the image, cut at random until small."""
    done, waiting = [], [(0, 0, height, width)]
    while waiting:
        top, left, bottom, right = waiting.pop()
        tall, wide = bottom - top, right - left
        if max(tall, wide) <= generator.randint(160, 400):
            done.append((top, left, bottom, right))
        elif tall >= wide:
            middle = top + tall // 3 + generator.randint(tall // 3)
            waiting += [(top, left, middle, right), (middle, left, bottom, right)]
        else:
            middle = left + wide // 3 + generator.randint(wide // 3)
            waiting += [(top, left, bottom, middle), (top, middle, bottom, right)]
    return done


def plates(width, height, generator):
    """Flat plates with darker seams, and straight scratches across them."""
    mask = numpy.empty((height, width), numpy.uint8)
    strokes = Strokes(width, height)
    for number, (top, left, bottom, right) in enumerate(cut(width, height, generator)):
        level = generator.randint(180, 221)
        mask[top:bottom, left:right] = level
        mask[top, left:right] = mask[top:bottom, left] = level - generator.randint(10, 60)
        if number % 4 == 0:
            strokes.dash((top + bottom) // 2, (left + right) // 2, 5, 255)
        elif number % 4 == 1:
            strokes.disc((top + bottom) // 2, (left + right) // 2, 8, level - 20)
    for _ in range(width * height // 8000):
        length = generator.randint(40, 400)
        across, down = generator.randint(-length, length + 1, 2)
        steps = numpy.arange(max(abs(across), abs(down)) + 1)
        rows = generator.randint(height) + steps * down // max(1, len(steps) - 1)
        columns = generator.randint(width) + steps * across // max(1, len(steps) - 1)
        inside = (0 <= rows) & (rows < height) & (0 <= columns) & (columns < width)
        mask[rows[inside], columns[inside]] -= numpy.uint8(generator.randint(5, 16))
    return mask, 255, strokes


def hills(width, height, spacing, generator):
    """Smooth hills between 0 and 1, with a random knot every `spacing` pixels."""
    def between(length):
        whole, part = numpy.divmod(numpy.arange(length), spacing)
        part = part / spacing
        return whole, part * part * (3 - 2 * part)
    knots = generator.random_sample((height // spacing + 2, width // spacing + 2))
    column, right = between(width)
    row, down = between(height)
    lines = knots[:, column] + (knots[:, column + 1] - knots[:, column]) * right
    steps = lines[1:] - lines[:-1]
    return lines[row] + steps[row] * down[:, None]


def height_lines(width, height, generator):
    """Hills of four sizes, cut into terraces of 50 levels."""
    ground = numpy.zeros((height, width))
    for spacing, share in ((256, 0.5), (128, 0.25), (64, 0.15), (32, 0.1)):
        ground += share * hills(width, height, spacing, generator)
    mask = 5 * (50 * ground).astype(numpy.uint8)
    strokes = Strokes(width, height)
    for number in range(max(1, width * height // 40000)):
        row, column = generator.randint(height), generator.randint(width)
        level = max(1, int(mask[row, column]) - 5 * generator.randint(4))
        if number % 2 == 0:
            strokes.disc(row, column, 4, level)
        else:
            strokes.dash(row, column, 3, level)
    return mask, 255, strokes


def spiral(width, height, generator):
    """Rings two pixels apart, each cut below its first corner and joined there to the next one inwards."""
    level = generator.randint(190, 211)
    mask = numpy.zeros((height, width), numpy.uint8)
    tall, wide = height - (height + 1) % 2, width - (width + 1) % 2  # odd, so that the middle is a line
    rows, columns = numpy.arange(tall)[:, None], numpy.arange(wide)
    depth = numpy.minimum(numpy.minimum(rows, rows[::-1]), numpy.minimum(columns, columns[::-1]))
    mask[:tall, :wide][depth % 2 == 0] = level
    corners = numpy.arange(0, (min(tall, wide) - 1) // 2, 2)
    mask[corners + 1, corners] = 0
    corners = numpy.arange(0, (min(tall, wide) - 3) // 2, 2)
    mask[corners + 2, corners + 1] = level
    strokes = Strokes(width, height)
    strokes.dash(0, 0, 0, 255)
    return mask, 255, strokes


def joined(labels, one, other):
    """Labels of places once each label leads where its way from `one` to `other` leads."""
    leads = numpy.arange(len(labels), dtype=numpy.int32)
    leads[one] = other
    both = leads[leads] == numpy.arange(len(labels))  # two that lead to each other: the lesser stays
    leads = numpy.where(both, numpy.minimum(leads, numpy.arange(len(labels))), leads).astype(numpy.int32)
    while True:
        further = leads[leads]
        if numpy.array_equal(further, leads):
            return leads[labels]
        leads = further


def spanning_tree(places, edges, generator):
    """The edges of a random spanning tree: Boruvka's rounds over edges in random order."""
    edges = edges[generator.permutation(len(edges))]
    labels = numpy.arange(places, dtype=numpy.int32)
    tree = []
    while True:
        ends = labels[edges]
        apart = ends[:, 0] != ends[:, 1]
        edges, ends = edges[apart], ends[apart]
        if len(edges) == 0:
            return numpy.concatenate(tree)
        first = numpy.full(places, -1, numpy.int32)
        for side in (0, 1):  # the least edge of each label: written last, it stays
            order = numpy.arange(len(edges), dtype=numpy.int32)[::-1]
            found = numpy.full(places, len(edges), numpy.int32)
            found[ends[::-1, side]] = order
            first = found if side == 0 else numpy.minimum(first, found)
        one = numpy.flatnonzero(first < len(edges))
        least = first[one]
        other = numpy.where(ends[least, 0] == one, ends[least, 1], ends[least, 0])
        tree.append(edges[numpy.unique(least)])
        labels = joined(labels, one, other)


def maze(width, height, generator):
    """Rooms at even rows and columns, joined along a random spanning tree."""
    level = generator.randint(190, 211)
    mask = numpy.zeros((height, width), numpy.uint8)
    mask[::2, ::2] = level
    tall, wide = mask[::2, ::2].shape
    room = numpy.arange(tall * wide, dtype=numpy.int32).reshape(tall, wide)
    across = numpy.stack((room[:, :-1].ravel(), room[:, 1:].ravel()), axis=1)
    down = numpy.stack((room[:-1].ravel(), room[1:].ravel()), axis=1)
    edges = numpy.concatenate((across, down))
    if len(edges) > 0:
        tree = spanning_tree(tall * wide, edges, generator)
        mask[(tree // wide).sum(axis=1), (tree % wide).sum(axis=1)] = level
    strokes = Strokes(width, height)
    strokes.dash(0, 0, 0, 255)
    return mask, 255, strokes


def noise(width, height, generator):
    """White noise of 16 bits; five seeds that do not grow in number with the image."""
    mask = generator.randint(0, 65536, (height, width), numpy.uint16)
    strokes = Strokes(width, height)
    for number in range(5):
        row, column = generator.randint(height), generator.randint(width)
        if number % 2 == 0:
            strokes.disc(row, column, 4, 65535)
        else:
            strokes.dash(row, column, 3, 50000)
    return mask, 65535, strokes


def rising(width, height, generator):
    """A flat plate; seeds from the top down, each of which floods all that those above it have lit."""
    mask = numpy.full((height, width), 255, numpy.uint8)
    strokes = Strokes(width, height)
    for number in range(64):
        strokes.dash((2 * number + 1) * height // 128, generator.randint(width), 0, 100 + 2 * number)
    return mask, 255, strokes


def corner(width, height, generator):
    """Cells on a noisy ground that is nowhere 0; all light comes from the lower right corner."""
    mask, maxval, _ = lit_ground(width, height, generator)
    strokes = Strokes(width, height)
    strokes.disc(height - 1, width - 1, 3, 255)
    return mask, maxval, strokes


def snake(width, height, generator):
    """Every other column, each joined to the next: the last two at the top, the two before at the bottom, and so on."""
    level = generator.randint(190, 211)
    mask = numpy.zeros((height, width), numpy.uint8)
    last = (width - 1) // 2 * 2
    walls = numpy.arange(last - 1, 0, -2)
    mask[:, ::2] = level
    mask[0, walls[::2]] = mask[-1, walls[1::2]] = level
    strokes = Strokes(width, height)
    strokes.dash(height - 1, last, 0, 255)
    return mask, 255, strokes


def discs(width, height, generator, count=30_000, withdrawn=0):
    """Plates under many small discs, some of which are withdrawn again."""
    mask, maxval, _ = plates(width, height, generator)
    strokes = Strokes(width, height, scattered=True)
    rows, columns = generator.randint(height, size=count), generator.randint(width, size=count)
    radii, levels = generator.randint(0, 4, size=count), generator.randint(50, 200, size=count)
    for row, column, radius, level in zip(rows, columns, radii, levels):
        strokes.disc(row, column, radius, level)
    placed = [line.split()[1] for line in strokes.lines]
    for number in sorted(generator.permutation(count)[:withdrawn]):
        strokes.lines.append(f"withdraw {placed[number]}")
    return mask, maxval, strokes


def edited_cells(mask, every, generator):
    """Round cells, a stroke on one in `every`; then 100 strokes that are placed and withdrawn again, one by one."""
    height, width = mask.shape
    strokes = Strokes(width, height)
    middles = []
    for number in range(max(100, width * height // 3355)):
        row, column, light = draw_cell(mask, generator)
        middles.append((row, column))
        if number % every == 0:
            strokes.dash(row, column, 2, light // 2)
    for row, column in middles[::-(len(middles) // 100)][:100]:
        strokes.disc(row, column, 3, 255)
        strokes.withdraw_last()
    return mask, 255, strokes


def few_lit(width, height, generator):
    """Cells on black ground, of which few are lit."""
    return edited_cells(numpy.zeros((height, width), numpy.uint8), 5, generator)


def all_lit(width, height, generator):
    """Cells on black ground, each of them lit."""
    return edited_cells(numpy.zeros((height, width), numpy.uint8), 1, generator)


def lit_ground(width, height, generator):
    """Cells on a noisy ground over which light spreads everywhere."""
    return edited_cells(generator.randint(10, 41, (height, width), numpy.uint8), 5, generator)


def relief(width, height, generator):
    """Hills of four sizes in 16 bits, with noise that leaves many small maxima and holes."""
    ground = numpy.zeros((height, width))
    for spacing, share in ((256, 0.5), (128, 0.25), (64, 0.15), (32, 0.1)):
        ground += share * hills(width, height, spacing, generator)
    noise = generator.randint(0, 500, (height, width))
    return (65000 * ground).astype(numpy.uint16) + noise.astype(numpy.uint16), 65535, Strokes(width, height)


FAMILIES = {"cells": cells, "plates": plates, "map": height_lines,
            "spiral": spiral, "maze": maze, "noise": noise, "rising": rising,
            "corner": corner, "snake": snake, "discs": discs,
            "few-lit": few_lit, "all-lit": all_lit, "lit-ground": lit_ground,
            "relief": relief}


def make(family, width, height, **choices):
    """The input of the program, as bytes."""
    mask, maxval, strokes = FAMILIES[family](width, height, numpy.random.RandomState(SEED), **choices)
    edits = "".join(line + "\n" for line in strokes.lines)
    raster = mask.tobytes() if maxval < 256 else mask.astype(">u2").tobytes()
    return f"{edits}image\nP5\n{width} {height}\n{maxval}\n".encode() + raster


def main():
    """Write one input to standard output."""
    parser = argparse.ArgumentParser(description="Write an input of Seedpaint for a benchmark.")
    parser.add_argument("family", choices=FAMILIES)
    parser.add_argument("sides", nargs="*", type=int, metavar="W H", help="width and height")
    parser.add_argument("--size", type=int, default=2048, help="width and height of a square (2048)")
    parser.add_argument("--discs", type=int, default=30_000, metavar="N", help="discs of the family discs (30000)")
    parser.add_argument("--withdrawn", type=int, default=0, metavar="K", help="how many of them are withdrawn (0)")
    words = parser.parse_args()
    if len(words.sides) not in (0, 2):
        parser.error("give both a width and a height, or --size")
    width, height = words.sides or (words.size, words.size)
    choices = {"count": words.discs, "withdrawn": words.withdrawn} if words.family == "discs" else {}
    sys.stdout.buffer.write(make(words.family, width, height, **choices))


if __name__ == "__main__":
    main()
