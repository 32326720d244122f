#!/usr/bin/env python3
"""Write an example input of Seedpaint: seed strokes on a picture of neurons.

The picture is drawn, not photographed: neurons under the fluorescence
microscope, each a bright body with branches that are one pixel wide, and two
long fibres between them. A branch goes on from pixel to pixel by a side or by
a corner, so only with 8 neighbours does the light of a seed follow it.

Discs on some of the bodies and a stroke across one fibre are the seeds. One
of the discs is withdrawn again, and its neuron is gone from the result.

Random numbers come from a fixed seed, and only sums, products, quotients
and square roots are taken of them, so every machine writes the same bytes.
"""

import math
import random
import sys
import uuid
from collections import namedtuple

WIDTH, HEIGHT, MAXVAL = 320, 240, 255
BODIES_APART, MARGIN, CLEARANCE = 60, 24, 4
# The numbers of the bodies that get a disc, and of the one that loses it.
SEEDED, WITHDRAWN, LEVEL, DISC_RADIUS = [3, 4, 0, 7, 5], 4, 255, 6

# A body: its centre and radius.
Body = namedtuple("Body", "x y radius")

# The growing end of a branch: its place and direction, how many pixels are
# left to grow, its light from 0 to 1, and whose branch it is.
Tip = namedtuple("Tip", "x y across down left light owner")

FIBRES = [Tip(0.5, 80.5, 0.85, 0.52, 420, 0.9, "seeded fibre"),
          Tip(190.5, 0.5, 0.8, 0.6, 420, 0.9, "other fibre")]

HEADING = """\
; Neurons under the microscope, a seed on each one to be kept.
; disc TAG LEVEL row:column+radius is a round stroke, here on a body.
; place TAG LEVEL RUNS is a stroke of runs, here across a fibre.
; withdraw TAG takes a stroke back: that neuron is not kept after all.
; The picture, a raw PGM, follows the line that is the word image."""

# The comment stands where GIMP and the Netpbm programs write theirs.
HEADER = f"P5\n# Created by neurons.py\n{WIDTH} {HEIGHT}\n{MAXVAL}\n"


def length(across, down):
    """The length of a vector."""
    return math.sqrt(across * across + down * down)


def smooth_step(low, high, value):
    """Rise smoothly from 0 at low to 1 at high."""
    share = min(1.0, max(0.0, (value - low) / (high - low)))
    return share * share * (3.0 - 2.0 * share)


def pixel_of(tip):
    """The pixel that a tip has come to."""
    return int(tip.x), int(tip.y)


def is_clear(pixel, owner, owners):
    """Whether a pixel lies in the picture and clear of everybody else's."""
    x, y = pixel
    near = range(-CLEARANCE, CLEARANCE + 1)
    return (0 <= x < WIDTH and 0 <= y < HEIGHT
            and all(owners.get((x + across, y + down), owner) == owner
                    for down in near for across in near))


def step(tip, generator, bend):
    """The tip one pixel further on, by a side or by a corner."""
    turn = bend * (2.0 * generator.random() - 1.0)
    across, down = tip.across - turn * tip.down, tip.down + turn * tip.across
    longest = max(abs(across), abs(down))
    size = length(across, down)
    return tip._replace(x=tip.x + across / longest, y=tip.y + down / longest,
                        across=across / size, down=down / size,
                        left=tip.left - 1, light=tip.light * 0.996)


def fork(tip, generator):
    """The two tips in which a tip goes on."""
    for turn in (-0.6, 0.6):
        across, down = tip.across - turn * tip.down, tip.down + turn * tip.across
        size = length(across, down)
        yield tip._replace(across=across / size, down=down / size,
                           left=int(tip.left * (0.6 + 0.4 * generator.random())))


def grow(tips, owners, generator, bend, forks):
    """Let the tips grow in turn; the light of each pixel that they pass."""
    lights = {}
    while tips:
        grown = [step(tip, generator, bend) for tip in tips]
        tips = []
        for tip in grown:
            if tip.left > 0 and is_clear(pixel_of(tip), tip.owner, owners):
                owners[pixel_of(tip)] = tip.owner
                lights[pixel_of(tip)] = tip.light
                tips += fork(tip, generator) if generator.random() < forks else [tip]
    return lights


def scatter(owners, generator):
    """Bodies at random places, well apart and clear of the fibres."""
    bodies = []
    for _ in range(4000):
        body = Body(MARGIN + (WIDTH - 2 * MARGIN) * generator.random(),
                    MARGIN + (HEIGHT - 2 * MARGIN) * generator.random(),
                    7.5 + 2.0 * generator.random())
        if (all(length(body.x - other.x, body.y - other.y) > BODIES_APART for other in bodies)
                and all(length(body.x - x, body.y - y) > 16 for x, y in owners)):
            bodies.append(body)
    return bodies


def first_tips(body, owner, generator):
    """Six tips in the middle of a body, each turned by a sixth from the one before."""
    across, down = generator.random() - 0.5, generator.random() - 0.5
    size = length(across, down)
    across, down = across / size, down / size
    for _ in range(6):
        yield Tip(body.x, body.y, across, down, 40 + int(40 * generator.random()), 0.9, owner)
        across, down = 0.5 * across - 0.866 * down, 0.866 * across + 0.5 * down


def grow_all(generator):
    """The bodies, whose pixel each one is, and the light of each pixel of a branch."""
    owners, lights = {}, {}
    for fibre in FIBRES:
        lights.update(grow([fibre], owners, generator, 0.10, 0.0))
    bodies = scatter(owners, generator)
    tips = [tip for number, body in enumerate(bodies)
            for tip in first_tips(body, number, generator)]
    lights.update(grow(tips, owners, generator, 0.35, 0.03))
    return bodies, owners, lights


def light_of(body, x, y):
    """The light of a body at a pixel."""
    distance = length(x + 0.5 - body.x, y + 0.5 - body.y) / body.radius
    return (1.0 - 0.2 * distance) * smooth_step(1.15, 0.75, distance)


def draw(bodies, lights, generator):
    """The picture: its samples from 0 to MAXVAL, row by row from the top."""
    def sample(x, y):
        near = [light_of(body, x, y) for body in bodies
                if abs(body.x - x) + abs(body.y - y) < 20]
        glow = max(lights.get((x + across, y + down), 0.0)
                   for down in (-1, 0, 1) for across in (-1, 0, 1))
        light = max([lights.get((x, y), 0.0), 0.12 * glow] + near)
        noise = generator.random() + generator.random() - 1.0
        shade = length(x - WIDTH / 2, y - HEIGHT / 2) / WIDTH
        value = 26.0 - 14.0 * shade + 5.0 * noise + light * (215.0 + 12.0 * noise)
        return min(MAXVAL, max(0, int(value)))
    return bytes(sample(x, y) for y in range(HEIGHT) for x in range(WIDTH))


def runs(pixels):
    """The runs of a set of pixels, each as long as it can be."""
    starts = sorted((y, x) for x, y in pixels if (x - 1, y) not in pixels)
    ends = sorted((y, x) for x, y in pixels if (x + 1, y) not in pixels)
    return ",".join(f"{y}:{first}-{last}" for (y, first), (_, last) in zip(starts, ends))


def brush(pixels):
    """The pixels and those beside them: a stroke three pixels wide."""
    return {(x + across, y + down) for x, y in pixels
            for across, down in ((0, 0), (1, 0), (-1, 0), (0, 1), (0, -1))}


def strokes(bodies, owners, generator):
    """The edit lines: discs on bodies, a stroke across a fibre, a withdrawal."""
    tags = [uuid.UUID(int=generator.getrandbits(128), version=4) for _ in range(len(SEEDED) + 1)]
    for tag, number in zip(tags, SEEDED):
        row, column = int(bodies[number].y), int(bodies[number].x)
        yield f"disc {tag} {LEVEL} {row}:{column}+{DISC_RADIUS}"
    fibre = [pixel for pixel, owner in owners.items() if owner == "seeded fibre"]
    yield f"place {tags[-1]} {LEVEL} {runs(brush(fibre[40:52]))}"
    yield f"withdraw {tags[SEEDED.index(WITHDRAWN)]}"


def main():
    """Write strokes and picture to standard output."""
    generator = random.Random(8)
    bodies, owners, lights = grow_all(generator)
    lines = [HEADING, *strokes(bodies, owners, generator), "image", HEADER]
    sys.stdout.buffer.write("\n".join(lines).encode() + draw(bodies, lights, generator))


if __name__ == "__main__":
    main()
