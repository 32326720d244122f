#!/usr/bin/env python3
"""Write an example for the views of an image: a plain PGM file with a picture of grains.

The picture is drawn, not photographed: round grains with a bright rim, dark
inside, on dull ground that rises to the right. Some rims have a gap, some
grains carry a bright spot, and there is noise everywhere.

Random numbers come from a fixed seed, and only sums, products, quotients
and square roots are taken of them, so every machine writes the same bytes.
"""

import math
import random
import textwrap
from collections import namedtuple

WIDTH, HEIGHT, MAXVAL, GRAINS = 320, 240, 255, 34

# A grain: its centre, the radius to the middle of its rim, how bright the rim
# is, the direction of the gap in it (or None), and the light of its spot.
Grain = namedtuple("Grain", "x y radius light gap spot")


def length(across, down):
    """The length of a vector."""
    return math.sqrt(across * across + down * down)


def smooth_step(low, high, value):
    """Rise smoothly from 0 at low to 1 at high."""
    share = min(1.0, max(0.0, (value - low) / (high - low)))
    return share * share * (3.0 - 2.0 * share)


def scatter(generator):
    """Grains at random places that do not touch."""
    grains = []
    while len(grains) < GRAINS:
        radius = 9.0 + 10.0 * generator.random()
        x, y = WIDTH * generator.random(), HEIGHT * generator.random()
        turn = generator.random() - 0.5, generator.random() - 0.5
        gap = turn if len(grains) % 4 == 3 else None
        spot = 70.0 if len(grains) % 3 == 1 else 0.0
        grain = Grain(x, y, radius, 90.0 + 80.0 * generator.random(), gap, spot)
        if all(length(x - other.x, y - other.y) > radius + other.radius + 9.0 for other in grains):
            grains.append(grain)
    return grains


def light_of(grain, x, y):
    """The light of a grain's rim and spot at a pixel."""
    across, down = x - grain.x, y - grain.y
    distance = length(across, down)
    rim = grain.light * smooth_step(3.5, 1.5, abs(distance - grain.radius))
    if grain.gap is not None:
        along = across * grain.gap[0] + down * grain.gap[1]
        if along > 0.85 * distance * length(*grain.gap):
            rim = 0.0
    return rim + grain.spot * smooth_step(4.0, 2.0, distance)


def sample(grains, generator, x, y):
    """The sample at a pixel, from 0 to MAXVAL."""
    ground = 20.0 + 40.0 * x / WIDTH
    light = sum(light_of(grain, x, y) for grain in grains if length(grain.x - x, grain.y - y) < 30.0)
    noise = generator.random() + generator.random() - 1.0
    return min(MAXVAL, max(0, int(ground + light + 10.0 * noise)))


def main():
    """Write the picture to standard output."""
    generator = random.Random(1993)
    grains = scatter(generator)
    print(f"P2\n{WIDTH} {HEIGHT}\n{MAXVAL}")
    for y in range(HEIGHT):
        print(textwrap.fill(" ".join(str(sample(grains, generator, x, y)) for x in range(WIDTH)), 70))


if __name__ == "__main__":
    main()
