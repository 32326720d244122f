#!/usr/bin/env python3
"""Compare what Seedpaint and the plain C program write, on random pictures of random sizes.

    python3 bench/same_bytes.py crates/seedpaint/out/seedpaint --pictures 200 --seed 1

Each picture goes through `view` with 4 and 8 neighbours, each with a random side of tiles, and through `derive fill`,
`derive hmax` and `derive regmax`. The first difference ends the script with status 1, and leaves its input behind. No
time is taken.
"""

import argparse
import pathlib
import subprocess
import sys

import numpy

from images import Strokes
from run import KEPT, compiled

KINDS = ["noise", "steps", "corridors", "sparse", "flat"]


def picture(kind, height, width, top, generator):
    """A mask of a kind, with samples of at most `top`."""
    if kind == "noise":
        return generator.randint(0, top + 1, (height, width))
    if kind == "steps":
        ground = numpy.add.outer(numpy.arange(height) // 7, numpy.arange(width) // 5)
        return ground * 3 % (top + 1)
    if kind == "corridors":
        mask = numpy.where(generator.random_sample((height, width)) < 0.55, generator.randint(top + 1), 0)
        mask[generator.randint(2)::2, :] = generator.randint(top + 1)
        mask[:, generator.randint(2)::3] = generator.randint(top + 1)
        return mask
    if kind == "sparse":
        return numpy.where(generator.random_sample((height, width)) < 0.1, generator.randint(0, top + 1), 0)
    return numpy.full((height, width), generator.randint(top + 1))


def edits(height, width, top, generator):
    """Edit lines: some discs and dashes, and some of them withdrawn."""
    strokes = Strokes(width, height)
    for _ in range(generator.randint(1, 12)):
        row, column = generator.randint(height), generator.randint(width)
        if generator.randint(2):
            strokes.disc(row, column, generator.randint(6), generator.randint(1, top + 2))
        else:
            strokes.dash(row, column, generator.randint(4), generator.randint(1, top + 2))
        if generator.randint(4) == 0:
            strokes.withdraw_last()
    return strokes.lines


def file_of(mask, top):
    """The raw file of a mask with this maxval."""
    height, width = mask.shape
    samples = mask.astype(">u2" if top > 255 else "u1")
    return b"P5\n%d %d\n%d\n" % (width, height, top) + samples.tobytes()


def written(command, given):
    """What a program writes on such an input."""
    done = subprocess.run([str(word) for word in command], input=given, stdout=subprocess.PIPE, check=False)
    if done.returncode != 0:
        sys.exit(f"{command} ended with status {done.returncode}")
    return done.stdout


def compare(program, baseline, given, words, own):
    """Stop where the two write different bytes."""
    if written([program, *words], given) != written([baseline, *own], given):
        left = KEPT / "differs.txt"
        left.write_bytes(given)
        sys.exit(f"{words} and baseline {own} differ on {left}")


def main():
    """Compare as many pictures as the command line asks for."""
    parser = argparse.ArgumentParser(description="Compare Seedpaint's bytes with a plain C program's.")
    parser.add_argument("program", type=pathlib.Path, help="crates/seedpaint/out/seedpaint")
    parser.add_argument("--pictures", type=int, default=200, metavar="N", help="how many (200)")
    parser.add_argument("--side", type=int, default=300, metavar="N", help="their greatest side (300)")
    parser.add_argument("--seed", type=int, default=1, metavar="N", help="the seed of the random numbers (1)")
    words = parser.parse_args()
    if not words.program.is_file():
        parser.error(f"{words.program} is not there; `rt run` in crates/seedpaint makes the program")
    KEPT.mkdir(exist_ok=True)
    program, baseline = words.program.resolve(), compiled("baseline")
    generator = numpy.random.RandomState(words.seed)
    runs = 0
    for number in range(words.pictures):
        height, width = generator.randint(1, words.side + 1, 2)
        top = [1, 2, 255, 256, 4095, 65534][generator.randint(6)]
        mask = picture(KINDS[number % len(KINDS)], height, width, top, generator)
        file = file_of(mask, top)
        given = "".join(f"{line}\n" for line in edits(height, width, top, generator)).encode() + b"image\n" + file
        for conn in ("4", "8"):
            tile = ["8", "16", "64", "256"][generator.randint(4)]
            compare(program, baseline, given, ["view", "--conn", conn, "--tile", tile], ["--conn", conn])
            domes = str(generator.randint(1, top + 1))
            compare(program, baseline, file, ["derive", "fill", "--conn", conn], ["--fill", "--conn", conn])
            compare(program, baseline, file, ["derive", "hmax", "--h", domes, "--conn", conn],
                    ["--hmax", domes, "--conn", conn])
            compare(program, baseline, file, ["derive", "regmax", "--conn", conn], ["--regmax", "--conn", conn])
            runs += 4
    print(f"{words.pictures} pictures, {runs} runs: no difference")


if __name__ == "__main__":
    main()
