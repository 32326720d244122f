#!/usr/bin/env python3
"""Measure views by the clock, on one processor and on several, against a plain C program, and print tables in Markdown.

    python3 bench/clock.py crates/seedpaint/out/seedpaint

The baseline is compiled and the images are made as run.py does it, and outputs are compared first. Program and baseline
run in turns on the same files, the program with `taskset` on each number of processors. README.md says what the columns
mean.
"""

import argparse
import os
import pathlib
import resource
import statistics
import subprocess
import sys
import time

import run

FAMILIES = ["cells", "plates", "map", "spiral", "maze", "rising", "corner"]


class Image(run.Input):
    """The file of one image that need not be square."""

    def __init__(self, family, width, height):
        if width == height:
            super().__init__(family, width)
            return
        self.family, self.side = family, f"{width} by {height}"
        self.path = run.KEPT / f"{family}-{width}-{height}.txt"
        if not self.path.exists():
            run.say(f"making {self.path}")
            run.write_once(self.path, [sys.executable, run.HERE / "images.py", family, str(width), str(height)],
                           subprocess.DEVNULL)


def worked():
    """Seconds of all processors together that ended children took."""
    used = resource.getrusage(resource.RUSAGE_CHILDREN)
    return used.ru_utime + used.ru_stime


def timed(command, source):
    """Seconds by the clock of one run, its output thrown away, and those of all processors together."""
    with open(source.path, "rb") as reader, open(os.devnull, "wb") as writer:
        begin, before = time.perf_counter(), worked()
        done = subprocess.run(command, stdin=reader, stdout=writer, check=False)
        seconds, work = time.perf_counter() - begin, worked() - before
    if done.returncode != 0:
        run.stop(f"{command} ended with status {done.returncode} on {source.path}")
    return seconds, work


def on(processors, command):
    """The command on the first so many processors."""
    return ["taskset", "-c", ",".join(str(number) for number in range(processors)), *command]


def row_of(source, commands, baseline, runs):
    """The figures of one image: the baseline's milliseconds, the multiples of it, the processor time of the last."""
    run.compare(source, [run.Filter("program", commands[-1]), run.Filter("baseline", baseline)])
    figures = {number: [] for number in range(len(commands) + 1)}
    for _ in range(runs):
        for number, command in enumerate([baseline, *commands]):
            figures[number].append(timed(command, source))
    seconds = [statistics.median(each for each, _ in figures[number]) for number in figures]
    work = [statistics.median(each for _, each in figures[number]) for number in figures]
    return ([f"{1000 * seconds[0]:.0f}"] + [f"{each / seconds[0]:.2f}" for each in seconds[1:]]
            + [f"{work[-1] / work[1]:.2f}"])


def read_size(text):
    """The sides of an image, as 2048 or 16384x4096."""
    words = text.split("x")
    return int(words[0]), int(words[-1])


def main():
    """Measure what the command line asks for."""
    parser = argparse.ArgumentParser(description="Measure views by the clock against a plain C program.")
    parser.add_argument("program", type=pathlib.Path, help="crates/seedpaint/out/seedpaint")
    parser.add_argument("--runs", type=int, default=7, metavar="N", help="timed runs of each (7)")
    parser.add_argument("--sizes", type=read_size, nargs="+", default=[(2048, 2048), (4096, 4096)], metavar="WxH",
                        help="sides of the images (2048 4096)")
    parser.add_argument("--families", nargs="+", default=FAMILIES, choices=run.FAMILIES, metavar="FAMILY")
    parser.add_argument("--processors", type=int, nargs="+", default=[1, 2, 4], metavar="N")
    words = parser.parse_args()
    if not words.program.is_file():
        parser.error(f"{words.program} is not there; `rt run` in crates/seedpaint makes the program")
    run.KEPT.mkdir(exist_ok=True)
    baseline = run.compiled("baseline")
    if baseline is None:
        run.stop("cc failed")
    commands = [on(each, [words.program.resolve(), "view"]) for each in words.processors]
    print(f"{run.machine()}; the median of {words.runs} runs each.\n", flush=True)
    for width, height in words.sizes:
        rows = []
        for family in words.families:
            source = Image(family, width, height)
            rows.append([family, *row_of(source, commands, [baseline], words.runs)])
            run.say(f"{family} {width} by {height}: " + ", ".join(rows[-1][1:]))
        heading = [f"{width} by {height}", "baseline, ms", *map(str, words.processors)]
        run.table(heading + [f"processor time, {words.processors[-1]} over {words.processors[0]}"], rows)


if __name__ == "__main__":
    main()
