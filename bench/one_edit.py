#!/usr/bin/env python3
"""Measure single edits on settled images against whole runs of a plain C program, and print tables in Markdown.

    python3 bench/one_edit.py crates/benchmarks/out/benchmarks

The baseline is compiled and the images are made as run.py does it. README.md says what the columns mean.
"""

import argparse
import os
import pathlib
import statistics
import subprocess

import run

FAMILIES = ["few-lit", "all-lit", "lit-ground"]
EDITS = 200  # the edits of these families that are measured: the last ones
KINDS = ["placed", "withdrawn"]  # what an edit does to its stroke, half of them each


def baseline_seconds(baseline, source, runs):
    """The median processor seconds of a whole run of the baseline, after a run to warm up."""
    seconds = [baseline.run(source, os.devnull)[0] for _ in range(runs + 1)]
    return statistics.median(seconds[1:])


def edits(program, source, side, threads):
    """The figures of each edit, by its kind: tiles reset, tiles swept, nanoseconds."""
    command = [program, "edit", str(EDITS), str(side)] + ([str(threads)] if threads else [])
    with open(source.path, "rb") as reader:
        done = subprocess.run(command, stdin=reader, stdout=subprocess.PIPE, text=True, check=False)
    if done.returncode != 0:
        run.stop(f"{program} ended with status {done.returncode} on {source.path}")
    figures = {kind: [] for kind in KINDS}
    for line in done.stdout.splitlines():
        kind, *numbers = line.split()
        figures[kind].append([int(number) for number in numbers])
    if [len(figures[kind]) for kind in KINDS] != [EDITS // 2] * 2:
        run.stop(f"{program} measured other edits than those of {source.path}")
    return figures


def rows(source, program, side, whole, threads):
    """The rows of one image, one for each kind of edit, where a whole run of the baseline takes `whole` seconds."""
    figures = edits(program, source, side, threads)
    for kind in KINDS:
        reset, swept, nanoseconds = (statistics.median(column) for column in zip(*figures[kind]))
        run.say(f"{source.family}, tile {side}, {kind}: {nanoseconds / 1000:.0f} microseconds")
        yield [source.family, kind, f"{1000 * whole:.0f}", f"{nanoseconds / 1000:.0f}",
               part(nanoseconds / 1e9, whole), f"{reset:g}", f"{swept:g}"]


def part(edit, whole):
    """The seconds of an edit as a part of those of a whole run, as 1/400."""
    times = whole / edit
    return f"1/{times:.0f}" if times >= 10 else f"1/{times:.1f}"


def read_words():
    """The words of the command line."""
    parser = argparse.ArgumentParser(description="Measure single edits against whole runs of a plain C program.")
    parser.add_argument("program", type=pathlib.Path, help="crates/benchmarks/out/benchmarks")
    parser.add_argument("--runs", type=int, default=5, metavar="N", help="timed runs of the baseline (5)")
    parser.add_argument("--size", type=int, default=4096, metavar="N", help="side of the images (4096)")
    parser.add_argument("--families", nargs="+", default=FAMILIES, choices=FAMILIES, metavar="FAMILY",
                        help=" ".join(FAMILIES))
    parser.add_argument("--sides", type=run.read_sides, default=[64], metavar="N,N..",
                        help="sides of the tiles, a table for each (64)")
    parser.add_argument("--threads", type=int, default=0, metavar="N",
                        help="settle in bands, by at most N threads, and measure by the clock")
    words = parser.parse_args()
    if words.runs < 1 or words.size < 1 or words.threads < 0:
        parser.error("runs and size are at least 1, and threads at least 0")
    if not words.program.is_file():
        parser.error(f"{words.program} is not there; `rt run` in crates/benchmarks makes the program")
    return words


def main():
    """Measure what the command line asks for."""
    words = read_words()
    run.KEPT.mkdir(exist_ok=True)
    command = run.compiled("baseline")
    if command is None:
        run.stop("cc failed")
    baseline = run.Filter("baseline", [command, "--conn", "4"])
    sources = [run.Input(family, words.size) for family in words.families]
    whole = [baseline_seconds(baseline, source, words.runs) for source in sources]
    print(f"{run.machine()}; 4 neighbours; the baseline's median of {words.runs} runs.\n", flush=True)
    for side in words.sides:
        run.table([f"{words.size} by {words.size}, tile {side}", "edit", "baseline ms", "edit µs", "part of baseline",
                   "tiles reset", "tiles swept"],
                  [row for source, seconds in zip(sources, whole)
                   for row in rows(source, words.program.resolve(), side, seconds, words.threads)])


if __name__ == "__main__":
    main()
