#!/usr/bin/env python3
"""Measure hands in threads, shows and glimpses against a plain C program, and print tables in Markdown.

    python3 bench/threads.py crates/benchmarks/out/benchmarks
    python3 bench/threads.py --bands crates/benchmarks/out/benchmarks
    python3 bench/threads.py --keeper crates/benchmarks/out/benchmarks
    python3 bench/threads.py --turns crates/benchmarks/out/benchmarks
    python3 bench/threads.py --each-processor crates/benchmarks/out/benchmarks

The baseline is compiled and the images are made as run.py does it. README.md says what the columns mean.
"""

import argparse
import os
import pathlib
import resource
import statistics
import subprocess
import tempfile
import time

import run

FAMILIES = ["cells", "plates", "map", "maze"]
HANDS = [0, 1, 2, 3, 4]  # with none the core settles by itself
BANDS = [0, 2, 4]  # threads that settle in bands; with none the core settles by itself
PARTS = ["take", "push", "sweep", "give back", "hints"]
EDITED = "few-lit"  # the family whose last edits are watched and shown
EDITS = 200  # the edits of that family that are measured
RESET = "lit-ground"  # the family where a withdrawal resets all tiles
WITHDRAWALS = 10  # how many of them are measured in a run
SUMS = {}  # of what the baseline writes, by the paths of inputs


def words_of(program, words, source, start=None):
    """What the program writes on an input, a list of words for each line, and its peak bytes."""
    with open(source.path, "rb") as reader:
        command = [program, *(str(word) for word in words)]
        child = subprocess.Popen(command, stdin=reader, stdout=subprocess.PIPE, text=True, preexec_fn=start)
        with child.stdout as written:
            lines = [line.split() for line in written]
        _, status, usage = os.wait4(child.pid, 0)
    child.returncode = os.waitstatus_to_exitcode(status)
    if child.returncode != 0:
        run.stop(f"{program} {words[0]} ended with status {child.returncode} on {source.path}")
    return lines, usage.ru_maxrss * 1024


def lines_of(program, words, source, start=None):
    """The same, a list of numbers for each line."""
    lines, peak = words_of(program, words, source, start)
    return [[int(word) for word in line] for line in lines], peak


def sum_of(image):
    """The sum of a raw PGM file by the rule FNV-1a, of whole pixels row by row, as the program makes it."""
    header = [image.readline() for _ in range(3)]
    width = 1 if int(header[2]) < 256 else 2
    total = 0xCBF29CE484222325
    while block := image.read(1 << 16):
        pixels = block if width == 1 else [a << 8 | b for a, b in zip(block[::2], block[1::2])]
        for pixel in pixels:
            total = (total ^ pixel) * 0x100000001B3 & 0xFFFFFFFFFFFFFFFF
    return total


def baseline_sum(baseline, source):
    """The sum of what the baseline writes; it takes some seconds, so it is kept."""
    if source.path in SUMS:
        return SUMS[source.path]
    with tempfile.NamedTemporaryFile(dir=run.KEPT) as output:
        baseline.run(source, output.name)
        with open(output.name, "rb") as image:
            SUMS[source.path] = sum_of(image)
    return SUMS[source.path]


def baseline_seconds(baseline, source):
    """The seconds of a whole run of the baseline, from start to end."""
    start = time.perf_counter()
    baseline.run(source, os.devnull)
    return time.perf_counter() - start


# ---- Settling ----

def settled(program, source, hands, side, right, word="settle", start=None):
    """Jobs, seconds and peak bytes of one settling, which ends the script where the sum is not the right one."""
    ((total, jobs, wall),), peak = lines_of(program, [word, hands, side], source, start)
    if total != right:
        run.stop(f"{word} {hands} {side} and baseline differ on {source.path}")
    return jobs, wall / 1e9, peak


def in_bands(program, source, threads, side, right):
    """The same of a core that settles in bands by so many threads, or by itself."""
    return settled(program, source, threads, side, right, "bands" if threads else "settle")


def settling_row(source, program, baseline, words, word):
    """The row of one image: the baseline and each number of hands in turns, after a run of each to warm up."""
    right = baseline_sum(baseline, source)
    whole, figures = [], {hands: [] for hands in HANDS}
    for number in range(words.runs + 1):
        seconds = baseline_seconds(baseline, source)
        results = {hands: settled(program, source, hands, words.side, right, word if hands else "settle")
                   for hands in HANDS}
        if number > 0:
            whole.append(seconds)
            for hands in HANDS:
                figures[hands].append(results[hands])
    jobs = {hands: statistics.median(each[0] for each in figures[hands]) for hands in HANDS}
    wall = {hands: statistics.median(each[1] for each in figures[hands]) for hands in HANDS}
    peak = max(each[2] for each in figures[HANDS[-1]])
    times = [f"{1000 * seconds:.0f}" for seconds in [statistics.median(whole), *wall.values()]]
    run.say(f"{source.family}: baseline and hands {', '.join(times)} ms")
    return [source.family, *times, f"{wall[0] / wall[3]:.2f}", *(f"{jobs[hands]:,.0f}" for hands in (0, 1, 3)),
            multiple_of_cells(peak, words.size)]


def bands_row(source, program, baseline, words):
    """The row of one image: each number of threads in turns, after a run of each to warm up."""
    right = baseline_sum(baseline, source)
    rounds = [[in_bands(program, source, threads, words.side, right) for threads in BANDS]
              for _ in range(words.runs + 1)][1:]
    jobs, wall, _ = zip(*(map(statistics.median, zip(*results)) for results in zip(*rounds)))
    run.say(f"{source.family}: in bands {', '.join(f'{1000 * seconds:.1f}' for seconds in wall)} ms")
    return [source.family, *(f"{1000 * seconds:.0f}" for seconds in wall), f"{wall[0] / wall[-1]:.2f}",
            *(f"{count:,.0f}" for count in (jobs[0], jobs[-1]))]


def bands(sources, program, baseline, words):
    """Print the table of settling in bands."""
    run.table([f"{words.size} by {words.size}, tile {words.side}", "alone ms", "2 threads ms", "4 threads ms",
               "4 over alone", "jobs alone", "4 threads"],
              [bands_row(source, program, baseline, words) for source in sources])


def multiple_of_cells(peak, size):
    """A peak as a multiple of the mask's cells, where it stands above what this script itself takes."""
    own = resource.getrusage(resource.RUSAGE_SELF).ru_maxrss * 1024
    return f"{peak / (2 * size ** 2):.1f}" if peak > own else "-"


def settling(sources, program, baseline, words, word):
    """Print the table of settling by a word of the program: in bands where that takes less time, or by turns alone."""
    how = "in bands or by turns" if word == "studio" else "by turns"
    run.table([f"{how}, {words.size} by {words.size}, tile {words.side}", "baseline ms",
               "0 hands ms", "1 hand ms", "2 hands ms", "3 hands ms", "4 hands ms", "3 over 0",
               "jobs, 0 hands", "1 hand", "3 hands", "memory"],
              [settling_row(source, program, baseline, words, word) for source in sources])


# ---- Beside each processor ----

def bound_to(processor):
    """What binds a process that is about to start to this processor."""
    return lambda: os.sched_setaffinity(0, {processor})


def beside_each_row(source, program, baseline, words):
    """The row of one image: a core by itself on each processor, three hands as a node's and by turns, all in turns."""
    right = baseline_sum(baseline, source)
    processors = sorted(os.sched_getaffinity(0))
    alone, hands = {processor: [] for processor in processors}, {"studio": [], "settle": []}
    for number in range(words.runs + 1):
        for processor in processors:
            seconds = settled(program, source, 0, words.side, right, start=bound_to(processor))[1]
            alone[processor].append(seconds)
        for word, walls in hands.items():
            walls.append(settled(program, source, 3, words.side, right, word)[1])
    own = [statistics.median(walls[1:]) for walls in alone.values()]
    as_node, turns = (statistics.median(walls[1:]) for walls in hands.values())
    mean = statistics.mean(own)
    run.say(f"{source.family}: alone {', '.join(f'{1000 * seconds:.0f}' for seconds in own)} ms")
    return [source.family, *(f"{1000 * seconds:.0f}" for seconds in (min(own), mean, max(own), as_node, turns)),
            f"{mean / as_node:.2f}", f"{mean / turns:.2f}"]


def beside_each(sources, program, baseline, words):
    """Print the table of three hands beside a core by itself that is bound to each processor in turn."""
    run.table([f"{words.size} by {words.size}, tile {words.side}", "alone, least ms", "mean ms", "most ms",
               "3 hands as a node's ms", "by turns ms", "as a node's over mean", "turns over mean"],
              [beside_each_row(source, program, baseline, words) for source in sources])


def withdrawals(program, words, source, start=None):
    """The median seconds of a withdrawal, merged and settled, and of how many tiles it reset."""
    lines = [line for line in words_of(program, words, source, start)[0] if line[0] == "withdrawn"]
    if len(lines) != WITHDRAWALS:
        run.stop(f"{program} measured other edits than those of {source.path}")
    reset, _, nanoseconds = (statistics.median(int(line[place]) for line in lines) for place in (1, 2, 3))
    return nanoseconds / 1e9, reset


def withdrawals_beside_each(program, words):
    """Print the table of withdrawals that reset all tiles: by a core alone on each processor, in bands, by hands."""
    source = run.Input(RESET, words.size)
    processors = sorted(os.sched_getaffinity(0))
    edits, side = 2 * WITHDRAWALS, words.side
    alone, others = {processor: [] for processor in processors}, {"edit": [], "studio": []}
    for _ in range(words.runs):
        for processor in processors:
            alone[processor].append(withdrawals(program, ["edit", edits, side], source, bound_to(processor)))
        others["edit"].append(withdrawals(program, ["edit", edits, side, 4], source))
        others["studio"].append(withdrawals(program, ["studio", 3, side, edits], source))
    own = [statistics.median(seconds for seconds, _ in each) for each in alone.values()]
    bands, studio = (statistics.median(seconds for seconds, _ in each) for each in others.values())
    reset = statistics.median(tiles for _, tiles in others["studio"])
    mean = statistics.mean(own)
    run.say(f"{source.family}: withdrawn alone {', '.join(f'{1000 * seconds:.0f}' for seconds in own)} ms")
    run.table([f"withdrawals, {words.size} by {words.size}, tile {side}", "tiles reset", "alone, least ms", "mean ms",
               "most ms", "4 bands ms", "3 hands as a node's ms", "bands, part of mean", "hands, part of mean"],
              [[source.family, f"{reset:,.0f}", *(f"{1000 * seconds:.0f}" for seconds in
                                                  (min(own), mean, max(own), bands, studio)),
                f"{bands / mean:.2f}", f"{studio / mean:.2f}"]])


# ---- Parts, shows, glimpses ----

def parts_row(source, program, baseline, words):
    """The row of one image: jobs, and microseconds a job of each part."""
    lines = [lines_of(program, ["settle", "parts", words.side], source)[0] for _ in range(words.runs + 1)][1:]
    if {total for _, (total,) in lines} != {baseline_sum(baseline, source)}:
        run.stop(f"settle parts {words.side} and baseline differ on {source.path}")
    jobs, *parts = (statistics.median(column) for column in zip(*(figures for figures, _ in lines)))
    run.say(f"{source.family}: {jobs:,.0f} jobs in parts")
    return [source.family, f"{jobs:,.0f}", *(f"{part / jobs / 1000:.2f}" for part in parts),
            f"{sum(parts) / jobs / 1000:.2f}"]


def parts_of_jobs(sources, program, baseline, words):
    """Print the table of what the parts of a job take in one thread."""
    run.table([f"{words.size} by {words.size}, tile {words.side}", "jobs", *(f"{part} µs" for part in PARTS), "all µs"],
              [parts_row(source, program, baseline, words) for source in sources])


def milliseconds(nanoseconds):
    """Nanoseconds as a cell of a table, in milliseconds."""
    return f"{nanoseconds / 1e6:.3g}"


def shows_and_glimpses(program, words):
    """Print the tables of shows, and of how soon an edit is seen."""
    source = run.Input(EDITED, words.size)
    lines = [line for _ in range(words.runs) for line in lines_of(program, ["watch", EDITS], source)[0]]
    seen, after_edit, after_none = zip(*lines)
    run.say(f"{source.family}: {len(seen)} edits seen")
    run.table([f"shows, {words.size} by {words.size}", "edits", "after an edit ms", "after none ms"],
              [[source.family, f"{len(seen):,}", milliseconds(statistics.median(after_edit)),
                milliseconds(statistics.median(after_none))]])
    run.table([f"glimpses, {words.size} by {words.size}", "edits", "median ms", "worst ms"],
              [[source.family, f"{len(seen):,}", milliseconds(statistics.median(seen)), milliseconds(max(seen))]])


def read_words():
    """The words of the command line."""
    parser = argparse.ArgumentParser(description="Measure hands in threads, shows and glimpses.")
    parser.add_argument("program", type=pathlib.Path, help="crates/benchmarks/out/benchmarks")
    parser.add_argument("--runs", type=int, default=5, metavar="N", help="timed runs of each (5)")
    parser.add_argument("--size", type=int, default=4096, metavar="N", help="side of the images (4096)")
    parser.add_argument("--side", type=int, default=64, metavar="N", help="side of the tiles where it settles (64)")
    parser.add_argument("--families", nargs="+", default=FAMILIES, choices=run.FAMILIES, metavar="FAMILY",
                        help=" ".join(FAMILIES))
    alone = parser.add_mutually_exclusive_group()
    alone.add_argument("--bands", action="store_true", help="settle in bands, and measure nothing else")
    alone.add_argument("--keeper", action="store_true",
                       help="have a studio's keeper settle as a node's does, and measure nothing else")
    alone.add_argument("--turns", action="store_true", help="settle by turns, and measure nothing else")
    alone.add_argument("--each-processor", action="store_true",
                       help="bind a core by itself to each processor in turn, and measure nothing else")
    words = parser.parse_args()
    if words.runs < 1 or words.size < 1:
        parser.error("runs and size are at least 1")
    if not words.program.is_file():
        parser.error(f"{words.program} is not there; `rt run` in crates/benchmarks makes the program")
    return words


def main():
    """Measure what the command line asks for."""
    words = read_words()
    run.KEPT.mkdir(exist_ok=True)
    command = run.compiled("baseline")
    if command is None:
        run.stop("cc failed")
    baseline = run.Filter("baseline", [command, "--conn", "4"])
    program = words.program.resolve()
    sources = [run.Input(family, words.size) for family in words.families]
    print(f"{run.machine()}; 4 neighbours; the median of {words.runs} runs each.\n", flush=True)
    if words.bands:
        bands(sources, program, baseline, words)
        return
    if words.each_processor:
        beside_each(sources, program, baseline, words)
        withdrawals_beside_each(program, words)
        return
    if not words.turns:
        settling(sources, program, baseline, words, "studio")
    if not words.keeper:
        settling(sources, program, baseline, words, "settle")
    if words.keeper or words.turns:
        return
    parts_of_jobs(sources, program, baseline, words)
    shows_and_glimpses(program, words)


if __name__ == "__main__":
    main()
