#!/usr/bin/env python3
"""Measure live boards against tiles and a plain C program, and print tables in Markdown.

    python3 bench/boards.py crates/benchmarks/out/benchmarks

The baseline is compiled and the images are made as run.py does it. README.md says what the columns mean.
"""

import argparse
import pathlib
import statistics
import subprocess

import run
import threads

HANDS = [1, 2, 4]
SIDE = 64  # of the tiles beside which a board stands
GREATEST = 1024  # the greatest side of a board


def call_of(words, hands):
    """The words of a call of the program that raises a board."""
    return ["board", str(hands)] if words.rounds else ["flood", str(hands), str(words.conn)]


def ends_in_time(program, hands, source, words):
    """Whether the hands raise the board of an input in so many seconds; the run warms up."""
    with open(source.path, "rb") as reader:
        try:
            subprocess.run([program, *call_of(words, hands)], stdin=reader, stdout=subprocess.DEVNULL,
                           timeout=words.limit, check=True)
        except subprocess.TimeoutExpired:
            run.say(f"{source.family}: {hands} hands take longer than {words.limit} s")
            return False
    return True


def raised(program, hands, source, right, words):
    """The figures of a board that hands raise. It ends the script where the sum is not the right one.

    They are seconds, rounds or floods, nanoseconds of a peek beside the hands and of one alone, those in which a first
    marker was brought, one after a stroke and one after a withdrawal (0 where there is none), those of one more round,
    and the seconds beside the peek.
    """
    (brought, (wall, rounds, watched, peeks, beside, alone, again), (total,)), _ = threads.lines_of(
        program, call_of(words, hands), source)
    if total != right:
        run.stop(f"board {hands} and baseline differ on {source.path}")
    return wall / 1e9, rounds, beside / max(peeks, 1), alone / max(peeks, 1), *brought, again, watched / 1e9


def figures_of(source, program, baseline, words):
    """Medians of one image: seconds of the baseline and of tiles, and the figures of each number of hands in time."""
    right = threads.baseline_sum(baseline, source)
    hands = [count for count in HANDS if ends_in_time(program, count, source, words)]
    whole, tiled, boards = [], [], {count: [] for count in hands}
    for _ in range(words.runs):
        whole.append(threads.baseline_seconds(baseline, source))
        if words.conn == 4:
            tiled.append(threads.settled(program, source, 0, SIDE, right)[1])
        for count in hands:
            boards[count].append(raised(program, count, source, right, words))
    run.say(f"{source.family}: boards raised by {', '.join(str(count) for count in hands) or 'no'} hands")
    medians = {count: [statistics.median(column) for column in zip(*boards[count])] for count in hands}
    return statistics.median(whole), statistics.median(tiled or [0]), medians


def cell(boards, hands, place, form):
    """A figure as a cell of a table; a dash where the hands were not in time."""
    return form.format(boards[hands][place]) if hands in boards else "-"


def growing_row(family, whole, tiled, boards):
    """The row of one image: milliseconds of the baseline, of tiles and of hands, and their rounds."""
    times = [cell({hands: [1000 * figures[0]] for hands, figures in boards.items()}, hands, 0, "{:,.0f}")
             for hands in HANDS]
    ratio = f"{boards[1][0] / boards[4][0]:.2f}" if 1 in boards and 4 in boards else "-"
    rounds = [cell(boards, hands, 1, "{:,.0f}") for hands in HANDS]
    watched = cell({hands: [1000 * figures[8]] for hands, figures in boards.items()}, 4, 0, "{:,.0f}")
    return [family, f"{1000 * whole:.0f}", f"{1000 * tiled:.0f}" if tiled else "-", *times, ratio, watched, *rounds]


def brought_cell(boards, place):
    """Milliseconds in which a marker was brought; a dash where none was brought so."""
    return threads.milliseconds(boards[1][place]) if 1 in boards and boards[1][place] else "-"


def growing(sources, program, baseline, words):
    """Print the tables of boards that hands raise, of peeks, and of markers that are brought."""
    results = {source.family: figures_of(source, program, baseline, words) for source in sources}
    run.table([f"{words.size} by {words.size}", "baseline ms", "tiles ms",
               *(f"{hands} hand{'s' * (hands > 1)} ms" for hands in HANDS), "4 over 1", "4 hands and a peek ms",
               *(f"{'rounds' if words.rounds else 'floods'}, {hands}" for hands in HANDS)],
              [growing_row(family, *figures) for family, figures in results.items()])
    run.table([f"a peek, {words.size} by {words.size}", "alone ns", *(f"beside {hands} ns" for hands in HANDS)],
              [[family, cell(boards, 1, 3, "{:.0f}"), *(cell(boards, hands, 2, "{:.0f}") for hands in HANDS)]
               for family, (_, _, boards) in results.items()])
    run.table([f"in one thread, {words.size} by {words.size}", "a first marker ms", "a marker after a stroke ms",
               "after a withdrawal ms", "a round ms"],
              [[family, *(brought_cell(boards, place) for place in (4, 5, 6, 7))]
               for family, (_, _, boards) in results.items()])


def read_words():
    """The words of the command line."""
    parser = argparse.ArgumentParser(description="Measure live boards.")
    parser.add_argument("program", type=pathlib.Path, help="crates/benchmarks/out/benchmarks")
    parser.add_argument("--runs", type=int, default=5, metavar="N", help="timed runs of each (5)")
    parser.add_argument("--size", type=int, default=GREATEST, metavar="N", help=f"side of the images ({GREATEST})")
    parser.add_argument("--limit", type=int, default=60, metavar="N",
                        help="seconds after which a run on a board is given up (60)")
    parser.add_argument("--conn", type=int, default=4, choices=(4, 8), help="neighbours of a pixel (4)")
    parser.add_argument("--rounds", action="store_true", help="raise by rounds, with 4 neighbours, and not by floods")
    parser.add_argument("--families", nargs="+", default=threads.FAMILIES, choices=run.FAMILIES, metavar="FAMILY",
                        help=" ".join(threads.FAMILIES))
    words = parser.parse_args()
    if words.rounds and words.conn == 8:
        parser.error("rounds are measured with 4 neighbours")
    if words.runs < 1 or words.limit < 1 or not 1 <= words.size <= GREATEST:
        parser.error(f"runs and limit are at least 1, and the size is 1 to {GREATEST}")
    if not words.program.is_file():
        parser.error(f"{words.program} is not there; `rt run` in crates/benchmarks makes the program")
    return words


def main():
    """Measure what the command line asks for."""
    words = read_words()
    run.KEPT.mkdir(exist_ok=True)
    command = run.compiled("baseline")
    if command is None:
        run.stop("cc failed")
    baseline = run.Filter("baseline", [command, "--conn", str(words.conn)])
    program = words.program.resolve()
    sources = [run.Input(family, words.size) for family in words.families]
    print(f"{run.machine()}; {words.conn} neighbours, tiles of side {SIDE}; the median of {words.runs} runs each."
          f" A dash stands for runs of more than {words.limit} seconds.\n", flush=True)
    growing(sources, program, baseline, words)


if __name__ == "__main__":
    main()
