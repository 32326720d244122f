#!/usr/bin/env python3
"""Measure what many strokes cost: withdrawn ones, and ever more lines, typed in or out of a state file.

    python3 bench/strokes.py crates/seedpaint/out/seedpaint

Discs on plates of 2048 by 2048 pixels (`images.py discs`). Two tables in Markdown: 30,000 discs with none and with
3,000 withdrawn; and 10,000 to 300,000 discs, a third of them withdrawn, as edit lines and out of a state file that
holds the same strokes. The baseline runs in turns on the same lines, and one byte of difference ends the script with
status 1. README.md says what the columns mean.
"""

import argparse
import math
import os
import pathlib
import statistics
import subprocess

from run import KEPT, Filter, Input, compiled, machine, measure, skip_edits, stop, table

SIZE = 2048


class FromFile(Filter):
    """The program over a state file, whose input has no edit lines."""

    def __init__(self, program, conn, source):
        super().__init__("state file", [program, "view", "--conn", conn])
        self.kept = source.path.with_suffix(".spd")
        self.bare = source.path.with_suffix(".bare.txt")
        if not self.kept.exists() or not self.bare.exists():
            self.make(source)
        self.command += ["--state", self.kept]

    def make(self, source):
        """Keep the strokes of the source in a state file, and its image in an input without edits."""
        self.kept.unlink(missing_ok=True)
        with open(source.path, "rb") as reader:
            done = subprocess.run(self.command + ["--state", self.kept], stdin=reader, stdout=subprocess.DEVNULL,
                                  check=False)
        if done.returncode != 0:
            stop(f"the program failed on {source.path}")
        with open(source.path, "rb") as reader, open(self.bare, "wb") as writer:
            skip_edits(reader)
            writer.write(b"image\n" + reader.read())

    def run(self, source, target):
        bare = type("Bare", (), {"path": self.bare})
        return super().run(bare, target)


def empty(source):
    """An input of the same image without strokes: what a run costs that has none."""
    path = source.path.with_suffix(".empty.txt")
    if not path.exists():
        with open(source.path, "rb") as reader, open(path, "wb") as writer:
            skip_edits(reader)
            writer.write(b"image\n" + reader.read())
    return type("Empty", (), {"path": path})


def withdrawals(program, baseline, runs):
    """Print the table of 30,000 discs with none and with 3,000 withdrawn."""
    rows, seconds = [], []
    for withdrawn in (0, 3_000):
        source = Input("discs", SIZE, discs=30_000, withdrawn=withdrawn)
        figures = measure(source, [program, baseline], runs)
        seconds.append(figures["program"][0])
        rows.append([f"{withdrawn:,} of 30,000", f"{1000 * seconds[-1]:.0f}", f"{seconds[-1] / seconds[0]:.2f}",
                     f"{seconds[-1] / figures['baseline'][0]:.2f}"])
    table(["withdrawn", "ms", "times none", "times the baseline"], rows)


def lines(path, conn, program, baseline, runs):
    """Print the table of ever more lines, typed in and out of a state file."""
    rows, first = [], None
    for count in (10_000, 30_000, 100_000, 300_000):
        source = Input("discs", SIZE, discs=count, withdrawn=count // 3)
        kept = FromFile(path, conn, source)
        figures = measure(source, [program, kept, baseline], runs)
        bare = statistics.median(program.run(empty(source), os.devnull)[0] for _ in range(runs))
        total = count + count // 3
        typed, filed = (1e6 * max(0, figures[name][0] - bare) / total for name in ("program", "state file"))
        first = first or (typed, filed, math.log(total))
        grown = math.log(total) / first[2]
        rows.append([f"{count:,}", f"{1000 * figures['program'][0]:.0f}", f"{typed:.2f}", f"{typed / first[0]:.2f}",
                     f"{1000 * figures['state file'][0]:.0f}", f"{filed:.2f}", f"{filed / first[1]:.2f}",
                     f"{grown:.2f}", f"{1000 * figures['baseline'][0]:.0f}"])
    table(["discs", "lines: ms", "µs a line", "times 10,000", "file: ms", "µs a stroke", "times 10,000",
           "a logarithm", "baseline: ms"], rows)


def main():
    """Measure what the command line asks for."""
    parser = argparse.ArgumentParser(description="Measure what many strokes cost.")
    parser.add_argument("program", type=pathlib.Path, help="crates/seedpaint/out/seedpaint")
    parser.add_argument("--runs", type=int, default=5, metavar="N", help="timed runs of each program (5)")
    parser.add_argument("--conn", type=int, default=4, choices=(4, 8), help="neighbours of a pixel (4)")
    words = parser.parse_args()
    if not words.program.is_file():
        parser.error(f"{words.program} is not there; `rt run` in crates/seedpaint makes the program")
    KEPT.mkdir(exist_ok=True)
    path, conn = words.program.resolve(), str(words.conn)
    compiled_baseline = compiled("baseline")
    if compiled_baseline is None:
        stop("cc failed")
    program = Filter("program", [path, "view", "--conn", conn])
    baseline = Filter("baseline", [compiled_baseline, "--conn", conn])
    print(f"{machine()}; {conn} neighbours, the median of {words.runs} runs each.\n", flush=True)
    withdrawals(program, baseline, words.runs)
    lines(path, conn, program, baseline, words.runs)


if __name__ == "__main__":
    main()
