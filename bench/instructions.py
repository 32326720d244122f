#!/usr/bin/env python3
"""Count the instructions of Seedpaint and of a plain C program, and print a table in Markdown.

    python3 bench/instructions.py crates/seedpaint/out/seedpaint

The baseline is compiled and the images are made as run.py does it. Program and baseline run once each by themselves,
and one byte of difference between their outputs ends the script with status 1; then once each under callgrind, a tool
of valgrind, which makes a run some 50 times slower. README.md says what the columns mean.
"""

import argparse
import pathlib
import re
import shutil
import subprocess

import run


def instructions(program, source):
    """The instructions that callgrind counts in one run; what it tells of each function is kept beside the images."""
    kept = run.KEPT / f"callgrind-{program.name}-{source.family}-{source.side}"
    command = ["valgrind", "--tool=callgrind", f"--callgrind-out-file={kept}", *program.command]
    with open(source.path, "rb") as reader:
        done = subprocess.run(command, stdin=reader, stdout=subprocess.DEVNULL, stderr=subprocess.PIPE,
                              text=True, check=False)
    counted = re.search(r"Collected : (\d+)", done.stderr)
    if done.returncode != 0 or not counted:
        run.stop(f"valgrind failed on {program.name}:\n{done.stderr}")
    run.say(f"{source.family} {source.side}: {program.name} {int(counted[1]) / 1e6:.1f} million; see {kept}")
    return int(counted[1])


def row(source, program, baseline):
    """The row of one image."""
    run.compare(source, [program, baseline])
    ours, theirs = instructions(program, source), instructions(baseline, source)
    pixels = source.side ** 2
    return [source.family, f"{ours / pixels:.1f}", f"{theirs / pixels:.1f}", f"{ours / theirs:.2f}"]


def read_words():
    """The words of the command line."""
    parser = argparse.ArgumentParser(description="Count instructions of Seedpaint and of a plain C program.")
    parser.add_argument("program", type=pathlib.Path, help="crates/seedpaint/out/seedpaint")
    parser.add_argument("--size", type=int, default=1024, metavar="N", help="side of the images (1024)")
    parser.add_argument("--families", nargs="+", default=run.FAMILIES, choices=run.FAMILIES, metavar="FAMILY",
                        help=" ".join(run.FAMILIES))
    parser.add_argument("--conn", type=int, default=4, choices=(4, 8), help="neighbours of a pixel (4)")
    words = parser.parse_args()
    if words.size < 1:
        parser.error("the size is at least 1")
    if not words.program.is_file():
        parser.error(f"{words.program} is not there; `rt run` in crates/seedpaint makes the program")
    return words


def main():
    """Count what the command line asks for."""
    words = read_words()
    if not shutil.which("valgrind"):
        run.stop("valgrind is not installed")
    run.KEPT.mkdir(exist_ok=True)
    baseline = run.compiled("baseline")
    if baseline is None:
        run.stop("cc failed")
    conn = str(words.conn)
    program = run.Filter("program", [words.program.resolve(), "view", "--conn", conn])
    baseline = run.Filter("baseline", [baseline, "--conn", conn])
    print(f"{run.machine()}; {conn} neighbours, instructions for a pixel.\n", flush=True)
    run.table([f"{words.size} by {words.size}", "program", "baseline", "program / baseline"],
              [row(run.Input(family, words.size), program, baseline) for family in words.families])


if __name__ == "__main__":
    main()
