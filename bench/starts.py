#!/usr/bin/env python3
"""Measure how long a node and a page take to begin with kept strokes, beside a view of the same, and print a table.

    python3 bench/starts.py crates/seedpaint/out/seedpaint

The image is that of `images.py discs`, with 4,000 discs that a state file keeps. A node makes one tick, so that it
begins, writes and ends; a page has begun when it tells its address. README.md says what the columns mean.
"""

import argparse
import pathlib
import shutil
import statistics
import subprocess
import sys
import tempfile
import time

import run

STROKES = 4000


def view(program, state, source):
    """Seconds of a view over the state file."""
    with open(source, "rb") as reader:
        begin = time.perf_counter()
        subprocess.run([program, "view", "--state", state], stdin=reader, stdout=subprocess.DEVNULL, check=True)
        return time.perf_counter() - begin


def node(program, state, source):
    """Seconds of a node over the state file that makes one tick."""
    with open(source, "rb") as reader:
        begin = time.perf_counter()
        subprocess.run([program, "node", "--state", state, "--port", "40001", "--ticks", "1", "40002"], stdin=reader,
                       stdout=subprocess.DEVNULL, check=True)
        return time.perf_counter() - begin


def page(program, state, mask):
    """Seconds until a page over the state file tells its address."""
    begin = time.perf_counter()
    with subprocess.Popen([program, "paint", "--state", state, mask], stdout=subprocess.PIPE) as served:
        told = served.stdout.readline()
        seconds = time.perf_counter() - begin
        served.kill()
    if not told.startswith(b"http"):
        run.stop(f"no address but {told}")
    return seconds


def main():
    """Measure what the command line asks for."""
    parser = argparse.ArgumentParser(description="Measure how long a node and a page take to begin.")
    parser.add_argument("program", type=pathlib.Path, help="crates/seedpaint/out/seedpaint")
    parser.add_argument("--runs", type=int, default=7, metavar="N", help="timed runs of each (7)")
    parser.add_argument("--size", type=int, default=4096, metavar="N", help="side of the image (4096)")
    words = parser.parse_args()
    if not words.program.is_file():
        parser.error(f"{words.program} is not there; `rt run` in crates/seedpaint makes the program")
    run.KEPT.mkdir(exist_ok=True)
    program = words.program.resolve()
    source = run.Input("discs", words.size, discs=STROKES)
    print(f"{run.machine()}; the median of {words.runs} runs each.\n", flush=True)
    with tempfile.TemporaryDirectory() as folder:
        mask, plain = pathlib.Path(folder, "mask.pgm"), pathlib.Path(folder, "plain.txt")
        with open(source.path, "rb") as reader, open(mask, "wb") as writer:
            run.skip_edits(reader)
            shutil.copyfileobj(reader, writer)
        plain.write_bytes(b"image\n" + mask.read_bytes())
        state = pathlib.Path(folder, "kept.spd")
        view(program, state, source.path)
        calls = {"view": lambda: view(program, state, plain), "node": lambda: node(program, state, plain),
                 "paint": lambda: page(program, state, mask)}
        figures = {name: [] for name in calls}
        for _ in range(words.runs):
            for name, call in calls.items():
                figures[name].append(call())
    seconds = {name: statistics.median(times) for name, times in figures.items()}
    run.table([f"{words.size} by {words.size}, {STROKES} kept strokes", "ms", "times the view"],
              [[name, f"{1000 * each:.0f}", f"{each / seconds['view']:.2f}"] for name, each in seconds.items()])


if __name__ == "__main__":
    sys.exit(main())
