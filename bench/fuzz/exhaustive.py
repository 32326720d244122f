#!/usr/bin/env python3
"""Compare the program with the plain reference on all of some small sets of inputs.

    python3 bench/fuzz/exhaustive.py crates/seedpaint/out/seedpaint

`fronts`: the fronts of the stored input of the program and of the examples' inputs; of the large ones each front of the
text and of the header, and some hundred of the raster. `files`: the fronts of the state files that `view --state`
writes for them, and of their frames. `frames`: three frames, each with each byte set to each value. `lines`: three edit
lines, each with each byte set to each value, and with a byte of each value before it. One difference, and the script
ends with status 1.
"""

import argparse
import functools
import multiprocessing
import pathlib
import subprocess
import sys
import tempfile
import time

import cases
import readers
import simulator
from cases import Call, Case, FILE
from readers import Disc, Run, Stroke

TOP = pathlib.Path(__file__).resolve().parents[2]
STORED = TOP / "crates" / "seedpaint"
EXAMPLES = TOP / "examples"
MASK = readers.Image(5, 3, 9, [3, 5, 2, 5, 4, 9, 9, 0, 1, 2, 7, 7, 7, 7, 7])
TAG = "00000000-0000-0000-0000-000000000001"
LINES = [f"place {TAG} 9 0:1-1", f"withdraw {TAG}", f"disc {TAG} 9 0:1+1"]
PART = 64  # cases that a worker takes at once
SAMPLED = 200  # fronts of a raster and of a long state file


# ---- The sets of cases ----

def view_of(data, old=None, words=()):
    """A case of `view`, over a state file where there is one."""
    return Case(["view", *(["--state", FILE] if old is not None else []), *words], Call(), data, old is not None, old)


def stored_inputs():
    """The inputs of the program in the repository, by name."""
    grains = subprocess.run([sys.executable, EXAMPLES / "grains.py"], capture_output=True, check=True).stdout
    yield "stdin", (STORED / "stdin").read_bytes()
    yield "cells", (EXAMPLES / "cells.txt").read_bytes()
    yield "neurons", (EXAMPLES / "neurons.txt").read_bytes()
    for name in ("first", "second"):
        yield name, (EXAMPLES / f"{name}-annotator.txt").read_bytes() + grains


def header_end(data):
    """Where the raster of an input begins."""
    text, file = readers.split_input(data)
    place = readers.behind_white_byte(file, 2)
    for _ in range(3):
        _, place = readers.header_number(file, place)
    return len(data) - len(file) + place


def some(first, end, count):
    """Some numbers from the first to the end, both among them: all where there are not more."""
    step = max(1, (end - first) // count)
    return sorted({*range(first, end + 1, step), *range(max(first, end - 3), end + 1)})


def fronts():
    """Fronts of inputs. That of the stored run goes over its state file, too."""
    kept = (STORED / "data" / "strokes.spd").read_bytes()
    for name, data in stored_inputs():
        begin = header_end(data)
        yield from (view_of(data[:end]) for end in [*range(begin), *some(begin, len(data), SAMPLED)])
        if name == "stdin":
            yield from (view_of(data[:end], kept) for end in range(len(data) + 1))


def files():
    """Fronts of state files, each frame's front as a file of its own, and the frame with a byte more."""
    for name, data in stored_inputs():
        kept = simulator.view(data, 4).kept
        if name == "stdin":
            kept = (STORED / "data" / "strokes.spd").read_bytes()
        yield from (view_of(data, kept[:end]) for end in range(len(kept) + 1))
        for frame in (frame for _, frame in with_frames(kept)):
            yield from (view_of(data, simulator.with_length(frame[:end])) for end in range(len(frame)))
            yield view_of(data, simulator.with_length(frame + b"\0"))


def with_frames(kept):
    """The frames of a state file with their places."""
    place = 0
    while place < len(kept):
        length = int.from_bytes(kept[place:place + 2], "big")
        yield place, kept[place + 2:place + 2 + length]
        place += 2 + length


def known_frames(fingerprint):
    """The frames of one run in both versions, and of a disc: 67, 68 and 66 bytes."""
    runs, disc = Stroke(9, (Run(0, 1, 1),)), Stroke(9, Disc(1, 0, 1))
    for version, stroke in ((1, runs), (2, runs), (2, disc)):
        yield simulator.frame_bytes(4, fingerprint, [simulator.stroke_bytes(1, stroke, version)], [], version)


def frames():
    """Known frames with each byte set to each value, for a small mask and with a fingerprint of zeros."""
    data = b"image\n" + simulator.raw_file(MASK)
    for fingerprint in (simulator.fingerprint_of(MASK), bytes(readers.FINGERPRINT)):
        for frame in known_frames(fingerprint):
            file = simulator.with_length(frame)
            for place in range(len(file)):
                yield from (view_of(data, file[:place] + bytes([byte]) + file[place + 1:]) for byte in range(256))


def lines():
    """Edit lines with each byte set to each value, and with one of each value before it."""
    file = b"\nimage\n" + simulator.raw_file(MASK)
    for line in LINES:
        text = line.encode()
        for place in range(len(text) + 1):
            for byte in range(256):
                yield view_of(text[:place] + bytes([byte]) + text[place + 1:] + file)
                yield view_of(text[:place] + bytes([byte]) + text[place:] + file)


SETS = {"fronts": fronts, "files": files, "frames": frames, "lines": lines}


# ---- Playing them ----

def parts_of(made):
    """The cases in lists of so many."""
    part = []
    for case in made:
        part.append(case)
        if len(part) == PART:
            yield part
            part = []
    if part:
        yield part


def play_part(program, folder, part):
    """Play some cases in the folder of this process: for each what it answered and what was wanted."""
    own = pathlib.Path(folder) / str(multiprocessing.current_process().pid)
    return [(case, cases.play(program, own, case), cases.expected(case)) for case in part]


def play_set(pool, findings, folder, name):
    """Play all cases of a set."""
    begun = time.monotonic()
    playing = functools.partial(play_part, findings.program, folder)
    for answers in pool.imap_unordered(playing, parts_of(SETS[name]())):
        for case, got, wanted in answers:
            findings.judge(name, case, got, wanted)
    print(f"{name}: {findings.cases[name]} cases in {time.monotonic() - begun:.0f} s", flush=True)


def main():
    """Play the sets that the command line names."""
    parser = argparse.ArgumentParser(description="Compare Seedpaint with a plain reference on sets of small inputs.")
    parser.add_argument("program", type=pathlib.Path, help="crates/seedpaint/out/seedpaint")
    parser.add_argument("--sets", nargs="+", choices=list(SETS), default=list(SETS), help="which sets (all)")
    parser.add_argument("--workers", type=int, default=2, help="how many runs at a time (2)")
    parser.add_argument("--keep", type=pathlib.Path, default=cases.KEPT / "exhaustive",
                        help="the folder for findings (seedpaint-fuzz/exhaustive in the temporary folder)")
    words = parser.parse_args()
    if not words.program.is_file():
        parser.error(f"{words.program} is not there; `rt run` in crates/seedpaint makes the program")
    findings = cases.Findings(words.keep, str(words.program.resolve()))
    with tempfile.TemporaryDirectory() as folder, multiprocessing.Pool(words.workers) as pool:
        for name in words.sets:
            play_set(pool, findings, folder, name)
    print(f"\n{findings.summary()}")
    sys.exit(1 if findings.number else 0)


if __name__ == "__main__":
    main()
