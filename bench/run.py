#!/usr/bin/env python3
"""Measure Seedpaint against a plain C program, and print tables in Markdown.

    python3 bench/run.py crates/seedpaint/out/seedpaint

The baseline is compiled, the images are made (once; they are kept under the
system's temporary folder), and for each image the program and the baseline run
in turns on the same file. A difference in one byte of their output ends the
script with status 1. README.md says what the columns mean.
"""

import argparse
import datetime
import filecmp
import hashlib
import os
import pathlib
import platform
import re
import resource
import shutil
import statistics
import subprocess
import sys
import tempfile

HERE = pathlib.Path(__file__).resolve().parent
KEPT = pathlib.Path(tempfile.gettempdir()) / f"seedpaint-bench-{os.getuid()}"
FAMILIES = ["cells", "plates", "map", "spiral", "maze", "noise", "rising", "corner", "snake"]


def say(text):
    """Tell how far the script is."""
    print(text, file=sys.stderr, flush=True)


def stop(text):
    """End the script that was called as failed."""
    sys.exit(f"{pathlib.Path(sys.argv[0]).name}: {text}")


# ---- What is measured ----

class Input:
    """The files of one image: the program's input, and mask and marker by themselves."""

    def __init__(self, family, side, **choices):
        self.family, self.side = family, side
        digest = hashlib.sha256((HERE / "images.py").read_bytes()).hexdigest()[:8]
        chosen = "".join(f"-{name}-{value}" for name, value in choices.items())
        self.path = KEPT / f"{family}-{side}{chosen}-{digest}.txt"
        self.mask = self.path.with_suffix(".mask.pgm")
        self.marker = self.path.with_suffix(".marker.pgm")
        if not self.path.exists():
            say(f"making {self.path}")
            script = [sys.executable, HERE / "images.py", family, "--size", str(side)]
            script += [word for name, value in choices.items() for word in (f"--{name}", str(value))]
            write_once(self.path, script, subprocess.DEVNULL)

    def split(self, baseline):
        """Write mask and marker each to a file, for tools that want them so."""
        if not self.marker.exists():
            with open(self.path, "rb") as source, open(self.mask, "wb") as target:
                skip_edits(source)
                shutil.copyfileobj(source, target)
            with open(self.path, "rb") as source:
                write_once(self.marker, [baseline.command[0], "--marker"], source)

    def maxval(self):
        """The greatest value that a sample may have."""
        with open(self.path, "rb") as source:
            skip_edits(source)
            return int([source.readline() for _ in range(3)][2])


def skip_edits(file):
    """Read a file up to its image."""
    while file.readline() != b"image\n":
        pass


def write_once(path, command, source):
    """Write the output of a command to a file that is there in whole or not at all."""
    unfinished = path.with_suffix(".unfinished")
    with open(unfinished, "wb") as target:
        if subprocess.run(command, stdin=source, stdout=target, check=False).returncode != 0:
            stop(f"{command[0]} failed" + (": it needs numpy" if command[0] == sys.executable else ""))
    unfinished.replace(path)


class Filter:
    """A program that reads an input and writes the result; measured as a process."""

    def __init__(self, name, command):
        self.name, self.command = name, command

    def takes(self, _source):
        """Whether the program can do this input."""
        return True

    def run(self, source, target):
        """Processor seconds and peak bytes of one run."""
        with open(source.path, "rb") as reader, open(target, "wb") as writer:
            child = subprocess.Popen(self.command, stdin=reader, stdout=writer)
            _, status, usage = os.wait4(child.pid, 0)
        child.returncode = os.waitstatus_to_exitcode(status)
        if child.returncode != 0:
            stop(f"{self.name} ended with status {child.returncode} on {source.path}")
        return usage.ru_utime + usage.ru_stime, usage.ru_maxrss * 1024


class OnPictures(Filter):
    """A program that reads mask and marker, with samples up to `top`; measured as a process."""

    def __init__(self, name, command, top):
        super().__init__(name, command)
        self.top = top

    def takes(self, source):
        return source.maxval() <= self.top

    def run(self, source, target):
        command = self.command + [source.mask, source.marker]
        return Filter(self.name, command).run(source, target)


class ScikitImage(Filter):
    """scikit_image.py, which reads mask and marker and tells the time that it took after its imports."""

    def run(self, source, target):
        command = self.command + [source.mask, source.marker, target]
        done = subprocess.run(command, stdout=subprocess.PIPE, text=True, check=False)
        if done.returncode != 0:
            stop(f"{self.name} failed on {source.mask}")
        return float(done.stdout), 0


def compiled(name, *libraries):
    """The path of a C program of this folder once it is compiled, or None."""
    program = KEPT / name
    command = ["cc", "-O2", "-o", program, HERE / f"{name}.c", *libraries]
    quiet = subprocess.DEVNULL if libraries else None
    return program if subprocess.run(command, stderr=quiet, check=False).returncode == 0 else None


def compiled_itk():
    """The path of itk.cxx once it is compiled for the ITK that is installed, or None; it takes long, so it is kept."""
    source = HERE / "itk.cxx"
    headers = [folder for prefix in ("/usr", "/usr/local") for folder in pathlib.Path(prefix, "include").glob("ITK-*")]
    if not headers or not shutil.which("c++"):
        return None
    version = headers[-1].name.removeprefix("ITK-")
    program = KEPT / f"itk-{version}"
    if program.exists() and program.stat().st_mtime > source.stat().st_mtime:
        return program
    say(f"compiling {source.name}")
    libraries = [f"-l{name}-{version}" for name in ("ITKCommon", "itksys", "itkvnl", "itkvnl_algo")]
    command = ["c++", "-O2", "-I", headers[-1], "-o", program, source, *libraries]
    return program if subprocess.run(command, stderr=subprocess.DEVNULL, check=False).returncode == 0 else None


def has_scikit_image():
    """Whether this Python has scikit-image."""
    command = [sys.executable, "-c", "import skimage.morphology"]
    return subprocess.run(command, stderr=subprocess.DEVNULL, check=False).returncode == 0


def others(conn):
    """The other tools that are installed here; a line tells which are not."""
    leptonica, itk = compiled("leptonica", "-llept"), compiled_itk()
    tools = {"Leptonica": leptonica and OnPictures("Leptonica", [leptonica, conn], 255),
             "ITK": itk and OnPictures("ITK", [itk, conn], 65535),
             "scikit-image": has_scikit_image()
                             and ScikitImage("scikit-image", [sys.executable, HERE / "scikit_image.py", conn])}
    tell_missing(name for name, tool in tools.items() if not tool)
    return [tool for tool in tools.values() if tool]


def tell_missing(names):
    """Print which tools are left out."""
    missing = ", ".join(names)
    if missing:
        print(f"Left out, for they are not installed here: {missing}.\n", flush=True)


# ---- Measuring ----

def compare(source, programs):
    """Run each program once, and stop unless all write the bytes that the baseline writes."""
    outputs = {}
    for program in programs:
        outputs[program.name] = KEPT / f"output-{program.name}.pgm"
        program.run(source, outputs[program.name])
    for name, output in outputs.items():
        if not filecmp.cmp(output, outputs["baseline"], shallow=False):
            stop(f"{name} and baseline differ on {source.path}: compare {output} and {outputs['baseline']}")


def measure(source, programs, runs):
    """Median seconds and peak bytes of each program, after a run to warm up; the programs take turns."""
    compare(source, programs)
    figures = {program.name: [] for program in programs}
    for _ in range(runs):
        for program in programs:
            figures[program.name].append(program.run(source, os.devnull))
    medians = {}
    for name, results in figures.items():
        seconds, peaks = zip(*results)
        medians[name] = statistics.median(seconds), max(peaks)
    say(f"{source.family} {source.side}: "
        + ", ".join(f"{name} {1000 * seconds:.1f} ms" for name, (seconds, _) in medians.items()))
    return medians


# ---- Tables ----

def table(heading, rows):
    """Print a table in Markdown."""
    for row in [heading, ["---"] + ["---:"] * (len(heading) - 1), *rows]:
        print("| " + " | ".join(row) + " |")
    print()


def memory(peak, side):
    """A peak in bytes a pixel of the file, where it stands above what this script itself takes."""
    own = resource.getrusage(resource.RUSAGE_SELF).ru_maxrss * 1024
    return f"{peak / (side * side):.1f}" if peak > own else "-"


def machine():
    """Where and when the figures were measured."""
    model = platform.machine()
    try:
        found = re.search(r"model name\s*: (.*)", pathlib.Path("/proc/cpuinfo").read_text(encoding="utf-8"))
        model = found[1] if found else model
    except OSError:
        pass
    version = subprocess.run(["cc", "--version"], stdout=subprocess.PIPE, text=True, check=False).stdout
    return (f"{datetime.date.today()}; {model}, {os.cpu_count()} processors; {platform.system()}"
            f" {platform.release()}; {version.splitlines()[0]}")


def ratios(families, side, programs, runs):
    """Measure the families at one size, and print the table of ratios; give the medians."""
    program, baseline, *others = programs
    rows, results = [], {}
    for family in families:
        source = Input(family, side)
        if others:
            source.split(baseline)
        figures = results[family] = measure(source, [each for each in programs if each.takes(source)], runs)
        unit = figures[baseline.name][0]
        row = [family, f"{figures[program.name][0] / unit:.2f}", memory(figures[program.name][1], side)]
        rows.append(row + [f"{figures[each.name][0] / unit:.2f}" if each.name in figures else "-" for each in others])
    table([f"{side} by {side}", "time", "bytes a pixel"] + [each.name for each in others], rows)
    return results


def growth(results, programs):
    """Print the table of times a pixel, as multiples of those at the smallest size."""
    sides = sorted(results)

    def multiple(program, family, side):
        first, here = results[sides[0]][family][program.name][0], results[side][family][program.name][0]
        return f"{(here / side ** 2) / (first / sides[0] ** 2):.2f}"
    rows = [[family] + [" / ".join(multiple(program, family, side) for program in programs[:2]) for side in sides]
            for family in results[sides[0]]]
    table(["time a pixel"] + [str(side) for side in sides], rows)


def tile_sides(families, size, programs, runs):
    """Measure the families at one size with tiles of each side, and print the table of ratios."""
    *tiled, baseline = programs
    rows = []
    for family in families:
        figures = measure(Input(family, size), programs, runs)
        rows.append([family] + [f"{figures[each.name][0] / figures[baseline.name][0]:.2f}" for each in tiled])
    table([f"{size} by {size}"] + [each.name for each in tiled], rows)


def read_sides(text):
    """Sides of tiles, with commas between them."""
    sides = [int(word) for word in text.split(",")]
    if min(sides) < 8 or max(sides) > 256:
        raise argparse.ArgumentTypeError("tiles have sides of 8 to 256 pixels")
    return sides


def read_words():
    """The words of the command line."""
    parser = argparse.ArgumentParser(description="Measure Seedpaint against a plain C program.")
    parser.add_argument("program", type=pathlib.Path, help="crates/seedpaint/out/seedpaint")
    parser.add_argument("--runs", type=int, default=5, metavar="N", help="timed runs of each program (5)")
    parser.add_argument("--sizes", type=int, nargs="+", default=[2048], metavar="N", help="sides of the images (2048)")
    parser.add_argument("--families", nargs="+", default=FAMILIES, choices=FAMILIES, metavar="FAMILY",
                        help=" ".join(FAMILIES))
    parser.add_argument("--conn", type=int, default=4, choices=(4, 8), help="neighbours of a pixel (4)")
    parser.add_argument("--sides", type=read_sides, metavar="N,N..",
                        help="compare tiles of these sides instead, as 16,32,64,128,256; nothing but time is measured")
    parser.add_argument("--no-others", action="store_true", help="leave Leptonica, ITK and scikit-image out")
    words = parser.parse_args()
    if words.runs < 1 or min(words.sizes) < 1:
        parser.error("runs and sizes are at least 1")
    if not words.program.is_file():
        parser.error(f"{words.program} is not there; `rt run` in crates/seedpaint makes the program")
    return words


def main():
    """Measure what the command line asks for."""
    words = read_words()
    KEPT.mkdir(exist_ok=True)
    baseline = compiled("baseline")
    if baseline is None:
        stop("cc failed")
    conn = str(words.conn)
    view = [words.program.resolve(), "view", "--conn", conn]
    baseline = Filter("baseline", [baseline, "--conn", conn])
    print(f"{machine()}; {conn} neighbours, the median of {words.runs} runs each.\n", flush=True)
    sizes = sorted(set(words.sizes))
    if words.sides:
        programs = [Filter(f"tile {side}", [*view, "--tile", str(side)]) for side in words.sides] + [baseline]
        for size in sizes:
            tile_sides(words.families, size, programs, words.runs)
        return
    programs = [Filter("program", view), baseline]
    if not words.no_others:
        programs += others(conn)
    results = {size: ratios(words.families, size, programs, words.runs) for size in sizes}
    if len(results) > 1:
        growth(results, programs)


if __name__ == "__main__":
    main()
