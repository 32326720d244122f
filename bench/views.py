#!/usr/bin/env python3
"""Measure `seedpaint derive` against a plain C program, and print a table in Markdown.

    python3 bench/views.py crates/seedpaint/out/seedpaint

The baseline is compiled and the images are made as run.py does it; of an
input the image alone is taken. A difference in one byte between the outputs
of program, baseline and scikit-image ends the script with status 1. README.md
says what the columns mean.
"""

import argparse
import multiprocessing
import pathlib
import subprocess
import sys

import run

FAMILIES = ["cells", "map", "relief", "noise"]
VIEWS = ["fill", "hmax", "regmax"]
SHARE = 0.04  # the height of the domes that hmax cuts down, as a share of the greatest sample
TOP = 65534  # the greatest sample of which the baseline finds the regional maxima


class Image:
    """A raw PGM file, cut out of an input."""

    def __init__(self, family, side):
        self.family, self.side = family, side
        source = run.Input(family, side)
        self.path = source.path.with_suffix(".image.pgm")
        self.maxval = source.maxval()
        if not self.path.exists():  # in a process of its own: peaks of memory show only above that of this one
            writing = multiprocessing.Process(target=write_image, args=(source.path, self.path))
            writing.start()
            writing.join()
            if writing.exitcode != 0:
                run.stop(f"{self.path} cannot be written")

    def height(self):
        """The height of the domes that are cut down."""
        return int(SHARE * self.maxval)


def write_image(source, target):
    """Write the image of an input, with no sample above what the baseline takes."""
    with open(source, "rb") as reader, open(target, "wb") as writer:
        run.skip_edits(reader)
        header = [reader.readline() for _ in range(3)]
        raster = reader.read()
        if int(header[2]) > TOP:
            import numpy  # images.py needed it already
            raster = numpy.minimum(numpy.frombuffer(raster, ">u2"), TOP).astype(">u2").tobytes()
        writer.write(b"".join(header) + raster)


class ScikitView(run.Filter):
    """scikit_views.py, which reads an image and tells the time that it took after its imports."""

    def run(self, source, target):
        done = subprocess.run([*self.command, source.path, target], stdout=subprocess.PIPE, text=True, check=False)
        if done.returncode != 0:
            run.stop(f"{self.name} failed on {source.path}")
        return float(done.stdout), 0


def programs(words, baseline, view, height, others):
    """What is measured for one view of one image: the program, the baseline and, where it is there, scikit-image."""
    conn = str(words.conn)
    option = {"fill": ["--fill"], "hmax": ["--hmax", str(height)], "regmax": ["--regmax"]}[view]
    yield run.Filter("program", [words.program.resolve(), "derive", view, "--h", str(height), "--conn", conn])
    yield run.Filter("baseline", [baseline, *option, "--conn", conn])
    if others:
        script = [sys.executable, run.HERE / "scikit_views.py"]
        yield ScikitView("scikit-image", [*script, view, str(height), conn])


def row(words, baseline, family, view, others):
    """The row of one view of one image."""
    source = Image(family, words.size)
    height = source.height()
    figures = run.measure(source, list(programs(words, baseline, view, height, others)), words.runs)
    unit = figures["baseline"][0]
    cells = [family, view, f"{figures['program'][0] / unit:.2f}", run.memory(figures["program"][1], words.size)]
    if others:
        cells.append(f"{figures['scikit-image'][0] / unit:.1f}")
        cells.append(f"{own_h_maxima(words, source, height) / unit:.1f}" if view == "hmax" else "-")
    return cells


def own_h_maxima(words, source, height):
    """The seconds of scikit-image's function `h_maxima`, which answers another question; run once."""
    script = [sys.executable, run.HERE / "scikit_views.py", "h_maxima", str(height), str(words.conn)]
    return ScikitView("h_maxima", script).run(source, run.KEPT / "output-h_maxima.pgm")[0]


def read_words():
    """The words of the command line."""
    parser = argparse.ArgumentParser(description="Measure the views against a plain C program.")
    parser.add_argument("program", type=pathlib.Path, help="crates/seedpaint/out/seedpaint")
    parser.add_argument("--runs", type=int, default=5, metavar="N", help="timed runs of each program (5)")
    parser.add_argument("--size", type=int, default=2048, metavar="N", help="side of the images (2048)")
    parser.add_argument("--families", nargs="+", default=FAMILIES, choices=FAMILIES, metavar="FAMILY",
                        help=" ".join(FAMILIES))
    parser.add_argument("--conn", type=int, default=4, choices=(4, 8), help="neighbours of a pixel (4)")
    parser.add_argument("--no-others", action="store_true", help="leave scikit-image out")
    words = parser.parse_args()
    if words.runs < 1 or words.size < 1:
        parser.error("runs and size are at least 1")
    if not words.program.is_file():
        parser.error(f"{words.program} is not there; `rt run` in crates/seedpaint makes the program")
    return words


def main():
    """Measure what the command line asks for."""
    words = read_words()
    run.KEPT.mkdir(exist_ok=True)
    baseline = run.compiled("baseline")
    if baseline is None:
        run.stop("cc failed")
    print(f"{run.machine()}; {words.conn} neighbours, the median of {words.runs} runs each.\n", flush=True)
    others = not words.no_others and run.has_scikit_image()
    if not words.no_others and not others:
        run.tell_missing(["scikit-image"])
    rows = [row(words, baseline, family, view, others) for family in words.families for view in VIEWS]
    heading = [f"{words.size} by {words.size}", "view", "time", "bytes a pixel"]
    run.table(heading + ["scikit-image", "h_maxima"] * others, rows)


if __name__ == "__main__":
    main()
