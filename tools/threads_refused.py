#!/usr/bin/env python3
"""Let the system refuse threads to `seedpaint view`, and see that it writes the same image all the same.

    python3 tools/threads_refused.py crates/seedpaint/out/seedpaint

The program views an image of 2048 by 2048 pixels: without a limit, on one processor, and where its user may have no
more than 1, 2 or 3 threads (RLIMIT_NPROC), of which the first thread of the program is one. Each run has to end with
status 0 and with the bytes of the run without a limit. A line a run tells so, and where strace is there it tells how
many threads could be started and how many could not, in a second run that is traced and compared as well. Where one
differs, the script ends with status 1. The limit binds neither root nor one user for another: so the script has to be
run as root, and runs the program as a user who runs nothing else. It needs Python 3 with numpy, and Linux with
util-linux.
"""

import argparse
import os
import pathlib
import re
import shutil
import subprocess
import sys
import tempfile

import running
from running import Fault, tell

IMAGES = pathlib.Path(__file__).resolve().parent.parent / "bench" / "images.py"
SIDE = 2048
SECONDS = 120  # that a run may take
# The runs: their names, the most threads, and whether they have one processor alone.
RUNS = [("no limit", None, False), ("one processor", None, True)]
RUNS += [(f"a limit of {most}", most, False) for most in (1, 2, 3)]
TRACE = ["-f", "-qq", "-e", "trace=clone,clone3"]


def free_user():
    """The number of a user who runs nothing, and is not nobody, as whom others run programs."""
    taken = set()
    for status in pathlib.Path("/proc").glob("[0-9]*/status"):
        try:
            taken |= {int(number) for number in re.search(r"^Uid:(.*)", status.read_text(), re.M).group(1).split()}
        except (FileNotFoundError, ProcessLookupError):
            pass  # it has ended meanwhile
    return next(user for user in range(65533, 0, -1) if user not in taken)


class Program:
    """A program, the user as whom it is run, and its input."""

    def __init__(self, program, folder):
        self.user, self.folder = free_user(), folder
        self.program, self.input = folder / "program", folder / "input"
        shutil.copyfile(program, self.program)
        for path in (folder, self.program):
            path.chmod(0o755)
        tell(f"making an image of {SIDE} by {SIDE} pixels")
        with open(self.input, "wb") as target:
            made = subprocess.run([sys.executable, IMAGES, "cells", "--size", str(SIDE)], stdout=target, check=False)
        if made.returncode != 0:
            raise Fault("the image was not made: it needs numpy")

    def words(self, most, is_alone):
        """The words that run it with so many threads at most, or on one processor alone."""
        alone = ["taskset", "-c", str(min(os.sched_getaffinity(0)))] if is_alone else []
        limit = ["prlimit", f"--nproc={most}"] if most else []
        user = ["setpriv", f"--reuid={self.user}", f"--regid={self.user}", "--clear-groups"]
        return [*alone, *limit, *user, str(self.program), "view"]

    def run(self, words):
        """The status of a run, and what it wrote."""
        try:
            with open(self.input, "rb") as source:
                ran = subprocess.run(words, stdin=source, stdout=subprocess.PIPE, timeout=SECONDS, check=False)
        except subprocess.TimeoutExpired as late:
            raise Fault(f"a run has not ended after {SECONDS} seconds") from late
        return ran.returncode, ran.stdout

    def traced(self, words):
        """The same under strace, and besides how many threads were started, and how many were not."""
        trace = self.folder / "trace"
        ended = self.run(["strace", *TRACE, "-o", str(trace), *words])
        answers = re.findall(r"clone3?\b.*= (-?\d+)(?: (E\w+).*)?$", trace.read_text(), re.M)
        started = sum(int(number) > 0 for number, _ in answers)
        return ended, started, sum(why == "EAGAIN" for _, why in answers)


def fault_of(ended, wanted):
    """What is wrong with a run, if something is."""
    (status, written), (_, right) = ended, wanted
    if status != 0:
        return f"status {status}"
    return None if written == right else f"other bytes, {len(written)} for {len(right)}"


def play(program, name, words, wanted):
    """Make a run, and tell of it in a line; whether it was right."""
    fault, counted = fault_of(program.run(words), wanted), ""
    if shutil.which("strace"):
        ended, started, refused = program.traced(words)
        fault = fault or fault_of(ended, wanted)
        counted = f"; threads: {started} started, {refused} refused"
    print(f"{name}: {fault or 'the same bytes'}{counted}", flush=True)
    return not fault


def main():
    """Make the runs in a folder that is thrown away."""
    parser = argparse.ArgumentParser(description="Let the system refuse threads to `seedpaint view`.")
    parser.add_argument("program", type=pathlib.Path)
    chosen = parser.parse_args()
    if os.getuid() != 0:
        raise Fault("it has to be run as root")
    with tempfile.TemporaryDirectory(prefix="threads-refused-") as folder:
        program = Program(chosen.program, pathlib.Path(folder))
        wanted = program.run(program.words(None, False))
        if fault := fault_of(wanted, wanted):
            raise Fault(f"the run without a limit: {fault}")
        right = [play(program, name, program.words(most, is_alone), wanted) for name, most, is_alone in RUNS]
    if not all(right):
        raise Fault("not all runs are the same")


if __name__ == "__main__":
    sys.exit(running.run(main))
