#!/usr/bin/env python3
"""Refuse each growth of memory in turn to each test that is made for it, and count what becomes of the tests.

    python3 bench/refused.py crates/core_tests/out/core_tests_tests

The program has to be built, by `rt test` in the folder of its crate, and a C compiler has to be there, for refuse.c.
The tests are those whose names end in `_tried_again`. Each is run with the growth of number 1 refused, then with that
of number 2, and so on, until runs meet none. A test makes a call once more where memory was wanting, if all is as
before; then the call has to be answered. Where threads run, two runs may grow in another order and not equally often:
so it takes ten runs in a row that meet none. A table in Markdown has a row for each test, with these columns:

    growths                  the runs that met a refusal, one for each growth
    begun without memory     of these, those where it fell into what the calls are made on
    answered                 those where each call was answered, at once or when it was made again
    wrong                    those that ended in any other way, which are told beneath the table

The script ends with status 1 where a run was wrong, or where one that met no refusal did not pass.
"""

import argparse
import os
import pathlib
import re
import subprocess
import sys
import tempfile

from run import HERE, say, table

ENDING = "_tried_again"
# What a test says that had no memory for what its calls are made on.
UNBEGUN = "no memory to begin with"
# So many runs in a row that meet no refusal are the last ones.
LAST = 10
# A test that takes longer, in seconds, is wrong.
LIMIT = 60


class Refuser:
    """A program of tests, and the library that refuses it a growth."""

    def __init__(self, program, folder):
        self.program = program
        self.library = pathlib.Path(folder) / "refuse.so"
        command = [os.environ.get("CC", "cc"), "-O2", "-shared", "-fPIC", "-o", self.library, HERE / "refuse.c"]
        subprocess.run(command, check=True)

    def tests(self):
        """The names of the tests that are made for refusals."""
        ran = subprocess.run([self.program, "--list"], capture_output=True, text=True, check=True)
        names = [line.rpartition(": ")[0] for line in ran.stdout.splitlines() if line.endswith(": test")]
        return [name for name in names if name.endswith(ENDING)]

    def run(self, name, number):
        """Run a test with the growth of this number refused, none where it is 0: its status, what it says, and how
        often it grew. Where it was cut off it does not say how often: 0."""
        environment = dict(os.environ, LD_PRELOAD=str(self.library), REFUSE=str(number))
        try:
            ran = subprocess.run([self.program, name], env=environment, capture_output=True, text=True, timeout=LIMIT)
        except subprocess.TimeoutExpired:
            return None, f"no end within {LIMIT} seconds", 0
        growths = re.search(r"growths: (\d+)", ran.stderr)
        if not growths and ran.returncode == 0:
            sys.exit("the program does not take the allocator of refuse.c")
        told = ran.stderr.partition("growths: ")[0].strip()
        return ran.returncode, told, int(growths.group(1)) if growths else 0

    def count(self, name):
        """Refuse each growth of a test: how many were begun without memory, how many answered, and what was wrong."""
        status, told, most = self.run(name, 0)
        if status != 0:
            return 0, 0, [f"{name}, no growth refused: status {status}, {told}"]
        unbegun, answered, wrong = 0, 0, []
        number, unmet = 1, 0
        while unmet < LAST:
            status, told, growths = self.run(name, number)
            most = max(most, growths)
            # Where a run was cut off, it met the refusal as far as others tell.
            met = number <= (growths or most)
            unmet = 0 if met else unmet + 1
            if status == 0:
                answered += met
            elif met and UNBEGUN in told.splitlines():
                unbegun += 1
            else:
                wrong.append(f"{name}, growth {number}: status {status}, {told}")
            number += 1
        return unbegun, answered, wrong


def main():
    parser = argparse.ArgumentParser(description=__doc__, formatter_class=argparse.RawDescriptionHelpFormatter)
    parser.add_argument("program", type=pathlib.Path, nargs="+", help="a built program of tests")
    parser.add_argument("--only", default="", help="a word that the name of each test has to contain")
    chosen = parser.parse_args()
    for program in chosen.program:
        if not program.is_file():
            parser.error(f"{program} is not there; `rt test` in the folder of its crate makes it")
    rows, told = [], []
    with tempfile.TemporaryDirectory() as folder:
        for program in chosen.program:
            refuser = Refuser(program.resolve(), folder)
            for name in refuser.tests():
                if chosen.only not in name:
                    continue
                unbegun, answered, wrong = refuser.count(name)
                growths = unbegun + answered + len(wrong)
                say(f"{name}: {growths} growths, {len(wrong)} wrong")
                rows.append([name.removesuffix(ENDING), *map(str, [growths, unbegun, answered, len(wrong)])])
                told += wrong
    table(["test", "growths", "begun without memory", "answered", "wrong"], rows)
    print("\n".join(told))
    sys.exit(1 if told else 0)


if __name__ == "__main__":
    main()
