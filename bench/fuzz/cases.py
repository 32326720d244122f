"""A case: the words and the input of a run of the program, and what holds for its end.

`play` runs a case in a folder of its own, `expected` has the answer that the simulator gives, and `Findings` keeps the
cases in which the two differ, as files.
"""

import collections
import pathlib
import shlex
import shutil
import subprocess
import tempfile
from typing import NamedTuple

import simulator
from simulator import Answer

SECONDS = 600  # after which a run counts as one that does not end; a busy machine is slow
FILE = "kept.spd"  # the state file's name, in the folder of the run
LOCK = FILE + ".lock"  # which runs lock in turns, and which stays
KEPT = pathlib.Path(tempfile.gettempdir()) / "seedpaint-fuzz"  # where findings are kept


class Call(NamedTuple):
    """What the words of a run ask for: `view`, or `derive` with its kind and height."""
    conn: int = 4
    kind: str = ""
    height: int = 1


class Case(NamedTuple):
    """The words of a run, its call, its input, what the state file holds before, if it is there, and what troubles it.

    `has_file` says whether the words name the state file. Trouble is `folder`, where that is a folder, or `new`, where
    the name behind which it is written anew is one.
    """
    words: list
    call: Call
    stdin: bytes
    has_file: bool = False
    old: bytes = None
    trouble: str = ""


def expected(case):
    """The answer that the reference gives."""
    if case.call.kind:
        return simulator.derive(case.stdin, case.call.kind, case.call.height, case.call.conn)._replace(kept=None)
    if case.trouble == "folder":
        return simulator.refused("V2", None, 3)
    answer = simulator.view(case.stdin, case.call.conn, case.old or b"")
    if not case.has_file or (answer.status != 0 and case.old is None):
        return answer._replace(kept=None)
    if case.trouble == "new" and answer.status == 0:
        return Answer(3, b"seedpaint: V2\n", answer.output, case.old)
    return answer


def prepare(folder, case):
    """Make a folder with the state file alone."""
    shutil.rmtree(folder, ignore_errors=True)
    folder.mkdir(parents=True)
    if case.trouble == "folder":
        (folder / FILE).mkdir()
    elif case.old is not None:
        (folder / FILE).write_bytes(case.old)
    if case.trouble == "new":
        (folder / (FILE + ".new")).mkdir()


def kept_in(folder):
    """What the state file holds, or nothing where it is not there or is a folder."""
    path = folder / FILE
    return path.read_bytes() if path.is_file() else None


def strays(folder, case):
    """The names of files that should not be there after a run."""
    own = {FILE, LOCK} | ({FILE + ".new"} if case.trouble == "new" else set())
    return sorted({path.name for path in folder.iterdir()} - own)


def play(program, folder, case):
    """Run a case, and give its answer. The line tells where it did not end, or left a stray file."""
    prepare(folder, case)
    try:
        done = subprocess.run([program, *case.words], input=case.stdin, capture_output=True, cwd=folder, check=False,
                              timeout=SECONDS)
    except subprocess.TimeoutExpired:
        return Answer(None, b"did not end", b"", kept_in(folder))
    left = strays(folder, case)
    line = done.stderr + (f"left behind: {left}".encode() if left else b"")
    return Answer(done.returncode, line, done.stdout, kept_in(folder))


def code_of(answer):
    """The code of an answer, with that of a stroke behind E3 and M5, or `written`."""
    words = answer.line.decode(errors="replace").removeprefix("seedpaint: ").split()
    if not words:
        return "written"
    return f"{words[0]} {words[-1]}" if words[0] in ("E3", "M5") else words[0]


class Findings:
    """Counts of cases, and the cases in which program and reference differ, kept as files."""

    def __init__(self, folder, program):
        self.folder, self.program = pathlib.Path(folder), program
        self.cases, self.codes, self.number = collections.Counter(), collections.Counter(), 0

    def count(self, kind, answer):
        """Count a case."""
        self.cases[kind] += 1
        self.codes[code_of(answer)] += 1

    def judge(self, kind, case, got, wanted, seed=None):
        """Count a case, and keep it where the answers differ. Whether they are the same."""
        self.count(kind, wanted)
        if got != wanted:
            self.keep(kind, case, got, wanted, seed)
        return got == wanted

    def keep(self, kind, case, got, wanted, seed=None):
        """Keep a case as files, and print it."""
        self.number += 1
        folder = self.folder / f"{kind}-{seed}-{self.number}"
        shutil.rmtree(folder, ignore_errors=True)
        folder.mkdir(parents=True)
        (folder / "words").write_text(shlex.join([str(self.program), *case.words]) + f" # seed {seed} {case.trouble}\n")
        (folder / "stdin").write_bytes(case.stdin)
        if case.old is not None:
            (folder / FILE).write_bytes(case.old)
        for name, answer in [("got", got), ("wanted", wanted)]:
            write_answer(folder, name, answer)
        print(f"finding: {kind}, seed {seed}: {brief(got)}, the reference {brief(wanted)}: {folder}", flush=True)

    def summary(self):
        """The counts, in Markdown."""
        last = f"{sum(self.cases.values())} cases, {self.number} findings"
        return "\n".join([*table("Kind", self.cases), "", *table("Answer", self.codes), "", last])


def table(name, counts):
    """The lines of a table of counts."""
    return [f"| {name} | Cases |", "|---|---|", *(f"| {key} | {count} |" for key, count in sorted(counts.items()))]


def write_answer(folder, name, answer):
    """Write an answer into files of this name."""
    (folder / f"{name}.status").write_text(f"{answer.status}\n")
    (folder / f"{name}.stderr").write_bytes(answer.line)
    (folder / f"{name}.stdout").write_bytes(answer.output)
    if answer.kept is not None:
        (folder / f"{name}.spd").write_bytes(answer.kept)


def brief(answer):
    """An answer in a few words."""
    kept = "no file" if answer.kept is None else f"a file of {len(answer.kept)} bytes"
    return f"status {answer.status}, {answer.line[:80]!r}, {len(answer.output)} bytes, {kept}"
