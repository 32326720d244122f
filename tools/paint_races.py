#!/usr/bin/env python3
"""Let several programs save into one state file, and see that nothing is lost that was answered as kept.

    python3 tools/paint_races.py crates/seedpaint/out/seedpaint

Two and four programs of each kind work on one state file of one mask, `paint`, `view --state` and `node --state`, and
mixed ones. They make 2,000 edits in 50 rounds (`--edits`, `--rounds`). Of five rounds

- one has all of them open, and they save in turns;
- one has them save at once;
- one kills them at random moments, as `kill -9` does, and starts them anew;
- one has them at once, with the gaps between making, writing and renaming a file widened (`slow_files.c`);
- one has both.

An edit is kept where a `POST edits` was answered with 200, or where `view` or `node` ended with status 0. Meanwhile and
after each round all of them have to stand in the state file. It may never have 0 bytes where strokes had been, and
never be torn, and whatever lies beside it may stop neither a `view --state` nor a `paint`. A line a kind tells how it
went; a kind ends where it lost something, and then the script ends with status 1. The nodes hear nobody, so that all of
their strokes go by the file. It takes some minutes, and needs Python 3, a C compiler and Linux.
"""

import argparse
import os
import pathlib
import random
import socket
import subprocess
import sys
import tempfile
import threading
import time
import uuid
from itertools import zip_longest
from typing import NamedTuple

import running
from running import Fault, tell
from serving import Serving
from state_files import read_state_file

HERE = pathlib.Path(__file__).resolve().parent
WIDTH, HEIGHT = 48, 32
GAP = 30          # milliseconds, the widest
MOST_LINES = 8    # of a text
MOST_TRIES = 50   # to keep a text
SECONDS = 60      # that a program may take
A_LOOK, A_READ = 0.002, 0.03  # seconds between two looks at the size of the file, and at what it has


class Mode(NamedTuple):
    """How the programs of a round work."""
    name: str
    is_at_once: bool
    kills: bool
    is_slow: bool


MODES = [Mode("in turns", False, False, False), Mode("at once", True, False, False), Mode("killed", True, True, False),
         Mode("slow", True, False, True), Mode("slow and killed", True, True, True)]


# ---- Edits ----

class Edit(NamedTuple):
    """A line, and what it places or withdraws."""
    verb: str
    tag: uuid.UUID
    line: str


def draw_edits(rng, count, placed):
    """New edits; one of eight withdraws a stroke of those that were placed."""
    edits = []
    for _ in range(count):
        if placed and rng.random() < 1 / 8:
            tag = rng.choice(placed)
            edits.append(Edit("withdraw", tag, f"withdraw {tag}\n"))
        else:
            tag, x = uuid.UUID(int=rng.getrandbits(128), version=4), rng.randrange(WIDTH - 4)
            shape = f"{rng.randrange(HEIGHT)}:{x}-{x + rng.randrange(4)}"
            placed.append(tag)
            edits.append(Edit("place", tag, f"place {tag} {rng.randrange(1, 256)} {shape}\n"))
    return edits


def draw_texts(rng, edits):
    """The edits cut into texts of some lines each."""
    texts = []
    while edits:
        count = rng.randint(1, MOST_LINES)
        texts.append(edits[:count])
        edits = edits[count:]
    return texts


class Tally:
    """What was answered as kept, and how often a program was killed, or told that it could not save."""

    def __init__(self):
        self.kept, self.killed, self.refused = [], 0, 0
        self.lock = threading.Lock()

    def note_kept(self, edits):
        """These are kept."""
        with self.lock:
            self.kept += edits

    def note_end(self, was_killed):
        """A program was killed before it answered, or could not save."""
        with self.lock:
            self.killed += was_killed
            self.refused += not was_killed


# ---- The programs ----

class Setting:
    """The program, the folder with the mask and the state file, and the mode of the round."""

    def __init__(self, program, folder, library):
        self.program, self.folder, self.library, self.mode = program, folder, library, MODES[0]
        self.mask, self.state = folder / "mask.pgm", folder / "strokes.spd"
        self.image = b"P5\n%d %d\n255\n" % (WIDTH, HEIGHT) + bytes(k % 251 for k in range(WIDTH * HEIGHT))
        self.mask.write_bytes(self.image)

    def environment(self):
        """That of a program in this mode."""
        return dict(os.environ, LD_PRELOAD=str(self.library), GAP=str(GAP)) if self.mode.is_slow else None


class Worker:
    """A program that keeps edits in the state file: it begins with a text, and ends with it. A timer may kill it."""

    def __init__(self, setting, tally, seed):
        self.setting, self.tally, self.random, self.timer = setting, tally, random.Random(seed), None

    def kill_within(self, process, most):
        """Kills it within so many seconds, or three times as many where it is slow, if that is the mode."""
        if self.setting.mode.kills:
            most *= 3 if self.setting.mode.is_slow else 1
            self.timer = threading.Timer(self.random.uniform(0, most), process.kill)
            self.timer.daemon = True
            self.timer.start()

    def spare(self):
        """Kills it no more."""
        if self.timer:
            self.timer.cancel()
            self.timer = None

    def keep(self, text):
        """Keeps a text, in several tries where it has to be."""
        for _ in range(MOST_TRIES):
            self.begin(text)
            if self.end(text):
                return
        if not self.setting.mode.kills:
            raise Fault(f"an edit was not kept in {MOST_TRIES} tries")


class Painter(Worker):
    """`seedpaint paint`, which runs over all texts of a round."""

    serving = None

    def begin(self, _text=None):
        """Starts it, unless it runs."""
        while not self.serving or self.serving.is_ended():
            self.spare()
            setting = self.setting
            words = [setting.program, "paint", setting.mask, "--state", setting.state]
            self.serving = Serving(words, setting.environment())
            if not self.serving.address:
                raise Fault(f"paint does not start: {self.serving.stop().strip()}")
            self.kill_within(self.serving.process, 0.4)

    def end(self, text):
        """Posts a text; whether it is kept."""
        try:
            answer = self.serving.post("".join(edit.line for edit in text))
        except OSError:  # (it was killed before it could be asked)
            answer = None
        if answer and answer[0] == 200:
            self.tally.note_kept(text)
            return True
        if answer and answer[0] != 503:
            raise Fault(f"POST edits is answered with {answer[0]} {answer[1][:100]}")
        time.sleep(0.05)
        self.tally.note_end(self.serving.is_ended())
        return False

    def close(self):
        """Ends it."""
        self.spare()
        if self.serving:
            self.serving.stop()
            self.serving = None


class Caller(Worker):
    """`seedpaint view --state` or `seedpaint node --state`, one call a text."""

    process = None

    def words(self):
        """Its words."""
        return ["view"]

    def begin(self, text):
        """Starts it and gives it its input, whose end is still to come."""
        setting = self.setting
        words = [str(setting.program), *self.words(), "--state", str(setting.state)]
        self.process = subprocess.Popen(words, stdin=subprocess.PIPE, stdout=subprocess.PIPE, stderr=subprocess.PIPE,
                                        env=setting.environment())
        if self.random.random() < 1 / 2:
            self.kill_within(self.process, 0.2)
        try:
            self.process.stdin.write("".join(edit.line for edit in text).encode() + b"image\n" + setting.image)
            self.process.stdin.flush()
        except BrokenPipeError:
            pass  # (it was killed, or says why it reads no more)

    def end(self, text):
        """Ends its input; whether the text is kept."""
        try:
            _, told = self.process.communicate(timeout=SECONDS)
        except subprocess.TimeoutExpired:
            self.process.kill()
            raise Fault(f"{self.words()[0]} does not end within {SECONDS} s") from None
        self.spare()
        status = self.process.returncode
        if status == 0:
            self.tally.note_kept(text)
            return True
        is_refused = told in (b"seedpaint: V2\n", b"seedpaint: D3\n")  # (or somebody else took its port)
        if not is_refused and not (status == -9 and self.setting.mode.kills):
            raise Fault(f"{self.words()[0]} ends with {status}: {told.decode().strip()}")
        self.tally.note_end(not is_refused)
        return False

    def close(self):
        """Nothing of it is left."""
        self.spare()
        if self.process and self.process.poll() is None:
            self.process.kill()
            self.process.communicate()


class NodeCaller(Caller):
    """A node, which has a port of its own and tells its strokes to one that nobody has."""

    def words(self):
        """Its words."""
        with socket.socket(type=socket.SOCK_DGRAM) as mine, socket.socket(type=socket.SOCK_DGRAM) as other:
            ports = []
            for end in (mine, other):
                end.bind(("127.0.0.1", 0))
                ports.append(str(end.getsockname()[1]))
        return ["node", "--port", ports[0], "--ticks", str(self.random.randint(1, 20)), ports[1]]


KINDS = {
    "two paint": [Painter] * 2, "four paint": [Painter] * 4,
    "two view": [Caller] * 2, "four view": [Caller] * 4,
    "two node": [NodeCaller] * 2, "four node": [NodeCaller] * 4,
    "paint and view": [Painter, Caller], "paint and node": [Painter, NodeCaller], "view and node": [Caller, NodeCaller],
    "two paint, a view, a node": [Painter, Painter, Caller, NodeCaller],
}


# ---- A round ----

def in_turns(workers, shares):
    """All begin with a text, and then one after another ends with it."""
    for texts in zip_longest(*shares):
        begun = [(worker, text) for worker, text in zip(workers, texts) if text]
        for worker, text in begun:
            worker.begin(text)
        time.sleep(0.05)  # (so that each of them has read the file)
        for worker, text in begun:
            if not worker.end(text):
                worker.keep(text)


def at_once(workers, shares):
    """Each keeps its texts, whatever the others do."""
    faults = []

    def work(worker, share):
        try:
            for text in share:
                worker.keep(text)
        except (Fault, OSError) as fault:
            faults.append(fault)
    threads = [threading.Thread(target=work, args=pair) for pair in zip(workers, shares)]
    for thread in threads:
        thread.start()
    for thread in threads:
        thread.join()
    if faults:
        raise faults[0]


class Watcher(threading.Thread):
    """Looks at the state file while others save: what it says is wrong, or None."""

    def __init__(self, state, tally):
        super().__init__(daemon=True)
        self.state, self.tally, self.fault, self.is_ended = state, tally, None, False
        self.start()

    def run(self):
        """Looks until it is to end, or something is wrong."""
        seen, read_at = None, 0
        while not self.is_ended and not self.fault:
            time.sleep(A_LOOK)
            kept = list(self.tally.kept)
            try:
                status = self.state.stat()
                if kept and not status.st_size:
                    raise Fault("the state file has 0 bytes")
                sight = status.st_ino, status.st_mtime_ns
                if sight != seen and time.monotonic() > read_at + A_READ:
                    check_kept(self.state, kept)
                    seen, read_at = sight, time.monotonic()
            except FileNotFoundError:
                if kept:
                    self.fault = Fault("the state file is gone")
            except Fault as fault:
                self.fault = fault

    def end(self):
        """Ends it, with a fault where something was wrong."""
        self.is_ended = True
        self.join()
        if self.fault:
            raise Fault(f"meanwhile: {self.fault}")


def check_kept(state, kept):
    """These edits stand in the state file, which is whole."""
    strokes, withdrawn = read_state_file(state, state.read_bytes())
    lost = [edit for edit in kept if edit.tag not in (strokes if edit.verb == "place" else withdrawn)]
    if lost:
        raise Fault(f"{len(lost)} of {len(kept)} edits that were kept are gone, as {lost[-1].line.strip()}")


def check_after(setting, tally, rng, placed):
    """What is to hold once all have ended: the file has what was kept, and is taken by a view and a page."""
    check_kept(setting.state, tally.kept)
    left = {path.name for path in setting.folder.iterdir()} - {"mask.pgm", "strokes.spd", "strokes.spd.lock"}
    if left and not tally.killed:
        raise Fault(f"nobody was killed, and beside the file there is {', '.join(sorted(left))}")
    setting.mode = MODES[0]
    others = Tally()
    for kind in (Caller, Painter):
        worker = kind(setting, others, 0)
        text = draw_edits(rng, 1, placed)
        worker.begin(text)
        if not worker.end(text):
            raise Fault(f"a {kind.__name__.lower()} cannot save any more")
        worker.close()
    tally.note_kept(others.kept)
    check_kept(setting.state, tally.kept)


def play_round(setting, kinds, edits, tally, rng):
    """A round: each of the programs has a share of the edits."""
    workers = [kind(setting, tally, rng.random()) for kind in kinds]
    shares = [draw_texts(rng, edits[k::len(kinds)]) for k in range(len(kinds))]
    watcher = Watcher(setting.state, tally)
    try:
        (at_once if setting.mode.is_at_once else in_turns)(workers, shares)
    finally:
        for worker in workers:
            worker.close()
        watcher.end()


def play_kind(setting, kinds, chosen, rng):
    """All rounds of a kind: what was kept, and what was lost, if something was."""
    tally, placed = Tally(), []
    modes = [mode for mode in MODES if mode.name in (chosen.modes or [mode.name])]
    for k in range(chosen.rounds):
        setting.mode = mode = modes[k % len(modes)]
        count = chosen.edits * (k + 1) // chosen.rounds - chosen.edits * k // chosen.rounds
        try:
            play_round(setting, kinds, draw_edits(rng, count, placed), tally, rng)
            check_after(setting, tally, rng, placed)
        except Fault as fault:
            return tally, f"round {k + 1}, {mode.name}: {fault}"
    return tally, None


def play(chosen, folder):
    """Plays each kind, with a line for each; how many of them lost something."""
    library = folder / "slow_files.so"
    subprocess.run([os.environ.get("CC", "cc"), "-O2", "-shared", "-fPIC", "-o", library, HERE / "slow_files.c"],
                   check=True)
    faulty = 0
    for number, name in enumerate(chosen.kinds or KINDS):
        tell(name)
        begun, place = time.monotonic(), folder / str(number)
        place.mkdir()
        setting = Setting(chosen.program, place, library)
        tally, fault = play_kind(setting, KINDS[name], chosen, random.Random(f"{chosen.seed} {name}"))
        faulty += fault is not None
        print(f"{'LOST' if fault else 'ok'}: {name}: {fault or f'{chosen.rounds} rounds'}; {len(tally.kept)} edits"
              f" kept, {tally.killed} texts met a kill, {tally.refused} were refused; {time.monotonic() - begun:.0f} s",
              flush=True)
    return faulty


def read_words():
    """The words of the command line."""
    parser = argparse.ArgumentParser(description="Let several programs save into one state file.")
    parser.add_argument("--rounds", type=int, default=50, metavar="N", help="rounds of each kind (50)")
    parser.add_argument("--edits", type=int, default=2000, metavar="N", help="edits of each kind, in all rounds (2000)")
    parser.add_argument("--seed", type=int, default=1, metavar="N", help="what is drawn begins with it (1)")
    parser.add_argument("--kind", dest="kinds", action="append", choices=KINDS, help="this kind alone; may be repeated")
    parser.add_argument("--mode", dest="modes", action="append", choices=[mode.name for mode in MODES],
                        help="this mode alone; may be repeated")
    parser.add_argument("program", type=pathlib.Path)
    return parser.parse_args()


def main():
    """Plays in a folder that is thrown away."""
    chosen = read_words()
    with tempfile.TemporaryDirectory(prefix="paint-races-") as folder:
        faulty = play(chosen, pathlib.Path(folder))
    if faulty:
        raise Fault(f"failed: {faulty} of {len(chosen.kinds or KINDS)} kinds lost something or stood still")
    print(f"ok: {len(chosen.kinds or KINDS)} kinds, and nothing that was kept is lost")


if __name__ == "__main__":
    sys.exit(running.run(main))
