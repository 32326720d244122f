#!/usr/bin/env python3
"""Let the calls on a state file fail, and see that no stroke is lost, and that the page says what is so.

    python3 tools/paint_failures.py crates/seedpaint/out/seedpaint

`fail_files.c` goes before the program and lets calls fail: those on the state file, on its lock, on the file that is to
take its place, and on their folder. The parts, of which `--part` plays one alone:

- *once*: two strokes are posted to `paint` while the call of number N fails, for all N and several errors. A post is
  answered with 503 and the fault, or not at all, unless its stroke stands in the file. What only reads is answered, and
  so is the same post once more;
- *lasting*: each call fails for a while. Edits are refused with 503 and the fault, and what only reads is answered;
- *view*: a `view --state` whose call of number N fails ends with V2, and leaves the file whole;
- *held*: somebody else holds the lock for a while;
- *others*: meanwhile the file gets strokes, or is gone, torn, or for another mask;
- *kept*: the mode of the file, its owner, a link to it, and a file that is read-only;
- *full*: a disk becomes full, a tmpfs that only root can mount.

The first check that fails ends the script with status 1. It needs Python 3, a C compiler and Linux.
"""

import argparse
import errno
import fcntl
import os
import pathlib
import re
import subprocess
import sys
import tempfile
import threading
import time
import uuid
from contextlib import contextmanager

import running
from running import Fault, tell
from serving import Serving, shown
from state_files import read_state_file

HERE = pathlib.Path(__file__).resolve().parent
SIZE = 400, 32
IMAGE, OTHER_IMAGE = (b"P5\n%d %d\n255\n" % SIZE + bytes([level]) * (SIZE[0] * SIZE[1]) for level in (200, 100))
TAG = "67e55044-10b1-426f-9247-bb680e5fe0c"
STROKES = [f"place {TAG}{k} 9 {k}:0-4\n" for k in range(3)]
ERRORS = [errno.EIO, errno.ENOSPC, errno.EACCES]
FAULT = b"seedpaint: V2"
READS = ["", "mask", "image", "state", "strokes", "changes?run=0&since=0"]
# Calls of a save: each of them has to be seen to fail.
CALLS = {"open", "read", "lock", "create", "write", "sync", "rename", "open the folder", "sync the folder"}
# Calls whose failure may harm nothing, so that the program may go on.
HARMLESS = {"close", "remove", "give the owner", "follow links"}
# A lock that may not be made or written is opened for reading, where it is there.
ONLY_READ = ("make the lock", errno.EACCES)
# Calls that come behind the rename, too: then what is not called kept may stand in the file.
BEHIND = {"open the folder", "sync the folder", "close"}
SECONDS = 15          # within which a program sees that a failure is over, or gives up at a lock
DISK, ROOM = 128, 48  # KiB of the small disk, and of what is taken away from it to make room
MOST_STROKES = 400    # that a small disk can have


def check(holds, name):
    """Ends where it does not hold."""
    if not holds:
        raise Fault(f"failed: {name}")


# ---- What is played with ----

class Setting:
    """The program, a mask, and a state file in a folder of its own."""

    def __init__(self, program, folder):
        self.program, self.library = program, folder / "fail_files.so"
        self.mask, self.failing = folder / "mask.pgm", folder / "failing"
        self.mask.write_bytes(IMAGE)
        subprocess.run([os.environ.get("CC", "cc"), "-O2", "-shared", "-fPIC", "-o", self.library,
                        HERE / "fail_files.c", "-ldl"], check=True)
        self.place = self.state = None
        self.move_to(folder / "strokes")
        self.files = self.files_of_strokes()

    def move_to(self, place):
        """From now on the state file stands in this folder, which is made."""
        place.mkdir()
        self.place, self.state = place, place / "strokes.spd"

    def files_of_strokes(self):
        """The state files of the first stroke, of two, of three."""
        files = []
        for stroke in STROKES:
            status, told, _ = self.view([stroke])
            check(status == 0, f"nothing fails, and a view ends with {status}: {told}")
            files.append(self.state.read_bytes())
        return files

    def begin(self):
        """The state file has the first stroke alone."""
        self.state.unlink(missing_ok=True)
        self.state.write_bytes(self.files[0])

    def environment(self, number, error):
        """That of a program whose call of this number fails, counted from 1."""
        return dict(os.environ, LD_PRELOAD=str(self.library), FOLDER=str(self.place), FAILING=str(self.failing),
                    FAIL=str(number), ERROR=str(error))

    def start(self, number=0, error=errno.EIO):
        """A `paint`."""
        words = [self.program, "paint", self.mask, "--state", self.state, "--port", "0"]
        return Serving(words, self.environment(number, error))

    @contextmanager
    def serving(self):
        """A `paint` that has told its address, and is ended at last."""
        program = self.start()
        try:
            check(program.address, "paint tells its address")
            yield program
        finally:
            program.stop()

    def view(self, texts, number=0, error=errno.EIO):
        """A `view --state` of these edits: its status, what it told, and the call that failed, or None."""
        ran = subprocess.run([self.program, "view", "--state", self.state], env=self.environment(number, error),
                             input="".join(texts).encode() + b"image\n" + IMAGE, capture_output=True, timeout=60,
                             check=False)
        return ran.returncode, *told_and_failed(ran.stderr.decode())

    def has(self, texts):
        """Whether the state file, which is whole, has these strokes."""
        return has_strokes(self.state.read_bytes(), texts)

    def check_nothing_beside(self, where):
        """Beside the state file nothing is left but its lock, and nothing stands in that."""
        left = {path.name: path.stat().st_size for path in self.place.iterdir() if path.name != self.state.name}
        check(left in ({}, {f"{self.state.name}.lock": 0}), f"{where}: beside the file is left {left}")


def told_and_failed(told):
    """What a program told on standard error, and the call that failed, or None."""
    failed = re.search(r"^failed: (.*)\n", told, re.M)
    return re.sub(r"^failed: .*\n", "", told, flags=re.M), failed and failed[1]


def has_strokes(data, texts):
    """Whether a state file, which is whole, has these strokes."""
    return {uuid.UUID(text.split()[1]) for text in texts} <= set(read_state_file("the state file", data)[0])


def is_well(answer):
    """Whether it was answered well: what was posted is kept."""
    return answer is not None and answer[0] == 200


def is_refused(answer, fault=FAULT):
    """Whether an answer says that nothing can be saved, and why."""
    return answer is not None and (answer[0], answer[1].strip()) == (503, fault)


def check_reads(program, texts, where):
    """What only reads is answered, and the copy has these strokes."""
    for path in READS:
        answer = program.ask("GET", path)
        check(is_well(answer), f"{where}: GET {path} is answered with {shown(answer)}")
    check(has_strokes(program.ask("GET", "state")[1], texts), f"{where}: the copy has all that was kept")


def post_in_time(setting, program, text, where):
    """A post is answered with 200 at last, and its stroke is in the file. Gives how often it was not."""
    end, refused = time.monotonic() + SECONDS, 0
    while not is_well(answer := program.post(text)):
        check(time.monotonic() < end, f"{where}: a post is answered with {shown(answer)} once the failure is over")
        time.sleep(0.05)
        refused += 1
    check(setting.has([STROKES[0], text]), f"{where}: what is answered then is in the file")
    return refused


def is_harmless(failed, error):
    """Whether a save may go on behind this call, which failed so, or behind none."""
    return failed is None or failed in HARMLESS or (failed, error) == ONLY_READ


# ---- Once ----

def play_once(setting, number, error, counts):
    """A session whose call of this number fails: the name of the call, or None where there was none."""
    setting.begin()
    where, kept = f"call {number}, {errno.errorcode[error]}", STROKES[:1]
    program = setting.start(number, error)
    if not program.address:
        told, failed = told_and_failed(program.stop())
        check((program.process.returncode, told) == (3, "seedpaint: V2\n"), f"{where}: it does not start: {told}")
        check(setting.state.read_bytes() == setting.files[0], f"{where}: the file stays")
        return failed
    for text in STROKES[1:]:
        answer = program.post(text)
        counts[answer and answer[0]] += 1
        check(answer is None or is_well(answer) or is_refused(answer), f"{where}: a post is met by {shown(answer)}")
        kept = kept + [text] if is_well(answer) else kept
        check(setting.has(kept), f"{where}: what was answered is in the file")
        check_reads(program, kept, where)
    refused = 3 - len(kept) + sum(post_in_time(setting, program, text, where) for text in STROKES[1:])
    _, failed = told_and_failed(program.stop())
    check(setting.state.read_bytes() == setting.files[2], f"{where}: the file at the end")
    check(is_harmless(failed, error) or refused, f"{where}: nobody was told that {failed} failed")
    check(failed is not None or not refused, f"{where}: nothing failed, and a post was refused")
    setting.check_nothing_beside(where)
    return failed


def once(setting):
    """Each call fails in turn."""
    counts = {200: 0, 503: 0, None: 0}
    for error in ERRORS:
        failed = []
        while (call := play_once(setting, len(failed) + 1, error, counts)) is not None:
            failed.append(call)
        check(CALLS <= set(failed), f"each kind of call fails: {', '.join(sorted(CALLS - set(failed)))} did not")
    return (f"{len(failed)} calls failed in turn with each of {len(ERRORS)} errors: {', '.join(failed)}. Of the posts "
            f"{counts[200]} were kept, {counts[503]} refused, {counts[None]} not answered")


# ---- Lasting ----

def play_lasting(setting, call):
    """A session in which this call fails for a while; whether edits were refused."""
    setting.begin()
    with setting.serving() as program:
        check(is_well(program.post(STROKES[1])), "a post is answered where nothing fails")
        setting.failing.write_text(call)
        first, *others = [program.post(STROKES[2]) for _ in range(3)]
        others.append(program.ask("POST", "state", setting.files[2]))
        check_reads(program, STROKES[:2], f"{call} fails")
        check(setting.has(STROKES[:2]), f"{call} fails: what was kept before stays")
        refuses = not is_well(first)
        if refuses:
            check(first is None or is_refused(first), f"{call} fails: a post is answered with {shown(first)}")
            check(all(map(is_refused, others)), f"{call} fails: further posts are met by {[*map(shown, others)]}")
            check(call in BEHIND or not setting.has(STROKES[2:]), f"{call} fails: what is refused is not in the file")
        setting.failing.unlink()
        for text in STROKES[1:]:
            post_in_time(setting, program, text, f"{call} failed")
        check(setting.state.read_bytes() == setting.files[2], f"{call} failed: the file at the end")
    setting.check_nothing_beside(f"{call} failed")
    return refuses


def lasting(setting):
    """Each kind of call fails for a while."""
    kinds = sorted(CALLS | HARMLESS | {"open to write", "look at it", "follow links", "give the mode", "open the lock"})
    passed = [call for call in kinds if not play_lasting(setting, call)]
    check(not CALLS & set(passed), f"nothing is called kept while {', '.join(sorted(CALLS & set(passed)))} fails")
    return f"{len(kinds) - len(passed)} calls failed for a while; no harm was done by: {', '.join(passed)}"


# ---- A view ----

def play_view(setting, number, error):
    """A view whose call of this number fails: the name of the call, or None where there was none."""
    setting.begin()
    where = f"a view, call {number}, {errno.errorcode[error]}"
    status, told, failed = setting.view(STROKES[1:], number, error)
    file = setting.state.read_bytes()
    if status == 0:
        check(is_harmless(failed, error), f"{where}: it says nothing of it that {failed} failed")
        check(file == setting.files[2], f"{where}: the file has all strokes")
    else:
        check((status, told) == (3, "seedpaint: V2\n"), f"{where}: it ends with {status}: {told}")
        check(file == setting.files[0] or failed in BEHIND and file == setting.files[2], f"{where}: the file is whole")
    setting.check_nothing_beside(where)
    return failed


def view(setting):
    """Each call of a view fails in turn."""
    for error in ERRORS:
        failed = []
        while (call := play_view(setting, len(failed) + 1, error)) is not None:
            failed.append(call)
        check(CALLS <= set(failed), f"each kind of call fails: {', '.join(sorted(CALLS - set(failed)))} did not")
    return f"{len(failed)} calls of a view failed in turn with each of {len(ERRORS)} errors"


# ---- The lock ----

@contextmanager
def locked(setting):
    """The lock of the state file is held."""
    with open(f"{setting.state}.lock", "a", encoding="ascii") as lock:
        fcntl.flock(lock, fcntl.LOCK_EX)
        yield lock


def held(setting):
    """Somebody else holds the lock for half a second, and then for as long as a program tries."""
    setting.begin()
    with setting.serving() as program:
        with locked(setting) as lock:
            timer = threading.Timer(0.5, lambda: fcntl.flock(lock, fcntl.LOCK_UN))
            timer.start()
            answer = program.post(STROKES[1])
            timer.join()
            check(is_well(answer), f"a lock is held for half a second, and the answer is {shown(answer)}")
        with locked(setting):
            begun = time.monotonic()
            answer = program.post(STROKES[2])
            check(answer is None or is_refused(answer), f"a post that finds the lock held is met by {shown(answer)}")
            check_reads(program, STROKES[:2], "the lock is held")
            seconds = time.monotonic() - begun
            check(seconds < SECONDS, f"a post and {len(READS) + 1} reads take {seconds:.0f} s while the lock is held")
            status, told, _ = setting.view(STROKES[2:])
            check((status, told) == (3, "seedpaint: V2\n"), f"a view ends with {status}: {told}")
            check(setting.state.read_bytes() == setting.files[1], "nothing is saved while somebody else holds the lock")
        post_in_time(setting, program, STROKES[2], "the lock is free")
    setting.check_nothing_beside("the lock was held")
    return f"a post and {len(READS) + 1} reads took {seconds:.1f} s while the lock was held"


# ---- Others change the file ----

def others(setting):
    """The file is changed meanwhile by those who know nothing of the lock."""
    other = setting.place.parent / "other.spd"
    subprocess.run([setting.program, "view", "--state", other], stdout=subprocess.DEVNULL, check=True,
                   input=STROKES[1].encode() + b"image\n" + OTHER_IMAGE)
    setting.begin()
    with setting.serving() as program:
        setting.state.write_bytes(setting.files[0] + setting.files[1])
        check(is_well(program.post(STROKES[2])), "a post over a file that got strokes is answered")
        check(setting.state.read_bytes() == setting.files[2], "and both are in the file")
        check(has_strokes(program.ask("GET", "state")[1], STROKES), "and in the page")
        setting.state.unlink()
        extra, late = (f"place {TAG}{k} 9 {k}:0-4\n" for k in (3, 4))
        check(is_well(program.post(extra)), "a post over a file that is gone is answered")
        check(setting.has([*STROKES, extra]), "and the file has all once more")
        whole = setting.state.read_bytes()
        for name, file, fault in (("another mask's file", other.read_bytes(), b"seedpaint: D1"),
                                  ("no state file", b"\0\7no file", b"seedpaint: M1")):
            setting.state.write_bytes(file)
            first, further = program.post(late), program.post(late)
            check(first is None or is_refused(first, fault), f"over {name} a post is met by {shown(first)}")
            check(is_refused(further, fault), f"over {name} a further post is met by {shown(further)}")
            check_reads(program, [*STROKES, extra], f"over {name}")
            check(setting.state.read_bytes() == file, f"{name} stays as it is")
            setting.state.write_bytes(whole)
            post_in_time(setting, program, late, f"{name} is gone")
    setting.check_nothing_beside("others changed the file")
    return "what others put in the place of the file is joined, or refused and left as it is"


# ---- What is kept of a file ----

def look(path):
    """Mode, owner and group of a file."""
    status = path.lstat()
    return status.st_mode, status.st_uid, status.st_gid


def check_saves(setting, where):
    """A page and a view save, and mode and owner stay."""
    before = look(setting.state)
    with setting.serving() as program:
        check(is_well(program.post(STROKES[1])), f"{where}: a post is answered")
    check(look(setting.state) == before, f"{where}: it stays so when a page saves")
    check(setting.view(STROKES[2:])[0] == 0, f"{where}: a view ends well")
    check(look(setting.state) == before, f"{where}: it stays so when a view saves")
    check(setting.state.read_bytes() == setting.files[2], f"{where}: both are in the file")
    setting.check_nothing_beside(where)


def kept(setting):
    """What stays of a file that is replaced."""
    for mode in (0o600, 0o664):
        setting.begin()
        setting.state.chmod(mode)
        check_saves(setting, f"mode {mode:o}")
    if os.getuid() == 0:
        setting.begin()
        os.chown(setting.state, 4321, 1234)
        check_saves(setting, "another owner")
    target = setting.place.parent / "target.spd"
    setting.begin()
    setting.state.rename(target)
    for name in (target, pathlib.Path("..") / target.name):
        target.write_bytes(setting.files[0])
        setting.state.unlink(missing_ok=True)
        setting.state.symlink_to(name)
        check_saves(setting, f"a link to {name}")
    setting.begin()
    setting.state.chmod(0o444)
    with setting.serving() as program:
        first, further = program.post(STROKES[1]), program.post(STROKES[1])
        check(first is None or is_refused(first), f"over a read-only file a post is met by {shown(first)}")
        check(is_refused(further), f"over a read-only file a further post is met by {shown(further)}")
        check_reads(program, STROKES[:1], "over a file that is read-only")
        check(setting.view(STROKES[1:])[:2] == (3, "seedpaint: V2\n"), "over a file that is read-only a view is V2")
        check(setting.state.read_bytes() == setting.files[0], "a file that is read-only stays")
        setting.state.chmod(0o644)
        post_in_time(setting, program, STROKES[1], "the file may be written")
    return "mode, owner and link stay, and so does a file that is read-only"


# ---- A full disk ----

def large_stroke(number):
    """A stroke of 160 runs."""
    runs = ",".join(f"{number % SIZE[1]}:{2 * k}-{2 * k}" for k in range(160))
    return f"place {uuid.UUID(int=number + (1 << 100), version=4)} 9 {runs}\n"


def fill(setting, program):
    """Posts strokes until one is not taken: those that were, and that one."""
    taken = []
    for number in range(MOST_STROKES):
        text = large_stroke(number)
        answer = program.post(text)
        if not is_well(answer):
            check(answer is None or is_refused(answer), f"a full disk: a post is answered with {shown(answer)}")
            return taken, text
        taken.append(text)
    raise Fault(f"failed: a disk of {DISK} KiB is not full")


def play_full(setting):
    """A session on a disk that becomes full."""
    filler = setting.place / "filler"
    filler.write_bytes(bytes(1024 * ROOM))
    with setting.serving() as program:
        taken, late = fill(setting, program)
        further = [program.post(late), program.post(STROKES[0])]
        check(all(map(is_refused, further)), f"a full disk: further posts are answered with {[*map(shown, further)]}")
        check(setting.has(taken), "a full disk: all that was answered is in the file")
        check_reads(program, taken, "a full disk")
        file = setting.state.read_bytes()
        check(setting.view([large_stroke(MOST_STROKES + k) for k in range(40)])[:2] == (3, "seedpaint: V2\n"),
              "a full disk: a view is V2")
        check(setting.state.read_bytes() == file, "a full disk: the file stays as it is")
        filler.unlink()
        for text in (STROKES[0], late):
            post_in_time(setting, program, text, "there is room")
        check(setting.has([*taken, late]), "there is room: all that was answered is in the file")
    setting.check_nothing_beside("a full disk")
    return f"a disk of {DISK} KiB took {len(taken)} strokes, lost none, and went on when there was room"


def full(setting):
    """The same, on a disk that is mounted and taken away again."""
    if os.getuid() != 0:
        return "skipped, since only root can mount a small disk"
    before = setting.place
    setting.move_to(before.parent / "disk")
    mounted = subprocess.run(["mount", "-t", "tmpfs", "-o", f"size={DISK}k", "none", setting.place],
                             capture_output=True, check=False)
    if mounted.returncode != 0:
        return "skipped, since no small disk can be mounted here"
    try:
        return play_full(setting)
    finally:
        subprocess.run(["umount", setting.place], check=True)
        setting.place, setting.state = before, before / "strokes.spd"


PARTS = {"once": once, "lasting": lasting, "view": view, "held": held, "others": others, "kept": kept, "full": full}


def main():
    """Plays the parts in a folder that is thrown away."""
    parser = argparse.ArgumentParser(description="Let the calls on a state file fail.")
    parser.add_argument("--part", dest="parts", action="append", choices=PARTS, help="this one alone; may be repeated")
    parser.add_argument("program", type=pathlib.Path)
    chosen = parser.parse_args()
    with tempfile.TemporaryDirectory(prefix="paint-failures-") as folder:
        setting = Setting(chosen.program.resolve(), pathlib.Path(folder))
        for name in chosen.parts or PARTS:
            tell(name)
            print(f"ok: {name}: {PARTS[name](setting)}", flush=True)


if __name__ == "__main__":
    sys.exit(running.run(main))
