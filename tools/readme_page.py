#!/usr/bin/env python3
"""Run the commands of README's section "A page to paint on", and see that a page opens, and that its key stays secret.

    python3 tools/readme_page.py crates/seedpaint/out/seedpaint

The commands are taken from README.md word for word, but for `/tmp`, which becomes a folder that is thrown away, as does
`~`. A stub takes the place of `xdg-open`. They are run twice in a row, and a third time while the second page is still
open. Each time the file that is opened has to forward to a page that answers; nobody else may read a file that has the
page's key, and no process may have it among its words. With a mask that is no PGM file, and without one, the commands
have to end with the line of the fault and open nothing. All of it is done in sh and in bash. Then a file that no start
wrote has the name of the one that forwards: it has to stay, and the program to end with the line of the fault. The
first check that fails ends the script with status 1. It needs Linux, and the packages that README names.
"""

import argparse
import gzip
import os
import pathlib
import re
import shutil
import signal
import subprocess
import sys
import tempfile
import time
import urllib.request

import running
from running import Fault, tell

ROOT = pathlib.Path(__file__).resolve().parent.parent
SECTION = "## A page to paint on\n"
SECONDS = 60  # that the commands may take to open a page, or to end
STUB = """#!/bin/sh
printf '%s' "$*" > "$OPENED.new" && mv "$OPENED.new" "$OPENED"
"""


def check(holds, name):
    """Ends where it does not hold."""
    if not holds:
        raise Fault(f"failed: {name}")


def read_commands(folder):
    """The commands of the section, with the folder for `/tmp`: the one that makes the mask, and the others."""
    text = (ROOT / "README.md").read_text()
    check(text.count(SECTION) == 1, "README.md has the section once")
    block = re.search(r"(?:^    .*\n)+", text[text.index(SECTION):], re.M)
    check(block, "the section has commands")
    lines = [line.strip().replace("/tmp/", f"{folder}/") for line in block[0].splitlines()]
    check(len(lines) > 1 and "paint" not in lines[0].split(), "the first command makes the mask")
    return lines[0], "\n".join(lines[1:])


def wait_until(holds, name):
    """Waits until something holds, for some time."""
    end = time.monotonic() + SECONDS
    while not holds():
        check(time.monotonic() < end, name)
        time.sleep(0.05)


class Session:
    """The commands, as they run in a shell with a home of their own."""

    def __init__(self, shell, folder, commands):
        self.folder, self.opened = folder, folder / "opened"
        self.opened.unlink(missing_ok=True)
        self.told = tempfile.TemporaryFile()
        environment = dict(os.environ, PATH=f"{folder / 'bin'}:{os.environ['PATH']}", HOME=str(folder / "home"),
                           OPENED=str(self.opened))
        self.process = subprocess.Popen([shell, "-c", commands], cwd=ROOT, env=environment, start_new_session=True,
                                        stdin=subprocess.DEVNULL, stdout=self.told, stderr=self.told, umask=0)

    def runs(self):
        """Whether a process of it is still there."""
        self.process.poll()
        try:
            os.killpg(self.process.pid, 0)
        except ProcessLookupError:
            return False
        return True

    def said(self):
        """What it wrote."""
        self.told.seek(0)
        return self.told.read().decode()

    def page(self):
        """The file that was opened, and the address to which it forwards."""
        wait_until(lambda: self.opened.exists() or not self.runs(), "a page is opened, or the commands end")
        check(self.opened.exists(), f"the commands end without a page: {self.said()}")
        name = pathlib.Path(self.opened.read_text().removeprefix("file://"))
        check(name.is_file(), f"what is opened is a file: {name}")
        addresses = set(re.findall(r"http://127\.0\.0\.1:\d+/[0-9a-f]{32}/", name.read_text()))
        check(len(addresses) == 1, f"the file that is opened has one address, and not {len(addresses)}")
        return name, addresses.pop()

    def end(self):
        """Ends it as Ctrl+C does, or harder where that does not end it."""
        for sign in (signal.SIGINT, signal.SIGTERM, signal.SIGKILL):
            end = time.monotonic() + 5
            while self.runs() and time.monotonic() < end:
                os.killpg(self.process.pid, sign)
                time.sleep(0.1)
        self.process.wait(SECONDS)


def is_answered(address):
    """Whether a page answers at an address."""
    try:
        with urllib.request.urlopen(address, timeout=SECONDS) as answer:
            return answer.status == 200 and b"<canvas" in gzip.decompress(answer.read())
    except OSError:
        return False


def check_secret(folder, address):
    """Nobody else may read a file that has the key of an address, and no process has it among its words."""
    key = address.split("/")[3].encode()
    for path in folder.rglob("*"):
        if path.is_file() and not path.is_symlink() and path.stat().st_mode & 0o077:
            check(key not in path.read_bytes(), f"others may read {path.name}, which has the key")
    for words in pathlib.Path("/proc").glob("[0-9]*/cmdline"):
        try:
            text = words.read_bytes()
        except OSError:
            continue  # (it has ended)
        check(key not in text, f"a process has the key among its words: {text[:100]}")


def open_page(shell, folder, commands):
    """Runs the commands until a page is open: the session, and the address."""
    session = Session(shell, folder, commands)
    try:
        name, address = session.page()
        check(name.stat().st_mode & 0o077 == 0, f"{name.name} has the mode {name.stat().st_mode & 0o777:o}")
        check(is_answered(address), "the page that was opened answers")
        check_secret(folder, address)
    except BaseException:
        session.end()
        raise
    return session, address


def pages_open(shell, folder, commands):
    """Twice in a row, and a third time beside the second."""
    session, first = open_page(shell, folder, commands)
    session.end()
    check(not is_answered(first), "the page ends with the commands")
    session, second = open_page(shell, folder, commands)
    try:
        check(second != first, "the second page has a key of its own")
        other, third = open_page(shell, folder, commands)
        try:
            check(third != second and is_answered(second), "two pages are open side by side")
        finally:
            other.end()
    finally:
        session.end()


def faults_end(shell, folder, commands):
    """With a mask that is none the commands end, say why and open nothing."""
    for name, data, fault in (("no PGM file", (ROOT / "examples" / "cells.png").read_bytes(), "seedpaint: P1\n"),
                              ("no file", None, "seedpaint: P11\n")):
        mask = folder / "cells.pgm"
        mask.unlink(missing_ok=True)
        if data:
            mask.write_bytes(data)
        session = Session(shell, folder, commands)
        try:
            wait_until(lambda s=session: not s.runs(), f"with {name} as the mask the commands end")
        finally:
            session.end()
        check(fault in session.said(), f"with {name} as the mask they say: {session.said()}")
        check(not session.opened.exists(), f"with {name} as the mask nothing is opened")


def play(program, shell):
    """All of it in a shell, in a folder that is thrown away."""
    with tempfile.TemporaryDirectory(prefix="readme-page-") as name:
        folder = pathlib.Path(name)
        for made in ("bin", "home"):
            (folder / made).mkdir()
        (folder / "bin" / "seedpaint").symlink_to(program)
        stub = folder / "bin" / "xdg-open"
        stub.write_text(STUB)
        stub.chmod(0o755)
        mask, commands = read_commands(folder)
        tell(f"{shell}: pages")
        pages_open(shell, folder, f"{mask}\n{commands}")
        tell(f"{shell}: faults")
        faults_end(shell, folder, commands)
    print(f"ok: {shell}: pages open, their keys stay secret, and with a mask that is none the commands end", flush=True)


def others_stay(program):
    """What no start wrote stays where a file that forwards is to be, and the program ends and says why."""
    with tempfile.TemporaryDirectory(prefix="readme-page-") as name:
        folder = pathlib.Path(name)
        mask = folder / "cells.pgm"
        mask.write_bytes(b"P5\n8 8\n255\n" + bytes(64))
        page, link = folder / "mine.html", folder / "link.html"
        page.write_bytes(b"<!DOCTYPE html>\n<meta charset='utf-8'>\n<title>Mine</title>\n")
        link.symlink_to(page)
        before = {file: file.read_bytes() for file in (mask, page, link)}
        for file, data in before.items():
            ended = subprocess.run([program, "paint", "--forward", file, mask], stdin=subprocess.DEVNULL,
                                   stdout=subprocess.PIPE, stderr=subprocess.PIPE, check=False, timeout=SECONDS)
            told = (ended.returncode, ended.stdout, ended.stderr)
            check(told == (3, b"", b"seedpaint: P11\n"), f"where {file.name} has the name, the program tells {told}")
            check(file.read_bytes() == data, f"{file.name} is as it was")
        check(link.is_symlink(), "the link is as it was")
    print("ok: what no start wrote stays where a file that forwards is to be", flush=True)


def main():
    """Plays it in each shell that is there."""
    parser = argparse.ArgumentParser(description="Run the commands of README's page.")
    parser.add_argument("program", type=pathlib.Path)
    chosen = parser.parse_args()
    if subprocess.run(["/usr/bin/python3", "-c", "import numpy, PIL, tifffile"], stderr=subprocess.DEVNULL,
                      check=False).returncode != 0:
        raise Fault("a package is missing: python3-numpy, python3-pil or python3-tifffile")
    if not chosen.program.is_file():
        raise Fault(f"{chosen.program}: no such file")
    for shell in ("sh", "bash"):
        if shutil.which(shell):
            play(chosen.program.resolve(), shell)
    others_stay(chosen.program.resolve())


if __name__ == "__main__":
    sys.exit(running.run(main))
