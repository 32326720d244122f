#!/usr/bin/env python3
"""Let nodes share strokes through a relay that loses, doubles, delays and reorders datagrams, until they agree.

    python3 bench/soak.py crates/seedpaint/out/seedpaint

Each node is a process `seedpaint node` with a part of the edits; some withdraw strokes of others. Between any two of
them stands the relay, a process of this script, on loopback alone. The nodes make so many ticks, and twice as many
where they did not agree: all outputs have to be the bytes that `view` writes of all edits, and all state files the one
that `view --state` writes. Else the script ends with status 1. A table in Markdown tells how it went. README.md says
what its columns mean.
"""

import argparse
import filecmp
import heapq
import multiprocessing
import os
import pathlib
import random
import select
import socket
import subprocess
import tempfile
import time

from run import KEPT, Input, machine, say, stop, table

LONGEST = 2048  # bytes of a datagram that the relay takes; a frame has at most 1400
LATE = 0.05  # seconds that a delayed datagram is held back at most


# ---- The relay ----

class Relay:
    """One socket for each node. What a node sends goes to all others, a part of it with a misfortune."""

    def __init__(self, nodes, first, trouble, seed):
        self.ports = [first + node for node in range(nodes)]
        self.sockets = [bound(first + nodes + node) for node in range(nodes)]
        self.trouble, self.chance = trouble, random.Random(seed)
        self.held = []  # (when, number, node, datagram), a heap
        self.behind = {}  # by node, a datagram that goes after the next one
        self.counts = dict.fromkeys(["taken", "forwarded", "lost", "doubled", "delayed", "reordered"], 0)

    def run(self, until):
        """Carry datagrams until the event is set; give the counts."""
        poll = select.poll()
        by_number = {each.fileno(): node for node, each in enumerate(self.sockets)}
        for number in by_number:
            poll.register(number, select.POLLIN)
        while not until.is_set():
            for number, _ in poll.poll(1):
                self.take_all(by_number[number])
            while self.held and self.held[0][0] <= time.monotonic():
                _, _, node, datagram = heapq.heappop(self.held)
                self.send(node, datagram)
        return self.counts

    def take_all(self, node):
        """Take what waits of one node."""
        for _ in range(64):
            try:
                datagram = self.sockets[node].recv(LONGEST)
            except BlockingIOError:
                return
            self.counts["taken"] += 1
            for other in range(len(self.ports)):
                if other != node:
                    self.carry(other, datagram)

    def carry(self, node, datagram):
        """Bring a datagram to a node, or do something to it."""
        if self.chance.random() >= self.trouble:
            self.send(node, datagram)
            if node in self.behind:
                self.send(node, self.behind.pop(node))
            return
        what = self.chance.choice(["lost", "doubled", "delayed", "reordered"])
        self.counts[what] += 1
        if what == "doubled":
            self.send(node, datagram)
            self.send(node, datagram)
        elif what == "delayed":
            when = time.monotonic() + self.chance.uniform(0, LATE)
            heapq.heappush(self.held, (when, self.counts["delayed"], node, datagram))
        elif what == "reordered":
            if node in self.behind:
                self.send(node, self.behind.pop(node))
            self.behind[node] = datagram

    def send(self, node, datagram):
        """Send a datagram to a node."""
        self.counts["forwarded"] += 1
        try:
            self.sockets[node].sendto(datagram, ("127.0.0.1", self.ports[node]))
        except OSError:
            pass  # (a node that has ended, or no room: lost)


def bound(port):
    """A socket on loopback that does not block."""
    made = socket.socket(socket.AF_INET, socket.SOCK_DGRAM)
    made.bind(("127.0.0.1", port))
    made.setblocking(False)
    return made


def relay(words, until, is_ready, told):
    """Run a relay in a process of its own."""
    made = Relay(*words)
    is_ready.set()
    told.put(made.run(until))


# ---- The nodes ----

class Nodes:
    """Inputs, outputs and state files of the nodes, in a folder."""

    def __init__(self, words, folder):
        self.words, self.folder = words, folder
        withdrawn = words.edits // 10
        self.whole = Input("discs", words.size, discs=words.edits - withdrawn, withdrawn=withdrawn)
        lines, image = [], b""
        with open(self.whole.path, "rb") as source:
            while (line := source.readline()) != b"image\n":
                lines.append(line)
            image = source.read()
        for node in range(words.nodes):
            self.path(node, "in").write_bytes(b"".join(lines[node::words.nodes]) + b"image\n" + image)

    def path(self, node, kind):
        """A file of a node."""
        return self.folder / f"{node}.{kind}"

    def expected(self):
        """What `view` writes of all edits: its image, and its state file."""
        image, kept = self.path("all", "pgm"), self.path("all", "spd")
        with open(self.whole.path, "rb") as reader, open(image, "wb") as writer:
            command = [self.words.program, "view", "--state", kept]
            ended = subprocess.run(command, stdin=reader, stdout=writer, check=False)
        if ended.returncode != 0:
            stop(f"view ended with status {ended.returncode}")
        return image, kept

    def start(self, node, ticks):
        """Start a node; it begins without a state file."""
        self.path(node, "spd").unlink(missing_ok=True)
        ports = ["--port", self.words.port + node, self.words.port + self.words.nodes + node]
        command = [self.words.program, "node", "--ticks", ticks, "--hands", self.words.hands,
                   "--state", self.path(node, "spd"), *ports]
        with open(self.path(node, "in"), "rb") as reader, open(self.path(node, "pgm"), "wb") as writer:
            return subprocess.Popen([str(word) for word in command], stdin=reader, stdout=writer)

    def run(self, ticks):
        """Let all nodes make so many ticks: seconds, the most bytes of one, and what the relay counted."""
        until, is_ready, told = multiprocessing.Event(), multiprocessing.Event(), multiprocessing.Queue()
        given = (self.words.nodes, self.words.port, self.words.trouble, self.words.seed)
        carrier = multiprocessing.Process(target=relay, args=(given, until, is_ready, told))
        carrier.start()
        is_ready.wait()
        begun = time.perf_counter()
        children = [self.start(node, ticks) for node in range(self.words.nodes)]
        ends = [os.wait4(child.pid, 0) for child in children]
        seconds = time.perf_counter() - begun
        until.set()
        counts = told.get()
        carrier.join()
        for child, (_, status, _) in zip(children, ends):
            child.returncode = os.waitstatus_to_exitcode(status)
            if child.returncode != 0:
                stop(f"a node ended with status {child.returncode}")
        return seconds, max(usage.ru_maxrss for _, _, usage in ends) * 1024, counts

    def differing(self, image, kept):
        """How many nodes wrote something else."""
        same = [filecmp.cmp(self.path(node, "pgm"), image, shallow=False)
                and filecmp.cmp(self.path(node, "spd"), kept, shallow=False) for node in range(self.words.nodes)]
        return same.count(False)


# ---- The script ----

def read_words():
    """The words of the command line."""
    parser = argparse.ArgumentParser(description="Let nodes share strokes over a bad network until they agree.")
    parser.add_argument("program", type=pathlib.Path, help="the program, as rt run leaves it")
    parser.add_argument("--nodes", type=int, default=16, help="2 to 16 (16)")
    parser.add_argument("--edits", type=int, default=1000, help="edits in all, a tenth of them withdrawals (1000)")
    parser.add_argument("--size", type=int, default=1024, help="width and height of the image (1024)")
    parser.add_argument("--ticks", type=int, default=250,
                        help="ticks of the first try; the next has twice as many (250)")
    parser.add_argument("--most", type=int, default=64_000, help="ticks at which the script gives up (64000)")
    parser.add_argument("--hands", type=int, default=1, help="hands of each node (1)")
    parser.add_argument("--trouble", type=float, default=1 / 3,
                        help="the part of all datagrams that meets it (a third)")
    parser.add_argument("--port", type=int, default=42_000, help="the first of two ports a node (42000)")
    parser.add_argument("--seed", type=int, default=1, help="of the relay's chances (1)")
    words = parser.parse_args()
    if not words.program.is_file():
        parser.error(f"{words.program} is not there; `rt run` in crates/seedpaint makes the program")
    words.program = words.program.resolve()
    if not 2 <= words.nodes <= 16:
        parser.error("2 to 16 nodes")
    return words


def main():
    """Double the ticks until all nodes agree, and print a row for each try."""
    words = read_words()
    KEPT.mkdir(exist_ok=True)
    print(f"{machine()}\n")
    print(f"{words.nodes} nodes of {words.hands} hands, {words.edits} edits, {words.size} by {words.size} pixels\n")
    rows, ticks, differ = [], words.ticks, words.nodes
    with tempfile.TemporaryDirectory() as folder:
        nodes = Nodes(words, pathlib.Path(folder))
        expected = nodes.expected()
        while differ and ticks <= words.most:
            say(f"{ticks} ticks")
            seconds, peak, counts = nodes.run(ticks)
            differ = nodes.differing(*expected)
            rows.append([str(ticks), f"{seconds:.1f}", str(differ), f"{peak / 2**20:.0f}"]
                        + [str(counts[what]) for what in counts])
            ticks *= 2
    table(["ticks", "seconds", "nodes that differ", "MB of a node", "datagrams of nodes", "to nodes", "lost", "doubled",
           "delayed", "reordered"], rows)
    if differ:
        stop("the nodes do not agree")


if __name__ == "__main__":
    main()
