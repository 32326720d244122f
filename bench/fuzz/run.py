#!/usr/bin/env python3
"""Compare the program with a plain reference on random and mutated inputs.

    python3 bench/fuzz/run.py crates/seedpaint/out/seedpaint --seed 1 --seconds 60

Each case has a kind and a number, and its chances follow from the seed and these: the same seed makes the same cases.
Compared are status, line of standard error, bytes of standard output and bytes of the state file. Each difference is
printed, and kept as files; if there was one, the script ends with status 1. README.md tells of the kinds.
"""

import argparse
import os
import pathlib
import random
import sys
import tempfile
import time

import cases
import inputs
import nodes
import simulator
import words as command_line
from cases import Call, Case, FILE
from readers import Refused


# ---- The words of a call ----

def option(chance, name, value):
    """An option in one of its two spellings."""
    return [f"--{name}={value}"] if chance.random() < 0.3 else [f"--{name}", str(value)]


def options_of(chance, conn, has_file):
    """The options of `view`, of which `node` has the same: connectivity, side of the tiles, state file."""
    made = [option(chance, "conn", conn)] if conn == 8 or chance.random() < 0.3 else []
    if chance.random() < 0.5:
        made.append(option(chance, "tile", chance.choice([8, 9, 15, 16, 63, 64, 65, 255, 256])))
    if has_file:
        made.append(option(chance, "state", FILE))
    chance.shuffle(made)
    return [word for words in made for word in words]


def view_case(chance, stdin, conn, has_file=False, old=None, trouble=""):
    """A case of `view`."""
    words = options_of(chance, conn, has_file)
    front = ["view"] if words or chance.random() < 0.5 else []
    end = ["--"] if front and chance.random() < 0.05 else []
    return Case([*front, *words, *end], Call(conn), stdin, has_file, old, trouble)


def derive_case(chance, stdin, conn, top):
    """A case of `derive`."""
    kind, height = chance.choice(command_line.KINDS), 1
    words = [[kind]]
    if kind == "hmax" and chance.random() < 0.8:
        height = chance.choice([0, 1, 2, top, max(0, top - 1), chance.randint(0, top), 65535])
        words.append(option(chance, "h", height))
    if conn == 8 or chance.random() < 0.3:
        words.append(option(chance, "conn", conn))
    chance.shuffle(words)
    return Case(["derive", *(word for each in words for word in each)], Call(conn, kind, height), stdin)


# ---- The kinds of cases ----

def small_file(chance):
    """An image of a few pixels, and its file."""
    picture = inputs.image(chance)
    return picture, inputs.spelled_image(chance, picture)


def pgm(chance):
    """A mutated PGM file, for `view` without edits or for `derive`."""
    picture, file = small_file(chance)
    file = inputs.mutated(chance, file) if chance.random() < 0.9 else file
    conn = chance.choice([4, 8])
    if chance.random() < 0.5:
        return view_case(chance, chance.choice([b"image\n", b"image\r\n"]) + file, conn)
    return derive_case(chance, file, conn, picture.maxval)


def edits(chance):
    """Edit lines with slips and mutations."""
    picture, file = small_file(chance)
    lines = inputs.edits(chance, picture, chance.randrange(5))
    for _ in range(chance.randrange(3)):
        lines.insert(chance.randint(0, len(lines)), inputs.slipped_line(chance, picture))
    text = inputs.edit_text(chance, lines)
    if chance.random() < 0.5:
        text = inputs.mutated(chance, text, len(text))
    image_lines = [b"image\r\n", b"image", b" image\n", b"image\r\r\n", b"Image\n", b""]
    image_line = b"image\n" if chance.random() < 0.8 else chance.choice(image_lines)
    return view_case(chance, text + image_line + file, chance.choice([4, 8]))


def frames(chance):
    """A state file of one frame with a slip or a mutation."""
    picture, file = small_file(chance)
    conn, fingerprint = chance.choice([4, 8]), simulator.fingerprint_of(picture)
    if chance.random() < 0.5:
        frame = inputs.slipped_frame(chance, conn, fingerprint, picture)
    else:
        frame = inputs.frame_of(chance, conn, fingerprint, inputs.state(chance, picture, chance.randrange(4), 0.1))
        frame = inputs.mutated(chance, frame, 41)
    old = simulator.with_length(frame[:65535])
    return view_case(chance, b"image\n" + file, conn, True, old)


def states(chance):
    """A state file of several frames, mutated, or one for another mask or connectivity, or that is not there."""
    picture, file = small_file(chance)
    conn, fingerprint = chance.choice([4, 8]), simulator.fingerprint_of(picture)
    made = inputs.state(chance, picture, chance.choice([0, 3, 10, 40]), 0.005)
    old = inputs.state_bytes(chance, conn, fingerprint, made)
    kind = chance.random()
    if kind < 0.5:
        old = inputs.mutated(chance, old, 60)
    elif kind < 0.6:
        old += inputs.state_bytes(chance, *chance.choice([(12 - conn, fingerprint), (conn, bytes(32))]), made)
    elif kind < 0.65:
        old = None
    text = inputs.edit_text(chance, inputs.edits(chance, picture, chance.randrange(4)))
    if chance.random() < 0.05:
        text += b"zz\n"
    trouble = chance.choice(["folder", "new"]) if chance.random() < 0.04 else ""
    return view_case(chance, text + b"image\n" + file, conn, True, old, trouble)


def script(chance):
    """Many edits on an image."""
    picture, file = small_file(chance)
    count = chance.choice([3, 10, 30, 100])
    text = inputs.edit_text(chance, inputs.edits(chance, picture, count, chance.choice([0, 0, 0.01])))
    has_file = chance.random() < 0.3
    return view_case(chance, text + b"image\n" + file, chance.choice([4, 8]), has_file)


def derive(chance):
    """A view of a good image."""
    picture, file = small_file(chance)
    return derive_case(chance, file, chance.choice([4, 8]), picture.maxval)


CASES = {"pgm": (pgm, 20), "edits": (edits, 20), "frames": (frames, 20), "states": (states, 20), "script": (script, 20),
         "derive": (derive, 10)}


def said_case(said, file):
    """The case of any words: an input of `view`, or of `derive` where they begin so."""
    stdin = file if said[:1] == ["derive"] else b"withdraw 00000000-0000-0000-0000-000000000001\nimage\n" + file
    return Case(said, Call(), stdin)


def said_answer(case):
    """The answer to any words, or nothing where they name another file than ours. An empty name can't be written."""
    try:
        said = command_line.read_words([os.fsencode(word) for word in case.words])
    except Refused as why:
        return simulator.refused(why, None, 2)
    options, file = said.options, said.options.get("state", FILE)
    if file not in (FILE, ""):
        return None
    call = Call(int(options.get("conn", 4)))
    if said.name == "derive":
        call = call._replace(kind=said.others[0], height=int(options.get("h", 1)))
    answer = cases.expected(case._replace(call=call, has_file=bool(file) and "state" in options))
    return answer if file or answer.status else answer._replace(status=3, line=b"seedpaint: V2\n")


class Runs:
    """The runs of one call of this script."""

    def __init__(self, words, folder):
        self.words, self.folder = words, folder
        self.program = str(words.program.resolve())
        self.findings = cases.Findings(words.keep, self.program)

    def one(self, kind, seed):
        """One case of a kind."""
        chance = random.Random(f"{self.words.seed} {kind} {seed}")
        self.label = f"{self.words.seed}-{seed}"
        if kind in CASES:
            self.play(kind, CASES[kind][0](chance))
        else:
            {"sessions": self.sessions, "node": self.node, "nodes": self.nodes, "words": self.say}[kind](chance)

    def play(self, kind, case):
        """Play a case and judge it. What it answered."""
        got = cases.play(self.program, self.folder / "run", case)
        self.findings.judge(kind, case, got, cases.expected(case), self.label)
        return got

    def sessions(self, chance):
        """Several sessions of two people, each with a file, who join the other's file now and then."""
        picture, file = small_file(chance)
        conn, files = chance.choice([4, 8]), [None, None]
        for _ in range(chance.randint(2, 6)):
            own = chance.randrange(2)
            old = files[own]
            if chance.random() < 0.4 and all(files):
                old = files[own] + files[1 - own]
            lines = inputs.edits(chance, picture, chance.randrange(6), 0.01)
            case = view_case(chance, inputs.edit_text(chance, lines) + b"image\n" + file,
                             conn if chance.random() < 0.95 else 12 - conn, True, old)
            got = self.play("sessions", case)
            files[own] = got.kept if got.status == 0 else files[own]

    def say(self, chance):
        """Words of a call, good ones or not. A node makes a few ticks, and may find its port taken."""
        said = command_line.random_words(chance)
        picture, file = small_file(chance)
        case = said_case(said, file)
        wanted = said_answer(case)
        if wanted is not None:
            got = cases.play(self.program, self.folder / "run", case)
            if cases.code_of(got) != "D3":
                self.findings.judge("words", case, got, wanted, self.label)

    def node_case(self, chance, stdin, conn, ticks, port, peers, old=None, has_file=True, trouble=""):
        """A case of `node`."""
        parts = [option(chance, "port", port), option(chance, "ticks", ticks), *([str(peer)] for peer in peers)]
        if chance.random() < 0.5:
            parts.append(option(chance, "hands", chance.choice([1, 2, 3, 16])))
        parts.append(options_of(chance, conn, has_file))
        chance.shuffle(parts)
        words = ["node", *(word for part in parts for word in part)]
        return Case(words, Call(conn), stdin, has_file, old, trouble)

    def node(self, chance):
        """A node that is fed datagrams; sometimes its input has a fault, or its port is taken."""
        picture, file = small_file(chance)
        conn, fingerprint = chance.choice([4, 8]), simulator.fingerprint_of(picture)
        first = inputs.edit_line(chance, 1, inputs.stroke(chance, picture.width, picture.height, picture.maxval))
        lines = [first, *inputs.edits(chance, picture, chance.randrange(5), 0.02)]
        stdin = inputs.edit_text(chance, lines) + b"image\n" + file
        if chance.random() < 0.1:
            stdin = inputs.mutated(chance, stdin)
        old, has_file = None, chance.random() < 0.8
        if has_file and chance.random() < 0.5:
            old = inputs.state_bytes(chance, conn, fingerprint, inputs.state(chance, picture, chance.randrange(20)))
            old = inputs.mutated(chance, old, 60) if chance.random() < 0.1 else old
        trouble = chance.choice(["folder", "new"]) if has_file and chance.random() < 0.05 else ""
        made = []
        datagrams = [nodes.datagram(chance, conn, fingerprint, picture, made) for _ in range(chance.choice([1, 5, 30]))]
        self.feed(chance, (stdin, conn, old, has_file, trouble), datagrams)

    def feed(self, chance, parts, datagrams):
        """Run a node and feed it; one time in thirty its port is taken."""
        stdin, conn, old, has_file, trouble = parts
        ticks = len(datagrams) + nodes.SPARE + chance.choice([20, 60])
        with nodes.bound() as peer, nodes.bound() as taken:
            port = taken.getsockname()[1]
            is_taken = chance.random() < 1 / 30
            if not is_taken:
                taken.close()
            case = self.node_case(chance, stdin, conn, ticks, port, [peer.getsockname()[1]], old, has_file, trouble)
            heard = nodes.feed(self.program, self.folder / "node", case, ticks, peer, port, datagrams)
        if is_taken and trouble != "folder":
            wanted = simulator.refused("D3", old, 3)
            self.findings.judge("node", case, heard.answer, wanted, self.label)
            return
        why, wanted = nodes.judge_fed(case, heard, datagrams)
        self.findings.count("node, all heard" if heard.is_sure else "node", wanted)
        if why:
            print(f"node: {why}", flush=True)
            self.findings.keep("node", case, heard.answer, wanted, self.label)
            self.keep_datagrams(datagrams, heard.datagrams)

    def keep_datagrams(self, given, sent):
        """Keep the datagrams that a node was given and that it sent beside its finding."""
        path = self.findings.folder / f"datagrams-{self.findings.number}"
        path.write_text("".join(f"{name} {each.hex()}\n" for name, all_of in (("given", given), ("sent", sent))
                                for each in all_of))

    def nodes(self, chance):
        """Two or three nodes that share their strokes."""
        picture, file = small_file(chance)
        count, conn, ticks = chance.choice([2, 3]), chance.choice([4, 8]), chance.choice([50, 150, 300])
        ports = nodes.free_ports(count)
        started = []
        for number, port in enumerate(ports):
            lines = inputs.edits(chance, picture, chance.choice([0, 3, 8, 60]), 0)
            own = conn if chance.random() < 0.9 else 12 - conn
            stdin = inputs.edit_text(chance, lines) + b"image\n" + file
            started.append(self.node_case(chance, stdin, own, ticks, port, ports[:number] + ports[number + 1:]))
        answers = nodes.share(self.program, self.folder / "nodes", started)
        for number, (case, answer) in enumerate(zip(started, answers)):
            why = nodes.judge_shared(case, answer, started[:number] + started[number + 1:])
            self.findings.count("nodes, agreed" if nodes.have_agreed(answers) else "nodes", answer)
            if why:
                print(f"nodes: {why}", flush=True)
                self.findings.keep("nodes", case, answer, cases.expected(case), self.label)


WEIGHTS = {**{kind: weight for kind, (_, weight) in CASES.items()}, "words": 10, "sessions": 5, "node": 3,
           "nodes": 1}


def read_words():
    """The words of the command line."""
    parser = argparse.ArgumentParser(description="Compare Seedpaint with a plain reference on random inputs.")
    parser.add_argument("program", type=pathlib.Path, help="crates/seedpaint/out/seedpaint")
    parser.add_argument("--seed", type=int, default=1, help="the seed of all chances (1)")
    parser.add_argument("--seconds", type=float, default=60, help="how long to go on (60)")
    parser.add_argument("--kinds", nargs="+", choices=list(WEIGHTS), default=list(WEIGHTS), help="which kinds (all)")
    parser.add_argument("--first", type=int, default=0, help="the number of the first case (0)")
    parser.add_argument("--cases", type=int, default=10**9, help="how many cases at most")
    parser.add_argument("--keep", type=pathlib.Path, default=cases.KEPT,
                        help="the folder for findings (seedpaint-fuzz in the temporary folder)")
    words = parser.parse_args()
    if not words.program.is_file():
        parser.error(f"{words.program} is not there; `rt run` in crates/seedpaint makes the program")
    return words


def main():
    """Play cases until the time is over."""
    words = read_words()
    end, weights = time.monotonic() + words.seconds, [WEIGHTS[kind] for kind in words.kinds]
    with tempfile.TemporaryDirectory() as folder:
        runs = Runs(words, pathlib.Path(folder))
        for number in range(words.first, words.first + words.cases):
            if time.monotonic() >= end:
                break
            chance = random.Random(f"{words.seed} {number}")
            runs.one(chance.choices(words.kinds, weights)[0], number)
    print(f"seed {words.seed}, cases {words.first} to before {number}\n\n{runs.findings.summary()}")
    sys.exit(1 if runs.findings.number else 0)


if __name__ == "__main__":
    main()
