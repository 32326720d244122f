#!/usr/bin/env python3
"""Test `seedpaint paint` through plain sockets: who is let in, who is turned away, and who is dropped.

    python3 tools/paint_sockets.py crates/seedpaint/out/seedpaint paint

The words are the command that serves. It is started with a mask, `--state FILE` and `--port N` behind them, and its
first line is the address. The first check that fails ends the script with status 1. It takes some two minutes, since a
peer is dropped only once its time is over; the parts that wait do so side by side. `--part` plays one part alone. It
needs Python 3 alone, and Linux for what a process has bound and holds.
"""

import argparse
import multiprocessing
import pathlib
import random
import select
import socket
import subprocess
import sys
import tempfile
import threading
import time
from contextlib import ExitStack, contextmanager

import running
from running import Fault, tell
from serving import Serving

# What crates/page_server has: how many may be in that showed the key; for how many seconds somebody may move no byte;
# within how many somebody has to show the key; and within how many a request has to be there.
MOST_PEERS, PATIENCE, HALL_SECONDS, REQUEST_SECONDS = 64, 30, 10, 60
SLACK = 5                    # seconds by which somebody may be dropped later
STRANGERS = 64               # how many come without the key
ANSWER_SECONDS = 1           # within which others are answered meanwhile
FLOOD_DISCS = 64_000         # how many discs fill a text that is taken
CROWD_SECONDS = 5            # within which they are where many ask for much, or come and go without a pause
MOST_BODY = 4 << 20          # bytes of a body that is taken
MOST_OF_BODIES = 64 << 20    # bytes that strangers may take by what they send
# Bytes that answers may take which nobody reads: 256 MiB, one more, and one that is made and finds no room.
MOST_OF_ANSWERS = (256 + 64) << 20
GOOD_RATE = 80 << 10         # bytes a second of a link that is slow and all right
OPENING_SECONDS = 300        # that a large picture may take to be opened
WIDTH = HEIGHT = 2048
LARGE = 4096
STROKE = b"place 67e55044-10b1-426f-9247-bb680e5fe0%02d 9 %d:0-4\n"


def check(holds, name):
    """Says that a check passed, or ends."""
    if not holds:
        raise Fault(f"failed: {name}")
    print(f"ok: {name}", flush=True)


# ---- The program ----

class Program(Serving):
    """The program that serves a picture of this side."""

    def __init__(self, words, folder, side=WIDTH, port=0):
        mask = folder / f"mask-{side}.pgm"
        if not mask.exists():
            mask.write_bytes(b"P5\n%d %d\n255\n" % (side, side) + bytes(range(256)) * (side * side // 256))
        self.mask, self.state = mask, mask.with_suffix(".spd")
        super().__init__([*words, mask, "--state", self.state, "--port", port], seconds=OPENING_SECONDS)
        if not self.address:
            raise Fault(f"failed: it prints no address: {self.stop()}")

    def connect(self):
        """A connection to it."""
        peer = socket.create_connection(("127.0.0.1", self.port))
        peer.settimeout(20)
        return peer

    def head(self, path, length=None, key=None, host=None):
        """The bytes of a request's head, of a `POST` where it has a length."""
        host = host or f"127.0.0.1:{self.port}"
        method = "GET" if length is None else "POST"
        fields = f"{method} /{key or self.key}/{path} HTTP/1.1\r\nHost: {host}\r\n"
        if length is not None:
            fields += f"Origin: http://{host}\r\nContent-Length: {length}\r\n"
        return fields.encode() + b"\r\n"

    def request(self, path, body=None):
        """The bytes of a request."""
        return self.head(path, None if body is None else len(body)) + (body or b"")

    def wrong_key(self):
        """A key that is as long, and not its own."""
        return "".join(chr(ord("f") - int(digit, 16) % 6) for digit in self.key)

    def seconds_of_answer(self):
        """Within how many seconds a new peer with the key is answered; many where it is not."""
        begun = time.monotonic()
        with self.connect() as peer:
            try:
                peer.sendall(self.request("strokes"))
                answer = answer_of(peer)
            except (ConnectionError, TimeoutError):
                answer = None
        return time.monotonic() - begun if answer and answer[0] == 200 else 999

    def memory(self):
        """How many bytes it holds."""
        status = pathlib.Path(f"/proc/{self.process.pid}/status").read_text()
        return int(next(line for line in status.splitlines() if line.startswith("VmRSS")).split()[1]) * 1024


def answer_in(reader):
    """The status and the body of the next answer in a stream of answers, or None where the stream ended."""
    head = b""
    while not head.endswith(b"\r\n\r\n"):
        line = reader.readline()
        if not line:
            return None
        head += line
    length = next(int(line.split(b":")[1]) for line in head.split(b"\r\n")
                  if line.lower().startswith(b"content-length"))
    return int(head.split(b" ")[1]), reader.read(length)


def answer_of(peer):
    """The status and the body of the one answer that is to come, or None where the connection ended."""
    with peer.makefile("rb") as reader:
        return answer_in(reader)


def is_ended(peer, seconds):
    """Whether the connection ends within so many seconds. What comes before that is read."""
    end = time.monotonic() + seconds
    try:
        while select.select([peer], [], [], max(0, end - time.monotonic()))[0]:
            if peer.recv(1 << 16) == b"":
                return True
    except ConnectionError:
        return True
    return False


def seconds_until_ended(peer, most, bytes_of=None, every=1.0):
    """How many seconds a connection lasts, and no more than `most`. Meanwhile a byte goes out now and then."""
    begun = time.monotonic()
    while time.monotonic() - begun < most:
        try:
            if bytes_of is not None:
                peer.sendall(next(bytes_of))
        except ConnectionError:
            break
        if is_ended(peer, every):
            break
    return time.monotonic() - begun


def is_dropped(program, peer):
    """Whether the program has closed its end of a connection, of which not all is read yet."""
    mine = f":{peer.getsockname()[1]:04X}"
    rows = [line.split() for line in pathlib.Path("/proc/net/tcp").read_text().splitlines()[1:]]
    states = [row[3] for row in rows if row[1].endswith(f":{program.port:04X}") and row[2].endswith(mine)]
    return all(state != "01" for state in states)


@contextmanager
def crowd(program, count):
    """So many connections, which are closed at the end."""
    with ExitStack() as stack:
        yield [stack.enter_context(program.connect()) for _ in range(count)]


@contextmanager
def measured(program):
    """The most bytes that the program takes meanwhile beyond those that it had."""
    before, most, is_over = program.memory(), [0], threading.Event()

    def look():
        while not is_over.wait(0.02):
            most[0] = max(most[0], program.memory() - before)
    looker = threading.Thread(target=look)
    looker.start()
    try:
        yield most
    finally:
        is_over.set()
        looker.join()


# ---- Who is let in ----

def bound_to_the_loopback(program):
    """The port is bound on 127.0.0.1 and on no other address."""
    rows = [line.split() for name in ("tcp", "tcp6")
            for line in pathlib.Path(f"/proc/net/{name}").read_text().splitlines()[1:]]
    bound = {row[1] for row in rows if row[3] == "0A" and row[1].endswith(f":{program.port:04X}")}
    check(bound == {f"0100007F:{program.port:04X}"}, "the port is bound on 127.0.0.1 alone")


def most_peers(program):
    """The one past the last place waits for a place, and the others go on."""
    with ExitStack() as stack:
        peers = []
        for _ in range(MOST_PEERS):
            peers.append(stack.enter_context(program.connect()))
            peers[-1].sendall(program.request("strokes"))
            check_quietly(answer_of(peers[-1]) == (200, b""), f"{MOST_PEERS} connections with the key are answered")
        late = stack.enter_context(program.connect())
        late.sendall(program.request("strokes"))
        check(not select.select([late], [], [], 2)[0], f"one more than {MOST_PEERS} with the key waits")
        for peer in peers:
            peer.sendall(program.request("strokes"))
        check(all(answer_of(peer) == (200, b"") for peer in peers), f"the {MOST_PEERS} go on")
        peers[0].close()
        check(answer_of(late) == (200, b""), "who waits is answered once one of them is gone")
    time.sleep(0.2)
    check(program.seconds_of_answer() < ANSWER_SECONDS, "once they are gone, there is a place again")


def check_quietly(holds, name):
    """Ends where it does not hold."""
    if not holds:
        raise Fault(f"failed: {name}")


def come_and_go(port):
    """Comes and goes without a pause."""
    while True:
        with socket.socket() as peer:
            peer.connect(("127.0.0.1", port))


def strangers(program):
    """Those without the key keep nobody out who has it."""
    wrong = program.head("strokes", key=program.wrong_key())
    for name, text in (("say nothing", b""), ("have said half a line", b"GET /"), ("named another key", wrong),
                       ("named another key, and a body", program.head("edits", MOST_BODY, key=program.wrong_key()))):
        with crowd(program, STRANGERS) as peers:
            for peer in peers:
                try:
                    peer.sendall(text)
                except ConnectionError:
                    pass  # (it was turned away)
            most = max(program.seconds_of_answer() for _ in range(20))
            check(most < ANSWER_SECONDS, f"{STRANGERS} who {name} keep nobody out ({1000 * most:.0f} ms)")
    comers = [multiprocessing.Process(target=come_and_go, args=(program.port,), daemon=True) for _ in range(2)]
    for comer in comers:
        comer.start()
    times = []
    while len(times) < 50 and max(times, default=0) < CROWD_SECONDS:
        times.append(program.seconds_of_answer())
    for comer in comers:
        comer.kill()
        comer.join()
    check(len(times) == 50, f"nor do those who come and go without a pause ({1000 * max(times):.0f} ms)")


def strangers_bodies(program):
    """Those without the key take no memory by bodies that they send."""
    is_over = threading.Event()

    def send():
        with program.connect() as peer:
            peer.settimeout(5)
            try:
                peer.sendall(program.head("edits?run=0&since=0", MOST_BODY, key=program.wrong_key()))
                peer.sendall(bytes(MOST_BODY - 1))
                is_over.wait(10)
            except (ConnectionError, TimeoutError):
                pass  # (it was answered, or turned away)
    senders = [threading.Thread(target=send) for _ in range(STRANGERS)]
    with measured(program) as most:
        for sender in senders:
            sender.start()
        time.sleep(6)
        seconds = program.seconds_of_answer()
        is_over.set()
        for sender in senders:
            sender.join()
    check(most[0] < MOST_OF_BODIES, f"{STRANGERS} bodies of 4 MiB without the key take {most[0] >> 20} MB")
    check(seconds < ANSWER_SECONDS, f"and hold nobody up ({1000 * seconds:.0f} ms)")


def ports(program):
    """A port that is taken is told with its code."""
    words = [*program.words[:-1], str(program.port)]
    ended = subprocess.run(words, stdout=subprocess.PIPE, stderr=subprocess.PIPE, check=False, timeout=30)
    check((ended.returncode, ended.stdout, ended.stderr) == (3, b"", b"seedpaint: D3\n"), "a port that is taken is D3")


# ---- What is asked ----

def pipelined(program):
    """Requests behind one another are answered in their order, and saved once they are."""
    with program.connect() as peer:
        peer.sendall(b"".join(program.request("edits?run=0&since=0", STROKE % (k, k)) for k in range(3))
                     + program.request("state"))
        with peer.makefile("rb") as reader:
            answers = [answer_in(reader) for _ in range(4)]
    check([status for status, _ in answers] == [200] * 4, "requests behind one another are answered in their order")
    check(answers[3][1] == program.state.read_bytes(), "and what they posted is in the file")


def attacks(program):
    """What is no request of ours is refused, and the others go on."""
    for name, text in (("another host", b"GET / HTTP/1.1\r\nHost: evil\r\n\r\n"),
                       ("no line", b"\0" * 100 + b"\r\n\r\n"),
                       ("a long head", b"GET /" + b"a" * 40_000 + b" HTTP/1.1\r\n\r\n"),
                       ("a long head with the key", program.head("a" * 40_000)),
                       ("another key", program.head("strokes", key=program.wrong_key())),
                       ("a host without its port", program.head("strokes", host="127.0.0.1"))):
        with program.connect() as peer:
            peer.sendall(text)
            answer = answer_of(peer)
            check(answer is not None and 400 <= answer[0] < 500, f"{name} is refused ({answer and answer[0]})")
    with program.connect() as peer:
        peer.sendall(program.head("strokes#x"))
        answer = answer_of(peer)
        check(answer is not None and answer[0] == 200, "what stands behind a # is not looked at")
    check(program.seconds_of_answer() < ANSWER_SECONDS, "and the others go on")


def large_bodies(program):
    """A body that is too large is answered before the connection ends, also to those who send all of it first."""
    body = b";" * (5 << 20)
    for name, reads in (("reads meanwhile", True), ("reads once all is sent", False)):
        for _ in range(5):
            with program.connect() as peer:
                status = status_of_large(peer, program.head("edits?run=0&since=0", len(body)) + body, reads)
            check_quietly(status == 413, f"who sends 5 MiB and {name} is answered with {status}")
        check(True, f"who sends 5 MiB and {name} is answered with 413, and not reset before")


def status_of_large(peer, text, reads):
    """The status of the answer to a request, or why there was none. It is read meanwhile or when all is sent."""
    got, sent = b"", 0
    try:
        peer.setblocking(False)
        end = time.monotonic() + 20
        while b"\r\n\r\n" not in got and time.monotonic() < end:
            may_read = [peer] if reads or sent == len(text) else []
            ready, free, _ = select.select(may_read, [peer] if sent < len(text) else [], [], 1)
            if free:
                sent += peer.send(text[sent:sent + (1 << 16)])
            if ready:
                more = peer.recv(1 << 16)
                if not more:
                    return "nothing"
                got += more
    except ConnectionError as why:
        return f"{type(why).__name__} once {sent} bytes were sent"
    return int(got.split(b" ")[1]) if got else "nothing"


def port_80(words, folder):
    """At port 80 a host is named without it, too."""
    try:
        with socket.socket() as probe:
            probe.setsockopt(socket.SOL_SOCKET, socket.SO_REUSEADDR, 1)
            probe.bind(("127.0.0.1", 80))
    except OSError as why:
        print(f"skipped: port 80 cannot be bound ({why.strerror})")
        return
    program = Program(words, folder, port=80)
    try:
        for host in ("127.0.0.1", "localhost", "127.0.0.1:80", "localhost:80"):
            for text in (program.head("strokes", host=host), program.head("edits?run=0&since=0", 0, host=host)):
                with program.connect() as peer:
                    peer.sendall(text)
                    answer = answer_of(peer)
                check_quietly(answer and answer[0] == 200, f"at port 80 the host {host} is answered with {answer}")
        check(True, "at port 80 a host is named with it or without")
    finally:
        program.stop()


# ---- Who does not read ----

def readers_that_do_not_read(program):
    """Peers that ask for the image and never read hold no copy each, and hold nobody up."""
    with program.connect() as peer:
        peer.sendall(program.request("image"))
        status, image = answer_of(peer)
    check(status == 200 and len(image) > WIDTH * HEIGHT, "the image is answered")
    before = program.memory()
    with crowd(program, MOST_PEERS - 4) as idle:
        for peer in idle:
            peer.sendall(program.request("image"))
            select.select([peer], [], [], 20)
        more = program.memory() - before
        check(more < 4 * len(image), f"{len(idle)} who never read take {more / len(image):.1f} images in all")
        seconds = program.seconds_of_answer()
        check(seconds < ANSWER_SECONDS, f"and hold nobody up ({1000 * seconds:.0f} ms)")
        begun = time.monotonic()
        while time.monotonic() < begun + PATIENCE + SLACK and not all(is_dropped(program, peer) for peer in idle):
            time.sleep(0.2)
        check(all(is_dropped(program, peer) for peer in idle),
              f"those who do not read their answer are dropped after {time.monotonic() - begun:.0f} s")
    check(program.seconds_of_answer() < ANSWER_SECONDS, "the others go on")


def unread_changes(words, folder):
    """Peers that ask for all that changed in a large picture and do not read: memory has an end, and others go on."""
    program = Program(words, folder, side=LARGE)
    try:
        moment = Moment(program)
        with ExitStack() as stack, measured(program) as most:
            for k in range(MOST_PEERS - 4):
                ask_and_not_read(program, stack.enter_context(program.connect()))
                moment.edit(k)
            seconds = program.seconds_of_answer()
        check(most[0] < MOST_OF_ANSWERS, f"{MOST_PEERS - 4} who asked for {LARGE} by {LARGE}, each after an edit, and "
              f"do not read take {most[0] >> 20} MB")
        check(moment.slowest < CROWD_SECONDS, f"and edits are answered within {1000 * moment.slowest:.0f} ms")
        check(seconds < CROWD_SECONDS, f"and who asks for little within {1000 * seconds:.0f} ms")
        time.sleep(0.5)
        answer = program.ask("GET", "changes?run=0&since=0")
        check(answer is not None and answer[0] == 200 and len(answer[1]) > LARGE * LARGE,
              "once they are gone, all is told to who asks for it")
    finally:
        program.stop()


def ask_and_not_read(program, peer):
    """Asks for all that changed, and waits until the answer is made, or the connection ended."""
    peer.sendall(program.request("changes?run=0&since=0"))
    check_quietly(select.select([peer], [], [], 20)[0], "each who asks is answered or dropped")


class Moment:
    """The moment up to which one knows what changed, and who edits the picture from there."""

    def __init__(self, program):
        self.program, self.slowest = program, 0
        self.know(program.ask("GET", "changes?run=0&since=0"))

    def know(self, answer):
        """Takes the moment of an answer that tells what changed."""
        check_quietly(answer is not None and answer[0] == 200, f"an edit is answered with {answer and answer[0]}")
        self.run, _, self.step = answer[1].split(b"\n")[0].split()[:3]

    def edit(self, number):
        """Changes the picture. The answer has what changed since, which is little."""
        begun = time.monotonic()
        self.know(self.program.ask("POST", self.path("edits"), STROKE % (number, number)))
        self.slowest = max(self.slowest, time.monotonic() - begun)

    def look(self):
        """Asks what changed since this moment. Within how many seconds that is answered."""
        begun = time.monotonic()
        answer = self.program.ask("GET", self.path("changes"))
        check_quietly(answer is not None and answer[0] == 200, f"who looks is answered with {answer and answer[0]}")
        return time.monotonic() - begun

    def path(self, name):
        """The path of a request that knows what was so far."""
        return f"{name}?run={self.run.decode()}&since={self.step.decode()}"


def discs(count):
    """An edit text of so many of the largest discs, all over a large picture and at many levels."""
    chance = random.Random(count)
    return "".join(f"disc 67e55044-10b1-426f-9247-{k:012x} {chance.randrange(1, 256)} "
                   f"{chance.randrange(LARGE)}:{chance.randrange(LARGE)}+255\n" for k in range(count)).encode()


def flood(words, folder):
    """One text with as many of the largest discs as it may have: the others wait for a moment, and no more."""
    program = Program(words, folder, side=LARGE)
    try:
        moment = Moment(program)
        with program.connect() as peer:
            begun = time.monotonic()
            peer.sendall(program.request(moment.path("edits"), discs(FLOOD_DISCS)))
            slowest = 0
            while not select.select([peer], [], [], 0)[0]:
                slowest = max(slowest, moment.look())
            answered = time.monotonic() - begun
            check(answer_of(peer)[0] == 200, f"{FLOOD_DISCS} discs of radius 255 are taken ({1000 * answered:.0f} ms)")
        check(slowest < ANSWER_SECONDS, f"and others are answered meanwhile ({1000 * slowest:.0f} ms)")
    finally:
        program.stop()


# ---- Who takes long ----

def dropped_after(peer, seconds, least, **slowly):
    """The peer is dropped within so many seconds and some slack, and not before `least`."""
    lasted = seconds_until_ended(peer, seconds + 2 * SLACK, **slowly)
    return least <= lasted <= seconds + SLACK, f"after {lasted:.0f} s"


def repeated(text):
    """Byte after byte of a text, and again from its start."""
    while True:
        for k in range(len(text)):
            yield text[k:k + 1]


def silent(program):
    """One who says nothing."""
    with program.connect() as peer:
        return dropped_after(peer, HALL_SECONDS, 1)


def slow_stranger(program):
    """One who sends a byte of some path each second."""
    with program.connect() as peer:
        peer.sendall(b"GET /")
        return dropped_after(peer, HALL_SECONDS, 1, bytes_of=repeated(b"a"), every=1)


def half_request(program):
    """One who showed the key, and then sends no more."""
    with program.connect() as peer:
        peer.sendall(program.request("strokes")[:-2])
        return dropped_after(peer, PATIENCE, PATIENCE - SLACK)


def idle(program):
    """One who was answered, and then asks no more."""
    with program.connect() as peer:
        peer.sendall(program.request("strokes"))
        answer_of(peer)
        return dropped_after(peer, PATIENCE, PATIENCE - SLACK)


def slow_head(program):
    """One with the key who sends a byte of the head each two seconds."""
    with program.connect() as peer:
        peer.sendall(program.request("strokes")[:-2] + b"X-Slow: ")
        return dropped_after(peer, REQUEST_SECONDS, HALL_SECONDS + SLACK, bytes_of=repeated(b"a"), every=2)


def slow_body(program):
    """One with the key who sends a byte of the body each two seconds."""
    with program.connect() as peer:
        peer.sendall(program.head("edits?run=0&since=0", 1000))
        return dropped_after(peer, REQUEST_SECONDS, HALL_SECONDS + SLACK, bytes_of=repeated(b";"), every=2)


def slow_link(program):
    """One whose large body comes at a decent rate: it is answered."""
    body = b";" * MOST_BODY
    with program.connect() as peer:
        try:
            peer.sendall(program.head("edits?run=0&since=0", len(body)))
            for start in range(0, len(body), GOOD_RATE):
                peer.sendall(body[start:start + GOOD_RATE])
                time.sleep(1)
            answer = answer_of(peer)
        except (ConnectionError, TimeoutError):
            answer = None
    return answer is not None and answer[0] == 200, f"with {answer and answer[0]}"


def slow_reader(program):
    """One who reads the mask at a decent rate: all of it comes."""
    with socket.socket() as peer:
        peer.setsockopt(socket.SOL_SOCKET, socket.SO_RCVBUF, 1 << 16)
        peer.connect(("127.0.0.1", program.port))
        peer.settimeout(20)
        peer.sendall(program.request("mask"))
        got, more = 0, b"x"
        try:
            while more and got < WIDTH * HEIGHT:
                more = peer.recv(GOOD_RATE)
                got += len(more)
                time.sleep(len(more) / GOOD_RATE)
        except (ConnectionError, TimeoutError):
            pass
    return got >= WIDTH * HEIGHT, f"{got} bytes"


# Those who take long, what is said of each, and the check.
LONG = [("one who says nothing is dropped", silent), ("a byte each second, without the key, is dropped", slow_stranger),
        ("half a request is waited for, and dropped", half_request), ("one who asks no more is dropped", idle),
        ("a head of a byte each two seconds is dropped", slow_head),
        ("a body of a byte each two seconds is dropped", slow_body),
        ("a large body over a slow link is answered", slow_link), ("who reads slowly gets all", slow_reader)]


def take_long(program):
    """All who take long, side by side."""
    found = {}

    def play(name, one):
        found[name] = one(program)
    players = [threading.Thread(target=play, args=pair) for pair in LONG]
    for player in players:
        player.start()
    for player in players:
        player.join()
    faults = []
    for name, _ in LONG:
        holds, how = found.get(name, (False, "with a traceback"))
        if holds:
            print(f"ok: {name} {how}", flush=True)
        else:
            faults.append(f"{name} ({how})")
    check_quietly(not faults, "; ".join(faults))
    check(program.seconds_of_answer() < ANSWER_SECONDS, "the others go on")


# The parts with one program, and those that start their own.
PARTS = {part.__name__: part for part in (bound_to_the_loopback, most_peers, strangers, strangers_bodies, attacks,
                                          large_bodies, pipelined, ports, readers_that_do_not_read, take_long)}
OWN_PARTS = {part.__name__: part for part in (port_80, unread_changes, flood)}


def play(chosen, folder):
    """Plays the parts that are chosen."""
    names = chosen.parts or [*PARTS, *OWN_PARTS]
    program = Program(chosen.command, folder) if any(name in PARTS for name in names) else None
    try:
        for name in names:
            tell(name)
            if name in PARTS:
                PARTS[name](program)
    finally:
        if program:
            program.stop()
    for name in names:
        if name in OWN_PARTS:
            tell(name)
            OWN_PARTS[name](chosen.command, folder)


def main():
    """Runs the checks in a folder that is thrown away."""
    parser = argparse.ArgumentParser(description="Test `seedpaint paint` through plain sockets.")
    parser.add_argument("--part", dest="parts", action="append", choices=[*PARTS, *OWN_PARTS],
                        help="this part alone; may be repeated")
    parser.add_argument("command", nargs=argparse.REMAINDER, help="the words that serve, as `seedpaint paint`")
    chosen = parser.parse_args()
    if not chosen.command:
        parser.error("the command that serves is missing")
    with tempfile.TemporaryDirectory(prefix="paint-sockets-") as folder:
        play(chosen, pathlib.Path(folder))


if __name__ == "__main__":
    sys.exit(running.run(main))
