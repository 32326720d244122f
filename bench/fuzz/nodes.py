"""Runs of `seedpaint node` on 127.0.0.1: one that is fed datagrams by this script, or two or three that share strokes.

A fed node reads one datagram a tick. Where it had more ticks left than datagrams were sent, it surely heard them all,
and its end is known byte for byte. Each datagram that it sends has to be a piece of a state that it had. Of nodes that
share, each ends in a state that lies between its own strokes and those of all, and that shows the image it writes.
"""

import select
import socket
import subprocess
import time
from typing import NamedTuple

import cases
import inputs
import simulator
from readers import Refused, read_frame, read_state_file
from simulator import Answer

HOST = "127.0.0.1"
SPARE = 40  # ticks that a node has to have left when the last datagram was sent, beyond one for each datagram
LONGEST = 2048  # bytes of a datagram that is taken
FIRST_WAIT = 20.0  # seconds for the first datagram of a node


class Heard(NamedTuple):
    """What a fed node sent, whether it surely heard all, and its answer."""
    datagrams: list
    is_sure: bool
    answer: Answer


def bound():
    """A socket at a free port."""
    made = socket.socket(socket.AF_INET, socket.SOCK_DGRAM)
    made.setsockopt(socket.SOL_SOCKET, socket.SO_RCVBUF, 2**20)
    made.bind((HOST, 0))
    return made


def free_ports(count):
    """Ports that were free a moment ago."""
    sockets = [bound() for _ in range(count)]
    ports = [each.getsockname()[1] for each in sockets]
    for each in sockets:
        each.close()
    return ports


def start(program, folder, case):
    """Start a node in its folder, with its output in files."""
    cases.prepare(folder, case)
    (folder / "in").write_bytes(case.stdin)
    with open(folder / "in", "rb") as source, open(folder / "out", "wb") as out, open(folder / "err", "wb") as err:
        return subprocess.Popen([program, *case.words], stdin=source, stdout=out, stderr=err, cwd=folder)


def ended(child, folder):
    """The answer of a node, once it has ended."""
    try:
        status, note = child.wait(cases.SECONDS), b""
    except subprocess.TimeoutExpired:
        child.kill()
        child.wait()
        status, note = None, b"did not end"
    known = {"in", "out", "err", cases.FILE, cases.LOCK, cases.FILE + ".new"} if not note else set()
    left = sorted({path.name for path in folder.iterdir()} - known) if known else []
    note += f"left behind: {left}".encode() if left else b""
    return Answer(status, (folder / "err").read_bytes() + note, (folder / "out").read_bytes(), cases.kept_in(folder))


# ---- A node that is fed ----

def feed(program, folder, case, ticks, peer, port, datagrams):
    """Run a node, send it the datagrams once it has sent its first one, and listen until it ends."""
    child = start(program, folder, case)
    taken = []
    listen(peer, child, taken, lambda: taken, FIRST_WAIT)
    for datagram in datagrams if taken else []:
        peer.sendto(datagram, (HOST, port))
    listen(peer, child, taken, lambda: False, 0)
    is_sure = bool(taken) and len(taken) + len(datagrams) + SPARE <= ticks
    listen(peer, child, taken, lambda: child.poll() is not None, cases.SECONDS)
    listen(peer, child, taken, lambda: False, 0)
    return Heard(taken, is_sure, ended(child, folder))


def listen(peer, child, taken, is_done, seconds):
    """Take the datagrams that come: until it is done, or nothing comes and the node has ended or the time is over."""
    end = time.monotonic() + seconds
    while not is_done():
        has_ended = child.poll() is not None
        ready, _, _ = select.select([peer], [], [], 0 if seconds == 0 or has_ended else 0.01)
        if ready:
            taken.append(peer.recv(LONGEST))
        elif has_ended or time.monotonic() >= end:
            return


def datagram(chance, conn, fingerprint, mask, states):
    """A datagram for a node on a mask. Some are good; the states of earlier ones come again now and then."""
    kind = chance.random()
    if kind < 0.5:
        made = inputs.state(chance, mask, chance.randrange(4), 0.1)
        states.append(made)
    elif kind < 0.6 and states:
        made = chance.choice(states)
    elif kind < 0.75:
        return inputs.slipped_frame(chance, conn, fingerprint, mask)
    elif kind < 0.8:
        return bytes(chance.choice([0, 1, 41, 1400, 1401, 1402, 3000, 60000]))
    else:
        made = inputs.state(chance, mask, chance.randrange(4))
        return inputs.mutated(chance, inputs.frame_of(chance, conn, fingerprint, made), 41)[:60000]
    return inputs.frame_of(chance, conn, fingerprint, made)


def states_heard(state, conn, mask, datagrams):
    """The states of a node that begins with one and hears these: each that it had, in order."""
    fingerprint = simulator.fingerprint_of(mask)
    states = [state]
    for each in datagrams:
        try:
            frame = read_frame(each)
            if (frame.conn, frame.fingerprint) == (conn, fingerprint):
                states.append(simulator.merged(states[-1], frame.state, mask.width, mask.height))
        except Refused:
            pass
    return states


def judge_fed(case, heard, datagrams):
    """What a fed node did wrong, in words, or nothing; and the answer that it should have given."""
    wanted = cases.expected(case)
    if wanted.status == 1 or case.trouble == "folder":
        if heard.datagrams:
            return "a datagram before a fault", wanted
        return "" if heard.answer == wanted else "another answer", wanted
    conn = case.call.conn
    mask, state = simulator.gathered(case.stdin, conn, case.old or b"")
    states = states_heard(state, conn, mask, datagrams)
    known = {piece for each in states
             for piece in simulator.pieces_of(conn, simulator.fingerprint_of(mask), each)}
    if any(each not in known for each in heard.datagrams):
        return "a datagram that is no piece of its states", wanted
    ends = [ending(case, mask, each) for each in ([states[-1]] if heard.is_sure else states)]
    return ("" if heard.answer in ends else "another end"), ends[-1]


def ending(case, mask, state):
    """The answer of a node that ends in a state."""
    answer = simulator.shown(mask, state, case.call.conn)
    if not case.has_file:
        return answer._replace(kept=None)
    return Answer(3, b"seedpaint: V2\n", answer.output, case.old) if case.trouble == "new" else answer


# ---- Nodes that share ----

def share(program, folder, started):
    """Run nodes, each with its case, one beside the other: their answers."""
    children = [start(program, folder / str(number), case) for number, case in enumerate(started)]
    return [ended(child, folder / str(number)) for number, child in enumerate(children)]


def own_state(case):
    """The mask and the state with which a node begins."""
    return simulator.gathered(case.stdin, case.call.conn, case.old or b"")


def judge_shared(case, answer, others):
    """What a node that shared with others did wrong, in words, or nothing."""
    if answer.status != 0 or answer.line:
        return "a fault"
    mask, own = own_state(case)
    end = simulator.EMPTY
    for frame in read_state_file(answer.kept):
        end = simulator.join(end, frame.state)
    if ending(case, mask, end) != answer:
        return "an image or a state file that is not that of its state"
    if not simulator.is_below(own, end):
        return "something of its own is lost"
    givers = [own] + [own_state(other)[1] for other in others if other.call.conn == case.call.conn]
    strokes = {each for giver in givers for each in giver.strokes.items()}
    tombstones = frozenset().union(*(giver.tombstones for giver in givers))
    if not (set(end.strokes.items()) <= strokes and end.tombstones <= tombstones):
        return "something of nobody"
    return ""


def have_agreed(answers):
    """Whether the nodes ended with the same state file."""
    return len({answer.kept for answer in answers}) == 1
