"""A `seedpaint paint` that a tool started, and requests to it over the loopback."""

import http.client
import os
import select
import signal
import subprocess
import time

from running import Fault

SECONDS = 30  # that a program may take to tell its address, to answer, or to end


def shown(answer):
    """An answer in few words."""
    return f"{answer[0]} {answer[1][:60]}" if answer else "nothing"


class Serving:
    """A program that serves a page. `address` is the line that it printed, or None where it ended before."""

    def __init__(self, words, env=None, seconds=SECONDS):
        self.words = [str(word) for word in words]
        self.process = subprocess.Popen(self.words, stdin=subprocess.DEVNULL, stdout=subprocess.PIPE,
                                        stderr=subprocess.PIPE, env=env)
        self.address = self.first_line(seconds) or None
        self.port = self.key = None
        if self.address:
            _, _, host, self.key, _ = self.address.split("/")
            self.port = int(host.split(":")[1])

    def first_line(self, seconds):
        """The first line that it prints within so many seconds, or what there is of it where it ends before."""
        line, end = b"", time.monotonic() + seconds
        while not line.endswith(b"\n"):
            ready, _, _ = select.select([self.process.stdout], [], [], max(0, end - time.monotonic()))
            if not ready:
                self.kill()
                raise Fault(f"{' '.join(self.words)} says nothing for {seconds} s")
            more = os.read(self.process.stdout.fileno(), 4096)
            if not more:
                break
            line += more
        return line.decode().strip()

    def ask(self, method, path, body=None):
        """The status and the body of an answer, or None where the connection ended without one."""
        peer = http.client.HTTPConnection("127.0.0.1", self.port, timeout=SECONDS)
        try:
            peer.request(method, f"/{self.key}/{path}", body, {"Origin": f"http://127.0.0.1:{self.port}"})
            answer = peer.getresponse()
            return answer.status, answer.read()
        except (http.client.HTTPException, ConnectionError):
            return None
        except TimeoutError:
            raise Fault(f"{method} {path} is not answered within {SECONDS} s") from None
        finally:
            peer.close()

    def post(self, text):
        """The same for an edit text that is posted."""
        return self.ask("POST", "edits?run=0&since=0", text)

    def is_ended(self):
        """Whether it ended."""
        return self.process.poll() is not None

    def kill(self):
        """Ends it at once, as `kill -9` does."""
        self.process.kill()
        self.process.communicate()

    def stop(self):
        """Ends it as a terminal does; what it told on standard error."""
        if not self.is_ended():
            self.process.send_signal(signal.SIGINT)
        try:
            return self.process.communicate(timeout=SECONDS)[1].decode()
        except subprocess.TimeoutExpired:
            self.kill()
            raise Fault(f"{' '.join(self.words)} does not end") from None
