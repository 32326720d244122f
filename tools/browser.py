"""Chromium by its debugging protocol, with Python's standard library: tabs, real events of mouse, pen, fingers and
keys, screenshots.

    with Browser() as browser:
        tab = browser.open("http://127.0.0.1:8000/")
        tab.click(100, 200)
        tab.screenshot("page.png")
"""

import base64
import json
import os
import pathlib
import shutil
import socket
import struct
import subprocess
import tempfile
import time
import urllib.request

ALT, CONTROL, SHIFT = 1, 2, 8  # modifiers of an event
BUTTONS = {"none": 0, "left": 1, "right": 2, "middle": 4}
CODES = {"Tab": 9, "ArrowLeft": 37, "ArrowRight": 39}  # of keys that the browser acts on itself
FLAGS = ["--headless=new", "--no-sandbox", "--disable-gpu", "--disable-dev-shm-usage", "--no-first-run",
         "--remote-debugging-port=0", "--force-device-scale-factor=1", "--enable-precise-memory-info"]
LISTEN_FOR_REPORTS = """window.reports = [];
    addEventListener("securitypolicyviolation", event => reports.push(event.violatedDirective));"""
PATIENCE = [1]  # how many times as long is waited as on a machine that has nothing else to do


class Fault(Exception):
    """What the browser refused, or did not do in time."""


class Browser:
    """A Chromium of its own, with a profile that is thrown away."""

    def __init__(self, width=1280, height=850):
        self.folder = pathlib.Path(tempfile.mkdtemp(prefix="paint-browser-"))
        self.size = width, height
        words = ["chromium", *FLAGS, f"--user-data-dir={self.folder / 'profile'}", f"--window-size={width},{height}",
                 "about:blank"]
        if not shutil.which("chromium"):
            raise Fault("there is no chromium: install Debian's package chromium")
        self.process = subprocess.Popen(words, stdout=subprocess.DEVNULL, stderr=subprocess.DEVNULL)
        self.port = wait_for(self.read_port, "the port of Chromium")

    def read_port(self):
        """The port that Chromium wrote into its profile, once it did."""
        path = self.folder / "profile" / "DevToolsActivePort"
        lines = path.read_text().splitlines() if path.is_file() else []
        return int(lines[0]) if len(lines) >= 2 else None

    def open(self, address, before=""):
        """A tab with this address. The script `before` runs before those of each page."""
        put = urllib.request.Request(f"http://127.0.0.1:{self.port}/json/new?about:blank", method="PUT")
        with urllib.request.urlopen(put) as answer:
            tab = Tab(self.port, json.load(answer)["webSocketDebuggerUrl"], self.size)
        if before:
            tab.call("Page.addScriptToEvaluateOnNewDocument", source=before)
        tab.go(address)
        return tab

    def __enter__(self):
        return self

    def __exit__(self, *_):
        self.process.terminate()
        self.process.wait()
        shutil.rmtree(self.folder, ignore_errors=True)


class Tab:
    """A tab of a browser, and the events that it reported."""

    def __init__(self, port, address, size):
        self.wire = Wire(port, address.split(f":{port}", 1)[1])
        self.events, self.count, self.size, self.fingers = [], 0, size, 0
        for domain in ("Page", "Runtime", "Log"):
            self.call(f"{domain}.enable")
        self.have_ratio(1)
        self.call("Page.addScriptToEvaluateOnNewDocument", source=LISTEN_FOR_REPORTS)

    def call(self, method, **parameters):
        """What a command of the protocol answers."""
        self.count += 1
        self.wire.send(json.dumps({"id": self.count, "method": method, "params": parameters}))
        while True:
            message = json.loads(self.wire.receive())
            if message.get("id") == self.count:
                if "error" in message:
                    raise Fault(f"{method}: {message['error']}")
                return message["result"]
            self.events.append(message)

    def have_ratio(self, ratio):
        """Gives the window so many pixels of the screen for each of its own, across and down."""
        width, height = self.size
        self.call("Emulation.setDeviceMetricsOverride", width=width, height=height, deviceScaleFactor=ratio,
                  mobile=False)

    def slow_down(self, bytes_a_second):
        """Lets no more bytes come."""
        self.call("Network.enable")
        self.call("Network.emulateNetworkConditions", offline=False, latency=0, downloadThroughput=bytes_a_second,
                  uploadThroughput=-1)

    def go(self, address):
        """Goes to an address."""
        self.call("Page.navigate", url=address)

    def run(self, script):
        """The value of an expression of the page, or of its promise."""
        result = self.call("Runtime.evaluate", expression=script, awaitPromise=True, returnByValue=True)
        if "exceptionDetails" in result:
            raise Fault(f"{script}: {result['exceptionDetails']}")
        return result["result"].get("value")

    def wait(self, script, seconds=20):
        """Waits until an expression of the page is true, also of a page that is still to come."""
        return wait_for(lambda: self.holds(script), script, seconds)

    def holds(self, script):
        """Whether an expression of the page is true. It is not where it throws, or the page goes meanwhile."""
        try:
            return self.run(f"(() => {{ try {{ return {script}; }} catch (_) {{ return false; }} }})()")
        except Fault:
            return False

    def text(self, name):
        """What stands in an element."""
        return self.run(f"document.getElementById('{name}').textContent")

    def mouse(self, kind, x, y, button="none", modifiers=0, **more):
        """One event of the mouse, at a point of the window."""
        held = 0 if kind == "mouseReleased" else BUTTONS[button]
        self.call("Input.dispatchMouseEvent", type=kind, x=x, y=y, button=button, buttons=held, modifiers=modifiers,
                  clickCount=0 if kind in ("mouseMoved", "mouseWheel") else 1, **more)

    def drag(self, points, button="left", modifiers=0):
        """Presses a button at the first point and lets it go at the last."""
        self.mouse("mouseMoved", *points[0], modifiers=modifiers)
        self.mouse("mousePressed", *points[0], button, modifiers)
        for point in points[1:]:
            self.mouse("mouseMoved", *point, button, modifiers)
        self.mouse("mouseReleased", *points[-1], button, modifiers)

    def touch(self, *points):
        """Fingers that are at these points of the window from now on: those before them moved, or were lifted."""
        kind = ("touchMove" if points else "touchEnd") if self.fingers >= len(points) else "touchStart"
        self.call("Input.dispatchTouchEvent", type=kind,
                  touchPoints=[{"x": x, "y": y, "id": number} for number, (x, y) in enumerate(points)])
        self.fingers = len(points)

    def click(self, x, y, modifiers=0):
        """Presses and lets go the left button."""
        self.drag([(x, y)], modifiers=modifiers)

    def click_element(self, name):
        """Clicks into the middle of an element."""
        self.click(*self.run(f"(() => {{ const box = document.getElementById('{name}').getBoundingClientRect();"
                             " return [box.x + box.width / 2, box.y + box.height / 2]; })()"))

    def wheel(self, x, y, delta, modifiers=0):
        """Turns the wheel."""
        self.mouse("mouseWheel", x, y, modifiers=modifiers, deltaX=0, deltaY=delta)

    def key(self, key, modifiers=0):
        """Presses a key and lets it go."""
        self.key_down(key, modifiers)
        self.key_up(key, modifiers)

    def type(self, text):
        """Puts text where the caret is."""
        self.call("Input.insertText", text=text)

    def key_down(self, key, modifiers=0):
        """Presses a key."""
        self.call("Input.dispatchKeyEvent", type="rawKeyDown", key=key, modifiers=modifiers,
                  windowsVirtualKeyCode=CODES.get(key, 0))

    def key_up(self, key, modifiers=0):
        """Lets a key go."""
        self.call("Input.dispatchKeyEvent", type="keyUp", key=key, modifiers=modifiers,
                  windowsVirtualKeyCode=CODES.get(key, 0))

    def drop(self, x, y, path):
        """Drags a file into the window and drops it."""
        dragged = {"items": [], "files": [str(path)], "dragOperationsMask": 1}
        for kind in ("dragEnter", "dragOver", "drop"):
            self.call("Input.dispatchDragEvent", type=kind, x=x, y=y, data=dragged)
            time.sleep(0.1)  # (the page's answer to the one decides about the next)

    def download_to(self, folder):
        """Lets downloads go into a folder."""
        self.call("Browser.setDownloadBehavior", behavior="allow", downloadPath=str(folder))

    def screenshot(self, path):
        """Writes a picture of the window."""
        self.run("new Promise(done => requestAnimationFrame(() => requestAnimationFrame(done)))")
        data = self.call("Page.captureScreenshot", format="png")["data"]
        pathlib.Path(path).write_bytes(base64.b64decode(data))

    def faults(self):
        """Exceptions that nobody caught, and reports of the content security policy."""
        reports = self.run("window.reports")
        thrown = [event["params"] for event in self.events if event.get("method") == "Runtime.exceptionThrown"]
        logged = [event["params"]["entry"] for event in self.events if event.get("method") == "Log.entryAdded"]
        return reports + thrown + [entry for entry in logged
                                   if entry["level"] == "error" and entry["source"] != "network"]


class Wire:
    """A WebSocket (RFC 6455) to the browser."""

    def __init__(self, port, path):
        self.socket = socket.create_connection(("127.0.0.1", port))
        self.bytes = b""
        key = base64.b64encode(os.urandom(16)).decode()
        self.socket.sendall((f"GET {path} HTTP/1.1\r\nHost: 127.0.0.1:{port}\r\nUpgrade: websocket\r\n"
                             f"Connection: Upgrade\r\nSec-WebSocket-Key: {key}\r\n"
                             "Sec-WebSocket-Version: 13\r\n\r\n").encode())
        while b"\r\n\r\n" not in self.bytes:
            self.read_more()
        self.bytes = self.bytes.split(b"\r\n\r\n", 1)[1]

    def read_more(self):
        """Reads on."""
        more = self.socket.recv(1 << 16)
        if not more:
            raise Fault("the browser ended")
        self.bytes += more

    def take(self, count):
        """The next bytes."""
        while len(self.bytes) < count:
            self.read_more()
        taken, self.bytes = self.bytes[:count], self.bytes[count:]
        return taken

    def send(self, text):
        """Sends a message as one masked frame; the mask of zeros leaves it as it is."""
        data = text.encode()
        if len(data) < 126:
            size = bytes([128 | len(data)])
        elif len(data) < 1 << 16:
            size = bytes([128 | 126]) + struct.pack(">H", len(data))
        else:
            size = bytes([128 | 127]) + struct.pack(">Q", len(data))
        self.socket.sendall(bytes([0x81]) + size + bytes(4) + data)

    def receive(self):
        """The next message."""
        message = b""
        while True:
            first, size = self.take(2)
            if size == 126:
                size = struct.unpack(">H", self.take(2))[0]
            elif size == 127:
                size = struct.unpack(">Q", self.take(8))[0]
            message += self.take(size)
            if first & 128:
                return message


def be_patient(times):
    """Waits so many times as long from now on."""
    PATIENCE[0] = times


def wait_for(found, name, seconds=20):
    """What a function finds, once it does."""
    end = time.monotonic() + seconds * PATIENCE[0]
    while time.monotonic() < end:
        value = found()
        if value:
            return value
        time.sleep(0.01)
    raise Fault(f"not within {seconds * PATIENCE[0]:g} s: {name}")
