"""A browser without a window, for tools/check-picture: Debian's `chromium`, spoken to over two pipes.

It needs no package. What the browser says by itself is passed over.
"""

import fcntl
import json
import os
import shutil
import subprocess
import time

PROGRAM = "chromium"
# Seconds that a page may take to open, and that the browser may take to end.
PATIENCE = 120
WORDS = ["--headless", "--no-sandbox", "--disable-gpu", "--disable-dev-shm-usage", "--remote-debugging-pipe"]


class NoAnswer(Exception):
    """The browser ended, or it refuses what it was asked."""


def is_there():
    return shutil.which(PROGRAM) is not None


def pipe_above():
    """A pipe whose ends are none of the descriptors that the browser gets."""
    ends = os.pipe()
    moved = [fcntl.fcntl(end, fcntl.F_DUPFD_CLOEXEC, 10) for end in ends]
    for end in ends:
        os.close(end)
    return moved


class Browser:
    """A browser with one page, whose files lie in a folder."""

    def __init__(self, folder):
        reads, self.to = pipe_above()
        self.back, writes = pipe_above()

        def wire():
            os.dup2(reads, 3)
            os.dup2(writes, 4)

        words = [PROGRAM, *WORDS, f"--user-data-dir={folder}", "about:blank"]
        quiet = {"stdin": subprocess.DEVNULL, "stdout": subprocess.DEVNULL, "stderr": subprocess.DEVNULL}
        self.child = subprocess.Popen(words, preexec_fn=wire, close_fds=False, **quiet)
        os.close(reads)
        os.close(writes)
        self.number, self.rest, self.session = 0, b"", None
        target = self.call("Target.createTarget", url="about:blank")["targetId"]
        self.session = self.call("Target.attachToTarget", targetId=target, flatten=True)["sessionId"]

    def __enter__(self):
        return self

    def __exit__(self, *_):
        """Asks it to end, and ends it where it doesn't."""
        try:
            os.write(self.to, json.dumps({"id": 0, "method": "Browser.close"}).encode() + b"\0")
            self.child.wait(PATIENCE)
        except (OSError, subprocess.TimeoutExpired):
            self.child.kill()
            self.child.wait()
        os.close(self.to)
        os.close(self.back)

    def call(self, method, **parameters):
        """Asks for something, and returns what comes of it."""
        self.number += 1
        asked = {"id": self.number, "method": method, "params": parameters}
        if self.session:
            asked["sessionId"] = self.session
        os.write(self.to, json.dumps(asked).encode() + b"\0")
        while True:
            answer = self.message()
            if answer.get("id") == self.number:
                if "error" in answer:
                    raise NoAnswer(f"{method}: {answer['error']}")
                return answer["result"]

    def message(self):
        """The next thing that the browser says."""
        while b"\0" not in self.rest:
            piece = os.read(self.back, 1 << 16)
            if not piece:
                raise NoAnswer("the browser has ended")
            self.rest += piece
        text, _, self.rest = self.rest.partition(b"\0")
        return json.loads(text)

    def value(self, script):
        """What a script on the page comes to."""
        answer = self.call("Runtime.evaluate", expression=script, returnByValue=True)
        if "exceptionDetails" in answer:
            raise NoAnswer(f"{script}: {answer['exceptionDetails']}")
        return answer["result"].get("value")

    def open(self, path):
        """Opens a file, and waits until it shows something."""
        self.call("Page.navigate", url="about:blank")
        self.call("Page.navigate", url=f"file://{path}")
        end = time.monotonic() + PATIENCE
        while time.monotonic() < end:
            if self.value("document.readyState == 'complete' && !!document.querySelector('#words')?.textContent"):
                return
            time.sleep(0.05)
        raise NoAnswer(f"{path} doesn't open")

    def press(self, key):
        for kind in ("keyDown", "keyUp"):
            self.call("Input.dispatchKeyEvent", type=kind, key=key, code=key)

    def click(self, left, top):
        """Clicks at a place of the window."""
        for kind in ("mousePressed", "mouseReleased"):
            self.call("Input.dispatchMouseEvent", type=kind, x=left, y=top, button="left", clickCount=1)

    def widen(self, width):
        """Makes the window so wide."""
        self.call("Emulation.setDeviceMetricsOverride", width=width, height=900, deviceScaleFactor=1, mobile=False)
