"""A browser without a window, driven over pipes by the DevTools protocol."""

import base64
import contextlib
import json
import os
import select
import shutil
import signal
import subprocess
import sys
import tempfile
import time

NAMES = ("chromium", "chromium-browser", "google-chrome", "google-chrome-stable")
SECONDS = 60
WORDS = ["--headless", "--no-sandbox", "--disable-gpu", "--no-first-run", "--disable-dev-shm-usage", "--hide-scrollbars"]
WORDS += ["--remote-debugging-pipe"]
# The browser reads from file 3 and writes to file 4.
START = """
import fcntl, os, sys
ends = [fcntl.fcntl(int(it), fcntl.F_DUPFD, 10) for it in sys.argv[1:3]]
os.dup2(ends[0], 3), os.dup2(ends[1], 4)
os.execv(sys.argv[3], sys.argv[3:])
"""


def find():
    """The path of an installed browser, or None."""
    return next(filter(None, map(shutil.which, NAMES)), None)


class Broken(Exception):
    """The browser gave no answer, or an error."""


class Browser:
    """A browser with one page. Everything that it started ends with it."""

    def __init__(self, path):
        self.folder = tempfile.TemporaryDirectory(prefix="stmdesk-browser-", ignore_cleanup_errors=True)
        theirs, self.input = os.pipe()
        self.output, their_output = os.pipe()
        command = [sys.executable, "-c", START, str(theirs), str(their_output), path, *WORDS, f"--user-data-dir={self.folder.name}"]
        quiet = subprocess.DEVNULL
        self.process = subprocess.Popen(
            command, stdin=quiet, stdout=quiet, stderr=quiet, pass_fds=(theirs, their_output), start_new_session=True
        )
        os.close(theirs), os.close(their_output)
        self.read, self.number, self.session, self.errors = b"", 0, None, []
        target = self.call("Target.createTarget", url="about:blank")["targetId"]
        self.session = self.call("Target.attachToTarget", targetId=target, flatten=True)["sessionId"]
        for it in ("Page", "Runtime", "Log"):
            self.call(f"{it}.enable")

    def call(self, method, **given):
        """The result of a call. Keeps what the page says meanwhile of its errors."""
        self.number += 1
        message = {"id": self.number, "method": method, "params": given} | ({"sessionId": self.session} if self.session else {})
        left = json.dumps(message).encode() + b"\0"
        while left:
            left = left[os.write(self.input, left) :]
        while True:
            found = self.message()
            if found.get("id") == self.number:
                if "error" in found:
                    raise Broken(f"{method}: {found['error']}")
                return found["result"]
            is_error = found.get("params", {}).get("entry", {}).get("level") == "error"
            if found.get("method") == "Runtime.exceptionThrown" or is_error:
                self.errors.append(json.dumps(found["params"])[:400])

    def message(self):
        end = time.monotonic() + SECONDS
        while b"\0" not in self.read:
            if time.monotonic() > end or not select.select([self.output], [], [], max(0, end - time.monotonic()))[0]:
                raise Broken(f"no answer in {SECONDS} seconds")
            more = os.read(self.output, 1 << 20)
            if not more:
                raise Broken("the browser ended")
            self.read += more
        found, _, self.read = self.read.partition(b"\0")
        return json.loads(found)

    def open(self, address, size, is_touch=False):
        """Loads a page in a window of this width and height."""
        self.errors = []
        self.call("Emulation.setDeviceMetricsOverride", width=size[0], height=size[1], deviceScaleFactor=1, mobile=is_touch)
        self.call("Emulation.setTouchEmulationEnabled", enabled=is_touch)
        self.call("Page.navigate", url="about:blank")
        self.call("Page.navigate", url=address)
        end = time.monotonic() + SECONDS
        while self.value("location.href.startsWith('about:') ? '' : document.readyState") != "complete":
            if time.monotonic() > end:
                raise Broken("the page isn't loaded")
            time.sleep(0.01)

    def value(self, expression):
        """The value of an expression in the page, of a promise what comes of it."""
        found = self.call("Runtime.evaluate", expression=expression, returnByValue=True, awaitPromise=True)
        if "exceptionDetails" in found:
            raise Broken(json.dumps(found["exceptionDetails"])[:400])
        return found["result"].get("value")

    def settle(self):
        """Waits until the page has drawn what it was asked to."""
        self.value("new Promise(done => requestAnimationFrame(() => requestAnimationFrame(() => setTimeout(done))))")

    def mouse(self, kind, x, y, **more):
        self.call("Input.dispatchMouseEvent", type=kind, x=x, y=y, **more)

    def click(self, x, y):
        for kind in ("mousePressed", "mouseReleased"):
            self.mouse(kind, x, y, button="left", clickCount=1, buttons=1)

    def tap(self, x, y):
        self.call("Input.dispatchTouchEvent", type="touchStart", touchPoints=[{"x": x, "y": y}])
        self.call("Input.dispatchTouchEvent", type="touchEnd", touchPoints=[])

    def key(self, key):
        text = {"text": key} if len(key) == 1 else {}
        self.call("Input.dispatchKeyEvent", type="keyDown", key=key, **text)
        self.call("Input.dispatchKeyEvent", type="keyUp", key=key)

    def picture(self):
        """The page as a PNG."""
        return base64.b64decode(self.call("Page.captureScreenshot", format="png")["data"])

    def __enter__(self):
        return self

    def __exit__(self, *_):
        with contextlib.suppress(ProcessLookupError):
            os.killpg(self.process.pid, signal.SIGKILL)
        self.process.wait()
        os.close(self.input), os.close(self.output)
        self.folder.cleanup()
