"""Servers of the Python package, started by tests, and peers that speak to them over a socket."""

import contextlib
import os
import pathlib
import socket
import subprocess
import sys
import threading
import time

ROOT = pathlib.Path(__file__).resolve().parent.parent
PACKAGE = ROOT / "clients" / "python"
SECONDS = 120  # after which something has hung
DECLARED = "tvar shared : Int = 0\n" + "".join(f"tvar p{it} : Int = 0\n" for it in range(8)) + "tvar slot : Int = 0\n"

sys.path.insert(0, str(PACKAGE))


def environment(program, *folders):
    path = os.pathsep.join([str(PACKAGE), *map(str, folders)])
    return {**os.environ, "STMDESK": str(program), "PYTHONPATH": path, "PYTHONDONTWRITEBYTECODE": "1"}


def wait_for(what, seconds=SECONDS):
    """The first value of the function that is true."""
    end = time.monotonic() + seconds
    while not (found := what()):
        if time.monotonic() > end:
            raise AssertionError(f"{what} didn't come true in {seconds} seconds")
        time.sleep(0.02)
    return found


class Server:
    """A running server on `socket` in a folder."""

    def __init__(self, program, folder, *words, module="stmdesk.server", name="socket", folders=(), wait=True, **more):
        self.path, self.program, self.log = str(pathlib.Path(folder) / name), program, pathlib.Path(folder) / f"{name}.log"
        self.words = [sys.executable, "-m", module, *map(str, words), self.path]
        with self.log.open("ab") as log:
            self.process = subprocess.Popen(self.words, env=environment(program, *folders), stderr=log, stdin=subprocess.DEVNULL, **more)
        if wait:
            wait_for(self.is_there)

    def is_there(self):
        assert self.process.poll() is None, self.said()
        with contextlib.suppress(OSError), socket.socket(socket.AF_UNIX) as it:
            it.connect(self.path)
            return True
        return False

    def said(self):
        return self.log.read_text()

    def program_pid(self):
        """The process of the server's program."""
        children = pathlib.Path(f"/proc/{self.process.pid}/task/{self.process.pid}/children").read_text().split()
        return next(int(it) for it in children if pathlib.Path(f"/proc/{it}/comm").read_text().strip() == "stmdesk")

    def memory(self):
        """MiB that are resident now, and the most that were."""
        lines = pathlib.Path(f"/proc/{self.process.pid}/status").read_text().splitlines()
        found = {it.split(":")[0]: int(it.split()[1]) // 1024 for it in lines if it.startswith(("VmRSS", "VmHWM"))}
        return found["VmRSS"], found["VmHWM"]

    def kill(self):
        self.process.kill()
        self.process.wait()

    def stop(self):
        """Its exit status."""
        self.process.terminate()
        return self.process.wait(SECONDS)

    def __enter__(self):
        return self

    def __exit__(self, *_):
        if self.process.poll() is None:
            with contextlib.suppress(ProcessLookupError):
                self.process.send_signal(18)  # SIGCONT
            self.kill()


class Peer:
    """A connection that sends text and reads lines."""

    def __init__(self, path, text=b""):
        self.socket = socket.socket(socket.AF_UNIX)
        self.socket.settimeout(SECONDS)
        self.socket.connect(path)
        self.file = self.socket.makefile("rb")
        if text:
            self.send(text)

    def send(self, text):
        self.socket.sendall(text.encode() if isinstance(text, str) else text)

    def line(self):
        return self.file.readline().decode()

    def lines(self, count):
        return [self.line().removesuffix("\n") for _ in range(count)]

    def rest(self):
        """What comes until the other end closes the connection."""
        pieces = []
        with contextlib.suppress(ConnectionResetError):
            while piece := self.file.read1():
                pieces.append(piece)
        return b"".join(pieces).decode()

    def close(self):
        self.file.close()
        self.socket.close()

    def __enter__(self):
        return self

    def __exit__(self, *_):
        self.close()


def told(path, text):
    """All that a server answers to a text whose end is the end of the input."""
    with Peer(path, text) as it:
        it.socket.shutdown(socket.SHUT_WR)
        return it.rest()


def in_thread(function, *arguments):
    """Calls a function in a thread. Returns a function that waits for its result."""
    result = []

    def work():
        try:
            result.append((function(*arguments), None))
        except BaseException as error:
            result.append((None, error))

    thread = threading.Thread(target=work, daemon=True)
    thread.start()

    def outcome():
        thread.join(SECONDS)
        assert result, "no end"
        if result[0][1]:
            raise result[0][1]
        return result[0][0]

    return outcome


class Counts:
    """Runs tests, and counts."""

    def __init__(self, part=""):
        self.part, self.passed, self.failed, self.skipped = part, 0, 0, 0

    def run(self, tests, *arguments):
        import tempfile
        import traceback

        for test in tests:
            name = test.__name__.replace("_", " ")
            if self.part in name or self.part in test.__name__:
                begin = time.monotonic()
                with tempfile.TemporaryDirectory(prefix="stmdesk-", ignore_cleanup_errors=True) as folder:
                    try:
                        said = test(*arguments, pathlib.Path(folder))
                        if said and "skipped" in said:
                            self.skip(f"{name}: {said}")
                        else:
                            self.passed += 1
                            print(f"{name}{f': {said}' if said else ''} ({time.monotonic() - begin:.1f} s)", flush=True)
                    except Exception:
                        self.failed += 1
                        print(f"failed: {name}\n{traceback.format_exc()}", flush=True)
                        for log in sorted(pathlib.Path(folder).glob("*.log")):
                            print(f"{log.name}: {log.read_text(errors='replace')[-1500:]}", flush=True)

    def skip(self, said):
        """Counts what can't be tried, or only in part."""
        self.skipped += 1
        print(f"skipped: {said}", flush=True)

    def end(self):
        print(f"{self.passed} passed, {self.failed} failed" + (f", {self.skipped} skipped" if self.skipped else ""), flush=True)
        return 1 if self.failed or not self.passed else 0
