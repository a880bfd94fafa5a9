"""Runs of the program with `--journal`, what their files stand for, and what has to hold after a crash."""

import contextlib
import os
import re
import subprocess
import tempfile
import threading

import transcript

SECONDS = transcript.SECONDS
HEADER = b'{"format":3,"vars":0}\n'
BEGUN = b'{"format":4,"next":'  # how the text of each checkpoint begins
FRONT = b'{"format":'  # how each history begins, and so each file that is to take the place of a journal


class Ended:
    """How a command ended that was given this text, and how many bytes of it it had taken."""

    def __init__(self, command, text, **more):
        files = {"stdout": subprocess.PIPE, "stderr": subprocess.PIPE, **more}
        with tempfile.TemporaryFile() as given:
            given.write(text)
            given.seek(0)
            try:
                done = subprocess.run(command, stdin=given, timeout=SECONDS, check=False, **files)
            except subprocess.TimeoutExpired:
                done = subprocess.CompletedProcess(command, None, b"", b"no end")
            self.taken = os.lseek(given.fileno(), 0, os.SEEK_CUR)
        self.status, self.printed, self.said = done.returncode, done.stdout or b"", (done.stderr or b"").decode()

    def __str__(self):
        return f"status {self.status}, standard error {self.said!r}, printed {self.printed[-300:]!r}"


class Done(Ended):
    """How a run on a file ended."""

    def __init__(self, program, path, text, *words, **more):
        super().__init__([program, "run", "--journal", path, *words], text, **more)


class Living:
    """A run on a file that goes on: each line is answered before the next one is given."""

    def __init__(self, program, path, *words, **more):
        self.errors = tempfile.TemporaryFile()
        pipe = subprocess.PIPE
        command = [program, "run", "--journal", path, *words]
        self.process = subprocess.Popen(command, stdin=pipe, stdout=pipe, stderr=self.errors, **more)
        self.watchdog = threading.Timer(SECONDS, self.process.kill)
        self.watchdog.start()

    def __enter__(self):
        return self

    def __exit__(self, *_):
        self.end()
        self.errors.close()

    def ask(self, line):
        """The answer to a line, if it has one line; nothing if the run has ended."""
        with contextlib.suppress(BrokenPipeError):
            self.process.stdin.write(f"{line}\n".encode())
            self.process.stdin.flush()
        return self.process.stdout.readline().decode().rstrip("\n")

    def end(self):
        """Ends its input. Returns its status and what is on standard error."""
        if not self.process.stdin.closed:
            with contextlib.suppress(BrokenPipeError):
                self.process.stdin.close()
            self.process.stdout.read()
            self.process.stdout.close()
        status = self.process.wait()
        self.watchdog.cancel()
        self.errors.seek(0)
        return status, self.errors.read().decode()


def begun(path):
    """The file that a checkpoint of a journal begins beside it."""
    return path.with_name(f".{path.name}.stmdesk-new")


def plain(program, text, *words):
    """What the program prints without a journal."""
    return subprocess.run([program, "run", *words], input=text, capture_output=True, timeout=SECONDS, check=True).stdout


def front(text):
    """What a file stands for: its longest front of whole lines that each begin with `{` and have no byte 0."""
    length = 0
    for line in re.findall(rb"[^\n]*\n", text):
        if not line.startswith(b"{") or b"\0" in line:
            break
        length += len(line)
    return text[:length]


# The steps in which the front of a first batch is written: the byte that is to be its first one, its second, and the rest of the front.
STEPS = (b"\0", b'"', b'format":')


def is_foreign(text):
    """Whether a file is some other one: it has no line of a history, and isn't as far as one of the steps, of which any bytes may be there
    while it is written, nor past all of them."""
    if front(text):
        return False
    for step in STEPS:
        if len(text) <= len(step):
            return False
        if not text.startswith(step):
            return True
        text = text[len(step) :]
    return False


def dropped(path, count):
    """The message about the torn end of a file."""
    return f"stmdesk: {path}: dropped {count} bytes after the last whole line\n" if count else ""


def kept(program, path, text, *words):
    """The file after a run on it, which has to end well and silently."""
    done = Done(program, path, text, *words)
    if done.status or done.said:
        raise AssertionError(str(done))
    return path.read_bytes()


def judge_refused(done, path, status, message):
    """None, or how a run differs from one that doesn't open its file, and so reads and prints nothing."""
    if (done.status, done.said, done.printed, done.taken) != (status, f"stmdesk: {path}: {message}\n", b"", 0):
        return f"{done}, and it took {done.taken} bytes of its input, not status {status}, {message!r}"
    return None


def uncounted(printed):
    """What was printed, without the number of events that a checkpoint let go, which depends on the checkpoints that came by themselves, and
    without whether it could be made."""
    return re.sub(rb"(?m)^(checkpoint \d+|refused NoCheckpoint)$", b"checkpoint", printed)


def text_of(lines):
    return "".join(f"{it}\n" for it in lines).encode()


QUESTIONS = b"board\nstore\n"  # what they answer is a state: `board` also has what `show` answers


class States:
    """A script of which a read gets one line, or some: what is answered, and the state after each line."""

    def __init__(self, program, lines):
        self.lines, self.answers, self.states = lines, [], []
        self.declared = next(count for count, it in enumerate(lines) if not it.startswith("tvar"))  # recorded with the first other command
        for count in range(len(lines) + 1):
            text = text_of(lines[:count])
            answer = plain(program, text) if count else b""
            self.answers.append(uncounted(answer))
            self.states.append(plain(program, text + QUESTIONS)[len(answer) :])

    def place(self, program, path, printed, *words, ahead=1):
        """How many lines a file stands for after a crash, and None or what is wrong with that: they are the lines that were answered,
        perhaps with those that were read next, at most `ahead`. The start that finds it may repair the file."""
        left = path.read_bytes() if path.exists() else b""
        printed = uncounted(printed)
        if not self.answers[-1].startswith(printed):
            return 0, f"{printed[-200:]!r} was printed"
        count = next(count for count, it in enumerate(self.answers) if len(it) >= len(printed))
        done = Done(program, path, QUESTIONS, *words)
        if count <= self.declared and len(left) > 1 and left[:1] not in b"\0{":
            return 0, judge_refused(done, path, 3, "bad header")
        allowed = range(count, min(count + ahead, len(self.lines)) + 1)
        if count <= self.declared:
            allowed = [0, *range(self.declared, max(allowed[-1], self.declared) + 1)]
        found = next((it for it in allowed if self.states[it] == done.printed), None)
        if done.status or found is None:
            return 0, f"{count} lines were answered, and then {done}; the crash left {left[-300:]!r}"
        return found, None

    def judge(self, program, path, printed, *words, ahead=1):
        """None, or what is wrong with a file after a crash: it stands for the lines that were answered, perhaps with the next ones, and a
        run that goes on from there comes to the same end."""
        found, said = self.place(program, path, printed, *words, ahead=ahead)
        if said is None and found > self.declared:
            done = Done(program, path, text_of(self.lines[found:]) + QUESTIONS, *words)
            if done.status or not done.printed.endswith(self.states[-1]):
                return f"it goes on in another way: {done}"
            checked = subprocess.run([program, "check"], input=front(path.read_bytes()), capture_output=True, timeout=SECONDS, check=False)
            return f"the file is {checked.stdout}" if checked.returncode else None
        return said
