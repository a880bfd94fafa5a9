"""Each answer is written before the next line is read: over pipes, a line is written only when the answer to the one before
it has come. Where only the end of the input is answered, the pipe is closed behind the last line. Nothing rests on time;
what waits for ever is ended after a minute, and that is a failure. And each answer that a case says ends where
docs/CONSOLE.md tells clients that it does."""

import os
import re
import subprocess
import threading

import transcript


def take(pipe, count):
    """So many bytes of a pipe, or fewer where it ends."""
    taken = b""
    while len(taken) < count:
        part = os.read(pipe.fileno(), count - len(taken))
        if not part:
            break
        taken += part
    return taken


class Giver(threading.Thread):
    """Writes a line, and closes the pipe behind it where that is asked for. It is a thread of its own, since many lines in
    one step may need more room than a pipe has, and so may their answers."""

    def __init__(self, pipe, line, closes):
        super().__init__(daemon=True)
        self.pipe, self.line, self.closes = pipe, line, closes
        self.is_broken = False
        self.start()

    def run(self):
        left = memoryview(self.line)
        try:
            while left:
                left = left[os.write(self.pipe.fileno(), left) :]
        except BrokenPipeError:
            self.is_broken = True
        if self.closes:
            self.pipe.close()


def talk(running, case):
    """What is wrong with the answers of a running program; None where nothing is."""
    for number, (line, answer) in enumerate(case.steps, 1):
        is_last = not line.endswith(b"\n") or (case.has_one_answer() and number == len(case.steps))
        giver = Giver(running.stdin, line, is_last)
        got = take(running.stdout, len(answer))
        if got != answer:
            running.kill()  # so that the giver ends while the pipe is still its own
            giver.join()
            return f"line {number} is answered {got[:200]!r}, not {answer[:200]!r}"
        giver.join()
        if giver.is_broken:
            return "the program ended before its input"
    if not running.stdin.closed:
        running.stdin.close()
    rest = running.stdout.read()
    return f"more is printed: {rest[:200]!r}" if rest else None


def judge(program, case):
    with subprocess.Popen(
        [program] + case.words,
        bufsize=0,
        stdin=subprocess.PIPE,
        stdout=subprocess.PIPE,
    ) as running:
        watchdog = threading.Timer(transcript.SECONDS, running.kill)
        watchdog.start()
        try:
            said = talk(running, case)
        finally:
            watchdog.cancel()
        if said:
            running.kill()
        status = running.wait()
    return said or (f"status {status}, not {case.status}" if status != case.status else None)


def length(lines):
    """How many lines the answer has with which these lines begin, by the rule that docs/CONSOLE.md gives to clients."""
    ends = (rb"#|cells ", b"cells "), (rb"\d|waiting ", b"waiting "), (rb'\{(?!"format":)|events ', b"events ")
    for front, last in ends:
        if re.match(front, lines[0]):
            return next(n for n, line in enumerate(lines, 1) if line.startswith(last))
    if lines[0].startswith(b"{"):
        return next((n for n, line in enumerate(lines) if not line.startswith(b"{")), len(lines))
    return 1


def judge_ends(case):
    """None, or the line whose answer doesn't end where the rule says."""
    left = case.printed.splitlines(keepends=True)
    for number, (line, answer) in enumerate(case.steps, 1):
        line = re.sub(rb"\r?\n$", b"", line)
        is_silent = len(line) <= 65536 and (line.startswith(b"--") or not line.strip(b"\t\r "))
        taken = 0 if is_silent else length(left)
        if b"".join(left[:taken]) != answer:
            return f"the answer to line {number} doesn't end where docs/CONSOLE.md says"
        left = left[taken:]
    return None


def judged(program, cases):
    for case in cases:
        if case.steps and case.status == 0 and not case.events_are_open:
            yield f"{case.name}, line by line", judge(program, case)
        if case.is_small_run() and case.goes_by_lines():
            yield f"{case.name}, where each answer ends", judge_ends(case)
