"""The program over standard input, output and error that fail or give little.

Which calls fail goes by a rule, and not by time: each of the first 200, each 97th up to 5,000, and each 9,973rd above; of a
reader also those at the end of each line."""

import re

import transcript
import words
from sweeps import Sweep

LONG = 500_000  # bytes; a case that is longer is not run on such devices
READ_FAULT = b"stmdesk: read fault\n"
WRITE_FAULT = b"stmdesk: write fault\n"
SLOW = [  # devices that change nothing
    {"READ_SHORT": 1},
    {"WRITE_SHORT": 1},
    {"WRITE_INTERRUPTS": 1},
    {"READ_SHORT": 1, "READ_INTERRUPTS": 1, "WRITE_SHORT": 1, "WRITE_INTERRUPTS": 1},
]


def calls(most):
    """The calls that fail, of so many."""
    return sorted({*range(1, min(most, 200) + 1), *range(200, min(most, 5_000) + 1, 97), *range(5_000, most + 1, 9_973)})


def lines_of(case):
    """The lines of a case with the answer to each; None where a step leaves it open which line is answered what."""
    found = []
    for text, answer in case.steps:
        lines, answers = ([text], [answer]) if text.count(b"\n", 0, -1) == 0 else map(lines_in, (text, answer))
        if len(lines) != len(answers):
            return None
        found += zip(lines, answers)
    return found


def lines_in(text):
    return re.findall(rb"[^\n]*\n|[^\n]+", text)


def ends_of(lines):
    """Of each line, how many calls read it whole, byte by byte, and how much is printed then."""
    whole, printed, ends = 0, 0, []
    for line, answer in lines:
        whole, printed = whole + len(line), printed + len(answer)
        ends.append((whole if line.endswith(b"\n") else whole + 1, printed))
    return ends


def is_as(end, returncode, stdout, stderr):
    return None if end.whole() == (returncode, stdout, stderr) else "not so"


class Devices:
    def __init__(self, program, library):
        self.program, self.library = program, library

    def sweep(self, name, case, numbers, judge, judge_first=None, **faults):
        return Sweep(name, self.program, self.library, case, numbers, judge, judge_first, "call", **faults)

    def slow(self, case):
        """A byte a call, and interrupted calls, change nothing."""

        def judge_first(first):
            if first.whole() == (case.status, case.printed, case.errors):
                return None
            return f"status {first.returncode}, {first.stderr!r}\n{transcript.shown(case, first.stdout)}"

        for faults in SLOW:
            name = f"{case.name}, {' '.join(faults)}"
            yield self.sweep(name, case, lambda first: [], None, judge_first, **faults)

    def reader(self, case, lines):
        """A reader of a byte a call that fails: what was printed is the answers to the lines that were whole."""
        ends = ends_of(lines)
        most = len(case.text) + 1
        at_ends = {call for end, _ in ends for call in (end, end + 1) if call <= most}

        def judge(first, end):
            printed = max((printed for whole, printed in ends if whole < end.number), default=0)
            return is_as(end, 1, case.printed[:printed], READ_FAULT)

        numbers = sorted({*calls(most), *at_ends})
        return self.sweep(f"{case.name}, a reader that fails", case, lambda first: numbers, judge, READ_SHORT=1, READ_FAILS=1)

    def reader_of_file(self, case):
        """The same where only the end of the input is answered: the answer needs what was read, or the fault is told."""

        def judge(first, end):
            ends = [(1, b"", READ_FAULT)]
            if case.status == 3 and end.number > 1:
                ends.append((case.status, case.printed, case.errors))
            return None if end.whole() in ends else "not so"

        numbers = calls(len(case.text) + 1)
        return self.sweep(f"{case.name}, a reader that fails", case, lambda first: numbers, judge, READ_SHORT=1, READ_FAILS=1)

    def writers(self, case, reads=True):
        """A writer of a byte a call that fails: all before is printed. Where standard error fails too nothing changes."""

        def judging(errors):
            def judge(first, end):
                said = is_as(end, 1, first.stdout[: end.number - 1], errors)
                return said or (None if reads or not end.taken else f"{end.taken} bytes were read")

            return judge

        numbers = lambda first: calls(len(first.stdout))
        slow = {"WRITE_SHORT": 1, "WRITE_FAILS": 1}
        yield self.sweep(f"{case.name}, a writer that fails", case, numbers, judging(WRITE_FAULT), **slow)
        yield self.sweep(f"{case.name}, a writer that fails with standard error", case, numbers, judging(b""), ERRORS_FAIL=1, **slow)

    def writer_of_texts(self, case):
        """A writer of whole texts that fails: a part of the answers from the front is printed."""

        def judge(first, end):
            is_part = end.returncode == 1 and case.printed.startswith(end.stdout) and end.stderr == WRITE_FAULT
            return None if is_part else "no part of the answers with status 1"

        numbers = lambda first: calls(first.counted)
        return self.sweep(f"{case.name}, a writer of whole texts that fails", case, numbers, judge, WRITE_FAILS=1)


def sweeps(program, library, cases):
    devices = Devices(program, library)
    for case in cases:
        if case.status not in (0, 3) or not case.text or len(case.text) > LONG or case.events_are_open:
            continue
        yield from devices.slow(case)
        lines = lines_of(case)
        if case.has_one_answer():
            yield devices.reader_of_file(case)
        elif lines is not None:
            yield devices.reader(case, lines)
        if case.printed:
            yield from devices.writers(case)
            yield devices.writer_of_texts(case)
    for form in words.FORMS_OF_HELP[:1] + words.FORMS_OF_HELP_OF_RUN[:1] + words.FORMS_OF_HELP_OF_CHECK[:1]:
        yield from devices.writers(words.of(form), reads=False)
