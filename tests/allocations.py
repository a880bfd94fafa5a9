"""Each allocation of a run refused in turn, from the first one on until a run meets none; of a large case only some.

The program stmdesk then does all that it does otherwise, or ends with status 4 behind a part of its answers. The program
that makes calls makes a refused call again, and its answers are the same; or it answers `no memory` and leaves it at that,
and the other answers are those of the script without this call."""

import re
import threading

import preload
import transcript
import words
from sweeps import Sweep

OUT_OF_MEMORY = b"stmdesk: out of memory\n"
FORMS = words.FORMS_OF_HELP + words.FORMS_OF_HELP_OF_RUN[:1] + words.FORMS_OF_HELP_OF_CHECK[:1] + words.REFUSED[:2]
FORMS += [["run", "--workers", "65"], ["run", "--workers", "3", "--levels=2"], ["check", "--levels", "1"]]
LEFT = re.compile(rb"(?m)^no memory (call )?(\d+)\n")


def prefixed(case, line):
    """The script with a line before it that answers nothing."""
    longer = transcript.Case(case.name, case.words, [(line, b"")] + case.steps)
    longer.is_large = case.is_large
    return longer


def ends_early(first, end):
    """The whole run, or a part of it from the front that ends with status 4. Where nothing is read, nothing is read."""
    if end.whole() == first.whole():
        return None
    front = first.stdout if first.taken else b""
    is_early = (end.returncode, end.stderr) == (4, OUT_OF_MEMORY) and front.startswith(end.stdout) and end.taken <= first.taken
    return None if is_early else "neither whole nor a part with status 4"


def ends_early_or_other(case):
    """The same of a storm, which writes nothing before its end, and whose events are open."""

    def judge(first, end):
        whole = (end.returncode, case.comparable(end.stdout), end.stderr) == (0, case.comparable(first.stdout), b"")
        return None if whole or end.whole() == (4, b"", OUT_OF_MEMORY) else "neither whole nor nothing with status 4"

    return judge


def makes_again(first, end):
    """The whole run."""
    return None if end.whole() == first.whole() else "other answers"


class Left:
    """Whether the answers are those of the script, or without one call that was refused memory."""

    def __init__(self, program, library, case):
        self.program, self.library = program, library
        self.lines = case.text.split(b"\n")
        self.ends = []  # of each step: where its answer ends, and the number of its last line
        length, count = 0, 0
        for line, answer in case.steps:
            length, count = length + len(answer), count + line.count(b"\n")
            self.ends.append((length, count))
        self.found, self.finding = {}, threading.Lock()  # the answers to scripts

    def __call__(self, first, end):
        if end.whole() == first.whole():
            return None
        left = LEFT.search(end.stdout)
        if end.returncode or end.stderr or not left:
            return "other answers"
        front, rest = end.stdout[: left.start()], end.stdout[left.end() :]
        if left[1]:
            answers = [self.answers(lines) for lines in self.without_call(len(front), int(left[2]))]
            is_right = any(it.startswith(front) and it[len(front) :].partition(b"\n")[2] == rest for it in answers)
        else:
            is_right = self.answers(self.without_line(int(left[2]))) == front + rest
        return None if is_right else "other answers than without the call"

    def without_line(self, number):
        return self.lines[: number - 1] + [b""] + self.lines[number:]

    def without_call(self, at, number):
        """The lines of the script with another call in the place of one, in the line that is answered where this byte is."""
        line = next(count for length, count in self.ends if at < length)
        *opening, text = self.lines[line - 1].split(b" ", 4)
        calls = text.split(b" / ")
        for other in others(calls[number]):
            made = b" / ".join(calls[:number] + [other] + calls[number + 1 :])
            yield self.lines[: line - 1] + [b" ".join([*opening, made])] + self.lines[line:]

    def answers(self, lines):
        text = b"\n".join(lines)
        with self.finding:
            if text not in self.found:
                case = transcript.Case("a script without a call")
                case.text = text
                self.found[text] = preload.ends(self.program, self.library, case)[0].stdout
            return self.found[text]


def others(call):
    """Calls of which one leaves a shared desk as this call does where it is refused memory; each is answered by one line. A
    worker has stopped the desk then, and made a part of its deliveries."""
    if not call.startswith(b"work "):
        return [b"hand_back 0"]
    _, deliveries, refusals = call.split(b" ")
    return [b"stop"] + [b"work %d %b" % (count, refusals) for count in range(1, int(deliveries))]


def numbers(first):
    return range(1, first.counted + 1)


def some(first):
    """Of a case that is large: the first, tenth, hundredth allocation and so on, and the last three."""
    powers = {10**power for power in range(len(str(first.counted)))}
    return sorted(powers | set(range(max(1, first.counted - 2), first.counted + 1)))


def as_wanted(case):
    """What is wrong with a run without a fault, where the case says what it answers."""

    def judge(first):
        is_right = (first.returncode, case.comparable(first.stdout)) == (case.status, case.comparable(case.printed))
        return None if is_right else transcript.shown(case, first.stdout)

    return judge


def sweep(name, run, library, case, judge, judge_first=None):
    if case.is_large:
        return Sweep(name, run, library, case, some, judge, judge_first, "chosen allocation")
    return Sweep(name, run, library, case, numbers, judge, judge_first, "allocation", ends_unmet=True)


def sweeps_of_program(program, library, cases):
    for case in cases:
        judge = ends_early_or_other(case) if case.events_are_open else ends_early
        yield sweep(f"stmdesk on {case.name}", program, library, case, judge, as_wanted(case))
    for form in FORMS:
        yield sweep(f"stmdesk on words {form}", program, library, words.of(form), ends_early)


def sweeps_of_calls(calls, library, scripts):
    for case in scripts:
        yield sweep(f"calls of {case.name}, made again", calls, library, case, makes_again, as_wanted(case))
        if not case.only_again:
            once = prefixed(case, b"memory once\n")
            yield sweep(f"calls of {case.name}, left at that", calls, library, once, Left(calls, library, once), as_wanted(case))
