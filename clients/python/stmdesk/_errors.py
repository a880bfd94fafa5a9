"""What a call of a `Desk` raises."""

from __future__ import annotations

import re

from ._values import Fault, Ref, Settled

_WIDTH = 100  # characters of a line of the caller's text that an error shows
_PROGRAM = "stmdesk: "  # how each message of the program begins
JOURNAL_FAULT = f"{_PROGRAM}journal fault: "  # and that of a journal that can't be written


class DeskError(Exception):
    """The base class of all that a call raises because of the program. Wrong arguments raise ValueError or TypeError."""


class Refused(DeskError):
    """The program refused a command, which changed nothing but what docs/CONSOLE.md says.

    `name` is the refusal's name, as "Mismatch". `place` is the byte of `text` that caused it, counted from 0, or None.
    `variable` is the one that an "Overtaken" names, else None. `command` is the command's word and `text` its argument
    without leading blanks, so that `text[place]` is the cause. `hint` says what to write or do instead, or is None.

    >>> try:
    ...     desk.submit("do { a <- readTVar x; return a + 1 }")
    ... except Refused as refused:
    ...     print(refused)
    Unexpected 31
        submit do { a <- readTVar x; return a + 1 }
                                              ^
        hint: `return` takes one value: write `return (a + 1)`
    """

    def __init__(
        self,
        name: str,
        place: int | None = None,
        variable: Ref | None = None,
        command: str = "",
        text: str = "",
        hint: str | None = None,
    ) -> None:
        super().__init__(name, place, variable, command, text, hint)
        self.name, self.place, self.variable = name, place, variable
        self.command, self.text, self.hint = command, text, hint

    def __str__(self) -> str:
        lines = [self._answer()]
        if self.command:
            lines += self._shown()
        if self.hint is not None:
            lines.append(f"hint: {self.hint}")
        return "\n    ".join(lines)

    def _answer(self) -> str:
        """What the program printed after `refused`."""
        if self.variable is not None:
            return f"{self.name} #{self.variable.number}"
        return self.name if self.place is None else f"{self.name} {self.place}"

    def _shown(self) -> list[str]:
        """The line of the command in which the place is, or its first one; below it a caret under the place."""
        place = len(self.text.rstrip()) if self.name == "EndOfText" else self.place
        begin = self.text.rfind("\n", 0, place or 0) + 1
        line = self.text[begin:].partition("\n")[0].rstrip("\r").replace("\t", " ")
        label = f"line {self.text.count(chr(10), 0, begin) + 1}: " if begin else f"{self.command} "
        column = (place or 0) - begin
        if len(line) > _WIDTH:
            start = max(0, min(column - _WIDTH // 2, len(line) - _WIDTH))
            end = start + _WIDTH
            before, after = "... " if start else "", " ..." if end < len(line) else ""
            line, column = before + line[start:end] + after, column - start + len(before)
        shown = (label + line).rstrip()
        return [shown] if place is None else [shown, " " * (len(label) + column) + "^"]


class OtherType(Refused):
    """`Desk.variable` was given another type than the one with which the variable is declared: the type of a variable can't change. `name` is
    "OtherType", `declared` the type that it has, and `wanted` the other one.

    >>> desk.variable("x : Bool = True")
    Traceback (most recent call last):
    stmdesk.OtherType: x is declared as Int, and not as Bool
        variable x : Bool = True
        hint: a type can't change: declare a variable under another name, and carry the value over in a block
    """

    def __init__(self, named: str, declared: str, wanted: str, text: str) -> None:
        super().__init__("OtherType", command="variable", text=text)
        self.args = (named, declared, wanted, text)
        self.hint = "a type can't change: declare a variable under another name, and carry the value over in a block"
        self.declared, self.wanted = declared, wanted
        self._named = named

    def _answer(self) -> str:
        return f"{self._named} is declared as {self.declared}, and not as {self.wanted}"


class Stopped(Refused):
    """A `settle` or a `drain` stopped before a step that was refused as `name`. What `settled` counts was done before, and stays.

    >>> with Desk(max_events=1) as small:
    ...     ticket = small.submit("retry")
    ...     small.settle()
    Traceback (most recent call last):
    stmdesk.Stopped: HistoryFull, 0 finished by 0 evaluations
    """

    def __init__(self, name: str, settled: Settled) -> None:
        super().__init__(name)
        self.args = (name, settled)
        self.settled = settled

    def __str__(self) -> str:
        return f"{self.name}, {self.settled.finished} finished by {self.settled.evaluations} evaluations"


class Thrown(DeskError):
    """The block of an `atomically` threw `fault`: a number, or "overflow". It changed nothing.

    >>> desk.atomically("throw 4")
    Traceback (most recent call last):
    stmdesk.Thrown: the block threw 4
    """

    def __init__(self, fault: Fault) -> None:
        super().__init__(fault)
        self.fault = fault

    def __str__(self) -> str:
        return f"the block threw {self.fault}"


class TimedOut(DeskError, TimeoutError):
    """The block of an `atomically` couldn't finish within `timeout` seconds. It was cancelled, and changed nothing.

    >>> desk.atomically("retry", timeout=0.01)
    Traceback (most recent call last):
    stmdesk.TimedOut: the block couldn't finish within 0.01 seconds
    """

    def __init__(self, timeout: float) -> None:
        super().__init__(timeout)
        self.timeout = timeout

    def __str__(self) -> str:
        return f"the block couldn't finish within {self.timeout:g} seconds"


class Cancelled(DeskError):
    """Another call has cancelled the ticket of a block that waited in `atomically`. The block changed nothing.

    >>> import threading
    >>> def cancel():
    ...     while not desk.show():
    ...         pass
    ...     desk.cancel(desk.show()[0].ticket)
    >>> threading.Thread(target=cancel).start()
    >>> desk.atomically("retry")
    Traceback (most recent call last):
    stmdesk.Cancelled: the block was cancelled
    """

    def __str__(self) -> str:
        return "the block was cancelled"


class ScriptRefused(DeskError):
    """A line of the script of `explore` is invalid, so nothing was explored. `line` is its number, counted from 1, and `text`
    the line, which is empty if the script ends too early; of a block on several lines that of the first, and all of them.

    `reason` is the name of what is wrong (docs/STORM.md, "Scripts"), as "Mismatch" or "no client". `place` is the byte of the line's
    argument that caused it, counted from 0, or None: the argument is what follows the line's word and the blanks after it. `hint`
    says what to write instead, or is None.

    >>> explore("client\\nsubmit readTVar z")
    Traceback (most recent call last):
    stmdesk.ScriptRefused: line 2 of the script is refused: Unknown 9
        submit readTVar z
                        ^
        hint: nothing of this name is declared
    >>> explore("tvar x : Int = 1")
    Traceback (most recent call last):
    stmdesk.ScriptRefused: the script is refused at its end, line 2: no client
        hint: what a client does begins with a line `client`
    """

    def __init__(self, line: int, text: str, reason: str = "", place: int | None = None, hint: str | None = None) -> None:
        super().__init__(line, text, reason, place, hint)
        self.line, self.text, self.reason, self.place, self.hint = line, text, reason, place, hint

    def __str__(self) -> str:
        word, *argument = self.text.split(None, 1)[:2] or [""]
        refused = Refused(self.reason, self.place, None, word, "".join(argument), self.hint)
        where = f"line {self.line} of the script is refused" if self.text else f"the script is refused at its end, line {self.line}"
        answer, *shown = str(refused).split("\n")
        if shown and (found := re.match(r"    line (\d+): ", shown[0])):  # of a block on several lines, of which the first is `line`
            label = f"    line {self.line + int(found[1]) - 1}: "
            shown = [label + shown[0][found.end() :], " " * (len(label) - found.end()) + shown[1], *shown[2:]]
        return "\n".join([f"{where}: {answer}" if self.reason else where, *shown])


class Ended(DeskError):
    """The program has ended, and with it the desk or the exploration. `status` is its exit status, negative for a signal; `said` is the end
    of what it wrote on standard error.

    >>> Desk(workers=65).store()
    Traceback (most recent call last):
    stmdesk.Ended: the program ended with status 2: error: invalid value '65' for '--workers <N>': 65 is not in 1..=64
    <BLANKLINE>
    For more information, try '--help'.
    """

    def __init__(self, status: int, said: str) -> None:
        super().__init__(status, said)
        self.status, self.said = status, said

    def __str__(self) -> str:
        return f"the program ended with status {self.status}" + (f": {self.said}" if self.said else "")


class JournalError(Ended):
    """The program has ended because of its journal: `Desk(journal=..)` raises this if the file isn't opened, and a later call
    if it can't be written any more. `said` ends with the program's message; docs/JOURNAL.md has the messages, and what to do.

    >>> Desk(journal="/")
    Traceback (most recent call last):
    stmdesk.JournalError: /: is a directory
    """

    def __str__(self) -> str:
        _, is_there, message = self.said.rpartition(_PROGRAM)
        return message if is_there else super().__str__()


class OutOfMemory(DeskError, MemoryError):
    """There was no memory for a command of a desk of `Desk(local=True)`. The desk goes on. The command was done, or not; `eval`, `settle`
    and `drain` may be done in part; and a block of `atomically` may have finished, or wait under a ticket. So look at the desk, by `show`
    or `events`, before you give it again. Of a batch, the commands before it were done, and those after it weren't.

    >>> print(OutOfMemory("a new desk"))
    there was no memory for a new desk
    """

    def __init__(self, what: str) -> None:
        super().__init__(what)
        self.what = what

    def __str__(self) -> str:
        return f"there was no memory for {self.what}"


class BadAnswer(DeskError):
    """The program printed what stmdesk never prints, so it was ended. `line` is the command, `answer` what came.

    >>> print(BadAnswer("submit retry", "hello"))
    'submit retry' was answered 'hello'
    """

    def __init__(self, line: str, answer: str) -> None:
        super().__init__(line, answer)
        self.line, self.answer = line, answer

    def __str__(self) -> str:
        return f"{self.line[:80]!r} was answered {self.answer[:200]!r}"


class DeskClosed(DeskError):
    """No server took the call of a desk of `connect`: it had no effect, and has none later. As text it says why.

    >>> connect("/no/such/socket")
    Traceback (most recent call last):
    stmdesk.DeskClosed: no server at /no/such/socket: No such file or directory
    """


class OutcomeUnknown(DeskError):
    """A call of a desk of `connect` was sent and its answer didn't come: it had its effect once or not at all, or, if its server still runs,
    will have it once. Look at the desk before you make it again.

    >>> print(OutcomeUnknown("the connection ended"))
    the connection ended
    """
