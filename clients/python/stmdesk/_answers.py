"""Reads the program's answers, whose texts docs/CONSOLE.md fixes, as values."""

from __future__ import annotations

import json
import re
from collections.abc import Sequence
from typing import Any

from ._errors import Refused, Stopped
from ._hints import JOURNAL, SERVER, hint
from ._values import (
    Blocks, Cancellation, Cell, Change, Commits, Current, Declaration, Delivery, Entry, Event, Events, Fault, FinalCell, FinalStore, Finish,
    Finished, FinishedThrows, Job, Labelling, New, NewRef, Ready, Reason, Ref, Settled, Stale, StaleBefore, StaleBy, Status, Store, Submission, Throws,
    Value, Verdict, Waiting, Waits,
)  # fmt: skip

_CONSTANTS: dict[str, bool | None] = {"True": True, "False": False, "()": None}
_BLOCKS = Blocks()  # it never changes, so one is enough
_CELL = re.compile(r"#(\d+) (?:(\S+) )?: (.+) = (\S+) count (\d+)")
_FINAL_CELL = re.compile(r"#(\d+) (?:(\S+) )?: (.+) = (\S+)")


class Answers:
    """Reads the answers of one desk. It knows the declared variables, so that each `Ref` gets its name.

    Each method raises ValueError or LookupError if the program never prints such a text. `words` are the words of a line,
    `lines` all lines of an answer.
    """

    def __init__(self) -> None:
        self.refs: dict[str, Ref] = {}  # of each declared variable, by its text
        self.named: dict[str, Ref] = {}  # the same, by its name
        self.types: dict[str, str] = {}  # of each declared name
        self.first: str | None = None  # the command that ended the declarations

    def tvar(self, words: Sequence[str]) -> Ref:
        """`tvar #0 x` or `declared #7 x`: the variable, whose name is kept."""
        if not words[1].startswith("#"):
            raise ValueError("no variable")
        self.refs[words[1]] = self.named[words[2]] = ref = Ref(int(words[1].removeprefix("#")), words[2])
        return ref

    def note(self, command: str, text: str, answer: object) -> None:
        """Keeps what hints need of a command and its answer: types of variables, and which command ended the declarations."""
        if command == "declared":
            return
        if isinstance(answer, Refused):
            is_first = command != "tvar" and answer.name not in ("Command", "LineTooLong", "NotAscii")
        else:
            is_first = command != "tvar"
            if isinstance(answer, Ref) and answer.name is not None and command in ("tvar", "declare"):
                self.types[answer.name] = " ".join(text.partition(":")[2].partition("=")[0].split())
        if is_first and self.first is None:
            self.first = command

    def go_on(self, store: Store) -> None:
        """Takes over the variables of a desk that goes on from a journal."""
        self.first = JOURNAL
        for cell in store:
            if cell.name is not None:
                self.refs[f"#{cell.variable.number}"] = self.named[cell.name] = cell.variable
                self.types[cell.name] = cell.type

    def declared(self, lines: Sequence[str]) -> bool:
        """The lines of a server's `declared`: `#0 x : Int` for each variable, then `declared 1 open`, or `late` if `tvar` declares none
        any more. Takes over the variables, and returns whether it is late."""
        _, count, state = lines[-1].split(" ")
        if int(count) != len(lines) - 1 or state not in ("open", "late"):
            raise ValueError("no declarations")
        for it in lines[:-1]:
            number, name, _, kind = it.split(" ", 3)
            self.refs[number] = self.named[name] = Ref(int(number.removeprefix("#")), name)
            self.types[name] = kind
        if state == "late" and self.first is None:
            self.first = SERVER
        return state == "late"

    def forget(self) -> None:
        """Forgets all variables: the desk is another one."""
        self.refs.clear()
        self.named.clear()
        self.types.clear()
        self.first = None

    def ref(self, text: str) -> Ref:
        """`#0`"""
        return self.refs.get(text) or Ref(int(text.removeprefix("#")))

    def value(self, text: str) -> Value:
        """`7`, `True`, `()`, `#0` or `new0`"""
        if text.isdigit():
            return int(text)
        if text in _CONSTANTS:
            return _CONSTANTS[text]
        if text.startswith("#"):
            return self.ref(text)
        return NewRef(int(text[3:])) if text.startswith("new") else int(text)

    def pairs(self, words: Sequence[str]) -> dict[Ref, Value]:
        """`#0=1 #2=True`, or `none`"""
        found: dict[Ref, Value] = {}
        for word in words:
            if word != "none":
                variable, value = word.split("=")
                found[self.refs.get(variable) or self.ref(variable)] = self.value(value)
        return found

    def reads(self, words: Sequence[str]) -> dict[Ref, Value]:
        """`reads #0=1`"""
        return self.pairs(words[1:])

    def verdict(self, words: Sequence[str]) -> Verdict:
        """`commits writes #0=2 news none result 1`, `throws 4` or `blocks`"""
        if words[0] == "commits":
            if len(words) == 7:  # at most one write and one new variable: the usual case, which is worth some time
                _, _, write, news_is, new, result_is, value = words
                if news_is == "news" and result_is == "result":
                    writes: dict[Ref, Value] = {}
                    if write != "none":
                        variable, written = write.split("=")
                        writes[self.refs.get(variable) or self.ref(variable)] = self.value(written)
                    return Commits(writes, [] if new == "none" else [self.value(new)], self.value(value))
            news = words.index("news")
            result = words.index("result", news)
            made = [] if words[news + 1] == "none" else [self.value(word) for word in words[news + 1 : result]]
            return Commits(self.pairs(words[2:news]), made, self.value(words[result + 1]))
        if words[0] == "throws":
            return Throws(fault(words[1]))
        if words[0] == "blocks" and len(words) == 1:
            return _BLOCKS
        raise ValueError("no verdict")

    def status(self, words: Sequence[str]) -> Status:
        """A line of `show`: `1 new`, `1 stale VERDICT` or `1 current VERDICT`"""
        ticket, state = int(words[0]), words[1]
        if state == "new":
            return New(ticket)
        if state == "stale":
            return Stale(ticket, self.verdict(words[2:]))
        if state == "current":
            return Current(ticket, self.verdict(words[2:]))
        raise ValueError("no status")

    def statuses(self, lines: Sequence[str]) -> list[Status]:
        """The lines of `show`"""
        return [self.status(line.split(" ")) for line in counted(lines)]

    def board(self, lines: Sequence[str]) -> list[Entry]:
        """The lines of `board`: each is one of `show`, with a label or `-` after it"""
        entries = []
        for line in counted(lines):
            *words, label = line.split(" ")
            entries.append(Entry(self.status(words), None if label == "-" else label))
        return entries

    def waiting(self, lines: Sequence[str]) -> list[int]:
        """The tickets of the lines of `show`"""
        return [int(line.partition(" ")[0]) for line in counted(lines)]

    def tickets(self, words: Sequence[str]) -> list[int]:
        """`ready 1 3`, or `ready none`"""
        return [int(word) for word in words[1:] if word != "none"]

    def changes(self, words: Sequence[str]) -> dict[Ref, Change]:
        """`#0=1->5 #1=#0->#2`"""
        found: dict[Ref, Change] = {}
        for word in words:
            variable, values = word.split("=")
            read, left = values.split("->")
            found[self.ref(variable)] = Change(self.value(read), self.value(left))
        return found

    def reason(self, words: Sequence[str]) -> Reason:
        """`why 1 new`, `why 1 stale 3 #0=1->5`, `why 1 stale checkpoint`, `why 1 waits #0=1` or `why 1 ready`"""
        ticket, state = int(words[1]), words[2]
        if state == "stale":
            if words[3:] == ["checkpoint"]:
                return StaleBefore(ticket)
            return StaleBy(ticket, int(words[3]), self.changes(words[4:]))
        if state == "waits":
            return Waits(ticket, self.pairs(words[3:]))
        if state == "new":
            return New(ticket)
        if state == "ready":
            return Ready(ticket)
        raise ValueError("no reason")

    def finished(self, words: Sequence[str]) -> Finished | FinishedThrows:
        """`finished 3 result () stale 1 2` or `finished 3 throws 4`"""
        ticket = int(words[1])
        if words[2] == "throws":
            return FinishedThrows(ticket, fault(words[3]))
        if words[2] != "result" or words[4] != "stale":
            raise ValueError("no finish")
        stale = [] if words[5] == "none" else [int(word) for word in words[5:]]
        return Finished(ticket, self.value(words[3]), stale)

    def ran(self, words: Sequence[str]) -> Finished | FinishedThrows | Waiting:
        """`waits 3`, or what `finish` is answered"""
        if words[0] == "waits":
            return Waiting(int(words[1]))
        if words[0] != "finished":
            raise ValueError("no run")
        return self.finished(words)

    def cell(self, line: str) -> Cell:
        """A line of `store`: `#0 x : Int = 1 count 0`"""
        found = _CELL.fullmatch(line)
        if not found:
            raise ValueError("no variable")
        number, name, kind, value, count = found.groups()
        return Cell(Ref(int(number), name), name, kind, self.value(value), int(count))

    def cells(self, lines: Sequence[str]) -> Store:
        """The lines of `store`"""
        return Store(self.cell(line) for line in counted(lines))

    def final_cell(self, line: str) -> FinalCell:
        """A line of a store of `explore`: `#0 x : Int = 1`"""
        found = _FINAL_CELL.fullmatch(line)
        if not found:
            raise ValueError("no variable")
        number, name, kind, value = found.groups()
        return FinalCell(Ref(int(number), name), name, kind, self.value(value))

    def final_cells(self, lines: Sequence[str]) -> FinalStore:
        """The lines of a store of `explore`"""
        return FinalStore(self.final_cell(line) for line in counted(lines))

    def second(self, words: Sequence[str]) -> int:
        """The number after the first word, as in `ticket 1` and `checkpoint 12`"""
        return int(words[1])

    def labelled(self, words: Sequence[str]) -> None:
        """`labelled 3 job7`, or `labelled 3 -`: the ticket and the label are those of the command."""
        _, ticket, _ = words
        int(ticket)

    def block(self, words: Sequence[str]) -> str:
        """`block 3 do { .. }`: the text after the ticket, byte for byte"""
        int(words[1])
        if len(words) < 3:
            raise ValueError("no block")
        return " ".join(words[2:])

    def nothing(self, words: Sequence[str]) -> None:
        """`queued 1` or `cancelled 1`: the number is that of the command."""
        int(words[1])

    def jobs(self, words: Sequence[str]) -> list[Job]:
        """`jobs 1=4 2=5`, or `jobs none`"""
        pairs = (word.split("=") for word in words[1:] if word != "none")
        return [Job(int(number), int(ticket)) for number, ticket in pairs]

    def settled(self, words: Sequence[str]) -> Settled | Refused:
        """`settled 1 evaluations 2`, or the same after `stopped HistoryFull`"""
        return run("settled", words)

    def drained(self, words: Sequence[str]) -> Settled | Refused:
        """`drained 1 evaluations 2`, or the same after `stopped HistoryFull`"""
        return run("drained", words)

    def history(self, lines: Sequence[str]) -> str:
        """The lines before the last one, which answers `try return ()`, as one text"""
        if len(lines) < 2 or lines[-1] != "commits writes none news none result ()":
            raise ValueError("no history")
        return "\n".join([*lines[:-1], ""])

    def events(self, lines: Sequence[str]) -> Events:
        """The lines of `events`: those of the events, then `events 12`, how many there are in the history"""
        count = int(lines[-1].split(" ")[1])
        number = count + 2 - len(lines)  # of the first of them
        if number < 1:
            raise ValueError("another number of events")
        events = [self.event(number + at, line) for at, line in enumerate(lines[:-1])]
        return Events(events, count + 1, "\n".join([*lines[:-1], ""]))

    def event(self, number: int, line: str) -> Event:
        """The line of an event in a history (docs/HISTORY.md)"""
        try:
            found = json.loads(line)
        except (json.JSONDecodeError, RecursionError):
            found = None
        if not isinstance(found, dict) or type(found.get("client")) is not int:
            raise ValueError("no event")
        kind = found["event"]
        if kind == "declared":
            return Declaration(number, found["client"], found["name"], found["type"], self.recorded(found["init"]))
        if type(found.get("ticket")) is not int:
            raise ValueError("no event")
        head = (number, found["client"], found["ticket"])
        if kind == "submitted":
            return Submission(*head, found["block"])
        if kind == "installed":
            return Delivery(*head, self.recorded_verdict(found["verdict"]))
        if kind == "finished":
            return Finish(*head, self.recorded_verdict(found["verdict"]), found["first_new"], found["stale"])
        if kind == "cancelled":
            return Cancellation(*head)
        if kind == "labelled":
            return Labelling(*head, found["label"] or None)
        raise ValueError("no event")

    def recorded_verdict(self, found: Any) -> Verdict:
        """A verdict of a history"""
        if found == "blocks":
            return _BLOCKS
        if not isinstance(found, dict):
            raise ValueError("no verdict")
        if "throws" in found:
            return Throws(found["throws"])
        commits = found["commits"]
        writes = {self.ref(f"#{variable}"): self.recorded(value) for variable, value in commits["writes"]}
        return Commits(writes, [self.recorded(value) for _, value in commits["news"]], self.recorded(commits["result"]))

    def recorded(self, value: Any) -> Value:
        """A value of a history: a number, a Bool, null, or the object of a reference"""
        if isinstance(value, dict):
            return self.ref(f"#{value['old']}") if "old" in value else NewRef(value["new"])
        if value is None or isinstance(value, int):
            return value
        raise ValueError("no value")

    def refusal(self, words: Sequence[str], command: str, text: str) -> Refused:
        """`refused NAME`, with a place or a `#id` after it: the refusal of the command with this argument."""
        name = words[1]
        place: int | None = None
        variable: Ref | None = None
        if len(words) > 2 and words[2].startswith("#"):
            variable = self.ref(words[2])
        elif len(words) > 2:
            place = int(words[2])
        found = hint(name, place, variable, command, text, self.types, self.first)
        return Refused(name, place, variable, command, text, found)


def fault(word: str) -> Fault:
    """What a block throws: a number, or `overflow`"""
    return "overflow" if word == "overflow" else int(word)


def run(done: str, words: Sequence[str]) -> Settled | Refused:
    """What `settle` or `drain` did: `settled 1 evaluations 2`, where `done` is the first word, or the same after `stopped HistoryFull`"""
    is_stopped = words[0] == "stopped"
    counts = words[2:] if is_stopped else words
    if [counts[0], counts[2]] != [done, "evaluations"]:
        raise ValueError("no counts")
    settled = Settled(int(counts[1]), int(counts[3]))
    return Stopped(words[1], settled) if is_stopped else settled


def counted(lines: Sequence[str]) -> Sequence[str]:
    """The lines before the last one, which counts them, as `cells 3`"""
    if int(lines[-1].split(" ")[1]) != len(lines) - 1:
        raise ValueError("another number of lines")
    return lines[:-1]
