"""Reads the text of a history (docs/HISTORY.md) and replays it. It judges nothing: that is what `stmdesk check` is for."""

import itertools
import json
import os
import sys
from collections.abc import Callable, Iterable, Iterator
from dataclasses import dataclass, field
from typing import Any

import blocks

Object = dict[str, Any]
JUDGE = "`stmdesk check` judges histories"
NOT_AN_EVENT = (LookupError, TypeError, ValueError, ArithmeticError, RecursionError)  # what an object that is none raises


class NotDrawn(Exception):
    """Why there is no drawing."""


def clean(text: Any) -> str:
    """A text with single blanks and nothing that steers a terminal or is no character of XML."""
    return "".join(it if it.isprintable() else "?" for it in " ".join(str(text).split()))


def value_text(value: Any, first_new: int | None) -> str:
    """A value as the program prints it: `7`, `True`, `()`, `#0`, `new0`."""
    if isinstance(value, dict):
        if "old" in value:
            return f"#{value['old']}"
        return f"new{value['new']}" if first_new is None else f"#{first_new + value['new']}"
    return "()" if value is None else str(value)


def objects(lines: Iterable[bytes]) -> Iterator[tuple[int, Object]]:
    """The number and the object of each line, from the first that begins with a brace on."""
    begun = False
    for number, line in enumerate(lines, 1):
        begun = begun or line.startswith(b"{")
        if not begun:
            continue
        try:
            found = json.loads(line)
        except (ValueError, RecursionError):
            found = None
        if not isinstance(found, dict):
            raise NotDrawn(f"line {number} is no line of a history; {JUDGE}")
        yield number, found


@dataclass
class Head:
    """What comes before the events: the format, the lines of the variables, and from a checkpoint those of the blocks that wait already.
    Without one all variables are declared ones."""

    format: int
    variables: list[Object]
    waiting: list[Object] = field(default_factory=list)
    is_checkpoint: bool = False

    @property
    def numbers(self) -> dict[str, int]:
        """The number of each declared variable, by its name."""
        return {it["name"]: at for at, it in enumerate(self.variables) if it["name"] is not None}

    @property
    def names(self) -> dict[int, str]:
        """The name of each declared variable, by its number."""
        return {at: clean(name) for name, at in self.numbers.items()}

    @property
    def lines(self) -> int:
        return 1 + len(self.variables) + len(self.waiting)


def head(found: Iterator[tuple[int, Object]]) -> Head:
    """Takes the header, the lines of the variables, and those of the blocks that wait already."""
    nothing: tuple[int, Object] = (0, {})
    _, header = next(found, nothing)
    kind = header.get("format")
    is_checkpoint = kind == 4 or kind == 5 and "next" in header
    counts = (kind, header.get("vars"), header.get("waiting") if is_checkpoint else 0)
    if not all(type(it) is int and it >= 0 for it in counts) or kind not in (1, 2, 3, 4, 5):
        why = "" if header else ": no line begins with a brace (`explore --history` prints none if it finds no fault)"
        raise NotDrawn(f"this is no history of format 1 to 5{why}; {JUDGE}")
    variables = taken(found, header["vars"], "name", "variable", need_variable)
    waiting = taken(found, header["waiting"], "ticket", "waiting block", need_waiting) if is_checkpoint else []
    return Head(kind, variables, waiting, is_checkpoint)


def taken(found: Iterator[tuple[int, Object]], count: int, key: str, what: str, need_line: Callable[[Object], None]) -> list[Object]:
    """The next lines, each of which has a key and the shape that is needed there."""
    lines: list[Object] = []
    for number, line in itertools.islice(found, min(count, sys.maxsize)):
        if key not in line:
            break
        try:
            need_line(line)
        except NOT_AN_EVENT:
            raise NotDrawn(f"line {number} is no {what} that can be drawn here; {JUDGE}") from None
        lines.append(line)
    if len(lines) < count:
        raise NotDrawn(f"the lines of its {count} {what}s are not whole; {JUDGE}")
    return lines


# ---- The shapes of lines, as docs/HISTORY.md has them. What has another one raises one of NOT_AN_EVENT. --------------


def need(is_so: bool) -> None:
    if not is_so:
        raise ValueError


def need_number(it: Any) -> None:
    """The number of a ticket, a client or a variable."""
    need(type(it) is int and 0 <= it < 1 << 32)


def need_value(it: Any) -> None:
    if isinstance(it, dict):
        ((kind, number),) = it.items()
        need(kind in ("old", "new"))
        need_number(number)
    else:
        need(it is None or isinstance(it, (bool, int)))


def need_pairs(them: Any, need_first: Callable[[Any], None]) -> None:
    """The pairs of a list, of something and a value."""
    need(isinstance(them, list))
    for first, value in them:
        need_first(first)
        need_value(value)


def need_text(it: Any) -> None:
    need(isinstance(it, str))


def need_verdict(it: Any) -> None:
    if it == "blocks":
        return
    need(isinstance(it, dict))
    ((kind, what),) = it.items()
    if kind == "throws":
        need(what == "overflow" or type(what) is int)
        return
    need(kind == "commits" and isinstance(what, dict))
    need_pairs(what["news"], need_text)
    need_pairs(what["writes"], need_number)
    need_value(what["result"])


def need_variable(it: Object) -> None:
    need(it["name"] is None or isinstance(it["name"], str))
    need_text(it["type"])
    need_value(it["init"])


def need_waiting(it: Object) -> None:
    need_number(it["ticket"])
    need_text(it["block"])
    need_text(it.get("label", ""))
    need_number(it.get("cause", 0))
    need_pairs(it.get("changed", []), need_number)
    if "verdict" in it:
        need_verdict(it["verdict"])
        need_pairs(it["reads"], need_number)
        need(isinstance(it["stale"], bool))


def need_event(it: Object) -> None:
    kind = it["event"]
    need(kind in ("declared", "submitted", "installed", "finished", "cancelled", "labelled"))
    need_number(it.get("client", 0))
    if kind == "declared":
        need_text(it["name"])
        need_text(it["type"])
        need_value(it["init"])
        return
    need_number(it["ticket"])
    if kind == "submitted":
        need_text(it["block"])
    elif kind == "labelled":
        need_text(it["label"])
    elif kind != "cancelled":
        need_verdict(it["verdict"])
    if kind == "finished":
        need_number(it["first_new"])
        need(isinstance(it["stale"], list))
        for ticket in it["stale"]:
            need_number(ticket)


# ---- What happens ----------------------------------------------------------------------------------------------------


@dataclass
class Change:
    """A finish gave a variable another value."""

    variable: int
    before: Any
    after: Any


@dataclass
class Effect:
    """What an event does besides what its line says. `reads` is what an installed block reads, None if that isn't known. `changes`
    are the variables that a finish changes, and `causes` for each ticket that it makes stale those that its block had read; all
    that it changes, if that isn't known."""

    reads: frozenset[int] | None = None
    changes: list[Change] = field(default_factory=list)
    causes: dict[int, list[Change]] = field(default_factory=dict)


class Replay:
    """Follows the store over the events, and what each waiting block has read."""

    def __init__(self, found: Head) -> None:
        self.is_by_value = found.format >= 3
        self.cells = [self.value(it.get("init"), 0) for it in found.variables]
        self.declared = {name: ("old", at) for name, at in found.numbers.items()}
        self.actions: dict[str, blocks.Action] = {}
        self.texts: dict[int, str] = {}
        self.reads: dict[int, frozenset[int] | None] = {}
        for it in found.waiting:
            if it["ticket"] in self.texts:
                raise NotDrawn(f"ticket {it['ticket']} waits twice; {JUDGE}")
            self.texts[it["ticket"]] = it["block"]
            self.reads[it["ticket"]] = frozenset(variable for variable, _ in it["reads"]) if "reads" in it else None

    @staticmethod
    def value(value: Any, first_new: int | None) -> blocks.Value:
        """A value of a line as one of a block. A reference to a new variable is one to the variable that it becomes."""
        if not isinstance(value, dict):
            return value
        if "old" in value:
            return ("old", value["old"])
        return ("new", value["new"]) if first_new is None else ("old", first_new + value["new"])

    def step(self, event: Object) -> Effect:
        """Takes in an event. Raises one of NOT_AN_EVENT if it is none."""
        need_event(event)
        if event["event"] == "declared":
            need(event["name"] not in self.declared)
            self.declared[event["name"]] = ("old", len(self.cells))
            self.cells.append(self.value(event["init"], 0))
            return Effect()
        kind, ticket, effect = event["event"], event["ticket"], Effect()
        need((kind == "submitted") == (ticket not in self.texts))
        if kind == "submitted":
            self.texts[ticket], self.reads[ticket] = event["block"], None
        elif kind == "installed":
            effect.reads = self.reads[ticket] = self.reads_of(self.texts[ticket], event["verdict"])
        elif kind == "labelled":
            return effect
        else:
            del self.texts[ticket], self.reads[ticket]
        if kind == "finished":
            if event["verdict"] != "blocks" and "commits" in event["verdict"]:
                effect.changes = self.commit(event["verdict"]["commits"])
            for stale in event["stale"]:
                read = self.reads[stale]
                effect.causes[stale] = [it for it in effect.changes if read is None or it.variable in read]
        return effect

    def commit(self, commits: Object) -> list[Change]:
        """Makes the writes and the new variables. Returns what changed."""
        first_new, changes = len(self.cells), []
        self.cells += [self.value(value, first_new) for _, value in commits["news"]]
        for variable, value in commits["writes"]:
            after = self.value(value, first_new)
            if 0 <= variable < first_new:
                if after != self.cells[variable] or not self.is_by_value:
                    changes.append(Change(variable, self.cells[variable], after))
                self.cells[variable] = after
        return changes

    def reads_of(self, text: str, recorded: Any) -> frozenset[int] | None:
        """What a block reads of the present store, or None if its verdict there isn't the recorded one."""
        try:
            if text not in self.actions:  # one that is none now may be one when a variable more is declared
                self.actions[text] = blocks.parsed(text, self.declared)
            verdict, reads = blocks.outcome(self.actions[text], self.cells)
        except NOT_AN_EVENT:
            return None
        return frozenset(reads) if verdict == self.verdict(recorded) else None

    def verdict(self, recorded: Any) -> Any:
        """A verdict of a line as `blocks.outcome` returns it."""
        if recorded == "blocks":
            return recorded
        if "throws" in recorded:
            return ("throws", recorded["throws"])
        commits = recorded["commits"]
        writes = {variable: self.value(value, None) for variable, value in commits["writes"]}
        news = [self.value(value, None) for _, value in commits["news"]]
        return ("commits", writes, news, self.value(commits["result"], None))


def shown(value: blocks.Value) -> str:
    """A value of a block as the program prints it."""
    if isinstance(value, tuple):
        return f"#{value[1]}" if value[0] == "old" else f"new{value[1]}"
    return "()" if value is None else clean(value)


# ---- The command -----------------------------------------------------------------------------------------------------


def run(tool: str, path: str | None, draw: Callable[[Iterator[bytes]], str]) -> int:
    """Reads a history from the file of this path, or from standard input, and writes what `draw` makes of its lines. Returns the exit
    status, and says on standard error why it isn't 0."""
    try:
        with open(0 if path is None else path, "rb", closefd=path is not None) as source:
            left = draw(iter(source)).encode(errors="replace")
    except NotDrawn as why:
        print(f"{tool}: {why}", file=sys.stderr)
        return 3
    except OSError as error:
        print(f"{tool}: read fault: {reason(error)}", file=sys.stderr)
        return 1
    try:
        while left:
            left = left[os.write(1, left) :]
    except OSError as error:
        print(f"{tool}: write fault: {reason(error)}", file=sys.stderr)
        return 1
    return 0


def reason(error: OSError) -> str:
    """What an error of a file says, without its number."""
    said = error.strerror or str(error)
    return said if error.filename is None else f"{error.filename}: {said}"
