"""The commands of the console: what each sends, where its answer ends, what reads it; and the answer to one that was given."""

from __future__ import annotations

import re
from collections.abc import Callable, Sequence
from copy import copy
from dataclasses import dataclass
from functools import cached_property
from operator import index
from typing import Generic, TypeVar

from ._answers import Answers
from ._errors import Refused
from ._transport import Odd, Transport
from ._values import Entry, Events, Finished, FinishedThrows, Job, Reason, Ref, Settled, Status, Store, Value, Verdict, Waiting

# How many tickets wait, variables are, and events happen at most.
WAITING_LIMIT = 65_536
CELLS_LIMIT = 1_000_000
EVENTS_LIMIT = 1_048_576

LABEL_LENGTH = 64  # characters that a label has at most

_CONTROL = re.compile(r"[\x00-\x08\x0b\x0c\x0e-\x1f\x7f]|\r(?!\n)")  # all but the tab, the line feed and CR LF

T = TypeVar("T")


@dataclass(frozen=True, eq=False)
class Command(Generic[T]):
    """A command of the console. `read` is called with the words of the answer's line, or with all its lines if there is a `take`."""

    word: str
    read: Callable[[Answers, Sequence[str]], T | Refused]
    begin: str | None = None  # the first word of each answer but a refusal, if that is always the same
    take: Callable[[Transport, str], list[str]] | None = None  # takes the lines of an answer of many, given the first
    then: str = ""  # what is sent after it
    declares: bool = False  # whether its text has the type of a variable, which hints need
    is_seen: bool = False  # whether its answer may say what came of a block that `atomically` waits for

    def sent(self, text: str) -> bytes:
        """What is sent. Raises ValueError if the argument has a control character, and TypeError if it is no text."""
        try:
            line = text if str.isprintable(text) else _in_one_line(text)
        except TypeError:
            raise TypeError(f"{self.word} takes a text, and not {text!r}") from None
        return f"{self.word} {line}\n".encode() if text else self.bare

    @cached_property
    def bare(self) -> bytes:
        """What is sent if there is no argument."""
        return f"{self.word}\n{self.then}".encode()


class Unset:
    """What an answer holds that isn't there yet."""


UNSET = Unset()


class Answer(Generic[T]):
    """The answer to a command of a batch. It is there when the `with` of the batch has ended.

    >>> with desk.batch() as batch:
    ...     answer = batch.eval()
    >>> answer.result()
    0
    """

    __slots__ = ("command", "error", "sent", "text", "value")

    def __init__(self, command: Command[T], text: str = "") -> None:
        """Raises ValueError if the text has a control character, and TypeError if it is no text."""
        self.command = command
        self.text = text
        self.sent = command.sent(text)
        self.value: T | Unset = UNSET
        self.error: Exception | None = None

    def fail(self, error: BaseException) -> None:
        """The answer, if it isn't there, doesn't come, since the error broke the batch off."""
        if not self.is_there():
            self.error = copy(error) if isinstance(error, Exception) else RuntimeError("the batch was broken off")

    def is_there(self) -> bool:
        """Whether a result or an error is there."""
        return self.error is not None or not isinstance(self.value, Unset)

    def result(self) -> T:
        """What the method of `Desk` of this name returns. Raises what it raises: `Refused` for a refused command.

        >>> with desk.batch() as batch:
        ...     wrong = batch.finish(7)
        >>> wrong.result()
        Traceback (most recent call last):
        stmdesk.Refused: NoTicket
            finish 7
            hint: no block waits under this ticket: it finished, or was cancelled, or never was
        """
        if self.error is not None:
            raise self.error
        if isinstance(self.value, Unset):
            raise RuntimeError("the batch isn't sent yet")
        return self.value

    def line(self) -> str:
        """The line that was sent, without its line feed."""
        return self.sent.decode().partition("\n")[0]


def _in_one_line(text: str) -> str:
    """The text in which each line feed is a blank, and a carriage return before it, too."""
    found = _CONTROL.search(text)
    if found:
        raise ValueError(f"control character {found[0]!r} at {found.start()} of {text[:80]!r}")
    return text.replace("\r", " ").replace("\n", " ")


def decimal(number: int) -> str:
    """The text of a number as an argument. Raises TypeError if it is no number."""
    return str(index(number))


def number_of(job: Job | int) -> str:
    """The number of a job as an argument."""
    return decimal(job.number if isinstance(job, Job) else job)


def ticket_of(block: Waiting | int) -> str:
    """The ticket of a block as an argument."""
    return decimal(block.ticket if isinstance(block, Waiting) else block)


def checked_label(label: str) -> str:
    """The label. Raises ValueError if no block can have it, and TypeError if it is no text."""
    if not isinstance(label, str):
        raise TypeError(f"a label is a text, and not {label!r}")
    if not 0 < len(label) <= LABEL_LENGTH or label == "-" or not all("!" <= it <= "~" for it in label):
        said = f"{label[:LABEL_LENGTH]!r}{'..' if len(label) > LABEL_LENGTH else ''}"
        raise ValueError(f"{said} is no label: that has 1 to {LABEL_LENGTH} characters of ASCII, no blank, and isn't '-'")
    return label


def labelling(block: Waiting | int, label: str | None) -> str:
    """The argument of `label` that gives a block this label, or takes its label away."""
    return ticket_of(block) if label is None else f"{ticket_of(block)} {checked_label(label)}"


def _lines_to(last: str, begin: tuple[str, ...], limit: Callable[[], int]) -> Callable[[Transport, str], list[str]]:
    """Takes the lines up to the one that begins with `last`, at most `limit` before it, each of which begins with one of
    `begin`."""

    def take(transport: Transport, first: str) -> list[str]:
        lines = [first]
        while not lines[-1].startswith(last):
            if len(lines) > limit() or not lines[-1].startswith(begin):
                raise Odd("\n".join(lines[-3:]))
            lines.append(transport.line())
        return lines

    return take


def _history_lines(transport: Transport, first: str) -> list[str]:
    """Takes the lines up to the first that begins with no brace."""
    lines = [first]
    while lines[-1].startswith("{"):
        if len(lines) > CELLS_LIMIT + WAITING_LIMIT + EVENTS_LIMIT + 1:
            raise Odd("\n".join(lines[-3:]))
        lines.append(transport.line())
    return lines


TVAR: Command[Ref] = Command("tvar", Answers.tvar, "tvar", declares=True)
DECLARE: Command[Ref] = Command("declare", Answers.tvar, "declared", declares=True)
TRY: Command[Verdict] = Command("try", Answers.verdict)
LOOKS: Command[dict[Ref, Value]] = Command("looks", Answers.reads, "reads")
SUBMIT: Command[int] = Command("submit", Answers.second, "ticket")
TAKE: Command[list[Job]] = Command("take", Answers.jobs, "jobs")
DELIVER: Command[int] = Command("deliver", Answers.second, "delivered")
HANDBACK: Command[None] = Command("handback", Answers.nothing, "queued")
EVAL: Command[int] = Command("eval", Answers.second, "evaluated")
FINISH: Command[Finished | FinishedThrows] = Command("finish", Answers.finished, "finished", is_seen=True)
ATOMICALLY: Command[Finished | FinishedThrows | Waiting] = Command("atomically", Answers.ran, is_seen=True)
CANCEL: Command[None] = Command("cancel", Answers.nothing, "cancelled", is_seen=True)
READS: Command[dict[Ref, Value]] = Command("reads", Answers.reads, "reads")
READY: Command[list[int]] = Command("ready", Answers.tickets, "ready")
WHY: Command[Reason] = Command("why", Answers.reason, "why")
LABEL: Command[None] = Command("label", Answers.labelled, "labelled")
BLOCK: Command[str] = Command("block", Answers.block, "block")
SETTLE: Command[Settled] = Command("settle", Answers.settled, is_seen=True)
DRAIN: Command[Settled] = Command("drain", Answers.drained, is_seen=True)
CHECKPOINT: Command[int] = Command("checkpoint", Answers.second, "checkpoint", is_seen=True)
SHOW: Command[list[Status]] = Command(
    "show", Answers.statuses, take=_lines_to("waiting ", tuple("123456789"), lambda: WAITING_LIMIT)
)
# The tickets alone of what `show` prints.
WAITING: Command[list[int]] = Command("show", Answers.waiting, take=SHOW.take)
BOARD: Command[list[Entry]] = Command("board", Answers.board, take=SHOW.take)
STORE: Command[Store] = Command("store", Answers.cells, take=_lines_to("cells ", ("#",), lambda: CELLS_LIMIT))
EVENTS: Command[Events] = Command("events", Answers.events, take=_lines_to("events ", ("{",), lambda: EVENTS_LIMIT))
# Of a server alone: the variables that anybody has declared. It ends no declarations.
DECLARED: Command[bool] = Command("declared", Answers.declared, take=_lines_to("declared ", ("#",), lambda: CELLS_LIMIT))
# A history doesn't say which of its lines is the last. So a second command goes with it, which changes nothing and is always
# answered alike, by a line that begins with no brace.
HISTORY: Command[str] = Command("history", Answers.history, take=_history_lines, then="try return ()\n")
