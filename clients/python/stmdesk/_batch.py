"""Batches: many commands that are sent in one go."""

from __future__ import annotations

from collections.abc import Callable, Iterator, Sequence
from types import TracebackType
from typing import Any, TypeVar

from ._commands import (
    ATOMICALLY, BLOCK, BOARD, CANCEL, CHECKPOINT, DECLARE, DELIVER, DRAIN, EVAL, EVENTS, FINISH, HANDBACK, HISTORY, LABEL, LOOKS, READS, READY,
    SETTLE, SHOW, STORE, SUBMIT, TAKE, TRY, TVAR, WHY, Answer, Command, decimal, labelling, number_of, ticket_of,
)  # fmt: skip
from ._values import Entry, Events, Finished, FinishedThrows, Job, Reason, Ref, Settled, Status, Store, Value, Verdict, Waiting

T = TypeVar("T")


class Commands:
    """Commands that are given later: a method for each, which returns the `Answer` that will be there."""

    def __init__(self) -> None:
        self._answers: list[Answer[Any]] = []
        self._is_over = False

    def __iter__(self) -> Iterator[Answer[Any]]:
        """The answers, in the order of the commands."""
        return iter(self._answers)

    def _ends(self, kind: type[BaseException] | None) -> bool:
        """Ends the batch. Returns whether there is something to send."""
        self._is_over = True
        return kind is None and bool(self._answers)

    def _give(self, run: Callable[[Sequence[Answer[Any]]], None]) -> None:
        """Gives the commands by this function."""
        try:
            run(self._answers)
        except BaseException as error:
            for answer in self._answers:
                answer.fail(error)
            raise

    def _add(self, command: Command[T], text: str = "") -> Answer[T]:
        if self._is_over:
            raise RuntimeError("the batch is over")
        answer = Answer(command, text)
        self._answers.append(answer)
        return answer

    def tvar(self, declaration: str) -> Answer[Ref]:
        """`Desk.tvar`, when the batch is sent."""
        return self._add(TVAR, declaration)

    def declare(self, declaration: str) -> Answer[Ref]:
        """`Desk.declare`, when the batch is sent."""
        return self._add(DECLARE, declaration)

    def try_(self, block: str) -> Answer[Verdict]:
        """`Desk.try_`, when the batch is sent."""
        return self._add(TRY, block)

    def looks(self, block: str) -> Answer[dict[Ref, Value]]:
        """`Desk.looks`, when the batch is sent."""
        return self._add(LOOKS, block)

    def submit(self, block: str) -> Answer[int]:
        """`Desk.submit`, when the batch is sent."""
        return self._add(SUBMIT, block)

    def atomically(self, block: str) -> Answer[Finished | FinishedThrows | Waiting]:
        """Submits, evaluates and finishes a block when the batch is sent. If it blocks, it isn't finished: it waits under its ticket.
        `Desk.atomically` waits for its result, and this doesn't.

        >>> with desk.batch() as batch:
        ...     answer = batch.atomically("do { a <- readTVar x; writeTVar x (a + 1); return a }")
        >>> answer.result()
        Finished(ticket=1, result=1, stale=[])
        """
        return self._add(ATOMICALLY, block)

    def take(self, count: int) -> Answer[list[Job]]:
        """`Desk.take`, when the batch is sent."""
        return self._add(TAKE, decimal(count))

    def deliver(self, job: Job | int) -> Answer[int]:
        """`Desk.deliver`, when the batch is sent."""
        return self._add(DELIVER, number_of(job))

    def handback(self, ticket: Waiting | int) -> Answer[None]:
        """`Desk.handback`, when the batch is sent."""
        return self._add(HANDBACK, ticket_of(ticket))

    def eval(self) -> Answer[int]:
        """`Desk.eval`, when the batch is sent."""
        return self._add(EVAL)

    def finish(self, ticket: Waiting | int) -> Answer[Finished | FinishedThrows]:
        """`Desk.finish`, when the batch is sent."""
        return self._add(FINISH, ticket_of(ticket))

    def cancel(self, ticket: Waiting | int) -> Answer[None]:
        """`Desk.cancel`, when the batch is sent."""
        return self._add(CANCEL, ticket_of(ticket))

    def show(self) -> Answer[list[Status]]:
        """`Desk.show`, when the batch is sent."""
        return self._add(SHOW)

    def ready(self) -> Answer[list[int]]:
        """`Desk.ready`, when the batch is sent."""
        return self._add(READY)

    def reads(self, ticket: Waiting | int) -> Answer[dict[Ref, Value]]:
        """`Desk.reads`, when the batch is sent."""
        return self._add(READS, ticket_of(ticket))

    def why(self, ticket: Waiting | int) -> Answer[Reason]:
        """`Desk.why`, when the batch is sent."""
        return self._add(WHY, ticket_of(ticket))

    def label(self, block: Waiting | int, label: str | None) -> Answer[None]:
        """`Desk.label`, when the batch is sent.

        >>> ticket = desk.submit("retry")
        >>> with desk.batch() as batch:
        ...     labelled, board = batch.label(ticket, "job7"), batch.board()
        >>> board.result()
        [Entry(status=New(ticket=1), label='job7', block=None, why=None)]
        """
        return self._add(LABEL, labelling(block, label))

    def block(self, ticket: Waiting | int) -> Answer[str]:
        """`Desk.block`, when the batch is sent."""
        return self._add(BLOCK, ticket_of(ticket))

    def board(self) -> Answer[list[Entry]]:
        """The console's `board`, when the batch is sent: what `Desk.board` returns, without texts and reasons."""
        return self._add(BOARD)

    def store(self) -> Answer[Store]:
        """`Desk.store`, when the batch is sent."""
        return self._add(STORE)

    def settle(self) -> Answer[Settled]:
        """`Desk.settle`, when the batch is sent."""
        return self._add(SETTLE)

    def drain(self) -> Answer[Settled]:
        """`Desk.drain`, when the batch is sent."""
        return self._add(DRAIN)

    def history(self) -> Answer[str]:
        """`Desk.history`, when the batch is sent."""
        return self._add(HISTORY)

    def events(self, since: int = 1) -> Answer[Events]:
        """`Desk.events`, when the batch is sent."""
        return self._add(EVENTS, decimal(since))

    def checkpoint(self) -> Answer[int]:
        """`Desk.checkpoint`, when the batch is sent."""
        return self._add(CHECKPOINT)


class Batch(Commands):
    """Commands that `with` sends in one go when it ends, with none of another thread between them. Then their answers are
    there. If the body raises, nothing is sent.

    A refused command raises when its result is asked for; those after it are given all the same. If the program ends in the
    midst of a batch, the `with` raises `Ended`, and so does each answer that didn't come.

    >>> with desk.batch() as batch:
    ...     looked = batch.try_("readTVar x")
    ...     wrong = batch.try_("readTVar y")
    ...     evaluated = batch.eval()
    >>> looked.result()
    Commits(writes={}, news=[], result=1)
    >>> [type(answer.error) for answer in batch]
    [<class 'NoneType'>, <class 'stmdesk.Refused'>, <class 'NoneType'>]
    """

    def __init__(self, run: Callable[[Sequence[Answer[Any]]], None]) -> None:
        super().__init__()
        self._run = run

    def __enter__(self) -> Batch:
        return self

    def __exit__(self, kind: type[BaseException] | None, error: BaseException | None, trace: TracebackType | None) -> None:
        if self._ends(kind):
            self._give(self._run)
