"""A running stmdesk: one method for each command."""

from __future__ import annotations

import os
import re
import threading
from collections.abc import Iterable, Iterator, Sequence
from contextlib import suppress
from copy import copy
from functools import partial
from os import getpid
from select import PIPE_BUF
from threading import get_ident
from types import TracebackType
from typing import Any, Literal, NoReturn, TypeVar, get_args, overload

from ._answers import Answers
from ._batch import Batch
from ._commands import (
    ATOMICALLY, BLOCK, BOARD, CANCEL, CHECKPOINT, DECLARE, DECLARED, DELIVER, DRAIN, EVAL, EVENTS, FINISH, HANDBACK, HISTORY, LABEL, LOOKS,
    READS, READY, SETTLE, SHOW, STORE, SUBMIT, TAKE, TRY, TVAR, WAITING, WHY, Answer, Command, checked_label, decimal, labelling, number_of,
    ticket_of,
)  # fmt: skip
from ._errors import BadAnswer, Cancelled, DeskError, OtherType, OutOfMemory, Refused, Thrown, TimedOut
from ._local import begin_local
from ._program import Process, check_built, find_program, is_ours
from ._transport import Closed, Odd, Transport, AtomicBlocks
from ._values import Commits, Entry, Events, Finished, FinishedThrows, Job, R, Reason, Ref, Settled, Status, Store, Value, Verdict, Waiting
from ._waits import Wait, check_returns, checked_result, checked_timeout

PATIENCE = 5.0  # seconds that the program has to end after its input has ended
FEW = 8  # commands that are sent in one go whatever their length
ASKED = 4096  # blocks of which `board` asks a server in one request

Sync = Literal["full", "sector", "append", "none"]

_DROPPED = re.compile(r"(?m): dropped (\d+) bytes after the last whole line$")

T = TypeVar("T")
D = TypeVar("D", bound="Desk")


class Desk:
    """A running stmdesk. A `with` ends the program, however its body ends; so does `close`.

    Several threads may call one desk: each call waits until the call before it has returned. Only `atomically` lets other
    calls come between. A call that any exception breaks off, Ctrl-C for example, ends the program, since what the program
    still prints would be taken for the answer to the next call. Again `atomically` is the exception: its block is cancelled.

    In the examples of the methods `desk` is a new desk on which `x : Int = 1` is declared.

    >>> with Desk() as desk:
    ...     x = desk.tvar("x : Int = 1")
    ...     desk.try_("do { a <- readTVar x; writeTVar x (a + 1); return a }")
    Commits(writes={Ref(0, 'x'): 2}, news=[], result=1)
    """

    def __init__(
        self,
        program: str | os.PathLike[str] | None = None,
        *,
        journal: str | bytes | os.PathLike[str] | os.PathLike[bytes] | None = None,
        sync: Sync | None = None,
        checkpoint_every: int | None = None,
        workers: int | None = None,
        levels: int | None = None,
        max_events: int | None = None,
        patience: float = PATIENCE,
        local: bool = False,
        library: str | bytes | os.PathLike[str] | os.PathLike[bytes] | None = None,
    ) -> None:
        """Starts `program run`, with the options that are given: `stmdesk run --help` has what they mean.

        With a `journal`, a path, the desk's history is kept in this file, as `sync` says, and the desk goes on from the history
        that the file has (docs/JOURNAL.md). Then this returns when the file is opened, and raises `JournalError` if it isn't. When the
        history has `checkpoint_every` events, 500,000 if that isn't given, it begins again from where the desk is, as by `checkpoint`.

        Without `program` it runs what `find_program` returns. After the program's input has ended, the program is killed if
        it takes more than `patience` seconds to end. Raises OSError, FileNotFoundError for example, if the program can't be
        started. If the program refuses an option it ends, and the first call raises `Ended`.

        With `local` nothing is started: the desk is in this process, and ends with it. It is the library `libstmdesk.so` at the path
        `library`, or else what `find_library` returns. It has one thread and no journal, so of the options `max_events` alone goes with it.
        A call may raise `OutOfMemory`; an exception that breaks off a call doesn't end the desk. Raises OSError if the library can't
        be loaded, and ValueError for an option that doesn't go with it.

        >>> with Desk(workers=4, max_events=1000) as desk:
        ...     desk.eval()
        0
        """
        if local:
            of_a_process = {"program": program, "journal": journal, "sync": sync, "checkpoint_every": checkpoint_every}
            threads = {"workers": None if workers == 1 else workers, "levels": None if levels == 0 else levels}
            self._begin(begin_local(library, max_events, **of_a_process, **threads), patience)
            return
        if library is not None:
            raise ValueError(f"library={library!r} goes with local=True")
        if sync is not None and (journal is None or sync not in get_args(Sync)):
            raise ValueError(f"sync={sync!r} goes with a journal, and is one of {', '.join(get_args(Sync))}")
        if checkpoint_every is not None and journal is None:
            raise ValueError(f"checkpoint_every={checkpoint_every!r} goes with a journal")
        given = {"--workers": workers, "--levels": levels, "--max-events": max_events, "--checkpoint-every": checkpoint_every}
        options = [word for name, value in given.items() if value is not None for word in (name, decimal(value))]
        if journal is not None:
            options.append(f"--journal={os.fsdecode(journal)}")
        if sync is not None:
            options.append(f"--sync={sync}")
        path = find_program() if program is None else os.fspath(program)
        check_built(path)
        process = Process([path, "run", *options], is_opening=journal is not None)
        self._begin(process, patience)
        if journal is not None:
            self._open_journal(process)

    def _begin(self, transport: Transport, patience: float) -> None:
        """Begins over a transport, which is this desk's from now on."""
        self._patience = patience
        self._calls = threading.RLock()
        self._caller = 0  # the thread that gives a command, so that a signal handler that calls again is seen
        self._is_closed = False
        self._answers = Answers()
        self._waits: AtomicBlocks | None = None  # there is none before the first `atomically`
        self._beginning = threading.Lock()  # so that two threads don't begin it
        self._is_resumed = False
        self._is_kept = transport.is_shared  # whether an event outlives this process, perhaps
        self._dropped = 0
        self._under_way: Sequence[Answer[Any]] = ()  # whose answers the transport keeps, and which aren't all read
        self._cut: Wait | None = None  # whose block is run over a pipe, or was when an exception broke that off
        self._marks = 0  # that were given to find out what the program had answered then
        self._inherited: set[int] = set()  # tickets that waited when the journal was opened, and may still wait
        self._transport = transport

    @classmethod
    def _over(cls: type[D], transport: Transport, patience: float) -> D:
        """A desk over a transport that is there, and that ends if none can be made."""
        desk = cls.__new__(cls)
        desk._begin(transport, patience)
        try:
            desk._begin_over()
        except BaseException:
            transport.kill()
            raise
        return desk

    def _begin_over(self) -> None:
        self._take_over()

    def _take_over(self) -> None:
        """Takes over the variables that a server's desk has. Raises what a call raises."""
        with self._calls:
            declared = Answer(DECLARED)
            self._perform((declared,))
            self._is_resumed = declared.result()

    def _open_journal(self, process: Process) -> None:
        """Waits until the program has opened its journal, and takes over the variables that it has. Raises what a call raises."""
        self._is_kept = True
        with self._calls:
            # A `tvar` of nothing is refused in any case: as `Late` if the desk goes on from a history.
            opened = Answer(TVAR)
            self._perform((opened,))
            process.is_opening = False
            dropped = _DROPPED.search(process.said_so_far())
            self._dropped = int(dropped[1]) if dropped else 0
            if isinstance(opened.error, Refused) and opened.error.name == "Late":
                store = Answer(STORE)
                self._perform((store,))
                self._answers.go_on(store.result())
                waiting = Answer(WAITING)
                self._perform((waiting,))
                self._inherited = set(waiting.result())
                self._is_resumed = True

    # One method for each command.

    def tvar(self, declaration: str) -> Ref:
        """Declares a variable, before the first other command. `declare` does so at any time.

        >>> desk.tvar("slot : TVar Int = x")
        Ref(1, 'slot')
        """
        return self._ask(TVAR, declaration)

    def declare(self, declaration: str) -> Ref:
        """Declares a variable, at any time: also on a desk that goes on from its journal, and while blocks wait, which stay as they are. It
        gets the next number of the store, and its first value may be any declared variable. A block that was refused as `Unknown` may be
        accepted afterwards. The declaration is an event of the history, a `Declaration`.

        Raises what `tvar` raises but `Late`, and `Refused` with the name `HistoryFull` or `CellsFull`.

        >>> desk.atomically("newTVar 7")
        Ref(1)
        >>> desk.declare("slot : TVar Int = x")
        Ref(2, 'slot')
        >>> desk.tvar("y : Int = 1")
        Traceback (most recent call last):
        stmdesk.Refused: Late
            tvar y : Int = 1
            hint: `tvar` declares before the first other command, which was `atomically`: `declare` does so at any time
        """
        return self._ask(DECLARE, declaration)

    def try_(self, block: str) -> Verdict:
        """What the block would do on the present store, which doesn't change. (`try` is a keyword of Python.)

        >>> desk.try_("do { a <- readTVar x; if a < 5 then retry else return a }")
        Blocks()
        """
        return self._ask(TRY, block)

    def looks(self, block: str) -> dict[Ref, Value]:
        """The variables of the present store that the block would read, in ascending order, with their values.

        >>> desk.looks("do { a <- readTVar x; writeTVar x (a + 1) }")
        {Ref(0, 'x'): 1}
        """
        return self._ask(LOOKS, block)

    def submit(self, block: str, *, label: str | None = None) -> int:
        """Lets the block wait, with a label if one is given. Returns its ticket.

        With a label this is `submit` and then `label`, with no command of another thread between them. If the history has room for the first
        alone, or another client of the server ends the block meanwhile, the block has no label, and this returns its ticket all the same. If
        anything else comes between, the block is cancelled, and that is raised. Raises ValueError if no block can have the label.

        >>> desk.submit("do { a <- readTVar x; if a < 5 then retry else return a }", label="job7")
        1
        """
        if label is None:
            return self._ask(SUBMIT, block)
        checked_label(label)
        self._transport.check_owner()
        with self._calls:
            ticket = self._ask(SUBMIT, block)
            try:
                self.label(ticket, label)
            except Refused as refused:
                if refused.name not in ("HistoryFull", "NoTicket"):
                    self._cancel_quietly(ticket)
                    raise
            except BaseException:
                self._cancel_quietly(ticket)
                raise
        return ticket

    def _cancel_quietly(self, ticket: int) -> None:
        """Cancels a block of which nobody knows, if that can be done."""
        with suppress(DeskError, ValueError):
            self.cancel(ticket)

    def label(self, block: Waiting | int, label: str | None) -> None:
        """Gives a waiting block a label in place of the one that it had, or takes it away if that is None. The block is given by its ticket,
        or as a `Waiting`. A label says to people which block this is: the desk does nothing else because of it, and several blocks may have the
        same. It goes when the block finishes or is cancelled. Raises ValueError if no block can have it: a label has 1 to 64 characters of
        ASCII, no blank, and isn't `-`.

        >>> ticket = desk.submit("retry")
        >>> desk.label(ticket, "job7")
        >>> desk.board(blocks=False, reasons=False)
        [Entry(status=New(ticket=1), label='job7', block=None, why=None)]
        >>> desk.label(7, "job8")
        Traceback (most recent call last):
        stmdesk.Refused: NoTicket
            label 7 job8
            hint: no block waits under this ticket: it finished, or was cancelled, or never was
        """
        self._ask(LABEL, labelling(block, label))

    def block(self, ticket: Waiting | int) -> str:
        """The text of a waiting block, on one line: an end of a line in it is a blank.

        >>> desk.block(desk.submit("do { a <- readTVar x; if a < 5 then retry else return a }"))
        'do { a <- readTVar x; if a < 5 then retry else return a }'
        """
        return self._ask(BLOCK, ticket_of(ticket))

    def take(self, count: int) -> list[Job]:
        """Hands out the `count` lowest queued tickets, or all if there are fewer, as jobs on the present store.

        >>> ticket = desk.submit("readTVar x")
        >>> desk.take(10)
        [Job(number=1, ticket=1)]
        """
        return self._ask(TAKE, decimal(count))

    def deliver(self, job: Job | int) -> int:
        """Evaluates a job, given as such or by its number, on the store of its `take`, and delivers the verdict. Returns
        the job's ticket.

        >>> ticket = desk.submit("readTVar x")
        >>> [desk.deliver(job) for job in desk.take(10)]
        [1]
        """
        return self._ask(DELIVER, number_of(job))

    def handback(self, ticket: Waiting | int) -> None:
        """Queues a ticket again that `take` handed out.

        >>> ticket = desk.submit("readTVar x")
        >>> for job in desk.take(10):
        ...     desk.handback(job.ticket)
        """
        self._ask(HANDBACK, ticket_of(ticket))

    def eval(self) -> int:
        """Evaluates all queued tickets and delivers the verdicts. Returns how many there were.

        >>> ticket = desk.submit("readTVar x")
        >>> desk.eval()
        1
        """
        return self._ask(EVAL)

    def finish(self, ticket: Waiting | int) -> Finished | FinishedThrows:
        """Applies the verdict of a ticket that is current and doesn't block. The ticket then waits no more.

        >>> ticket, evaluated = desk.submit("writeTVar x 5"), desk.eval()
        >>> desk.finish(ticket)
        Finished(ticket=1, result=None, stale=[])
        """
        return self._ask(FINISH, ticket_of(ticket))

    def cancel(self, ticket: Waiting | int) -> None:
        """Ends the waiting of a ticket.

        >>> ticket = desk.submit("retry")
        >>> desk.cancel(ticket)
        """
        self._ask(CANCEL, ticket_of(ticket))

    def show(self) -> list[Status]:
        """The state of each waiting ticket, in ascending order.

        >>> ticket = desk.submit("retry")
        >>> desk.show()
        [New(ticket=1)]
        """
        return self._ask(SHOW)

    def board(self, *, blocks: bool = True, reasons: bool = True) -> list[Entry]:
        """Who waits for what: each waiting block in ascending order of the tickets, with its status, its label, its text and what it waits for.

        The tickets with their statuses and labels are one question, `board`. The texts are one more for each block (`block T`), and so are
        the reasons (`why T`); these are all sent in one go, and `blocks=False` and `reasons=False` leave them out. No command of another
        thread comes between. Other clients of a server may come between the two goes: then a block that has come or gone isn't listed, and the
        rest is of the second. (Of more than 4,096 blocks a server is asked in several goes.)

        >>> reader = desk.submit("do { a <- readTVar x; if a < 5 then retry else return a }", label="reader")
        >>> evaluated, writer = desk.eval(), desk.submit("writeTVar x 3")
        >>> for it in desk.board():
        ...     print(it.ticket, it.label, it.state, it.why)
        1 reader current Waits(ticket=1, reads={Ref(0, 'x'): 1})
        2 None new New(ticket=2)
        """
        self._transport.check_owner()
        with self._calls:
            entries = self._ask(BOARD)
            if not entries or not blocks and not reasons:
                return entries
            if not self._transport.is_shared:
                return self._with_texts(entries, blocks, reasons)
            parts = [entries[at : at + ASKED] for at in range(0, len(entries), ASKED)]
            return [entry for part in parts for entry in self._from_server(part, blocks, reasons)]

    def _from_server(self, entries: Sequence[Entry], blocks: bool, reasons: bool) -> list[Entry]:
        """The entries with what is wanted, in as many goes as the server's bound for the answer to one request needs."""
        try:
            return self._with_texts(entries, blocks, reasons)
        except Refused as error:
            if error.name != "AnswersFull" or len(entries) < 2:
                raise
        half = len(entries) // 2
        return [it for part in (entries[:half], entries[half:]) for it in self._from_server(part, blocks, reasons)]

    def _with_texts(self, entries: Sequence[Entry], blocks: bool, reasons: bool) -> list[Entry]:
        """The entries with the texts of their blocks, and what these wait for, if that is wanted."""
        texts = [Answer(BLOCK, str(it.ticket)) for it in entries] if blocks else []
        whys = [Answer(WHY, str(it.ticket)) for it in entries] if reasons else []
        boards = [Answer(BOARD)] if self._transport.is_shared else []
        self._run([*boards, *texts, *whys])
        now = {it.ticket: it for it in boards[0].result()} if boards else {it.ticket: it for it in entries}
        found = []
        for at, it in enumerate(entries):
            if it.ticket in now:
                is_at = now[it.ticket]
                block, why = texts[at].result() if blocks else None, whys[at].result() if reasons else None
                found.append(Entry(is_at.status, is_at.label, block, why))
        return found

    def ready(self) -> list[int]:
        """The tickets that can be finished now, in ascending order: those that are current and don't block.

        >>> tickets = [desk.submit(block) for block in ("retry", "readTVar x", "throw 4")]
        >>> desk.eval(), desk.ready()
        (3, [2, 3])
        """
        return self._ask(READY)

    def reads(self, ticket: Waiting | int) -> dict[Ref, Value]:
        """What the last evaluation of a waiting ticket read, in ascending order of variables, with the values that it found.

        >>> ticket, evaluated = desk.submit("do { a <- readTVar x; if a < 5 then retry else return a }"), desk.eval()
        >>> desk.reads(ticket)
        {Ref(0, 'x'): 1}
        """
        return self._ask(READS, ticket_of(ticket))

    def why(self, ticket: Waiting | int) -> Reason:
        """What a waiting ticket waits for: an evaluation, since it is `New` or `StaleBy` a finish (`StaleBefore` if a
        checkpoint of an old version doesn't say which); a change of what it has read, since it `Waits`; or nothing but its finish, since it is `Ready`.

        >>> reader, writer = desk.submit("do { a <- readTVar x; if a < 5 then retry else return a }"), desk.submit("writeTVar x 3")
        >>> desk.why(reader), desk.eval(), desk.why(reader)
        (New(ticket=1), 2, Waits(ticket=1, reads={Ref(0, 'x'): 1}))
        >>> desk.finish(writer).stale, desk.why(reader)
        ([1], StaleBy(ticket=1, finish=2, changes={Ref(0, 'x'): Change(read=1, left=3)}))
        """
        return self._ask(WHY, ticket_of(ticket))

    def store(self) -> Store:
        """All variables, in ascending order: a list, and a mapping by name and by reference.

        >>> desk.store()
        [Cell(variable=Ref(0, 'x'), name='x', type='Int', value=1, count=0)]
        >>> desk.store()["x"].value
        1
        """
        return self._ask(STORE)

    def settle(self) -> Settled:
        """Evaluates and finishes tickets until all that still wait block. Raises `Stopped` if there is no room for a step.

        It doesn't say what it finishes. So it raises RuntimeError while a block of `atomically` waits for its result. It evaluates
        every ticket that is new or stale before it finishes one; `drain` takes fewer evaluations for the same result.

        >>> ticket = desk.submit("writeTVar x 5")
        >>> desk.settle()
        Settled(finished=1, evaluations=1)
        """
        return self._ask(SETTLE)

    def drain(self) -> Settled:
        """Finishes the same tickets as `settle`, in the same order, but evaluates each only when those below it have finished, or are
        current and block. So blocks that all change one variable are evaluated once each. Raises what `settle` raises.

        >>> tickets = [desk.submit("do { a <- readTVar x; writeTVar x (a + 1) }") for _ in range(100)]
        >>> desk.drain()
        Settled(finished=100, evaluations=100)
        """
        return self._ask(DRAIN)

    def history(self) -> str:
        """The text of all events so far, or of those since the last checkpoint, byte for byte, as docs/HISTORY.md says: what
        `stmdesk check` judges.

        >>> ticket = desk.submit("retry")
        >>> print(desk.history(), end="")
        {"format":3,"vars":1}
        {"init":1,"name":"x","type":"Int"}
        {"block":"retry","client":0,"event":"submitted","ticket":1}
        """
        return self._ask(HISTORY)

    def events(self, since: int = 1) -> Events:
        """The events so far from the one of this number on, counted from 1: a list, with the number `next` from which to go on. After
        a checkpoint they are counted from 1 again, and `next` may be less than `since`: read `store` and `show` then, and go on.

        >>> ticket = desk.submit("retry")
        >>> events = desk.events()
        >>> events, events.next
        ([Submission(number=1, client=0, ticket=1, block='retry')], 2)
        >>> desk.cancel(ticket)
        >>> desk.events(events.next)
        [Cancellation(number=2, client=0, ticket=1)]
        """
        return self._ask(EVENTS, decimal(since))

    def checkpoint(self) -> int:
        """Lets the events so far go, and returns how many there were: the history begins again from where the desk is. No other answer
        differs but what `history` and `events` return, and `why` of a block that is stale already; and the history has room again.

        With a journal this is done by itself when the history has `checkpoint_every` events, and the file becomes short. If no new file
        can take the place of the old one, `Refused` is raised with the name `NoCheckpoint`, and the desk goes on in the old file.

        >>> ticket = desk.submit("retry")
        >>> desk.checkpoint(), desk.checkpoint(), desk.show()
        (1, 0, [New(ticket=1)])
        >>> print(desk.history(), end="")
        {"format":4,"next":2,"vars":1,"waiting":1}
        {"count":0,"init":1,"name":"x","type":"Int"}
        {"block":"retry","ticket":1}
        """
        try:
            return self._ask(CHECKPOINT)
        except Refused as refused:
            why = self.said.rpartition("\n")[2]
            if refused.name == "NoCheckpoint" and why:
                refused.hint = f"no new file could take the place of the journal, and the desk goes on in the old file: {why}"
            raise

    # What a command doesn't do by itself.

    def value(self, variable: str | Ref) -> Value:
        """The value of a variable of the present store, given by its name or as a reference.

        >>> desk.value("x")
        1
        """
        name = variable.name if isinstance(variable, Ref) else variable
        if isinstance(variable, Ref) and name is None:
            return self.store()[variable].value
        verdict = self.try_(f"readTVar {name}")
        assert isinstance(verdict, Commits)
        return verdict.result

    def values(self, *variables: str | Ref) -> list[Value]:
        """The values of several variables at one moment, each given by its name or as a reference. Between two calls of `value` a block may
        finish, and here none does.

        >>> y = desk.tvar("y : Bool = True")
        >>> desk.values("x", y)
        [1, True]
        """
        names = [it.name if isinstance(it, Ref) else it for it in variables]
        asked = {name: Answer(TRY, f"readTVar {name}") for name in names if name is not None}
        stores = [Answer(STORE)] if None in names else []
        self._run([*asked.values(), *stores])
        found: list[Value] = []
        for name, variable in zip(names, variables):
            if name is None:
                found.append(stores[0].result()[variable].value)
            else:
                verdict = asked[name].result()
                assert isinstance(verdict, Commits)
                found.append(verdict.result)
        return found

    def variable(self, declaration: str) -> Ref:
        """The variable of a declaration: the one that has been declared with this name and this type, here or in the journal, or
        else a new one. So a program that keeps a journal begins in the same way at each start, and a new release of it may have more
        variables. With a journal and at a server this declares by `declare`, since that is an event, and so is kept once it was answered;
        then `tvar` comes too late. Otherwise it declares by `tvar`, or by `declare` if it is too late for that. The type of a variable
        that is there can't change: then this raises `OtherType`.

        >>> desk.variable("x : Int = 0"), desk.variable("y : Int = 0")
        (Ref(0, 'x'), Ref(1, 'y'))
        >>> ticket = desk.submit("retry")
        >>> desk.variable("y : Int = 0"), desk.variable("z : Int = 0")
        (Ref(1, 'y'), Ref(2, 'z'))
        """
        self._transport.check_owner()
        if self._under_way:
            with self._calls:
                self._perform(())  # it may declare the variable
        found = self._found(declaration)
        if found is not None:
            return found
        why: Refused | None = None
        for declares in (self.declare, self.tvar) if self._is_kept else (self.tvar, self.declare):
            try:
                return declares(declaration)
            except Refused as refused:
                found = self._found_again(declaration, refused, "Late", "Twice")
                if found is not None:
                    return found
                if refused.name not in ("Late", "Command"):  # `tvar` comes too late, or the program knows no `declare`
                    raise
                if why is None or refused.name == "Late":
                    why = refused
        assert why is not None
        raise why

    def _found(self, declaration: str) -> Ref | None:
        """The variable of this declaration, if it is known. Raises `OtherType`."""
        before, _, rest = declaration.partition(":")
        name, kind = before.strip(), rest.partition("=")[0]
        found = self._answers.named.get(name)
        if found is None or not kind.strip():
            return None
        declared = self._answers.types[name]
        if _one_text(kind) != _one_text(declared):
            raise OtherType(name, declared, " ".join(kind.split()), declaration.lstrip())
        return found

    def _found_again(self, declaration: str, refused: Refused, *names: str) -> Ref | None:
        """The same after a refusal. If that has one of these names, another client of the server may have declared the variable."""
        if not self._transport.is_shared or refused.name not in names:
            return None
        self._take_over()
        return self._found(declaration)

    @overload
    def atomically(self, block: str, timeout: float | None = None, *, label: str | None = None, returns: None = None) -> Value: ...

    @overload
    def atomically(self, block: str, timeout: float | None = None, *, label: str | None = None, returns: type[R]) -> R: ...

    def atomically(
        self, block: str, timeout: float | None = None, *, label: str | None = None, returns: type[R] | None = None
    ) -> Value:
        """Runs the block and returns its result. While the block retries, waits until what it has read changes. If it comes to wait, and
        only then, it gets the label, if one is given.

        Many threads may wait so at the same time. Raises `Thrown` if the block throws; `TimedOut` if it can't finish within
        `timeout` seconds, and is cancelled; `Cancelled` if another call cancels its ticket; and `Ended`, in each thread, if
        the program ends. Any other exception that comes out, as KeyboardInterrupt, has cancelled the block, unless the block
        had finished already. The desk goes on.

        >>> import threading
        >>> results = []
        >>> waiting = threading.Thread(target=lambda: results.append(desk.atomically('''
        ...     do { a <- readTVar x; if a < 5 then retry else return a }
        ... ''')))
        >>> waiting.start()
        >>> desk.atomically("writeTVar x 5")
        >>> waiting.join()
        >>> results
        [5]

        A type checker sees that the result has the type `returns`: int, bool or Ref. If it has another one, as True for int, this raises
        TypeError; what the block has done stays.

        >>> desk.atomically("do { a <- readTVar x; return (a + 1) }", returns=int) + 1
        7
        """
        transport = self._transport
        if getpid() != transport.owner:
            raise transport.not_owner()
        if self._caller == get_ident():
            raise RuntimeError("a signal handler called the desk in the midst of another call")
        timeout = checked_timeout(timeout)
        check_returns(returns)
        wait = Wait(block, None if label is None else checked_label(label))
        waits: AtomicBlocks | None = None
        if not transport.keeps_answers and not self._is_for_pipe(wait):
            waits = self._begin_waits()
            wait.hold()
        is_late = False
        try:
            if waits is None:
                waits = self._try_here(wait)
            else:
                waits.ask(wait, by_helper=threading.current_thread() is threading.main_thread())
            if waits is not None and not wait.acquire(timeout):
                is_late = True
                waits.give_up(wait, withdraw=False)
                wait.acquire()
        except BaseException:
            if waits is None and not transport.keeps_answers and wait.ticket is not None and self._cut is not wait:
                waits = self._waits  # which has the block already
            if waits is None:
                self._take_back(wait)
            else:
                waits.give_up(wait, withdraw=True)
            if not wait.is_over:  # else the lock may be acquired already
                wait.acquire()
            raise
        if is_late and isinstance(wait.error, Cancelled) and timeout is not None:
            raise TimedOut(timeout)
        return wait.outcome() if returns is None else checked_result(wait.outcome(), returns)

    def _is_for_pipe(self, wait: Wait) -> bool:
        """Whether `_run_over_pipe` can run the block. A label is a second command, which nothing may break off."""
        if not isinstance(self._transport, Process) or len(wait.run.sent) > PIPE_BUF:
            return False
        return wait.label is None or threading.current_thread() is not threading.main_thread()

    def _try_here(self, wait: Wait) -> AtomicBlocks | None:
        """Runs a block by a call of this thread, which is enough if the transport keeps answers, or the line is short. Ends the wait, or
        returns what waits for it from now on."""
        with self._calls:
            if self._transport.keeps_answers:
                self._run_here(wait.run)
            else:
                self._run_over_pipe(wait)
            refused = wait.run.error
            if refused is not None:
                if isinstance(refused, Refused) and refused.name == "HistoryFull" and self._waits:
                    self._waits.fail(refused)  # no block can finish any more
                wait.end(error=refused)
                return None
            done = wait.run.result()
            if isinstance(done, Waiting):
                waits = self._begin_waits()
                wait.hold()
                waits.adopt(wait, done.ticket)
                self._cut = None
                for naming in wait.naming():
                    self._perform((naming,), waits)
                    try:
                        waits.named(naming)
                    except Refused as full:
                        waits.fail(full)
                    waits.see(())
                return waits
            if isinstance(done, FinishedThrows):
                wait.end(error=Thrown(done.fault))
            else:
                wait.end(done.result)
            return None

    def _run_here(self, run: Answer[Finished | FinishedThrows | Waiting]) -> None:
        """Does what `_run` does, written out as in `_ask`: for a desk of this process on which no block waits yet, that is most of what a
        call costs."""
        transport, read = self._transport, self._answers
        if self._waits is not None or self._under_way or read.first is None or transport.end is not None or self._is_closed:
            self._run((run,))
            return
        said = ""
        try:
            self._caller = get_ident()
            transport.forget()
            self._under_way = (run,)
            said = transport.said(run.sent)
            words = said.split(" ")
            if words[0] == "refused":
                run.error = read.refusal(words, ATOMICALLY.word, run.text.lstrip())
            else:
                run.value = read.ran(words)
            self._under_way = ()
        except OutOfMemory as error:
            self._lose((run,), error)
            raise
        except BaseException as error:
            why = self._broken(error, run.sent, said)
            if why is None:
                raise
            raise why from None
        finally:
            self._caller = 0

    def _run_over_pipe(self, wait: Wait) -> None:
        """Does what `_run` does for a block, so that a signal handler may break it off anywhere: `_cut` then has it. Needs the lock."""
        run, transport = wait.run, self._transport
        assert isinstance(transport, Process)
        if self._is_closed:
            raise ValueError("the desk is closed")
        said = ""
        try:
            self._caller = get_ident()
            if transport.end is not None:
                raise copy(transport.end)
            if self._cut is not None:
                self._mend_cut()
            self._cut = wait
            if transport.give(run.sent):
                said = transport.next()
                self._read_run(run, said)
                if self._waits is not None:
                    self._waits.see((run,))
                transport.take_last()
                if not isinstance(run.value, Waiting):
                    self._cut = None
                return
            self._cut = None
        except BaseException as error:
            self._cut_off(error, run, said)
            raise
        finally:
            self._caller = 0
        self._perform((run,), self._waits)  # the program has printed what it shouldn't

    def _read_run(self, run: Answer[Finished | FinishedThrows | Waiting], said: str) -> None:
        words = said.split(" ")
        if words[0] == "refused":
            run.error = self._answers.refusal(words, ATOMICALLY.word, run.text.lstrip())
        else:
            run.value = self._answers.ran(words)
        if self._answers.first is None:
            self._answers.note(ATOMICALLY.word, run.text, run.value if run.error is None else run.error)

    def _cut_off(self, error: BaseException, run: Answer[Any], said: str) -> None:
        """An error has come while a block was run over a pipe. Ends the program, and raises why, if it is one of the program."""
        is_of_program = isinstance(error, (Closed, Odd))
        if is_of_program or isinstance(error, (ValueError, LookupError, TypeError)) and is_ours(error):
            self._cut = None
            why = self._broken(error, run.sent, said)
            if why is not None:
                raise why from None

    def _mend_cut(self) -> None:
        """Ends the call of `atomically` that an exception broke off: reads its answer, if there is one, and cancels its block if that
        waits. An exception may break this off, too; then the next call does it. Needs the lock.

        A line to which the answer is known says where the answer to the block would be: before it, if the block was given and its answer
        not taken. `_run_over_pipe` has kept an answer that was taken.
        """
        wait, transport = self._cut, self._transport
        assert wait is not None and isinstance(transport, Process)
        run, said = wait.run, ""
        try:
            self._marks += 1
            mark = f"commits writes none news none result {self._marks}"
            if not transport.give(f"try return {self._marks}\n".encode()):
                raise Odd("more lines than there should be")
            while (said := transport.next()) != mark:
                if not said.startswith("commits ") and not run.is_there():  # else it is an older mark
                    self._read_run(run, said)
                transport.take()
            transport.take()
        except BaseException as error:
            self._cut_off(error, run, said)
            raise
        if run.error is None and run.is_there():
            if self._waits is not None:
                self._waits.see((run,))
            if isinstance(run.value, Waiting):
                self._exchange((Answer(CANCEL, str(run.value.ticket)),), self._waits)
        self._cut = None
        if not wait.is_over:
            wait.end(error=Cancelled())

    def _mend_now(self, wait: Wait) -> None:
        """Ends a wait for which `_mend_cut` is to be called, unless that was done."""
        with self._calls:
            with suppress(DeskError):
                self._perform(())
            if self._cut is wait:
                self._cut = None  # the desk has ended
            if not wait.is_over:
                wait.end(error=Cancelled())

    def _take_back(self, wait: Wait) -> None:
        """Ends a wait after an exception broke `_try_here` off. Cancels the block if it was run and waits."""
        if not self._transport.is_owner():
            wait.end(error=self._transport.not_owner())
            return
        if not self._transport.keeps_answers:
            if self._cut is wait:
                wait.hold()
                try:
                    let = self._begin_waits().helper.run  # whom no signal handler breaks off
                except Exception:  # the desk has ended, or no thread can be started
                    self._mend_now(wait)
                else:
                    let(partial(self._mend_now, wait))
            elif not wait.is_over:
                wait.end(error=Cancelled())
            return
        with self._calls:
            with suppress(DeskError):
                self._perform(())  # has the answer read, if the block was run
                done = wait.run.value
                if isinstance(done, Waiting) and not wait.is_over:
                    self._perform((Answer(CANCEL, str(done.ticket)),), self._waits)
            if not wait.is_over:
                wait.end(error=Cancelled())

    def _begin_waits(self) -> AtomicBlocks:
        """The waits of this desk, and their thread. Raises ValueError if the desk is closed, and `Ended`."""
        self._transport.check_owner()
        with self._beginning:
            if self._is_closed:
                raise ValueError("the desk is closed")
            if self._waits is None:
                self._waits = self._transport.waits(self._calls, self._perform, self._answers, self._patience)
            return self._waits

    def orphans(self) -> list[int]:
        """The tickets that waited already when this desk went on from its journal, and still wait, in ascending order. There is no call
        any more that would get their results, so finish or cancel them.

        Such are the blocks of each `atomically` in which the last process was when it died, or when it closed the desk. A history doesn't
        say by which command a block came, so they are also what was given by `submit` and hadn't ended; leave out those that you know of. A
        ticket that this process has out by `take` is among them as long as it waits, since nobody waits for its result. One that this
        process submitted never is. No checkpoint changes them. A desk without a journal, and one of `connect`, has none.

        >>> desk.orphans()
        []
        """
        self._transport.check_owner()
        if self._is_closed:
            raise ValueError("the desk is closed")
        if self._inherited:  # otherwise nothing is sent, since that would end the declarations of a new desk
            waiting = self._ask(WAITING)
            self._inherited.intersection_update(waiting)
        return sorted(self._inherited)

    def batch(self) -> Batch:
        """Commands that are sent in one go when the `with` of the batch ends.

        >>> with desk.batch() as batch:
        ...     tickets = [batch.submit(f"writeTVar x {number}") for number in range(3)]
        ...     evaluated = batch.eval()
        >>> [ticket.result() for ticket in tickets], evaluated.result()
        ([1, 2, 3], 3)
        """
        self._transport.check_owner()
        return Batch(self._run)

    # The process.

    @property
    def pid(self) -> int:
        """The number of the program's process."""
        return self._transport.pid

    @property
    def is_resumed(self) -> bool:
        """Whether the desk goes on from the history of its journal. Then `tvar` declares no variable any more, and `declare` does.

        >>> desk.is_resumed
        False
        """
        return self._is_resumed

    @property
    def dropped(self) -> int:
        """How many bytes a crash had left after the last whole line of the journal; they were dropped when it was opened.

        >>> desk.dropped
        0
        """
        return self._dropped

    @property
    def said(self) -> str:
        """The end of what the program has written on standard error, which nobody sees otherwise: that it dropped the end of a journal, for
        example, or that no checkpoint could be made, and why. After each of these the desk goes on. Of a desk of `connect` this is empty,
        since its server has the program, and with `local`, since there is none.

        >>> desk.said
        ''
        """
        transport = self._transport
        return transport.said_at_last() if isinstance(transport, Process) else ""

    def close(self) -> None:
        """Ends the program's input and waits for the program to end; kills it if that takes more than `patience` seconds. Before that, it
        waits as long for blocks of `atomically` to be cancelled that timed out or were broken off.

        Raises `Ended` if the exit status isn't 0 and no call has raised `Ended` yet. A second `close` does nothing, and neither does one
        in a forked process.

        >>> other = Desk()
        >>> other.close()
        """
        if self._is_closed or not self._transport.is_owner():
            return
        self._is_closed = True
        self._let_go()
        error = self._transport.close(self._patience)
        if error:
            raise error

    def __reduce__(self) -> NoReturn:
        raise TypeError(
            "a desk can't be pickled, as for another process: it belongs to the one that made it. See \"Several processes\" in "
            "clients/python/README.md"
        )

    def __enter__(self) -> Desk:
        return self

    def __exit__(self, kind: type[BaseException] | None, error: BaseException | None, trace: TracebackType | None) -> None:
        if kind is None:
            self.close()
        elif self._transport.is_owner():
            self._is_closed = True
            self._let_go()
            self._transport.kill()

    def _let_go(self) -> None:
        """Waits until blocks of `atomically` that were given up are cancelled, so that no journal has them."""
        if self._cut is not None and not self._transport.end:
            with self._calls, suppress(DeskError):
                self._perform(())
        if self._waits is not None and not self._transport.end:
            self._waits.let_go(self._patience)

    # Lines out, lines in.

    def _ask(self, command: Command[T], text: str = "") -> T:
        """Gives a command with its argument, and returns what its answer says. This is what `_run` does with one `Answer`, written out for
        the usual case, since it is most of what a call costs: one line that is answered by one line, which no block of `atomically` needs
        to see."""
        transport, read = self._transport, self._answers
        if command.take is not None or command.declares or read.first is None or transport.is_shared or transport.keeps_answers:
            return self._ask_alone(command, text)
        sent = command.sent(text)
        if getpid() != transport.owner:
            raise transport.not_owner()
        with self._calls:
            me = get_ident()
            if self._caller == me:
                raise RuntimeError("a signal handler called the desk in the midst of another call")
            if self._is_closed:
                raise ValueError("the desk is closed")
            if command.is_seen and self._waits is not None or self._cut is not None:
                return self._ask_alone(command, text)
            said = ""
            try:
                self._caller = me
                if transport.end is not None:
                    raise copy(transport.end)
                try:
                    transport.send(sent)
                    said = transport.line()
                    words = said.split(" ")
                    if words[0] == "refused":
                        value: T | Refused = read.refusal(words, command.word, text.lstrip())
                    elif command.begin is None or command.begin == words[0]:
                        value = command.read(read, words)
                    else:
                        raise ValueError("the answer to another command")
                except BaseException as error:
                    why = self._broken(error, sent, said)
                    if why is None:
                        raise
                    raise why from None
            finally:
                self._caller = 0
        if isinstance(value, Refused):
            raise value
        return value

    def _ask_alone(self, command: Command[T], text: str) -> T:
        """The same for any command."""
        answer = Answer(command, text)
        self._run((answer,))
        return answer.result()

    def _run(self, answers: Sequence[Answer[Any]]) -> None:
        """Gives commands, with none of another thread between them, and sets their answers."""
        self._transport.check_owner()
        with self._calls:
            if self._caller == get_ident():
                raise RuntimeError("a signal handler called the desk in the midst of another call")
            if self._is_closed:
                raise ValueError("the desk is closed")
            waits = self._waits
            if waits and waits.is_any() and any(it.command is SETTLE or it.command is DRAIN for it in answers):
                raise RuntimeError("settle and drain would finish blocks of atomically, and don't say with what result")
            self._perform(answers, waits)

    def _perform(self, answers: Sequence[Answer[Any]], waits: AtomicBlocks | None = None) -> None:
        """The same for a caller that has the lock. Shows the answers to the waits if these are given."""
        try:
            self._caller = get_ident()
            if self._transport.end:
                raise copy(self._transport.end)
            if self._transport.is_new:
                self._transport.is_new = False
                try:
                    self._answers.forget()
                    self._exchange((Answer(DECLARED),), None)
                except BaseException:
                    self._transport.is_new = True
                    raise
            if self._cut is not None:
                self._mend_cut()
            if self._under_way:
                self._mend()
            if answers:
                self._exchange(answers, waits)
        finally:
            self._caller = 0

    def _mend(self) -> None:
        """Reads the answers to a call that an exception broke off, which the transport still has, and shows them to the waits."""
        broken_off = self._under_way
        again = [Answer(it.command, it.text) for it in broken_off]
        try:
            if self._transport.again():
                self._exchange(again, self._waits, is_sent=True)
        except OutOfMemory:
            pass  # it is seen to
        except MemoryError:
            self._lose(again, OutOfMemory("an answer"))
        for new, it in zip(again, broken_off):
            if not it.is_there():
                it.value, it.error = new.value, new.error
        self._under_way = ()

    def _lose(self, answers: Sequence[Answer[Any]], error: OutOfMemory) -> None:
        """There was no memory for the first of these commands that has no answer."""
        if self._waits:
            self._waits.see([it for it in answers if it.is_there()])
            self._waits.lose(error)
        self._under_way = ()

    def _exchange(self, answers: Sequence[Answer[Any]], waits: AtomicBlocks | None, *, is_sent: bool = False) -> None:
        """Writes the commands' lines, if that isn't done, takes the answers and reads them. Any exception ends the program; but after one
        from outside a transport that keeps answers goes on."""
        process, read = self._transport, self._answers
        lines = process.lines
        it = answers[0]
        said: str | Sequence[str] = ""
        parts: Iterable[tuple[Sequence[Answer[Any]], bytes]]
        if is_sent:
            parts = ((answers, b""),)
        else:
            parts = _parts(answers, process.part) if len(answers) > 1 else ((answers, it.sent),)
        try:
            if process.keeps_answers and not is_sent:
                process.forget()
                self._under_way = answers
            for part, sent in parts:
                if sent:
                    process.send(sent)
                for it in part:
                    command = it.command
                    said = line = lines.popleft() if lines else process.line()
                    words = line.split(" ")
                    if words[0] == "refused":
                        value: Any = read.refusal(words, command.word, it.text.lstrip())
                        if command.then:
                            process.line()
                    elif command.take:
                        said = command.take(process, line)
                        value = command.read(read, said)
                    elif command.begin is None or command.begin == words[0]:
                        value = command.read(read, words)
                    else:
                        raise ValueError("the answer to another command")
                    if isinstance(value, Refused):
                        it.error = value
                    else:
                        it.value = value
                    if read.first is None or command.declares:
                        read.note(command.word, it.text, value)
            if waits:
                waits.see(answers)
            if process.keeps_answers:
                self._under_way = ()
        except OutOfMemory as error:
            self._lose(answers, error)
            raise
        except BaseException as error:
            why = self._broken(error, it.sent, said)
            if why is None:
                raise
            raise why from None

    def _broken(self, error: BaseException, sent: bytes, said: str | Sequence[str]) -> DeskError | None:
        """An error has come between a command that was sent and the end of its answer, of which `said` is there. Ends the program. Returns
        what is to be raised in place of the error, if that is none of the caller's own."""
        transport = self._transport
        if isinstance(error, Closed):
            return copy(transport.ended(self._patience))
        line = sent.decode().partition("\n")[0]
        if isinstance(error, Odd):
            transport.kill()
            return BadAnswer(line, str(error))
        transport.broken_off()
        if transport.keeps_answers and self._waits:
            self._waits.look_again()
        if isinstance(error, (ValueError, LookupError, TypeError)) and is_ours(error):
            transport.kill()
            return BadAnswer(line, said if isinstance(said, str) else "\n".join(said))
        return None


def _one_text(kind: str) -> str:
    """The text of a type without blanks and brackets, which is the same for all texts of one type."""
    return re.sub(r"[\s()]", "", re.sub(r"\(\s*\)", "unit", kind))


def _parts(answers: Sequence[Answer[Any]], most: int | None) -> Iterator[tuple[Sequence[Answer[Any]], bytes]]:
    """For commands in parts of at most `most` bytes each, or in one: the part whose answers are to be read now, and the lines to send
    before that, which are those of the part after it."""
    if most is None or len(answers) <= FEW:
        yield answers, b"".join([it.sent for it in answers])
        return
    reading: Sequence[Answer[Any]] = ()
    sending: list[Answer[Any]] = []
    size = 0
    for it in answers:
        size += len(it.sent)
        if size > most and sending:
            yield reading, b"".join([it.sent for it in sending])
            reading, sending, size = sending, [], len(it.sent)
        sending.append(it)
    yield reading, b"".join([it.sent for it in sending])
    yield sending, b""
