"""The same for asyncio: a `Desk` whose methods are awaited.

>>> import asyncio
>>> async def main():
...     async with aio.Desk() as desk:
...         await desk.tvar("x : Int = 1")
...         waiting = asyncio.create_task(desk.atomically("do { a <- readTVar x; if a < 5 then retry else return a }"))
...         await desk.atomically("writeTVar x 5")
...         return await waiting
>>> asyncio.run(main())
5

In the examples of the methods `desk` is a new desk on which `x : Int = 1` is declared, and `run` is `asyncio.run`.
"""

from __future__ import annotations

import asyncio
import os
from collections.abc import Callable
from contextlib import suppress
from copy import copy
from functools import partial
from types import TracebackType
from typing import Any, TypeVar, overload

from . import _desk
from ._batch import Commands
from ._connect import PATIENCE, Paths, session
from ._errors import Cancelled, DeskClosed, DeskError, JournalError, TimedOut
from ._program import Process
from ._commands import checked_label
from ._values import Entry, Events, Finished, FinishedThrows, Job, R, Reason, Ref, Settled, Status, Store, Value, Verdict, Waiting
from ._waits import Wait, check_returns, checked_result, checked_timeout

T = TypeVar("T")


class _Desk(_desk.Desk):
    """A desk whose journal is opened in its own thread, and which asks its server there."""

    _not_there: DeskError | None = None  # why the server wasn't, at the first try

    def _open_journal(self, process: Process) -> None:
        open_journal = super()._open_journal

        def work() -> None:
            with suppress(DeskError):  # which each later call raises
                open_journal(process)

        self._begin_waits().helper.run(work)

    def _begin_over(self) -> None:
        def work() -> None:
            try:
                self._take_over()
            except DeskError as error:  # which each later call raises, unless it finds the server
                self._not_there = error

        self._begin_waits().helper.run(work)

    def check_opened(self) -> None:
        """Raises `JournalError` if the journal isn't open, and `DeskClosed` if there is no server. Then the desk has ended."""
        if self._not_there is not None:
            self._transport.kill()
            raise copy(self._not_there)
        if isinstance(self._transport.end, (JournalError, DeskClosed)):
            raise copy(self._transport.end)


class Desk:
    """A running stmdesk for asyncio. An `async with` ends the program, however its body ends; so does `close`.

    Many tasks may call one desk: their calls are made in the order in which they began. The calls are made in a thread, so
    the event loop goes on meanwhile. A plain call whose task is cancelled before its turn isn't made; one that is under way
    is made to its end, and its answer is dropped.

    >>> async def main():
    ...     async with aio.Desk() as desk:
    ...         await desk.tvar("y : Int = 1")
    ...         return await desk.value("y")
    >>> run(main())
    1
    """

    def __init__(
        self,
        program: str | os.PathLike[str] | None = None,
        *,
        journal: str | bytes | os.PathLike[str] | os.PathLike[bytes] | None = None,
        sync: _desk.Sync | None = None,
        checkpoint_every: int | None = None,
        workers: int | None = None,
        levels: int | None = None,
        max_events: int | None = None,
        patience: float = _desk.PATIENCE,
        local: bool = False,
        library: str | bytes | os.PathLike[str] | os.PathLike[bytes] | None = None,
    ) -> None:
        """Starts the program, as `stmdesk.Desk` does, and doesn't wait until a journal is opened. If it isn't, `async with`
        raises `JournalError`, or else the first call does. With `local` the desk is in this process, and the event loop stands still while
        a command is done.

        >>> other = aio.Desk(workers=4, max_events=1000)
        >>> run(other.close())
        """
        self._desk = _Desk(
            program,
            journal=journal,
            sync=sync,
            checkpoint_every=checkpoint_every,
            workers=workers,
            levels=levels,
            max_events=max_events,
            patience=patience,
            local=local,
            library=library,
        )

    async def tvar(self, declaration: str) -> Ref:
        """Declares a variable, before the first other command.

        >>> run(desk.tvar("y : Int = 2"))
        Ref(1, 'y')
        """
        return await self._call(partial(self._desk.tvar, declaration))

    async def declare(self, declaration: str) -> Ref:
        """Declares a variable, at any time.

        >>> ticket = run(desk.submit("retry"))
        >>> run(desk.declare("y : Int = 2"))
        Ref(1, 'y')
        """
        return await self._call(partial(self._desk.declare, declaration))

    async def variable(self, declaration: str) -> Ref:
        """The variable of a declaration, which is declared if it isn't there.

        >>> run(desk.variable("x : Int = 0")), run(desk.variable("y : Int = 0"))
        (Ref(0, 'x'), Ref(1, 'y'))
        """
        return await self._call(partial(self._desk.variable, declaration))

    async def try_(self, block: str) -> Verdict:
        """What the block would do on the present store, which doesn't change.

        >>> run(desk.try_("retry"))
        Blocks()
        """
        return await self._call(partial(self._desk.try_, block))

    async def looks(self, block: str) -> dict[Ref, Value]:
        """The variables that the block would read, with their values.

        >>> run(desk.looks("readTVar x"))
        {Ref(0, 'x'): 1}
        """
        return await self._call(partial(self._desk.looks, block))

    async def submit(self, block: str, *, label: str | None = None) -> int:
        """Lets the block wait, with a label if one is given. Returns its ticket.

        >>> run(desk.submit("retry", label="job7"))
        1
        """
        return await self._call(partial(self._desk.submit, block, label=label))

    async def label(self, block: Waiting | int, label: str | None) -> None:
        """Gives a waiting block a label in place of the one that it had, or takes it away.

        >>> ticket = run(desk.submit("retry"))
        >>> run(desk.label(ticket, "job7"))
        """
        return await self._call(partial(self._desk.label, block, label))

    async def block(self, ticket: Waiting | int) -> str:
        """The text of a waiting block, on one line.

        >>> run(desk.block(run(desk.submit("retry"))))
        'retry'
        """
        return await self._call(partial(self._desk.block, ticket))

    async def take(self, count: int) -> list[Job]:
        """Hands out the `count` lowest queued tickets as jobs.

        >>> run(desk.take(10))
        []
        """
        return await self._call(partial(self._desk.take, count))

    async def deliver(self, job: Job | int) -> int:
        """Evaluates a job on the store of its `take`. Returns its ticket.

        >>> ticket = run(desk.submit("readTVar x"))
        >>> [run(desk.deliver(job)) for job in run(desk.take(10))]
        [1]
        """
        return await self._call(partial(self._desk.deliver, job))

    async def handback(self, ticket: Waiting | int) -> None:
        """Queues a ticket again that `take` handed out.

        >>> ticket = run(desk.submit("readTVar x"))
        >>> for job in run(desk.take(10)):
        ...     run(desk.handback(job.ticket))
        """
        return await self._call(partial(self._desk.handback, ticket))

    async def eval(self) -> int:
        """Evaluates all queued tickets. Returns how many there were.

        >>> run(desk.eval())
        0
        """
        return await self._call(self._desk.eval)

    async def finish(self, ticket: Waiting | int) -> Finished | FinishedThrows:
        """Applies the verdict of a ticket that is current and doesn't block.

        >>> ticket, evaluated = run(desk.submit("writeTVar x 5")), run(desk.eval())
        >>> run(desk.finish(ticket))
        Finished(ticket=1, result=None, stale=[])
        """
        return await self._call(partial(self._desk.finish, ticket))

    async def cancel(self, ticket: Waiting | int) -> None:
        """Ends the waiting of a ticket.

        >>> ticket = run(desk.submit("retry"))
        >>> run(desk.cancel(ticket))
        """
        return await self._call(partial(self._desk.cancel, ticket))

    async def show(self) -> list[Status]:
        """The state of each waiting ticket, in ascending order.

        >>> run(desk.show())
        []
        """
        return await self._call(self._desk.show)

    async def board(self, *, blocks: bool = True, reasons: bool = True) -> list[Entry]:
        """Who waits for what: each waiting block with its status, its label, its text and what it waits for. Asks what
        `stmdesk.Desk.board` asks.

        >>> ticket = run(desk.submit("retry", label="job7"))
        >>> run(desk.board())
        [Entry(status=New(ticket=1), label='job7', block='retry', why=New(ticket=1))]
        """
        return await self._call(partial(self._desk.board, blocks=blocks, reasons=reasons))

    async def ready(self) -> list[int]:
        """The tickets that can be finished now, in ascending order.

        >>> run(desk.ready())
        []
        """
        return await self._call(self._desk.ready)

    async def reads(self, ticket: Waiting | int) -> dict[Ref, Value]:
        """What the last evaluation of a waiting ticket read.

        >>> ticket, evaluated = run(desk.submit("readTVar x")), run(desk.eval())
        >>> run(desk.reads(ticket))
        {Ref(0, 'x'): 1}
        """
        return await self._call(partial(self._desk.reads, ticket))

    async def why(self, ticket: Waiting | int) -> Reason:
        """What a waiting ticket waits for.

        >>> ticket, evaluated = run(desk.submit("readTVar x")), run(desk.eval())
        >>> run(desk.why(ticket))
        Ready(ticket=1)
        """
        return await self._call(partial(self._desk.why, ticket))

    async def store(self) -> Store:
        """All variables, in ascending order, and by name.

        >>> run(desk.store())
        [Cell(variable=Ref(0, 'x'), name='x', type='Int', value=1, count=0)]
        """
        return await self._call(self._desk.store)

    async def settle(self) -> Settled:
        """Evaluates and finishes tickets until all that still wait block.

        >>> run(desk.settle())
        Settled(finished=0, evaluations=0)
        """
        return await self._call(self._desk.settle)

    async def drain(self) -> Settled:
        """Finishes the same tickets as `settle`, in the same order, but evaluates each only when it is its turn.

        >>> run(desk.drain())
        Settled(finished=0, evaluations=0)
        """
        return await self._call(self._desk.drain)

    async def history(self) -> str:
        """The text of all events so far.

        >>> print(run(desk.history()), end="")
        {"format":3,"vars":1}
        {"init":1,"name":"x","type":"Int"}
        """
        return await self._call(self._desk.history)

    async def events(self, since: int = 1) -> Events:
        """The events so far from the one of this number on, counted from 1, with the number `next` from which to go on.

        >>> ticket = run(desk.submit("retry"))
        >>> run(desk.events())
        [Submission(number=1, client=0, ticket=1, block='retry')]
        """
        return await self._call(partial(self._desk.events, since))

    async def checkpoint(self) -> int:
        """Lets the events so far go: the history begins again from where the desk is. Returns how many there were.

        >>> run(desk.checkpoint())
        0
        """
        return await self._call(self._desk.checkpoint)

    async def value(self, variable: str | Ref) -> Value:
        """The value of a variable of the present store.

        >>> run(desk.value("x"))
        1
        """
        return await self._call(partial(self._desk.value, variable))

    async def values(self, *variables: str | Ref) -> list[Value]:
        """The values of several variables at one moment.

        >>> run(desk.values("x", Ref(0, "x")))
        [1, 1]
        """
        return await self._call(partial(self._desk.values, *variables))

    @overload
    async def atomically(self, block: str, timeout: float | None = None, *, label: str | None = None, returns: None = None) -> Value: ...

    @overload
    async def atomically(self, block: str, timeout: float | None = None, *, label: str | None = None, returns: type[R]) -> R: ...

    async def atomically(
        self, block: str, timeout: float | None = None, *, label: str | None = None, returns: type[R] | None = None
    ) -> Value:
        """Runs the block and returns its result. While the block retries, waits until what it has read changes. If it comes to wait it
        gets the label, if one is given.

        Raises `Thrown` if the block throws; `TimedOut` if it can't finish within `timeout` seconds, and is cancelled;
        `Cancelled` if another call cancels its ticket; and `Ended` if the program ends. If the task is cancelled, so is the
        block, unless it had finished already.

        >>> run(desk.atomically("do { a <- readTVar x; writeTVar x (a + 1); return a }"))
        1

        A type checker sees that the result has the type `returns`: int, bool or Ref. If it has another one, as True for int, this raises
        TypeError; what the block has done stays.

        >>> run(desk.atomically("readTVar x", returns=int)) + 1
        3
        """
        timeout = checked_timeout(timeout)
        check_returns(returns)
        loop = asyncio.get_running_loop()
        over: asyncio.Future[None] = loop.create_future()
        wait = Wait(block, None if label is None else checked_label(label), lambda: _tell(loop, over, None, None))
        waits = self._desk._begin_waits()
        is_late = False
        try:
            waits.ask(wait, by_helper=True)
            if timeout is not None:
                await asyncio.wait((over,), timeout=max(timeout, 0))
                if not over.done():
                    is_late = True
                    waits.give_up(wait, withdraw=False)
            await over
        except BaseException:
            waits.give_up(wait, withdraw=True)
            raise
        if is_late and isinstance(wait.error, Cancelled) and timeout is not None:
            raise TimedOut(timeout)
        return wait.outcome() if returns is None else checked_result(wait.outcome(), returns)

    async def orphans(self) -> list[int]:
        """The tickets that waited already when this desk went on from its journal, and still wait, as of `stmdesk.Desk.orphans`.

        >>> run(desk.orphans())
        []
        """
        return await self._call(self._desk.orphans)

    def batch(self) -> Batch:
        """Commands that are sent in one go when the `async with` of the batch ends.

        >>> async def main():
        ...     async with desk.batch() as batch:
        ...         tickets = [batch.submit("retry") for _ in range(3)]
        ...     return [ticket.result() for ticket in tickets]
        >>> run(main())
        [1, 2, 3]
        """
        self._desk._transport.check_owner()
        return Batch(self)

    @property
    def pid(self) -> int:
        """The number of the program's process."""
        return self._desk.pid

    @property
    def is_resumed(self) -> bool:
        """Whether the desk goes on from the history of its journal, once that is opened.

        >>> desk.is_resumed
        False
        """
        return self._desk.is_resumed

    @property
    def dropped(self) -> int:
        """How many bytes were dropped when the journal was opened.

        >>> desk.dropped
        0
        """
        return self._desk.dropped

    @property
    def said(self) -> str:
        """The end of what the program has written on standard error.

        >>> desk.said
        ''
        """
        return self._desk.said

    async def close(self) -> None:
        """Ends the program's input and waits for the program to end, as `stmdesk.Desk.close` does.

        >>> run(desk.close())
        """
        await self._end(self._desk.close)

    async def __aenter__(self) -> Desk:
        await self._call(self._desk.check_opened)
        return self

    async def __aexit__(
        self, kind: type[BaseException] | None, error: BaseException | None, trace: TracebackType | None
    ) -> None:
        await self._end(partial(self._desk.__exit__, kind, error, trace))

    async def _end(self, end: Callable[[], None]) -> None:
        """Ends the desk, also if this task is cancelled meanwhile."""
        try:
            await asyncio.sleep(0)  # so that tasks which were cancelled give their blocks up before
        finally:
            await asyncio.to_thread(end)

    async def _call(self, function: Callable[[], T]) -> T:
        """Calls the function in the desk's thread."""
        loop = asyncio.get_running_loop()
        future: asyncio.Future[T] = loop.create_future()

        def work() -> None:
            if not future.cancelled():
                try:
                    result = function()
                except BaseException as error:
                    _tell(loop, future, None, error)
                else:
                    _tell(loop, future, result, None)

        self._desk._begin_waits().helper.run(work)
        return await future


def connect(*paths: Paths, reconnect: bool | None = None, patience: float = PATIENCE, keep: bool = False) -> Desk:
    """A desk at a server, as of `stmdesk.connect`, which has the arguments. Doesn't wait until it is connected. If it can't be, this
    raises `DeskClosed`, or else `async with` does, or else the first call.

    >>> async def main():
    ...     async with connect("/no/such/socket") as desk:
    ...         await desk.show()
    >>> run(main())
    Traceback (most recent call last):
    stmdesk.DeskClosed: no server at /no/such/socket: No such file or directory
    """
    desk = Desk.__new__(Desk)
    desk._desk = _Desk._over(session(paths, reconnect, patience, keep, is_waiting=False), patience)
    return desk


class Batch(Commands):
    """Commands that `async with` sends in one go when it ends, as `stmdesk.Batch` does.

    >>> async def main():
    ...     async with desk.batch() as batch:
    ...         looked = batch.try_("readTVar x")
    ...     return looked.result()
    >>> run(main())
    Commits(writes={}, news=[], result=1)
    """

    def __init__(self, desk: Desk) -> None:
        super().__init__()
        self._desk = desk

    async def __aenter__(self) -> Batch:
        return self

    async def __aexit__(
        self, kind: type[BaseException] | None, error: BaseException | None, trace: TracebackType | None
    ) -> None:
        if self._ends(kind):
            await self._desk._call(lambda: self._give(self._desk._desk._run))


def _tell(loop: asyncio.AbstractEventLoop, future: asyncio.Future[Any], result: object, error: BaseException | None) -> None:
    """Ends the future from another thread."""

    def end() -> None:
        if not future.done():
            if error is None:
                future.set_result(result)
            else:
                future.set_exception(error)

    with suppress(RuntimeError):  # the loop is closed, so nobody waits for the future
        loop.call_soon_threadsafe(end)
