"""`atomically`: blocks that run to their end, each for a caller that waits for it."""

from __future__ import annotations

import math
import threading
import time
import weakref
from collections import deque
from collections.abc import Callable, Sequence
from contextlib import AbstractContextManager, suppress
from copy import copy
from typing import Any

from ._commands import ATOMICALLY, CANCEL, CHECKPOINT, EVAL, FINISH, HANDBACK, LABEL, Answer, labelling
from ._errors import Cancelled, DeskError, OutOfMemory, Refused, Thrown
from ._fork import Owned
from ._helper import Helper
from ._transport import AtomicBlocks, OwnTransport
from ._values import Finished, FinishedThrows, R, Ref, Value, Waiting

SIGNALS = 1.0  # seconds after which the main thread looks for a signal that it has missed


def checked_timeout(timeout: float | None) -> float | None:
    """The timeout as a `float`, so that no other kind of number fails later. Raises ValueError or TypeError if it is no number of seconds."""
    if timeout is None:
        return None
    try:
        is_number, seconds = not math.isnan(timeout), float(timeout)  # `float` alone takes texts, too
    except OverflowError:  # an `int` that no `float` holds
        return math.inf if timeout > 0 else -math.inf
    except TypeError:
        raise TypeError(f"a timeout is a number of seconds, and not {timeout!r}") from None
    if not is_number:
        raise ValueError(f"a timeout is a number of seconds, and not {timeout!r}")
    return seconds


def check_returns(returns: type[R] | None) -> None:
    """Raises TypeError if this is none of the types that a result can be asked to have."""
    if returns is not None and returns not in (int, bool, Ref):
        raise TypeError(f"`returns` is int, bool or Ref, and not {returns!r}")


def checked_result(result: Value, returns: type[R]) -> R:
    """The result, which is to have this type. Raises TypeError if it has another one: a bool is no int here."""
    if type(result) is not returns:
        raise TypeError(f"the block returned {result!r}, which is of type {type(result).__name__} and not {returns.__name__}; its effect stays")
    return result


class Wait:
    """A block that a caller gave to `atomically`, until its outcome is there: a result or an error."""

    __slots__ = ("_tell", "error", "is_over", "is_withdrawn", "label", "lock", "result", "run", "ticket")

    def __init__(self, block: str, label: str | None = None, tell: Callable[[], None] | None = None) -> None:
        """`tell` is called once, by another thread, when the outcome is there."""
        self.run = Answer(ATOMICALLY, block)
        self.label = label  # which the block gets if it comes to wait
        self.lock: threading.Lock | None = None  # released when the outcome is there, if the caller may have to sleep until then
        self.ticket: int | None = None
        self.is_withdrawn = False  # then the block isn't run any more
        self.result: Value = None
        self.error: Exception | None = None
        self.is_over = False
        self._tell = tell

    def hold(self) -> None:
        """Makes the lock, before another thread has the wait."""
        lock = threading.Lock()
        lock.acquire()
        self.lock, self._tell = lock, lock.release

    def acquire(self, within: float | None = None) -> bool:
        """Acquires the lock, if there is one, within a time if one is given. The main thread wakes up now and then: Python runs no handler
        for a signal that comes in the moment in which it begins to sleep on a lock."""
        if self.lock is None:
            return True
        timeout = -1 if within is None else min(max(within, 0), threading.TIMEOUT_MAX)
        if threading.current_thread() is not threading.main_thread():
            return self.lock.acquire(timeout=timeout)
        end = time.monotonic() + timeout if timeout >= 0 else math.inf
        while not self.lock.acquire(timeout=max(0.0, min(SIGNALS, end - time.monotonic()))):
            if time.monotonic() >= end:
                return False
        return True

    def end(self, result: Value = None, error: Exception | None = None) -> None:
        self.result, self.error, self.is_over = result, error, True
        if self._tell is not None:
            self._tell()

    def naming(self) -> list[Answer[None]]:
        """What gives the block its label, if it has one and waits."""
        return [] if self.label is None or self.ticket is None or self.is_over else [Answer(LABEL, labelling(self.ticket, self.label))]

    def outcome(self) -> Value:
        if self.error is not None:
            raise self.error
        return self.result


class Waits(Owned, AtomicBlocks):
    """All blocks of the `atomically` of a desk that one process has for itself.

    Most blocks come here only if they wait (`adopt`): their callers run them by the command `atomically` themselves, which finishes a block
    or says that it waits (`Desk._try_here`). A turn runs the others in rounds, no matter who asked (`ask`): the new ones by that command,
    and of those that wait the ones that may go on by `eval` and `finish`. Of those whose line is long, each caller runs a turn in its own
    thread until its block was tried. The main thread, which a signal handler may interrupt anywhere, and a task, whose event loop has
    to go on, leave that to the helper, a thread of the desk's own. Then the caller sleeps on a lock of its own, which is released
    when the outcome is there. The helper sleeps until a turn is queued or the program ends. So nobody polls; only the main thread
    wakes up once a second, to let handlers of signals run.

    Why no wake-up is lost: every command is given under the lock of the desk, and its answer is looked at under the same lock: those of a
    round in `_round`, those of other calls in `see`. Whenever that lock is free, each ticket in `_waiting` is due, or else it blocked
    when it was run or last tried, right after an evaluation, and no finish since then has named it as stale. The program names each
    ticket whose evaluation read what a finish changed. So a ticket that isn't due blocks on the present store. While a ticket is due or a
    block is asked, a turn is under way or queued in the helper: whoever adds one runs or queues a turn after that, and a turn ends when
    there is none, or queues another. Two commands of others need care. `settle` and `drain` don't say what they finished, so the desk
    refuses them while something waits. A ticket that `take` has handed out is left out by `eval`; its finish is then refused with `Stale`
    or `NotEvaluated`, so it is handed back and stays due.

    Why no block is left waiting though its call has ended: a call that ends without its block's outcome has given it up before, and what is
    given up is cancelled by the next round. Two things can come between. The desk is closed: that waits for the round (`let_go`). Or the
    history is full, so that nothing can be cancelled, and each call raises that: then the tickets are kept (`_left`), and cancelled
    by the first round after which there is room. If the process dies, its tickets are what `Desk.orphans` returns in the next one.
    """

    def __init__(
        self,
        lock: AbstractContextManager[Any],
        perform: Callable[[Sequence[Answer[Any]]], None],
        transport: OwnTransport,
        patience: float,
    ) -> None:
        """`lock` is the lock of the desk. `perform` gives commands, with that lock."""
        self._lock, self._perform, self._transport, self._patience = lock, perform, transport, patience
        self._asked: deque[Wait] = deque()  # whose blocks aren't run yet
        self._given_up: deque[Wait] = deque()  # which are to be cancelled, each after it was asked
        self._leaving: deque[Wait] = deque()  # the same, until they are
        # What follows is used with the lock only.
        self._new: list[Wait] = []  # whose blocks are being run
        self._waiting: dict[int, Wait] = {}  # by ticket
        self._due: set[int] = set()  # tickets that may be able to finish
        self._out: set[int] = set()  # those of them that somebody else has taken
        self._unwanted: set[int] = set()  # tickets to cancel
        self._lost: DeskError | None = None  # why an answer is lost that may have named or finished any ticket
        self._left: set[int] = set()  # tickets to cancel as soon as the history has room
        this = weakref.ref(self)  # so that the thread doesn't keep a desk alive that nobody uses

        def on_end() -> None:
            waits = this()
            if waits is not None:
                waits._program_ended()

        self.helper = Helper(transport.alive(), on_end)
        super().__init__()

    def forked(self) -> None:
        """Ends what waits, in case that a signal handler forked while its thread waited."""
        self.fail(self.not_owner())

    def ask(self, wait: Wait, *, by_helper: bool) -> None:
        """Runs a block in this thread or by the helper, and waits while it blocks. `wait.end` is called with the outcome."""
        self._asked.append(wait)
        if by_helper:
            self.helper.run(self._turn, once=True)
        else:
            self._turn(wait)

    def give_up(self, wait: Wait, *, withdraw: bool) -> None:
        """Ends a wait with `Cancelled`, unless it has another outcome first. A block that isn't run yet is withdrawn, or
        else tried once."""
        wait.is_withdrawn = withdraw
        self._leaving.append(wait)
        self._given_up.append(wait)
        self.helper.run(self._turn, once=True)

    def let_go(self, patience: float) -> None:
        """Waits until what was given up is cancelled, for at most `patience` seconds."""
        if all(it.is_over for it in self._leaving.copy()):
            return
        done = threading.Lock()
        done.acquire()
        self.helper.run(done.release)  # after the turn that `give_up` has queued
        done.acquire(timeout=min(patience, threading.TIMEOUT_MAX))

    def is_any(self) -> bool:
        """Whether a block waits. Needs the lock."""
        return bool(self._waiting)

    def see(self, answers: Sequence[Answer[Any]]) -> None:
        """Looks at the answers to commands of other calls. Needs the lock."""
        for answer in answers:
            if answer.error is not None:
                continue
            if answer.command is FINISH:
                self._finished(answer.result())
            elif answer.command is CANCEL:
                self._cancelled(int(answer.text))
            elif answer.command is ATOMICALLY:
                done = answer.result()
                self._has_room()
                if not isinstance(done, Waiting):
                    self._finished(done)
            elif answer.command is CHECKPOINT:
                self._has_room()
        if self._due or self._unwanted:
            self.helper.run(self._turn, once=True)

    def adopt(self, wait: Wait, ticket: int) -> None:
        self._waiting[ticket] = wait
        wait.ticket = ticket  # at last: a signal handler may raise before, and then the caller cancels the ticket

    def look_again(self) -> None:
        self.helper.run(self._look_again, once=True)

    def _look_again(self) -> None:
        with self._lock:
            try:
                self._perform(())
            except DeskError as error:
                self.fail(error)

    def lose(self, error: DeskError) -> None:
        self._lost = error
        self._due.update(self._waiting)
        if self._due:
            self.helper.run(self._turn, once=True)

    def _turn(self, only: Wait | None = None) -> None:
        """Does what there is to do, until each block that still waits blocks. If a wait is given, stops when that was tried,
        and leaves the rest to the helper. The helper leaves it to a later turn if it has something else to do: while tasks give
        blocks without end, their turns would go on, and a plain call of another task would wait as long."""
        is_first = True
        while self._asked or self._due or self._given_up or self._unwanted:
            if only is not None and (only.is_over or only.ticket is not None) or only is None and not is_first and self.helper.has_more():
                self.helper.run(self._turn, once=True)
                return
            is_first = False
            with self._lock:  # for each round by itself, so that other calls come between
                try:
                    self._round()
                except OutOfMemory as error:
                    self._run_out(error)
                except DeskError as error:
                    self.fail(error)
                except BaseException:
                    self.fail(self._transport.kill())
                    raise

    def _program_ended(self) -> None:
        with self._lock:
            if self._waiting or self._asked or self._given_up:  # else nobody sees it yet, and `close` has to raise it
                self.fail(self._transport.wait(self._patience))

    def _run_out(self, error: OutOfMemory) -> None:
        """Ends every wait with the error, but those whose answers came before the command that there was no memory for. Cancels what then
        waits for nobody, if there is memory for that."""
        for new in self._new:
            if new.run.is_there():
                self._ran(new)
        tickets = [*self._waiting]
        self.fail(error)
        with suppress(DeskError):
            self._perform([Answer(CANCEL, str(ticket)) for ticket in tickets])

    def fail(self, error: Exception) -> None:
        """Ends every wait with the error."""
        if isinstance(error, Refused):  # the history is full, and the program goes on
            self._left |= self._waiting.keys() | self._unwanted
        failed = [*self._waiting.values(), *self._new, *self._asked, *self._given_up]
        self._waiting.clear()
        self._new.clear()
        self._asked.clear()
        self._given_up.clear()
        for tickets in (self._due, self._out, self._unwanted):
            tickets.clear()
        for wait in failed:
            if not wait.is_over:
                wait.end(error=copy(error))  # an error of its own for each thread, since raising it changes it

    def _round(self) -> None:
        """Tries once to finish each block that is due or new, all in one go; then cancels those that were given up."""
        if self._transport.keeps_answers:
            self._perform(())  # looks at the answers to a call that was broken off, before the tickets to try are chosen
        given_up = _taken(self._given_up)
        for wait in _taken(self._asked):
            if wait.is_withdrawn:
                wait.end(error=Cancelled())
            else:
                self._new.append(wait)
        for wait in given_up:
            if wait.ticket is None and wait not in self._new and not wait.is_over:  # it was broken off before it was asked
                wait.end(error=Cancelled())
        tries = [Answer(FINISH, str(ticket)) for ticket in sorted(self._due)]
        backs = [Answer(HANDBACK, str(ticket)) for ticket in self._out]  # refused if others did it meanwhile
        evaluated = Answer(EVAL)  # which is given before each finish, and keeps a refusal
        commands: list[Answer[Any]] = [*backs]
        for finish in tries:
            commands += (evaluated, finish)
        commands += [new.run for new in self._new]
        if commands:
            self._perform(commands)
        self._out.clear()
        for finish in tries:
            self._tried(finish)
        full = evaluated.error  # HistoryFull: no block can finish any more
        for new in self._new:
            full = self._ran(new) or full
        named = [it for new in self._new if new not in given_up for it in new.naming()]
        self._new.clear()
        if full is not None:
            raise full
        if named:
            self._perform(named)
            for it in named:
                self.named(it)
        if commands:
            self._has_room()
        if given_up or self._unwanted:
            self._cancel(given_up)
        while self._leaving and self._leaving[0].is_over:
            self._leaving.popleft()

    def _ran(self, wait: Wait) -> Exception | None:
        """Looks at the answer to a run. Returns a refusal after which no block can finish any more."""
        refused = wait.run.error
        if refused is not None:
            wait.end(error=refused)
            return refused if isinstance(refused, Refused) and refused.name == "HistoryFull" else None
        done = wait.run.result()
        wait.ticket = done.ticket
        self._waiting[done.ticket] = wait
        if not isinstance(done, Waiting):
            self._finished(done)
        return None

    def named(self, answer: Answer[None]) -> None:
        """Looks at the answer to what gives a block its label. Raises a refusal after which no block can finish any more."""
        refused = answer.error
        if isinstance(refused, Refused) and refused.name == "HistoryFull":
            raise refused
        if refused is not None:  # the program knows no labels
            ticket = int(answer.text.partition(" ")[0])
            self._due.discard(ticket)
            self._unwanted.add(ticket)
            self._waiting.pop(ticket).end(error=refused)

    def _tried(self, finish: Answer[Finished | FinishedThrows]) -> None:
        """Looks at the answer to a try to finish. Raises a refusal after which no block can finish any more."""
        refused = finish.error
        if not isinstance(refused, Refused):
            self._finished(finish.result())
            return
        ticket = int(finish.text)
        if refused.name == "HistoryFull":
            raise refused
        elif refused.name == "Blocks":
            self._due.discard(ticket)
        elif refused.name in ("Stale", "NotEvaluated"):
            self._out.add(ticket)
        elif refused.name == "NoTicket" and self._lost is not None:
            self._due.discard(ticket)
            self._waiting.pop(ticket).end(error=copy(self._lost))
        else:
            self._due.discard(ticket)
            self._unwanted.add(ticket)
            self._waiting.pop(ticket).end(error=refused)

    def _finished(self, done: Finished | FinishedThrows) -> None:
        wait = self._waiting.pop(done.ticket, None)
        self._due.discard(done.ticket)
        self._left.discard(done.ticket)
        if isinstance(done, Finished):
            self._due.update(ticket for ticket in done.stale if ticket in self._waiting)
        if wait is not None:
            if isinstance(done, Finished):
                wait.end(done.result)
            else:
                wait.end(error=Thrown(done.fault))

    def _cancelled(self, ticket: int) -> None:
        wait = self._waiting.pop(ticket, None)
        self._due.discard(ticket)
        self._left.discard(ticket)
        if wait is not None:
            wait.end(error=Cancelled())

    def _has_room(self) -> None:
        """The history may have room again for what it refused to cancel."""
        self._unwanted |= self._left
        self._left.clear()

    def _cancel(self, given_up: Sequence[Wait]) -> None:
        for wait in given_up:
            if wait.ticket is not None and wait.ticket in self._waiting:
                self._unwanted.add(wait.ticket)
        cancels = [Answer(CANCEL, str(ticket)) for ticket in self._unwanted]
        self._unwanted.clear()
        if cancels:
            self._perform(cancels)
        full: Refused | None = None
        for cancel in cancels:
            if isinstance(cancel.error, Refused) and cancel.error.name == "HistoryFull":
                full = cancel.error
                self._left.add(int(cancel.text))
            else:  # or refused as NoTicket: somebody has finished it since it was left
                self._cancelled(int(cancel.text))
        if full is not None:
            raise full


def _taken(waits: deque[Wait]) -> list[Wait]:
    """Takes all of them out."""
    taken = []
    while waits:
        taken.append(waits.popleft())
    return taken
