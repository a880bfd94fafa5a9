"""What a `Desk` needs of that which answers it: a program over two pipes, a server over a socket, or a library in this process."""

from __future__ import annotations

from abc import ABC, abstractmethod
from collections import deque
from collections.abc import Callable, Sequence
from contextlib import AbstractContextManager
from typing import TYPE_CHECKING, Any

from ._errors import DeskError
from ._fork import Owned

if TYPE_CHECKING:
    from ._answers import Answers
    from ._commands import Answer
    from ._helper import Helper
    from ._waits import Wait


class Closed(Exception):
    """The other end is closed."""


class Odd(Exception):
    """What stmdesk never prints was printed: the argument, or a text that begins with it."""


class AtomicBlocks(ABC):
    """The blocks of a desk's `atomically`, and a thread of the desk's own."""

    helper: Helper

    @abstractmethod
    def ask(self, wait: Wait, *, by_helper: bool) -> None:
        """Runs a block in this thread or by the helper, and waits while it blocks. `wait.end` is called with the outcome."""

    @abstractmethod
    def give_up(self, wait: Wait, *, withdraw: bool) -> None:
        """Ends a wait with `Cancelled`, unless it has another outcome first. A block that isn't submitted yet is withdrawn, or else
        tried once."""

    def let_go(self, patience: float) -> None:
        """Waits until what was given up is cancelled, for at most `patience` seconds, if this desk itself has to care for that."""
        return

    def is_any(self) -> bool:
        """Whether this desk itself has to care for a block that waits. Needs the lock."""
        return False

    def see(self, answers: Sequence[Answer[Any]]) -> None:
        """Looks at the answers to commands of other calls. Needs the lock."""
        return

    # What follows is used if the transport `keeps_answers`.

    def adopt(self, wait: Wait, ticket: int) -> None:
        """Waits for a block that another call has run, and that waits under this ticket. Needs the lock."""
        raise NotImplementedError

    def named(self, answer: Answer[None]) -> None:
        """Looks at the answer to what gave such a block its label. Raises a refusal after which no block can finish any more. Needs the lock."""
        raise NotImplementedError

    def fail(self, error: Exception) -> None:
        """Ends every wait with the error. Needs the lock."""
        raise NotImplementedError

    def look_again(self) -> None:
        """An exception broke another call off: has the answers looked at that the transport still has."""
        raise NotImplementedError

    def lose(self, error: DeskError) -> None:
        """A command of another call has no answer because of this error, and may have been done. Needs the lock."""
        raise NotImplementedError


class Transport(Owned, ABC):
    """Takes lines and gives lines, for one desk. Commands are given by one caller at a time, who has the desk's lock."""

    part: int | None  # bytes of commands that are sent in one go; None if all of a batch has to be
    is_shared = False  # whether others may declare variables, submit and finish on the same desk
    is_new = False  # whether the desk may be another one than before, since its server was started again
    keeps_answers = False  # whether it has the answers to the last `send` until the next, also if an exception came between
    end: DeskError | None  # what each call raises from now on
    lines: deque[str]  # that have come and weren't taken

    @property
    @abstractmethod
    def pid(self) -> int:
        """The number of the process that answers."""

    @abstractmethod
    def send(self, text: bytes) -> None:
        """Gives lines. Raises `Closed` if they can't be given, or what a call raises."""

    @abstractmethod
    def line(self) -> str:
        """The next line that is answered, without its line feed. Raises `Closed` if none comes."""

    def said(self, text: bytes) -> str:
        """Gives a line, and returns the one line that answers it."""
        self.send(text)
        return self.line()

    def forget(self) -> None:
        """Before a `send`, if it `keeps_answers`: `again` is false from now on."""

    def again(self) -> bool:
        """Has the answers to the last `send` once more as `lines`. False if it wasn't made."""
        return False

    @abstractmethod
    def ended(self, patience: float) -> DeskError:
        """After `Closed`: what calls raise from now on."""

    @abstractmethod
    def kill(self) -> DeskError:
        """Ends at once. Returns what calls raise from now on."""

    @abstractmethod
    def broken_off(self) -> None:
        """An exception has come between a command and its answer."""

    @abstractmethod
    def close(self, patience: float) -> DeskError | None:
        """Ends, in at most `patience` seconds. Returns the error if that is one, and nobody knows of it yet."""

    @abstractmethod
    def waits(
        self,
        lock: AbstractContextManager[Any],
        perform: Callable[[Sequence[Answer[Any]]], None],
        answers: Answers,
        patience: float,
    ) -> AtomicBlocks:
        """What runs the blocks of `atomically`. Raises what a call raises."""


class OwnTransport(Transport):
    """That of a desk which one process has for itself."""

    @abstractmethod
    def alive(self) -> int:
        """A descriptor whose other end is closed when the desk ends. It is the caller's to close. Raises what a call raises."""

    @abstractmethod
    def wait(self, patience: float) -> DeskError:
        """Ends, in at most `patience` seconds. Returns what calls raise from now on."""

    def waits(
        self,
        lock: AbstractContextManager[Any],
        perform: Callable[[Sequence[Answer[Any]]], None],
        answers: Answers,
        patience: float,
    ) -> AtomicBlocks:
        from ._waits import Waits

        return Waits(lock, perform, self, patience)
