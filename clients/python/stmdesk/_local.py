"""A desk in the process of its caller: finds the library libstmdesk.so (docs/EMBEDDING.md) and calls it. There is no pipe and no thread."""

from __future__ import annotations

import ctypes
import os
import threading
import weakref
from collections import deque
from contextlib import suppress
from copy import copy
from functools import lru_cache
from operator import index
from pathlib import Path
from typing import Any, NamedTuple

from ._errors import DeskError, Ended, OutOfMemory
from ._program import of_repository_above
from ._transport import Closed, Odd, OwnTransport

MAX_EVENTS = 1 << 20  # that a desk takes
ROOM = 1 << 12  # bytes of answers that one call of the library gives; a second call gives all others
NOT_CALLED = 2**64 - 1  # bytes that wait, as no call says

File = str | bytes | os.PathLike[str] | os.PathLike[bytes]


class _Handle(ctypes.Structure):
    """`stmdesk` of include/stmdesk.h."""

    _fields_ = [("at", ctypes.c_void_p)]


class _Fed(ctypes.Structure):
    """`stmdesk_fed` of include/stmdesk.h."""

    _fields_ = [("taken", ctypes.c_size_t), ("given", ctypes.c_size_t), ("waiting", ctypes.c_size_t)]


class Library(NamedTuple):
    """The functions of include/stmdesk.h. Python's other threads stand still during a call, so no two calls run at once, and no process
    is forked in the midst of one."""

    new: Any
    feed: Any
    free: Any


def find_library() -> str:
    """The path of the library `libstmdesk.so` that `Desk(local=True)` calls: of the first that there is of `$STMDESK_LIBRARY`, the library
    in this package, and that of the repository that this package is in (that of release/, or the one that tools/library has made). Raises
    FileNotFoundError if there is none.

    >>> with Desk(local=True, library=find_library()) as desk:
    ...     desk.eval()
    0
    """
    named = os.environ.get("STMDESK_LIBRARY")
    if named:
        if not os.path.isfile(named):
            raise FileNotFoundError(f"no library to call: STMDESK_LIBRARY names {named!r}, which isn't a file")
        return named
    folder = Path(__file__).resolve().parent
    own = folder / "bin" / "libstmdesk.so"
    if own.is_file():
        return os.fspath(own)
    try:
        return of_repository_above(folder, "--which-library")
    except OSError as error:
        raise FileNotFoundError(
            "no library to call. Give its path to Desk(local=True, library=..) or in the environment variable STMDESK_LIBRARY. "
            f"STMDESK_LIBRARY isn't set; the package brings none ({own}); {error}."
        ) from None


@lru_cache(maxsize=None)
def load(path: str) -> Library:
    """Loads the library. Raises OSError if it can't be loaded, or has other functions."""
    loaded, address, size = ctypes.PyDLL(path), ctypes.c_void_p, ctypes.c_size_t
    try:
        library = Library(loaded.stmdesk_new, loaded.stmdesk_feed, loaded.stmdesk_free)
    except AttributeError as error:
        raise OSError(f"{path} is no library of stmdesk: {error}") from None
    library.new.argtypes, library.new.restype = [ctypes.c_uint32, address], ctypes.c_bool
    library.feed.argtypes, library.feed.restype = [address, ctypes.c_char_p, size, address, size, address], ctypes.c_uint32
    library.free.argtypes, library.free.restype = [_Handle], None
    return library


def begin_local(library: File | None, max_events: int | None, **of_a_process: object) -> Local:
    """A desk of the library at this path, or of the one that `find_library` finds. Raises ValueError for an option that needs a process."""
    for name, value in of_a_process.items():
        if value is not None:
            needs = "a desk in this process has no program, no journal and one thread"
            raise ValueError(f"{name}={value!r} doesn't go with local=True: {needs}")
    limit = MAX_EVENTS if max_events is None else index(max_events)
    if not 0 <= limit <= MAX_EVENTS:
        raise ValueError(f"max_events={max_events!r} isn't from 0 to {MAX_EVENTS}")
    return Local(load(find_library() if library is None else os.path.abspath(os.fsdecode(library))), limit)


class Local(OwnTransport):
    """A desk of the library. It is called by one thread at a time.

    The answers of a call of the library remain in buffers of this object until the next `send`. So an exception of a signal handler, which
    may come between any two steps of Python but not within a call, loses none: `again` has them once more.
    """

    part = None
    keeps_answers = True

    def __init__(self, library: Library, max_events: int) -> None:
        self.end: DeskError | None = None
        self.lines: deque[str] = deque()  # of the last answers, those that weren't taken
        self._handle = _Handle()
        self._at = ctypes.addressof(self._handle)
        self._out, self._fed = bytearray(ROOM), _Fed(waiting=NOT_CALLED)
        self._in_out = ctypes.c_char.from_buffer(self._out)  # which keeps it where it is
        self._out_at, self._fed_at = ctypes.addressof(self._in_out), ctypes.addressof(self._fed)
        self._rest, self._fed_rest = bytearray(), _Fed()  # the answers that had no room in the first, and how the second call ended
        self._length = 0  # of the lines that were sent
        self._is_forked = False
        self._using = threading.Lock()  # held while the library may be called, so that the desk isn't freed then
        self._ending = threading.RLock()  # so that a signal handler may close it in the midst of this
        self._life: Any = None  # closes the end of a pipe whose other end `alive` has given
        self._feed = library.feed
        if not library.new(max_events, self._at):
            raise OutOfMemory("a new desk")
        self._pid = os.getpid()
        self._free = weakref.finalize(self, _free, library.free, self._handle, self._pid)
        self._free.atexit = False
        super().__init__()

    @property
    def pid(self) -> int:
        return self._pid

    def forget(self) -> None:
        if self._fed.waiting not in (0, NOT_CALLED) and not self._fed_rest.given:
            self._drop()
        self._fed.waiting = NOT_CALLED
        if self._rest:
            self._fed_rest.given = 0  # before the next step, since a signal handler may raise between them
            self._rest = bytearray()
        self.lines.clear()

    def send(self, text: bytes) -> None:
        try:
            with self._using:
                if self.end:
                    raise Closed
                self._length = len(text)
                self._feed(self._at, text, self._length, self._out_at, ROOM, self._fed_at)
                self._take()
        finally:
            if self.end:
                self._release()

    def said(self, text: bytes) -> str:
        """What `send` and `line` do, in one."""
        try:
            with self._using:
                if self.end:
                    raise Closed
                self._length = len(text)
                fed = self._fed
                self._feed(self._at, text, self._length, self._out_at, ROOM, self._fed_at)
                if fed.waiting or not fed.given:
                    self._take()
                    return self.line()
                line, _, more = self._out[: fed.given].decode("ascii", "replace").partition("\n")
                if more:
                    raise Odd(f"{line}\n{more}")
                return line
        finally:
            if self.end:
                self._release()

    def again(self) -> bool:
        try:
            with self._using:
                if self.end or self._fed.waiting == NOT_CALLED:
                    return False
                self._take()
                return True
        finally:
            if self.end:
                self._release()

    def _take(self) -> None:
        """Takes the answers of the last call. If an exception breaks it off, it can be made again."""
        text, left = self._out[: self._fed.given], self._fed.waiting
        if left:
            if len(self._rest) < left:
                self._rest = bytearray(left)
            if not self._fed_rest.given:
                into = ctypes.c_char.from_buffer(self._rest)
                self._feed(self._at, b"", 0, ctypes.addressof(into), left, ctypes.addressof(self._fed_rest))
            text += self._rest
        lines = text.decode("ascii", "replace").split("\n")
        del lines[-1]
        self.lines.clear()
        self.lines.extend(lines)

    def _drop(self) -> None:
        """Drops answers for which Python had no memory."""
        with self._using:
            while self._fed.waiting and not self.end:
                self._feed(self._at, b"", 0, self._out_at, ROOM, self._fed_at)

    def line(self) -> str:
        if self.lines:
            return self.lines.popleft()
        if self._is_forked:
            raise self.not_owner()
        if self._fed.taken < self._length:
            raise OutOfMemory("a command")
        raise Odd("fewer lines than there should be")

    def broken_off(self) -> None:
        """The answers are still there."""

    def ended(self, patience: float) -> DeskError:
        return self.kill()

    def wait(self, patience: float) -> DeskError:
        return self.kill()

    def kill(self) -> DeskError:
        self.check_owner()
        with self._ending:
            self.end = self.end or Ended(0, "the desk was closed")
            if self._life:
                self._life()
        self._release()
        return self.end

    def close(self, patience: float) -> DeskError | None:
        self.kill()
        return None

    def _release(self) -> None:
        """Frees the desk, which has ended. If a call is under way, its thread does so after it."""
        if self._using.acquire(blocking=False):
            try:
                self._free()
            finally:
                self._using.release()

    def alive(self) -> int:
        with self._ending:
            if self.end:
                raise copy(self.end)
            ours, theirs = os.pipe()
            self._life = weakref.finalize(self, _close, theirs)
            return ours

    def descriptors(self) -> list[int]:
        found = self._life.peek() if self._life else None
        return [found[2][0]] if found else []

    def forked(self) -> None:
        self._is_forked = True
        self._feed = _feed_nothing
        self._fed.given = self._fed.waiting = 0
        self.lines.clear()


def _feed_nothing(*given: object) -> int:
    """Stands for the library in a forked process, if a signal handler forked in the midst of a call."""
    return 0


def _free(free: Any, handle: _Handle, owner: int) -> None:
    if os.getpid() == owner:  # a forked process leaves its copy as it is
        free(handle)


def _close(descriptor: int) -> None:
    with suppress(OSError):
        os.close(descriptor)
