"""A connection to a server, or to the leader of several replicas: numbered requests, each of which is done at most once.

docs/SERVER.md, "The protocol", has the messages. When a connection breaks, another one goes on with the same session and the same numbers;
a server that has done a number answers it as it did the first time, and one that doesn't know the session says so. So no request is done
twice, and no answer is taken for that of another one.
"""

from __future__ import annotations

import math
import os
import select
import socket
import threading
import time
import weakref
from collections import deque
from collections.abc import Callable, Sequence
from contextlib import AbstractContextManager, suppress
from copy import copy
from functools import partial
from typing import Any

from ._answers import Answers
from ._commands import ATOMICALLY, DECLARED, Answer
from ._errors import BadAnswer, Cancelled, DeskClosed, DeskError, OutcomeUnknown, Refused, Thrown
from ._helper import Helper
from ._hints import hint
from ._numbers import Numbers
from ._transport import Odd, Transport, AtomicBlocks
from ._values import FinishedThrows
from ._waits import Wait

PIECE = 1 << 16  # bytes that are read at a time
ACKS = 2000  # ranges of numbers that one request acknowledges at most
QUIET = 2.0  # seconds without an answer after which one of several servers is asked whether it is there
DEAD = 6.0  # and after which another one is tried
PAUSE = 0.05  # seconds between two tries to connect
GREETING = 10.0  # seconds that a server has at most to answer the first line
LEAST = 1.0  # and that it has however little patience is left; also for the first question


class Request:
    """Lines that are done together, until their answer is there."""

    __slots__ = ("acks", "error", "is_given_up", "is_over", "is_sent", "lines", "tell", "text", "until")

    def __init__(self, number: int, lines: Sequence[str], acks: Numbers, tell: Callable[[], None]) -> None:
        self.until: float | None = None  # of a first question, which has no effect: when a server has to have answered it
        known = f" {acks.text(ACKS)}" if acks.ranges else ""
        self.text = "".join((f"@{number} {len(lines)}{known}\n", *(f"{it}\n" for it in lines))).encode()
        self.acks = acks
        self.tell = tell
        self.lines: list[str] = []  # of the answer
        self.error: Exception | None = None
        self.is_sent = self.is_given_up = self.is_over = False

    def end(self, error: Exception | None = None) -> None:
        self.error, self.is_over = error, True
        self.tell()


class Broken(Exception):
    """The connection ended, or said what no server says."""


class Silent(Exception):
    """The server took the connection, and then didn't answer what any server answers at once."""


class Session(Transport):
    """The calls of one desk, over one connection at a time. A thread of its own reads and connects, so that Ctrl-C breaks nothing off.

    The thread ends with the desk, or when it has tried to connect again for as long as the patience. Then what is under way is refused, and
    the next call starts another thread, which goes on with the same session if the server still has it.
    """

    part = None
    is_shared = True

    def __init__(self, paths: Sequence[str], *, reconnect: bool, patience: float, keep: bool, is_waiting: bool) -> None:
        """Connects. If it `is_waiting`, returns when that is done, and raises `DeskClosed` if there is no server; else calls raise it."""
        self._paths, self._reconnect, self._patience = paths, reconnect, patience
        self._new = " ".join(["new", *(["keep"] if keep else []), *([] if reconnect else ["once"])])
        self.lines: deque[str] = deque()
        self.end: DeskError | None = None
        self._lock = threading.RLock()
        # What follows is used with the lock only.
        self._name = ""  # of the session, while there is one
        self._number = 0  # of the last request
        self._pending: dict[int, Request] = {}  # by number, ascending
        self._dropped: set[int] = set()  # that were sent, and refused as unknown when the desk gave up
        self._question: Request | None = None  # the first one over a connection, which any server answers at once
        self._is_heard = False  # whether this connection has brought an answer
        self._got = Numbers()  # whose answers have come
        self._acks = Numbers()  # those of them that aren't acknowledged
        self._out = bytearray()  # what is to be sent
        self._parts: list[tuple[Request | None, int]] = []  # of that: whole requests, and how long they are
        self._socket: socket.socket | None = None  # while requests can be sent
        self._any_socket: socket.socket | None = None  # while there is one
        self._is_closing = self._is_killed = False
        self._pid = 0
        self._worker: threading.Thread | None = None
        self._since = time.monotonic()  # since when there was no server, while there is none
        self._gave_up: DeskError | None = None  # why there was none, while the thread is over
        self.has_desk = not is_waiting  # whether somebody has the desk already
        self._over = threading.Event()
        self._woken, self._wake = os.pipe()
        self._alive, self._life = os.pipe()  # whose second end is closed when the session ends
        self._open = [self._woken, self._wake, self._alive, self._life]
        os.set_blocking(self._wake, False)
        weakref.finalize(self, _close_all, self._open).atexit = False
        self._opened: threading.Lock | None = threading.Lock()  # released when the first session is there, or none can be
        self._opened.acquire()
        opened = self._opened
        super().__init__()
        try:
            with self._lock:
                self._start()
            if is_waiting:
                opened.acquire()
        except BaseException:
            self.kill()
            raise
        error = self.end or self._gave_up
        if error and is_waiting:
            self.kill()
            raise copy(error)

    # What a desk asks.

    @property
    def pid(self) -> int:
        return self._pid

    def send(self, text: bytes) -> None:
        """Gives lines as one request, and waits for the answer."""
        over = threading.Lock()
        over.acquire()
        request = self.begin(text.decode().split("\n")[:-1], over.release)
        over.acquire()
        if request.error:
            raise request.error
        self.lines.extend(request.lines)

    def line(self) -> str:
        if not self.lines:
            raise Odd("fewer lines than there should be")
        return self.lines.popleft()

    def broken_off(self) -> None:
        self.lines.clear()  # the answer of a request under way is dropped when it comes

    def ended(self, patience: float) -> DeskError:
        return self.kill()

    def kill(self) -> DeskError:
        self.check_owner()
        with self._lock:
            if self._socket and not self._out and not self._is_closing:  # so that the session ends now, and not after its grace
                with suppress(OSError):
                    self._socket.send(b"bye\n", socket.MSG_DONTWAIT)
            self.end = end = self.end or DeskClosed("the connection was closed")
            self._is_closing = self._is_killed = True
            self._wake_up()
            is_idle = self._worker is None
        if is_idle:
            self._stop(end)
        return end

    def close(self, patience: float) -> DeskError | None:
        """Ends the session, and with it the blocks that wait for it. Waits until the server has read that."""
        with self._lock:
            is_there = self.end is None
            self._is_closing = True
            if self._socket and is_there:
                self._queue(b"bye\n")
            self.end = self.end or DeskClosed("the connection was closed")
            self._wake_up()
            is_idle = self._worker is None
        if not is_idle:
            self._over.wait(patience)
        self.kill()
        return None

    def waits(
        self,
        lock: AbstractContextManager[Any],
        perform: Callable[[Sequence[Answer[Any]]], None],
        answers: Answers,
        patience: float,
    ) -> AtomicBlocks:
        return _ServerWaits(self, answers)

    def alive(self) -> int:
        """A descriptor whose other end is closed when the session ends. It is the caller's to close."""
        with self._lock:
            if self.end:
                raise copy(self.end)
            return os.dup(self._alive)

    def descriptors(self) -> list[int]:
        socket = self._any_socket
        return [*self._open, *([socket.fileno()] if socket and socket.fileno() >= 0 else [])]

    def forked(self) -> None:
        self._lock = threading.RLock()
        pending, self._pending = self._pending, {}
        for it in pending.values():  # a signal handler may have forked while its thread waited
            it.end(self.not_owner())

    # Requests.

    def begin(self, lines: Sequence[str], tell: Callable[[], None]) -> Request:
        """Begins a request. `tell` is called once, by another thread, when the answer or an error is there."""
        with self._lock:
            if self.end:
                raise copy(self.end)
            self._number = number = self._number + 1
            acks, self._acks = Numbers(self._acks.ranges[:ACKS]), Numbers(self._acks.ranges[ACKS:])
            request = self._pending[number] = Request(number, lines, acks, tell)
            if lines == [DECLARED.word] and not self._is_heard:
                request.until = max(self._since + self._patience, time.monotonic() + LEAST)
                self._question = request
                self._wake_up()
            try:
                if self._worker is None:
                    self._start()
                self._send(request.text, request)
            except BaseException:
                if not request.is_sent:
                    self._pending.pop(number, None)
                    self._acks_of(acks)
                raise
            return request

    def _acks_of(self, acks: Numbers) -> None:
        for low, high in acks.ranges:
            self._acks.add(low, high)

    def give_up(self, request: Request) -> None:
        """Has the waiting blocks of a request cancelled, which answers it."""
        with self._lock:
            request.is_given_up = True
            number = next((number for number, it in self._pending.items() if it is request), 0)
            if number and request.is_sent:
                self._send(b"!%d\n" % number)

    def _send(self, text: bytes, request: Request | None = None) -> None:
        """Sends, or lets the thread send. In the main thread a signal handler may come between a write and the note of it, so it writes
        nothing. Needs the lock."""
        if not self._socket:
            return  # requests are sent when there is a connection
        if request:
            request.is_sent = True
        if not self._out and threading.current_thread() is not threading.main_thread():
            try:
                text = text[self._socket.send(text, socket.MSG_DONTWAIT) :]
            except BlockingIOError:
                pass
            except OSError:  # nothing of it was taken; the thread sees the end of the connection, too
                if request:
                    request.is_sent = False
                return
            if not text:
                return
            if request and len(text) < len(request.text):
                request = None  # it was begun
        self._queue(text, request)
        self._wake_up()

    def _queue(self, text: bytes, request: Request | None = None) -> None:
        self._out += text
        self._parts.append((request, len(text)))

    def _drop_queue(self) -> None:
        """The connection has ended: what is in the queue as a whole was never sent."""
        left = len(self._out)
        for request, size in reversed(self._parts):
            left -= size
            if left < 0:
                break
            if request:
                request.is_sent = False
        self._out.clear()
        self._parts.clear()

    def _wake_up(self) -> None:
        """Needs the lock."""
        if self._open:  # else the number may be that of another file
            with suppress(OSError):  # a full pipe wakes the thread as well
                os.write(self._wake, b"\0")

    # The thread.

    def _start(self) -> None:
        """Starts the thread. Needs the lock."""
        self._since, self._gave_up = time.monotonic(), None
        self._worker = threading.Thread(target=self._work, name="stmdesk connection", daemon=True)
        try:
            self._worker.start()
        except BaseException as error:
            self._worker = None  # if it was started all the same, it sees this
            if isinstance(error, RuntimeError):
                raise DeskClosed(f"no thread for the connection: {error}") from None
            raise

    def _work(self) -> None:
        with self._lock:
            if self._worker is not threading.current_thread():
                return
        why: DeskError = DeskClosed("the connection was closed")
        gives_up = False
        try:
            why = self._connections()
            gives_up = self._reconnect
        finally:
            self._stop(why, gives_up=gives_up)

    def _connections(self) -> DeskError:
        """One connection after the other. Returns why there is no further one."""
        at, why = 0, DeskClosed("the connection was closed")
        while not self._is_closing:
            path = self._paths[at % len(self._paths)]
            at += 1
            was_there = False
            try:
                with socket.socket(socket.AF_UNIX, socket.SOCK_STREAM) as it:
                    self._any_socket = it
                    rest = self._join(it, path)
                    was_there = True
                    self._tell_opened()
                    self._talk(it, rest)
                    why = DeskClosed(f"the server at {path} ended the connection")
            except Silent:
                was_there = False
                why = DeskClosed(f"no server at {path}: it takes connections, and doesn't answer")
            except Broken as error:
                why = DeskClosed(f"no server at {path}: {error}")
            except OSError as error:
                why = DeskClosed(f"no server at {path}: {error.strerror or error}")
            finally:
                with self._lock:
                    self._socket = self._any_socket = None
                    self._drop_queue()
            if was_there:
                self._since = time.monotonic()
            if self._is_closing or not self._reconnect:
                break
            if time.monotonic() - self._since > self._patience:
                next_call = "; its next call tries again" if self.has_desk else ""
                return DeskClosed(f"{why}. The desk gave up after {self._patience:g} s{next_call}")
            if (self._opened is None or at % len(self._paths) == 0) and select.select([self._woken], [], [], PAUSE)[0]:
                os.read(self._woken, 4096)
        return why

    def _join(self, it: socket.socket, path: str) -> bytes:
        """Connects, and joins the session or begins one. Returns what came after that."""
        now = time.monotonic()
        until = now + min(GREETING, max(LEAST, self._since + self._patience - now))
        it.settimeout(until - now)
        it.connect(path)
        rest = bytearray()
        with self._lock:
            is_begun, self._is_heard = not self._name, False
            name = self._name or os.urandom(12).hex()
        it.sendall(f"session {name}{f' {self._new}' if is_begun else ''}\n".encode())
        said = _line_of(it, rest, until).removeprefix("@0 ")
        if said == "1":
            said = _line_of(it, rest, until)
        if said != "session ok":
            if said != "refused NoSession":
                raise Broken(said)
            with self._lock:  # it has ended, so what was sent is unknown
                self._name, self._got, self._acks = "", Numbers(), Numbers()
                self._dropped.clear()
                sent = {n: it for n, it in self._pending.items() if it.is_sent and it.until is None}
                for number in sent:
                    del self._pending[number]
            for request in sent.values():
                request.end(OutcomeUnknown("the server was started again, or has ended the session: the call may have had its effect"))
            if not self._reconnect:
                raise Broken("the server doesn't know the session any more")
            raise Broken("a new session begins")  # over a new connection
        with self._lock:
            if is_begun:
                self.is_new = self._opened is None
            self._acks = Numbers(self._got.ranges)  # the server may not have seen all of them
            self._name, self._socket = name, it
            with suppress(OSError, AttributeError):
                self._pid = int.from_bytes(it.getsockopt(socket.SOL_SOCKET, socket.SO_PEERCRED, 12)[:4], "little")
            for number in self._dropped:  # nobody would get the results of their blocks
                self._queue(b"!%d\n" % number)
            for number, request in self._pending.items():
                self._queue(request.text, None if request.is_sent else request)
                request.is_sent = True
                if request.is_given_up:
                    self._queue(b"!%d\n" % number)
            it.setblocking(False)
        return bytes(rest)

    def _talk(self, it: socket.socket, rest: bytes) -> None:
        """Sends and reads until the connection ends."""
        poll, heard, is_asked = select.poll(), time.monotonic(), False
        poll.register(self._woken, select.POLLIN)
        several = len(self._paths) > 1
        reader = _Reader(self._answered)
        reader.take(rest)
        while not self._is_killed:
            with self._lock:
                poll.register(it, select.POLLIN | (select.POLLOUT if self._out else 0))
                has_pending = bool(self._pending)
                question = self._question
            wait = 1000.0 if several else None
            if question is not None and question.until is not None:
                left = question.until - time.monotonic()
                if left <= 0:
                    raise Silent
                wait = min(wait or math.inf, 1000 * left)
            found = dict(poll.poll(wait))
            if self._woken in found:
                os.read(self._woken, 4096)
            if it.fileno() in found:
                with self._lock, suppress(BlockingIOError):
                    if self._out:
                        del self._out[: it.send(self._out)]
                    if not self._out:
                        self._parts.clear()
                with suppress(BlockingIOError):
                    piece = it.recv(PIECE)
                    if not piece:
                        return
                    reader.take(piece)
                    heard, is_asked = time.monotonic(), False
            if not several or not has_pending:
                heard = time.monotonic()
            elif time.monotonic() - heard > DEAD and is_asked:
                raise Broken("it doesn't answer any more")
            elif time.monotonic() - heard > QUIET and not is_asked:
                is_asked = True
                with self._lock:
                    self._queue(b"?\n")

    def _answered(self, number: int, lines: list[str], refusal: str) -> None:
        """Takes the answer to a request: lines, or the refusal of the whole. None is taken after `kill`, whose `bye` has waiting blocks
        cancelled: whether that is heard would depend on time."""
        with self._lock:
            if self._is_killed:
                return
            self._is_heard, self._question = True, None
            request = self._pending.pop(number, None)
            if request and refusal not in ("", "AnswerLost"):
                self._acks_of(request.acks)  # it wasn't taken
            if request or number in self._dropped:
                self._dropped.discard(number)
                self._got.add(number)
                self._acks.add(number)
        if request:
            request.lines = lines
            request.end(_refusal(refusal) if refusal else None)

    def _tell_opened(self) -> None:
        opened, self._opened = self._opened, None
        if opened:
            opened.release()

    def _stop(self, why: DeskError, *, gives_up: bool = False) -> None:
        """The thread ends, or there is none: the desk has ended, or gives up until its next call."""
        with self._lock:
            self._worker = None
            if not gives_up or self._is_closing:
                self.end = self.end or why
            self._gave_up = error = self.end or why
            pending, self._pending = self._pending, {}
            if not self.end:
                self._dropped.update(number for number, it in pending.items() if it.is_sent)
                self.is_new = True
        unknown = "the connection ended before the answer came"
        if not self.end:
            unknown += f", and there was no server for {self._patience:g} s"
        for request in pending.values():
            is_unknown = request.is_sent and request.until is None
            request.end(OutcomeUnknown(f"{unknown}: the call may have had its effect") if is_unknown else copy(error))
        self._tell_opened()
        if self.end:
            with self._lock:
                _close_all(self._open)
            self._over.set()


class _Reader:
    """Cuts what a server sends into answers: `@N M` and M lines, or `@N refused NAME`."""

    def __init__(self, answered: Callable[[int, list[str], str], None]) -> None:
        self._answered = answered
        self._rest = b""
        self._number = self._count = 0  # of the answer that is being read, and the lines of it that are to come
        self._lines: list[str] = []

    def take(self, piece: bytes) -> None:
        """Raises `Broken` for what no server sends."""
        *whole, self._rest = (self._rest + piece).split(b"\n")
        for text in whole:
            line = text.decode("ascii", "replace")
            if self._count:
                self._lines.append(line)
                self._count -= 1
            else:
                words = line.split(" ")
                try:
                    self._number = int(words[0].removeprefix("@"))
                    if words[1] == "refused":
                        self._answered(self._number, [], words[2])
                        continue
                    self._count = int(words[1])
                except (ValueError, IndexError):
                    raise Broken(line[:200]) from None
            if not self._count:
                lines, self._lines = self._lines, []
                self._answered(self._number, lines, "")


def _refusal(name: str) -> DeskError:
    """Of a request as a whole."""
    if name == "AnswerLost":
        return OutcomeUnknown("the call was made once, and its answer was too long to be kept for a second connection")
    return Refused(name, hint=hint(name, None, None, "", "", {}, None))


def _line_of(it: socket.socket, rest: bytearray, until: float) -> str:
    """The next line, if it comes in time."""
    while b"\n" not in rest:
        it.settimeout(max(until - time.monotonic(), 0.001))
        try:
            piece = it.recv(PIECE)
        except TimeoutError:
            raise Silent from None
        if not piece:
            raise Broken("it ended the connection")
        rest += piece
        if len(rest) > PIECE:
            raise Broken(rest[:200].decode("ascii", "replace"))
    line, _, after = rest.partition(b"\n")
    rest[:] = after
    return line.decode("ascii", "replace")


def _close_all(descriptors: list[int]) -> None:
    while descriptors:
        os.close(descriptors.pop())


class _ServerWaits(AtomicBlocks):
    """Blocks that wait at the server: each is a request `wait BLOCK`. The rounds of `Waits` need every finish, and only the server sees those
    of all."""

    def __init__(self, session: Session, answers: Answers) -> None:
        self._session, self._answers = session, answers
        self._requests: dict[Wait, Request] = {}
        self.helper = Helper(session.alive(), lambda: None)

    def ask(self, wait: Wait, *, by_helper: bool) -> None:
        if by_helper:
            self.helper.run(partial(self._begin, wait))
        else:
            self._begin(wait)

    def give_up(self, wait: Wait, *, withdraw: bool) -> None:
        wait.is_withdrawn = withdraw
        self.helper.run(partial(self._give_up, wait))

    def _begin(self, wait: Wait) -> None:
        if wait.is_withdrawn:
            wait.end(error=Cancelled())
            return
        asked: list[Request] = []
        ready = threading.Lock()  # held until the request is known
        with ready:
            try:
                block = wait.run.line().removeprefix(ATOMICALLY.word)
                line = f"wait{block}" if wait.label is None else f"waitas {wait.label}{block}"
                asked.append(self._session.begin([line], partial(self._over, wait, asked, ready)))
                self._requests[wait] = asked[0]
            except DeskError as error:
                wait.end(error=error)

    def _give_up(self, wait: Wait) -> None:
        request = self._requests.get(wait)
        if wait.is_over:
            return
        if request is None:  # it was broken off before it was asked
            wait.end(error=Cancelled())
        else:
            self._session.give_up(request)

    def _over(self, wait: Wait, asked: list[Request], ready: threading.Lock) -> None:
        with ready:
            request = asked[0]
        if request.error:
            wait.end(error=request.error)
        else:
            self._end(wait, request)
        self._requests.pop(wait, None)

    def _end(self, wait: Wait, request: Request) -> None:
        line = "\n".join(request.lines)
        words = line.split(" ")
        try:
            if words[0] == "refused":
                wait.end(error=self._answers.refusal(words, ATOMICALLY.word, wait.run.text.lstrip()))
            elif words[0] == "cancelled":
                wait.end(error=Cancelled())
            elif words[0] == "finished":
                done = self._answers.finished(words)
                if isinstance(done, FinishedThrows):
                    wait.end(error=Thrown(done.fault))
                else:
                    wait.end(done.result)
            else:
                raise ValueError("no end of a block")
        except (ValueError, LookupError):
            wait.end(error=BadAnswer(wait.run.line(), line))
