"""A desk behind a socket: connections, groups of requests, limits, and what an operator sees of them. docs/SERVER.md describes it."""

from __future__ import annotations

import asyncio
import errno
import fcntl
import logging
import math
import os
import select
import shutil
import socket
import stat
import sys
import time
from collections import Counter, deque
from collections.abc import Callable, Sequence
from contextlib import suppress
from dataclasses import dataclass
from typing import Any, NoReturn

from ._locks import holder_of
from ._machine import (
    ANSWER, LINE, PIECE, REQUEST, REQUESTS, WAITING, WAITS, Console, Done, Ended, Lines, Machine, asked, size, weight, word,
)  # fmt: skip
from ._numbers import Numbers
from ._program import is_locked

GROUP = 1 << 18  # weight of a group, after which no further request is taken into it
AHEAD = 1 << 21  # weight of the lines of one connection that are read and in no group; then nothing more of it is read
ACKS = 5000  # ranges of numbers that one request acknowledges at most
ACCEPTED = 8  # connections that are accepted in one go
PAUSE = 1.0  # seconds between two looks whether the peer of a connection of which nothing is read is there
STOPPING = 2.0  # seconds that connections have to read their last answers
GONE = 10.0  # seconds after which a server that was stopped is gone, whatever its clients and its program do
CLOSING = 3.0  # of them, for its connections and its program
PATH_LENGTH = 107  # bytes of the path of a unix socket
FIRST_TRIES = (0.1, 0.2, 0.5, 1.0, 2.0)  # seconds between tries to start on a journal that is in use

log = logging.getLogger("stmdesk.server")

Item = list[Any]  # of a group or an entry: its kind, the session, and what else it needs


@dataclass
class Limits:
    connections: int = 512
    request: int = REQUEST  # weight
    unread: int = 8 << 20  # bytes of answers that a peer hasn't read when another one comes
    waiting: int = WAITING
    waiting_each: int | None = None  # of one session; `share` of all of them if nothing else is given
    answer: int = ANSWER  # bytes of the answer to a request after which its further lines are refused

    def machine(self, console: Console) -> Machine:
        return Machine(console, self.waiting, self.answer, self.waiting_each)


def out_of_memory() -> NoReturn:
    """Ends the process: after an allocation that failed nobody knows what of a call was done. What was answered is in the journal, and the
    program ends with its input."""
    os.write(2, b"stmdesk-serve: out of memory\n")
    os._exit(1)


class Connection:
    """One peer. It speaks plain lines, or after `session ..` numbered requests (docs/SERVER.md, "The protocol")."""

    def __init__(self, server: Server, reader: asyncio.StreamReader, writer: asyncio.StreamWriter) -> None:
        self.server, self.reader, self.writer = server, reader, writer
        self.session = f"plain-{os.urandom(12).hex()}"
        self.is_framed = self.is_begun = self.is_busy = self.is_ended = self.is_cut = False
        self.is_once = False  # whether the session ends with this connection
        self.is_leaving = False  # whether the session was ended
        self.lines: deque[tuple[bytes, int]] = deque()  # of a plain connection, that weren't given yet, with their weights
        self.number = 0  # of a plain connection's request
        self.head: tuple[int, Numbers] | None = None  # of a request whose lines are being read
        self.body: Lines = []
        self.body_weight = self.body_left = 0  # what its lines weigh, and how many are to come
        self.ahead = 0  # what all lines weigh that are in no group
        self.flight: set[int] = set()  # requests that aren't answered
        self.held = Numbers()  # acknowledged by requests that weren't logged
        self.room = asyncio.Event()

    async def serve(self) -> None:
        """Reads to the end of the input."""
        rest, is_long = b"", False
        while data := await self.reader.read(1 << 16):
            *whole, rest = (rest + data).split(b"\n")
            for line in whole:
                if line.endswith(b"\r"):
                    line = line[:-1]
                if is_long or len(line) > LINE:
                    line = b"x" * (LINE + 1)
                is_long = False
                self.take(line)
                if self.is_cut:
                    return
            if len(rest) > LINE + 1:
                rest, is_long = b"", True
            while self.ahead > AHEAD and not self.is_gone():
                self.room.clear()
                with suppress(asyncio.TimeoutError):
                    await asyncio.wait_for(self.room.wait(), PAUSE)
                if is_left(self.writer):
                    self.cut()
                    return
        if is_long or len(rest) > LINE:
            rest = b"x" * (LINE + 1)
        if rest and not self.is_framed:
            self.take(rest)
        self.is_ended = True
        self.pump()

    def take(self, line: bytes) -> None:
        first = line.split(b" ", 1)[0]
        if not self.is_framed and self.server.own(self, line):
            return
        if not self.server.is_leading:
            self.refuse("NotLeader")
        elif first == b"session" and not self.is_begun:
            self.greet(line)
        elif not self.is_framed:
            if not self.is_begun:
                self.join(self.session, ["open", *(["keep"] if self.server.keep else [])])
                if self.is_cut:
                    return
            self.lines.append((line, weight([line])))
            self.ahead += self.lines[-1][1]
            self.pump()
        elif self.head:
            self.body_weight += weight([line])
            self.body_left -= 1
            if self.body_weight <= self.server.limits.request:  # else it will be refused
                self.body.append(line)
            if not self.body_left:
                (number, acks), lines, self.head, self.body = self.head, self.body, None, []
                self.request(number, acks, lines, self.body_weight)
        else:
            self.frame(line)

    def greet(self, line: bytes) -> None:
        words = line.decode("ascii", "replace").split()
        is_new = words[2:3] == ["new"] and set(words[3:]) <= {"keep", "once"}
        if len(words) < 2 or len(words[1]) > 64 or words[1].startswith("plain-") or words[2:] and not is_new:
            self.refuse("Session")
            return
        self.is_framed, self.is_once = True, "once" in words[3:]
        keeps = ["keep"] if "keep" in words[3:] or self.server.keep else []
        self.join(words[1], ["open", *keeps] if is_new else ["join"])

    def frame(self, line: bytes) -> None:
        """The first line of a message: `@N K`, `!N`, `?` or `bye`."""
        try:
            if self.is_leaving:
                return
            if line == b"?":
                self.write(b"@0 0\n")
            elif line == b"bye":
                self.is_leaving = True
                self.server.put(["end", self.session])
            elif line[:1] == b"!":
                self.server.put(["drop", self.session, _number(line[1:])])
            elif line[:1] == b"@":
                number, count, *acks = line[1:].split(b" ")
                known = _numbers(acks[0]) if acks else Numbers()
                if len(acks) > 1 or not 0 < _number(number) or not 0 < _number(count):
                    raise ValueError
                self.head, self.body, self.body_weight, self.body_left = (_number(number), known), [], 0, _number(count)
            else:
                raise ValueError
        except ValueError:
            self.server.note("sent what is no message", self)
            self.cut()

    def join(self, name: str, words: Sequence[str]) -> None:
        if self.server.is_stopping:
            self.refuse("Stopping")
            return
        self.session, self.is_begun = name, True
        old = self.server.connections.get(name)
        self.server.connections[name] = self
        if old and old is not self:
            old.cut()
        self.server.put([words[0], name, *words[1:]])

    def pump(self) -> None:
        """Of a plain connection one request is under way; a `wait` is one by itself. The end of the input cancels it if it can't finish.
        Questions in it are one piece at most, so that requests of others come in between."""
        if self.is_framed or not self.is_begun or self.is_cut:
            return
        if self.is_gone():  # nobody would get the answers
            self.lines.clear()
            self.room.set()
        if not self.is_busy and self.lines:
            lines: Lines = []
            weighs = questions = 0
            while self.lines and questions < PIECE:
                line, more = self.lines[0]
                if lines and (weighs + more > self.server.limits.request or word(line) in WAITS):
                    break
                self.lines.popleft()
                lines.append(line)
                weighs += more
                if word(line) in WAITS:
                    break
                questions += asked([line])
            self.is_busy, self.number = True, self.number + 1
            self.ahead -= weighs  # `request` adds it again
            self.request(self.number, Numbers([[1, self.number - 1]] if self.number > 1 else ()), lines, weighs)
        if self.is_ended:
            self.server.put(["drop", self.session] if self.is_busy else ["end", self.session])

    def is_gone(self) -> bool:
        """Whether no answer comes to the peer any more."""
        return self.is_cut or self.writer.transport.is_closing()

    def taken(self, size: int) -> None:
        """A request of this session that weighs as much is in a group."""
        self.ahead = max(0, self.ahead - size)  # it may have come over an earlier connection
        if self.ahead <= AHEAD:
            self.room.set()

    def request(self, number: int, acks: Numbers, lines: Lines, size: int) -> None:
        if size > self.server.limits.request and self.is_framed:
            self.answer(number, b"RequestTooLong")
        elif len(self.flight) >= REQUESTS:
            self.answer(number, b"RequestsFull")
        else:
            self.flight.add(number)
            self.ahead += size
            if self.server.machine.is_logged(lines):
                for low, high in self.held.ranges:
                    acks.add(low, high)
                self.held = Numbers()
            else:
                for low, high in acks.ranges:
                    self.held.add(low, high)
            self.server.put(["req", self.session, number, acks.ranges, lines])

    def answer(self, number: int, lines: Lines | bytes) -> None:
        """Sends an answer, or the refusal of a request as a whole."""
        self.flight.discard(number)
        if isinstance(lines, bytes):
            self.write((b"@%d refused %s\n" % (number, lines)) if self.is_framed else b"refused %s\n" % lines)
        elif number or self.is_framed:
            self.write(b"\n".join([*([b"@%d %d" % (number, len(lines))] if self.is_framed else ()), *lines, b""]))
        if not self.is_framed:
            self.is_busy = self.is_busy and not number
            self.pump()

    def write(self, text: bytes) -> None:
        transport = self.writer.transport
        if self.is_cut or transport.is_closing():
            return
        if transport.get_write_buffer_size() > self.server.limits.unread:  # of earlier answers: one answer may be longer than that
            self.server.note("reads too slowly", self)
            self.cut()
            return
        self.writer.write(text)

    def refuse(self, name: str) -> None:
        self.write(b"refused %s\n" % name.encode())
        self.is_cut = True
        self.room.set()
        self.writer.close()

    def cut(self) -> None:
        """Ends the connection at once."""
        self.is_cut = True
        self.room.set()
        self.writer.transport.abort()


def _numbers(text: bytes) -> Numbers:
    """Of `1-4,7`. Raises ValueError."""
    found = Numbers()
    parts = text.split(b",")
    if len(parts) > ACKS:
        raise ValueError
    for it in parts:
        low, _, high = it.partition(b"-")
        if _number(high or low) < _number(low):
            raise ValueError
        found.add(_number(low), _number(high or low))
    return found


def _number(text: bytes) -> int:
    """Of 1 to 18 digits. Raises ValueError."""
    if not text.isdigit() or len(text) > 18:
        raise ValueError
    return int(text)


class Server:
    """A desk that is this server's alone."""

    name = "server"
    is_leading = True

    def __init__(self, path: str, *, grace: float, keep: bool, limits: Limits, mode: int = 0o600, group: str | None = None) -> None:
        self.path, self.grace, self.keep, self.limits, self.mode, self.group = path, grace, keep, limits, mode, group
        self.machine: Machine
        self.connections: dict[str, Connection] = {}  # by session
        self.open: set[Connection] = set()
        self.tasks: set[asyncio.Task[Any]] = set()  # that read connections
        self.lost: dict[str, float] = {}  # sessions without a connection: when they end
        self.queue: deque[Item] = deque()
        self.wake = asyncio.Event()
        self.checkpoint_every = 0  # events after which this server makes a checkpoint, 0 for never
        self.own_checkpoints = 0  # events after which the program makes one by itself, 0 for never
        self.is_stopping = False
        self.ending: set[str] = set()  # sessions that end since it is stopping
        self.gone_at = math.inf  # when it must have ended, by this process's clock
        self.refused: Counter[str] = Counter()  # connections, by reason
        self.groups, self.grouped, self.seconds = 0, 0, 0.0
        self.on_group: list[Callable[[], None]] = []
        self._noted, self._unnoted = 0.0, 0
        self._locked = -1
        self._own: tuple[int, int] | None = None  # which file the socket is that this server has made
        self._listener: asyncio.Server | None = None

    # What replicas do otherwise.

    async def step(self, items: list[Item]) -> list[Done]:
        """Applies an entry."""
        return await self.machine.apply(items)

    async def confirm(self) -> None:
        """Returns when all that was answered before the call is in this desk."""

    def own(self, connection: Connection, line: bytes) -> bool:
        """Whether the line is a question about this server itself, which is answered then."""
        return False

    async def after_group(self) -> None:
        """Makes checkpoints, and goes on with rounds that a full history had stopped."""
        machine = self.machine
        if self.own_checkpoints and machine.since >= self.own_checkpoints:
            machine.counts["checkpoints"] += 1
            machine.since = 0
        if self.checkpoint_every and (machine.since >= self.checkpoint_every or machine.is_full) and not machine.is_declaring:
            answer = (await machine.console.run([b"checkpoint"]))[0]
            if answer[0].startswith(b"checkpoint "):
                machine.counts["checkpoints"] += 1
                machine.since = 0
        has_room = machine.since == 0  # there was a checkpoint: labels that had no room are given
        if machine.is_full and (machine.due or machine.unwanted or machine.unnamed and has_room):
            self.put(["nop", ""])

    # Connections.

    def note(self, what: str, connection: Connection | None = None) -> None:
        """Writes a line about a connection into the log, but no more than one a second."""
        self.refused[what] += 1
        self.warn(f"{peer(connection.writer) if connection else 'a peer'} {what}: its connection is ended")

    def warn(self, text: str) -> None:
        now = time.monotonic()
        if now - self._noted < 1:
            self._unnoted += 1
            return
        more = f" (and {self._unnoted} more lines like this)" if self._unnoted else ""
        log.warning("%s%s", text, more)
        self._noted, self._unnoted = now, 0

    def trouble(self, _: asyncio.AbstractEventLoop, context: dict[str, Any]) -> None:
        """What asyncio does with an error that nothing has caught, such as that of an `accept`."""
        error = context.get("exception")
        if isinstance(error, MemoryError):
            out_of_memory()
        self.warn(f"{context.get('message', 'an error')}: {type(error).__name__}: {error}" if error else str(context.get("message")))

    def lock_path(self) -> None:
        """So that no two servers have one socket: asyncio removes a socket that is there, another server's too. Raises OSError, also if
        what is there isn't a socket that a killed server has left."""
        check_path(self.path)
        self._locked = lock_file(f"{self.path}.lock")
        try:
            fcntl.flock(self._locked, fcntl.LOCK_EX | fcntl.LOCK_NB)
            if is_listened_on(self.path):
                raise OSError(f"{self.path}: another program listens on this socket")
        except OSError as error:
            os.close(self._locked)
            self._locked = -1
            if isinstance(error, BlockingIOError):
                raise OSError(f"{self.path}: another server has this socket") from None
            raise

    async def listen(self, given: socket.socket | None = None) -> None:
        """Listens on the path, or on a socket that the service manager has opened."""
        more: dict[str, Any] = {"backlog": ACCEPTED}
        if sys.version_info >= (3, 13):
            more["cleanup_socket"] = False  # that of a service manager is its own, and `close_path` removes the other
        taken = given or self.bound()
        self._listener = await asyncio.start_unix_server(self.connected, sock=taken, **more)
        taken.listen(self.limits.connections)  # so many may wait to be accepted
        if given:
            return
        self._own = identity(self.path)
        if self.group is not None:
            shutil.chown(self.path, group=self.group)
        os.chmod(self.path, self.mode)

    def bound(self) -> socket.socket:
        """A socket at the path, in place of one that a killed server has left. Raises OSError."""
        found = socket.socket(socket.AF_UNIX, socket.SOCK_STREAM)
        before = os.umask(0o777)  # nobody can connect before it has its group and its mode
        try:
            check_path(self.path)
            with suppress(FileNotFoundError):
                os.unlink(self.path)
            found.bind(self.path)
        except OSError as error:
            found.close()
            raise OSError(error.errno, error.strerror, self.path) if error.errno else error
        finally:
            os.umask(before)
        return found

    async def connected(self, reader: asyncio.StreamReader, writer: asyncio.StreamWriter) -> None:
        connection = Connection(self, reader, writer)
        if self.is_stopping:
            connection.refuse("Stopping")
            return
        if len(self.open) >= self.limits.connections:
            self.note("finds all connections taken", connection)
            connection.refuse("ConnectionsFull")
            return
        self.open.add(connection)
        task = asyncio.current_task()
        if task:
            self.tasks.add(task)
            task.add_done_callback(self.tasks.discard)
        try:
            await connection.serve()
        except MemoryError:
            out_of_memory()
        except OSError:
            connection.is_ended = True
            connection.lines.clear()
            connection.pump()
        finally:
            if connection.is_framed:
                self.open.discard(connection)
                writer.close()
                if self.connections.get(connection.session) is connection:
                    self.lost[connection.session] = time.monotonic() + self.grace
                    if connection.is_once:
                        self.put(["end", connection.session])
            elif not connection.is_begun or connection.is_cut:
                self.open.discard(connection)
                writer.close()
                if connection.is_begun:
                    self.put(["end", connection.session])

    async def end_lost(self) -> None:
        """Ends sessions that have been without a connection for too long, by this server's clock."""
        while True:
            await asyncio.sleep(0.2)
            for session, at in list(self.lost.items()):
                connection = self.connections.get(session)
                if connection and not connection.is_cut and not connection.writer.transport.is_closing():
                    del self.lost[session]
                elif at <= time.monotonic():
                    del self.lost[session]
                    self.put(["end", session])

    # Groups.

    def put(self, item: Item) -> None:
        self.queue.append(item)
        self.wake.set()

    def group_of(self) -> tuple[list[Item], list[Item]]:
        """Takes requests out of the queue, in order: those for the log, and those that only ask. A session's question is in no group with a
        later change of the same session."""
        items: list[Item] = []
        questions: list[Item] = []
        asking, weighs, long = set(), 0, 0
        while self.queue and weighs < GROUP and long < PIECE:
            kind, session, *rest = self.queue[0]
            if kind == "open" and self.is_stopping and (connection := self.connections.get(session)):
                self.queue.popleft()
                connection.refuse("Stopping")
                continue
            if kind == "req" and not self.machine.is_logged(rest[2]) and session in self.machine.sessions:
                questions.append(self.queue.popleft())
                asking.add(session)
            elif session in asking:
                break
            else:
                items.append(self.queue.popleft())
                long += asked(rest[2]) if kind == "req" else 0  # all answers to them are made before one is sent
            weighs += 64
            if kind == "req":
                of_lines = weight(rest[2])
                weighs += 24 * len(rest[1]) + of_lines
                if connection := self.connections.get(session):
                    connection.taken(of_lines)
        return items, questions

    async def serve(self) -> None:
        """Groups, one after the other, until the server stops. Raises `Ended`."""
        while True:
            await self.wake.wait()
            self.wake.clear()
            while self.queue:
                began = time.perf_counter()
                items, questions = self.group_of()
                if items:
                    self.tell(await self.step(items), items)
                if questions:
                    if not items:
                        await self.confirm()
                    await self.answer(questions)
                self.groups, self.grouped = self.groups + 1, self.grouped + len(items) + len(questions)
                self.seconds += time.perf_counter() - began
                await self.after_group()
                for it in self.on_group:
                    it()
                if self.is_stopping:
                    self.end_all()
            if self.is_stopping:
                return

    async def answer(self, questions: list[Item]) -> None:
        """Answers questions: as many requests in one go as are one piece, and each longer one by itself. What is left when they have made
        as many bytes as the answer to one request may have comes first in the next group."""
        many = deque((it, [line for line in it[4] if word(line) is not None]) for it in questions)
        made = 0
        while many and made <= self.limits.answer:
            few = [many.popleft()]
            costs = asked(few[0][1])
            while many and costs + asked(many[0][1]) <= PIECE:
                few.append(many.popleft())
                costs += asked(few[-1][1])
            session = few[0][0][1]
            answers = deque(await self.machine.ask([line for it in few for line in it[1]], lambda: len(few) > 1 or self.is_heard(session)))
            for (_, session, number, *_), lines in few:
                is_whole = len(answers) >= len(lines)  # else its connection is gone
                answer = [line for _ in lines for line in answers.popleft()] if is_whole else []
                made += size(answer)
                self.tell([(session, number, answer)], [])
        for item, _ in reversed(many):
            self.queue.appendleft(item)
            if connection := self.connections.get(item[1]):
                connection.ahead += weight(item[4])

    def is_heard(self, session: str) -> bool:
        """Whether an answer comes to the session's client now."""
        connection = self.connections.get(session)
        return connection is not None and not connection.is_gone()

    def tell(self, done: Sequence[Done], items: Sequence[Item]) -> None:
        for session, number, lines in done:
            if connection := self.connections.get(session):
                connection.answer(number, lines)
        for kind, session, *_ in items:
            if kind == "end" and (ended := self.connections.pop(session, None)):
                self.open.discard(ended)
                ended.is_cut = True
                ended.room.set()
                ended.writer.close()

    # The whole.

    async def start(self, program: str, options: Sequence[str], *, journal: str | None, declare: str | None) -> None:
        """Starts the program, and declares what the file says if the desk is new. Raises `Ended` if the program doesn't start, and OSError if
        another process has the journal."""
        said = was_free = False
        for pause in (*FIRST_TRIES, None):
            if journal is None or not is_locked(journal):
                console = await Console(program, options).start()
                try:
                    self.machine = await self.limits.machine(console).begin(has_texts=self.keep)
                    break
                except Ended:
                    # If nobody has the journal now, whoever had it may have ended just before; a second time it is something else, of which
                    # the program has said what.
                    if await console.close() != 1 or journal is None or pause is None or was_free:
                        raise
                    was_free = not is_locked(journal)
                    continue
            holder = holder_of(journal)
            # The program of a server that was killed has the journal until it has gone through the rest of its input.
            if pause is None or holder is None or not holder.is_left():
                raise OSError(f"{journal}: in use by {holder or 'another process'}")
            if not said:
                log.info("%s: waiting for %s, whose server has ended", journal, holder)
                said = True
            await asyncio.sleep(pause)
        try:
            if declare and self.machine.is_declaring:
                await self.machine.apply(await declarations(program, declare))
            if not self.keep and self.machine.waiting:
                log.info("%d blocks of connections that ended with the last server are cancelled", len(self.machine.waiting))
                await self.machine.apply([["clear", ""]])
        except BaseException:
            await self.machine.console.close()
            raise

    async def run(self, stop: asyncio.Event) -> None:
        """Serves until `stop` is set. Raises `Ended`."""
        serving = asyncio.ensure_future(self.serve())
        ending = asyncio.ensure_future(self.end_lost())
        stopping = asyncio.ensure_future(stop.wait())
        try:
            await asyncio.wait((serving, ending, stopping), return_when=asyncio.FIRST_COMPLETED)
            if not serving.done() and not ending.done():
                await self.stop()
                await asyncio.wait((serving,), timeout=self.left() - CLOSING)
                if not serving.done():
                    log.warning("stopped before all calls were answered")
            for it in (serving, ending):
                if it.done():
                    it.result()
        except MemoryError:
            out_of_memory()
        finally:
            for task in (ending, stopping, serving):
                task.cancel()
            await asyncio.gather(ending, stopping, serving, return_exceptions=True)
            await self.cut_all()

    async def stop(self) -> None:
        """Takes no more connections, and has all sessions end, so that each waiting call is answered."""
        self.begin_to_stop()
        self.end_all()
        self.wake.set()

    def begin_to_stop(self) -> None:
        self.is_stopping, self.gone_at = True, time.monotonic() + GONE
        if self._listener:
            self._listener.close()

    def end_all(self) -> None:
        """Has each session end that isn't ending. One may have begun in the group that was under way when the server was stopped."""
        for session in self.machine.sessions:
            if session not in self.ending:
                self.ending.add(session)
                self.put(["end", session])

    def left(self) -> float:
        """The seconds until the server must be gone."""
        return max(0.0, self.gone_at - time.monotonic())

    async def cut_all(self) -> None:
        """Ends all connections; those whose sessions have ended have some time to read their last answers."""
        for connection in list(self.open):
            connection.cut()
        if self.tasks:
            await asyncio.wait(self.tasks, timeout=STOPPING)

    def close_path(self) -> None:
        """Removes the socket, if it is this server's."""
        if self._locked >= 0:
            with suppress(OSError):
                if self._own and identity(self.path) == self._own:
                    os.unlink(self.path)
            os.close(self._locked)
            self._locked = -1


def lock_file(path: str) -> int:
    """A descriptor of a file to lock, which is made if it isn't there. Raises OSError, also if it is a link."""
    try:
        return os.open(path, os.O_CREAT | os.O_RDWR | os.O_CLOEXEC | os.O_NOFOLLOW, 0o600)
    except OSError as error:
        if error.errno == errno.ELOOP:
            raise OSError(f"{path}: a link is there") from None
        raise


def check_path(path: str) -> None:
    """Raises OSError if no socket can be made at the path, since it is too long or a file is there."""
    if len(os.fsencode(path)) > PATH_LENGTH:
        raise OSError(f"{path}: the path of a socket has at most {PATH_LENGTH} bytes")
    with suppress(FileNotFoundError):
        if not stat.S_ISSOCK(os.lstat(path).st_mode):  # nor is a link to one what a killed server has left
            raise OSError(f"{path}: a file is there that is no socket")


def is_listened_on(path: str) -> bool:
    """Whether a program listens on the socket at the path. Nobody listens on one that a killed server has left. Raises OSError if that can't
    be known, as of another user's."""
    with socket.socket(socket.AF_UNIX, socket.SOCK_STREAM) as it:
        it.setblocking(False)  # it would wait if as many wait already as the program lets wait
        try:
            it.connect(path)
        except (FileNotFoundError, ConnectionRefusedError):
            return False
        except OSError as error:
            if error.errno == errno.EACCES and os.lstat(path).st_uid == os.geteuid():
                return False  # a server was killed before it gave its socket a mode
            if error.errno not in (errno.EAGAIN, errno.EPROTOTYPE):  # its queue is full, or it is of another kind
                raise OSError(error.errno, error.strerror, path) from None
        return True


def identity(path: str) -> tuple[int, int]:
    """Which file this is. Raises OSError."""
    found = os.lstat(path)
    return found.st_dev, found.st_ino


async def declarations(program: str, path: str) -> list[Item]:
    """The entry that declares the lines of a file, and ends the declarations. Raises OSError, and ValueError for a line that a desk
    refuses or that is no declaration."""
    with open(path, "rb") as file:
        lines = [it.removesuffix(b"\r") for it in file.read().split(b"\n")]
    lines = [it for it in lines if word(it) is not None]
    console = await Console(program).start()
    try:
        machine = Machine(console)
        await machine.apply([["open", ""], ["req", "", 1, [], lines]])
        for _, number, answers in machine.done if lines else ():
            for line, answer in zip(lines, answers if number and not isinstance(answers, bytes) else ()):
                if not answer.startswith(b"tvar "):
                    raise ValueError(f"{path}: {line.decode('ascii', 'replace')!r} is answered {answer.decode()!r}")
    finally:
        await console.close()
    return [["open", ""], ["req", "", 1, [], [*lines, b"take 0"]], ["end", ""]]


def is_left(writer: asyncio.StreamWriter) -> bool:
    """Whether the other end of a connection is closed in both directions."""
    found = writer.get_extra_info("socket")
    poll = select.poll()
    if found is None or found.fileno() < 0:
        return True
    poll.register(found.fileno(), 0)
    return bool(poll.poll(0))


def peer(writer: asyncio.StreamWriter) -> str:
    """The process at the other end."""
    found = writer.get_extra_info("socket")
    if found is not None and hasattr(socket, "SO_PEERCRED"):
        with suppress(OSError):
            pid, uid, _ = (int.from_bytes(found.getsockopt(socket.SOL_SOCKET, socket.SO_PEERCRED, 12)[at : at + 4], "little") for at in (0, 4, 8))
            return f"process {pid} of user {uid}"
    return "a peer"
