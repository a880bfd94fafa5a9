"""The deterministic part of a server: entries of requests go in, answers come out.

`Console` is the program with its pipes. `Machine` is a function of the entries that it was given: nothing in it may depend on time, chance,
names of files, or on who leads. So replicas that are given the same entries give the same answers (docs/REPLICAS.md).
"""

from __future__ import annotations

import asyncio
import fcntl
import hashlib
import json
import os
from collections import Counter, deque
from collections.abc import Callable, Iterable, Sequence
from contextlib import suppress
from dataclasses import dataclass, field
from typing import Any

from ._numbers import Numbers, Range

Lines = list[bytes]

# Commands that change nothing, and those that may. A question that is the first command ends the declarations all the same.
QUESTIONS = {
    b"try", b"looks", b"show", b"ready", b"reads", b"why", b"store", b"history", b"events", b"block", b"board", b"declared",
}  # fmt: skip
CHANGES = {
    b"tvar", b"declare", b"submit", b"atomically", b"take", b"deliver", b"handback", b"eval", b"finish", b"cancel", b"settle", b"drain",
    b"checkpoint", b"label", b"wait", b"waitas",
}  # fmt: skip
# Those that are answered when their block has ended; and those that give a block a ticket.
WAITS = {b"wait", b"waitas"}
SUBMISSIONS = {b"submit", b"atomically", *WAITS}
# How the last line of an answer of many lines begins.
LAST = {b"store": b"cells ", b"show": b"waiting ", b"board": b"waiting ", b"events": b"events "}
MARK = b"try return ()"  # a question whose answer begins with no brace: it ends a history, so it is always answered
# Questions whose answers grow with the desk.
LONG = {b"history", b"declared", *LAST}
NUMBER_OF_EVENTS = b"events 4294967295"

LINE = 65_536  # bytes of a line
REQUEST = 1 << 19  # weight of a request
DECLARED = 1 << 19  # bytes of all declarations, since a journal takes 1 MiB of their lines
WAITING = 16_384  # blocks that wait at the same time, since a journal takes a finish that makes some 65,000 stale
SESSIONS = 4096
REQUESTS = 4096  # of one session that are under way
KEPT = 1 << 18  # bytes of an answer that is kept until it is acknowledged; a longer one is given once
STORED = 1 << 24  # bytes of all such answers of one session
ANSWER = 1 << 23  # bytes of the answer to a request after which its further lines are refused
PIECE = 1024  # cost of the lines of a request that are given to the program in one go; the last one may go beyond that
FULL: Lines = [b"refused AnswersFull"]

Done = tuple[str, int, "Lines | bytes"]  # the session, the number of its request, and the answer; bytes are the refusal of the whole


class Ended(Exception):
    """The program ended."""


def word(line: bytes) -> bytes | None:
    """The command word as the console sees it, or `?` for a line that can't be one; None for a line that has no answer."""
    if line.startswith(b"--"):
        return None
    parts = line.replace(b"\t", b" ").replace(b"\r", b" ").strip(b" ").split(b" ", 1)
    if not parts[0]:
        return None
    return parts[0] if line.isascii() else b"?"


def is_label(text: bytes) -> bool:
    """Whether a block can have this label."""
    return 0 < len(text) <= 64 and text != b"-" and all(33 <= it <= 126 for it in text)


def weight(lines: Iterable[bytes]) -> int:
    """As many bytes as the lines have as JSON, at most."""
    size = 0
    for it in lines:
        plain = it.isascii() and it.decode().isprintable()
        size += 8 + (len(it) + it.count(b'"') + it.count(b"\\") if plain else 6 * len(it))
    return size


def cost(its: bytes | None) -> int:
    """How much of a piece a line with this command takes. An answer that grows with the desk is looked at before the next line is given;
    64 other questions have some 6 MB at most, as the program's lines and those of blocks are bounded."""
    return PIECE if its in LONG else PIECE // 64 if its in QUESTIONS else 1


def share(waiting: int) -> int:
    """How many of as many waiting blocks one session may have, if nothing else is given."""
    return max(waiting // 8, min(waiting, 64))


def asked(lines: Iterable[bytes]) -> int:
    """The cost of the questions in a request."""
    return sum(cost(its) for its in map(word, lines) if its in QUESTIONS)


def size(answer: Lines) -> int:
    """Its bytes, with line feeds."""
    return sum(map(len, answer)) + len(answer)


class Console:
    """The program `stmdesk run`, for one user at a time."""

    def __init__(self, program: str, options: Sequence[str] = ()) -> None:
        self.command = [program, "run", *options]
        self._lines: deque[bytes] = deque()
        self._rest = b""
        self._lock = asyncio.Lock()
        self._process: asyncio.subprocess.Process | None = None
        self._input: asyncio.WriteTransport

    async def start(self) -> Console:
        # A pipe, where asyncio may take a socket: whether its other end is open can be seen by others (`Holder.is_left`).
        reading, writing = os.pipe()
        file = os.fdopen(writing, "wb", 0)
        try:
            with suppress(OSError, AttributeError):  # it holds a request as a whole, if that may be
                fcntl.fcntl(file, fcntl.F_SETPIPE_SZ, REQUEST)
            pipe = asyncio.subprocess.PIPE
            self._process = await asyncio.create_subprocess_exec(*self.command, stdin=reading, stdout=pipe, start_new_session=True)
            self._input, _ = await asyncio.get_running_loop().connect_write_pipe(asyncio.BaseProtocol, file)
        except BaseException:
            file.close()
            raise
        finally:
            os.close(reading)
        return self

    async def run(self, lines: Sequence[bytes]) -> list[Lines]:
        """Gives the lines in one write. Returns the lines of the answer of each, which are none for a line that has no answer. Raises
        `Ended`."""
        words = [word(it) for it in lines]
        async with self._lock:
            ends = {b"history": b"\n" + MARK + b"\n"}
            self._input.write(b"".join([it + ends.get(its or b"", b"\n") for it, its in zip(lines, words)]))
            return [await self._answer(it) for it in words]

    async def _answer(self, its: bytes | None) -> Lines:
        if its is None:
            return []
        answer = [await self._line()]
        if its == b"history":
            while answer[-1].startswith(b"{"):
                answer.append(await self._line())
            if answer[0].startswith(b"{"):
                answer.pop()
            else:
                await self._line()
        elif its in LAST and not answer[0].startswith(b"refused "):
            while not answer[-1].startswith(LAST[its]):
                answer.append(await self._line())
        return answer

    async def _line(self) -> bytes:
        while not self._lines:
            assert self._process and self._process.stdout
            piece = await self._process.stdout.read(1 << 16)
            if not piece:
                raise Ended
            *whole, self._rest = (self._rest + piece).split(b"\n")
            self._lines.extend(whole)
        return self._lines.popleft()

    async def close(self, patience: float | None = None) -> int:
        """Ends the program's input, and waits for it; after so many seconds it is killed. Returns its exit status."""
        if not self._process:
            return 0
        try:
            return await asyncio.wait_for(self._close(self._process), patience)
        except asyncio.TimeoutError:
            self.kill()
            return await self._process.wait()

    async def _close(self, process: asyncio.subprocess.Process) -> int:
        async with self._lock:
            self._input.close()
            return await process.wait()

    def kill(self) -> None:
        if self._process and self._process.returncode is None:
            self._process.kill()


class Request:
    """A request that is under way or whose answer isn't acknowledged: the answer of each line, None while that isn't there."""

    __slots__ = ("is_over", "left", "lost", "made", "size", "slots")

    def __init__(self, slots: list[Lines | None], *, lost: bool = False) -> None:
        self.slots = slots
        self.left = slots.count(None)
        self.is_over = False  # whether the answer was given
        self.lost = lost  # whether it was too long to be kept
        self.made = 0  # bytes of the program's answers to its lines so far
        self.size = 0  # bytes of an answer that is kept

    def fill(self, place: int, answer: Lines) -> None:
        if self.slots[place] is None:
            self.slots[place] = answer
            self.left -= 1

    def is_answered(self) -> bool:
        return not self.left


@dataclass
class Session:
    """What is known of one connection, or of several one after the other."""

    requests: dict[int, Request] = field(default_factory=dict)
    acknowledged: Numbers = field(default_factory=Numbers)  # whose answers the client has
    keeps: bool = False  # whether its submitted blocks outlive it
    stored: int = 0  # bytes of answers


Where = tuple[str, int, int]  # the session, the number of the request, the place of the line


class Given:
    """A line for the program, and what its answer is for: of a request, or of a step of a wait (`eval`, `finish`), or of the machine. That of
    a wait may have a label for its block."""

    __slots__ = ("kind", "label", "line", "ticket", "where", "word")

    def __init__(self, line: bytes, kind: str, where: Where | None = None, ticket: int = 0, label: bytes = b"") -> None:
        self.line, self.kind, self.where, self.ticket, self.label = line, kind, where, ticket, label
        self.word = word(line)


class Machine:
    """A desk with the sessions that use it, and the blocks that wait for one of them."""

    def __init__(self, console: Console, max_waiting: int = WAITING, max_answer: int = ANSWER, max_waiting_each: int | None = None) -> None:
        self.console, self.max_waiting, self.max_answer = console, max_waiting, max_answer
        self.max_waiting_each = max_waiting_each or share(max_waiting)
        self.next: int | None = 1  # the next ticket, if that is known
        self.is_declaring, self.declared_size = True, 0
        self.declared: Lines = []  # `#0 x : Int`
        self.sessions: dict[str, Session] = {}
        self.waits: dict[int, Where] = {}  # by ticket: the line that the end of its block answers
        self.due: set[int] = set()  # tickets of waits that may be able to finish
        self.out: set[int] = set()  # those of them that somebody has taken
        self.unnamed: dict[int, bytes] = {}  # by ticket: labels of waits that their blocks haven't got yet
        self.waiting: dict[int, bytes] = {}  # all tickets that wait, with their blocks as far as they are known
        self.owned: dict[int, str] = {}  # by ticket: the session with which a submitted block ends
        self.held: dict[int, str] = {}  # by ticket: the session whose share it takes, if that hasn't ended
        self.holds: Counter[str] = Counter()  # how many that are, by session
        self.unwanted: set[int] = set()  # tickets to cancel
        self.chain = b"\0" * 32  # the SHA-256 of all answers so far
        self._digest: Any = None  # of the answers since then
        self.is_full = False  # whether rounds had to stop, since the history is full
        self.done: list[Done] = []
        # What only reports use.
        self.labels: dict[int, bytes] = {}  # by ticket
        self.counts = {"events": 0, "finished": 0, "evaluations": 0, "cancelled": 0, "checkpoints": 0}
        self.since = 0  # events since the last checkpoint
        self._submissions = self._new_waits = 0  # in the script that isn't given yet
        self._submitted: Counter[str] = Counter()  # the first of these, by session

    async def begin(self, *, has_texts: bool = True) -> Machine:
        """For a desk that may go on from a file. With texts of the blocks that wait it reads the history."""
        if (await self.console.run([b"tvar"]))[0] == [b"refused Late"]:
            self.is_declaring, self.next = False, None
            store, shown, board, count = await self.console.run([b"store", b"show", b"board", NUMBER_OF_EVENTS])
            named = [it.rpartition(b" = ")[0] for it in store if it.startswith(b"#")]
            self.declared = [it for it in named if not it.split(b" ", 2)[1] == b":"]
            self.waiting = {int(it.split(b" ", 1)[0]): b"" for it in shown[:-1]}
            labels = {int(it.split(b" ", 1)[0]): it.rpartition(b" ")[2] for it in board[:-1]}  # none of a program that knows no labels
            self.labels = {ticket: it for ticket, it in labels.items() if it != b"-"}
            if has_texts and self.waiting:
                for line in (await self.console.run([b"history"]))[0]:
                    if line.startswith(b'{"block":') and (found := json.loads(line))["ticket"] in self.waiting:
                        self.waiting[found["ticket"]] = found["block"].encode()
            self.since = int(count[0].split(b" ")[1])
        return self

    def is_logged(self, lines: Sequence[bytes]) -> bool:
        """Whether a request may change something, be it that it ends the declarations. A word that isn't known here counts as a change."""
        return self.is_declaring or any(its is not None and its not in QUESTIONS for its in map(word, lines))

    async def ask(self, lines: Sequence[bytes], is_wanted: Callable[[], bool] = lambda: True) -> list[Lines]:
        """The answers to questions, once the declarations have ended. Once they have too many bytes the rest is refused. If they aren't
        wanted any more it ends, with the answers so far."""
        found: list[Lines] = []
        made = 0
        while len(found) < len(lines) and is_wanted():
            if made > self.max_answer:
                rest = lines[len(found) :]
                marks = iter(await self._asked([it for it in rest if it == MARK]))
                return [*found, *(next(marks) if it == MARK else FULL for it in rest)]
            few: Lines = []
            cost_of_few = 0
            while len(found) + len(few) < len(lines) and cost_of_few < PIECE:
                few.append(lines[len(found) + len(few)])
                cost_of_few += cost(word(few[-1]))
            answers = await self._asked(few)
            made += sum(map(size, answers))
            found += answers
        return found

    async def _asked(self, lines: Lines) -> list[Lines]:
        given = [it for it in lines if len(it) <= LINE and word(it) != b"declared"]
        answers = iter(await self.console.run(given))
        return [
            [b"refused LineTooLong"] if len(it) > LINE else self._declarations(it, False) if word(it) == b"declared" else next(answers)
            for it in lines
        ]  # fmt: skip

    async def apply(self, items: Sequence[Sequence[Any]]) -> list[Done]:
        """Applies one entry. Returns the requests that are answered by that."""
        self.done, self.is_full = [], False
        script: list[Given] = []
        await self._cancel()
        for kind, name, *rest in items:
            if kind == "req":
                number, acks, lines = rest
                await self._request(name, number, acks, lines, script)
                continue
            await self._flush(script)
            if kind == "open":
                self._open(name, rest)
            elif kind == "join":
                self.done.append((name, 0, [b"session ok"] if name in self.sessions else b"NoSession"))
            elif kind in ("end", "drop"):
                await self._end(name, rest[0] if rest else None, is_whole=kind == "end")
            elif kind == "clear":
                self.unwanted |= self.waiting.keys() - self.waits.keys()
                await self._cancel()
        await self._flush(script)
        while self.due and not self.is_full:  # rounds: try what a finish made stale, until each block that waits blocks
            for ticket in sorted(self.due):
                if ticket in self.out:
                    script.append(Given(b"handback %d" % ticket, "own"))
                script += [Given(b"eval", "eval"), Given(b"finish %d" % ticket, "finish", None, ticket)]
            self.out.clear()
            await self._flush(script)
        if not self.is_full:  # what still waits has come to wait
            await self._flush([Given(b"label %d %s" % (it, self.unnamed[it]), "own", None, it) for it in sorted(self.unnamed)])
        return self.done

    def _open(self, name: str, words: Sequence[str]) -> None:
        if name not in self.sessions and len(self.sessions) >= SESSIONS:
            self.done.append((name, 0, b"SessionsFull"))
            return
        self.sessions.setdefault(name, Session(keeps="keep" in words))
        self.done.append((name, 0, [b"session ok"]))

    async def _end(self, name: str, number: int | None, *, is_whole: bool) -> None:
        """Ends a session, or gives up its request of this number, or all of its requests."""
        session = self.sessions.get(name)
        if session is None or number is not None and number not in session.requests:
            return
        tickets = {it for it, where in self.waits.items() if where[0] == name and number in (None, where[1])}
        if is_whole:
            tickets |= {it for it, owner in self.owned.items() if owner == name}
        self.unwanted |= tickets
        await self._cancel()
        if is_whole:
            for it in [it for it, owner in self.held.items() if owner == name] if self.holds[name] else ():
                self._release(it)
            del self.sessions[name]

    async def _cancel(self) -> None:
        """Cancels what nobody wants any more. What a full history refuses is left for the next entry."""
        await self._flush([Given(b"cancel %d" % it, "own", None, it) for it in sorted(self.unwanted)])

    def _acknowledge(self, name: str, acks: Iterable[Range]) -> None:
        """The session's client has the answers to the requests of these numbers."""
        session = self.sessions[name]
        for low, high in acks:
            session.acknowledged.add(low, high)
            few = range(low, high + 1) if high - low < len(session.requests) else [it for it in session.requests if low <= it <= high]
            for it in few:
                old = session.requests.pop(it, None)
                session.stored -= old.size if old else 0

    async def _request(self, name: str, number: int, acks: Sequence[Range], lines: Lines, script: list[Given]) -> None:
        session = self.sessions.get(name)
        if session is None:
            self.done.append((name, number, b"NoSession"))
            return
        self._acknowledge(name, acks)
        if number in session.acknowledged:  # a late copy
            return
        if number in session.requests:  # a repeated one: it gets the answer of the first, or waits on
            self._tell(name, number)
        elif len(session.requests) >= REQUESTS:
            self.done.append((name, number, b"RequestsFull"))
        elif session.stored > STORED:
            self.done.append((name, number, b"AnswersFull"))
        else:
            request = session.requests[number] = Request([[] if word(it) is None else None for it in lines])
            given = 0  # the cost of its lines that the program hasn't answered
            for place, line in enumerate(lines):
                its = word(line)
                if its is None:
                    continue
                if given >= PIECE:
                    await self._give(script)
                    given = 0
                if request.made > self.max_answer and line != MARK:
                    request.fill(place, FULL)
                    continue
                if its in SUBMISSIONS and (self._is_full() or self._has_its_share(name)):
                    await self._flush(script)  # some of the blocks in the script may end at once
                self._line(line, (name, number, place), request, script)
                given += cost(its)
                if its == b"declare" and self.is_declaring:
                    await self._flush(script)  # it ends the declarations, unless the program has no such command
            self._answered(name, number)

    def _line(self, line: bytes, where: Where, request: Request, script: list[Given]) -> None:
        its = word(line)
        label = b""
        if its == b"wait":
            line = b"submit " + line.strip(b"\t\r ")[5:]
        elif its == b"waitas":
            rest = line.strip(b"\t\r ")[6:].strip(b"\t\r ")
            label = rest.replace(b"\t", b" ").replace(b"\r", b" ").split(b" ", 1)[0]
            its, line = b"wait", b"submit " + rest[len(label) :].lstrip(b"\t\r ")
            if not is_label(label):
                request.fill(where[2], [b"refused Argument"])
                return
        if len(line) > LINE:
            request.fill(where[2], [b"refused LineTooLong"])
            return
        if its in (b"settle", b"drain") and (self.waits or self._new_waits):
            request.fill(where[2], [b"refused Waits"])  # it wouldn't say what it finishes
            return
        if its in SUBMISSIONS and self._is_full():
            request.fill(where[2], [b"refused WaitingFull"])
            return
        if its in SUBMISSIONS and self._has_its_share(where[0]):
            request.fill(where[2], [b"refused ShareFull"])
            return
        if its == b"tvar" and self.is_declaring:
            self.declared_size += len(line)
            if self.declared_size > DECLARED:
                request.fill(where[2], [b"refused TableFull"])
                return
        elif its in QUESTIONS and its != b"declared" or its in CHANGES and its not in (b"tvar", b"declare"):
            self.is_declaring = False
        kind = {b"wait": "wait", b"declared": "declared"}.get(its or b"", "line")
        script.append(Given(line, kind, where, int(kind == "declared" and self.is_declaring), label))
        if its == b"wait" and self.next is not None:
            # At most this ticket. If a submission before it is refused, this one isn't given yet, and the rounds try the right one.
            ticket = self.next + self._submissions
            script += [Given(b"eval", "eval"), Given(b"finish %d" % ticket, "finish", None, ticket)]
        self._submissions += its in SUBMISSIONS
        self._submitted[where[0]] += its in SUBMISSIONS
        self._new_waits += its == b"wait"

    def _is_full(self) -> bool:
        """Whether as many blocks wait as may, if all in the script wait."""
        return len(self.waiting) + self._submissions >= self.max_waiting

    def _has_its_share(self, name: str) -> bool:
        """The same of the blocks of a session."""
        return self.holds[name] + self._submitted[name] >= self.max_waiting_each

    def _hold(self, ticket: int, name: str) -> None:
        self.held[ticket] = name
        self.holds[name] += 1

    def _release(self, ticket: int) -> None:
        name = self.held.pop(ticket, None)
        if name is not None:
            self.holds[name] -= 1
            if not self.holds[name]:
                del self.holds[name]

    async def _flush(self, script: list[Given]) -> None:
        """Gives the lines to the program, looks at the answers, and clears the script."""
        await self._give(script)
        if self._digest:
            self.chain, self._digest = self._digest.digest(), None

    async def _give(self, script: list[Given]) -> None:
        """The same with a part of the lines, so that the chain doesn't depend on what the parts are."""
        if not script:
            return
        answers = await self.console.run([b"" if it.kind == "declared" else it.line for it in script])
        digest = self._digest = self._digest or hashlib.sha256(self.chain)
        was_settled = False
        for given, answer in zip(script, answers):
            if given.kind == "declared":
                answer = self._declarations(given.line, bool(given.ticket))
            digest.update(b"\n".join(answer) + b"\n\n")
            was_settled |= given.word in (b"settle", b"drain")
            if answer[0].startswith(b"refused "):
                await self._refused(given, answer)
            else:
                self._accepted(given, answer)
        if was_settled:  # it doesn't say what it finished
            shown = (await self.console.run([b"show"]))[0]
            self.waiting = {it: self.waiting.get(it, b"") for it in (int(line.split(b" ", 1)[0]) for line in shown[:-1])}
            self.owned = {it: owner for it, owner in self.owned.items() if it in self.waiting}
            self.labels = {it: label for it, label in self.labels.items() if it in self.waiting}
            for ticket in [it for it in self.held if it not in self.waiting]:
                self._release(ticket)
        self._submissions = self._new_waits = 0
        self._submitted.clear()
        script.clear()

    async def _refused(self, given: Given, answer: Lines) -> None:
        name = answer[0].split(b" ")[1]
        if given.word == b"declare" and name != b"Command":
            self.is_declaring = False
        self.is_full |= name == b"HistoryFull" and given.kind != "line"
        if given.kind in ("line", "wait", "declared"):
            self._fill(given.where, answer)
        elif given.word == b"label":
            if name != b"HistoryFull":  # of a program that knows no labels
                self.unnamed.pop(given.ticket, None)
        elif given.kind == "own" and name == b"NoTicket":  # it was a cancel
            self.unwanted.discard(given.ticket)
            self.owned.pop(given.ticket, None)
            self._release(given.ticket)
        elif given.kind != "finish":
            return
        elif name in (b"Stale", b"NotEvaluated"):  # somebody took it
            self.out.add(given.ticket)
        elif name == b"CellsFull":
            self._over(given.ticket, answer)
            self.unwanted.add(given.ticket)
        elif name != b"HistoryFull":  # Blocks, or NoTicket
            self.due.discard(given.ticket)

    def _accepted(self, given: Given, answer: Lines) -> None:
        words = answer[0].split(b" ")
        self._count(given, words)
        if given.word in (b"submit", b"atomically"):
            ticket = int(words[1])
            self.next = ticket + 1
            if words[0] == b"finished":  # by `atomically`, so it never waited
                self._finished(words)
                self._fill(given.where, answer)
                return
            self.waiting[ticket] = given.line.strip(b"\t\r ")[len(given.word) :].strip(b"\t\r ")
            if given.where and given.where[0] in self.sessions:
                self._hold(ticket, given.where[0])
            if given.kind == "wait" and given.where:
                self.waits[ticket] = given.where
                self.due.add(ticket)
                if given.label:
                    self.unnamed[ticket] = given.label
                return
            if given.where and not self._keeps(given.where[0]):
                self.owned[ticket] = given.where[0]
        elif given.word in (b"tvar", b"declare"):
            self.is_declaring &= given.word == b"tvar"
            kind = given.line.partition(b":")[2].partition(b"=")[0]
            self.declared.append(b"%s %s : %s" % (words[1], words[2], b" ".join(kind.split())))
        elif given.word == b"finish":
            self._over(int(words[1]), answer)
            self._finished(words)
        elif given.word == b"cancel":
            self._over(int(words[1]), answer)
        elif given.word == b"label":
            ticket = int(words[1])
            self.unnamed.pop(ticket, None)
            self.labels.pop(ticket, None)
            if words[2] != b"-":
                self.labels[ticket] = words[2]
        if given.kind in ("line", "declared"):
            self._fill(given.where, answer)

    def _finished(self, words: list[bytes]) -> None:
        """Of what a finish made stale, the blocks of waits may be able to finish now."""
        if b"stale" in words and words[-1] != b"none":
            stale = map(int, words[words.index(b"stale") + 1 :])
            self.due.update(it for it in stale if it in self.waits)

    def _keeps(self, name: str) -> bool:
        return name not in self.sessions or self.sessions[name].keeps

    def _declarations(self, line: bytes, is_open: bool) -> Lines:
        if line.strip(b"\t\r ") != b"declared":
            return [b"refused Argument"]
        return [*self.declared, b"declared %d %s" % (len(self.declared), b"open" if is_open else b"late")]

    def _count(self, given: Given, words: list[bytes]) -> None:
        events = 0
        if given.word in (b"declare", b"submit", b"deliver", b"finish", b"cancel", b"label"):
            events = 1
            self.counts["finished"] += given.word == b"finish"
            self.counts["evaluations"] += given.word == b"deliver"
            self.counts["cancelled"] += given.word == b"cancel"
        elif given.word == b"atomically":
            events = 3 if words[0] == b"finished" else 2
            self.counts["evaluations"] += 1
            self.counts["finished"] += words[0] == b"finished"
        elif given.word == b"eval":
            events = int(words[1])
            self.counts["evaluations"] += events
        elif given.word in (b"settle", b"drain"):
            evaluations, finished = int(words[-1]), int(words[-3])
            events = evaluations + finished
            self.counts["finished"] += finished
            self.counts["evaluations"] += evaluations
        elif given.word == b"checkpoint":
            self.counts["checkpoints"] += 1
            self.since = 0
        self.counts["events"] += events
        self.since += events

    def _over(self, ticket: int, answer: Lines) -> None:
        self.due.discard(ticket)
        self.owned.pop(ticket, None)
        self._release(ticket)
        self.waiting.pop(ticket, None)
        self.labels.pop(ticket, None)
        self.unnamed.pop(ticket, None)
        self.unwanted.discard(ticket)
        self._fill(self.waits.pop(ticket, None), answer)

    def _fill(self, where: Where | None, answer: Lines) -> None:
        """Gives a line of a request its answer, if its session is there."""
        session = self.sessions.get(where[0]) if where else None
        request = session.requests.get(where[1]) if session and where else None
        if where and request and request.slots[where[2]] is None:
            request.fill(where[2], answer)
            request.made += size(answer)
            self._answered(where[0], where[1])

    def _answered(self, name: str, number: int) -> None:
        """Sends the answer to a request, if all its lines have one, and keeps it if it isn't too long."""
        session = self.sessions[name]
        request = session.requests[number]
        if request.is_over or not request.is_answered():
            return
        request.is_over = True
        self._tell(name, number)
        request.size = sum(size(it) for it in request.slots if it)
        if request.size > KEPT:
            request.slots, request.lost, request.size = [], True, 0
        session.stored += request.size

    def _tell(self, name: str, number: int) -> None:
        request = self.sessions[name].requests[number]
        if request.lost:
            self.done.append((name, number, b"AnswerLost"))
        elif request.is_answered():
            self.done.append((name, number, [it for slot in request.slots for it in slot or ()]))

    # The state as JSON, for a snapshot.

    def table(self) -> dict[str, Any]:
        """All of the state but what the text of the history has."""

        def texts(slots: list[Lines | None]) -> list[list[str] | None]:
            return [None if it is None else [line.decode("latin-1") for line in it] for it in slots]

        sessions = {
            name: {
                "requests": {str(n): [it.lost, texts(it.slots)] for n, it in session.requests.items()},
                "acknowledged": session.acknowledged.ranges,
                "keeps": session.keeps,
            }
            for name, session in self.sessions.items()
        }
        return {
            "next": self.next, "chain": self.chain.hex(), "due": sorted(self.due), "waits": [[it, *self.waits[it]] for it in sorted(self.waits)],
            "owned": [[it, self.owned[it]] for it in sorted(self.owned)], "unwanted": sorted(self.unwanted), "sessions": sessions, "counts": self.counts,
            "unnamed": [[it, self.unnamed[it].decode()] for it in sorted(self.unnamed)],
            "held": [[it, self.held[it]] for it in sorted(self.held)],
        }  # fmt: skip

    def load(self, table: dict[str, Any]) -> None:
        """Takes over such a state, for a desk that has begun from its text."""
        self.next, self.chain, self.due = table["next"], bytes.fromhex(table["chain"]), set(table["due"])
        self.waits = {ticket: (name, number, place) for ticket, name, number, place in table["waits"]}
        self.owned, self.unwanted = dict(table["owned"]), set(table["unwanted"])
        self.unnamed = {ticket: label.encode() for ticket, label in table.get("unnamed", ())}
        owners = [*self.owned.items(), *((it, where[0]) for it, where in self.waits.items())]
        self.held = dict(table.get("held", owners))  # none in a snapshot of an earlier version
        self.holds = Counter(self.held.values())
        self.counts, self.sessions, self.since = dict(table["counts"]), {}, 0
        for name, it in table["sessions"].items():
            session = self.sessions[name] = Session({}, Numbers(it["acknowledged"]), it["keeps"])
            for number, (lost, slots) in it["requests"].items():
                lines = [None if slot is None else [line.encode("latin-1") for line in slot] for slot in slots]
                request = session.requests[int(number)] = Request(lines, lost=lost)
                if request.is_answered():
                    request.is_over = True
                    request.size = sum(size(it) for it in lines if it)
                session.stored += request.size
