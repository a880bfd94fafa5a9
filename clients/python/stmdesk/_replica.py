"""One of several servers with the same desk, whose log is in etcd. docs/REPLICAS.md has the design, and why it is right.

The keys, below a prefix: `leader` (the leader's name, with its lease), `last` (the number of the last entry), `log/N` (entries), `snap` (the
head of the newest snapshot) and `part/N/I` (its text)."""

from __future__ import annotations

import asyncio
import base64
import fcntl
import hashlib
import json
import logging
import os
import re
import time
from collections import deque
from collections.abc import Sequence
from contextlib import suppress
from pathlib import Path
from typing import Any

from ._etcd import Access, Away, Etcd, delete, encoded, put, to_prefix
from ._machine import Console, Done, Ended, Lines, Machine
from ._serve import CLOSING, STOPPING, Connection, Item, Limits, Server, declarations, lock_file, out_of_memory

LEASE = 3  # seconds
EVERY = 100_000  # events between checkpoints
PART = 1 << 20  # bytes of a part of a snapshot
AT_ONCE = 64  # entries that are read at a time
LOOKING = 1.0  # seconds between two looks at the log, if no watch says that there is something new
NEVER = ("--sync=none", "--max-events=1048575", "--checkpoint-every=1048576")  # no checkpoint comes but those of the log
FORMAT = 1
NO_CHECKPOINT = [b"refused NoCheckpoint"]

log = logging.getLogger("stmdesk.server")


class Lost(Exception):
    """This replica doesn't lead any more."""


class Differs(Exception):
    """This replica's desk answered otherwise than that of the leader, or it doesn't have the program with which the log goes on."""


class NoCheckpoint(Ended):
    """The disk of this replica refuses a new file for its desk."""


class DeskOnFile(Console):
    """The program on a file of this replica. Its answers are a function of the lines but for one, which depends on the disk of this machine
    alone. So nobody sees that one: the replica ends, and the others go on."""

    is_refused = False

    async def run(self, lines: Sequence[bytes]) -> list[Lines]:
        """Raises `NoCheckpoint` too, from the first refusal on."""
        if not self.is_refused:
            answers = await super().run(lines)
            self.is_refused = NO_CHECKPOINT in answers
            if not self.is_refused:
                return answers
        raise NoCheckpoint


class Replica(Server):
    is_leading = False

    def __init__(
        self, path: str, *, name: str, folder: Path, access: Access, prefix: str, programs: Sequence[str], lease: float, every: int,
        declare: str | None, keeps_segments: bool, grace: float, keep: bool, limits: Limits, mode: int, group: str | None,
    ) -> None:  # fmt: skip
        super().__init__(path, grace=grace, keep=keep, limits=limits, mode=mode, group=group)
        self.name, self.folder, self.access, self.prefix, self.declare = name, folder, access, prefix.rstrip("/"), declare
        self.programs, self.lease_seconds, self.every, self.keeps_segments = programs, lease, every, keeps_segments
        self.versions: dict[str, str] = {}  # by version, the program
        self.version = ""
        self.etcd = Etcd(access, max(1.0, lease / 3))
        self.beat = Etcd(access, max(0.3, lease / 10))
        self.applied = 0  # entries
        self.number = 0  # of the last entry that is known to be in the log
        self.chain_before = b"\0" * 32  # the chain before the last entry that is applied
        self.snapshots: dict[int, str] = {}  # the SHA-256 of the newest ones, by number
        self.news = asyncio.Event()
        self.lease = ""
        self.created = ""  # the revision at which this leader's key was made
        self.is_gone = False
        self.is_checkpointing = False
        self.publishing: asyncio.Task[None] | None = None
        self.applying: asyncio.Task[list[Done]] | None = None
        self._folder_lock = -1

    # Keys.

    def key(self, name: str) -> str:
        return f"{self.prefix}/{name}"

    def entry(self, number: int) -> str:
        return self.key(f"log/{number:016d}")

    # The state: begun from nothing or from a snapshot, changed by entries alone.

    def lock_folder(self) -> None:
        """Raises OSError."""
        self.folder.mkdir(parents=True, exist_ok=True, mode=0o700)
        self._folder_lock = lock_file(str(self.folder / "lock"))
        try:
            fcntl.flock(self._folder_lock, fcntl.LOCK_EX | fcntl.LOCK_NB)
        except BlockingIOError:
            raise OSError(f"{self.folder}: another replica has this folder") from None

    async def read_versions(self) -> None:
        for program in self.programs:
            process = await asyncio.create_subprocess_exec(program, "--version", stdout=asyncio.subprocess.PIPE)
            said, _ = await process.communicate()
            self.versions[said.decode().strip()] = program

    async def begin(self) -> None:
        for old in self.folder.glob("desk-*"):
            if re.fullmatch("desk-[0-9]+", old.name):
                old.unlink()
        text = b""
        while found := await self.etcd.range(self.key("snap")):
            head = json.loads(found[0][1])
            prefix = self.key(f"part/{head['n']:016d}/")
            parts: list[bytes] = []
            while piece := await self.etcd.range(f"{prefix}{len(parts):04d}"):
                parts.append(piece[0][1])
            text = b"".join(parts)
            if hashlib.sha256(text).hexdigest() == head["sha"]:
                break
            await asyncio.sleep(0.2)  # a newer one has replaced it meanwhile
        await self.load(text)

    async def load(self, snapshot: bytes) -> None:
        """The one way in which a state begins, on each replica at each checkpoint: so nothing is left of what a text doesn't say (jobs,
        tickets that are out), on no replica."""
        head, _, text = snapshot.partition(b"\n")
        table = json.loads(head) if head else {"n": 0, "program": next(iter(self.versions)), "before": "00" * 32}
        self.version = table["program"]
        if self.version not in self.versions:
            raise Differs(f"the log goes on with {self.version}, which isn't here: give that program")
        file = self.folder / f"desk-{table['n']}"
        file.write_bytes(text)
        console = await DeskOnFile(self.versions[self.version], [f"--journal={file}", *NEVER]).start()
        machine = await Machine(console).begin()
        if head:
            machine.load(table)
        self.machine, self.applied, self.number = machine, table["n"], table["n"]
        self.chain_before = bytes.fromhex(table["before"])

    async def checkpoint(self, number: int, program: str) -> bytes | None:
        """Begins again from the text. Returns the snapshot, or None if the program refuses a checkpoint. Raises `NoCheckpoint`."""
        machine = self.machine
        before, answer, text = await machine.console.run([b"history", b"checkpoint", b"history"])
        if answer[0].startswith(b"refused"):  # TicketsFull, as on each replica; or declarations that haven't ended
            return None
        if self.keeps_segments:
            (self.folder / f"segment-{number:016d}").write_bytes(b"".join(it + b"\n" for it in before))
        machine.counts["checkpoints"] += 1
        table = {"n": number, "program": program, "before": self.chain_before.hex(), **machine.table()}
        snapshot = json.dumps(table, sort_keys=True).encode() + b"\n" + b"".join(it + b"\n" for it in text)
        old = self.folder / f"desk-{self.applied}"
        await machine.console.close()
        await self.load(snapshot)
        old.unlink(missing_ok=True)
        self.snapshots[number] = hashlib.sha256(snapshot).hexdigest()
        while len(self.snapshots) > 8:
            del self.snapshots[min(self.snapshots)]
        return snapshot

    async def take(self, value: bytes) -> None:
        """Applies an entry of the log that somebody else has put. Raises `Differs`."""
        entry = json.loads(value)
        number = entry["n"]
        if entry["v"] != FORMAT or number != self.applied + 1:
            raise Differs(f"entry {number} of format {entry['v']} comes after entry {self.applied}")
        if entry["program"] != self.version:
            raise Differs(f"entry {number} is of {entry['program']}, and this is {self.version}")
        if entry["chain"] != self.chain_before.hex():  # of all answers before the entry before this one
            history = (await self.machine.console.run([b"history"]))[0]
            (self.folder / f"differs-{number}").write_bytes(b"".join(it + b"\n" for it in history))
            (self.folder / f"differs-{number}.entry").write_bytes(value)
            raise Differs(f"before entry {number}; its history is kept as differs-{number}")
        items = [decoded(it) for it in entry["items"]]
        if items and items[0][0] == "checkpoint":
            await self.apply_checkpoint(number, items[0][1])
        else:
            await self.apply(number, items)
        self.number = number

    async def apply(self, number: int, items: list[Item]) -> list[Done]:
        chain = self.machine.chain
        done = await self.machine.apply(items)
        self.applied, self.chain_before = number, chain
        return done

    async def apply_checkpoint(self, number: int, program: str) -> bytes | None:
        self.chain_before = self.machine.chain
        snapshot = await self.checkpoint(number, program)
        self.applied = number
        return snapshot

    # A follower.

    async def follow(self) -> None:
        """Applies what comes, until this replica has become the leader."""
        while True:
            self.news.clear()
            found = await self.etcd.range(self.entry(self.applied + 1), self.key("log0"), AT_ONCE, is_old=True)
            if found and found[0][0] != self.entry(self.applied + 1):
                await self.machine.console.close()
                await self.begin()  # the log doesn't reach back to here any more
                continue
            for _, value, _ in found:
                await self.take(value)
            if found:
                continue
            if head := await self.etcd.range(self.key("snap"), is_old=True):
                snap = json.loads(head[0][1])
                if self.snapshots.get(snap["n"], snap["sha"]) != snap["sha"]:
                    raise Differs(f"at the snapshot of entry {snap['n']}")
            if not await self.etcd.range(self.key("leader"), is_old=True) and await self.campaign():
                return
            with suppress(asyncio.TimeoutError):
                await asyncio.wait_for(self.news.wait(), LOOKING)

    async def campaign(self) -> bool:
        """Tries to take the leader's key."""
        self.lease = (await self.etcd.call("lease/grant", TTL=int(self.lease_seconds)))["ID"]
        value = json.dumps({"name": self.name, "id": os.urandom(8).hex()})
        free = {"key": encoded(self.key("leader")), "target": "CREATE", "createRevision": "0"}
        done = await self.etcd.call("kv/txn", compare=[free], success=[put(self.key("leader"), value, self.lease)])
        if not done.get("succeeded"):
            await self.etcd.call("lease/revoke", ID=self.lease)  # if its answer doesn't come the lease ends by itself
            return False
        self.created = done["header"]["revision"]
        return True

    # The leader.

    def is_mine(self) -> dict[str, Any]:
        """The condition of a transaction that the leader's key is this replica's."""
        return {"key": encoded(self.key("leader")), "target": "CREATE", "createRevision": self.created}

    async def commit(self, items: list[Item]) -> int:
        """Puts the entry under the next number. Returns when it is there for ever; raises `Lost` if it isn't and never will be."""
        number = self.number + 1
        # The entry before this one may be under way here: so this is the chain before that one.
        chain = self.chain_before if self.applied == self.number else self.machine_chain
        entry = {"v": FORMAT, "n": number, "by": self.name, "id": os.urandom(8).hex(), "program": self.version, "chain": chain.hex(),
                 "items": [plain(it) for it in items]}  # fmt: skip
        value = json.dumps(entry, separators=(",", ":"))
        last = {"key": encoded(self.key("last")), "target": "VALUE", "value": encoded(str(number - 1))}
        if number == 1:
            last = {"key": encoded(self.key("last")), "target": "CREATE", "createRevision": "0"}
        await self.until_known(self.entry(number), value, [self.is_mine(), last], [put(self.entry(number), value), put(self.key("last"), str(number))])
        self.number = number
        return number

    async def until_known(self, key: str, value: str, compare: list[dict[str, Any]], success: list[dict[str, Any]]) -> None:
        """A transaction that sets this key, repeated until it is known whether it was made: a repeated one finds its own value. Raises
        `Lost`."""
        while True:
            try:
                done = await self.etcd.call("kv/txn", compare=compare, success=success, failure=[{"requestRange": {"key": encoded(key)}}])
            except Away:
                await asyncio.sleep(0.1)
                continue
            if done.get("succeeded"):
                return
            found = done["responses"][0]["response_range"].get("kvs", ())
            if found and base64.b64decode(found[0]["value"]).decode() == value:
                return
            raise Lost(key)

    async def confirm(self) -> None:
        """A read index: a read of etcd that began after the questions came and has this leader's key. So nobody else had put an entry before
        it, and this desk, which has all its own, has all that was answered before the questions came. Raises `Lost`."""
        while True:
            try:
                found = await self.etcd.range(self.key("leader"))
            except Away:
                await asyncio.sleep(0.1)
                continue
            if not found or found[0][2] != self.created:
                raise Lost(self.key("leader"))
            return

    async def beats(self) -> None:
        """Keeps the lease. If it has ended, etcd refuses the next entry in any case; this is for a leader that has nothing to do."""
        while True:
            try:
                if "TTL" not in (await self.beat.call("lease/keepalive", ID=self.lease)).get("result", {}):
                    self.is_gone = True
                    self.wake.set()
                    return
            except Away:
                pass
            await asyncio.sleep(self.lease_seconds / 6)

    async def serve(self) -> None:
        """Groups, one after the other. While a group is put into the log, the one before it is applied. Raises `Lost` and `Ended`."""
        while True:
            await self.wake.wait()
            self.wake.clear()
            if self.is_gone:
                raise Lost("the lease has ended")
            while self.queue:
                began = time.perf_counter()
                items, questions = self.group_of()
                if items:
                    number = await self.commit(items)  # from here on the entry is there for ever, whoever leads
                    await self.applied_before()
                    if items[0][0] == "checkpoint":
                        await self.lead_checkpoint(number, items[0][1])
                    else:
                        self.machine_chain = self.machine.chain
                        self.applying = asyncio.ensure_future(self.apply_and_tell(number, items))
                if questions:
                    if not items:
                        await self.confirm()
                    await self.applied_before()
                    await self.answer(questions)
                if not self.queue:
                    await self.applied_before()
                self.groups, self.grouped = self.groups + 1, self.grouped + len(items) + len(questions)
                self.seconds += time.perf_counter() - began
                self.after_entry()
            if self.is_stopping:
                return

    machine_chain = b""  # the chain before the entry that is being applied

    async def applied_before(self) -> None:
        """Waits until the entry before has been applied. Its answers are sent then."""
        if self.applying:
            task, self.applying = self.applying, None
            await task

    async def apply_and_tell(self, number: int, items: list[Item]) -> list[Done]:
        done = await self.apply(number, items)
        self.tell(done, items)
        for it in self.on_group:
            it()
        return done

    def after_entry(self) -> None:
        machine = self.machine
        is_needed = machine.since >= self.every or machine.is_full
        if is_needed and not machine.is_declaring and not self.is_checkpointing and (self.publishing is None or self.publishing.done()):
            self.is_checkpointing = True
            self.put(["checkpoint", self.version])

    async def lead_checkpoint(self, number: int, program: str) -> None:
        snapshot = await self.apply_checkpoint(number, program)
        self.is_checkpointing = False
        if snapshot is not None:
            self.publishing = asyncio.ensure_future(self.publish(number, snapshot))
        if self.machine.due or self.machine.unwanted:  # rounds that a full history had stopped
            self.put(["nop", ""])

    async def publish(self, number: int, snapshot: bytes) -> None:
        """Puts a snapshot into etcd, and takes away the log up to the one before it."""
        try:
            old = await self.etcd_range(self.key("snap"))
            for at in range(0, len(snapshot), PART):
                key = self.key(f"part/{number:016d}/{at // PART:04d}")
                value = snapshot[at : at + PART].decode("ascii")
                await self.until_known(key, value, [self.is_mine()], [put(key, value)])
            head = json.dumps({"n": number, "sha": self.snapshots[number], "by": self.name})
            before = json.loads(old[0][1])["n"] if old else 0
            trimmed = [delete(self.key("log/"), self.entry(before + 1)), delete(self.key("part/"), self.key(f"part/{number:016d}/"))]
            await self.until_known(self.key("snap"), head, [self.is_mine()], [put(self.key("snap"), head), *trimmed])
        except Lost:
            pass  # the next leader makes another one

    async def etcd_range(self, key: str) -> list[tuple[str, bytes, str]]:
        while True:
            try:
                return await self.etcd.range(key)
            except Away:
                await asyncio.sleep(0.1)

    def group_of(self) -> tuple[list[Item], list[Item]]:
        """A checkpoint is an entry by itself."""
        at = next((i for i, it in enumerate(self.queue) if it[0] == "checkpoint"), None)
        if at is not None:
            it = self.queue[at]
            del self.queue[at]
            return [it], []
        return super().group_of()

    async def lead(self) -> None:
        """The key is this replica's, so nobody else can put any more: what is in the log now is all that others have put. Raises `Lost`,
        `Away` and `Ended`."""
        self.is_gone, self.is_checkpointing, tasks = False, False, [asyncio.ensure_future(self.beats())]
        try:
            while found := await self.etcd.range(self.entry(self.applied + 1), self.key("log0"), AT_ONCE):
                for key, value, _ in found:
                    if key != self.entry(self.applied + 1):
                        raise Lost("the log was cut")
                    await self.take(value)
            last = await self.etcd.range(self.key("last"))
            if int(last[0][1] if last else 0) != self.applied:
                raise Lost("entries are missing")
            self.number = self.applied
            self.queue.clear()
            now = time.monotonic()
            self.lost = {it: now + self.grace for it in self.machine.sessions}
            if not self.applied and self.declare:
                self.queue.extend(await declarations(self.versions[self.version], self.declare))
                self.wake.set()
            self.is_leading = True
            self.say("leads")
            tasks += [asyncio.ensure_future(it) for it in (self.end_lost(), self.serve())]
            done, _ = await asyncio.wait(tasks[1:], return_when=asyncio.FIRST_COMPLETED)
            for it in done:
                it.result()
        finally:
            self.is_leading = False
            for task in tasks:
                task.cancel()
            await asyncio.gather(*tasks, return_exceptions=True)
            if self.applying:  # the desk must not be left in the midst of its answers
                with suppress(Ended):
                    await self.applied_before()
            if self.publishing:
                self.publishing.cancel()
                await asyncio.gather(self.publishing, return_exceptions=True)
                self.publishing = None
            for connection in list(self.open):
                connection.cut()
            self.connections.clear()
            self.open.clear()
            self.queue.clear()

    # For operators.

    def say(self, what: str) -> None:
        log.info("%s %s, at entry %d", self.name, what, self.applied)

    def own(self, connection: Connection, line: bytes) -> bool:
        if line.split(b" ")[0] != b"replica":
            return False
        task = asyncio.ensure_future(self.answer_own(connection, line))
        self.tasks.add(task)
        task.add_done_callback(self.tasks.discard)
        return True

    async def answer_own(self, connection: Connection, line: bytes) -> None:
        """`replica`, `replica history` and `replica upgrade`."""
        text: list[bytes] = []
        if line == b"replica upgrade" and self.is_leading:  # to the last program that it was given
            self.put(["checkpoint", list(self.versions)[-1]])
        with suppress(Ended):
            machine = self.machine
            if line == b"replica history" and not machine.is_declaring:
                text = (await machine.console.run([b"history"]))[0]
            role = "leader" if self.is_leading else "follower"
            head = f"replica {self.name} {role} applied {self.applied} chain {machine.chain.hex()} lines {len(text)}"
            connection.write(b"".join(it + b"\n" for it in [head.encode(), *text]))

    # The whole.

    async def start_replica(self) -> None:
        """Raises OSError, `Differs` and `Ended`."""
        await self.read_versions()
        while True:
            try:
                await self.begin()
                return
            except Away:
                await asyncio.sleep(0.5)

    async def run(self, stop: asyncio.Event) -> None:
        tasks = [asyncio.ensure_future(it) for it in (self.work(), stop.wait(), Etcd(self.access, 1.0).watch(self.key(""), to_prefix(self.key("")), self.news))]
        try:
            await asyncio.wait(tasks[:2], return_when=asyncio.FIRST_COMPLETED)
            if not tasks[0].done():
                await self.stop()
            if tasks[0].done():
                await tasks[0]
        except MemoryError:
            out_of_memory()
        finally:
            for task in tasks:
                task.cancel()
            _, left = await asyncio.wait(tasks, timeout=self.left() - CLOSING if self.is_stopping else None)
            if left:  # the program doesn't answer what it was given
                self.machine.console.kill()
            await asyncio.gather(*tasks, return_exceptions=True)
            await self.cut_all()

    async def work(self) -> None:
        self.say("follows")
        while True:
            try:
                await self.follow()
                await self.lead()
                if self.is_stopping:
                    return
            except (Lost, Away) as why:
                if self.is_stopping:
                    return
                self.say(f"follows again ({type(why).__name__}: {str(why)[:200]})")
                await asyncio.sleep(0.2)

    async def stop(self) -> None:
        """Answers what has come, and lets another one lead at once. Sessions go on there."""
        self.begin_to_stop()
        was_leading = self.is_leading
        self.wake.set()
        end = time.monotonic() + STOPPING
        while self.is_leading and time.monotonic() < end:
            await asyncio.sleep(0.02)
        if was_leading:
            with suppress(Away):
                await self.beat.call("lease/revoke", ID=self.lease)


def plain(item: Item) -> Item:
    """An item as JSON has it: lines are texts."""
    return [*item[:-1], [it.decode("latin-1") for it in item[-1]]] if item[0] == "req" else item


def decoded(item: Item) -> Item:
    return [*item[:-1], [it.encode("latin-1") for it in item[-1]]] if item[0] == "req" else item
