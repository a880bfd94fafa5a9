#!/usr/bin/env python3
"""A small job engine on stmdesk. Workers wait for jobs in variables; a change evaluates again only the blocks that read it.

    python3 clients/python/job_engine.py [--journal JOURNAL]
    python3 clients/python/job_engine.py [PROGRAM [JOURNAL [EVENTS]]]

A job is a number; 0 means that there is none. There are two slots for one job each, and a worker takes from `urgent` first. A
block says what a worker does and what it waits for; the engine knows nothing of slots. It evaluates what is new or stale,
finishes what is ready, and gives each result to whoever asked for it. job_engine.out has what this prints. With a JOURNAL, a
file, the engine survives a crash: start it again, and it goes on. Beside it is JOURNAL.notes, with what a journal doesn't keep: after a
checkpoint, which comes after EVENTS events, it no longer has what became of the blocks before. Without PROGRAM it runs the one that
`Desk()` runs.
"""

import argparse
import json
import os
from collections import deque
from collections.abc import Callable, Iterator
from contextlib import contextmanager
from typing import Any

from stmdesk import Commits, Desk, Fault, FinishedThrows, Refused, Throws, Value


def taken_from(slot: str) -> str:
    """Waits for a job in the slot, and takes it."""
    return f"do {{ j <- readTVar {slot}; if j == 0 then retry else do {{ writeTVar {slot} 0; return j }} }}"


def put(slot: str, job: int) -> str:
    """Waits until the slot is free, and puts the job there. Throws 400 if it isn't a job."""
    when_free = f"do {{ j <- readTVar {slot}; if j == 0 then writeTVar {slot} {job} else retry }}"
    return f"if {job} < 1 then throw 400 else {when_free}"


WORKER = f"""do {{
    j <- orElse ({taken_from("urgent")}) ({taken_from("normal")});
    n <- readTVar taken;
    writeTVar taken (n + 1);
    return j
}}"""
REPORT = "do { n <- readTVar taken; if n < 3 then retry else return n }"


class Notes:
    """The blocks that were asked and how they ended, a line of JSON each, in a file if there is a path.

    A note is on the disk before its command is given. So after a crash the desk knows of each note but perhaps the last one.
    """

    def __init__(self, path: str | None) -> None:
        self.file = None if path is None else open(path, "a+b")
        self.notes: list[dict[str, Any]] = []
        if self.file:
            self.file.seek(0)
            lines = self.file.read().split(b"\n")[:-1]  # a crash may have left a part of a line
            self.notes = [json.loads(it) for it in lines]
            self.file.truncate(sum(len(it) + 1 for it in lines))

    def waiting(self) -> set[int]:
        """The tickets that wait by these notes."""
        asked = {it["ticket"] for it in self.notes if it["event"] == "asked"}
        return asked - {it["ticket"] for it in self.notes if it["event"] != "asked"}

    def fit(self, waiting: set[int]) -> bool:
        """Whether these tickets wait by the notes, or by all but the last one, which is dropped then: its command was never given."""
        if self.waiting() != waiting and self.notes:
            last = self.notes.pop()
            is_dropped = self.waiting() == waiting
            self.notes.append(last)
            if is_dropped:
                self.drop()
        return self.waiting() == waiting

    @contextmanager
    def before(self, event: str, ticket: int, **more: object) -> Iterator[None]:
        """Makes a note of the command that the `with` gives, and drops it if that is refused."""
        if not self.file:
            yield
            return
        self.notes.append({"event": event, "ticket": ticket, **more})
        self.file.write(json.dumps(self.notes[-1]).encode() + b"\n")
        self.sync()
        try:
            yield
        except Refused:
            self.drop()
            raise

    def drop(self) -> None:
        if self.file:
            self.file.truncate(self.file.seek(0, os.SEEK_END) - len(json.dumps(self.notes.pop())) - 1)
            self.sync()

    def sync(self) -> None:
        if self.file:
            self.file.flush()
            os.fsync(self.file.fileno())

    def close(self) -> None:
        if self.file:
            self.file.close()


class Engine:
    """Runs blocks. Each ticket has a name, and a function that gets its result.

    It works in rounds: it evaluates what is new or stale, asks which tickets are ready, and finishes these, except those that a
    finish of the same round makes stale. It asks about no block that waits, so its work is that of what it evaluates and
    finishes, however many wait.

    A journal keeps the desk, and no functions. So on a desk that goes on from one, whoever uses the engine makes the same calls from the
    beginning. While there are notes of the past, the engine takes tickets and results from them; after the last one it goes on where the
    process before it ended. So a function may get a result a second time. With notes a result is a number, True, False or ().
    """

    def __init__(self, desk: Desk, notes: str | None = None) -> None:
        """`notes` is the path of the file with the notes of the desk's journal. Nobody else may use the desk then."""
        self.desk, self.notes = desk, Notes(notes)
        self.asked: dict[int, tuple[str, str, Callable[[Value], None]]] = {}
        self.blocks = self.finished = self.evaluations = 0
        had_notes = bool(self.notes.notes)  # the first one is there before the desk has a history
        is_known = self.notes.fit({it.ticket for it in desk.show()} if desk.is_resumed else set())
        if not is_known or (not had_notes if desk.is_resumed else self.notes.notes):
            raise RuntimeError(f"the notes {notes} are of another journal")
        self.past = deque(self.notes.notes)

    def ask(self, who: str, block: str, then: Callable[[Value], None] = lambda result: None) -> None:
        self.blocks += 1
        if self.past:
            before = self.past.popleft()
            if before["event"] != "asked" or before["block"].split() != block.split():
                raise RuntimeError(f"the journal is of other calls: {before} isn't what {who} asks")
            ticket = before["ticket"]
        else:
            with self.notes.before("asked", self.blocks, block=block):
                ticket = self.desk.submit(block)
            if self.notes.file and ticket != self.blocks:
                raise RuntimeError(f"somebody else uses the desk: {who} got ticket {ticket}, not {self.blocks}")
        self.asked[ticket] = who, block, then

    def worker(self, who: str) -> None:
        """A worker: after it has taken a job, it waits for the next one."""
        self.ask(who, WORKER, lambda job: self.worker(who))

    def run(self) -> None:
        """Finishes what can go on, in rounds, until everything that waits blocks."""
        while self.past and self.past[0]["event"] == "finished":
            self.finished_before(self.past.popleft())
        if self.past:  # of a later call
            return
        while ready := self.evaluated():
            stale: set[int] = set()
            for ticket in ready:
                if ticket not in stale:
                    stale.update(self.finish(ticket))

    def evaluated(self) -> list[int]:
        """Evaluates what is new or stale. Returns the tickets that can be finished."""
        self.evaluations += self.desk.eval()
        return self.desk.ready()

    def finish(self, ticket: int) -> list[int]:
        """Finishes a ticket. Returns those that this made stale."""
        with self.notes.before("finished", ticket, **self.outcome(ticket)):
            done = self.desk.finish(ticket)
        if isinstance(done, FinishedThrows):
            self.threw(ticket, done.fault)
            return []
        self.returned(ticket, done.result, done.stale)
        return done.stale

    def outcome(self, ticket: int) -> dict[str, object]:
        """What a ticket's finish will return or throw, for a note: what its block does now, since it is current."""
        if not self.notes.file:
            return {}
        verdict = self.desk.try_(self.asked[ticket][1])
        if isinstance(verdict, Throws):
            return {"fault": verdict.fault}
        assert isinstance(verdict, Commits)
        return {"result": verdict.result}

    def finished_before(self, note: dict[str, Any]) -> None:
        """The same for a finish of the past. What it made stale isn't known any more."""
        if "fault" in note:
            self.threw(note["ticket"], note["fault"])
        else:
            self.returned(note["ticket"], note["result"], [])

    def threw(self, ticket: int, fault: Fault) -> None:
        self.finished += 1
        who = self.asked.pop(ticket)[0]
        print(f"  {who} throws {fault}")

    def returned(self, ticket: int, value: Value, stale: list[int]) -> None:
        self.finished += 1
        who, _, then = self.asked.pop(ticket)
        result = "" if value is None else f" with {value}"
        names = ", ".join(self.asked[it][0] for it in stale)
        print(f"  {who} finishes{result}" + (f"; stale: {names}" if names else ""))
        then(value)

    def cancel_all(self) -> None:
        """Cancels what still waits."""
        for ticket in self.asked:
            if not (self.past and self.past.popleft()["ticket"] == ticket):
                with self.notes.before("cancelled", ticket):
                    self.desk.cancel(ticket)

    def print_waiting(self) -> None:
        if self.past:  # then they have read something else since
            return
        for ticket, (who, _, _) in self.asked.items():
            read = " ".join(f"{variable}={value}" for variable, value in self.desk.reads(ticket).items())
            print(f"  {who} waits, having read {read}")


def main(program: str | None = None, journal: str | None = None, events: str | None = None) -> None:
    every = None if events is None else int(events)
    with Desk(program, journal=journal, checkpoint_every=every) as desk:
        engine = Engine(desk, None if journal is None else f"{journal}.notes")
        declare = desk.variable if desk.is_resumed else desk.tvar  # so that a desk without a block has no event, as it has no notes
        for name in ("urgent", "normal", "taken"):
            declare(f"{name} : Int = 0")
        print("Two workers and a report, and no job yet:")
        engine.worker("ann")
        engine.worker("bob")
        engine.ask("report", REPORT)
        engine.run()
        engine.print_waiting()
        print("Three jobs, two of them for one slot:")
        engine.ask("put 11", put("normal", 11))
        engine.ask("put 12", put("normal", 12))
        engine.ask("put 13", put("urgent", 13))
        engine.run()
        engine.print_waiting()
        print("What is no job:")
        engine.ask("put 0", put("normal", 0))
        engine.run()
        engine.cancel_all()
        engine.notes.close()
        by = "" if desk.is_resumed else f", by {engine.evaluations} evaluations"
        print(f"{engine.blocks} blocks, of which {engine.finished} finished{by}.")


if __name__ == "__main__":
    parser = argparse.ArgumentParser(description=__doc__, formatter_class=argparse.RawDescriptionHelpFormatter)
    parser.add_argument("program", metavar="PROGRAM", nargs="?", help="the program to run")
    parser.add_argument("last", metavar="JOURNAL", nargs="?", help="the file of the journal")
    parser.add_argument("events", metavar="EVENTS", nargs="?", help="after which a checkpoint comes")
    parser.add_argument("--journal", metavar="JOURNAL", help="the same, without a PROGRAM")
    asked = parser.parse_args()
    main(asked.program, asked.last or asked.journal, asked.events)
