#!/usr/bin/env python3
"""A job engine on stmdesk: jobs that need others, priorities, permits, retries with backoff, a journal. README.md explains it.

    python3 examples/engine/engine.py [--journal JOURNAL]
    python3 examples/engine/engine.py [PROGRAM [JOURNAL]]

engine.out has what this prints. With a JOURNAL, a file, the engine goes on after a crash: start it again. Without PROGRAM it runs the one
that `Desk()` runs.
"""

import argparse
import json
import os
import sys
import threading
import time
from collections.abc import Callable, Iterable
from contextlib import suppress
from dataclasses import asdict, dataclass
from pathlib import Path
from typing import Any

sys.path.insert(0, str(Path(__file__).resolve().parents[2] / "clients" / "python"))

from stmdesk import Commits, Desk, Ended, Finish, or_else

DONE, FAILED, WAITS, RESTS, RUNS = range(1, 6)  # the states of a job; up to FAILED it is over
NEEDS = 3  # jobs that one job may need
MOST = 30  # jobs that one block goes through: with so many needs each that is nearly 4,096 tokens, which a block has at most


@dataclass
class Job:
    """What is to be done: the work of this name in WORK, after the jobs that it needs, by their numbers. No two jobs have one name."""

    name: str
    number: int
    work: str
    arguments: list[object]
    needs: list[int]
    tries: int
    urgent: bool


@dataclass
class Try:
    """What some work is called with: the number of the try, from 1, and the results of the jobs that its job needs."""

    engine: "Engine"
    number: int
    needed: list[Any]


WORK: dict[str, Callable[..., object]] = {}  # by name, since a file can't hold a function


def work(function: Callable[..., object]) -> Callable[..., object]:
    WORK[function.__name__] = function
    return function


class Notes:
    """What variables can't hold: the jobs, their results and errors. With a path they are in this file too, a line each."""

    def __init__(self, path: Path | None) -> None:
        self.jobs: dict[int, Job] = {}  # by number, as the others
        self.results: dict[int, object] = {}
        self.errors: dict[int, str] = {}
        self.lock = threading.Lock()
        self.file = None if path is None else path.open("a+b")
        if self.file is not None:
            self.file.seek(0)
            text = self.file.read()
            self.file.truncate(text.rfind(b"\n") + 1)  # a crash may have left a part of a line
            for line in text.splitlines(keepends=True):
                if line.endswith(b"\n"):
                    self.take(json.loads(line))

    def take(self, note: dict[str, Any]) -> None:
        if "job" in note:
            self.jobs[note["number"]] = Job(**note["job"])
        elif "error" in note:
            self.errors[note["number"]] = note["error"]
        else:
            self.results[note["number"]] = note["result"]

    def add(self, **note: object) -> None:
        """Returns when the note is in the file, and on the disk."""
        with self.lock:
            self.take(note)
            if self.file is not None:
                self.file.write(json.dumps(note).encode() + b"\n")
                self.file.flush()
                os.fsync(self.file.fileno())


class Engine:
    """Runs jobs. The desk holds their states, and knows which may begin; the notes hold the rest.

    A job's variables are declared when it is added: s3 is the state of job 3, and t3 how many tries are left. `jobs` is how many there are.
    """

    def __init__(self, program: str | None = None, journal: str | None = None, *, permits: int = 2) -> None:
        """At most `permits` jobs run at a time. If a process before has left a journal, its jobs are there, and go on."""
        self.desk = Desk(program, journal=journal)  # first, since the notes are whose the journal is: nobody else can open that
        self.notes = Notes(None if journal is None else Path(f"{journal}.notes"))
        self.adding = threading.Lock()
        self.count = 0  # jobs whose variables are declared
        self.over: set[int] = set()  # jobs that are known to be over
        self.desk.variable(f"permits : Int = {permits}")
        self.desk.variable("jobs : Int = 0")
        for status in self.desk.show():  # the blocks of workers of the process before, with whom nobody goes on
            self.desk.cancel(status.ticket)
        for job in self.notes.jobs.values():
            self.enlist(job)
            self.desk.atomically(recovered(job.number))

    def add(
        self, name: str, work: str, *arguments: object, needs: Iterable[Job] = (), urgent: bool = False, tries: int = 3
    ) -> Job:
        """Adds a job, at any time, before the engine runs or from a job. If there is a job of this name, returns that. Raises ValueError if
        it needs too many."""
        with self.adding:
            found = next((it for it in self.notes.jobs.values() if it.name == name), None)
            if found:
                return found
            needed = [it.number for it in needs]
            if len(needed) > NEEDS:
                raise ValueError(f"{name} needs {len(needed)} jobs, and {NEEDS} are the most")
            job = Job(name, self.count + 1, work, list(arguments), needed, tries, urgent)
            self.notes.add(number=job.number, job=asdict(job))
            self.enlist(job)
        return job

    def enlist(self, job: Job) -> None:
        """Declares the job's variables, if they aren't there, and lets the workers know of it."""
        self.desk.variable(f"s{job.number} : Int = {WAITS}")
        self.desk.variable(f"t{job.number} : Int = {job.tries}")
        self.count = job.number  # before `jobs` says so: a worker that reads it there finds it here
        self.desk.atomically(f"do {{ n <- readTVar jobs; if n < {job.number} then writeTVar jobs {job.number} else return () }}")

    def run(self, workers: int = 4) -> None:
        """Runs all jobs to their end."""
        threads = [threading.Thread(target=self.worker, args=(f"worker-{it}",)) for it in range(1, workers + 1)]
        for thread in threads:
            thread.start()
        for thread in threads:
            thread.join()

    def worker(self, name: str) -> None:
        """Runs jobs. While its block waits, the name is its label."""
        with suppress(Ended, ValueError):  # the desk was closed, after Ctrl-C for example; whoever uses it next sees that
            while True:
                count = self.count
                left = [self.notes.jobs[it] for it in range(1, count + 1) if it not in self.over]
                number = self.desk.atomically(following(left[:MOST], count), label=name, returns=int)
                if number > 0:
                    self.try_job(self.notes.jobs[number])
                elif number < 0:
                    self.over.add(-number)
                else:
                    self.over.update(it.number for it in left[:MOST] if self.is_over(it))
                    if len(left) <= MOST and count == self.count:
                        return

    def is_over(self, job: Job) -> bool:
        state = self.desk.value(f"s{job.number}")
        return isinstance(state, int) and state <= FAILED

    def try_job(self, job: Job) -> None:
        this = Try(self, self.tried(job) + 1, [self.notes.results[it] for it in job.needs])
        try:
            result = WORK[job.work](this, *job.arguments)  # or by a pool of processes
        except Exception as error:
            self.notes.add(number=job.number, error=str(error))
            if self.desk.atomically(failed(job.number)):
                delay = 0.01 * 2**this.number
                threading.Timer(delay, self.desk.atomically, [f"writeTVar s{job.number} {WAITS}"]).start()
            else:
                self.over.add(job.number)
        else:
            self.notes.add(number=job.number, result=result)  # before another job, which needs the result, can begin
            self.desk.atomically(done(job.number))
            self.over.add(job.number)

    def tried(self, job: Job) -> int:
        """How many tries of the job have failed."""
        left = self.desk.value(f"t{job.number}")
        assert isinstance(left, int)
        return job.tries - left

    def outcome(self, job: Job) -> str:
        """What became of a job that is over."""
        tries = self.tried(job)
        if self.desk.value(f"s{job.number}") == DONE:
            return f"done after {tries + 1} tries: {self.notes.results[job.number]}"
        return f"failed, {self.notes.errors[job.number]} after {tries} tries" if tries else "left out after 0 tries"

    def runs(self) -> dict[int, list[tuple[int, int]]]:
        """When the tries of each job ran since the desk's last checkpoint: from which event to which."""
        found: dict[int, list[tuple[int, int]]] = {number: [] for number in self.notes.jobs}
        begun: dict[int, int] = {}
        for event in self.desk.events():
            if isinstance(event, Finish) and isinstance(event.verdict, Commits):
                for variable, value in event.verdict.writes.items():
                    number = int(variable.name[1:]) if variable.name and variable.name[0] == "s" else 0
                    if number and value == RUNS:
                        begun[number] = event.number
                    elif number in begun:
                        found[number].append((begun.pop(number), event.number))
        return found


def following(jobs: list[Job], count: int) -> str:
    """What a worker does next, of these jobs: it begins one and returns its number; or it leaves one out, and returns the number negated.
    Returns 0 if there are more jobs than this, or if all of these are over. Urgent jobs come first, and then the lower numbers."""
    more = f"do {{ n <- readTVar jobs; if n <= {count} then retry else return 0 }}"
    return or_else(more, *map(begin, sorted(jobs, key=lambda it: not it.urgent)), all_over(jobs))


def begin(job: Job) -> str:
    """When all that the job needs is done and there is a permit, it runs: returns its number. When something that it needs has failed, so
    does the job: returns the number negated."""
    number, reads = job.number, " ".join(f"n{it} <- readTVar s{it};" for it in job.needs)
    is_done = " && ".join(f"(n{it} == {DONE})" for it in job.needs) or "True"
    has_failed = " || ".join(f"(n{it} == {FAILED})" for it in job.needs) or "False"
    return f"""do {{
        s <- readTVar s{number};
        if s == {WAITS} then return () else retry;
        {reads}
        if {has_failed} then do {{ writeTVar s{number} {FAILED}; return (-{number}) }}
        else if {is_done} then do {{
            p <- readTVar permits;
            if p == 0 then retry else writeTVar permits (p - 1);
            writeTVar s{number} {RUNS};
            return {number}
        }} else retry
    }}"""


def all_over(jobs: list[Job]) -> str:
    """When no job waits, rests or runs: returns 0."""
    reads = " ".join(f"v{it.number} <- readTVar s{it.number};" for it in jobs)
    are_over = " && ".join(f"(v{it.number} <= {FAILED})" for it in jobs) or "True"
    return f"do {{ {reads} if {are_over} then return 0 else retry }}"


def done(number: int) -> str:
    return f"do {{ p <- readTVar permits; writeTVar permits (p + 1); writeTVar s{number} {DONE} }}"


def failed(number: int) -> str:
    """Gives the permit back. Returns whether the job is tried again, after a rest."""
    return f"""do {{
        p <- readTVar permits;
        writeTVar permits (p + 1);
        t <- readTVar t{number};
        writeTVar t{number} (t - 1);
        if t <= 1 then writeTVar s{number} {FAILED} else writeTVar s{number} {RESTS};
        return (1 < t)
    }}"""


def recovered(number: int) -> str:
    """A job that ran gives its permit back and waits, and so does one that rested."""
    return f"""do {{
        s <- readTVar s{number};
        if s == {RUNS} then do {{ p <- readTVar permits; writeTVar permits (p + 1) }} else return ();
        if {RESTS} <= s then writeTVar s{number} {WAITS} else return ()
    }}"""


@work
def fetch(this: Try, failures: int, result: object) -> object:
    """Fails this number of times before it succeeds."""
    time.sleep(0.01)
    if this.number <= failures:
        raise ConnectionError("no connection")
    return result


@work
def add(this: Try) -> object:
    return sum(this.needed)


@work
def compare(this: Try) -> object:
    left, right = this.needed
    return left == right


@work
def report(this: Try) -> object:
    (same,) = this.needed
    return f"same: {same}"


@work
def send(this: Try) -> object:
    """Adds a job. It may be called again after a crash; then the job is there."""
    (total,) = this.needed
    both = next(it for it in this.engine.notes.jobs.values() if it.name == "add")
    return this.engine.add("send", "fetch", 0, f"sent {total}", needs=[both], urgent=True).name


ORDER: list[str] = []


@work
def note(this: Try, name: str) -> None:
    ORDER.append(name)


def most_at_a_time(runs: list[tuple[int, int]]) -> int:
    """How many of these ran at a time."""
    return max(sum(begun <= begin < ended for begun, ended in runs) for begin, _ in runs)


def main(program: str | None = None, journal: str | None = None) -> None:
    engine = Engine(program, journal, permits=2)
    with engine.desk:
        left = engine.add("fetch left", "fetch", 0, 20)
        right = engine.add("fetch right", "fetch", 2, 22)
        both = engine.add("add", "add", needs=[left, right])
        mirror = engine.add("fetch mirror", "fetch", 99, 0)
        same = engine.add("compare", "compare", needs=[left, mirror])
        engine.add("report", "report", needs=[same])
        engine.add("ping", "fetch", 1, "pong", urgent=True)
        engine.add("print", "send", needs=[both])
        engine.run()
        jobs = sorted(engine.notes.jobs.values(), key=lambda it: it.name)
        for job in jobs:
            print(f"{job.name:13} {engine.outcome(job)}")
        runs = engine.runs()
        in_order = all(runs[need][-1][1] < runs[it.number][0][0] for it in jobs if runs[it.number] for need in it.needs)
        print(f"Each job began after what it needs: {in_order}.")
        print(f"At most 2 ran at a time: {most_at_a_time([it for tries in runs.values() for it in tries]) <= 2}.")
        waiting, permits = engine.desk.show(), engine.desk.value("permits")
        print(f"At the end {len(waiting)} blocks wait, and there are {permits} permits.")

    engine = Engine(program, permits=1)
    with engine.desk:
        for name in ("first", "second", "third"):
            engine.add(name, "note", name, urgent=name == "third")
        engine.run()
        print(f"One permit: {', '.join(ORDER)}.")


if __name__ == "__main__":
    parser = argparse.ArgumentParser(description=__doc__, formatter_class=argparse.RawDescriptionHelpFormatter)
    parser.add_argument("program", metavar="PROGRAM", nargs="?", help="the program to run")
    parser.add_argument("last", metavar="JOURNAL", nargs="?", help="the file of the journal")
    parser.add_argument("--journal", metavar="JOURNAL", help="the same, without a PROGRAM")
    asked = parser.parse_args()
    main(asked.program, asked.last or asked.journal)
