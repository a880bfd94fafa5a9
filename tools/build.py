#!/usr/bin/env python3
"""Proves crates and all below them, and builds what they are: build.py [--jobs N] [--keep] [--measure] CRATE ..

Crates that don't depend on each other are proved side by side, those first for which most others wait, each by one process or several.
Progress and the time that is left are printed on standard error. A crate that is built, and newer than its texts and those below, isn't
looked at again.

Of a library only its statements are kept, in out/rlib, which is what the crates above need. With --keep the toolchain's own commands,
`rt lib` and `rt run`, prove each crate, and keep all their work in its out/, several times as much: `rt check` and later builds with
--keep continue from there.
"""

import argparse
import contextlib
import copy
import fcntl
import functools
import os
import pathlib
import shutil
import signal
import subprocess
import sys
import tempfile
import threading
import time
from concurrent.futures import FIRST_COMPLETED, ThreadPoolExecutor, wait
from typing import NamedTuple

ROOT = pathlib.Path(__file__).resolve().parent.parent
TEXTS = "src", "specs", "proofs"
FILE = ROOT / "tools" / "seconds.txt"  # the processor seconds that the proof of a crate takes; --measure writes it
SECONDS = 0.16  # those of a crate that isn't in the file: for each of its lines in src/, and
BELOW = 0.001  # for each line of the crates below, which are read; a program takes it twice, since they are compiled with it
BUSY = 0, 1.0, 1.8, 2.4, 2.8  # the processors that N jobs of a check keep busy, and
COST = 0, 1.0, 1.2, 1.3, 1.4  # how many times the processor seconds of one job they take
MOST = len(BUSY) - 1  # jobs of a check
MEMORY = 3 << 30  # bytes that a check with one job may take; each further job takes half as much
RUNNING, STOPPED = set(), threading.Event()  # the processes that run now; set once this program is to end


class Ran(NamedTuple):
    """How a command ended: its status, its output, the last lines of all that it printed, and the processor seconds that it took."""

    status: int
    output: bytes
    said: str
    seconds: float


class Crate:
    """A crate: its name, its line of crates.txt, the crates that it names, and all below it, each after those that it depends on."""

    def __init__(self, name, line, direct, seconds):
        self.name, self.line, self.direct, self.folder = name, line, direct, ROOT / "crates" / name
        self.below = list(dict.fromkeys(low for it in direct for low in [*it.below, it]))
        self.is_program = (self.folder / "src" / "main.rt").exists()
        self.is_static = "staticlib" in line.partition(":")[0].split()
        self.lines = sum(it.read_bytes().count(b"\n") for it in self.folder.glob("src/**/*.rt"))
        estimate = SECONDS * self.lines + BELOW * (1 + self.is_program) * sum(it.lines for it in self.below)
        self.seconds = seconds.get(name, estimate)

    def made(self, keeps=False):
        """The file that is written last when it is built. Of a library, `rt` writes another one, for more than statements."""
        out = self.folder / "out"
        if self.is_program or self.is_static:
            return out / (self.name if self.is_program else f"lib{self.name}.a")
        return out / "rlib" / ("stamp" if keeps or (out / "rlib" / "stamp").exists() else "statements")

    def is_fresh(self, keeps):
        """Whether what is built of it is newer than all that it is built from. With --keep `rt` decides that, except for a library."""
        if keeps and (self.is_program or self.is_static):
            return False
        with contextlib.suppress(OSError):
            built = self.made(keeps).stat().st_mtime
            texts = [path for it in [self, *self.below] for part in TEXTS for path in (it.folder / part).rglob("*")]
            libraries = [] if self.is_program or self.is_static else [it.made(keeps) for it in self.below]
            return built > max((kit() / "WHAT").stat().st_ctime, *[it.stat().st_mtime for it in [ROOT / "crates.txt", *texts, *libraries]])
        return False


def crates():
    """The crates of crates.txt by name, each after those that it depends on."""
    lines = [it.partition("#")[0].strip() for it in (ROOT / "crates.txt").read_text().splitlines()]
    lines, seconds, found = {it.partition(":")[0].split()[0]: it for it in lines if it}, measured(), {}

    def add(name):
        if name not in found:
            direct = [add(it) for it in lines[name].partition(":")[2].split() if it in lines]
            found[name] = Crate(name, lines[name], direct, seconds)
        return found[name]

    for name in lines:
        add(name)
    return found


def measured():
    """The seconds that the file has, by the names of crates."""
    lines = FILE.read_text().splitlines() if FILE.exists() else []
    return {name: float(seconds) for name, seconds in (it.split() for it in lines if it and not it.startswith("#"))}


def write_measured(found):
    """Writes these seconds into the file, beside those of other crates that it has and that crates.txt lists."""
    listed, found = crates(), {**measured(), **found}
    lines = [f"{name} {found[name]:.0f}\n" for name in listed if name in found]
    head = "# The processor seconds that the proof of each crate takes with one job, as `tools/build.py --measure` found them.\n"
    FILE.write_text(head + "".join(lines))


@functools.cache
def kit():
    """The folder of the Rattle kit."""
    page = subprocess.run(["rt", "doc"], stdin=subprocess.DEVNULL, stdout=subprocess.PIPE, text=True, check=True).stdout
    return pathlib.Path(page.strip()).parent


@contextlib.contextmanager
def locked(crate, how):
    """Holds the lock that the toolchain takes on a crate: shared to read what is built of it, exclusive to work on it."""
    held = os.open(crate.folder, os.O_RDONLY)
    try:
        fcntl.flock(held, how)
        yield
    finally:
        os.close(held)


def link_or_copy(source, to):
    """Gives a file a second name, or copies it to another file system."""
    try:
        os.link(source, to)
    except OSError:
        shutil.copy2(source, to)


@contextlib.contextmanager
def room(crate):
    """The folder of the crate in a copy of it and of the crates below with what is built of these. The toolchain locks a crate and
    all below while it works on it; in such copies it can work on two crates that have one below in common."""
    with tempfile.TemporaryDirectory(prefix=f"{crate.name}-") as name:
        pathlib.Path(name, "crates.txt").write_text("".join(f"{it.line}\n" for it in [*crate.below, crate]))
        for it in [*crate.below, crate]:
            to = pathlib.Path(name, "crates", it.name)
            with locked(it, fcntl.LOCK_SH):
                for part in [*TEXTS, *["out/rlib"] * (it is not crate)]:
                    if (it.folder / part).is_dir():
                        copy_function = shutil.copy2 if part in TEXTS else link_or_copy
                        shutil.copytree(it.folder / part, to / part, copy_function=copy_function)
        yield to


def run(words, folder, given=os.devnull):
    """Runs a command, with this file as its input."""
    with tempfile.TemporaryFile() as output, tempfile.TemporaryFile() as said, open(given, "rb") as stdin:
        if STOPPED.is_set():
            return Ran(130, b"", "stopped", 0)
        ran = subprocess.Popen(words, cwd=folder, stdin=stdin, stdout=output, stderr=said, start_new_session=True)
        RUNNING.add(ran.pid)
        if STOPPED.is_set():
            end_all()
        _, status, used = os.wait4(ran.pid, 0)
        RUNNING.discard(ran.pid)
        ran.returncode = os.waitstatus_to_exitcode(status)
        texts = [it.seek(0) or it.read() for it in (output, said)]
    last = "\n".join(b"".join(texts).decode(errors="replace").splitlines()[-60:])
    return Ran(ran.returncode, texts[0], last, used.ru_utime + used.ru_stime)


def end_all():
    """Ends all commands, with the processes that they started, which would keep the folders in use."""
    for process in [*RUNNING]:
        with contextlib.suppress(ProcessLookupError):
            os.killpg(process, signal.SIGTERM)


def checked(crate, jobs):
    """The words after the command that say which crate the prover checks, over the statements of those below, with this many jobs."""
    of_kit = ["std", *[it for it in crate.line.partition(":")[2].split() if it not in [low.name for low in crate.direct]]]
    libraries = {it: kit() / "rlibs" / f"{it}.rlib" for it in of_kit}
    libraries |= {it.name: it.folder / "out" / "rlib" / f"{it.name}.rlib" for it in crate.direct}
    found = ["--crate-name", crate.name, f"src/{'main' if crate.is_program else 'lib'}.rt"]
    found += [word for name, path in libraries.items() for word in ("--extern", f"{name}={path}")]
    found += [word for it in [kit() / "rlibs", *[it.folder / "out" / "rlib" for it in crate.below]] for word in ("-L", f"dependency={it}")]
    found += ["--antt-project", kit() / "rattle" / "logic" / "antt-project.json", "--logic-built", kit() / "logic_built"]
    return [*found, "--links", f"{crate.name}=", "--jobs", str(jobs)]


def words(crate, jobs):
    """The command that proves a crate over the statements of those below, and builds it."""
    found = [kit() / "bin" / "rattle", "build", *checked(crate, jobs)]
    if crate.is_program or crate.is_static:
        found += ["--toolchain", kit() / "toolchain", "--backend", "llvm", *["--crate-type", "staticlib"] * crate.is_static]
        return [*found, "-o", f"out/{crate.name}.o" if crate.is_program else f"out/lib{crate.name}.a"]
    return [*found, "--statements", "-o", f"out/rlib/{crate.name}.rlib"]


def link(crate):
    """The command that makes the program of what the prover has built."""
    of_c = [kit() / "c" / f"lib{it}_c.a" for it in ("os", "libc")]
    found = [kit() / "bin" / "rattle-link", "--target", "x86_64-unknown-linux-gnu", "--toolchain", kit() / "toolchain"]
    return [*found, "-o", f"out/{crate.name}", f"out/{crate.name}.o", *of_c]


def prove(crate, jobs, from_nothing):
    """Has a crate be proved and built in its out/, unless another build did that while this one waited for the locks."""
    rlib = crate.folder / "out" / "rlib"
    with contextlib.ExitStack() as held:
        for it in sorted([crate, *crate.below], key=lambda it: it.name):  # the toolchain's order, in which no two wait for each other
            held.enter_context(locked(it, fcntl.LOCK_EX if it is crate else fcntl.LOCK_SH))
        if not from_nothing and crate.is_fresh(keeps=False):
            return Ran(0, b"", "", 0)
        begun = time.time()
        rlib.mkdir(parents=True, exist_ok=True)
        for it in ("stamp", "statements"):
            (rlib / it).unlink(missing_ok=True)
        ran = run(words(crate, jobs), crate.folder)
        if ran.status == -signal.SIGKILL and jobs > 1:  # most likely for memory
            ran = run(words(crate, 1), crate.folder)
        if not ran.status and crate.is_program:
            linked = run(link(crate), crate.folder)
            ran = linked._replace(seconds=ran.seconds + linked.seconds)
        if not ran.status:
            crate.made().touch()
            os.utime(crate.made(), (begun, begun))  # a text that was changed since then is newer
    return ran


def prove_keeping(crate, jobs):
    """Has a crate be proved by the toolchain's commands, which continue from what they kept in its out/, and keep their work there."""
    if crate.is_program:
        return run(["rt", "run", "--jobs", str(jobs)], crate.folder, input_of(crate))
    with room(crate) as folder, locked(crate, fcntl.LOCK_EX):
        there, here = crate.folder / "out", folder / "out"
        if there.exists():
            shutil.move(there, here)
        try:
            return run(["rt", "lib", "--jobs", str(jobs)], folder)
        finally:
            if here.exists():
                shutil.move(here, there)


def input_of(crate):
    given = crate.folder / "stdin"
    return given if given.exists() else os.devnull


def prove_and_try(crate, jobs, keeps, from_nothing):
    """Has a crate be proved, and a program be run on its own input. Returns a text if that fails, and the processor seconds of one job."""
    ran = prove_keeping(crate, jobs) if keeps else prove(crate, jobs, from_nothing)
    if crate.is_program and not ran.status:
        tried = ran if keeps else run([crate.made()], crate.folder, input_of(crate))
        if tried.status or tried.output != (crate.folder / "stdout").read_bytes():
            return f"status {tried.status}, or another output than the file stdout has\n{tried.said}", 0
    return f"status {ran.status}\n{ran.said}" if ran.status else None, ran.seconds / COST[jobs]


class Limits(NamedTuple):
    """How many processors there are, how many checks may run at a time, and how many jobs they may have together."""

    processors: int
    checks: int
    jobs: int


def limits(asked=0):
    """As many checks and jobs as were asked for, or as the processors keep busy and memory holds. There may be twice as many jobs as
    processors, since those of a check often wait for each other."""
    with open("/proc/meminfo", encoding="ascii") as it:
        free = next(int(line.split()[1]) << 10 for line in it if line.startswith("MemAvailable:"))
    processors = asked or len(os.sched_getaffinity(0))
    checks = asked or max(1, min(processors, free // MEMORY))
    return Limits(processors, checks, asked or max(checks, min(2 * processors, checks + (free - checks * MEMORY) // (MEMORY // 2))))


class Schedule:
    """What is left to prove: the seconds of each crate, and the jobs of those that are being proved."""

    def __init__(self, todo, bounds):
        chain = functools.cache(lambda crate: crate.seconds + max([chain(it) for it in todo if crate in it.below], default=0))
        self.left, self.running, self.bounds = {it: it.seconds for it in todo}, {}, bounds
        self.waiting = sorted(todo, key=chain, reverse=True)

    def begin(self):
        """Begins what can be proved now, the longest chains first, and returns it with the jobs of each: they share those that are free."""
        ready = [it for it in self.waiting if not any(low in self.left for low in it.below)][: self.bounds.checks - len(self.running)]
        free, begun = self.bounds.jobs - sum(self.running.values()), {}
        for at, crate in enumerate(ready[:free]):
            share = -(-free // (len(ready) - at))
            begun[crate] = max(1, min(MOST, self.bounds.processors, share))
            free -= begun[crate]
        self.waiting = [it for it in self.waiting if it not in begun]
        self.running |= begun
        return begun

    def rate(self, crate):
        """How many of its seconds a crate that is being proved gets done in one."""
        jobs = self.running[crate]
        return BUSY[jobs] / COST[jobs] * min(1, self.bounds.processors / sum(BUSY[it] for it in self.running.values()))

    def spend(self, seconds):
        """Lets this time go by. What takes longer than it should has a tenth left until it ends."""
        for crate, rate in [(it, self.rate(it)) for it in self.running]:
            self.left[crate] = max(self.left[crate] - seconds * rate, min(self.left[crate], crate.seconds / 10))

    def end(self, crate):
        del self.left[crate], self.running[crate]

    def expected(self):
        """About the seconds until all is proved."""
        rest, spent = copy.copy(self), 0
        rest.left, rest.running = dict(self.left), dict(self.running)
        while rest.left:
            rest.begin()
            step, crate = min((rest.left[it] / rest.rate(it), at) for at, it in enumerate(rest.running))
            ended = list(rest.running)[crate]
            for it, rate in [(it, rest.rate(it)) for it in rest.running]:
                rest.left[it] -= step * rate
            rest.end(ended)
            spent += step
        return spent


def planned(todo, bounds):
    """The schedule with as many jobs as are expected to end first: more of them keep all processors busy, and take more time together."""
    few = min(bounds.processors, bounds.jobs)
    return min((Schedule(todo, bounds._replace(jobs=it)) for it in range(few, bounds.jobs + 1)), key=Schedule.expected)


def estimate(program):
    """About how long a first build of a program takes here, as a text."""
    crate = crates()[program]
    return shown_minutes(planned([*crate.below, crate], limits()).expected())


def shown_minutes(seconds):
    return f"{max(1, round(seconds / 60))} minutes" if seconds >= 90 else "a minute"


class Progress:
    """Prints on standard error how far the build is: on a terminal in one line that changes, else in a line every half minute."""

    def __init__(self, every, schedule):
        self.count, self.name, self.schedule, self.start, self.shown = len(every), every[-1].name, schedule, time.monotonic(), 0
        self.seen, self.expected, self.is_terminal = self.start, schedule.expected(), sys.stderr.isatty()

    def say(self, text, end="\n"):
        print(f"\r\033[K{text}" if self.is_terminal else text, end=end, file=sys.stderr, flush=True)

    def text(self, now):
        """How far it is. What is left is scaled by the speed of this run so far."""
        expected, spent = self.schedule.expected(), now - self.start
        gone = self.expected - expected
        expected *= min(max(spent / gone, 0.5), 4) if gone > 60 else 1
        text = f"{self.name}: {self.count - len(self.schedule.left)} of {self.count} crates proved in {spent / 60:.1f} minutes, about "
        running = [f"{it.name}{f' ({jobs} jobs)' if jobs > 1 else ''}" for it, jobs in self.schedule.running.items()]
        return text + f"{shown_minutes(expected)} left; now {', '.join(running)}"

    def show(self):
        now = time.monotonic()
        self.schedule.spend(now - self.seen)
        self.seen = now
        if now - self.shown >= (1 if self.is_terminal else 30):
            text = self.text(now)
            self.say(text[:119] if self.is_terminal else text, "" if self.is_terminal else "\n")
            self.shown = now


def build(every, bounds, keeps=False, from_nothing=False):
    """Proves those of these crates, each after those below it, that aren't built, or all. Returns the seconds of each by its name, or
    nothing if one isn't proved: then no other is begun."""
    schedule = planned([it for it in every if from_nothing or not it.is_fresh(keeps)], bounds)
    progress, running, failed, seconds = Progress(every, schedule), {}, False, {}
    with ThreadPoolExecutor(bounds.checks) as pool:
        while running or schedule.left and not failed:
            for crate, jobs in ({} if failed else schedule.begin()).items():
                running[pool.submit(prove_and_try, crate, jobs, keeps, from_nothing)] = crate
            if not failed:
                progress.show()
            for it in wait(running, timeout=1, return_when=FIRST_COMPLETED).done:
                crate = running.pop(it)
                fault, seconds[crate.name] = it.result()
                if fault:
                    failed = True
                    progress.say(f"{crate.name} is not proved: {fault}")
                else:
                    schedule.end(crate)
    if progress.is_terminal:
        progress.say("", "")
    return None if failed else seconds


def end_running(*_):
    """Ends what runs, and then this program, which gives back each out/ that it works on."""
    STOPPED.set()
    end_all()
    sys.exit(130)


def main():
    parser = argparse.ArgumentParser(description=__doc__, formatter_class=argparse.RawDescriptionHelpFormatter)
    parser.add_argument("crates", nargs="+", metavar="CRATE", help="a program, a library, or a static library")
    parser.add_argument("--jobs", type=int, default=0, metavar="N", help="jobs at a time, in place of what fits this machine")
    parser.add_argument("--keep", action="store_true", help="keeps all work of the toolchain, for those who change the crates")
    parser.add_argument("--measure", action="store_true", help="proves all from nothing, and writes tools/seconds.txt")
    asked = parser.parse_args()
    if asked.keep and asked.measure:
        parser.error("--measure measures proofs from nothing, so it doesn't go with --keep")
    for it in signal.SIGTERM, signal.SIGINT, signal.SIGHUP:
        signal.signal(it, end_running)
    listed = crates()
    tops = [listed.get(it) or sys.exit(f"crates.txt names no crate {it}") for it in asked.crates]
    tops = [it for it in tops if asked.measure or not it.is_fresh(asked.keep)]
    every = list(dict.fromkeys(low for it in tops for low in [*it.below, it]))
    seconds = build(every, limits(asked.jobs), asked.keep, asked.measure) if every else {}
    if asked.measure and seconds is not None:
        write_measured(seconds)
    return 1 if seconds is None else 0


if __name__ == "__main__":
    sys.exit(main())
