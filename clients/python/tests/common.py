"""What the tests share: the program or library that they test, desks of it, and their base classes.

test_stmdesk.py sets `program` and `library` before it imports the tests.
"""

import concurrent.futures
import os
import pathlib
import signal
import tempfile
import time
import unittest

from stmdesk import Blocks, Cell, Current, Desk, Ref, Refused, aio

HERE = pathlib.Path(__file__).resolve().parents[1]  # clients/python
REPOSITORY = HERE.parents[1]
SECONDS = 60  # after which a test has hung

X, FLAG = Ref(0, "x"), Ref(1, "flag")
INCREMENT = "do { a <- readTVar x; writeTVar x (a + 1); return a }"

program = os.environ.get("STMDESK") or str(REPOSITORY / "stmdesk")
library = ""  # with --local its path


def new_desk(**options):
    """A desk of the program, or of the library."""
    return Desk(local=True, library=library, **options) if library else Desk(program, **options)


def new_aio_desk(**options):
    return aio.Desk(local=True, library=library, **options) if library else aio.Desk(program, **options)


def needs_process(why):
    """Of a test, or of a class of them, which is skipped with --local."""

    def mark(of):
        of.needs_process = why
        return of

    return mark


def needs_library(of):
    """Of a test, or of a class of them, which is skipped without --local."""
    of.needs_library = True
    return of


def cell(number, name, kind, value, count):
    return Cell(Ref(number, name), name, kind, value, count)


class OnProgram(unittest.TestCase):
    """Each test has `seconds` to end; then it fails, and the program with it."""

    def setUp(self):
        test = getattr(self, self._testMethodName)
        why = getattr(test, "needs_process", None) or getattr(self, "needs_process", None)
        if library and why:
            self.skipTest(why)
        if not library and (hasattr(test, "needs_library") or hasattr(self, "needs_library")):
            self.skipTest("of a desk in this process: see --local")

        def hang(number, frame):
            raise TimeoutError(f"no end after {SECONDS} seconds")

        signal.signal(signal.SIGALRM, hang)
        signal.alarm(SECONDS)
        self.addCleanup(signal.alarm, 0)

    def start(self, **options):
        """A desk with x = 1, which ends with the test."""
        desk = new_desk(**options)
        self.addCleanup(desk.close)
        self.assertEqual(desk.tvar("x : Int = 1"), X)
        return desk

    def assert_refused(self, call, name, place=None, variable=None):
        with self.assertRaises(Refused) as caught:
            call()
        refusal = caught.exception
        self.assertEqual((refusal.name, refusal.place, refusal.variable), (name, place, variable))

    def assert_is(self, got, wanted):
        """Equal, and of equal types, since True == 1."""
        self.assertEqual(repr(got), repr(wanted))

    def stand_in(self, *lines):
        """The path of a shell script in place of the program."""
        if library:
            self.skipTest("a script stands in for the program")
        folder = tempfile.TemporaryDirectory()
        self.addCleanup(folder.cleanup)
        path = pathlib.Path(folder.name) / "stand_in"
        path.write_text("\n".join(["#!/bin/sh", *lines, ""]))
        path.chmod(0o755)
        return path

    def assert_gone(self, pid):
        """No process of this number is left, not even one that was not waited for."""
        if library:
            self.assertEqual(pid, os.getpid())
            return
        with self.assertRaises(ProcessLookupError):
            os.kill(pid, 0)


def waits_for(number):
    """A block that waits until x has this value, and returns it."""
    return f"do {{ a <- readTVar x; if a == {number} then return a else retry }}"


def in_threads(count, call, *arguments):
    """What the call returned in each of `count` threads, or raised."""
    with concurrent.futures.ThreadPoolExecutor(count) as pool:
        return [future.exception() or future.result() for future in [pool.submit(call, *arguments) for _ in range(count)]]


class InThreads(OnProgram):
    def setUp(self):
        super().setUp()
        self.threads = concurrent.futures.ThreadPoolExecutor(200)
        self.addCleanup(self.threads.shutdown)  # after the desks of the test were closed

    def begin(self, call, *arguments):
        """A future of the call in another thread."""
        return self.threads.submit(call, *arguments)

    def until_blocked(self, desk, *tickets):
        """Waits until these tickets wait, and no others, each evaluated and found blocked."""
        while desk.show() != [Current(ticket, Blocks()) for ticket in tickets]:
            time.sleep(0.001)

    def waiting(self, desk, *blocks):
        """Futures of blocks that wait, in the order of their tickets."""
        futures = []
        for number, block in enumerate(blocks, 1):
            futures.append(self.begin(desk.atomically, block))
            self.until_blocked(desk, *range(1, number + 1))
        return futures


class Interruption(Exception):
    """What a signal handler of a test raises."""
