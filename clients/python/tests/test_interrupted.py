"""Calls that are broken off, by signals and exceptions."""

import dis
import random
import signal
import sys
import threading
import time
from unittest import mock

from stmdesk import Blocks, Current, Desk, Ended, Refused, TimedOut, _helper, _waits
from stmdesk._program import Process
from tests.common import INCREMENT, SECONDS, InThreads, Interruption, OnProgram, needs_process, waits_for


class BrokenOff(OnProgram):
    """A signal handler of the caller raises in the midst of a call."""

    def on_alarm(self, action, within="line"):
        """Lets a handler act in the midst of the method of this name."""

        def handle(number, frame):
            while frame and frame.f_code.co_name != within:
                frame = frame.f_back
            if frame:
                action()
            else:
                signal.setitimer(signal.ITIMER_REAL, 0.05)  # too early

        signal.signal(signal.SIGALRM, handle)
        signal.setitimer(signal.ITIMER_REAL, 0.3)

    def throwing(self, error):
        def throw():
            raise error

        return throw

    def test_its_error_comes_out(self):
        for error in (
            TimeoutError("mine"), BrokenPipeError("mine"), EOFError("mine"), ValueError("mine"), IndexError("mine"),
            Refused("Mine"), Ended(1, "mine"), SystemExit(3),
        ):  # fmt: skip
            for answer in ("", "printf tick"):
                path = self.stand_in("read line", answer, "sleep 1000")
                with self.subTest(error=error, answer=answer):
                    desk = Desk(path, patience=10**6)
                    self.on_alarm(self.throwing(error))
                    with self.assertRaises(type(error)) as caught:
                        desk.submit("retry")
                    self.assertIs(caught.exception, error)
                    self.assert_gone(desk.pid)
                    with self.assertRaises(Ended):
                        desk.submit("retry")

    def test_its_error_comes_out_of_a_write(self):
        for error in (TimeoutError("mine"), BrokenPipeError("mine")):
            path = self.stand_in("sleep 1000")  # it reads nothing, so the pipe fills
            desk = Desk(path, patience=10**6)
            self.on_alarm(self.throwing(error), within="send")
            with self.assertRaises(type(error)) as caught:
                desk.submit("retry" + " " * 10**6)
            self.assertIs(caught.exception, error)
            self.assert_gone(desk.pid)

    @needs_process("a call that is broken off ends the program")
    def test_its_error_comes_out_of_the_program(self):
        desk = self.start()
        self.on_alarm(self.throwing(TimeoutError("mine")))
        with self.assertRaisesRegex(TimeoutError, "mine"):
            while True:
                desk.try_("do { " + "newTVar 1; " * 1000 + "retry }")
        self.assert_gone(desk.pid)

    def test_it_can_not_call_the_desk(self):
        path = self.stand_in("read line", "sleep 1000")
        desk = Desk(path, patience=10**6)
        self.on_alarm(lambda: desk.submit("retry"))
        with self.assertRaisesRegex(RuntimeError, "signal handler"):
            desk.submit("retry")
        self.assert_gone(desk.pid)


class Interrupted(InThreads):
    """A signal handler raises while the main thread is in an `atomically`."""

    def test_while_it_waits(self):
        for error in (KeyboardInterrupt(), TimeoutError("mine"), ValueError("mine"), Ended(1, "mine")):
            desk = self.start()

            def interrupt(number, frame, error=error):
                raise error

            signal.signal(signal.SIGUSR1, interrupt)
            (other,) = self.waiting(desk, waits_for(5))

            def send(desk=desk):
                self.until_blocked(desk, 1, 2)
                signal.pthread_kill(threading.main_thread().ident, signal.SIGUSR1)

            sender = self.begin(send)
            with self.assertRaises(type(error)) as caught:
                desk.atomically("do { a <- readTVar x; retry }")
            self.assertIs(caught.exception, error)
            sender.result()
            self.assert_is(desk.show(), [Current(1, Blocks())])
            self.assert_is(desk.atomically("writeTVar x 5"), None)
            self.assert_is(other.result(), 5)

    def test_at_any_time(self):
        class Interruption(Exception):
            pass

        desk = self.start()
        wanted, is_over = threading.Event(), threading.Event()
        self.is_pending = False  # whether a signal is to come: one at a time

        def interrupt(number, frame):
            while frame and frame.f_code is not Desk.atomically.__code__:
                frame = frame.f_back
            if frame:
                self.is_pending = False
                raise Interruption
            wanted.set()  # too early or too late

        def send():
            while not is_over.is_set():
                wanted.wait()
                wanted.clear()
                time.sleep(random.random() * 0.0005)
                signal.pthread_kill(threading.main_thread().ident, signal.SIGUSR1)

        signal.signal(signal.SIGUSR1, interrupt)
        sender = self.begin(send)
        done = broken = 0
        while broken < 300:
            try:
                if not self.is_pending:
                    self.is_pending = True
                    wanted.set()
                desk.atomically("retry" if broken % 2 else INCREMENT)
                done += 1
            except Interruption:
                broken += 1
        signal.signal(signal.SIGUSR1, signal.SIG_IGN)
        is_over.set()
        wanted.set()
        sender.result()
        self.assertTrue(done <= desk.value("x") - 1 <= done + broken)
        self.assert_is(desk.show(), [])

    def test_a_signal_that_was_missed(self):
        """Python runs no handler for a signal that comes just before it sleeps on a lock. The next look at it does."""

        class Missing:  # a lock whose first wait notices no signal
            def __init__(self):
                self.lock, self.waits = lock(), 0

            def __getattr__(self, name):
                return getattr(self.lock, name)

            def acquire(self, blocking=True, timeout=-1):
                self.waits += self.lock.locked()
                if self.waits != 1 or threading.current_thread() is not threading.main_thread():
                    return self.lock.acquire(blocking, timeout)
                signal.pthread_sigmask(signal.SIG_BLOCK, [signal.SIGUSR1])
                try:
                    signal.raise_signal(signal.SIGUSR1)
                    return self.lock.acquire(blocking, timeout)
                finally:
                    signal.pthread_sigmask(signal.SIG_UNBLOCK, [signal.SIGUSR1])

        def interrupt(number, frame):
            raise KeyboardInterrupt

        lock = threading.Lock
        signal.signal(signal.SIGUSR1, interrupt)
        desk = self.start()
        with self.assertRaises(TimedOut):
            desk.atomically("retry", timeout=0)  # so that its thread has locks of the usual kind
        with mock.patch.object(_waits, "SIGNALS", 0.01), mock.patch.object(_waits.threading, "Lock", Missing):
            with self.assertRaises(KeyboardInterrupt):
                desk.atomically("retry")
        self.assert_is(desk.show(), [])

    def test_a_handler_can_not_call_it_in_the_midst_of_a_call(self):
        path = self.stand_in("read line", "sleep 1000")
        desk = Desk(path, patience=10**6)
        BrokenOff.on_alarm(self, lambda: desk.atomically("retry"))
        with self.assertRaisesRegex(RuntimeError, "signal handler"):
            desk.submit("retry")
        self.assert_gone(desk.pid)


@needs_process("see test_local.py")
class AtAnyStep(InThreads):
    """An exception comes after one of Python's steps within `atomically`, each of them in turn, in the main thread."""

    def broken_off(self, call, step):
        """Whether the call was broken off after its step of this number, and not over before. A step is a call that Python makes, since
        after each of them it runs handlers of signals."""
        left, last = [step], {}

        def trace(frame, event, argument):
            if not frame.f_globals.get("__name__", "").startswith("stmdesk"):
                return None
            frame.f_trace_opcodes, frame.f_trace_lines = True, False
            if event == "opcode":
                before, last[frame] = last.get(frame), frame.f_lasti
                if before is not None and dis.opname[frame.f_code.co_code[before]].startswith("CALL"):
                    left[0] -= 1
                    if left[0] < 0:
                        raise Interruption
            return trace

        before = sys.gettrace()
        sys.settrace(trace)
        try:
            call()
        except Interruption:
            return True
        finally:
            sys.settrace(before)
        return False

    def test_a_block_that_finishes(self):
        for is_seen in (False, True):
            desk = self.start()
            seen = 0
            if is_seen:  # by a block that waits, which has to go on when x changes
                waiting = self.begin(desk.atomically, "do { a <- readTVar x; if a < 2 then retry else return a }")
                self.until_blocked(desk, 1)
                seen = 1
            step, x, done = 0, 1, 0
            while self.broken_off(lambda: desk.atomically(INCREMENT), step):
                now = desk.value("x")
                self.assertIn(now - x, (0, 1))
                if is_seen and now == 2 and seen:
                    self.assertEqual(waiting.result(SECONDS), 2)
                    seen = 0
                self.assertEqual(len(desk.show()), seen)
                done += now - x
                step, x = step + 1, now
            self.assertEqual(desk.value("x"), x + 1)
            self.assertTrue(0 < done < step, (done, step))
            self.assert_is(desk.atomically("return 7"), 7)

    def test_a_block_that_waits(self):
        """It is cancelled."""
        for label in (None, "job7"):
            desk, step = self.start(), 0

            def call():
                with self.assertRaises(TimedOut):
                    desk.atomically("retry", timeout=0, label=label)

            while self.broken_off(call, step):
                self.assertEqual(desk.show(), [])
                step += 1
            self.assertGreater(step, 20)
            self.assertEqual((desk.show(), desk.atomically("return 7")), ([], 7))

    def test_a_second_exception(self):
        """While the first one's call is taken back: the next call does that."""
        for block in (INCREMENT, "retry"):
            desk = self.start()
            for count in range(1, 4):
                with mock.patch.object(Process, "next", side_effect=Interruption), mock.patch.object(_helper.Helper, "run", side_effect=Interruption):
                    with self.assertRaises(Interruption):
                        desk.atomically(block)
                    with self.assertRaises(Interruption):
                        desk.show()
                self.assertEqual(desk.show(), [])
                self.assertEqual(desk.value("x"), 1 + count if block is INCREMENT else 1)
