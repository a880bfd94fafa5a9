"""Desks in this process, of the library."""

import gc
import os
import pathlib
import random
import signal
import tempfile
import threading
import time
from functools import partial
from unittest import mock

import stmdesk
from stmdesk import Commits, Current, Desk, Ended, New, OutOfMemory, Settled, _local, aio
from tests.common import FLAG, INCREMENT, InThreads, Interruption, library, needs_library, new_desk, program, waits_for


@needs_library
class InThisProcess(InThreads):
    """What differs if the desk is the library."""

    def test_it_starts_nothing(self):
        threads, descriptors = threading.enumerate(), os.listdir("/proc/self/fd")
        children = pathlib.Path(f"/proc/self/task/{threading.get_native_id()}/children").read_text()
        desk = self.start()
        self.assert_is([desk.atomically(INCREMENT) for _ in range(3)], [1, 2, 3])
        self.assert_is(desk.pid, os.getpid())
        self.assertEqual((threading.enumerate(), os.listdir("/proc/self/fd")), (threads, descriptors))
        self.assertEqual(pathlib.Path(f"/proc/self/task/{threading.get_native_id()}/children").read_text(), children)

    def test_what_needs_a_process_is_refused(self):
        for options in (
            {"program": program}, {"journal": "desk"}, {"journal": "desk", "sync": "full"}, {"workers": 2}, {"levels": 1},
            {"checkpoint_every": 5}, {"sync": "none"},
        ):  # fmt: skip
            for kind in (Desk, aio.Desk):
                with self.subTest(options=options, kind=kind), self.assertRaisesRegex(ValueError, f"{[*options][0]}=.* local=True"):
                    kind(local=True, library=library, **options)
        for kind in (Desk, aio.Desk):
            with self.assertRaisesRegex(ValueError, "library=.* local=True"):
                kind(library=library)
        for wrong in (-1, 1048577):
            with self.assertRaisesRegex(ValueError, f"max_events={wrong} isn't from 0 to 1048576"):
                new_desk(max_events=wrong)
        with self.assertRaises(TypeError):
            new_desk(max_events="5")

    def test_no_events(self):
        self.assert_refused(lambda: new_desk(max_events=0).submit("retry"), "HistoryFull")

    def test_many_desks(self):
        desks = [self.start() for _ in range(1000)]
        for number, desk in enumerate(desks):
            desk.atomically(f"writeTVar x {number}")
        self.assertEqual([desk.value("x") for desk in desks], list(range(1000)))

    def test_answers_of_any_length(self):
        """Around the length that one call of the library gives, so that a second one gives the rest."""
        desk = new_desk()
        self.addCleanup(desk.close)
        for length in (*(_local.ROOM + it for it in range(-20, 20)), 2 * _local.ROOM, 65536, 65537, 200_000):
            short = 7 * length % 18  # of 13 bytes each, `checkpoint 0` and a line feed; the others have 18
            with desk.batch() as batch:
                counts = [batch.checkpoint() for _ in range(short)]
                refused = [batch.try_("") for _ in range((length - 13 * short) // 18)]
            self.assertEqual(13 * len(counts) + len("refused EndOfText\n") * len(refused), length)
            self.assert_is([it.result() for it in counts], [0] * short)
            for it in refused:
                self.assert_refused(it.result, "EndOfText")
        self.assert_is(desk.eval(), 0)

    def test_a_close_while_others_call(self):
        for _ in range(20):
            desk = self.start()
            calls = [self.begin(lambda: [desk.atomically(INCREMENT) for _ in range(10**6)]) for _ in range(4)]
            while desk.value("x") < 20:
                pass
            desk.close()
            for it in calls:
                self.assertIsInstance(it.exception(), (Ended, ValueError))
            self.assertFalse(desk._transport._free.alive)

    def test_a_handler_that_closes(self):
        desk = self.start()
        self.after_the_call(desk, desk.close)
        self.assert_is(desk.eval(), 0)  # the answer was there
        self.assertFalse(desk._transport._free.alive)
        with self.assertRaises(ValueError):
            desk.eval()

    def test_a_desk_that_nobody_uses_is_freed(self):
        for is_begun in (False, True):
            threads = threading.enumerate()
            desk = self.start()
            self.doCleanups()
            desk = new_desk()
            if is_begun:
                with self.assertRaises(stmdesk.TimedOut):
                    desk.atomically("retry", timeout=0)
            free = desk._transport._free
            self.assertTrue(free.alive)
            (thread,) = [it for it in threading.enumerate() if it not in threads] or [None]
            self.assertEqual(thread is not None, is_begun)
            del desk
            gc.collect()
            self.assertFalse(free.alive)
            if thread:
                thread.join()

    def test_what_is_no_library(self):
        with tempfile.TemporaryDirectory() as folder:
            text = pathlib.Path(folder) / "libstmdesk.so"
            text.write_text("no library")
            for wrong in (text, pathlib.Path(folder) / "none"):
                with self.assertRaises(OSError):
                    Desk(local=True, library=wrong)
        with self.assertRaisesRegex(OSError, "is no library of stmdesk"):
            Desk(local=True, library=next(it.split()[-1] for it in open("/proc/self/maps") if "/libc" in it and ".so" in it))

    # An exception in the midst of a call.

    def after_the_call(self, desk, action, count=1):
        """Lets this be done in the thread that calls, right after the library has done the next call, or the next few."""
        transport, call, left = desk._transport, desk._transport._feed, [count]

        def feed(*given):
            status = call(*given)
            if left[0]:
                left[0] -= 1
                action()
            return status

        transport._feed = feed

    def before_the_call(self, desk, action):
        call = desk._transport._feed

        def feed(*given):
            desk._transport._feed = call
            action()
            return call(*given)

        desk._transport._feed = feed

    def interrupt(self):
        raise Interruption

    def test_a_call_that_is_broken_off(self):
        for when, is_done in ((self.before_the_call, False), (self.after_the_call, True)):
            desk = self.start()
            when(desk, self.interrupt)
            with self.assertRaises(Interruption):
                desk.tvar("flag : Bool = False")
            if is_done:
                self.assert_is(desk.variable("flag : Bool = True"), FLAG)  # its answer was read after all
            when(desk, self.interrupt)
            with self.assertRaises(Interruption):
                desk.submit("retry")
            self.assert_is(desk.show(), [New(1)] if is_done else [])
            when(desk, self.interrupt)
            with self.assertRaises(Interruption), desk.batch() as batch:
                tickets = [batch.submit("return 1") for _ in range(3)]
            for it in tickets:
                with self.assertRaises(Interruption):
                    it.result()
            self.assertEqual(len(desk.show()), 4 if is_done else 0)  # all of a batch, or nothing
            when(desk, self.interrupt)
            with self.assertRaises(Interruption):
                desk.history()
            self.assertEqual(desk.history().count("submitted"), 4 if is_done else 0)

    def test_a_long_answer_that_is_broken_off(self):
        """Within the call that gives the first part of it, and within the one that gives the rest."""
        for count in (1, 2):
            desk = self.start()
            with desk.batch() as batch:
                for _ in range(3000):
                    batch.submit(INCREMENT)
            history = desk.history()
            self.assertGreater(len(history), 1 << 17)
            self.after_the_call(desk, self.interrupt, count)
            for _ in range(count):
                with self.assertRaises(Interruption):
                    desk.history()
            self.assert_is(desk.try_("return 3"), Commits({}, [], 3))
            self.assertEqual(desk.history(), history)

    def test_an_atomically_that_is_broken_off(self):
        for when, is_done in ((self.before_the_call, False), (self.after_the_call, True)):
            for block, tickets in ((INCREMENT, []), ("retry", []), ("throw 1", []), ("return y", [])):
                desk = self.start()
                when(desk, self.interrupt)
                with self.assertRaises(Interruption):
                    desk.atomically(block)
                self.assert_is((desk.value("x"), desk.show()), (2 if is_done and block == INCREMENT else 1, tickets))
                self.assert_is(desk.atomically("return 7"), 7)

    def test_a_call_that_is_broken_off_wakes_others(self):
        """Its answer names a block of `atomically` that may go on, has finished it, or has cancelled it."""
        for change, outcome in (
            (lambda desk: desk.finish(2), 5), (lambda desk: desk.atomically("writeTVar x 5"), 5),
            (lambda desk: desk.cancel(1), stmdesk.Cancelled),
        ):  # fmt: skip
            desk = self.start()
            (wait,) = self.waiting(desk, waits_for(5))
            desk.submit("writeTVar x 5")
            desk.eval()
            self.after_the_call(desk, self.interrupt)
            with self.assertRaises(Interruption):
                change(desk)
            if outcome == 5:
                self.assert_is(wait.result(), 5)
            else:
                self.assertIsInstance(wait.exception(), outcome)
            self.assertLessEqual(len(desk.show()), 1)
        desk = self.start()
        (wait,) = self.waiting(desk, waits_for(5))
        with self.assertRaises(Interruption), desk.batch() as batch:
            batch.submit("writeTVar x 5")
            batch.eval()
            batch.finish(2)
            batch.eval()
            batch.finish(1)
            self.after_the_call(desk, self.interrupt)
        self.assert_is(wait.result(), 5)

    def test_batches_at_any_time(self):
        desk = self.start()
        is_over = threading.Event()

        def interrupt(number, frame):
            while frame and frame.f_code is not Desk._run.__code__:
                frame = frame.f_back
            if frame:
                raise Interruption

        def send():
            while not is_over.is_set():
                time.sleep(random.random() * 0.0005)
                signal.pthread_kill(threading.main_thread().ident, signal.SIGUSR1)

        signal.signal(signal.SIGUSR1, interrupt)
        sender = self.begin(send)
        done = broken = last = 0
        try:
            while broken < 300:
                try:
                    with desk.batch() as batch:
                        ticket, drained = batch.submit(INCREMENT), batch.drain()
                except Interruption:
                    broken += 1
                else:
                    done += 1
                    self.assertEqual(drained.result(), Settled(1, 1))
                    self.assertGreater(ticket.result(), last)  # it is no answer to an earlier one
                    last = ticket.result()
        finally:
            signal.signal(signal.SIGUSR1, signal.SIG_IGN)
            is_over.set()
            sender.result()
        self.assertTrue(done <= desk.value("x") - 1 <= done + broken)
        self.assert_is(desk.atomically("return 7"), 7)
        self.assert_is(desk.show(), [])

    def test_a_handler_can_not_call_it_in_the_midst_of_a_call(self):
        for call in (lambda desk: desk.submit("retry"), lambda desk: desk.atomically("retry"), lambda desk: desk.eval()):
            desk = self.start()
            self.after_the_call(desk, partial(call, desk))
            with self.assertRaisesRegex(RuntimeError, "signal handler"):
                desk.submit("retry")
            self.assert_is(desk.show(), [New(1)])

    # Out of memory.

    def refuse(self, desk, word, *, is_done):
        """The next command of this word has no memory. It is done all the same, or not."""
        transport, call = desk._transport, desk._transport._feed

        def feed(at, text, *others):
            lines = text.splitlines(keepends=True)
            found = next((it for it, line in enumerate(lines) if line.startswith(word.encode())), None)
            if found is None:
                return call(at, text, *others)
            transport._feed = call
            before = b"".join(lines[:found])
            call(at, before, len(before), *others[1:])
            if is_done:
                unseen, fed = bytearray(1 << 16), _local._Fed()
                into = _local.ctypes.c_char.from_buffer(unseen)
                call(at, lines[found], len(lines[found]), _local.ctypes.addressof(into), len(unseen), _local.ctypes.addressof(fed))
            return 2

        transport._feed = feed

    def test_out_of_memory(self):
        for is_done in (False, True):
            desk = self.start()
            self.refuse(desk, "submit", is_done=is_done)
            with self.assertRaises(OutOfMemory) as caught:
                desk.submit("retry")
            self.assertIsInstance(caught.exception, (MemoryError, stmdesk.DeskError))
            self.assert_is(str(caught.exception), "there was no memory for a command")
            self.assert_is(desk.show(), [New(1)] if is_done else [])  # the desk goes on
            self.refuse(desk, "eval", is_done=is_done)
            with self.assertRaises(OutOfMemory), desk.batch() as batch:
                before, refused, after = batch.submit("return 1"), batch.eval(), batch.submit("return 2")
            self.assert_is(before.result(), 2 if is_done else 1)
            for it in (refused, after):
                with self.assertRaises(OutOfMemory):
                    it.result()
            self.assertEqual([type(it) for it in desk.show()], [Current, Current] if is_done else [New])
            self.refuse(desk, "try", is_done=is_done)  # the second line of `history`
            with self.assertRaises(OutOfMemory):
                desk.history()
            self.assertEqual(desk.history().count("submitted"), 2 if is_done else 1)

    def test_out_of_memory_of_an_atomically(self):
        for is_done in (False, True):
            desk = self.start()
            self.refuse(desk, "atomically", is_done=is_done)
            with self.assertRaises(OutOfMemory):
                desk.atomically(INCREMENT)
            self.assert_is((desk.value("x"), desk.atomically("return 7")), (2 if is_done else 1, 7))

    def test_out_of_memory_while_a_block_waits(self):
        """Its wake-up isn't lost with the answer; if the answer was its result, it raises `OutOfMemory`, too."""
        for word, call in (("finish", lambda desk: desk.finish(2)), ("atomically", lambda desk: desk.atomically("writeTVar x 5"))):
            desk = self.start()
            (wait,) = self.waiting(desk, waits_for(5))
            desk.submit("writeTVar x 5")
            desk.eval()
            self.refuse(desk, word, is_done=True)
            with self.assertRaises(OutOfMemory):
                call(desk)
            self.assert_is(wait.result(), 5)
        desk = self.start()
        (wait,) = self.waiting(desk, waits_for(5))
        with self.assertRaises(OutOfMemory), desk.batch() as batch:
            batch.submit("writeTVar x 5")
            batch.eval()
            batch.finish(2)
            batch.eval()
            self.refuse(desk, "finish 1", is_done=True)
            batch.finish(1)
        self.assertIsInstance(wait.exception(), OutOfMemory)

    def test_out_of_memory_of_a_turn(self):
        """Of a thread that runs blocks for others: all that wait raise it, and their tickets are cancelled."""
        desk = self.start()
        waits = self.waiting(desk, waits_for(5), "retry")
        self.refuse(desk, "eval", is_done=False)
        desk.atomically("writeTVar x 5")
        for it in waits:
            self.assertIsInstance(it.exception(), OutOfMemory)
        self.assert_is((desk.show(), desk.atomically("return 7")), ([], 7))

    def test_no_memory_for_a_desk(self):
        functions = _local.load(library)._replace(new=lambda *given: False)
        with mock.patch.object(_local, "load", lambda path: functions), self.assertRaisesRegex(OutOfMemory, "for a new desk"):
            new_desk()
