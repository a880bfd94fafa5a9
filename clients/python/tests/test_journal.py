"""Desks in files."""

import asyncio
import contextlib
import copy
import os
import pathlib
import random
import signal
import subprocess
import sys
import tempfile
import threading
import time
from functools import partial

import stmdesk
from stmdesk import (
    Blocks, Cancellation, Commits, Current, Delivery, Desk, Ended, Finish, Finished, JournalError, New, OtherType, Ref, Refused, Settled,
    Submission, Waits, aio, check,
)  # fmt: skip
from tests.common import (
    FLAG, HERE, INCREMENT, SECONDS, X, InThreads, cell, in_threads, needs_process, new_aio_desk, new_desk, program, waits_for,
)  # fmt: skip


@needs_process("journals")
class Journals(InThreads):
    def setUp(self):
        super().setUp()
        folder = tempfile.TemporaryDirectory()
        self.addCleanup(folder.cleanup)
        self.path = pathlib.Path(folder.name) / "a journal"

    def open(self, **options):
        """A desk whose history is kept in the file, which ends with the test."""
        desk = new_desk(journal=self.path, **options)
        self.addCleanup(desk.__exit__, ValueError, None, None)
        return desk

    def write(self, text):
        self.path.write_text(text)
        return len(text)

    def assert_not_opened(self, status, message):
        with self.assertRaises(JournalError) as caught:
            self.open()
        self.assertEqual((caught.exception.status, str(caught.exception)), (status, f"{self.path}: {message}"))

    def test_it_goes_on(self):
        for number, sync in enumerate((None, "full", "sector", "append", "none")):
            self.path = self.path.with_name(f"{sync}")
            with self.open(sync=sync) as desk:
                self.assert_is((desk.is_resumed, desk.dropped), (False, 0))
                self.assert_is(desk.tvar("x : Int = 1"), X)
                self.assert_is(desk.tvar("flag : Bool = False"), FLAG)
                self.assert_is(desk.submit("do { a <- readTVar x; f <- readTVar flag; if f then return a else retry }"), 1)
                self.assert_is(desk.submit(INCREMENT), 2)
                self.assert_is(desk.eval(), 2)
                self.assert_is(desk.finish(2), Finished(2, 1, [1]))
                self.assert_is(desk.submit("writeTVar flag True"), 3)
                store, shown, history = desk.store(), desk.show(), desk.history()
                self.assertEqual(self.path.read_text(), history)
            self.assertEqual(self.path.read_text(), history)
            self.assertTrue(check(self.path, program=program))
            with self.open(sync=sync) as desk:
                self.assert_is((desk.is_resumed, desk.dropped), (True, 0))
                self.assert_is((desk.store(), desk.show(), desk.history()), (store, shown, history))
                self.assert_is(desk.variable("flag : Bool = True"), FLAG)
                self.assert_is(desk.events(6), [Submission(6, 0, 3, "writeTVar flag True")])
                self.assert_is(desk.looks("readTVar x"), {X: 2})
                self.assert_is(desk.eval(), 2)
                self.assert_is(desk.finish(3), Finished(3, None, [1]))
                self.assert_is(desk.settle(), Settled(1, 1))
                self.assert_is(desk.submit("retry"), 4)
            self.assertEqual(check(self.path, program=program).events, 12)

    def test_a_path_of_bytes(self):
        class Path:
            def __fspath__(self):
                return os.fsencode(path)

        path = self.path.with_name("caf\u00e9")
        for number, given in enumerate((path, str(path), os.fsencode(path), Path())):
            with new_desk(journal=given) as desk:
                self.assert_is((desk.is_resumed, desk.submit("retry")), (number > 0, number + 1))
        self.assertEqual(os.listdir(path.parent), ["caf\u00e9"])

    def test_variables_of_a_desk_without_events(self):
        with self.open() as desk:
            desk.tvar("x : Int = 1")
        with self.open() as desk:  # nothing but a declaration was given, so there is nothing yet
            self.assert_is(desk.is_resumed, False)
            desk.tvar("x : Int = 2")
            desk.store()
        with self.open() as desk:
            self.assert_is((desk.is_resumed, desk.store()), (True, [cell(0, "x", "Int", 2, 0)]))

    def test_a_variable_alone_is_kept(self):
        """Once its answer was seen, however the program ends."""
        with self.open() as desk:
            self.assert_is(desk.variable("x : Int = 1"), X)
        desk = self.open()
        self.assert_is((desk.is_resumed, desk.variable("x : Int = 7"), desk.variable("flag : Bool = True")), (True, X, FLAG))
        os.kill(desk.pid, signal.SIGKILL)
        self.assertRaises(stmdesk.Ended, desk.show)
        with self.open() as desk:
            self.assert_is((desk.is_resumed, desk.values("x", "flag")), (True, [1, True]))

    def test_variable(self):
        declarations = ["x : Int = 1", "slot : TVar Int = x", "deep : TVar (TVar Int) = slot", "u : () = ()", "u' : TVar () = u"]
        spelled = ["x:Int=7", "slot: TVar (Int) = x", "deep : TVar(TVar Int)=slot", " u : ( )= ()", "u' : (TVar ( )) = u"]
        with self.open() as desk:
            refs = [desk.variable(it) for it in declarations]
            self.assertEqual([desk.variable(it) for it in spelled], refs)
            self.assert_refused(lambda: desk.variable("x : Bool = True"), "OtherType")
            desk.store()
            self.assertEqual([desk.variable(it) for it in spelled], refs)
        with self.open() as desk:
            self.assert_is([desk.variable(it) for it in spelled], refs)
            for wrong, why in (
                ("x : Bool = True", "x is declared as Int, and not as Bool"),
                (" slot:TVar  (TVar Int) = x", "slot is declared as TVar Int, and not as TVar (TVar Int)"),
                ("u : Nothing = ()", "u is declared as (), and not as Nothing"),
            ):
                with self.assertRaises(OtherType) as caught:
                    desk.variable(wrong)
                self.assertEqual(str(caught.exception).partition("\n")[0], why)
                self.assertEqual(str(copy.copy(caught.exception)), str(caught.exception))
            self.assert_refused(lambda: desk.variable("x"), "EndOfText")
            with self.assertRaisesRegex(Refused, "hint: the journal has it already, as `x : Int`"):
                desk.tvar("x : Bool = True")
            with self.assertRaisesRegex(Refused, "hint: the desk goes on from its journal, and has the variables"):
                desk.tvar("new : Bool = True")

    def test_names_of_a_journal(self):
        with self.open() as desk:
            desk.tvar("x : Int = 1")
            desk.tvar("slot : TVar Int = x")
            desk.submit("do { r <- newTVar 3; writeTVar slot r }")
            desk.settle()
        with self.open() as desk:
            self.assert_is(desk.try_("do { writeTVar x 5; r <- readTVar slot; return r }"), Commits({X: 5}, [], Ref(2)))
            self.assert_is([desk.value("x"), desk.value(X), desk.value(Ref(2))], [1, 1, 3])
            with self.assertRaisesRegex(Refused, "hint: nothing of this name is declared; the names here are slot, x"):
                desk.submit("readTVar y")

    def test_blocks_that_waited(self):
        with self.open() as desk:
            desk.tvar("x : Int = 1")
            desk.submit("do { a <- readTVar x; if a < 5 then retry else return a }")
            desk.eval()
            os.kill(desk.pid, signal.SIGKILL)
            with self.assertRaises(Ended):
                desk.show()
        with self.open() as desk:
            self.assert_is((desk.show(), desk.why(1)), ([Current(1, Blocks())], Waits(1, {X: 1})))
            self.assert_is(desk.atomically("writeTVar x 5"), None)
            self.assert_is(desk.eval(), 1)
            self.assert_is(desk.finish(1), Finished(1, 5, []))

    def after_a_kill(self, code):
        """Runs a script that opens the journal as `desk` and prints `ready`, kills its process then, and opens the journal."""
        script = "import sys, threading\nimport stmdesk\ndesk = stmdesk.Desk(sys.argv[1], journal=sys.argv[2])\n" + code
        environment = {**os.environ, "PYTHONPATH": str(HERE), "PYTHONDONTWRITEBYTECODE": "1"}
        words = [sys.executable, "-c", script, program, str(self.path)]
        with subprocess.Popen(words, stdout=subprocess.PIPE, env=environment, text=True) as process:
            try:
                self.assertEqual(process.stdout.readline(), "ready\n")
            finally:
                process.kill()
        while True:  # the program has the file until it has noticed the end of its input
            try:
                return self.open()
            except JournalError as error:
                self.assertIn("in use", str(error))
                time.sleep(0.01)

    def test_orphans_of_a_killed_process(self):
        code = """if 1:
            desk.tvar("x : Int = 1")
            desk.submit("do { a <- readTVar x; if a < 7 then retry else return a }")
            for number in (5, 6):
                block = f"do {{ a <- readTVar x; if a < {number} then retry else return a }}"
                threading.Thread(target=desk.atomically, args=(block,)).start()
                while len(desk.show()) < number - 3:
                    pass
            assert desk.orphans() == []
            if len(desk.show()) == 3:
                desk.checkpoint() if CHECKPOINT else None
                print("ready", flush=True)
        """
        for is_short in (False, True):
            self.path = self.path.with_name(f"{is_short}")
            with self.after_a_kill(code.replace("CHECKPOINT", str(is_short))) as desk:
                self.assert_is((desk.is_resumed, desk.orphans()), (True, [1, 2, 3]))
                own = desk.submit("retry")
                waiting = []
                thread = threading.Thread(target=lambda desk=desk, waiting=waiting: waiting.append(desk.atomically(waits_for(9))))
                thread.start()
                while len(desk.show()) < 5:
                    time.sleep(0.001)
                self.assert_is((own, desk.orphans()), (4, [1, 2, 3]))
                desk.eval()
                with desk.batch() as batch:
                    batch.atomically("writeTVar x 5")
                    taken = batch.take(10)
                self.assert_is([it.ticket for it in taken.result()], [1, 2, 3, 5])
                self.assert_is(desk.orphans(), [1, 2, 3])  # they stay, whoever evaluates them
                desk.deliver(2)
                desk.checkpoint()
                self.assert_is(desk.orphans(), [1, 2, 3])
                self.assert_is(desk.finish(2), Finished(2, 5, []))
                self.assert_is(desk.orphans(), [1, 3])
                desk.cancel(3)
                self.assert_is(desk.orphans(), [1])
                desk.atomically("writeTVar x 9")
                thread.join()
                self.assert_is(waiting, [9])
                self.assert_is(desk.drain(), Settled(1, 1))
                self.assert_is((desk.orphans(), [it.ticket for it in desk.show()]), ([], [own]))
            with self.assertRaises(ValueError):
                desk.orphans()
            with self.open() as desk:  # a ticket of the process before is one now
                self.assert_is(desk.orphans(), [own])
            self.assertTrue(check(self.path, program=program))

    def test_orphans_of_a_process_that_is_killed_within_asyncio(self):
        code = """if 1:
            import asyncio
            from stmdesk import aio
            desk.close()
            async def main():
                async with aio.Desk(sys.argv[1], journal=sys.argv[2]) as desk:
                    waits = [asyncio.ensure_future(desk.atomically("retry")) for _ in range(3)]
                    while len(await desk.show()) < 3:
                        pass
                    waits[1].cancel()
                    while len(await desk.show()) > 2:
                        pass
                    print("ready", flush=True)
                    await asyncio.wait(waits)
            asyncio.run(main())
        """

        async def main():
            async with aio.Desk(program, journal=self.path) as desk:
                self.assert_is(await desk.orphans(), [1, 3])
                task = asyncio.create_task(desk.atomically("retry"))
                while len(await desk.show()) < 3:
                    await asyncio.sleep(0.001)
                for ticket in await desk.orphans():
                    await desk.cancel(ticket)
                self.assert_is((await desk.orphans(), [it.ticket for it in await desk.show()]), ([], [4]))
                task.cancel()

        self.after_a_kill(code).close()
        asyncio.run(main())
        with self.open() as desk:
            self.assert_is((desk.orphans(), desk.show()), ([], []))

    def test_orphans_of_a_new_desk(self):
        """To ask for them ends no declarations."""
        with self.open() as desk:
            self.assert_is((desk.orphans(), desk.variable("x : Int = 1")), ([], X))
            desk.submit("retry")
            self.assert_is(desk.orphans(), [])
        with self.open() as desk:
            self.assert_is((desk.orphans(), desk.show()), ([1], [New(1)]))
            desk.cancel(1)
            self.assert_is((desk.orphans(), desk.orphans()), ([], []))
        with Desk(program) as desk:
            desk.submit("retry")
            self.assert_is(desk.orphans(), [])

    def test_calls_that_end_leave_no_orphan(self):
        """Blocks whose calls timed out, were interrupted or cancelled don't wait in the journal, however soon the desk is closed."""
        self.path.touch()

        def timeouts():
            with self.open() as desk:
                for error in in_threads(4, lambda: desk.atomically("retry", timeout=0.001)):
                    self.assertIsInstance(error, stmdesk.TimedOut)

        def interrupted():
            def interrupt(number, frame):
                raise KeyboardInterrupt

            def send():
                while not desk.show():
                    time.sleep(0.001)
                signal.pthread_kill(threading.main_thread().ident, signal.SIGUSR1)

            signal.signal(signal.SIGUSR1, interrupt)
            with self.assertRaises(KeyboardInterrupt), self.open() as desk:
                sender = threading.Thread(target=send)
                sender.start()
                try:
                    desk.atomically("retry")
                finally:
                    sender.join()

        async def cancelled(is_kept):
            tasks = []
            async with aio.Desk(program, journal=self.path) as desk:
                tasks += [asyncio.create_task(desk.atomically("retry")) for _ in range(20)]
                while len(await desk.show()) < 20:
                    await asyncio.sleep(0.001)
                for it in tasks:
                    it.cancel()
                await asyncio.gather(*tasks, return_exceptions=True)
                if not is_kept:
                    raise KeyError

        async def cancelled_itself(desks):
            async with aio.Desk(program, journal=self.path) as desk:
                desks.append(desk)
                await desk.atomically("retry")

        async def a_task_of_that():
            desks = []
            task = asyncio.create_task(cancelled_itself(desks))
            while not desks or not await desks[0].show():
                await asyncio.sleep(0.001)
            task.cancel()
            with self.assertRaises(asyncio.CancelledError):
                await task

        def raising():
            with self.assertRaises(KeyError):
                asyncio.run(cancelled(False))

        for end in (timeouts, interrupted, lambda: asyncio.run(cancelled(True)), raising, lambda: asyncio.run(a_task_of_that())):
            for _ in range(3):
                end()
                with self.open() as desk:
                    self.assert_is((desk.orphans(), desk.show()), ([], []))

    def test_a_program_that_hangs_when_calls_were_given_up(self):
        """Then the end of the desk waits for its patience, and kills it."""
        path = self.stand_in("read line", "echo waits 1", "sleep 1000")
        for is_kept in (True, False):
            desk = Desk(path, patience=0.1)
            (error,) = in_threads(1, partial(self.give_up_and_end, desk, is_kept))
            self.assertIsInstance(error, Ended)
            self.assert_gone(desk.pid)

    def give_up_and_end(self, desk, is_kept):
        waits = desk._begin_waits()

        def end():
            while not waits._leaving:
                time.sleep(0.001)
            with contextlib.suppress(Ended):
                desk.close() if is_kept else desk.__exit__(KeyError, KeyError(), None)

        self.begin(end)
        desk.atomically("retry", timeout=0)

    def test_a_torn_end(self):
        with self.open() as desk:
            desk.submit("retry")
        text = self.path.read_text()
        for end in ("{", "\0" * 100, '{"client":0,"event":"cancelled","ticket":1}', "\n", "x" * (1 << 20)):
            self.write(text + end)
            with self.open() as desk:
                self.assert_is((desk.is_resumed, desk.dropped, desk.show()), (True, len(end), [New(1)]))
            self.assertEqual(self.path.read_text(), text)
        for end in ("{", "\0", "x", '\0"format":3,"vars":0}\n{"block"'):  # of a first batch
            self.write(end)
            with self.open() as desk:
                self.assert_is((desk.is_resumed, desk.dropped), (False, len(end)))
            self.assertEqual(self.path.read_text(), "")

    def test_it_is_not_opened(self):
        header, event = '{"format":3,"vars":0}\n', '{"client":0,"event":"cancelled","ticket":1}\n'
        for text, message in (
            (header + event, "not legal 2"),
            (header + "{}\n", "bad line 2"),
            ("{}\n", "bad header"),
            ("a letter\n", "bad header"),
            ('{"format":3,"va', "bad header"),
            (header.replace("3", "2"), "format 2; a journal has format 3, 4 or 5"),
            (header + "x" * ((1 << 20) + 1), "more than 1048576 bytes after the last whole line"),
        ):
            self.write(text)
            self.assert_not_opened(3, message)
            self.assertEqual(self.path.read_text(), text)
        self.write(header)
        with self.open():
            self.assert_not_opened(1, "in use")
        self.path = self.path.parent
        self.assert_not_opened(1, "is a directory")

    def test_a_full_history(self):
        with self.open(max_events=2) as desk:
            for _ in range(2):
                desk.submit("retry")
            self.assert_refused(lambda: desk.submit("retry"), "HistoryFull")
        for most in (0, 1, 2):
            with self.assertRaisesRegex(JournalError, r"the history is full \(2 events\)$"):
                self.open(max_events=most)
        with self.open(max_events=3) as desk:
            self.assert_is(desk.submit("retry"), 3)

    def test_checkpoints(self):
        with self.open(checkpoint_every=10, max_events=20) as desk:
            desk.tvar("x : Int = 0")
            for number in range(50):
                self.assert_is(desk.atomically("do { a <- readTVar x; writeTVar x (a + 1); return a }"), number)
            waiting = desk.submit("do { a <- readTVar x; if a < 51 then retry else return a }")
            self.assertLess(desk.events().next, 14)
        # A block is one line with three events, so a checkpoint comes after each fourth: the last one after 48 of them.
        self.assertTrue(self.path.read_text().startswith('{"format":4,"next":49,'))
        self.assertTrue(check(self.path, program=program))
        with self.open(checkpoint_every=1) as desk:
            self.assertTrue(desk.is_resumed)
            self.assert_is(desk.variable("x : Int = 0"), Ref(0, "x"))
            self.assert_is((desk.value("x"), desk.show()), (50, [New(waiting)]))
            desk.atomically("writeTVar x 51")
            self.assert_is((desk.eval(), desk.finish(waiting).result, desk.events()), (1, 51, []))
        self.assertEqual(sorted(self.path.parent.iterdir()), [self.path])

    def test_a_checkpoint_that_can_not_be_made(self):
        """The refusal has what the program said, and so has the desk."""
        in_the_way = self.path.parent / f".{self.path.name}.stmdesk-new"
        with self.open() as desk:
            desk.submit("retry")
            self.assertEqual(desk.said, "")
            in_the_way.mkdir()
            with self.assertRaises(Refused) as caught:
                desk.checkpoint()
            self.assertRegex(desk.said, f"^stmdesk: no checkpoint: .*{in_the_way.name}: ")
            self.assertEqual(caught.exception.name, "NoCheckpoint")
            self.assertTrue(caught.exception.hint.endswith(f"goes on in the old file: {desk.said}"))
            self.assert_is(desk.submit("retry"), 2)
            in_the_way.rmdir()
            self.assert_is(desk.checkpoint(), 2)
            said = desk.said
        self.assertEqual(desk.said, said)  # it has ended
        self.path.write_bytes(self.path.read_bytes() + b"{")
        with self.open() as desk:
            self.assertEqual(desk.said, f"stmdesk: {self.path}: dropped 1 bytes after the last whole line")

    def test_wrong_arguments(self):
        with self.assertRaises(ValueError):
            new_desk(checkpoint_every=10)
        with self.assertRaises(TypeError):
            new_desk(journal=self.path, checkpoint_every="10")
        with self.assertRaises(Ended) as caught:
            new_desk(journal=self.path, checkpoint_every=0)
        self.assertEqual((caught.exception.status, type(caught.exception)), (2, Ended))
        for options in ({"sync": "full"}, {"sync": "always", "journal": self.path}, {"sync": "", "journal": self.path}):
            with self.assertRaises(ValueError):
                new_desk(**options)
        with self.assertRaises(TypeError):
            new_desk(journal=3)
        with self.assertRaises(Ended) as caught:
            new_desk(journal="")
        self.assertEqual((caught.exception.status, type(caught.exception)), (2, Ended))

    def test_a_program_that_ends_while_it_opens(self):
        for status, kind in ((1, JournalError), (3, JournalError), (2, Ended), (4, Ended), (-9, Ended)):
            end = "kill -9 $$" if status < 0 else f"exit {status}"
            stand_in = self.stand_in("echo 'stmdesk: a file: in use' >&2", end)
            with self.assertRaises(Ended) as caught:
                Desk(stand_in, journal=self.path)
            self.assertEqual((type(caught.exception), caught.exception.status), (kind, status))
            self.assertEqual(str(caught.exception).startswith("a file: in use"), kind is JournalError)

    def test_a_fault_while_it_runs(self):
        say = 'read it; echo "refused EndOfText"; read it; echo "ticket 1"; read it'
        stand_in = self.stand_in(say, "echo 'stmdesk: journal fault: no space left on the disk' >&2", "exit 1")
        desk = Desk(stand_in, journal=self.path)
        self.assert_is(desk.submit("retry"), 1)
        for _ in range(2):
            with self.assertRaises(JournalError) as caught:
                desk.submit("retry")
            self.assertEqual(str(caught.exception), "journal fault: no space left on the disk")
        desk.close()
        desk = Desk(stand_in, journal=self.path)  # whose last answer isn't asked for
        with self.assertRaises(JournalError):
            desk.close()

    def test_a_program_without_journals(self):
        with self.assertRaises(Ended) as caught:
            Desk(self.stand_in("echo \"error: unexpected argument '--journal' found\" >&2", "exit 2"), journal=self.path)
        self.assertEqual((caught.exception.status, type(caught.exception)), (2, Ended))

    def test_asyncio(self):
        async def first():
            async with new_aio_desk(journal=self.path, sync="none") as desk:
                self.assert_is((desk.is_resumed, await desk.variable("x : Int = 1")), (False, X))
                return await desk.atomically(INCREMENT)

        async def second():
            desk = new_aio_desk(journal=self.path)
            self.assert_is(await desk.value("x"), 2)
            self.assert_is((desk.is_resumed, desk.dropped), (True, 1))
            with self.assertRaisesRegex(JournalError, "in use$"):
                async with new_aio_desk(journal=self.path):
                    self.fail("the file was opened twice")
            again = new_aio_desk(journal=self.path)
            for call in (again.store, again.store, partial(again.atomically, "retry")):
                with self.assertRaisesRegex(JournalError, "in use$"):
                    await call()
            await again.close()
            await desk.close()

        self.assert_is(asyncio.run(first()), 1)
        self.write(self.path.read_text() + "{")
        asyncio.run(second())

    def test_a_hundred_kills(self):
        """Commands are given in batches, and the program is killed at a random moment; ten times on each of ten files. Each time
        the file has each event that was acknowledged, and after that at most events of the commands that weren't answered yet."""
        signal.alarm(5 * SECONDS)
        chance = random.Random(1)
        answered = unanswered = 0
        for number in range(10):
            self.path = self.path.with_name(f"journal{number}")
            for given in self.kills(chance, 10):
                answered += sum(it.error is None for _, _, it in given)
                unanswered += sum(isinstance(it.error, Ended) for _, _, it in given)
        self.assertTrue(answered > 100 and unanswered > 100, f"{answered} commands were answered, and {unanswered} not")

    def kills(self, chance, count):
        """Has the program killed a number of times on one file. Yields what was given to it each time."""
        events, given = [], []
        with self.open() as desk:
            desk.tvar("x : Int = 0")
            desk.store()
        for number in range(count + 1):
            with self.open(sync=chance.choice(("full", "sector", "append", "none"))) as desk:
                found = desk.events()
                self.assertEqual(found[: len(events)], events)
                self.assertEqual(self.explained(given, found[len(events) :]), [])
                events, given = found, []
                if number == count:
                    break
                threading.Timer(chance.uniform(0, 0.08), os.kill, [desk.pid, signal.SIGKILL]).start()
                with self.assertRaises(Ended) as caught:
                    while True:
                        self.give(desk, chance, given)
                self.assertEqual(caught.exception.status, -signal.SIGKILL)
            yield given
        self.assertEqual(check(self.path, program=program).events, len(events))

    @staticmethod
    def give(desk, chance, given):
        """Gives a batch of some commands, and notes each with its argument and its answer."""
        with desk.batch() as batch:
            for _ in range(chance.randrange(1, 10)):
                kind, last = chance.choice(("submit", "submit", "eval", "finish", "cancel")), 1 + len(given)
                argument = {"submit": INCREMENT, "eval": ""}.get(kind, chance.randrange(1, last + 1))
                given.append((kind, argument, getattr(batch, kind)(*[argument] * (kind != "eval"))))

    def explained(self, given, events):
        """The events that are left when those of the commands were taken from the first on: all of each command that was
        answered, and of the others what there is."""
        for kind, argument, answer in given:
            is_answered = answer.error is None
            if answer.error is not None and not isinstance(answer.error, Ended):
                continue  # it was refused
            if kind == "eval":
                are_deliveries = [isinstance(it, Delivery) for it in events]
                count = answer.value if is_answered else [*are_deliveries, False].index(False)
                self.assertEqual(are_deliveries[:count], [True] * count)
                del events[:count]
                continue
            event = events[0] if events else None
            is_its = (
                isinstance(event, Submission) and event.block == argument
                if kind == "submit"
                else isinstance(event, {"finish": Finish, "cancel": Cancellation}[kind]) and event.ticket == argument
            )
            if is_answered:
                self.assertTrue(is_its, f"{kind} {argument} was acknowledged, and the file has {event}")
                self.assertTrue(kind != "submit" or event.ticket == answer.value)
            if is_its:
                del events[0]
        return events
