"""`atomically` in many threads."""

import concurrent.futures
import contextlib
import decimal
import fractions
import gc
import os
import re
import signal
import threading
import time
import warnings

import stmdesk
from stmdesk import (
    BadAnswer, Blocks, Cancellation, Commits, Current, Desk, Ended, Finish, Finished, FinishedThrows, Job, Ref, Refused, Settled,
    Waiting,
)  # fmt: skip
from tests.common import INCREMENT, X, InThreads, in_threads, needs_process, new_desk, waits_for


class Atomically(InThreads):
    def test_it_returns_the_result(self):
        desk = self.start()
        self.assert_is([desk.atomically(INCREMENT) for _ in range(3)], [1, 2, 3])
        self.assert_is(desk.atomically("return (1 == 1)"), True)
        self.assert_is(desk.atomically("writeTVar x 7"), None)
        self.assert_is(desk.atomically("newTVar 3"), Ref(1))
        self.assert_is(desk.atomically("return x"), X)
        self.assert_is(desk.value("x"), 7)
        self.assert_is(desk.show(), [])

    def test_a_result_of_the_type_that_is_expected(self):
        desk = self.start()
        self.assert_is(desk.atomically(INCREMENT, returns=int), 1)
        self.assert_is(desk.atomically("return (1 == 1)", returns=bool), True)
        self.assert_is(desk.atomically("return x", returns=Ref), X)
        self.assert_is(desk.atomically("return 7", returns=None), 7)

    def test_a_result_of_another_type_raises(self):
        """Then the block has run. What is no such type raises before anything is sent."""
        desk, value = self.start(), 1
        for result, returns, said in (
            ("(1 == 1)", int, "the block returned True, which is of type bool and not int; its effect stays"),
            ("1", bool, "the block returned 1, which is of type int and not bool; its effect stays"),
            ("x", int, "the block returned Ref(0, 'x'), which is of type Ref and not int; its effect stays"),
            ("()", Ref, "the block returned None, which is of type NoneType and not Ref; its effect stays"),
        ):
            value += 1
            with self.assertRaisesRegex(TypeError, re.escape(said)):
                desk.atomically(f"do {{ writeTVar x {value}; return {result} }}", returns=returns)
            self.assert_is(desk.value("x"), value)
        for returns in (str, type(None), object, 1, "int", (int, bool), []):
            with self.assertRaisesRegex(TypeError, re.escape(f"`returns` is int, bool or Ref, and not {returns!r}")):
                desk.atomically("writeTVar x 99", returns=returns)
        self.assert_is(desk.value("x"), value)

    def test_its_events_are_those_of_the_calls(self):
        desk, other = self.start(), self.start()
        desk.atomically("return 0")
        desk.atomically(INCREMENT)
        for block in ("return 0", INCREMENT):
            ticket = other.submit(block)
            other.eval()
            other.finish(ticket)
        self.assertEqual(desk.history(), other.history())

    def test_a_throw_raises(self):
        desk = self.start()
        for block, fault in (("do { writeTVar x 5; throw (-4) }", -4), ("return (9223372036854775807 + 1)", "overflow")):
            with self.assertRaises(stmdesk.Thrown) as caught:
                desk.atomically(block)
            self.assert_is(caught.exception.fault, fault)
            self.assertEqual(str(caught.exception), f"the block threw {fault}")
        self.assert_is(desk.value("x"), 1)

    def test_a_wrong_block_is_refused(self):
        desk = self.start()
        for _ in range(2):
            with self.assertRaises(Refused) as caught:
                desk.atomically("return a + 1")
            refused = caught.exception
            self.assertEqual((refused.name, refused.place, refused.command), ("Unexpected", 9, "atomically"))
            self.assertIn("write `return (a + 1)`", str(refused))
            self.assert_is(desk.atomically("return 1"), 1)
        with self.assertRaises(ValueError):
            desk.atomically("re\0try")
        with self.assertRaises(TypeError):
            desk.atomically(None)

    def test_it_waits_for_another(self):
        desk = self.start()
        waits = self.waiting(desk, waits_for(5), waits_for(6))
        self.assert_is(desk.atomically("writeTVar x 4"), None)
        self.until_blocked(desk, 1, 2)
        self.assert_is(desk.atomically("writeTVar x 5"), None)
        self.assert_is(waits[0].result(), 5)
        self.until_blocked(desk, 2)
        self.assert_is(desk.atomically(INCREMENT), 5)
        self.assert_is(waits[1].result(), 6)

    def test_it_waits_for_plain_calls(self):
        def by_finish(desk, number):
            ticket, _ = desk.submit(f"writeTVar x {number}"), desk.eval()
            desk.finish(ticket)

        def by_batch(desk, number):
            ticket = desk.submit(f"writeTVar x {number}")
            with desk.batch() as batch:
                batch.eval()
                batch.finish(ticket)

        for change in (by_finish, by_batch):
            desk = self.start()
            (wait,) = self.waiting(desk, waits_for(5))
            change(desk, 4)
            self.until_blocked(desk, 1)
            change(desk, 5)
            self.assert_is(wait.result(), 5)
            self.assert_is(desk.show(), [])

    def test_a_call_that_began_before_the_first_block(self):
        """A finish that was called before the desk had any block of `atomically`, and is made when one waits, lets that go on."""

        class Late:  # the desk's lock, before whose first use something is done
            def __init__(self, lock, before):
                self.lock, self.before = lock, [before]

            def __enter__(self):
                while self.before:
                    self.before.pop()()
                return self.lock.__enter__()

            def __exit__(self, *error):
                return self.lock.__exit__(*error)

        for is_batch in (False, True):
            desk, waits = self.start(), []
            ticket, _ = desk.submit("writeTVar x 5"), desk.eval()

            def begin(desk=desk, waits=waits, ticket=ticket):
                waits.append(self.begin(desk.atomically, waits_for(5)))
                while desk.show()[1:] != [Current(2, Blocks())]:
                    time.sleep(0.001)

            desk._calls = Late(desk._calls, begin)
            if is_batch:
                with desk.batch() as batch:
                    batch.finish(ticket)
            else:
                self.assert_is(desk.finish(ticket), Finished(1, None, [2]))
            self.assert_is(waits[0].result(), 5)

    def test_it_waits_for_a_block_that_waited(self):
        desk = self.start()
        steps = [f"do {{ a <- readTVar x; if a == {n} then writeTVar x {n + 1} else retry }}" for n in range(100, 1, -1)]
        waits = self.waiting(desk, *steps)
        desk.atomically("writeTVar x 2")
        self.assert_is([it.result() for it in waits], [None] * 99)
        self.assert_is(desk.value("x"), 101)

    def test_another_finishes_its_ticket(self):
        desk = self.start()
        (wait,) = self.waiting(desk, waits_for(5))
        with desk.batch() as batch:  # the helper can't come between
            batch.submit("writeTVar x 5")
            batch.eval()
            batch.finish(2)
            batch.eval()
            done = batch.finish(1)
        self.assert_is(done.result(), Finished(1, 5, []))
        self.assert_is(wait.result(), 5)
        self.assert_is(desk.atomically("return 1"), 1)

    def test_another_cancels_its_ticket(self):
        desk = self.start()
        waits = self.waiting(desk, "retry", "retry")
        desk.cancel(1)
        with self.assertRaises(stmdesk.Cancelled):
            waits[0].result()
        with desk.batch() as batch:
            batch.cancel(2)
        with self.assertRaisesRegex(stmdesk.Cancelled, "the block was cancelled"):
            waits[1].result()
        self.assert_is(desk.atomically("return 1"), 1)

    def test_another_takes_its_ticket(self):
        desk = self.start()
        (wait,) = self.waiting(desk, waits_for(5))
        with desk.batch() as batch:
            batch.submit("writeTVar x 5")
            batch.eval()
            batch.finish(2)
            jobs = batch.take(10)
        self.assert_is(jobs.result(), [Job(1, 1)])
        self.assert_is(wait.result(), 5)
        self.assert_refused(lambda: desk.deliver(1), "Gone")

    def test_a_settle_is_refused_while_it_waits(self):
        desk = self.start()
        (wait,) = self.waiting(desk, waits_for(5))
        with self.assertRaisesRegex(RuntimeError, "settle"):
            desk.settle()
        with self.assertRaisesRegex(RuntimeError, "settle"), desk.batch() as batch:
            ticket = batch.submit("retry")
            batch.settle()
        with self.assertRaises(RuntimeError):
            ticket.result()
        with self.assertRaisesRegex(RuntimeError, "drain"):
            desk.drain()
        self.until_blocked(desk, 1)
        desk.atomically("writeTVar x 5")
        self.assert_is(wait.result(), 5)
        self.assert_is(desk.settle(), Settled(0, 0))

    def test_others_tickets_are_left(self):
        desk = self.start()
        desk.submit(waits_for(5))
        desk.submit("return 1")
        desk.atomically("writeTVar x 5")
        desk.eval()
        self.assert_is(desk.show(), [Current(1, Commits({}, [], 5)), Current(2, Commits({}, [], 1))])

    def test_a_timeout(self):
        desk = self.start()
        for timeout in (0.001, 0, -1):
            with self.assertRaises(stmdesk.TimedOut) as caught:
                desk.atomically("retry", timeout=timeout)
            self.assertIsInstance(caught.exception, TimeoutError)
            self.assertIsInstance(caught.exception, stmdesk.DeskError)
            self.assert_is(desk.show(), [])
        self.assert_is(str(stmdesk.TimedOut(0.5)), "the block couldn't finish within 0.5 seconds")
        self.assert_is(desk.atomically("return 1", timeout=0), 1)  # it is tried once
        self.assert_is(desk.atomically("return 1", timeout=10**12), 1)
        with self.assertRaises(stmdesk.Thrown):
            desk.atomically("throw 1", timeout=0)

    def test_a_timeout_that_is_no_number(self):
        desk = self.start()
        for wrong, kind in ((float("nan"), ValueError), ("1", TypeError), (b"1", TypeError), ([], TypeError)):
            with self.subTest(timeout=wrong), self.assertRaisesRegex(kind, "^a timeout is a number of seconds, and not "):
                desk.atomically("writeTVar x 5", timeout=wrong)
        self.assertEqual((desk.value("x"), desk.events().next), (1, 1))  # nothing was sent

    def test_timeouts_of_other_kinds_of_number(self):
        desk = self.start()
        for timeout in (decimal.Decimal(5), fractions.Fraction(5), 10**400, True):
            with self.subTest(timeout=timeout):
                self.assertEqual(desk.atomically("return 7", timeout=timeout), 7)
        for timeout in (decimal.Decimal("0.001"), fractions.Fraction(1, 1000), -(10**400)):
            with self.subTest(timeout=timeout), self.assertRaisesRegex(stmdesk.TimedOut, "within (0.001|-inf) seconds$"):
                desk.atomically("retry", timeout=timeout)

    def test_timeouts_of_many_threads(self):
        desk = self.start()
        for error in in_threads(8, lambda: desk.atomically("do { a <- readTVar x; retry }", timeout=0.001)):
            self.assertIsInstance(error, stmdesk.TimedOut)
        self.assert_is(desk.show(), [])
        self.assert_is(desk.atomically(INCREMENT), 1)

    def test_many_threads_hammer_one_variable(self):
        desk = self.start()
        found = in_threads(8, lambda: [desk.atomically(INCREMENT) for _ in range(100)])
        self.assertEqual(sorted(it for of_one in found for it in of_one), list(range(1, 801)))
        self.assert_is((desk.value("x"), desk.show()), (801, []))

    def test_many_threads_pass_values_on(self):
        desk = new_desk()
        self.addCleanup(desk.close)
        for slot in ("a", "b"):
            desk.tvar(f"{slot} : Int = 0")

        def put(value):
            when_free = "do {{ v <- readTVar {0}; if v == 0 then writeTVar {0} {1} else retry }}"
            return stmdesk.or_else(when_free.format("a", value), when_free.format("b", value))

        take = "do {{ v <- readTVar {0}; if v == 0 then retry else do {{ writeTVar {0} 0; return v }} }}"
        take_any = stmdesk.or_else(take.format("a"), take.format("b"))
        numbers = iter(range(1, 5))

        def produce():
            number = next(numbers)
            for value in range(number * 1000, number * 1000 + 50):
                desk.atomically(put(value))

        puts = self.begin(in_threads, 4, produce)
        takes = in_threads(4, lambda: [desk.atomically(take_any) for _ in range(50)])
        self.assertEqual(puts.result(), [None] * 4)
        values = sorted(value for of_one in takes for value in of_one)
        self.assertEqual(values, sorted(number * 1000 + at for number in range(1, 5) for at in range(50)))
        self.assert_is([desk.value("a"), desk.value("b"), desk.show()], [0, 0, []])

    def test_with_plain_calls_of_other_threads(self):
        desk = self.start()

        def plain():
            for number in range(50):
                ticket = desk.submit("retry")
                desk.eval()
                desk.show()
                desk.cancel(ticket)

        def atomic():
            for number in range(50):
                desk.atomically(INCREMENT)

        others = self.begin(in_threads, 4, plain)
        self.assertEqual(in_threads(4, atomic) + others.result(), [None] * 8)
        self.assert_is((desk.value("x"), desk.show()), (201, []))

    @needs_process("the program is killed")
    def test_a_program_that_is_killed(self):
        for count in (1, 8):
            desk = self.start()
            waits = self.waiting(desk, *["do { a <- readTVar x; retry }"] * count)
            os.kill(desk.pid, signal.SIGKILL)
            errors = [it.exception() for it in waits]
            self.assertEqual([(type(it), it.status) for it in errors], [(Ended, -signal.SIGKILL)] * count)
            self.assertEqual(len({id(it) for it in errors}), count)  # each thread has an error of its own
            for _ in range(2):
                with self.assertRaises(Ended):
                    desk.atomically("return 1")
            self.assert_gone(desk.pid)

    @needs_process("the program is killed")
    def test_a_program_that_is_killed_while_nothing_waits(self):
        before = threading.enumerate()
        with self.assertRaises(Ended), new_desk() as desk:
            desk.atomically("return 1")
            os.kill(desk.pid, signal.SIGKILL)
            for thread in threading.enumerate():
                if thread not in before:
                    thread.join()
        self.assert_gone(desk.pid)

    def test_a_program_that_ends_in_the_midst(self):
        path = self.stand_in("read line", "echo waits 1", "read line", "exit 3")
        desk = Desk(path)
        self.assertEqual([(type(it), it.status) for it in in_threads(8, desk.atomically, "retry")], [(Ended, 3)] * 8)
        self.assert_gone(desk.pid)

    def test_an_answer_that_no_stmdesk_gives(self):
        path = self.stand_in("read line", "echo ticket 1", "sleep 1000")
        desk = Desk(path)
        (error,) = in_threads(1, desk.atomically, "retry")
        self.assertEqual((type(error), error.args), (BadAnswer, ("atomically retry", "ticket 1")))
        self.assert_gone(desk.pid)

    def test_a_close_while_it_waits(self):
        desk = self.start()
        waits = self.waiting(desk, "retry", "retry")
        desk.close()
        self.assertEqual([(type(it.exception()), it.exception().status) for it in waits], [(Ended, 0)] * 2)
        with self.assertRaises(ValueError):
            desk.atomically("return 1")

    @needs_process("see test_a_desk_that_nobody_uses_is_freed")
    def test_its_thread_ends_with_the_program(self):
        for is_closed in (True, False):
            before = threading.enumerate()
            desk = new_desk()
            desk.atomically("return 1")
            self.assertEqual(threading.enumerate(), before)  # as long as no block waits
            with self.assertRaises(stmdesk.TimedOut):
                desk.atomically("retry", timeout=0)
            (thread,) = (it for it in threading.enumerate() if it not in before)
            self.assertEqual(thread.name, "stmdesk")
            if is_closed:
                desk.close()
            else:
                with warnings.catch_warnings():
                    warnings.simplefilter("ignore", ResourceWarning)
                    del desk
                    gc.collect()
            thread.join()

    def test_a_full_history(self):
        desk = self.start(max_events=5)
        waits = self.waiting(desk, "retry", "retry")
        self.assert_refused(lambda: desk.atomically("return 1"), "HistoryFull")
        for wait in waits:
            self.assert_refused(wait.result, "HistoryFull")
        self.assert_refused(lambda: desk.atomically("return 1"), "HistoryFull")
        self.assert_is(desk.value("x"), 1)

    def test_a_full_store(self):
        path = self.stand_in(
            "while read command argument",
            "do case $command in",
            "atomically) echo refused CellsFull;;",
            "eval) echo evaluated 0;;",
            'cancel) echo "$argument" > "$0.cancelled"; echo cancelled 1;;',
            "esac; done",
        )
        with Desk(path) as desk:
            self.assert_refused(lambda: desk.atomically("newTVar 1"), "CellsFull")
            desk.eval()
        self.assertFalse(path.with_name("stand_in.cancelled").exists())

    def test_a_store_that_is_full_when_a_block_goes_on(self):
        path = self.stand_in(
            "while read command argument",
            "do case $command$argument in",
            "atomically*) echo waits 1;;",
            "eval) echo evaluated 1;;",
            "finish1) echo refused CellsFull;;",
            "finish*) echo finished 2 'result () stale 1';;",
            'cancel*) echo "$argument" > "$0.cancelled"; echo cancelled 1;;',
            "esac; done",
        )
        with Desk(path) as desk:
            with concurrent.futures.ThreadPoolExecutor() as pool:
                wait = pool.submit(desk.atomically, "retry")
                while not wait.done():
                    desk.finish(2)
            self.assert_refused(wait.result, "CellsFull")
            desk.eval()
        self.assertEqual(path.with_name("stand_in.cancelled").read_text(), "1\n")

    def test_one_line_for_a_transaction(self):
        desk = self.start()
        self.assert_is(desk.atomically(INCREMENT), 1)
        with desk.batch() as batch:
            waits, ends, throws = (batch.atomically(it) for it in (waits_for(5), "do { writeTVar x 5; return x }", "throw 4"))
            wrong = batch.atomically("return y")
        self.assert_is(waits.result(), Waiting(2))
        self.assert_is(ends.result(), Finished(3, Ref(0, "x"), [2]))
        self.assert_is(throws.result(), FinishedThrows(4, 4))
        self.assert_refused(wrong.result, "Unknown", 7)
        self.assert_is([it.ticket for it in desk.events() if isinstance(it, Finish)], [1, 3, 4])
        self.assertEqual(len(desk.events()), 3 + 2 + 3 + 3)

    def test_what_a_full_history_left_is_cancelled(self):
        """Blocks whose calls have raised HistoryFull wait until there is room to cancel them."""
        for is_batch in (False, True):
            desk = self.start(max_events=6)
            other = desk.submit("retry")
            waits = self.waiting_after(desk, other, "retry", "retry")
            self.assert_refused(lambda desk=desk: desk.atomically("retry"), "HistoryFull")
            for wait in waits:
                self.assert_refused(wait.result, "HistoryFull")
            with self.assertRaises(Refused):
                desk.atomically("retry", timeout=0)
            self.assertEqual(len(desk.show()), 3)
            if is_batch:
                with desk.batch() as batch:
                    batch.checkpoint()
                    batch.cancel(2)  # one that was left, so the other remains
            else:
                desk.checkpoint()
            while [it.ticket for it in desk.show()] != [other]:
                time.sleep(0.001)
            self.assert_is(desk.atomically("return 1"), 1)
            self.assertEqual([it.ticket for it in desk.events() if isinstance(it, Cancellation)], [2, 3])

    def test_what_a_full_history_left_and_others_finish(self):
        desk = self.start(max_events=7)
        waits = self.waiting(desk, waits_for(5), "retry")
        for _ in range(2):
            desk.submit("writeTVar x 5")
        self.assert_refused(lambda: desk.atomically("return 1"), "HistoryFull")
        for wait in waits:
            self.assert_refused(wait.result, "HistoryFull")
        with desk.batch() as batch:
            batch.checkpoint()
            settled = batch.settle()
        self.assert_is(settled.result(), Settled(3, 3))
        while desk.show():
            time.sleep(0.001)
        desk.checkpoint()
        self.assert_is([desk.atomically("return 1"), desk.value("x")], [1, 5])

    def waiting_after(self, desk, other, *blocks):
        """Futures of blocks that wait beside a ticket that is evaluated with the first of them."""
        desk.eval()
        futures = []
        for number, block in enumerate(blocks, 1):
            futures.append(self.begin(desk.atomically, block))
            self.until_blocked(desk, other, *range(other + 1, other + number + 1))
        return futures

    def test_blocks_of_which_some_are_refused(self):
        desk = self.start()
        desk.atomically("return 1")
        blocks = iter(["return 1 2", INCREMENT] * 100)
        lock = threading.Lock()

        def run():
            for _ in range(25):
                with lock:
                    block = next(blocks)
                with contextlib.suppress(Refused):
                    desk.atomically(block)

        self.assertEqual(in_threads(8, run), [None] * 8)
        self.assert_is((desk.value("x"), desk.show()), (101, []))
