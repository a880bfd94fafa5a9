"""Desks of asyncio."""

import asyncio
import collections
import contextlib
import decimal
import os
import signal

import stmdesk
from stmdesk import (
    Blocks, Cancellation, Commits, Current, Ended, Finished, Job, New, Ready, Ref, Refused, Settled, StaleBy, Submission, Waits,
    aio,
)  # fmt: skip
from tests.common import INCREMENT, X, OnProgram, cell, in_threads, needs_process, new_aio_desk, waits_for


class Asynchronous(OnProgram):
    """The package's `aio`."""

    def run_on_desk(self, main, **options):
        """Runs a coroutine function on a desk with x = 1."""

        async def run():
            async with new_aio_desk(**options) as desk:
                self.assert_is(await desk.tvar("x : Int = 1"), X)
                self.desk = desk
                return await main(desk)

        try:
            return asyncio.run(run())
        finally:
            self.assert_gone(self.desk.pid)

    async def until_blocked(self, desk, *tickets):
        while await desk.show() != [Current(ticket, Blocks()) for ticket in tickets]:
            await asyncio.sleep(0.001)

    def test_all_commands(self):
        async def main(desk):
            await desk.tvar("flag : Bool = False")
            self.assert_is(await desk.try_(INCREMENT), Commits({X: 2}, [], 1))
            self.assert_is(await desk.looks("readTVar x"), {X: 1})
            self.assert_is([await desk.submit("writeTVar x 5"), await desk.submit("retry")], [1, 2])
            self.assert_is(await desk.take(2), [Job(1, 1), Job(2, 2)])
            self.assert_is(await desk.handback(2), None)
            self.assert_is(await desk.deliver(Job(1, 1)), 1)
            self.assert_is(await desk.eval(), 1)
            self.assert_is(await desk.show(), [Current(1, Commits({X: 5}, [], None)), Current(2, Blocks())])
            self.assert_is(await desk.reads(2), {})
            self.assert_is(await desk.finish(1), Finished(1, None, []))
            self.assert_is(await desk.cancel(2), None)
            self.assert_is((await desk.store())["x"], cell(0, "x", "Int", 5, 1))
            self.assert_is([await desk.value("x"), await desk.value(X)], [5, 5])
            self.assert_is(await desk.values("x", X), [5, 5])
            self.assert_is(await desk.settle(), Settled(0, 0))
            self.assert_is(await desk.drain(), Settled(0, 0))
            self.assertEqual((await desk.history()).count("\n"), 9)
            self.assert_is(await desk.ready(), [])
            events = await desk.events(6)
            self.assert_is((events, events.next), ([Cancellation(6, 0, 2)], 7))
            async with desk.batch() as batch:
                answers = [batch.eval(), batch.submit("return 1 2"), batch.submit("retry")]
            self.assert_is([answers[0].result(), answers[2].result()], [0, 3])
            self.assert_refused(answers[1].result, "Unexpected", 9)
            self.assert_is(await desk.why(3), New(3))
            self.assert_is(await desk.events(7), [Submission(7, 0, 3, "retry")])
            with self.assertRaises(Refused):
                await desk.finish(3)
            with self.assertRaises(ValueError):
                await desk.submit("re\0try")
            with self.assertRaises(TypeError):
                await desk.finish("3")

        self.run_on_desk(main)

    def test_atomically(self):
        async def main(desk):
            self.assert_is(await desk.atomically(INCREMENT), 1)
            for error, block in ((stmdesk.Thrown, "throw 4"), (Refused, "return 1 2"), (ValueError, "re\0try")):
                with self.assertRaises(error):
                    await desk.atomically(block)
            waiting = asyncio.create_task(desk.atomically(waits_for(5)))
            await self.until_blocked(desk, 3)
            await desk.atomically("writeTVar x 5")
            self.assert_is(await waiting, 5)

        self.run_on_desk(main)

    def test_the_type_of_a_result(self):
        async def main(desk):
            self.assert_is(await desk.atomically(INCREMENT, returns=int), 1)
            self.assert_is(await desk.atomically("return x", returns=Ref), X)
            with self.assertRaisesRegex(TypeError, "^the block returned 7, which is of type int and not bool; its effect stays$"):
                await desk.atomically("do { writeTVar x 7; return 7 }", returns=bool)
            with self.assertRaisesRegex(TypeError, "^`returns` is int, bool or Ref, and not <class 'str'>$"):
                await desk.atomically("writeTVar x 99", returns=str)
            self.assert_is(await desk.value("x"), 7)

        self.run_on_desk(main)

    def test_many_tasks(self):
        async def main(desk):
            found = await asyncio.gather(*[desk.atomically(INCREMENT) for _ in range(500)])
            self.assertEqual(sorted(found), list(range(1, 501)))
            tickets = await asyncio.gather(*[desk.submit("retry") for _ in range(500)])
            self.assertEqual(tickets, sorted(tickets))
            waits = [asyncio.create_task(desk.atomically(waits_for(number))) for number in range(601, 621)]
            await desk.atomically("writeTVar x 601")
            for number in range(601, 621):
                self.assert_is(await waits[number - 601], number)
                await desk.atomically(INCREMENT)

        self.run_on_desk(main)

    def test_timeouts(self):
        async def main(desk):
            for timeout in (0.001, 0, -1):
                with self.assertRaises(stmdesk.TimedOut):
                    await desk.atomically("retry", timeout=timeout)
            with self.assertRaises(asyncio.TimeoutError):
                await asyncio.wait_for(desk.atomically("retry"), 0.001)
            self.assert_is(await desk.show(), [])
            self.assert_is(await desk.atomically("return 1", timeout=0), 1)

        self.run_on_desk(main)

    def test_a_timeout_that_is_no_number(self):
        async def main(desk):
            for wrong, kind in ((float("nan"), ValueError), ("1", TypeError)):
                with self.assertRaisesRegex(kind, "^a timeout is a number of seconds, and not "):
                    await desk.atomically("writeTVar x 5", timeout=wrong)
            self.assertEqual((await desk.value("x"), (await desk.events()).next), (1, 1))  # nothing was sent
            for timeout in (decimal.Decimal(5), 10**400):
                self.assertEqual(await desk.atomically("return 7", timeout=timeout), 7)
            with self.assertRaises(stmdesk.TimedOut):
                await desk.atomically("retry", timeout=decimal.Decimal("0.001"))

        self.run_on_desk(main)

    def test_a_task_that_is_cancelled(self):
        async def main(desk):
            task = asyncio.create_task(desk.atomically("retry"))
            await self.until_blocked(desk, 1)
            task.cancel()
            with self.assertRaises(asyncio.CancelledError):
                await task
            self.assert_is(await desk.show(), [])
            task = asyncio.create_task(desk.atomically("retry"))
            task.cancel()  # before it began
            plain = [asyncio.create_task(desk.submit("retry")) for _ in range(2)]
            plain[1].cancel()
            self.assertEqual(await plain[0], 2)
            self.assert_is(await desk.show(), [New(2)])

        self.run_on_desk(main)

    def test_another_cancels_its_ticket(self):
        async def main(desk):
            task = asyncio.create_task(desk.atomically("retry"))
            await self.until_blocked(desk, 1)
            await desk.cancel(1)
            with self.assertRaises(stmdesk.Cancelled):
                await task

        self.run_on_desk(main)

    @needs_process("the program is killed")
    def test_a_program_that_is_killed(self):
        async def main(desk):
            tasks = [asyncio.create_task(desk.atomically("retry")) for _ in range(8)]
            await self.until_blocked(desk, *range(1, 9))
            os.kill(desk.pid, signal.SIGKILL)
            errors = await asyncio.gather(*tasks, return_exceptions=True)
            self.assertEqual([(type(it), it.status) for it in errors], [(Ended, -signal.SIGKILL)] * 8)
            for call in (desk.eval, lambda: desk.atomically("return 1")):
                with self.assertRaises(Ended):
                    await call()

        self.run_on_desk(main)

    def test_a_body_that_raises(self):
        async def main():
            with self.assertRaises(ZeroDivisionError):
                async with new_aio_desk() as desk:
                    task = asyncio.create_task(desk.atomically("retry"))
                    await self.until_blocked(desk, 1)
                    raise ZeroDivisionError
            with self.assertRaises(Ended):
                await task
            self.assert_gone(desk.pid)

        asyncio.run(main())

    def test_a_task_that_is_cancelled_at_the_end(self):
        """The end of an `async with` ends the program, also if its task is cancelled for a second time."""

        async def within(desks):
            async with new_aio_desk() as desk:
                desks.append(desk)
                try:
                    await desk.atomically("retry")
                finally:
                    asyncio.current_task().cancel()

        async def main():
            desks = []
            task = asyncio.create_task(within(desks))
            while not desks:
                await asyncio.sleep(0.001)
            await self.until_blocked(desks[0], 1)
            task.cancel()
            with self.assertRaises(asyncio.CancelledError):
                await task
            self.assert_gone(desks[0].pid)

        asyncio.run(main())

    def test_calls_come_between_turns(self):
        """A plain call waits for the blocks that were given before it, and not for all that other tasks give meanwhile."""
        tasks = 4

        async def main(desk):
            done, is_over = 0, False

            async def work():
                nonlocal done
                while not is_over:
                    await desk.atomically(INCREMENT)
                    done += 1

            workers = [asyncio.create_task(work()) for _ in range(tasks)]
            for _ in range(20):
                before = done
                while done < before + 100:
                    await asyncio.sleep(0)
                before = done
                value = await desk.value("x")
                # Before the call come those that were finished already, and at most two turns of one block for each task.
                self.assertLessEqual(value - 1 - before, 3 * tasks)
            is_over = True
            await asyncio.gather(*workers)
            self.assert_is(await desk.value("x"), done + 1)

        self.run_on_desk(main)

    def test_why_while_blocks_run(self):
        """What `why` says of the blocks of `atomically` is what their texts say on the store of that moment, which `looks` and `try_` of
        the same batch show."""
        slots, found, blocks = 10, collections.Counter(), {}

        def take(slot):
            reads = "".join(f"v{it} <- readTVar s{it}; " for it in range(slots))
            free = f"(0 < p) && (v{slot} == 0) && (v{(slot + 1) % slots} == 0)"
            changes = f"writeTVar permits (p - 1); writeTVar s{slot} 1"
            return f"do {{ {reads}p <- readTVar permits; if {free} then do {{ {changes} }} else retry }}"

        def give(slot):
            return f"do {{ p <- readTVar permits; writeTVar permits (p + 1); writeTVar s{slot} 0 }}"

        def judge(ticket, reason, looks, reads, verdict):
            found[type(reason)] += 1
            self.assertEqual(reason.ticket, ticket)
            if isinstance(reason, Waits):
                self.assert_is((reason.reads, verdict), (looks, Blocks()))
            elif isinstance(reason, Ready):
                self.assertIsInstance(verdict, Commits)
            elif isinstance(reason, StaleBy):
                self.assertTrue(reason.changes)
                self.assertEqual({it: change.read for it, change in reason.changes.items()}, {it: reads[it] for it in reason.changes})

        async def ask(desk, number):
            """Asks of all tickets in a batch, and of the last one by a call; that is judged if nothing happened meanwhile."""
            events = await desk.events(number)
            blocks.update((it.ticket, it.block) for it in events if isinstance(it, Submission))
            tickets = [it.ticket for it in await desk.show() if it.ticket in blocks]
            async with desk.batch() as batch:
                asked = [(it, batch.why(it), batch.looks(blocks[it]), batch.reads(it), batch.try_(blocks[it])) for it in tickets]
            for ticket, reason, looks, reads, verdict in asked:
                if reason.error is None:  # else it finished meanwhile
                    was_read = {} if isinstance(reason.result(), New) else reads.result()
                    judge(ticket, reason.result(), looks.result(), was_read, verdict.result())
            begun = (await desk.events(events.next)).next
            with contextlib.suppress(Refused):
                reason, block = await desk.why(tickets[-1]), blocks[tickets[-1]]
                answers = (await desk.looks(block), await desk.reads(tickets[-1]), await desk.try_(block))
                if (await desk.events(begun)).next == begun:
                    judge(tickets[-1], reason, *answers)
            return events.next

        async def main(desk):
            for it in ("permits : Int = 3", *(f"s{slot} : Int = 0" for slot in range(slots))):
                await desk.tvar(it)
            is_over, number = False, 1

            async def work(slot):
                while not is_over:
                    await desk.atomically(take(slot))
                    await asyncio.sleep(0)
                    await desk.atomically(give(slot))

            # This one waits until all is over, so that there is always one to ask of.
            last = asyncio.create_task(desk.atomically("do { a <- readTVar x; p <- readTVar permits; if a == 5 then return p else retry }"))
            await self.until_blocked(desk, 1)
            workers = [asyncio.create_task(work(slot)) for slot in range(slots)]
            for _ in range(60):
                number = await ask(desk, number)
            is_over = True
            await asyncio.gather(*workers)
            while isinstance(await desk.why(1), StaleBy):  # the turn that evaluates it may come after this call
                await asyncio.sleep(0)
            self.assert_is(await desk.why(1), Waits(1, {X: 1, Ref(1, "permits"): 3}))
            await desk.atomically("writeTVar x 5")
            self.assert_is(await last, 3)
            self.assertGreater(found[Waits], 0)

        self.run_on_desk(main)

    def test_the_loop_goes_on_meanwhile(self):
        async def main(call):
            self.path = self.stand_in(
                "read line", 'while [ ! -e "$0.goes" ]; do sleep 0.01; done', "case $line in",
                "atomically*) echo finished 1 result 7 stale none;; submit*) echo ticket 1;; esac; cat > /dev/null",
            )  # fmt: skip
            async with aio.Desk(self.path) as desk:
                task = asyncio.create_task(call(desk))
                await asyncio.sleep(0)
                self.path.with_name("stand_in.goes").touch()
                return await task

        for call, result in ((lambda desk: desk.atomically("return 7"), 7), (lambda desk: desk.submit("return 7"), 1)):
            self.assertEqual(asyncio.run(main(call)), result)
            self.assertEqual(in_threads(1, lambda: asyncio.run(main(call))), [result])

    def test_a_loop_that_ended(self):
        desk = new_aio_desk()

        async def begin():
            asyncio.create_task(desk.atomically("retry"))
            await self.until_blocked(desk, 1)

        asyncio.run(begin())  # which cancels the task
        self.assert_is(asyncio.run(desk.show()), [])
        asyncio.run(desk.close())
        with self.assertRaises(ValueError):
            asyncio.run(desk.eval())
        self.assert_gone(desk.pid)
