"""Batches of commands."""

import fcntl
import os
import signal
from unittest import mock

from stmdesk import (
    BadAnswer, Blocks, Cancellation, Commits, Current, Desk, Ended, Finished, Job, New, Settled, Submission, Waiting, Waits,
    _commands,
)  # fmt: skip
from tests.common import FLAG, INCREMENT, X, OnProgram, cell, in_threads, library, needs_process, new_desk, waits_for


class Batches(OnProgram):
    def test_all_commands(self):
        with new_desk() as desk:
            with desk.batch() as batch:
                answers = [
                    batch.tvar("x : Int = 1"), batch.tvar("flag : Bool = False"), batch.try_(INCREMENT), batch.looks("readTVar x"),
                    batch.submit("writeTVar x 5"), batch.submit("do { f <- readTVar flag; retry }"), batch.take(2), batch.handback(2),
                    batch.deliver(Job(1, 1)), batch.eval(), batch.show(), batch.reads(2), batch.finish(1), batch.store(),
                    batch.cancel(2), batch.settle(), batch.history(), batch.eval(), batch.submit("retry"), batch.ready(), batch.why(3),
                    batch.events(6), batch.drain(), batch.atomically("readTVar x"), batch.atomically("retry"), batch.events(),
                ]  # fmt: skip
            self.assertEqual(list(batch), answers)
            self.assert_is(
                [it.result() for it in answers],
                [
                    X, FLAG, Commits({X: 2}, [], 1), {X: 1}, 1, 2, [Job(1, 1), Job(2, 2)], None, 1, 1,
                    [Current(1, Commits({X: 5}, [], None)), Current(2, Blocks())], {FLAG: False}, Finished(1, None, []),
                    [cell(0, "x", "Int", 5, 1), cell(1, "flag", "Bool", False, 0)], None, Settled(0, 0),
                    "".join(desk.history().splitlines(keepends=True)[:-7]), 0, 3, [], New(3),
                    [Cancellation(6, 0, 2), Submission(7, 0, 3, "retry")], Settled(0, 1), Finished(4, 5, []), Waiting(5), desk.events(),
                ],
            )  # fmt: skip

    def test_what_waits_in_place_of_its_ticket(self):
        desk = self.start()
        with desk.batch() as batch:
            answers = [batch.atomically(waits_for(5)), batch.atomically("retry"), batch.atomically("writeTVar x 5")]
        reader, other = (it.result() for it in answers[:2])
        self.assert_is((reader, other), (Waiting(1), Waiting(2)))
        self.assert_is((desk.why(reader), desk.reads(reader), desk.block(reader)), (desk.why(1), {X: 1}, waits_for(5)))
        self.assert_is(desk.take(1), [Job(1, 1)])
        self.assert_is(desk.handback(reader), None)
        with desk.batch() as batch:
            answers = [batch.why(other), batch.reads(other), batch.block(other), batch.take(1), batch.handback(reader), batch.eval(),
                       batch.finish(reader), batch.cancel(other), batch.show()]  # fmt: skip
        wanted = [Waits(2, {}), {}, "retry", [Job(2, 1)], None, 1, Finished(1, 5, []), None, []]
        self.assert_is([it.result() for it in answers], wanted)
        with desk.batch() as batch:
            again = [batch.atomically("retry"), batch.atomically("retry")]
        desk.cancel(again[0].result())
        self.assert_refused(lambda: desk.finish(again[1].result()), "Blocks")

    def test_a_refused_command(self):
        desk = self.start()
        with desk.batch() as batch:
            before, wrong, after = batch.submit("retry"), batch.submit("return a + 1"), batch.submit("retry")
        self.assert_is((before.result(), after.result()), (1, 2))
        for _ in range(2):
            self.assert_refused(wrong.result, "Unexpected", 9)
        self.assertIn("write `return (a + 1)`", str(wrong.error))
        self.assertIsNone(before.error)

    def test_a_wrong_argument_is_not_added(self):
        desk = self.start()
        with desk.batch() as batch:
            with self.assertRaises(ValueError):
                batch.submit("re\0try")
            with self.assertRaises(ValueError):
                batch.submit("return \udc80")
            with self.assertRaises(TypeError):
                batch.finish("1")
            ticket = batch.submit("retry")
        self.assert_is((ticket.result(), len(list(batch))), (1, 1))

    def test_before_and_after(self):
        desk = self.start()
        with desk.batch() as batch:
            answer = batch.eval()
            with self.assertRaisesRegex(RuntimeError, "isn't sent yet"):
                answer.result()
        with self.assertRaisesRegex(RuntimeError, "is over"):
            batch.eval()
        self.assert_is(answer.result(), 0)

    def test_of_nothing_and_one_that_raises_send_nothing(self):
        desk = self.start()
        with desk.batch():
            pass
        with self.assertRaises(ZeroDivisionError), desk.batch() as batch:
            answer = batch.submit("retry")
            raise ZeroDivisionError
        with self.assertRaises(RuntimeError):
            answer.result()
        self.assert_is(desk.tvar("flag : Bool = False"), FLAG)  # so no other command was given
        self.assert_is(desk.show(), [])

    def test_hints_know_what_a_batch_declared(self):
        with new_desk() as desk:
            with desk.batch() as batch:
                batch.tvar("x : Int = 1")
                wrong, late = batch.submit("if x == 0 then retry else return 1"), batch.tvar("y : Int = 1")
            self.assertIn("`x` is a variable (TVar Int)", str(wrong.error))
            self.assertIn("which was `submit`", str(late.error))

    def test_full_pipes(self):
        for is_small in (False, True):
            with new_desk() as desk:
                if is_small and not library and hasattr(fcntl, "F_SETPIPE_SZ"):  # 4096 bytes in each pipe
                    for pipe in (desk._transport._input, desk._transport._output):
                        fcntl.fcntl(pipe.fileno(), fcntl.F_SETPIPE_SZ, 4096)
                with desk.batch() as batch:
                    for number in range(2000):
                        batch.tvar(f"variable_of_a_long_name_{number:04} : Int = {number}")
                    longs = [batch.try_("return " + " " * 60_000 + str(number)) for number in range(50)]
                    stores = [batch.store() for _ in range(50)]
                    shorts = [batch.try_(f"return {number}") for number in range(20_000)]
                    long = batch.try_("return" + " " * 70_000 + "1")
                    history = batch.history()
                self.assertEqual([it.result() for it in longs], [Commits({}, [], number) for number in range(50)])
                self.assertEqual([len(it.result()) for it in stores], [2000] * 50)
                self.assertEqual([it.result().result for it in shorts], list(range(20_000)))
                self.assert_refused(long.result, "LineTooLong")
                self.assertEqual(history.result().count("\n"), 2001)

    def test_no_command_of_another_thread_comes_between(self):
        desk = self.start()

        def hammer():
            for _ in range(50):
                with desk.batch() as batch:
                    before, ticket, after, _ = batch.show(), batch.submit("retry"), batch.show(), batch.eval()
                if after.result() != before.result() + [New(ticket.result())]:
                    return False
            return True

        self.assertEqual(in_threads(4, hammer), [True] * 4)
        self.assertEqual(len(desk.show()), 200)

    def test_a_program_that_ends_within_one(self):
        path = self.stand_in("read line", "echo ticket 7", "read line", "echo refused Unexpected 0", "read line", "kill -9 $$")
        with Desk(path) as desk:
            with self.assertRaises(Ended) as caught, desk.batch() as batch:
                first, wrong, *others = [batch.submit("retry") for _ in range(10)]
            self.assertEqual(caught.exception.status, -signal.SIGKILL)
            self.assert_is(first.result(), 7)
            self.assert_refused(wrong.result, "Unexpected", 0)
            for answer in others:
                with self.assertRaises(Ended):
                    answer.result()
        self.assert_gone(desk.pid)

    @needs_process("the program is killed")
    def test_a_program_that_is_killed_within_a_large_one(self):
        desk, read = self.start(), _commands.Answers.refusal

        def kill_in_the_midst(*of_the_refusal):
            os.kill(desk.pid, signal.SIGKILL)
            return read(*of_the_refusal)

        with (
            mock.patch.object(_commands.Answers, "refusal", kill_in_the_midst),
            self.assertRaises(Ended),
            desk.batch() as batch,
        ):
            answers = [batch.try_(f"return {number}") for number in range(10_000)]
            refused = batch.finish(1)
            others = [batch.try_("return 1") for number in range(100_000)]
        self.assert_is([it.result().result for it in answers], list(range(10_000)))
        self.assert_refused(refused.result, "NoTicket")
        for answer in others[50_000::1000]:
            with self.assertRaises(Ended):
                answer.result()
        self.assert_gone(desk.pid)

    def test_an_answer_that_no_stmdesk_gives(self):
        path = self.stand_in("read line", "echo ticket 1", "read line", "echo evaluated 0", "sleep 1000")
        with Desk(path) as desk:
            with self.assertRaises(BadAnswer) as caught, desk.batch() as batch:
                first, second, third = batch.submit("retry"), batch.submit("retry"), batch.eval()
            self.assertEqual(caught.exception.args, ("submit retry", "evaluated 0"))
            self.assert_is(first.result(), 1)
            for answer in (second, third):
                with self.assertRaises(BadAnswer):
                    answer.result()
        self.assert_gone(desk.pid)

    def test_of_a_closed_desk(self):
        with new_desk() as desk:
            pass
        with self.assertRaises(ValueError), desk.batch() as batch:
            answer = batch.eval()
        with self.assertRaises(ValueError):
            answer.result()
