"""Labels of waiting blocks, and the board."""

import asyncio
import pathlib
import tempfile
import time

from stmdesk import (
    Blocks, Commits, Current, Desk, Entry, Labelling, New, Ready, Refused, Stale, StaleBy, Submission, Waiting, Waits, check,
)  # fmt: skip
from tests.common import X, InThreads, OnProgram, needs_process, new_aio_desk, new_desk, program, waits_for

LONGEST = "~" * 64


def labels(desk):
    return {it.ticket: it.label for it in desk.board(blocks=False, reasons=False)}


class Labels(OnProgram):
    def test_a_label_is_given_replaced_and_taken_away(self):
        desk = self.start()
        self.assertEqual([desk.submit("retry"), desk.submit("retry")], [1, 2])
        for label in ("job7", "!", LONGEST, "--x", "-1", '"\\{}#='):
            self.assertIsNone(desk.label(1, label))
            self.assertEqual(labels(desk), {1: label, 2: None})
        desk.label(Waiting(2), '"\\{}#=')  # several blocks may have one
        self.assertEqual(labels(desk), {1: '"\\{}#=', 2: '"\\{}#='})
        desk.label(1, None)
        self.assertEqual(labels(desk), {1: None, 2: '"\\{}#='})
        desk.cancel(2)
        self.assertEqual(labels(desk), {1: None})

    def test_what_is_no_label(self):
        desk = self.start()
        desk.submit("retry")
        count = desk.events().next
        for label in ("", "-", " ", "a b", "a\n", "\x1f", "\x7f", "é", "~" * 65, "a" * 100_000):
            for call in (lambda it: desk.label(1, it), lambda it: desk.submit("retry", label=it), lambda it: desk.atomically("retry", label=it)):
                with self.subTest(label=label[:9]), self.assertRaisesRegex(ValueError, "is no label: that has 1 to 64 characters"):
                    call(label)
        for label in (7, b"job7", True):
            with self.assertRaises(TypeError):
                desk.label(1, label)
        with self.assertRaises(TypeError):
            desk.label("1", "job7")
        self.assertEqual(desk.events().next, count)  # nothing was sent

    def test_refusals(self):
        desk = self.start()
        for ticket in (0, 1, 4294967295):
            self.assert_refused(lambda ticket=ticket: desk.label(ticket, "a"), "NoTicket")
            self.assert_refused(lambda ticket=ticket: desk.block(ticket), "NoTicket")
        for ticket in (-1, 4294967296):
            self.assert_refused(lambda ticket=ticket: desk.label(ticket, "a"), "Argument")
            self.assert_refused(lambda ticket=ticket: desk.block(ticket), "Argument")
        with self.assertRaisesRegex(Refused, "`label` takes a ticket, and a label of 1 to 64 characters"):
            desk.label(-1, "a")
        desk.submit("writeTVar x 5", label="gone")
        desk.settle()
        self.assert_refused(lambda: desk.label(1, "a"), "NoTicket")
        self.assertEqual(desk.board(), [])

    def test_blocks_are_submitted_with_labels(self):
        desk = self.start()
        self.assert_is([desk.submit("retry", label="first"), desk.submit("retry", label=None), desk.submit("throw 4", label="third")], [1, 2, 3])
        self.assertEqual(labels(desk), {1: "first", 2: None, 3: "third"})
        self.assert_refused(lambda: desk.submit("readTVar y", label="fourth"), "Unknown", 9)
        self.assert_is(desk.events(1)[:2], [Submission(1, 0, 1, "retry"), Labelling(2, 0, 1, "first")])

    def test_a_submission_for_whose_label_there_is_no_room(self):
        desk = self.start(max_events=1)
        self.assertEqual(desk.submit("retry", label="a"), 1)
        self.assertEqual(labels(desk), {1: None})
        self.assert_refused(lambda: desk.label(1, "a"), "HistoryFull")
        self.assert_refused(lambda: desk.submit("retry", label="a"), "HistoryFull")

    def test_a_program_that_knows_no_labels(self):
        answers = self.stand_in("read a; echo ticket 1", "read a; echo refused Command", 'read a; echo "cancelled ${a#cancel }"', "cat > /dev/null")
        with Desk(answers) as desk:
            self.assert_refused(lambda: desk.submit("retry", label="a"), "Command")

    def test_an_event_for_each_label(self):
        desk = self.start()
        desk.submit("retry")
        desk.label(1, "a")
        desk.label(1, None)
        self.assert_is(desk.events(2), [Labelling(2, 0, 1, "a"), Labelling(3, 0, 1, None)])
        self.assertTrue(desk.history().startswith('{"format":5,"vars":1}\n'))

    def test_the_text_of_a_block(self):
        desk = self.start()
        self.assertEqual(desk.submit("do {\n  a <- readTVar x;\twriteTVar x  (a + 1)\r\n}"), 1)
        self.assertEqual(desk.block(1), "do {   a <- readTVar x;\twriteTVar x  (a + 1)  }")

    def test_a_batch(self):
        desk = self.start()
        ticket = desk.submit("retry")
        with desk.batch() as batch:
            answers = [batch.label(ticket, "a"), batch.board(), batch.block(ticket), batch.label(Waiting(ticket), None), batch.board()]
            wrong = [batch.label(7, "a"), batch.block(7)]
            with self.assertRaises(ValueError):
                batch.label(ticket, "a b")
        entry = Entry(New(1), None)
        self.assert_is([it.result() for it in answers], [None, [Entry(New(1), "a")], "retry", None, [entry]])
        for it in wrong:
            self.assert_refused(it.result, "NoTicket")

    @needs_process("it has no journal")
    def test_labels_are_in_the_journal(self):
        with tempfile.TemporaryDirectory() as folder:
            path = pathlib.Path(folder) / "journal"
            with Desk(program, journal=path) as desk:
                desk.submit("retry", label="kept")
                desk.submit("retry", label="gone")
                desk.label(2, None)
            self.assertTrue(check(path, program=program))
            with Desk(program, journal=path) as desk:
                self.assertEqual((labels(desk), desk.orphans()), ({1: "kept", 2: None}, [1, 2]))
                self.assertEqual(desk.checkpoint(), 5)
            self.assertTrue(path.read_text().startswith('{"format":5,"next":3,"vars":0,"waiting":2}\n{"block":"retry","label":"kept","ticket":1}\n'))
            with Desk(program, journal=path) as desk:
                self.assertEqual(labels(desk), {1: "kept", 2: None})


class Boards(OnProgram):
    def test_each_status(self):
        desk = self.start()
        block = "do { a <- readTVar x; if a < 9 then retry else return a }"
        tickets = [desk.submit(block, label="reader"), desk.submit("writeTVar x 5"), desk.submit("readTVar x", label="stale")]
        self.assertEqual((tickets, desk.eval()), ([1, 2, 3], 3))
        desk.submit("throw 4", label="new")
        wrote, read = Commits({X: 5}, [], None), Commits({}, [], 1)
        self.assert_is(desk.board(), [
            Entry(Current(1, Blocks()), "reader", block, Waits(1, {X: 1})), Entry(Current(2, wrote), None, "writeTVar x 5", Ready(2)),
            Entry(Current(3, read), "stale", "readTVar x", Ready(3)), Entry(New(4), "new", "throw 4", New(4)),
        ])  # fmt: skip
        desk.finish(2)
        first, third, last = desk.board()
        self.assert_is((third.status, third.label, third.why.finish), (Stale(3, read), "stale", 2))
        self.assert_is((first.why, type(third.why)), (desk.why(1), StaleBy))
        self.assertEqual([it.state for it in (first, third, last)], ["stale", "stale", "new"])
        self.assert_is([it.verdict for it in (first, third, last)], [Blocks(), read, None])

    def test_what_is_left_out(self):
        desk = self.start()
        self.assertEqual(desk.board(), [])
        desk.submit("retry", label="a")
        self.assert_is(desk.board(blocks=False, reasons=False), [Entry(New(1), "a", None, None)])
        self.assert_is(desk.board(reasons=False), [Entry(New(1), "a", "retry", None)])
        self.assert_is(desk.board(blocks=False), [Entry(New(1), "a", None, New(1))])

    def test_many_blocks(self):
        desk = self.start()
        with desk.batch() as batch:
            for number in range(5000):
                batch.submit(f"return {number}")
        desk.label(5000, "last")
        found = desk.board()
        self.assertEqual([it.block for it in found], [f"return {it}" for it in range(5000)])
        self.assertEqual([it.label for it in found], [None] * 4999 + ["last"])


class LabelsOfThreads(InThreads):
    def until_labelled(self, desk, wanted):
        while labels(desk) != wanted:
            time.sleep(0.001)

    def test_a_block_that_comes_to_wait(self):
        desk = self.start()
        first = self.begin(lambda: desk.atomically(waits_for(5), label="first"))
        self.until_labelled(desk, {1: "first"})
        second = self.begin(lambda: desk.atomically(waits_for(5), label="second"))
        self.until_labelled(desk, {1: "first", 2: "second"})
        third = self.begin(desk.atomically, waits_for(5))
        self.until_labelled(desk, {1: "first", 2: "second", 3: None})
        desk.label(2, "other")  # by another caller
        self.assertEqual([it.label for it in desk.board()], ["first", "other", None])
        desk.atomically("writeTVar x 5", label="writer")
        self.assertEqual([it.result() for it in (first, second, third)], [5, 5, 5])
        given = [(it.ticket, it.label) for it in desk.events() if isinstance(it, Labelling)]
        self.assertEqual(given, [(1, "first"), (2, "second"), (2, "other")])  # the writer never waited

    def test_a_block_for_whose_label_there_is_no_room(self):
        desk = self.start(max_events=2)
        with self.assertRaises(Refused) as refused:
            desk.atomically("retry", label="a")
        self.assertEqual((refused.exception.name, labels(desk)), ("HistoryFull", {1: None}))
        desk.checkpoint()
        self.until_labelled(desk, {})  # there is room to cancel it

    def test_a_block_that_times_out(self):
        desk = self.start()
        with self.assertRaises(TimeoutError):
            desk.atomically("retry", 0.01, label="a")
        self.until_labelled(desk, {})


class LabelsOfTasks(OnProgram):
    def test_the_same(self):
        async def main():
            async with new_aio_desk() as desk:
                await desk.tvar("x : Int = 1")
                self.assertEqual(await desk.submit("retry", label="first"), 1)
                waiting = asyncio.create_task(desk.atomically(waits_for(5), label="second"))
                while [it.label for it in await desk.board(blocks=False, reasons=False)] != ["first", "second"]:
                    await asyncio.sleep(0)
                await desk.label(1, None)
                self.assert_is(await desk.board(), [
                    Entry(New(1), None, "retry", New(1)) if (await desk.show())[0] == New(1) else Entry(Current(1, Blocks()), None, "retry", Waits(1, {})),
                    Entry(Current(2, Blocks()), "second", waits_for(5), Waits(2, {X: 1})),
                ])  # fmt: skip
                self.assertEqual(await desk.block(1), "retry")
                with self.assertRaises(ValueError):
                    await desk.atomically("retry", label="-")
                async with desk.batch() as batch:
                    board = batch.board()
                self.assertEqual(len(board.result()), 2)
                await desk.atomically("writeTVar x 5")
                return await waiting

        self.assertEqual(asyncio.run(main()), 5)
        with new_desk() as desk:
            self.assertEqual(desk.board(), [])
