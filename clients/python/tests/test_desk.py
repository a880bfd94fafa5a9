"""The calls of a desk, and what they return."""

import pickle
import random
import subprocess
import threading

import stmdesk
from stmdesk import (
    Blocks, Cancellation, Cell, Change, Commits, Current, Delivery, Finish, Finished, FinishedThrows, Job, New, NewRef, Ready, Ref,
    Settled, Stale, StaleBy, Submission, Throws, Waits,
)  # fmt: skip
from tests.common import FLAG, INCREMENT, SECONDS, X, OnProgram, cell, library, new_desk, program


class Answers(OnProgram):
    def test_tvar_and_store(self):
        desk = self.start()
        self.assert_is(desk.tvar("slot : TVar Int = x"), Ref(1, "slot"))
        self.assert_is(desk.tvar("deep : TVar (TVar Int) = slot"), Ref(2, "deep"))
        self.assert_is(desk.tvar("flag : Bool = True"), Ref(3, "flag"))
        self.assert_is(desk.tvar("unit : () = ()"), Ref(4, "unit"))
        self.assert_is(desk.tvar("low : Int = (-9223372036854775808)"), Ref(5, "low"))
        self.assert_is(
            desk.store(),
            [
                cell(0, "x", "Int", 1, 0),
                cell(1, "slot", "TVar Int", X, 0),
                cell(2, "deep", "TVar (TVar Int)", Ref(1, "slot"), 0),
                cell(3, "flag", "Bool", True, 0),
                cell(4, "unit", "()", None, 0),
                cell(5, "low", "Int", -(2**63), 0),
            ],
        )

    def test_an_empty_store_has_no_cells(self):
        with new_desk() as desk:
            self.assert_is(desk.store(), [])

    def test_verdicts(self):
        desk = self.start()
        self.assert_is(desk.try_(INCREMENT), Commits({X: 2}, [], 1))
        self.assert_is(desk.try_("return (1 == 1)"), Commits({}, [], True))
        self.assert_is(desk.try_("return (-7)"), Commits({}, [], -7))
        self.assert_is(desk.try_("return x"), Commits({}, [], X))
        makes_two = "do { r <- newTVar True; s <- newTVar r; return s }"
        self.assert_is(desk.try_(makes_two), Commits({}, [True, NewRef(0)], NewRef(1)))
        self.assert_is(desk.try_("do { writeTVar x 5; throw (-4) }"), Throws(-4))
        self.assert_is(desk.try_("return (9223372036854775807 + 1)"), Throws("overflow"))
        self.assert_is(desk.try_("retry"), Blocks())

    def test_looks(self):
        desk = self.start()
        desk.tvar("flag : Bool = False")
        self.assert_is(desk.looks("do { f <- readTVar flag; readTVar x }"), {X: 1, FLAG: False})
        self.assert_is(desk.looks("retry"), {})

    def test_a_block_waits_is_evaluated_made_stale_and_finished(self):
        desk = self.start()
        self.assert_is(desk.submit("readTVar x"), 1)
        self.assert_is(desk.submit("writeTVar x 5"), 2)
        self.assert_is(desk.show(), [New(1), New(2)])
        self.assert_is(desk.eval(), 2)
        self.assert_is(desk.show(), [Current(1, Commits({}, [], 1)), Current(2, Commits({X: 5}, [], None))])
        self.assert_is(desk.finish(2), Finished(2, None, [1]))
        self.assert_is(desk.show(), [Stale(1, Commits({}, [], 1))])
        self.assert_is(desk.reads(1), {X: 1})
        self.assert_is(desk.eval(), 1)
        self.assert_is(desk.reads(1), {X: 5})
        self.assert_is(desk.finish(1), Finished(1, 5, []))
        self.assert_is(desk.show(), [])
        self.assert_is(desk.store(), [cell(0, "x", "Int", 5, 1)])

    def test_new_variables_are_numbered_at_the_finish(self):
        desk = self.start()
        for ticket in (1, 2):
            self.assert_is(desk.submit("do { r <- newTVar 3; return r }"), ticket)
        desk.eval()
        self.assert_is(desk.show()[1], Current(2, Commits({}, [3], NewRef(0))))
        self.assert_is(desk.finish(2), Finished(2, Ref(1), []))
        self.assert_is(desk.finish(1), Finished(1, Ref(2), []))
        self.assert_is(desk.store()[2], Cell(Ref(2), None, "Int", 3, 0))

    def test_a_throw_finishes(self):
        desk = self.start()
        desk.submit("do { writeTVar x 5; throw 4 }")
        desk.submit("return (9223372036854775807 * 2)")
        desk.eval()
        self.assert_is(desk.finish(1), FinishedThrows(1, 4))
        self.assert_is(desk.finish(2), FinishedThrows(2, "overflow"))
        self.assert_is(desk.store(), [cell(0, "x", "Int", 1, 0)])

    def test_jobs(self):
        desk = self.start()
        desk.submit("readTVar x")
        desk.submit("retry")
        self.assert_is(desk.take(5), [Job(1, 1), Job(2, 2)])
        self.assert_is(desk.take(1), [])
        self.assert_is(desk.handback(2), None)
        (again,) = desk.take(1)
        self.assert_is(again, Job(3, 2))
        self.assert_is(desk.deliver(1), 1)
        self.assert_is(desk.deliver(again), 2)
        self.assert_is(desk.show(), [Current(1, Commits({}, [], 1)), Current(2, Blocks())])

    def test_cancel(self):
        desk = self.start()
        desk.submit("retry")
        self.assert_is(desk.cancel(1), None)
        self.assert_is(desk.show(), [])

    def test_settle(self):
        desk = self.start()
        for number, to in ((2, 3), (1, 2)):
            desk.submit(f"do {{ a <- readTVar x; if a == {number} then writeTVar x {to} else retry }}")
        desk.submit("retry")
        # Three evaluations; 2 finishes and makes 1 stale, which is evaluated and finishes.
        self.assert_is(desk.settle(), Settled(2, 4))
        self.assert_is(desk.show(), [Current(3, Blocks())])

    def test_drain(self):
        desk = self.start()
        for _ in range(3):
            desk.submit("do { a <- readTVar x; writeTVar x (a * 2) }")
        desk.submit("do { a <- readTVar x; if a < 8 then retry else writeTVar x (a - 7) }")
        desk.submit("do { a <- readTVar x; if a == 1 then retry else return a }")
        # Each is evaluated once, when those below it have finished; the last one blocks.
        self.assert_is(desk.drain(), Settled(4, 5))
        self.assert_is(desk.show(), [Current(5, Blocks())])
        self.assert_is(desk.value("x"), 1)

    def test_ready(self):
        desk = self.start()
        self.assert_is(desk.ready(), [])
        for block in ("do { a <- readTVar x; if a == 1 then retry else return a }", "writeTVar x 5", "throw 4"):
            desk.submit(block)
        self.assert_is(desk.ready(), [])
        desk.eval()
        self.assert_is(desk.ready(), [2, 3])
        desk.finish(2)
        self.assert_is(desk.ready(), [3])
        desk.eval()
        self.assert_is(desk.ready(), [1, 3])

    def test_why(self):
        desk = self.start()
        desk.tvar("slot : TVar Int = x")
        desk.tvar("flag : Bool = True")
        slot, flag = Ref(1, "slot"), Ref(2, "flag")
        waits = "do { f <- readTVar flag; r <- readTVar slot; a <- readTVar r; if f then retry else return a }"
        changes = "do { n <- newTVar 3; writeTVar slot n; writeTVar x (-7); return n }"
        for block in (waits, changes, "writeTVar flag False", "retry"):
            desk.submit(block)
        self.assert_is(desk.why(1), New(1))
        desk.eval()
        self.assert_is(desk.why(1), Waits(1, {X: 1, slot: X, flag: True}))
        self.assert_is([desk.why(2), desk.why(4)], [Ready(2), Waits(4, {})])
        self.assert_is(desk.finish(2), Finished(2, Ref(3), [1]))
        self.assert_is(desk.why(1), StaleBy(1, 2, {X: Change(1, -7), slot: Change(X, Ref(3))}))
        desk.finish(3)
        self.assert_is(desk.why(1), StaleBy(1, 2, {X: Change(1, -7), slot: Change(X, Ref(3))}))
        desk.eval()
        self.assert_is(desk.why(1), Ready(1))
        self.assert_refused(lambda: desk.why(2), "NoTicket")

    def test_options_change_no_answer(self):
        of_a_process = ({"workers": 1, "levels": 8, "max_events": 1 << 20}, {"workers": 64, "levels": 0})
        for options in ({"workers": 1, "levels": 0, "max_events": 3},) if library else of_a_process:
            desk = self.start(**options)
            desk.submit(INCREMENT)
            self.assert_is(desk.settle(), Settled(1, 1))

    def test_a_last_event(self):
        desk = self.start(max_events=1)
        desk.submit("retry")
        self.assert_refused(lambda: desk.submit("retry"), "HistoryFull")

    def test_the_help_of_the_module(self):
        with new_desk() as desk:
            desk.tvar("x : Int = 1")
            ticket = desk.submit("do { a <- readTVar x; writeTVar x (a + 1); return a }")
            desk.eval()
            self.assert_is(desk.finish(ticket), Finished(ticket=1, result=1, stale=[]))
            self.assertIn(f"\n{desk.store()!r}\n", stmdesk.__doc__)


HISTORY = """\
{"format":3,"vars":1}
{"init":1,"name":"x","type":"Int"}
{"block":"readTVar x","client":0,"event":"submitted","ticket":1}
{"block":"writeTVar x 5","client":0,"event":"submitted","ticket":2}
{"client":0,"event":"installed","ticket":1,"verdict":{"commits":{"news":[],"result":1,"writes":[]}}}
{"client":0,"event":"installed","ticket":2,"verdict":{"commits":{"news":[],"result":null,"writes":[[0,5]]}}}
{"client":0,"event":"finished","first_new":1,"stale":[1],"ticket":2,"verdict":\
{"commits":{"news":[],"result":null,"writes":[[0,5]]}}}
{"client":0,"event":"cancelled","ticket":1}
"""


class Histories(OnProgram):
    def test_the_example(self):
        desk = self.start()
        desk.submit("readTVar x")
        desk.submit("writeTVar x 5")
        desk.eval()
        desk.finish(2)
        desk.cancel(1)
        self.assertEqual(desk.history(), HISTORY)
        self.assert_is(desk.try_("return 3"), Commits({}, [], 3))  # nothing of the answer is left

    def test_of_nothing(self):
        with new_desk() as desk:
            self.assertEqual(desk.history(), '{"format":3,"vars":0}\n')
            self.assertEqual(desk.history(), '{"format":3,"vars":0}\n')

    def test_events(self):
        desk = self.start()
        for since in (0, 1, 2, 2**32 - 1):
            events = desk.events(since)
            self.assert_is((events, events.next, events.text), ([], 1, ""))
        desk.submit("do { r <- newTVar x; writeTVar x 5; return r }")
        desk.submit("readTVar x")
        wanted = [
            Submission(1, 0, 1, "do { r <- newTVar x; writeTVar x 5; return r }"),
            Submission(2, 0, 2, "readTVar x"),
        ]
        self.assert_is((desk.events(), desk.events(0), desk.events(1)), (wanted, wanted, wanted))
        desk.eval()
        desk.finish(1)
        desk.cancel(2)
        desk.submit("throw (1 + 9223372036854775807)")
        desk.submit("throw 4")
        desk.settle()
        new = desk.events(3)
        made = Commits({X: 5}, [X], NewRef(0))
        self.assert_is(
            new,
            [
                Delivery(3, 0, 1, made), Delivery(4, 0, 2, Commits({}, [], 1)), Finish(5, 0, 1, made, 1, [2]), Cancellation(6, 0, 2),
                Submission(7, 0, 3, "throw (1 + 9223372036854775807)"), Submission(8, 0, 4, "throw 4"),
                Delivery(9, 0, 3, Throws("overflow")), Delivery(10, 0, 4, Throws(4)),
                Finish(11, 0, 3, Throws("overflow"), 2, []), Finish(12, 0, 4, Throws(4), 2, []),
            ],
        )  # fmt: skip
        self.assert_is(new.next, 13)
        self.assert_is(desk.events(new.next), [])
        self.assert_is(desk.events(12), new[-1:])
        head, text = desk.history().split("\n", 2)[:2], desk.history().split("\n", 2)[2]
        self.assert_is(len(head), 2)
        self.assertEqual(desk.events().text, text)
        self.assertTrue(text.endswith(new.text))
        self.assert_is(desk.try_("return 3"), Commits({}, [], 3))  # nothing of an answer is left

    def test_checkpoint(self):
        with new_desk(max_events=5) as desk:
            x = desk.tvar("x : Int = 1")
            reader, writer = desk.submit("readTVar x"), desk.submit("writeTVar x 5")
            self.assert_is((desk.eval(), desk.finish(writer).stale), (2, [reader]))
            self.assert_is(desk.why(reader), StaleBy(reader, writer, {x: Change(1, 5)}))
            self.assert_refused(lambda: desk.cancel(reader), "HistoryFull")
            shown, store = desk.show(), desk.store()
            self.assert_is((desk.checkpoint(), desk.checkpoint()), (5, 0))
            self.assert_is((desk.show(), desk.store(), desk.events()), (shown, store, []))
            self.assert_is(desk.why(reader), StaleBy(reader, writer, {x: Change(1, 5)}))
            self.assertTrue(desk.history().startswith('{"format":5,"next":3,"vars":1,"waiting":1}\n'))
            with desk.batch() as batch:
                evaluated, finished, count = batch.eval(), batch.finish(reader), batch.checkpoint()
            self.assert_is((evaluated.result(), finished.result(), count.result()), (1, Finished(reader, 5, []), 2))
            self.assert_is(desk.submit("retry"), 3)

    def test_events_as_a_journal(self):
        desk = self.start()
        journal, since = "", 1
        chance = random.Random(1)
        for _ in range(60):
            chance.choice([lambda: desk.submit(INCREMENT), desk.eval, desk.settle, lambda: None])()
            new = desk.events(since)
            journal, since = journal + new.text, new.next
        self.assertEqual(desk.history().split("\n", 2)[2], journal)

    def test_is_checked(self):
        desk = self.start()
        for _ in range(300):
            desk.submit(INCREMENT)
        desk.settle()
        text = desk.history()
        self.assertGreater(len(text), 1 << 20)  # far more than a pipe takes at a time
        done = subprocess.run([program, "check"], input=text.encode(), capture_output=True, timeout=SECONDS)
        # Each submission and finish, and 300 + 299 + .. + 1 evaluations.
        self.assertEqual((done.stdout, done.returncode), (b"legal 45750 events\n", 0))


class Lines(OnProgram):
    def test_line_feeds_are_blanks(self):
        desk = self.start()
        self.assert_is(desk.tvar("flag\n: Bool\r\n= True\n"), FLAG)
        block = "\n  do {\r\n\ta <- readTVar x;\n\treturn (a + 1)\n  }\n"
        self.assert_is(desk.try_(block), Commits({}, [], 2))
        self.assert_is(desk.submit(block), 1)
        for text in ("retry\nsubmit retry", "retry\r\nsubmit retry"):
            self.assert_refused(lambda: desk.submit(text), "Unexpected", text.index("submit"))
        for text in ("\n", "\r\n", " \n\t"):
            self.assert_refused(lambda: desk.submit(text), "EndOfText")
        self.assertEqual(desk.history().count("submitted"), 1)

    def test_a_control_character_is_not_sent(self):
        desk = self.start()
        for text in ("retry\r", "re\rtry", "\r\r\n", "\0", "retry\x1b[A", "retry\x0b", "retry\x7f"):
            for call in (desk.tvar, desk.try_, desk.looks, desk.submit):
                with self.subTest(text=text, call=call.__name__), self.assertRaisesRegex(ValueError, "^control character"):
                    call(text)
        with self.assertRaisesRegex(ValueError, r"^control character '\\x00' at 2 of 're\\x00try'$"):
            desk.try_("re\0try")
        self.assert_is(desk.submit("retry"), 1)
        self.assertEqual(desk.history().count("submitted"), 1)

    def test_what_is_no_text_is_not_sent(self):
        desk = self.start()
        with self.assertRaises(ValueError):
            desk.submit("return \udc80")
        for call in (desk.take, desk.deliver, desk.handback, desk.finish, desk.cancel, desk.reads, desk.why, desk.events):
            for wrong in ("1\nsubmit retry", 1.0, None):
                with self.assertRaises(TypeError):
                    call(wrong)
        for call in (desk.tvar, desk.try_, desk.looks, desk.submit):
            for wrong in (b"retry", 1, None):
                with self.assertRaises(TypeError):
                    call(wrong)
        with self.assertRaisesRegex(TypeError, r"^submit takes a text, and not Ref\(0, 'x'\)$"):
            desk.submit(X)
        self.assert_is(desk.submit("retry"), 1)

    def test_blanks_in_an_argument_change_nothing(self):
        desk = self.start()
        self.assert_is(desk.try_("  return\t1 "), Commits({}, [], 1))
        self.assert_is(desk.submit("-- retry".removeprefix("-- ")), 1)
        self.assert_refused(lambda: desk.submit("-- retry"), "Unexpected", 0)

    def test_large_answers(self):
        count = 3000
        with new_desk() as desk:
            for number in range(count):
                desk.tvar(f"variable_of_a_long_name_{number:04} : Int = {number}")
            for number in range(count):
                desk.submit(f"do {{ a <- readTVar variable_of_a_long_name_0000; return (a + {number}) }}")
            desk.submit("writeTVar variable_of_a_long_name_0000 1")
            self.assertEqual(desk.eval(), count + 1)
            self.assert_is(desk.store()[-1], cell(2999, "variable_of_a_long_name_2999", "Int", 2999, 0))
            self.assert_is(desk.finish(count + 1).stale, list(range(1, count + 1)))
            shown = desk.show()
            self.assert_is((len(shown), shown[-1]), (count, Stale(count, Commits({}, [], 2999))))
            self.assertEqual(len(desk.take(65536)), count)

    def test_as_many_waiting_blocks_as_there_can_be(self):
        count = 65536
        with new_desk() as desk:
            for _ in range(count):
                desk.submit("retry")
            self.assert_refused(lambda: desk.submit("retry"), "WaitingFull")
            self.assertEqual(desk.eval(), count)
            self.assertEqual(desk.show(), [Current(ticket, Blocks()) for ticket in range(1, count + 1)])
            self.assertEqual(desk.history().count("\n"), 1 + 2 * count)

    def test_several_threads(self):
        desk = self.start()
        wrong = []

        def ask(of):
            for number in range(100):
                if desk.try_(f"return ({of} * 1000 + {number})") != Commits({}, [], of * 1000 + number):
                    wrong.append((of, number))

        threads = [threading.Thread(target=ask, args=(of,)) for of in range(4)]
        for thread in threads:
            thread.start()
        for thread in threads:
            thread.join()
        self.assertEqual(wrong, [])


class Stores(OnProgram):
    def test_by_name_and_by_reference(self):
        desk = self.start()
        slot = desk.tvar("slot : TVar Int = x")
        desk.submit("do { r <- newTVar 3; writeTVar slot r }")
        desk.settle()
        store = desk.store()
        self.assert_is(store["x"], cell(0, "x", "Int", 1, 0))
        self.assert_is(store[slot].value, Ref(2))
        self.assert_is(store[store["slot"].value].value, 3)
        self.assert_is([store[0], store[-1], store[1:2]], [store["x"], store[Ref(2)], [store["slot"]]])
        for key in ("x", "slot", X, slot, Ref(2), store["x"]):
            self.assertIn(key, store)
        for key in ("y", "", Ref(3), None, 0):
            self.assertNotIn(key, store)
        for key in ("y", Ref(3)):
            with self.assertRaises(KeyError):
                store[key]
            self.assert_is((store.get(key), store.get(key, 7)), (None, 7))
        self.assert_is((store.get("x"), store.get(slot)), (store["x"], store[slot]))
        self.assertEqual(store, list(store))
        self.assertEqual(pickle.loads(pickle.dumps(store))["slot"], store["slot"])

    def test_values(self):
        desk = self.start()
        slot = desk.tvar("slot : TVar Int = x")
        desk.submit("do { r <- newTVar 3; writeTVar slot r }")
        desk.settle()
        self.assert_is([desk.value(it) for it in ("x", X, "slot", slot, Ref(2))], [1, 1, Ref(2), Ref(2), 3])
        self.assert_refused(lambda: desk.value("y"), "Unknown", 9)
        with self.assertRaises(KeyError):
            desk.value(Ref(3))
        self.assert_is(desk.values("x", slot, Ref(2), X, "x"), [1, Ref(2), 3, 1, 1])
        self.assert_is(desk.values(), [])
        self.assert_refused(lambda: desk.values("x", "y"), "Unknown", 9)
        with self.assertRaises(KeyError):
            desk.values("x", Ref(3))

    def test_values_of_one_moment(self):
        """No finish of another thread comes between the values."""
        desk = self.start()
        desk.tvar("y : Int = 1")
        both = stmdesk.do("a <- readTVar x", "writeTVar x (a + 1)", "writeTVar y (a + 1)")
        writer = threading.Thread(target=lambda: [desk.atomically(both) for _ in range(200)])
        writer.start()
        while writer.is_alive():
            x, y = desk.values("x", "y")
            self.assertEqual(x, y)
        writer.join()
        self.assert_is(desk.values("x", "y"), [201, 201])


class Pickling(OnProgram):
    def test_a_desk_is_not_pickled(self):
        desk = self.start()
        for it in (desk, [desk]):
            with self.assertRaisesRegex(TypeError, "^a desk can't be pickled.*Several processes"):
                pickle.dumps(it)
        self.assert_is(desk.value("x"), 1)


class Choices(OnProgram):
    def test_or_else(self):
        desk = self.start()
        for count in (1, 2, 3, 5, 100):
            blocks = ["retry"] * (count - 1)
            for at in (0, count // 2, count - 1):
                self.assert_is(desk.try_(stmdesk.or_else(*blocks[:at], "return 7", *blocks[at:])), Commits({}, [], 7))
            self.assert_is(desk.try_(stmdesk.or_else(*blocks, "retry")), Blocks())
            order = [f"return {number}" for number in range(count)]
            self.assert_is(desk.try_(stmdesk.or_else(*order)), Commits({}, [], 0))
        with self.assertRaisesRegex(ValueError, "needs a block"):
            stmdesk.or_else()

    def test_steps(self):
        desk = self.start()
        take = stmdesk.do("a <- readTVar x", "if a == 0 then retry else writeTVar x 0", "return a")
        self.assertEqual(take, "do { a <- readTVar x; if a == 0 then retry else writeTVar x 0; return a }")
        self.assert_is(desk.atomically(take), 1)
        self.assert_is(desk.try_(take), Blocks())
        self.assert_is(desk.try_(stmdesk.do("retry")), Blocks())
        inner = stmdesk.do("let b = 2", "return b")
        self.assert_is(desk.try_(stmdesk.do(f"a <- {inner}", f"b <- {stmdesk.or_else('retry', inner)}", "return (a + b)")), Commits({}, [], 4))
        with self.assertRaisesRegex(ValueError, "needs a step"):
            stmdesk.do()

    def test_literals(self):
        """Each value is written and comes back, in a block and in a declaration."""
        desk = self.start()
        desk.tvar("flag : Bool = False")
        desk.tvar("unit : () = ()")
        desk.tvar("slot : TVar Int = x")
        kinds = {"x": "Int", "flag": "Bool", "unit": "()", "slot": "TVar Int"}
        for name, value in (("x", 0), ("x", 7), ("x", -7), ("x", 2**63 - 1), ("x", -(2**63)), ("flag", True), ("flag", False), ("unit", None),
                            ("slot", X)):  # fmt: skip
            with self.subTest(name=name, value=value):
                text = stmdesk.literal(value)
                self.assert_is(desk.atomically(f"return {text}"), value)
                self.assert_is(desk.atomically(f"writeTVar {name} {text}"), None)
                self.assert_is(desk.value(name), value)
                with new_desk() as other:
                    other.tvar("x : Int = 1")
                    other.tvar(f"its : {kinds[name]} = {text}")
                    self.assert_is(other.value("its"), value)
        self.assertEqual(stmdesk.literal(-1), "(-1)")
        for wrong, kind in ((2**63, ValueError), (-(2**63) - 1, ValueError), (Ref(9), ValueError), (NewRef(0), ValueError), (1.0, TypeError),
                            ("7", TypeError), (b"7", TypeError)):  # fmt: skip
            with self.subTest(wrong=wrong), self.assertRaises(kind):
                stmdesk.literal(wrong)
