"""Variables that are declared at any time."""

import asyncio
import os
import pathlib
import tempfile

from stmdesk import (
    BadAnswer, Cell, Commits, Current, Declaration, Desk, Finished, Job, New, OtherType, Ref, Refused, Settled, StaleBy, Submission, Waiting,
    _hints, check,
)  # fmt: skip
from tests.common import INCREMENT, X, InThreads, OnProgram, cell, needs_process, new_aio_desk, new_desk, program, waits_for
from tests.test_refusals import WRONG_DECLARATIONS

Y = Ref(1, "y")


class Declarations(OnProgram):
    def test_at_any_time(self):
        with new_desk() as desk:
            self.assert_is(desk.declare("x : Int = 1"), X)
            self.assert_refused(lambda: desk.tvar("y : Int = 1"), "Late")
            self.assert_is(desk.atomically("newTVar 7"), Ref(1))
            self.assert_is(desk.declare("flag\n: Bool\r\n= True"), Ref(2, "flag"))
            self.assert_is(desk.declare("slot : TVar Int = x"), Ref(3, "slot"))
            self.assert_is(desk.declare("deep : TVar (TVar Int) = slot"), Ref(4, "deep"))
            self.assert_is(desk.declare("low : Int = (-9223372036854775808)"), Ref(5, "low"))
            cells = [cell(0, "x", "Int", 1, 0), Cell(Ref(1), None, "Int", 7, 0), cell(2, "flag", "Bool", True, 0)]
            cells += [cell(3, "slot", "TVar Int", X, 0), cell(4, "deep", "TVar (TVar Int)", Ref(3, "slot"), 0)]
            self.assert_is(desk.store(), [*cells, cell(5, "low", "Int", -(2**63), 0)])
            slot, deep = Ref(3, "slot"), Ref(4, "deep")
            self.assert_is(desk.looks("do { s <- readTVar deep; r <- readTVar s; readTVar r }"), {X: 1, slot: X, deep: slot})
            self.assert_is([desk.value("flag"), desk.value(deep)], [True, slot])

    def test_a_text_is_judged_again(self):
        desk = self.start()
        calls = (desk.try_, desk.looks, desk.submit, desk.atomically)
        for _ in range(2):
            for call in calls:
                self.assert_refused(lambda call=call: call("readTVar y"), "Unknown", 9)
        self.assert_refused(lambda: desk.value("y"), "Unknown", 9)
        self.assert_is(desk.declare("y : Int = 4"), Y)
        self.assert_is([call("readTVar y") for call in calls], [Commits({}, [], 4), {Y: 4}, 1, 4])
        self.assert_is(desk.value("y"), 4)
        self.assert_refused(lambda: desk.try_("writeTVar y True"), "Mismatch", 12)

    def test_what_waits_stays_as_it_is(self):
        desk = self.start()
        for block in ("writeTVar x 5", waits_for(5), "readTVar x"):
            desk.submit(block)
        self.assert_is(desk.take(2), [Job(1, 1), Job(2, 2)])
        self.assert_is(desk.deliver(1), 1)
        shown = [Current(1, Commits({X: 5}, [], None)), New(2), New(3)]
        for number, name in enumerate("yz", 1):
            self.assert_is(desk.declare(f"{name} : Int = 0"), Ref(number, name))
            self.assert_is((desk.show(), desk.ready()), (shown, [1]))
        self.assert_is(desk.deliver(2), 2)
        self.assert_is(desk.eval(), 1)
        self.assert_is(desk.finish(1), Finished(1, None, [2, 3]))
        desk.declare("w : Int = 0")
        self.assert_is(desk.why(2).finish, 1)
        self.assertIsInstance(desk.why(3), StaleBy)
        self.assert_is(desk.settle(), Settled(2, 2))

    def test_it_is_an_event(self):
        desk = self.start()
        desk.submit("retry")
        before = desk.history()
        self.assertEqual(before.splitlines()[0], '{"format":3,"vars":1}')
        desk.declare("r : TVar Int = x")
        for declaration in ("y : Bool = False", "u : () = ()", "n : Int = (-3)"):
            desk.declare(declaration)
        desk.submit("readTVar y")
        events = desk.events(2)
        wanted = [Declaration(2, 0, "r", "TVar Int", X), Declaration(3, 0, "y", "Bool", False), Declaration(4, 0, "u", "()", None)]
        wanted += [Declaration(5, 0, "n", "Int", -3), Submission(6, 0, 2, "readTVar y")]
        self.assert_is((events, events.next), (wanted, 7))
        self.assertEqual(events.text.splitlines()[1], '{"client":0,"event":"declared","init":false,"name":"y","type":"Bool"}')
        self.assertEqual(desk.history(), before.replace('"format":3', '"format":5') + events.text)
        with tempfile.NamedTemporaryFile("w") as file:
            file.write(desk.history())
            file.flush()
            self.assertEqual(check(file.name, program=program).events, 6)
        self.assert_is(desk.checkpoint(), 6)
        self.assertEqual(desk.history().splitlines()[0], '{"format":4,"next":3,"vars":5,"waiting":2}')

    def test_a_name_after_a_variable_of_a_block_in_a_checkpoint(self):
        desk = self.start()
        desk.atomically("newTVar 5")
        desk.declare("y : Int = 2")
        desk.checkpoint()
        lines = desk.history().splitlines()
        self.assertEqual(lines[0], '{"format":5,"next":2,"vars":3,"waiting":0}')
        self.assertEqual(lines[3], '{"count":0,"init":2,"name":"y","type":"Int"}')
        self.assert_is(desk.declare("z : TVar Int = y"), Ref(3, "z"))

    def test_of_a_batch(self):
        with new_desk() as desk, desk.batch() as batch:
            batch.tvar("x : Int = 1")
            wrong, declared, late = batch.submit("readTVar y"), batch.declare("y : Int = 2"), batch.tvar("z : Int = 1")
            again, submitted, mistaken = batch.declare("y : Int = 2"), batch.submit("readTVar y"), batch.try_("return (y + 1)")
        self.assert_is((declared.result(), submitted.result()), (Y, 1))
        self.assert_refused(wrong.result, "Unknown", 9)
        self.assert_refused(late.result, "Late")
        self.assert_refused(again.result, "Twice")
        self.assertIn("`y` is a variable (TVar Int)", str(mistaken.error))

    def test_of_asyncio(self):
        async def main():
            async with new_aio_desk() as desk:
                await desk.tvar("x : Int = 1")
                waiting = asyncio.create_task(desk.atomically(waits_for(5)))
                while not await desk.ready() and not await desk.show():
                    await asyncio.sleep(0.001)
                self.assert_is(await desk.declare("y : Int = 4"), Y)
                self.assert_is([await desk.variable("y : Int = 0"), await desk.variable("z : Int = 0")], [Y, Ref(2, "z")])
                async with desk.batch() as batch:
                    answer = batch.declare("w : TVar Int = z")
                self.assert_is(answer.result(), Ref(3, "w"))
                await desk.atomically("do { a <- readTVar y; writeTVar x (a + 1) }")
                self.assert_is(await waiting, 5)

        asyncio.run(main())

    def test_refusals(self):
        desk = self.start(max_events=3)
        for text, refusal in {
            "": ("EndOfText",), "q": ("EndOfText",), "q : Foo = 1": ("Unexpected", 4), "q : Int = (1)": ("Unexpected", 11),
            "q : Int = 9223372036854775808": ("BadNumber", 10), "q : TVar Int = q": ("Unknown", 15), "x : TVar Int = q": ("Unknown", 15),
            "x : Bool = 2": ("Twice",), "q : Bool = 1": ("TypeOfValue",), "q : Bool = x": ("TypeOfValue",),
            "q : Int = \u0661": ("NotAscii",),
        }.items():  # fmt: skip
            with self.subTest(text=text):
                self.assert_refused(lambda text=text: desk.declare(text), *refusal)
        self.assert_is(desk.events(), [])
        self.assert_is([desk.declare(f"{it} : Int = 0").number for it in "abc"], [1, 2, 3])
        self.assert_refused(lambda: desk.declare("d : Int = 0"), "HistoryFull")
        self.assert_refused(lambda: desk.try_("readTVar d"), "Unknown", 9)
        self.assert_is(desk.checkpoint(), 3)
        self.assert_is(desk.declare("d : Int = 0"), Ref(4, "d"))

    def test_an_argument_that_is_none(self):
        desk = self.start()
        with self.assertRaises(ValueError):
            desk.declare("y : \0Int = 1")
        with self.assertRaises(TypeError):
            desk.declare(7)
        self.assert_is(desk.tvar("y : Int = 1"), Y)  # nothing was sent

    def test_other_answers(self):
        for answer in ("tvar #1 y", "declared", "declared 1 open", "declared y #1"):
            stand_in = self.stand_in("read line", f"echo '{answer}'", "read line")
            with self.subTest(answer=answer), Desk(stand_in) as desk, self.assertRaises(BadAnswer):
                desk.declare("y : Int = 1")


class Hints(OnProgram):
    def refused(self, call, *arguments):
        with self.assertRaises(Refused) as caught:
            call(*arguments)
        return caught.exception

    def test_of_declarations(self):
        desk = self.start()
        for text, (name, place, said) in WRONG_DECLARATIONS.items():
            with self.subTest(text=text):
                refused = self.refused(desk.declare, text)
                self.assertEqual((refused.name, refused.place, refused.command, refused.text), (name, place, "declare", text))
                self.assertIn(said, refused.hint)

    def test_of_a_late_tvar(self):
        desk = self.start()
        desk.store()
        for _ in range(2):
            hint = self.refused(desk.tvar, "y : Int = 1").hint
            self.assertEqual(hint, "`tvar` declares before the first other command, which was `store`: `declare` does so at any time")
            desk.declare(f"v{desk.store()[-1].variable.number} : Int = 0")
        with new_desk() as desk:
            self.refused(desk.declare, "x : Bool = 1")  # a refused one, too, ends the declarations
            self.assertIn("which was `declare`", self.refused(desk.tvar, "x : Int = 1").hint)
        for first in (None, _hints.JOURNAL, _hints.SERVER, "eval"):
            self.assertIn("`declare`", _hints.hint("Late", None, None, "tvar", "y : Int = 1", {"x": "Int"}, first))

    def test_know_what_was_declared(self):
        desk = self.start()
        self.assertIn("the names here are x", self.refused(desk.try_, "readTVar slot").hint)
        desk.declare("slot : TVar  (Int) = x")
        self.assertIn("`slot` is a variable (TVar (TVar (Int)))", self.refused(desk.try_, "return (slot == 1)").hint)
        self.assertIn("did you mean `slot`", self.refused(desk.try_, "readTVar slott").hint)


class Variables(OnProgram):
    """`variable`, once `tvar` comes too late."""

    def test_on_a_desk_that_is_under_way(self):
        desk = self.start()
        desk.store()
        self.assert_is([desk.variable("x : Int = 9"), desk.variable("y : Int = 2"), desk.variable("y:Int=7")], [X, Y, Y])
        with self.assertRaisesRegex(OtherType, "^y is declared as Int, and not as Bool\n    variable y : Bool = True\n    hint: a type can't") as caught:
            desk.variable("y : Bool = True")
        self.assertEqual((caught.exception.declared, caught.exception.wanted), ("Int", "Bool"))
        self.assert_refused(lambda: desk.variable(""), "EndOfText")
        self.assert_refused(lambda: desk.variable("z : Int = w"), "Unknown", 10)
        self.assert_is(desk.store()[1:], [cell(1, "y", "Int", 2, 0)])

    def test_of_a_program_without_declare(self):
        lines = ["while read word rest; do", "case $word in tvar) echo refused Late;; *) echo refused Command;; esac", "done"]
        with Desk(self.stand_in(*lines)) as desk:
            self.assert_refused(lambda: desk.variable("y : Int = 1"), "Late")
            self.assert_refused(lambda: desk.declare("y : Int = 1"), "Command")


@needs_process("it has no journal")
class Journals(InThreads):
    def setUp(self):
        super().setUp()
        folder = tempfile.TemporaryDirectory()
        self.addCleanup(folder.cleanup)
        self.path = pathlib.Path(folder.name) / "desk"

    def head(self):
        return self.path.read_text().partition("\n")[0]

    def test_a_new_release(self):
        with new_desk(journal=self.path) as desk:
            desk.tvar("waiting : Int = 3")
            desk.submit("do { n <- readTVar waiting; writeTVar waiting (n - 1) }")
            self.assertEqual(self.head(), '{"format":3,"vars":1}')
        with new_desk(journal=self.path) as desk:
            self.assert_is([desk.variable("waiting : Int = 3"), desk.variable("failed : Int = 0")], [Ref(0, "waiting"), Ref(1, "failed")])
            self.assertEqual(self.head(), '{"format":5,"vars":1}')
            self.assert_is(desk.submit("do { n <- readTVar failed; writeTVar failed (n + 1) }"), 2)
            self.assert_is(desk.orphans(), [1])
            self.assert_is(desk.settle(), Settled(2, 2))
            store = desk.store()
            self.assert_is(store, [cell(0, "waiting", "Int", 2, 1), cell(1, "failed", "Int", 1, 1)])
            self.assertTrue(check(self.path, program=program))
        with new_desk(journal=self.path) as desk:
            self.assert_is((desk.is_resumed, desk.store()), (True, store))
            self.assert_is(desk.variable("failed : Int = 9"), Ref(1, "failed"))
            with self.assertRaisesRegex(Refused, "hint: the journal has it already, as `failed : Int`"):
                desk.tvar("failed : Bool = True")
            with self.assertRaisesRegex(Refused, "`declare` declares another one"):
                desk.tvar("other : Bool = True")
            self.assert_refused(lambda: desk.declare("failed : Bool = True"), "Twice")

    def test_a_value_of_another_type_is_carried_over(self):
        with new_desk(journal=self.path) as desk:
            desk.variable("price : Int = 3")
            desk.atomically("writeTVar price 0")
        with new_desk(journal=self.path) as desk:
            desk.variable("price : Int = 3")
            desk.variable("is_free : Bool = False")
            desk.atomically("do { a <- readTVar price; writeTVar is_free (a == 0) }")
            self.assert_is((desk.value("price"), desk.value("is_free")), (0, True))

    def test_after_a_kill(self):
        with new_desk(journal=self.path) as desk:
            desk.tvar("x : Int = 1")
            desk.submit("retry")
            desk.declare("y : Int = 2")
            with self.assertRaises(ZeroDivisionError), desk:
                os.kill(desk.pid, 9)
                raise ZeroDivisionError
        with new_desk(journal=self.path) as desk:
            self.assert_is([it.name for it in desk.store()], ["x", "y"])
            self.assert_is(desk.events(2), [Declaration(2, 0, "y", "Int", 2)])
            desk.checkpoint()
            self.assert_is(desk.declare("z : Int = 3"), Ref(2, "z"))
        with new_desk(journal=self.path) as desk:
            self.assert_is([it.name for it in desk.store()], ["x", "y", "z"])

    def test_while_blocks_of_atomically_wait(self):
        with new_desk(journal=self.path) as desk:
            desk.tvar("x : Int = 1")
            (waiting,) = self.waiting(desk, waits_for(3))
            self.assert_is(desk.declare("y : Int = 2"), Y)
            self.assert_is(desk.atomically("do { a <- readTVar y; writeTVar x (a + 1) }"), None)
            self.assert_is(waiting.result(), 3)
            with desk.batch() as batch:
                answer = batch.atomically("retry")
            self.assertIsInstance(answer.result(), Waiting)
            self.assert_is(desk.atomically(INCREMENT), 3)
