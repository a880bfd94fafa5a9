"""`check` and `explore`."""

import concurrent.futures
import ctypes
import pathlib
import pickle
import signal
import subprocess
import tempfile
import time
from functools import partial
from types import SimpleNamespace
from unittest import mock

from stmdesk import (
    BadAnswer, ClientAt, Ended, FinalCell, LineWarning, OutOfMemory, Ref, ScriptRefused, TraceStep, _stateless, check, explore,
)  # fmt: skip
from tests.common import SECONDS, X, OnProgram, library, needs_library, needs_process, program

LOST = """\
tvar ready : Bool = False
-- tvar no : Int = 1
\ttvar\tasleep : Bool = False
client
submit do { r <- readTVar ready; if r then return () else writeTVar asleep True }
finish 1
submit do { a <- readTVar asleep; if a then retry else return () }
finish 2
client
submit writeTVar ready True
finish 1
expect ready True
"""


CHECKED = '''{"format":3,"vars":1}
{"init":1,"name":"x","type":"Int"}
{"block":"readTVar x","client":0,"event":"submitted","ticket":1}
'''


def without_a_desk():
    """The options of `check` and `explore` by which the program or the library is called."""
    return {"local": True, "library": library} if library else {"program": program}


class Checks(OnProgram):
    def check(self, text, **options):
        with tempfile.TemporaryDirectory() as folder:
            file = pathlib.Path(folder) / "history"
            file.write_bytes(text.encode())
            return check(file, **{**without_a_desk(), **options})

    def assert_checked(self, found, finding, events=None, line=None, expected=None, refused=None):
        got = (found.finding, found.events, found.line, found.expected, found.refused)
        self.assert_is(got, (finding, events, line, expected, refused))
        self.assertIs(bool(found), finding == "legal")
        self.assertTrue(str(found).startswith(finding))

    def test_findings(self):
        for why in (False, True)[: 1 if library else 2]:
            self.assert_checked(self.check(CHECKED, why=why), "legal", 1)
        for text, finding, line in ((CHECKED + "{}\n", "bad line", 4), (CHECKED.replace(":1}\n{", ":0}\n{"), "bad line", 2)):
            self.assert_checked(self.check(text), finding, None, line)
        self.assert_checked(self.check(""), "bad header", None, 1 if library else None)
        self.assert_checked(self.check(CHECKED.replace('"ticket":1', '"ticket":2')), "not legal", None, 3)

    @needs_process("`why`")
    def test_reasons(self):
        *head, event = CHECKED.splitlines()
        self.assert_checked(self.check(CHECKED.replace('"ticket":1', '"ticket":2'), why=True), "not legal", None, 3, event)
        self.assert_checked(self.check(CHECKED.replace(",", ", "), why=True), "bad header", None, 1, head[0])
        self.assert_checked(self.check(CHECKED.replace("Int", "int"), why=True), "bad header", None, 2)
        cancelled = '{"client":0,"event":"cancelled","ticket":2}\n'
        self.assert_checked(self.check(CHECKED + cancelled, why=True), "not legal", None, 4, refused="NoTicket")

    def test_a_file_that_cannot_be_read(self):
        with self.assertRaises(FileNotFoundError):
            check("/no/such/file", **without_a_desk())

    def test_wrong_options(self):
        for options in ({"program": program}, {"why": True}):
            with self.assertRaisesRegex(ValueError, f"{[*options][0]}=.* local=True"):
                check("/no/such/file", local=True, **options)
        with self.assertRaisesRegex(ValueError, "library='x' goes with local=True"):
            check("/no/such/file", library="x")

    @needs_library
    def test_the_line_of_a_bad_header(self):
        self.assert_checked(self.check(CHECKED.replace("Int", "int")), "bad header", None, 2)
        self.assertEqual(str(self.check("")), "bad header")

    @needs_process("a program that stands in")
    def test_a_program_that_fails(self):
        for command, status in {"exit 4": 4, "exit 1": 1, "kill -9 $$": -9}.items():
            with self.assertRaises(Ended) as caught:
                self.check(CHECKED, program=self.stand_in(command))
            self.assertEqual(caught.exception.status, status)

    @needs_process("a program that stands in")
    def test_answers_that_no_stmdesk_gives(self):
        reason = "not legal 3\\nunreadable\\n"
        for why, answer, status in (
            *((False, it, 3) for it in ("", "legal 1 events\\n", "not legal\\n", "bad line 3", reason)),
            *((True, it, 3) for it in ("not legal 3\\n", "not legal 3\\nexpected \\n", "not legal 3\\nwrong\\n")),
            (True, reason, 0),
        ):
            with self.subTest(answer=answer), self.assertRaises(BadAnswer):
                self.check(CHECKED, why=why, program=self.stand_in(f"printf '{answer}'; exit {status}"))


class Explorations(OnProgram):
    def explore(self, script, **options):
        return explore(script, **without_a_desk(), **options)

    def assert_found(self, found, states, steps, ended, outcome, line=None, order=None, clients=()):
        """What was found, without the stores."""
        got = (found.states, found.steps, found.ended, found.outcome, found.line, found.order, found.clients)
        self.assert_is(got, (states, steps, ended, outcome, line, order, list(clients)))
        self.assertIs(bool(found), outcome == "right")
        self.assertIn(outcome, str(found))

    def test_right(self):
        client = "client\nsubmit do { a <- readTVar x; writeTVar x (a + 1) }\nfinish 1\n"
        found = self.explore("tvar x : Int = 0\n" + client * 2)
        self.assert_found(found, 4, 4, 1, "right")
        self.assert_is(found.stores, [[FinalCell(X, "x", "Int", 2)]])
        self.assertEqual(str(found), "states 4 steps 4\nended 1\n#0 x : Int = 2\ncells 1\nright")
        self.assertIs(found.history(), None)

    def test_no_variables_and_no_steps(self):
        found = self.explore("client")
        self.assert_found(found, 1, 0, 1, "right")
        self.assert_is(found.stores, [[]])

    def test_deadlock(self):
        found = self.explore(LOST)
        # One state after no step, two after one, three after two, and three after three, of which the first is the deadlock.
        where = [ClientAt(0, 8, "waits", {Ref(1, "asleep"): True})]
        self.assert_found(found, 9, 9, 0, "deadlock", None, (0, 1, 1), where)
        self.assert_is(found.stores, [])

    def test_a_deadlock_at_once(self):
        found = self.explore("client\nsubmit retry\nfinish 1\nclient\n")
        self.assert_found(found, 1, 0, 0, "deadlock", None, (), [ClientAt(0, 3, "waits", {})])

    def test_broken(self):
        never = "tvar x : Int = 0\nnever do { a <- readTVar x; if a == 5 then return () else retry }\n"
        found = self.explore(never + "client\nsubmit writeTVar x 5\nfinish 1\nclient\nsubmit readTVar x\nfinish 1")
        self.assert_found(found, 3, 2, 0, "broken", 2, (0,), [ClientAt(1, 8, "ready", {})])

    def test_missed(self):
        found = self.explore("tvar x : Int = 0\nclient\nexpect x 1\n")
        self.assert_found(found, 1, 0, 0, "missed", 3, (), [ClientAt(0, 3, "ready", {})])

    def test_threw(self):
        script = "tvar x : Int = 0\nclient\nsubmit writeTVar x 1\nfinish 1\nclient\n"
        script += "submit do { a <- readTVar x; if a == 1 then throw 5 else return () }\nfinish 1\n"
        found = self.explore(script)
        self.assert_found(found, 3, 2, 0, "threw", 7, (0,), [ClientAt(1, 7, "ready", {})])
        self.assertIn('"throws":5', found.history())
        self.assert_found(self.explore(script, allow_throws=True), 4, 4, 1, "right")
        self.assert_found(self.explore(script + "throws 1\n"), 4, 4, 1, "right")

    def test_failed(self):
        script = "tvar x : Int = 0\nclient\nsubmit writeTVar x 1\nfinish 1\nclient\nassert do { a <- readTVar x; return (a == 0) }\n"
        found = self.explore(script)
        self.assert_found(found, 3, 2, 0, "failed", 6, (0,), [ClientAt(1, 6, "fails", {})])
        self.assert_found(self.explore("client\nassert throw 1\n", allow_throws=True), 1, 0, 0, "failed", 2, (), [ClientAt(0, 2, "fails", {})])

    def test_an_assertion_that_waits(self):
        found = self.explore("tvar x : Int = 0\nclient\nassert do { a <- readTVar x; if a == 0 then retry else return True }\n")
        self.assert_found(found, 1, 0, 0, "deadlock", None, (), [ClientAt(0, 3, "waits", {X: 0})])

    def test_stuck(self):
        step = "submit do { f <- readTVar free; if f then writeTVar free False else retry }\nfinish 1\nrepeat\n"
        clock = "client\nsubmit do { t <- readTVar tick; writeTVar tick (t == False) }\nfinish 1\nrepeat\n"
        script = "tvar free : Bool = True\ntvar tick : Bool = False\nclient\n" + step + clock
        self.assert_found(self.explore(script, all=True), 4, 6, 0, "right")
        found = self.explore(script, progress=True)
        where = [ClientAt(0, 5, "waits", {Ref(0, "free"): False}), ClientAt(1, 9, "ready", {})]
        self.assert_found(found, 4, 6, 0, "stuck", None, (0,), where)
        self.assert_is(found.client, 0)
        self.assertIn("stuck client 0\n", str(found))
        self.assert_is(found.trace()[0].client, 0)
        self.assertIn('"event":"finished"', found.history())
        self.assert_is(pickle.loads(pickle.dumps(found)), found)

    def test_never_reached(self):
        script = "tvar x : Int = 0\neventually do { a <- readTVar x; return (a == %d) }\nclient\nsubmit writeTVar x 1\nfinish 1\n"
        self.assert_found(self.explore(script % 1), 2, 1, 1, "right")
        self.assert_found(self.explore(script % 0), 2, 1, 1, "never reached", 2, (0,), [])
        self.assert_found(self.explore(script % 2, progress=True), 2, 1, 1, "never reached", 2, (), [ClientAt(0, 5, "ready", {})])
        self.assert_found(self.explore(script % 1, max_states=1), 1, 0, 0, "incomplete")
        self.assertIsNone(self.explore(script % 0).client)

    def test_warnings(self):
        submit = "submit do { a <- readTVar x; writeTVar x (a + 1) }\n"
        invariants = "always do { a <- readTVar x; return (a < 9) }\nnever do { b <- readTVar y; if b == 1 then return () else retry }\n"
        found = self.explore("tvar x : Int = 0\ntvar y : Int = 0\n" + invariants + "client\n" + submit * 3 + "cancel 2\nfinish 1\nfinish 1\nfinish 2")
        self.assertTrue(found)
        no_step = "this `finish` is no step, since an earlier line finishes or cancels the block"
        wanted = [
            (4, "no step names a variable of this invariant"),
            (8, "no `finish` and no `cancel` names this block"),
            (11, no_step),
            (12, no_step),
        ]
        self.assert_is(found.warnings, [LineWarning(*it) for it in wanted])
        self.assertNotIn("warning", str(found))
        self.assert_is(self.explore("client\nsubmit retry\nfinish 1\nsubmit retry\n").warnings, [])
        held = "tvar x : Int = 0\ntvar r : TVar Int = x\nalways do { a <- readTVar x; return (a < 9) }\n"
        step = "client\nsubmit do { at <- readTVar r; writeTVar at 1 }\nfinish 1\n"
        self.assert_is(self.explore(held + step).warnings, [])
        self.assert_is(self.explore(held + step.replace("finish", "cancel")).warnings, [LineWarning(3, wanted[0][1])])
        throwing, never = "client\nsubmit throw 1\nthrows 1\nfinish 1\n", "the block of this `finish` commits in no reachable state"
        self.assert_is(self.explore(throwing).warnings, [])
        self.assert_is(self.explore(throwing, all=True).warnings, [LineWarning(4, never)])
        self.assert_is(self.explore(throwing, progress=True).warnings, [LineWarning(4, never)])
        self.assert_is(self.explore("eventually return True\n" + throwing).warnings, [LineWarning(1, "no step names a variable of this goal"), LineWarning(5, never)])

    def test_choices(self):
        script = "tvar b : Bool = False\ntvar r : TVar Bool = b\ntvar n : Int = 0\nclient\nchoose n 4 (-5)\nchoose b True\nchoose r b\n"
        self.assert_found(self.explore(script), 7, 6, 2, "right")
        found = self.explore(script + "assert do { m <- readTVar n; return (0 < m) }\n")
        self.assert_found(found, 8, 7, 0, "failed", 8, (0, 0, 0), [ClientAt(0, 8, "fails", {})])
        self.assert_is(found.choices, [(5, -5), (6, True), (7, Ref(0, "b"))])

    def test_incomplete(self):
        script = "tvar x : Int = 0\nclient\nsubmit writeTVar x 1\nfinish 1\n"
        found = self.explore(script, max_states=1)
        self.assert_found(found, 1, 0, 0, "incomplete")
        self.assertIs(found.history(), None)
        self.assert_found(self.explore(script, max_states=2), 2, 1, 1, "right")

    def test_all_states(self):
        variables = "".join(f"tvar {name} : Int = 0\n" for name in ("x", "y"))
        clients = "".join(f"client\nsubmit writeTVar {name} 1\nfinish 1\n" for name in ("x", "y"))
        fewer, found = self.explore(variables + clients), self.explore(variables + clients, all=True)
        self.assert_found(found, 4, 4, 1, "right")
        self.assertTrue(fewer)
        self.assertLess(fewer.states, found.states)
        self.assert_is((fewer.ended, fewer.stores), (found.ended, found.stores))
        lost = self.explore(LOST, all=True)
        self.assert_is(lost.order, self.explore(LOST).order)
        self.assertEqual(lost.history(), self.explore(LOST).history())

    def test_equal_clients(self):
        lines = "submit do { a <- readTVar x; writeTVar x (a + 1) }\nfinish 1\nassert do { a <- readTVar x; return (a < 3) }\n"
        found = self.explore("tvar x : Int = 0\nclient 3\n" + lines)
        self.assert_is((found.outcome, found.line, found.order), ("failed", 5, (0, 1, 2)))
        self.assert_is([(it.client, it.line, it.what) for it in found.clients], [(it, 5, "fails") for it in range(3)])
        written_out = self.explore("tvar x : Int = 0\n" + ("client\n" + lines) * 3)
        self.assert_is((written_out.outcome, written_out.order), (found.outcome, found.order))

    def test_values(self):
        declared = ("x : Int = (-7)", "r : TVar Int = x", "deep : TVar (TVar Int) = r", "flag : Bool = True", "u : () = ()")
        lines = [*(f"tvar {it}" for it in declared), "client", "submit do { n <- newTVar 5; writeTVar r n }", "finish 1"]
        (store,) = self.explore("\n".join(lines)).stores
        self.assert_is(
            store,
            [
                FinalCell(X, "x", "Int", -7),
                FinalCell(Ref(1, "r"), "r", "TVar Int", Ref(5)),
                FinalCell(Ref(2, "deep"), "deep", "TVar (TVar Int)", Ref(1, "r")),
                FinalCell(Ref(3, "flag"), "flag", "Bool", True),
                FinalCell(Ref(4, "u"), "u", "()", None),
                FinalCell(Ref(5), None, "Int", 5),
            ],
        )
        self.assert_is([store["deep"].value, store[Ref(5)].value], [Ref(1, "r"), 5])
        self.assert_is([store.get("y"), "y" in store, Ref(6) in store], [None, False, False])

    def test_histories(self):
        for script, events in ((LOST, 8), ("tvar x : Int = 0\nclient\nexpect x 1\n", 0)):
            history = self.explore(script).history()
            done = subprocess.run([program, "check"], input=history, stdout=subprocess.PIPE, text=True, timeout=SECONDS)
            self.assertEqual(done.stdout, f"legal {events} events\n")

    def test_traces(self):
        script = "tvar x : Int = 0\nclient\nexpect x 0\nchoose x (-1) 1\nassert return True\nsubmit throw 4\nfinish 1\nthrows 1\n"
        script += "submit do { n <- newTVar 7; writeTVar x 3; return n }\nfinish 2\n"
        found, done = self.explore(script + "expect x 1\n"), "do { n <- newTVar 7; writeTVar x 3; return n } writes #0=3 news 7"
        self.assert_is((found.outcome, found.line), ("missed", 11))
        steps = [(3, "expect #0=0"), (4, "chooses x (-1)"), (5, "assert return True"), (7, "throw 4 throws 4"), (10, done)]
        self.assert_is(found.trace(), [TraceStep(number, 0, *it) for number, it in enumerate(steps, 1)])
        self.assert_is(pickle.loads(pickle.dumps(found)).trace(), found.trace())
        self.assert_is(self.explore("tvar x : Int = 0\nclient\nexpect x 1\n").trace(), [])
        self.assertIs(self.explore(script).trace(), None)
        self.assertIs(self.explore(script, max_states=1).trace(), None)
        lost = self.explore(LOST)
        self.assertEqual(tuple(it.client for it in lost.trace()), lost.order)
        thrown = script.replace("throws 1\n", "") + "expect x 1\n"
        self.assert_is(self.explore(thrown).trace()[2:], [TraceStep(3, 0, 5, "assert return True")])
        self.assert_is(self.explore(thrown, allow_throws=True, all=True).trace()[3:4], [TraceStep(4, 0, 7, "throw 4 throws 4")])

    @needs_process("a program that stands in")
    def test_a_program_without_traces(self):
        answer = "states 2 steps 1\\nended 0\\ndeadlock\\norder 1\\n"
        another = f"printf '{answer}step 1 client 0 line 3 x\\n'"
        ends = [("echo no >&2; exit 2", Ended, "status 2: no"), (another, BadAnswer, "step 1"), ("true", Ended, "status 3")]
        for said, error, regex in ends:
            old = self.stand_in(f"case $* in *--trace) {said};; *) printf '{answer}';; esac; exit 3")
            with self.assertRaisesRegex(error, regex):
                explore("client", program=old).trace()

    @needs_library
    def test_a_library_without_traces(self):
        functions, found = _stateless._load(library), self.explore(LOST)

        def explored(script, length, options, *more):
            options._obj.trace = False
            return functions.explore(script, length, options, *more)

        with mock.patch.object(_stateless, "_load", lambda path: functions._replace(explore=explored)), self.assertRaises(BadAnswer):
            found.trace()

    def test_a_refused_line(self):
        scripts = {
            "tvar x : Int = 0\r\n\n  client  \n\tsubmit return a + 1 \r\n": (4, "submit return a + 1", "Unexpected", 9),
            "": (1, "", "no client", None),
            "tvar x : Int = 0\n": (2, "", "no client", None),
            "client\nstore": (2, "store", "Command", None),
            "-- \xe4\nclient\nfinish 1 -- \xe4": (3, "finish 1 -- \xe4", "NotAscii", None),
        }
        for script, wanted in scripts.items():
            with self.assertRaises(ScriptRefused) as caught:
                self.explore(script)
            refused = pickle.loads(pickle.dumps(caught.exception))
            self.assertEqual((refused.line, refused.text, refused.reason, refused.place), wanted)
            self.assertEqual(str(refused), str(caught.exception))
            self.assertIn(f"line {wanted[0]}", str(refused))
            self.assertIn(wanted[1], str(refused))

    def test_why_a_line_is_refused(self):
        x = "tvar x : Int = 0\ntvar ready : Bool = False\n"
        refusals = {
            "client\n  submit   do { a <- readTVar x; writeTVar y (a + 1) }\n": (
                "line 4 of the script is refused: Unknown 32",
                "submit do { a <- readTVar x; writeTVar y (a + 1) }",
                39 * " " + "^",
                "hint: nothing of this name is declared; the names here are a, ready, x",
            ),
            "client\nsubmit writeTVar ready 1\n": (
                "line 4 of the script is refused: Mismatch 16",
                "submit writeTVar ready 1",
                23 * " " + "^",
                "hint: `ready` holds Bool",
            ),
            "always do { a <- readTVar x; a >= 0 }\nclient": (
                "line 3 of the script is refused: BadByte 24",
                "always do { a <- readTVar x; a >= 0 }",
                31 * " " + "^",
                "hint: there is no `>=`: write `0 <= a`",
            ),
            "client\nassert readTVar x\n": (
                "line 4 of the script is refused: Mismatch 0",
                "assert readTVar x",
                7 * " " + "^",
                "hint: the block of an `assert` returns a Bool",
            ),
            "eventually readTVar x\nclient\n": (
                "line 3 of the script is refused: Mismatch 0",
                "eventually readTVar x",
                11 * " " + "^",
                "hint: the block of an `eventually` returns a Bool",
            ),
            "client\nsubmit retry\nthrows 2\n": (
                "line 5 of the script is refused: Argument",
                "throws 2",
                "hint: `throws` takes the number of a `submit` above it in its section, counted from 1",
            ),
            "client\nchoose x 1 1\n": (
                "line 4 of the script is refused: Argument",
                "choose x 1 1",
                "hint: `choose` takes a declared variable and 1 to 16 values of its type, parted by blanks, no two the same",
            ),
            "client\nsubmit retry\nrepeat\n": (
                "line 5 of the script is refused: Argument",
                "repeat",
                "hint: `repeat` stands alone, at the end of a section with a step: a `finish`, an `expect`, an `assert` or a `choose`",
            ),
            "client\nexpect x 0\nrepeat\nexpect x 0\n": (
                "line 6 of the script is refused: Late",
                "expect x 0",
                "hint: `repeat` is the last line of its section",
            ),
            "client 65\n": (
                "line 3 of the script is refused: Argument",
                "client 65",
                "hint: `client` takes nothing, or how many clients do the same: a number from 1 to 64",
            ),
            "client 64\nclient\n": ("line 4 of the script is refused: ClientsFull", "client", "hint: a script has at most 64 clients"),
            "client\ntvar y : Int = 0\n": (
                "line 4 of the script is refused: Late",
                "tvar y : Int = 0",
                "hint: write variables and invariants above the first `client`",
            ),
            "client\n  -- a note\n": (
                "line 4 of the script is refused: Command",
                "-- a note",
                "hint: a comment is a line that begins with `--`, and no blank comes before that",
            ),
            "# a note\nclient\n": (
                "line 3 of the script is refused: Command",
                "# a note",
                "hint: a comment is a line that begins with `--`, and no blank comes before that",
            ),
            "client\nsumbit writeTVar x 1\n": (
                "line 4 of the script is refused: Command",
                "sumbit writeTVar x 1",
                "hint: no line of a script begins with `sumbit`; did you mean `submit`?",
            ),
            "invariant do { a <- readTVar x; return (a == 0) }\nclient\n": (
                "line 3 of the script is refused: Command",
                "invariant do { a <- readTVar x; return (a == 0) }",
                "hint: write `always BLOCK`",
            ),
            "frob\n": (
                "line 3 of the script is refused: Command",
                "frob",
                "hint: no line of a script begins with this word: the words are tvar, always, never, eventually, client, submit, finish, "
                "throws, cancel, expect, assert, choose, repeat",
            ),
            "always x == 0\nclient\n": (
                "line 3 of the script is refused: Unexpected 0",
                "always x == 0",
                7 * " " + "^",
                "hint: `always` takes a block, as `always do { a <- readTVar x; return (a == 1) }`",
            ),
            "never x == 0\nclient\n": (
                "line 3 of the script is refused: Unexpected 0",
                "never x == 0",
                6 * " " + "^",
                "hint: `never` takes a block, as `never do { a <- readTVar x; if a == 1 then return () else retry }`",
            ),
            "client\nexpect x == 1\n": (
                "line 4 of the script is refused: Unexpected 2",
                "expect x == 1",
                9 * " " + "^",
                "hint: `expect` takes a variable and its value, as `expect x 1`",
            ),
            "client\nchoose x 2 -1\n": (
                "line 4 of the script is refused: Argument",
                "choose x 2 -1",
                "hint: a negative number needs brackets: write `(-1)`",
            ),
            "client\nexpect x -1\n": (
                "line 4 of the script is refused: Unexpected 2",
                "expect x -1",
                9 * " " + "^",
                "hint: a negative number needs brackets: write `(-1)`",
            ),
            "client\nawait x == 1\n": (
                "line 4 of the script is refused: Command",
                "await x == 1",
                "hint: a block waits by `retry`: `submit do { a <- readTVar x; if a == 1 then return () else retry }`",
            ),
            "client\nsubmit\n  do { writeTVar x 1 }\n": (
                "line 4 of the script is refused: EndOfText",
                "submit",
                7 * " " + "^",
                "hint: the block begins in the line of its `submit`",
            ),
            "client\nsubmit do {\nwriteTVar x 1\n}\n": (
                "line 4 of the script is refused: EndOfText",
                "submit do {",
                11 * " " + "^",
                "hint: the `{` at 3 isn't closed; a block goes on in lines that are indented deeper, while a bracket or brace is open",
            ),
            "client\n  submit do {\n    -- a { note }\n\n    a <- readTVar x;\n    writeTVar x (a > 1)\n  }\n  finish 1\n": (
                "line 4 of the script is refused: BadByte 64",
                "line 8:     writeTVar x (a > 1)",
                27 * " " + "^",
                "hint: there is no `>`: write `1 < a`",
            ),
            "always do { a <- readTVar x; a == 0 }\nclient\n": (
                "line 3 of the script is refused: Unexpected 24",
                "always do { a <- readTVar x; a == 0 }",
                31 * " " + "^",
                "hint: a value is no action: write `return (a == 0)`",
            ),
            "": ("the script is refused at its end, line 3: no client", "hint: what a client does begins with a line `client`"),
        }
        for script, wanted in refusals.items():
            with self.assertRaises(ScriptRefused) as caught:
                self.explore(x + script)
            self.assertEqual(str(caught.exception).split("\n    "), list(wanted))

    @needs_process("a program that stands in")
    def test_a_refusal_without_a_reason(self):
        with self.assertRaises(ScriptRefused) as caught:
            explore("client\nfrob", program=self.stand_in("echo stmdesk: script line 2 >&2; exit 1"))
        self.assertEqual((caught.exception.reason, str(caught.exception)), ("", "line 2 of the script is refused\n    frob"))

    def test_wrong_arguments(self):
        for script in (None, b"client", ["client"]):
            with self.assertRaises(TypeError):
                self.explore(script)
        for most in ("5", 1.5):
            with self.assertRaises(TypeError):
                self.explore("client", max_states=most)
        said = (ValueError, "max_states={} isn't from 1 to 4294967295") if library else (Ended, "status 2: error: invalid value '{}'")
        for most in (0, 1 << 32):
            with self.assertRaisesRegex(said[0], said[1].format(most)):
                self.explore("client", max_states=most)
        with self.assertRaises(FileNotFoundError):
            explore("client", program="/no/such/program", all=True)
        with self.assertRaisesRegex(ValueError, "program=.* local=True"):
            explore("client", program=program, local=True)
        with self.assertRaisesRegex(ValueError, "library='x' goes with local=True"):
            explore("client", library="x")

    def test_full_pipes(self):
        lines = [f"tvar v{n} : Int = 0" for n in range(20_000)]
        client = "client\nsubmit do {{ a <- readTVar v0; writeTVar v0 (2 * a + {}) }}\nfinish 1"
        found = self.explore("\n".join([*lines, *(client.format(n) for n in range(4))]))
        self.assertEqual([len(it) for it in found.stores], [20_000] * len(found.stores))
        self.assertEqual((found.stores[0]["v19999"].value, bool(found), len(found.stores)), (0, True, min(10, found.ended)))

    def test_a_found_one_is_pickled(self):
        found = self.explore(LOST)
        self.assert_is(pickle.loads(pickle.dumps(found)), found)
        self.assertEqual(pickle.loads(pickle.dumps(found)).history(), found.history())

    @needs_process("a program that stands in")
    def test_of_a_full_store(self):
        answer = "states 2 steps 1\\nended 0\\ndeadlock\\norder 1\\nclient 0 line 3 refused CellsFull\\n"
        found = explore("client", program=self.stand_in(f"printf '{answer}'; exit 3"))
        self.assert_found(found, 2, 1, 0, "deadlock", None, (1,), [ClientAt(0, 3, "refused", {})])

    @needs_process("a program that stands in")
    def test_a_program_that_fails(self):
        ends = {"exit 4": (4, ""), "echo no memory >&2; exit 4": (4, "no memory"), "kill -9 $$": (-9, ""), "exit 1": (1, "")}
        for command, wanted in ends.items():
            with self.assertRaises(Ended) as caught:
                explore("client", program=self.stand_in(command))
            self.assertEqual((caught.exception.status, caught.exception.said), wanted)
        answer = "states 1 steps 0\\nended 0\\ndeadlock\\norder none\\n"
        full = self.stand_in(f"case $* in *--history) echo full >&2;; *) printf '{answer}';; esac; exit 3")
        with self.assertRaisesRegex(Ended, "status 3: full"):
            explore("client", program=full).history()

    @needs_process("a program that stands in")
    def test_answers_that_no_stmdesk_gives(self):
        head, fault = "states 1 steps 0\\nended 0\\n", "deadlock\\norder 0\\n"
        ends = ["", "wrong\\n", "right\\n", "broken\\norder 0\\n", "deadlock line 1\\norder 0\\n", "deadlock\\n", "deadlock\\norder\\n"]
        ends += ["threw\\norder 0\\n", "failed\\norder 0\\n", "thrown line 1\\norder 0\\n", fault + "client 0 line 1 fails x\\n"]
        ends += ["deadlock\\norder x\\n", "incomplete\\nmore\\n", "cells 1\\nincomplete\\n", "#0 x\\ncells 1\\nincomplete\\n"]
        ends += [fault + it for it in ("client 0\\n", "client 0 line 1 waits\\n", "client 0 line 1 waits x\\n", "client 0 line 1 ready x\\n")]
        answers = ["", "hello\\n", *(head + it for it in ends)]
        for answer in answers:
            with self.subTest(answer=answer), self.assertRaises(BadAnswer):
                explore("client", program=self.stand_in(f"printf '{answer}'; exit 3"))
        with self.assertRaises(BadAnswer):
            explore("client", program=self.stand_in(f"printf '{head}incomplete\\n'"))

    @needs_process("a program that stands in")
    def test_it_is_broken_off(self):
        with tempfile.TemporaryDirectory() as folder:
            number = pathlib.Path(folder) / "number"
            silent = self.stand_in(f"echo $$ >{number}.new; mv {number}.new {number}; sleep 1000 & wait")

            def stop(signum, frame):
                while not number.exists():
                    time.sleep(0.01)
                raise KeyboardInterrupt

            signal.signal(signal.SIGALRM, stop)
            signal.setitimer(signal.ITIMER_REAL, 0.1)
            with self.assertRaises(KeyboardInterrupt):
                explore("client", program=silent)
            self.assert_gone(int(number.read_text()))

    @needs_library
    def test_no_memory(self):
        """Of the library: the call that had none says so, and there is no text to be freed."""
        functions = _stateless._load(library)
        for call, name in ((partial(self.explore, LOST), "explore"), (partial(check, __file__, **without_a_desk()), "check")):
            refused = functions._replace(**{name: lambda *given: 2})
            with mock.patch.object(_stateless, "_load", lambda path: refused), self.assertRaisesRegex(OutOfMemory, "for an? (check|exploration)"):
                call()

    @needs_library
    def test_statuses_that_are_not_known(self):
        functions = _stateless._load(library)
        odd = functions._replace(check=lambda *given: 99, explore=lambda *given: functions.explore(*given) or 99)
        with mock.patch.object(_stateless, "_load", lambda path: odd):
            for call in (partial(self.explore, "client"), partial(check, __file__, **without_a_desk())):
                with self.assertRaisesRegex(BadAnswer, "status 99"):
                    call()

    def older_library(self):
        """The functions of the library, as of one up to version 0.25.0, which has no diagnostics."""
        functions, loaded = _stateless._load(library), ctypes.CDLL(library)
        names = ("stmdesk_check", "stmdesk_explore", "stmdesk_feed", "stmdesk_free")
        older = SimpleNamespace(**{name: getattr(loaded, name) for name in names})
        with mock.patch.object(ctypes, "CDLL", lambda path: older):
            older = _stateless._load.__wrapped__(library)
        self.assertIsNot(older.explore, functions.explore)
        return older

    @needs_library
    def test_a_library_without_diagnostics(self):
        idle = "client\nsubmit retry\n"
        self.assert_is(len(self.explore(idle).warnings), 1)
        older = self.older_library()
        with mock.patch.object(_stateless, "_load", lambda path: older):
            self.assert_is((self.explore(idle).warnings, str(self.explore(idle))), ([], "states 1 steps 0\nended 1\ncells 0\nright"))
            with self.assertRaises(ScriptRefused) as caught:
                self.explore("client\nfrob")
        self.assertEqual((caught.exception.line, caught.exception.reason), (2, ""))

    @needs_library
    def test_no_room_for_a_history(self):
        found, older = self.explore(LOST), self.older_library()

        def explored(*given):
            self.assertEqual(older.explore(b"client", 6, *given[2:]), 0)  # right, and so with no history
            return 9

        with mock.patch.object(_stateless, "_load", lambda path: older._replace(explore=explored)):
            with self.assertRaisesRegex(Ended, "status 3: stmdesk: the fault has no history"):
                found.history()

    @needs_library
    def test_what_is_no_library(self):
        libc = next(it.split()[-1] for it in open("/proc/self/maps") if "/libc" in it and ".so" in it)
        for call in (partial(explore, "client"), partial(check, __file__)):
            with self.assertRaisesRegex(OSError, "is no library of stmdesk that checks and explores"):
                call(local=True, library=libc)

    def test_in_threads(self):
        with concurrent.futures.ThreadPoolExecutor(8) as pool:
            found = list(pool.map(self.explore, [LOST] * 8))
        self.assertEqual(found, found[:1] * 8)
