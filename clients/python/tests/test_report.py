"""The reports of explorations, and the command that prints them."""

import contextlib
import io
import os
import pathlib
import signal
import subprocess
import sys
import tempfile
import time

from stmdesk import explore, report
from stmdesk._lines import one_line
from tests.common import HERE, REPOSITORY, SECONDS, OnProgram, library, needs_process, program

FORKS = """\
-- two forks
tvar left : Bool = True
tvar right : Bool = True

client
submit do { f <- readTVar left; if f then writeTVar left False else retry }
submit do { f <- readTVar right; if f then writeTVar right False else retry }
finish 1
finish 2
submit do { writeTVar left True; writeTVar right True }
finish 3
client
submit do { f <- readTVar right; if f then writeTVar right False else retry }
finish 1
submit do { f <- readTVar left; if f then writeTVar left False else retry }
finish 2
submit do { writeTVar left True; writeTVar right True }
finish 3
client
submit return 1
finish 1
"""


def without_a_desk():
    return {"local": True, "library": library} if library else {"program": program}


class Reports(OnProgram):
    def report(self, script, **options):
        return explore(script, **without_a_desk(), **options).report()

    def assert_report(self, script, *lines, **options):
        self.assertEqual(self.report(script, **options).split("\n"), [*lines, ""])

    def test_deadlock(self):
        self.assert_report(
            FORKS,
            "deadlock: no client can do its next step, and not all are at their end",
            "  at first: left = True, right = True",
            "   1  client 0, line 8: do { f <- readTVar left; if f then writeTVar left False else retry }",
            "          left: True -> False",
            "   2  client 1, line 14: do { f <- readTVar right; if f then writeTVar right False else retry }",
            "          right: True -> False",
            "   3  client 2, line 21: return 1",
            "          changes nothing",
            "  at last: left = False, right = False",
            "  client 0, line 9: waits, since it read right = False",
            "      do { f <- readTVar right; if f then writeTVar right False else retry }",
            "  client 1, line 16: waits, since it read left = False",
            "      do { f <- readTVar left; if f then writeTVar left False else retry }",
            "  client 2 is at its end",
        )

    def test_steps_of_every_kind(self):
        script = "tvar n : Int = (-07)\ntvar b : Bool = False\nclient\nexpect b False\nchoose n (-1) 3\nsubmit throw 4\nthrows 1\nfinish 1\n"
        script += "assert do { a <- readTVar n; return (a == 3 || a == (-1)) }\nsubmit writeTVar b False\nfinish 2\n"
        script += "assert do { a <- readTVar n; return (a == 3) }\n"
        self.assert_report(
            script,
            "failed: the assertion of line 12 doesn't hold after this order",
            "  line 12: assert do { a <- readTVar n; return (a == 3) }",
            "  after this order its block returns False",
            "  at first: n = -7, b = False",
            "   1  client 0, line 4: expect b False",
            "   2  client 0, line 5: chooses n = -1",
            "          n: -7 -> -1",
            "   3  client 0, line 8: throw 4",
            "          throws 4",
            "   4  client 0, line 9: assert do { a <- readTVar n; return (a == 3 || a == (-1)) }",
            "   5  client 0, line 11: writeTVar b False",
            "          b stays False",
            "  at last: n = -1, b = False",
            "  client 0, line 12: fails",
            "      assert do { a <- readTVar n; return (a == 3) }",
        )

    def test_new_variables(self):
        script = "tvar x : Int = 1\ntvar r : TVar Int = x\nalways do { at <- readTVar r; a <- readTVar at; return (a < 6) }\nclient 2\n"
        block = "do { n <- newTVar 5; m <- newTVar n; writeTVar r n; at <- readTVar m; a <- readTVar x; writeTVar x (a + 1); writeTVar at (a + 4) }"
        script += f"submit {block}\nfinish 1\n"
        self.assert_report(
            script,
            "broken: the invariant of line 3 doesn't hold after this order",
            "  line 3: always do { at <- readTVar r; a <- readTVar at; return (a < 6) }",
            "  at first: x = 1, r = x",
            f"   1  client 0, line 6: {block}",
            "          x: 1 -> 2",
            "          r: x -> #2",
            "          #2 is new: 5",
            "          #3 is new: #2",
            f"   2  client 1, line 6: {block}",
            "          x: 2 -> 3",
            "          r: #2 -> #4",
            "          #4 is new: 6",
            "          #5 is new: #4",
            "  at last: x = 3, r = #4, #2 = 5, #3 = #2, #4 = 6, #5 = #4",
            "  client 0 is at its end",
            "  client 1 is at its end",
        )

    def test_a_throw_and_a_missed_expectation(self):
        script = "tvar x : Int = 0\nclient\nsubmit do { a <- readTVar x; if a == 1 then throw 5 else return () }\nsubmit writeTVar x 1\nfinish 2\nfinish 1\n"
        lines = self.report(script).split("\n")
        self.assertEqual(lines[0], "threw: after this order the block of the `finish` in line 6 throws, and no `throws` allows it")
        wanted = ["  line 6: finish 1", "      do { a <- readTVar x; if a == 1 then throw 5 else return () }", "  after this order its block throws 5"]
        self.assertEqual(lines[1:4], wanted)
        self.assertEqual(lines[-3:], ["  client 0, line 6: can go on", "      do { a <- readTVar x; if a == 1 then throw 5 else return () }", ""])
        missed = self.report("tvar x : Int = 0\nclient\nexpect x 1\n").split("\n")
        self.assertEqual(missed[:2], ["missed: after this order the variable hasn't the value that line 3 expects", "  line 3: expect x 1"])

    def test_progress(self):
        script = "tvar free : Bool = True\nclient\nsubmit do { f <- readTVar free; if f then writeTVar free False else retry }\nfinish 1\nrepeat\n"
        clock = "client\nassert return True\nrepeat\n"
        found = self.report(script + clock, progress=True)
        self.assertTrue(found.startswith("stuck: after this order client 0 can't ever do its next step, whatever the others do\n"))
        goal = "tvar x : Int = 0\neventually do { a <- readTVar x; return (a == 2) }\nclient\nsubmit writeTVar x 1\nfinish 1\n"
        lines = self.report(goal).split("\n")
        self.assertEqual(lines[0], "never reached: after this order no other one leads to where the goal of line 2 returns True")
        self.assertEqual(lines[1], "  line 2: eventually do { a <- readTVar x; return (a == 2) }")

    def test_a_never_that_cannot_retry(self):
        never = "tvar x : Int = 0\nnever do {{ a <- readTVar x; {} }}\nclient\nsubmit writeTVar x 5\nfinish 1\n"
        for block, is_hinted in (("return (a == 5)", True), ("if a == 5 then return () else retry", False)):
            self.assertEqual("hint: the block of a `never` has to retry" in self.report(never.format(block)), is_hinted)

    def test_what_the_block_of_an_invariant_does(self):
        always = "tvar x : Int = 0\ntvar u : () = ()\ntvar b : Bool = True\nalways do {{ a <- readTVar x; {} }}\nclient\nsubmit writeTVar x (-5)\nfinish 1\n"
        cases = {
            "return (a == 0)": "returns False",
            "return a": "returns 0",  # in the first state
            "if a == 0 then return True else return False": "returns False",
            "if a == 0 then return True else retry": "retries",
            "if a == 0 then return True else throw a": "throws -5",
            "if a == 0 then return True else return (a * 9223372036854775807 == 0)": "throws overflow",
        }
        for block, does in cases.items():
            self.assertIn(f"}}\n  after this order its block {does}\n  at first: x = 0, u = (), b = True\n", self.report(always.format(block)))
        with_reference = self.report("tvar x : Int = 0\ntvar r : TVar Int = x\nalways do { a <- readTVar x; return (a == 1) }\nclient\n")
        self.assertNotIn("its block", with_reference)

    def test_right(self):
        script = "tvar x : Int = 0\nclient\nchoose x 1 2\nsubmit retry\n"
        self.assert_report(
            script,
            "right: no order of the steps leads to a fault",
            "  3 states, 2 of them with every client at its end",
            "  at an end: x = 1",
            "  at an end: x = 2",
            "  warning: line 4: no `finish` and no `cancel` names this block",
            "      submit retry",
        )
        many = "tvar x : Int = 0\nclient\nchoose x 1 2 3 4 5 6 7 8 9 10 11 12\n"
        self.assertTrue(self.report(many).endswith("  .. and 2 more\n"))
        self.assertEqual(self.report("client"), "right: no order of the steps leads to a fault\n  1 state, 1 of them with every client at its end\n")

    def test_right_says_what_it_does_not_say(self):
        """The first client can overtake the second for ever: what is looked for can happen, and nothing says that it will."""
        goal = "eventually do { a <- readTVar x; return (a == 2) }\n"
        turns = "client\nsubmit writeTVar x 1\nfinish 1\nrepeat\nclient\nsubmit writeTVar x 2\nfinish 1\nrepeat\n"
        right = ["right: no order of the steps leads to a fault", "  3 states, 0 of them with every client at its end"]
        reached = "  each goal can still be reached from each state; an unfair or unlucky order may never reach it"
        goes_on = "  each client can still go on from each state where it isn't at its end; an unfair or unlucky order may never let it"
        for has_goal in (False, True):
            for progress in (False, True):
                script = "tvar x : Int = 0\n" + goal * has_goal + turns
                self.assert_report(script, *right, *[reached] * has_goal, *[goes_on] * progress, progress=progress)

    def test_the_block_of_a_step(self):
        """That of its section, of however many blocks it has."""
        script = "tvar x : Int = 0\nclient\nsubmit return 1\nsubmit writeTVar x 1\nfinish 2\nclient\nsubmit return 2\n"
        script += "cancel 1\nsubmit writeTVar x 2\nfinish 2\nexpect x 1\nexpect x 3\n"
        lines = self.report(script).split("\n")
        self.assertIn("   1  client 1, line 10: writeTVar x 2", lines)
        self.assertIn("      writeTVar x 1", [*lines, *self.report(script.replace("expect x 1\n", "")).split("\n")])
        steps = 3000
        script = "tvar x : Int = 0\nclient\n" + "".join(f"submit writeTVar x {it}\nfinish {it}\n" for it in range(1, steps + 1)) + "expect x 0\n"
        lines = self.report(script).split("\n")
        self.assertEqual(lines[-6:-4], [f"{steps:4}  client 0, line {2 * steps + 2}: writeTVar x {steps}", f"          x: {steps - 1} -> {steps}"])

    def test_incomplete(self):
        script = "tvar x : Int = 0\nclient\nsubmit writeTVar x 1\nfinish 1\n"
        self.assertTrue(self.report(script, max_states=1).startswith("incomplete: more states can be reached than may be kept"))

    def test_many_variables(self):
        """Of more than 40 those are shown that a step writes, or that a client which waits has read."""
        script = "".join(f"tvar v{at} : Int = {at}\n" for at in range(100))
        script += "client\nsubmit writeTVar v7 1\nfinish 1\nsubmit do { a <- readTVar v9; retry }\nfinish 2\n"
        lines = self.report(script).split("\n")
        self.assertEqual(lines[1], "  at first: v7 = 7, v9 = 9, and 98 more")
        self.assertEqual(lines[4], "  at last: v7 = 1, v9 = 9, and 98 more")
        ended = self.report("".join(f"tvar v{at} : Int = {at}\n" for at in range(100)) + "client\n").split("\n")
        self.assertTrue(ended[2].startswith("  at an end: v0 = 0, v1 = 1, ") and ended[-2].endswith(" v39 = 39, and 60 more"))
        wide = "".join(f"tvar a_long_name_of_a_variable_{at} : Int = {at}\n" for at in range(9)) + "client\nsubmit retry\nfinish 1\n"
        first = self.report(wide).split("\n")[1:4]
        self.assertTrue(all(len(it) <= 132 for it in first))
        self.assertTrue(first[0].startswith("  at first: a_long_name_of_a_variable_0 = 0, ") and first[1].startswith("      a_long"))


class Lines(OnProgram):
    """Blocks on several lines, which the program reads as one."""

    LAYED_OUT = """\
tvar x : Int = 0
always do {
  a <- readTVar x;
  return (a < 2)
}
client 2
  submit do {
    -- adds 1 } (
    a <- readTVar x;

    writeTVar x (
      a + 1
    )
  }
  finish 1
"""

    def test_what_is_joined(self):
        plain, placed = one_line(self.LAYED_OUT).split("\n"), one_line(self.LAYED_OUT, keeps_places=True).split("\n")
        self.assertEqual(len(plain), len(self.LAYED_OUT.split("\n")))
        self.assertEqual([it.split() for it in plain], [it.split() for it in placed])
        block = "submit do { a <- readTVar x; writeTVar x ( a + 1 ) }"
        said = {1: "tvar x : Int = 0", 2: "always do { a <- readTVar x; return (a < 2) }", 6: "client 2", 7: block, 15: "  finish 1"}
        self.assertEqual({at: it for at, it in enumerate(plain, 1) if it}, said)
        lines = self.LAYED_OUT.split("\n")
        self.assertEqual(placed[6], "\n".join(lines[6:14]).replace("-- adds 1 } (", " " * 13).replace("\n", " "))
        strange = "\x0b\x0c\x1c\x85\xa0\u2028"  # blanks of Python, and none of the program
        self.assertEqual(one_line(f"a {{\n {strange} \t b }}"), f"a {{ {strange} b }}\n")
        for text in ("", "\n", "client\nsubmit retry\nfinish 1\n", "-- a { comment\n  client\n", "a {\nb\n", "  a {\n  b\n b }\n", "} )\n  a\n", "a (", "a (\n\n"):
            self.assertEqual(one_line(text), text)
        for text, plain, placed in (("a (\n\n)\nb", "a ( )\n\n\nb", "a (  )\n\n\nb"), ("\ta {\r\n\t\tb\r\n}\r\nc", "a { b }\n\n\nc", "\ta {\r \t\tb\r }\r\n\n\nc")):
            self.assertEqual((one_line(text), one_line(text, keeps_places=True)), (plain, placed))

    def test_what_is_found(self):
        found = explore(self.LAYED_OUT, **without_a_desk())
        self.assertEqual((found.outcome, found.line, found.order), ("broken", 2, (0, 1)))
        self.assertEqual([(it.line, it.text.endswith("writes #0=1")) for it in found.trace()[:1]], [(15, True)])
        self.assertEqual(found.trace()[0].text, "do { a <- readTVar x; writeTVar x ( a + 1 ) } writes #0=1")
        self.assertEqual(found.history().count("finished"), 2)
        self.assertEqual(
            found.report().split("\n")[1:6],
            [
                "  line 2: always do { a <- readTVar x; return (a < 2) }",
                "  after this order its block returns False",
                "  at first: x = 0",
                "   1  client 0, line 15: do { a <- readTVar x; writeTVar x ( a + 1 ) }",
                "          x: 0 -> 1",
            ],
        )


@needs_process("a command")
class Command(OnProgram):
    def ran(self, *words, text=None):
        command = [sys.executable, REPOSITORY / "tools" / "explore", "--program", program, *words]
        return subprocess.run(command, input=text, capture_output=True, text=True, timeout=SECONDS)

    def assert_ran(self, done, status, printed="", said=""):
        self.assertEqual((done.returncode, done.stdout, done.stderr), (status, printed, said))

    def test_statuses(self):
        self.assert_ran(self.ran(text=FORKS), 3, explore(FORKS, program=program).report())
        right = "tvar x : Int = 0\nclient\nsubmit writeTVar x 1\nfinish 1\n"
        self.assert_ran(self.ran("-", text=right), 0, explore(right, program=program).report())
        self.assertEqual(self.ran("--max-states", "1", text=right).returncode, 3)
        self.assertEqual(self.ran("--max-states", "0", text=right).returncode, 2)
        self.assertEqual(self.ran("--wrong", text=right).returncode, 2)
        self.assert_ran(self.ran("/no/such/file"), 1, "", "explore: /no/such/file: No such file or directory\n")
        self.assert_ran(self.ran("/"), 1, "", "explore: /: Is a directory\n")

    def test_options(self):
        throws = "client\nsubmit throw 1\nfinish 1\n"
        self.assertEqual([self.ran(*it, text=throws).returncode for it in ((), ("--allow-throws",))], [3, 0])
        self.assertEqual(self.ran("--trace", text=throws).stdout, self.ran(text=throws).stdout)
        stuck = "client\nsubmit retry\nfinish 1\nclient\nassert return True\nrepeat\n"
        self.assertEqual([self.ran(*it, text=stuck).returncode for it in ((), ("--all",), ("--progress",))], [0, 0, 3])

    def test_an_invalid_line(self):
        """Its place is that in the file, which an editor finds."""
        with tempfile.TemporaryDirectory() as folder:
            file = pathlib.Path(folder) / "wrong.stm"
            file.write_text("tvar x : Int = 0\nclient\n  submit \t do { a <- readTVar x; if a >= 1 then retry else return () }\n")
            said = f"{file}:3:39: BadByte 27\n"
            said += "    submit do { a <- readTVar x; if a >= 1 then retry else return () }\n"
            said += 38 * " " + "^\n    hint: there is no `>=`: write `1 <= a`\n"
            done = self.ran(file)
            self.assertEqual((done.returncode, done.stdout), (1, ""))
            self.assertEqual(done.stderr, said)
            self.assertEqual(file.read_text().split("\n")[2][38:40], ">=")
        self.assertTrue(self.ran(text="client\nfrob\n").stderr.startswith("script:2: Command\n    frob\n    hint: no line "))
        ends = "script:1: the script is refused at its end, line 1: no client\n    hint: what a client does begins with a line `client`\n"
        self.assert_ran(self.ran(text=""), 1, "", ends)

    def test_blocks_on_several_lines(self):
        done = self.ran("--plain", text=Lines.LAYED_OUT)
        self.assert_ran(done, 0, one_line(Lines.LAYED_OUT))
        plain = subprocess.run([program, "explore", "--history"], input=done.stdout, capture_output=True, text=True, timeout=SECONDS)
        self.assert_ran(self.ran("--history", text=Lines.LAYED_OUT), 3, plain.stdout)
        self.assert_ran(self.ran("--history", text="client\n"), 0, "", "explore: right: there is no history of a fault\n")
        wrong = self.ran(text=Lines.LAYED_OUT.replace("a + 1", "b + 1"))
        said = "script:12:7: Unknown 69\n    line 12:       b + 1\n                   ^\n    hint: nothing of this name is declared; the names here are a, x\n"
        self.assert_ran(wrong, 1, "", said)

    def test_what_is_not_ascii(self):
        with tempfile.TemporaryDirectory() as folder:
            file = pathlib.Path(folder) / "script.stm"
            file.write_bytes(b"tvar x : Int = 0\r\n-- \xc3\xa4 \xff\r\nclient\r\nsubmit writeTVar x 1\r\nfinish 1\r\n")
            self.assertEqual(self.ran(file).returncode, 0)
            for block in (b"return \xc3\xa4", b"do {\n return\xc2\xa0() }"):
                file.write_bytes(b"client\nsubmit " + block + b"\n")
                done = self.ran(file)
                self.assertEqual((done.returncode, done.stderr.split(":", 1)[1].split("\n")[0]), (1, "2: NotAscii"))
            script = b"-- \xc3\xa4 \xff\r\nclient\r\n submit (\n  retry)\r\n"
            file.write_bytes(script)
            command = [sys.executable, REPOSITORY / "tools" / "explore", "--plain", file]
            done = subprocess.run(command, capture_output=True, timeout=SECONDS, env=os.environ | {"PYTHONIOENCODING": "ascii"})
            self.assertEqual((done.returncode, done.stdout, done.stderr), (0, b"-- \xc3\xa4 \xff\r\nclient\r\nsubmit ( retry)\n\n", b""))

    def test_it_is_broken_off(self):
        slow = self.stand_in('cat >"$0.script"; echo $$ >"$0.new"; mv "$0.new" "$0.begun"; while kill -0 $PPID; do sleep 0.1; done')
        command = [sys.executable, REPOSITORY / "tools" / "explore", "--program", slow]
        begun = slow.with_name("stand_in.begun")
        with subprocess.Popen(command, stdin=subprocess.PIPE, stdout=subprocess.PIPE, stderr=subprocess.PIPE, text=True) as process:
            process.stdin.write("client\n")
            process.stdin.close()
            while process.poll() is None and not begun.exists():  # then it has got the script, and is waited for
                time.sleep(0.01)
            process.send_signal(signal.SIGINT)
            self.assertEqual((process.wait(SECONDS), process.stdout.read()), (130, ""))
            self.assertEqual(process.stderr.read(), "\nexplore: it was broken off\n")
        self.assert_gone(int(begun.read_text()))

    def test_nobody_reads(self):
        command = f"{sys.executable} {REPOSITORY / 'tools' / 'explore'} --program {program} 2>&1 >&3 | cat"
        read, write = os.pipe()
        os.close(read)
        try:
            done = subprocess.run(["sh", "-c", f"exec 3>&{write}; {command}"], input=FORKS, capture_output=True, text=True, timeout=SECONDS, pass_fds=(write,))
        finally:
            os.close(write)
        self.assertEqual((done.stdout, done.stderr), ("", ""))

    def test_a_long_search(self):
        waits = []

        class Event:
            def wait(self, seconds):
                waits.append(seconds)
                return len(waits) == 4

        said = io.StringIO()
        with contextlib.redirect_stderr(said):
            report._say_progress("explore", Event())
        self.assertEqual(waits, [5, 5, 10, 20])
        self.assertEqual(said.getvalue(), "".join(f"explore: still searching after {it} s\n" for it in (5, 10, 20)))

    def test_as_a_module(self):
        command = [sys.executable, "-m", "stmdesk.report", "--program", program]
        done = subprocess.run(command, input=FORKS, capture_output=True, text=True, timeout=SECONDS, cwd=HERE)
        self.assert_ran(done, 3, explore(FORKS, program=program).report())
