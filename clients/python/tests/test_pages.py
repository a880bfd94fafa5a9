"""The examples of the pages and docstrings, and the job engines."""

import asyncio
import contextlib
import doctest
import fcntl
import io
import os
import pathlib
import random
import re
import signal
import subprocess
import sys
import tempfile
import time
import types
from unittest import mock

import job_engine
import stmdesk
from stmdesk import Desk, aio, check
from tests.common import HERE, REPOSITORY, SECONDS, OnProgram, library, needs_process, new_aio_desk, new_desk, program


class Pages(OnProgram):
    def setUp(self):
        super().setUp()
        patch = mock.patch.dict(os.environ, STMDESK=program)
        patch.start()
        self.addCleanup(patch.stop)

    @needs_process("an example runs the program")
    def test_the_job_engine(self):
        command = [sys.executable, "-B", str(HERE / "job_engine.py"), program]
        done = subprocess.run(command, capture_output=True, text=True, timeout=SECONDS)
        self.assertEqual((done.stdout, done.stderr), ((HERE / "job_engine.out").read_text(), ""))

    def test_the_job_engine_is_linear(self):
        count, calls = 100, []

        class Counted(Desk):
            def _ask(self, command, text=""):
                calls.append(command.word)
                return super()._ask(command, text)

        with Counted(**{"local": True, "library": library} if library else {"program": program}) as desk, contextlib.redirect_stdout(None):
            for number in range(count + 1):
                desk.tvar(f"done{number} : Bool = False")
            engine = job_engine.Engine(desk)
            for number in range(count):  # each waits for the one before it
                engine.ask(f"job {number}", f"do {{ d <- readTVar done{number}; if d then writeTVar done{number + 1} True else retry }}")
            engine.run()
            self.assertEqual(len(engine.asked), count)
            engine.ask("the first", "writeTVar done0 True")
            calls.clear()
            engine.run()
            self.assertEqual(engine.asked, {})
        self.assertEqual(len(calls), 3 * (count + 1) + 2)  # of each round; and one in which nothing is ready

    @needs_process("an example runs the program")
    def test_the_readmes(self):
        for page in (HERE / "README.md", REPOSITORY / "README.md", *sorted((REPOSITORY / "docs").glob("*.md"))):
            if page.name == "HASKELL.md":  # its examples are of another language
                continue
            tried = doctest.testfile(str(page), module_relative=False, globs=vars(stmdesk).copy(), encoding="utf-8")
            with self.subTest(page=page):
                self.assertGreaterEqual(tried.attempted, page.parent == HERE)
                self.assertEqual(tried.failed, 0)

    def test_the_readme_names_all(self):
        glance = (HERE / "README.md").read_text().partition("## At a glance\n")[2].partition("\n## ")[0]
        names = [it for it in dir(Desk) if not it.startswith("_")]
        self.assertEqual([it for it in names if f"`{it}`" not in glance], [])

    @needs_process("an example runs the program")
    def test_the_engine_of_the_examples(self):
        folder = REPOSITORY / "examples" / "engine"
        if not folder.exists():
            self.skipTest("the package was copied without the examples")
        command = [sys.executable, "-B", str(folder / "engine.py"), program]
        done = subprocess.run(command, capture_output=True, text=True, timeout=SECONDS)
        self.assertEqual((done.stdout, done.stderr), ((folder / "engine.out").read_text(), ""))

    @needs_process("an example runs the program")
    def test_who_waits(self):
        folder = REPOSITORY / "examples" / "who_waits"
        if not folder.exists():
            self.skipTest("the package was copied without the examples")
        command = [sys.executable, "-B", str(folder / "who_waits.py"), "--once"]
        environment = {**os.environ, "STMDESK": program, "COLUMNS": "160"}
        done = subprocess.run(command, capture_output=True, text=True, timeout=SECONDS, env=environment)
        self.assertEqual((done.stdout, done.stderr), ((folder / "who_waits.out").read_text(), ""))
        done = subprocess.run([*command, str(folder / "none")], capture_output=True, text=True, timeout=SECONDS, env=environment)
        said = f"who_waits: no server at {folder / 'none'}: No such file or directory\n"
        self.assertEqual((done.returncode, done.stdout, done.stderr), (1, "", said))
        for wrong in ("-1", "nan", "x"):
            done = subprocess.run([*command, "--every", wrong], capture_output=True, text=True, timeout=SECONDS, env=environment)
            self.assertEqual((done.returncode, done.stdout), (2, ""))

    def killed(self, command, *more):
        """Starts the command with a journal, and more words after it, again and again, and kills it at a random moment, until it ends by
        itself; after the fourth kill it is let be. Does so twice. Yields what it prints at last, the journal's path, and how often it was
        killed."""
        signal.alarm(5 * SECONDS)
        begun = time.monotonic()
        subprocess.run(command, capture_output=True, timeout=SECONDS, check=True)
        seconds, chance = time.monotonic() - begun, random.Random(1)
        for _ in range(2):
            with tempfile.TemporaryDirectory() as folder:
                moments = [chance.uniform(0.2, 0.9) * seconds for _ in range(4)]
                yield self.run_killed(command, pathlib.Path(folder) / "journal", more, moments)

    def run_killed(self, command, path, more, moments):
        for kills, moment in enumerate([*moments, None]):
            running = subprocess.Popen([*command, path, *more], stdout=subprocess.PIPE, stderr=subprocess.PIPE, text=True)
            with contextlib.suppress(subprocess.TimeoutExpired):
                running.communicate(timeout=moment)
            running.kill()
            printed, errors = running.communicate()
            if running.returncode != -signal.SIGKILL:
                self.assertEqual((running.returncode, errors), (0, ""))
                return printed, path, kills
            if path.exists():
                with path.open() as file:  # until the program has noticed that the input has ended
                    fcntl.flock(file, fcntl.LOCK_SH)
        raise AssertionError("it didn't end")

    @needs_process("an example runs the program")
    def test_the_engine_of_the_examples_goes_on(self):
        folder = REPOSITORY / "examples" / "engine"
        if not folder.exists():
            self.skipTest("the package was copied without the examples")
        command = [sys.executable, "-B", str(folder / "engine.py"), program]
        for printed, path, _ in self.killed(command):
            self.assertEqual(printed, (folder / "engine.out").read_text())
            self.assertTrue(check(path, program=program))

    @needs_process("an example runs the program")
    def test_a_second_engine_on_a_journal(self):
        """It is refused before it touches the notes, of which the first may be writing a line."""
        folder = REPOSITORY / "examples" / "engine"
        if not folder.exists():
            self.skipTest("the package was copied without the examples")
        with tempfile.TemporaryDirectory() as name:
            path, notes = pathlib.Path(name) / "journal", pathlib.Path(name) / "journal.notes"
            command = [sys.executable, "-B", str(folder / "engine.py"), program, str(path)]
            with Desk(program, journal=path):
                notes.write_text('{"number": 1, "res')
                done = subprocess.run(command, capture_output=True, text=True, timeout=SECONDS)
                self.assertIn("in use", done.stderr)
                self.assertEqual((done.stdout, notes.read_text()), ("", '{"number": 1, "res'))
            done = subprocess.run([*command[:3], "--journal", str(path)], capture_output=True, text=True, timeout=SECONDS,
                                  env=os.environ | {"STMDESK": program})  # fmt: skip
            self.assertEqual((done.stdout, done.stderr), ((folder / "engine.out").read_text(), ""))
            self.assertTrue(check(path, program=program))

    def assert_went_on(self, printed, again):
        """Each job was taken once, and each result came once. What is printed again is the same without what isn't known any more."""
        took = re.findall(r"(?m)^  (?:ann|bob) finishes with (\d+)", printed)
        self.assertEqual(sorted(took), ["11", "12", "13"])
        ends = ["report finishes with 3", "put 0 throws 400", "put 11 finishes", "put 12 finishes", "put 13 finishes"]
        lines = re.sub(r"(?m)^.* waits, having read .*\n|; stale: .*|, by \d+ evaluations", "", printed)
        self.assertEqual([lines.count(f"  {it}\n") for it in ends], [1] * len(ends))
        self.assertTrue(lines.endswith("\n10 blocks, of which 8 finished.\n"))
        self.assertEqual(again, lines)

    @needs_process("an example runs the program")
    def test_the_job_engine_goes_on(self):
        command = [sys.executable, "-B", str(HERE / "job_engine.py"), program]
        for more in ([], ["4"], ["1"]):
            for printed, path, kills in self.killed(command, *more):
                self.assertTrue(check(path, program=program))
                if kills == 0:
                    self.assertEqual(printed, (HERE / "job_engine.out").read_text())
                again = subprocess.run([*command, path, *more], capture_output=True, text=True, timeout=SECONDS)
                self.assertEqual(again.stderr, "")
                self.assert_went_on(printed, again.stdout)

    @needs_process("an example runs the program")
    def test_the_job_engine_goes_on_after_each_command(self):
        class Crash(Exception):
            pass

        class Crashing(Desk):
            left = 0  # how many commands are given; then there is a crash, before the next one or after it
            is_after = False

            def _ask(self, command, text=""):
                Crashing.left -= 1
                if Crashing.left < 0 and not self.is_after:
                    raise Crash
                answer = super()._ask(command, text)
                if Crashing.left < 0:
                    raise Crash
                return answer

        def run(path, left):
            Crashing.left, printed = left, io.StringIO()
            with mock.patch.object(job_engine, "Desk", Crashing), contextlib.redirect_stdout(printed):
                job_engine.main(program, path, "4")
            return printed.getvalue()

        signal.alarm(5 * SECONDS)
        for Crashing.is_after in (False, True):
            for left in range(1000):
                with tempfile.TemporaryDirectory() as folder:
                    path = f"{folder}/journal"
                    try:
                        run(path, left)
                    except Crash:
                        with contextlib.suppress(Crash):
                            run(path, 7)
                        self.assert_went_on(run(path, 1000), run(path, 1000))
                    else:
                        break
            self.assertGreater(left, 40)

    @needs_process("an example runs the program")
    def test_notes_of_the_job_engine_that_do_not_fit(self):
        with tempfile.TemporaryDirectory() as folder, contextlib.redirect_stdout(None):
            path, notes = pathlib.Path(folder) / "journal", pathlib.Path(folder) / "journal.notes"
            job_engine.main(program, path)
            text = notes.read_text()
            with notes.open("a") as file:
                file.write('{"event": "asked", "tick')  # a crash tore the line
            job_engine.main(program, path)
            self.assertEqual(notes.read_text(), text)
            lines = text.splitlines(keepends=True)
            for wrong in ("", "".join(lines[:5]), "".join(lines[:-1])):
                notes.write_text(wrong)
                with self.assertRaisesRegex(RuntimeError, "the notes .* are of another journal"):
                    job_engine.main(program, path)
                self.assertEqual(notes.read_text(), wrong)
            notes.write_text(text.replace("writeTVar normal 12", "writeTVar normal 14"))
            with self.assertRaisesRegex(RuntimeError, "the journal is of other calls: .*14.* isn't what put 12 asks"):
                job_engine.main(program, path)
            path.unlink()
            with self.assertRaisesRegex(RuntimeError, "the notes .* are of another journal"):
                job_engine.main(program, path)

    def test_the_docstrings(self):
        finder = doctest.DocTestFinder()
        tests = {it.name: it for it in [*finder.find(stmdesk, module=False), *finder.find(aio, module=aio)]}
        public = [stmdesk, *(it for it in vars(stmdesk).values() if isinstance(it, (type, types.FunctionType)))]
        names = [it.__name__ if it is stmdesk else f"stmdesk.{it.__name__}" for it in public]
        names += ["stmdesk.aio", "stmdesk.aio.Desk", "stmdesk.aio.Batch", "stmdesk.Answer.result"]
        names += [f"stmdesk.Exploration.{name}" for name in ("history", "trace", "report")]
        for module, desk in (("stmdesk", Desk), ("stmdesk.aio", aio.Desk)):
            names += [f"{module}.Desk.{name}" for name in vars(desk) if not name.startswith("_") and name != "pid"]
        self.assertEqual([it for it in names if it not in tests or it != "stmdesk.DeskError" and not tests[it].examples], [])
        runner = doctest.DocTestRunner()
        for test in tests.values():
            with self.subTest(test=test.name):
                if test.name == "stmdesk.find_library" and not library:
                    continue
                desk = new_aio_desk() if test.name.startswith("stmdesk.aio") else new_desk()
                with getattr(desk, "_desk", desk) as plain:
                    plain.tvar("x : Int = 1")
                    test.globs = vars(stmdesk) | {"desk": desk, "aio": aio, "run": asyncio.run}
                    self.assertEqual(runner.run(test).failed, 0)
