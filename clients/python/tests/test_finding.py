"""How the program and the library are found."""

import os
import pathlib
import re
import shutil
import subprocess
import sys
import tempfile
from functools import partial
from unittest import mock

from stmdesk import Desk, _local, _program, check, explore, find_library, find_program
from tests.common import HERE, SECONDS, OnProgram, needs_process, program


class FindingTheLibrary(OnProgram):
    def test_the_order(self):
        """STMDESK_LIBRARY, the package's own, the repository's; the first that is there."""
        with tempfile.TemporaryDirectory() as folder, mock.patch.dict(os.environ):
            os.environ.pop("STMDESK_LIBRARY", None)
            top = pathlib.Path(folder).resolve()
            package = top / "repo" / "clients" / "python" / "stmdesk"
            (package / "bin").mkdir(parents=True)
            (top / "repo" / "crates" / "stmdesk").mkdir(parents=True)
            with mock.patch.object(_local, "__file__", str(package / "x")):
                with self.assertRaises(FileNotFoundError) as caught:
                    find_library()
                own = package / "bin" / "libstmdesk.so"
                for looked in ("library=..", "STMDESK_LIBRARY isn't set", str(own), f"no folder above {package}"):
                    self.assertIn(looked, str(caught.exception))
                launcher = top / "repo" / "stmdesk"
                launcher.write_text('#!/bin/sh\n[ "$*" = --which-library ] || exit 9\necho "none fits" >&2\nexit 1\n')
                launcher.chmod(0o755)
                with self.assertRaisesRegex(FileNotFoundError, "none fits"):
                    find_library()
                launcher.write_text('#!/bin/sh\n[ "$*" = --which-library ] && echo /of/the/repository\n')
                self.assertEqual(find_library(), "/of/the/repository")
                own.touch()
                self.assertEqual(find_library(), str(own))
                named = top / "named"
                os.environ["STMDESK_LIBRARY"] = str(named)
                with self.assertRaisesRegex(FileNotFoundError, f"STMDESK_LIBRARY names '{named}'"):
                    find_library()
                named.touch()
                self.assertEqual(find_library(), str(named))


NO_STEP = "tvar x : Int = 1\nclient\n"


@needs_process("no desk: `find_program`")
class Finding(OnProgram):
    def setUp(self):
        super().setUp()
        folder = tempfile.TemporaryDirectory()
        self.addCleanup(folder.cleanup)
        self.folder = pathlib.Path(folder.name)
        self.set_environment(PATH="/usr/bin:/bin")

    def set_environment(self, **variables):
        patch = mock.patch.dict(os.environ, variables)
        patch.start()
        self.addCleanup(patch.stop)

    def stub(self, place, ticket):
        """A program at the place in the folder, which gives this ticket for all that is submitted."""
        path = self.folder / place
        path.parent.mkdir(parents=True, exist_ok=True)
        path.write_text(f"#!/bin/sh\nread line\necho ticket {ticket}\n")
        path.chmod(0o755)
        return path

    def ticket(self, *given):
        with Desk(*given) as desk:
            return desk.submit("retry")

    def launcher(self, said, status=0):
        """The script of a repository, which says this of the program that it runs: its path, or why there is none."""
        (self.folder / "repo/crates/stmdesk").mkdir(parents=True, exist_ok=True)
        path = self.stub("repo/stmdesk", 0)
        path.write_text(f"#!/bin/sh\n[ \"$*\" = --which ] || exec '{said}' \"$@\"\necho '{said}'{' >&2' * bool(status)}\nexit {status}\n")
        return path

    def test_the_order(self):
        """The argument, STMDESK, the package's own, the repository's, the PATH; the first that is there."""
        given, named, on_path, of_repository = (
            self.stub(f"{it}/stmdesk", ticket) for ticket, it in enumerate(("given", "named", "path", "built"))
        )
        os.environ.pop("STMDESK", None)
        with mock.patch.object(_program, "__file__", str(self.stub("repo/clients/python/stmdesk/x", 0))):
            with self.assertRaises(FileNotFoundError):
                Desk()
            self.set_environment(PATH=f"{on_path.parent}:/usr/bin:/bin")
            self.assertEqual((self.ticket(), find_program()), (2, str(on_path)))
            self.launcher("stmdesk: none fits", 1)
            self.assertEqual((self.ticket(), find_program()), (2, str(on_path)))
            launcher = self.launcher(of_repository)
            self.assertEqual((self.ticket(), find_program()), (3, str(of_repository)))
            own = self.stub("repo/clients/python/stmdesk/bin/stmdesk", 4)
            self.assertEqual((self.ticket(), find_program()), (4, str(own)))
            own.chmod(0o644)
            self.assertEqual(self.ticket(), 3)
            own.chmod(0o755)
            self.set_environment(STMDESK="")
            self.assertEqual(self.ticket(), 4)
            self.set_environment(STMDESK="stmdesk")
            self.assertEqual(self.ticket(), 2)
            self.set_environment(STMDESK=str(launcher))
            self.assertEqual(self.ticket(), 3)
            self.set_environment(STMDESK=str(named))
            self.assertEqual(self.ticket(), 1)
            self.assertEqual(self.ticket(given), 0)
            self.assertEqual(self.ticket(str(given)), 0)
            self.assertEqual(self.ticket(launcher), 3)

    def test_what_is_named_is_not_there(self):
        for named in (self.folder / "none", self.folder, "none"):
            self.set_environment(STMDESK=str(named))
            with self.assertRaisesRegex(FileNotFoundError, f"STMDESK names '{named}'"):
                Desk()

    def test_a_repository_without_a_program(self):
        launcher = self.launcher("stmdesk: release/ was made from other sources, run ./stmdesk --build once", 1)
        for call in (Desk, partial(explore, NO_STEP), partial(check, launcher)):
            with self.assertRaisesRegex(FileNotFoundError, "other sources, run ./stmdesk --build once"):
                call(program=launcher)
        self.set_environment(STMDESK=str(launcher))
        with self.assertRaisesRegex(FileNotFoundError, "--build"):
            Desk()
        os.environ.pop("STMDESK", None)
        inside = mock.patch.object(_program, "__file__", str(self.folder / "repo/clients/x"))
        with inside, self.assertRaisesRegex(FileNotFoundError, "--build once"):
            Desk()

    def test_a_launcher_that_cannot_unpack_is_run_itself(self):
        launcher = self.launcher("it")
        launcher.write_text(f"#!/bin/sh\n[ \"$*\" != --which ] || {{ echo {launcher}; exit; }}\nread line\necho ticket 5\n")
        self.assertEqual(self.ticket(launcher), 5)

    def run_python(self, code, **variables):
        done = subprocess.run(
            [sys.executable, "-B", "-c", code], cwd=self.folder, capture_output=True, text=True, timeout=SECONDS,
            env={"PATH": "/usr/bin:/bin"} | variables,
        )  # fmt: skip
        self.assertEqual(done.stderr, "")
        return done.stdout

    def test_a_copied_package(self):
        shutil.copytree(HERE / "stmdesk", self.folder / "stmdesk", ignore=shutil.ignore_patterns("__pycache__"))
        code = "from stmdesk import *\nwith Desk() as desk: print(desk.tvar('x : Int = 1'))"
        self.assertEqual(self.run_python(code, STMDESK=program), "x\n")
        code = "from stmdesk import *\ntry: Desk()\nexcept FileNotFoundError as error: print(error)"
        said = self.run_python(code)
        package = self.folder.resolve() / "stmdesk"
        for looked in ("Desk(..)", "STMDESK isn't set", "/usr/bin:/bin", f"{package / 'bin' / 'stmdesk'}", f"no folder above {package}"):
            self.assertIn(looked, said)

    def test_the_module_runs_it(self):
        """`python -m stmdesk WORDS` is the program with these words."""
        stub = self.folder / "stub"
        stub.write_text('#!/bin/sh\necho "$@"\ncat\nexit 3\n')
        stub.chmod(0o755)

        def run(*words, **variables):
            command = [sys.executable, "-B", "-m", "stmdesk", *words]
            done = subprocess.run(command, cwd=HERE, input="a line\n", capture_output=True, text=True, timeout=SECONDS,
                                  env={"PATH": "/usr/bin:/bin"} | variables)  # fmt: skip
            return done.returncode, done.stdout, done.stderr

        self.assertEqual(run("check", "--why", STMDESK=str(stub)), (3, "check --why\na line\n", ""))
        self.assertEqual(run("--version", STMDESK=str(stub)), (3, "--version\na line\n", ""))
        stub.write_text("#!/bin/sh\nulimit -S -s >&2\n")
        for words in (["run"], ["serve", str(self.folder / "socket")]):
            command = ["sh", "-c", 'ulimit -S -s 1024; exec "$@"', "sh", sys.executable, "-B", "-m", "stmdesk", *words]
            done = subprocess.run(command, cwd=HERE, capture_output=True, text=True, timeout=SECONDS,
                                  env={"PATH": "/usr/bin:/bin", "STMDESK": str(stub)})  # fmt: skip
            self.assertEqual(done.stderr.splitlines()[0], "2048")
        status, printed, said = run("run", STMDESK=str(self.folder / "none"))
        self.assertEqual((status, printed), (1, ""))
        self.assertRegex(said, "^stmdesk: no program to run: STMDESK names .*none")
        status, printed, said = run(STMDESK=str(stub))
        self.assertEqual((status, printed), (1, ""))
        self.assertIn("serve", said)
        status, printed, said = run("serve", "--help")
        self.assertEqual((status, said), (0, ""))
        self.assertIn("stmdesk-serve [OPTIONS] SOCKET", printed)

    def test_the_command_of_pip(self):
        """It is the same as the module, and it is no program that `find_program` finds, or it would run itself without end."""
        shutil.copytree(HERE / "stmdesk", self.folder / "stmdesk", ignore=shutil.ignore_patterns("__pycache__"))
        folders = [self.folder / it for it in ("of pip", "with the program")]
        command, stub = (it / "stmdesk" for it in folders)
        for path, text in (
            (command, f"#!{sys.executable}\nimport sys\nfrom stmdesk.__main__ import main\nif __name__ == '__main__':\n    sys.exit(main())\n"),
            (stub, '#!/bin/sh\necho "$@"\n/bin/cat\nexit 3\n'),
        ):
            path.parent.mkdir()
            path.write_text(text)
            path.chmod(0o755)

        def run(*words, path=folders[:1], **variables):
            environment = {"PATH": ":".join(map(str, path)), "PYTHONPATH": str(self.folder), "PYTHONDONTWRITEBYTECODE": "1"} | variables
            done = subprocess.run([command, *words], input="a line\n", capture_output=True, text=True, timeout=SECONDS, env=environment)
            return done.returncode, done.stdout, done.stderr

        for variables in ({"path": folders}, {"path": folders, "STMDESK": "stmdesk"}, {"STMDESK": str(stub)}):
            self.assertEqual(run("check", "--why", **variables), (3, "check --why\na line\n", ""))
        for variables, said in (
            ({}, "no folder of the PATH has stmdesk"),
            ({"path": []}, "no folder of the PATH has stmdesk"),
            ({"STMDESK": "stmdesk"}, "STMDESK names 'stmdesk', which isn't an executable file"),
            ({"STMDESK": str(command)}, f"STMDESK names '{command}', a command that pip made"),
        ):
            status, printed, found = run("run", **variables)
            self.assertEqual((status, printed), (1, ""))
            self.assertRegex(found, f"^stmdesk: no program to run.*{re.escape(said)}")
        status, printed, found = run()
        self.assertEqual((status, printed, found.partition(" ")[0]), (1, "", "stmdesk"))
        self.assertIn("stmdesk-serve [OPTIONS] SOCKET", run("serve", "--help")[1])

    def test_aio_is_there_when_it_is_asked_for(self):
        code = "import stmdesk, sys\nprint('asyncio' in sys.modules, stmdesk.aio.Desk.__module__, hasattr(stmdesk, 'frob'))"
        self.assertEqual(self.run_python(code, PYTHONPATH=str(HERE)), "False stmdesk.aio False\n")

    def test_a_shallow_folder(self):
        os.environ.pop("STMDESK", None)
        with mock.patch.object(_program, "__file__", "/stmdesk.py"), self.assertRaises(FileNotFoundError):
            find_program()
