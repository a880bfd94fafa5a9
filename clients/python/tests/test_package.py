"""The package: its names, and what pip installs."""

import lzma
import os
import pathlib
import pickle
import re
import shutil
import subprocess
import sys
import tempfile
import types
import typing
import zipfile

import stmdesk
from stmdesk import Cell, Commits, Finished, NewRef, Ref, Refused
from tests.common import HERE, REPOSITORY, SECONDS, X, OnProgram, cell, needs_process


# What a user may write. mypy finds an error in each line with a comment, and in no other.
CALLS = """from stmdesk import Desk, Ref, aio
def calls(desk: Desk) -> None:
    number: int = desk.atomically("return 1", returns=int)
    truth: bool = desk.atomically("return (1 == 1)", 1.0, returns=bool)
    made: Ref = desk.atomically("newTVar 1", label="a", returns=Ref)
    number = desk.atomically("return 1", timeout=1)  # not only an int
    truth = desk.atomically("return 1", returns=int)  # no bool
    made = desk.atomically("return 1", returns=int)  # no reference
    desk.atomically("return 1", returns=str)  # no result has this type
async def same(desk: aio.Desk) -> None:
    number: int = await desk.atomically("return 1", returns=int)
    truth: bool = await desk.atomically("return (1 == 1)", 1.0, returns=bool)
    made: Ref = await desk.atomically("newTVar 1", label="a", returns=Ref)
    number = await desk.atomically("return 1", timeout=1)  # not only an int
    truth = await desk.atomically("return 1", returns=int)  # no bool
    made = await desk.atomically("return 1", returns=int)  # no reference
    await desk.atomically("return 1", returns=str)  # no result has this type
"""


class Names(OnProgram):
    def test_of_references(self):
        self.assertEqual([str(it) for it in (X, Ref(7), NewRef(0))], ["x", "#7", "new0"])
        self.assertEqual([repr(it) for it in (X, Ref(7), NewRef(0))], ["Ref(0, 'x')", "Ref(7)", "NewRef(0)"])
        self.assertEqual((Ref(0), hash(Ref(0))), (X, hash(X)))
        self.assertEqual(sorted([Ref(2), Ref(1, "a"), Ref(0, "b")]), [Ref(0), Ref(1), Ref(2)])
        self.assertEqual(pickle.loads(pickle.dumps(X)).name, "x")

    def test_in_answers(self):
        desk = self.start()
        slot = Ref(1, "slot")
        self.assert_is(desk.tvar("slot : TVar Int = x"), slot)
        self.assert_is(desk.try_("readTVar slot"), Commits({}, [], X))
        self.assert_is(desk.try_("do { r <- newTVar x; writeTVar slot x; return slot }"), Commits({slot: X}, [X], slot))
        self.assert_is(desk.looks("do { r <- readTVar slot; readTVar r }"), {X: 1, slot: X})
        desk.submit("do { r <- newTVar 3; writeTVar slot r; return r }")
        desk.submit("do { r <- readTVar slot; readTVar r }")
        desk.eval()
        self.assert_is(desk.reads(2), {X: 1, slot: X})
        self.assert_is(desk.finish(1), Finished(1, Ref(2), [2]))
        desk.eval()
        self.assert_is(desk.reads(2), {slot: Ref(2), Ref(2): 3})
        self.assert_is(desk.store()[1:], [cell(1, "slot", "TVar Int", Ref(2), 1), Cell(Ref(2), None, "Int", 3, 0)])

    def test_of_an_overtaken_delivery(self):
        desk = self.start()
        desk.submit("readTVar x")
        desk.take(1)
        desk.submit("writeTVar x 5")
        desk.settle()
        desk.submit("retry")
        with self.assertRaises(Refused) as caught:
            desk.deliver(1)
        self.assertEqual(caught.exception.name, "Gone")


@needs_process("no desk: the package")
class Package(OnProgram):
    def test_its_version_is_the_program_s(self):
        source = REPOSITORY / "crates" / "stm_command_line" / "src" / "version.rt"
        if not source.exists():
            self.skipTest("the program has no version here")
        found = re.search(r'VERSION: &str = "(.*)"', source.read_text())
        self.assertEqual(stmdesk.__version__, found[1])

    def wheel_of(self, top, *words):
        """The name of the wheel that build_package.py of this repository writes with these words, and its entries."""
        with tempfile.TemporaryDirectory() as folder:
            command = [sys.executable, "-B", str(top / "clients/python/build_package.py"), *words, folder]
            done = subprocess.run(command, capture_output=True, text=True, timeout=SECONDS)
            self.assertEqual((done.returncode, done.stderr), (0, ""))
            name = done.stdout.strip()
            self.assertEqual(os.listdir(folder), [name])
            with zipfile.ZipFile(f"{folder}/{name}") as wheel:
                return name, {it.filename: (it.external_attr >> 16, wheel.read(it)) for it in wheel.infolist()}

    def repository(self, said, status=0):
        """A repository with this package, whose launcher says this of the program that it runs; gone after the test."""
        folder = tempfile.TemporaryDirectory()
        self.addCleanup(folder.cleanup)
        top = pathlib.Path(folder.name).resolve() / "a clone"
        (top / "crates" / "stmdesk").mkdir(parents=True)
        shutil.copytree(HERE, top / "clients" / "python", ignore=shutil.ignore_patterns("__pycache__"))
        launcher = top / "stmdesk"
        launcher.write_text(f"#!/bin/sh\n[ \"$*\" = --which ] || exit 99\necho \"{said}\"{' >&2' * bool(status)}\nexit {status}\n")
        launcher.chmod(0o755)
        return top

    def built(self):
        """A repository with a program, and the program's text."""
        text = "#!/bin/sh\n# GLIBC_2.2.5 GLIBC_2.17 GLIBC_2.4\nread line\necho ticket 5\n"
        top = self.repository("$(dirname \"$0\")/built")
        (top / "built").write_text(text)
        return top, text.encode()

    def test_a_pure_wheel(self):
        name, entries = self.wheel_of(REPOSITORY, "--pure")
        self.assertEqual(name, f"stmdesk-{stmdesk.__version__}-py3-none-any.whl")
        files = {f"stmdesk/{it.name}": it.read_bytes() for it in (HERE / "stmdesk").iterdir() if it.is_file()}
        self.assertEqual({it: data for it, (_, data) in entries.items() if it.startswith("stmdesk/")}, files)
        self.assertEqual({mode for mode, _ in entries.values()}, {0o100644})
        top = self.built()[0]
        for setting in ("pure", "--pure"):
            code = f"import build_package; print(build_package.build_wheel({str(top)!r}, {{{setting!r}: 'yes'}}))"
            command = [sys.executable, "-B", "-c", code]
            done = subprocess.run(command, cwd=top / "clients/python", capture_output=True, text=True, timeout=SECONDS)
            self.assertEqual(done.stdout, f"{name}\n")

    def test_a_wheel_with_the_program(self):
        top, text = self.built()
        name, entries = self.wheel_of(top)
        self.assertEqual(name, f"stmdesk-{stmdesk.__version__}-py3-none-manylinux_2_17_x86_64.whl")
        self.assertEqual(entries.pop("stmdesk/bin/stmdesk"), (0o100755, text))
        _, pure = self.wheel_of(top, "--pure")
        facts = [f"stmdesk-{stmdesk.__version__}.dist-info/{it}" for it in ("WHEEL", "RECORD")]
        self.assertEqual([entries.pop(it) == pure.pop(it) for it in facts], [False, False])
        self.assertEqual(entries, pure)

    def test_a_wheel_with_the_library(self):
        """If there is one, which needs no newer C library than the program."""
        top, text = self.built()
        (top / "stmdesk").write_text('#!/bin/sh\n[ "$*" = --which-library ] && it=library || it=built\necho "$(dirname "$0")/$it"\n')
        (top / "library").write_bytes(b"GLIBC_2.2.5 GLIBC_2.14")
        entries = self.wheel_of(top)[1]
        self.assertEqual(entries["stmdesk/bin/stmdesk"], (0o100755, text))
        self.assertEqual(entries["stmdesk/bin/libstmdesk.so"], (0o100755, b"GLIBC_2.2.5 GLIBC_2.14"))
        (top / "library").write_bytes(b"GLIBC_2.18")
        self.assertNotIn("stmdesk/bin/libstmdesk.so", self.wheel_of(top)[1])
        self.assertNotIn("stmdesk/bin/libstmdesk.so", self.wheel_of(top, "--pure")[1])

    def test_a_wheel_of_what_can_not_be_unpacked(self):
        """The launcher then names itself, and the wheel has what release/ has."""
        top = self.repository("$0")
        (top / "release").mkdir()
        (top / "release" / "stmdesk.xz").write_bytes(lzma.compress(b"the program"))
        self.assertEqual(self.wheel_of(top)[1]["stmdesk/bin/stmdesk"], (0o100755, b"the program"))

    def test_no_wheel_with_a_program(self):
        """build_package.py fails, and pip gets a wheel without the program. Outside of a repository no launcher is run."""
        too_new, outside = self.built()[0], self.built()[0]
        (too_new / "built").write_text("GLIBC_2.9999")
        (outside / "crates" / "stmdesk").rmdir()
        for top, said in (
            (self.repository("none fits", 1), "none fits"),
            (too_new, "glibc 2.9999 or later"),
            (outside, "isn't in stmdesk's repository"),
        ):
            command = [sys.executable, "-B", str(top / "clients/python/build_package.py"), str(top)]
            done = subprocess.run(command, capture_output=True, text=True, timeout=SECONDS)
            self.assertEqual((done.returncode, done.stdout), (1, ""))
            self.assertIn(said, done.stderr)
            command = [sys.executable, "-B", "-c", f"import build_package; print(build_package.build_wheel({str(top)!r}))"]
            done = subprocess.run(command, cwd=top / "clients/python", capture_output=True, text=True, timeout=SECONDS)
            self.assertEqual(done.stdout, f"stmdesk-{stmdesk.__version__}-py3-none-any.whl\n")
            self.assertIn(said, done.stderr)

    def pip_installs(self, top):
        """Lets pip install the package of this repository into a folder, which is returned and gone after the test. It has no network."""
        if subprocess.run([sys.executable, "-m", "pip", "--version"], capture_output=True).returncode:
            self.skipTest("no pip")
        folder = tempfile.TemporaryDirectory()
        self.addCleanup(folder.cleanup)
        command = [sys.executable, "-m", "pip", "install", "--no-index", "--no-deps", "--target", folder.name, str(top / "clients/python")]
        environment = os.environ | {"PYTHONDONTWRITEBYTECODE": "1"}
        done = subprocess.run(command, capture_output=True, text=True, timeout=SECONDS, env=environment)
        self.assertEqual(done.returncode, 0, done.stdout + done.stderr)
        return folder.name

    def test_pip_installs_it(self):
        folder = self.pip_installs(REPOSITORY)
        code = "import stmdesk; print(stmdesk.__version__, stmdesk.__file__)"
        done = subprocess.run([sys.executable, "-B", "-c", code], cwd=folder, capture_output=True, text=True, check=True)
        self.assertEqual(done.stdout, f"{stmdesk.__version__} {folder}/stmdesk/__init__.py\n")

    def test_pip_installs_it_with_the_program(self):
        """The installed package runs its own program, with no other at hand."""
        folder = self.pip_installs(self.built()[0])
        code = "from stmdesk import *\nwith Desk() as desk: print(desk.submit('retry'), find_program())"
        command, environment = [sys.executable, "-B", "-c", code], {"PATH": "/usr/bin:/bin"}
        done = subprocess.run(command, cwd=folder, capture_output=True, text=True, env=environment, timeout=SECONDS)
        self.assertEqual((done.stdout, done.stderr), (f"5 {folder}/stmdesk/bin/stmdesk\n", ""))
        command = [pathlib.Path(folder) / "bin" / "stmdesk", "run"]
        environment = {"PATH": f"{folder}/bin:/usr/bin:/bin", "PYTHONPATH": folder, "PYTHONDONTWRITEBYTECODE": "1"}
        done = subprocess.run(command, input="\n", capture_output=True, text=True, env=environment, timeout=SECONDS)
        self.assertEqual((done.stdout, done.stderr), ("ticket 5\n", ""))

    def test_its_annotations(self):
        for name in stmdesk.__all__:
            it = getattr(stmdesk, name)
            for found in (it, *vars(it).values()) if isinstance(it, type) else (it,):
                if isinstance(found, (type, types.FunctionType)):
                    typing.get_type_hints(found)

    def mypy(self, path):
        """What mypy prints of a file or folder."""
        mypy = shutil.which("mypy")
        if not mypy:
            self.skipTest("no mypy")
        with tempfile.TemporaryDirectory() as cache:
            command = [mypy, "--strict", "--python-version", "3.10", "--cache-dir", cache, str(path)]
            done = subprocess.run(command, capture_output=True, text=True, timeout=SECONDS, cwd=HERE)
        self.assertEqual((done.returncode, done.stderr), (0 if done.stdout.startswith("Success: ") else 1, ""), done.stdout)
        return done.stdout

    def test_mypy_finds_nothing(self):
        self.assertIn("Success: no issues found", self.mypy(HERE / "stmdesk"))

    def test_mypy_knows_the_type_of_a_result(self):
        with tempfile.TemporaryDirectory() as folder:
            path = pathlib.Path(folder) / "calls.py"
            path.write_text(CALLS)
            said = self.mypy(path)
        found = {int(it) for it in re.findall(r"calls\.py:(\d+): error: ", said)}
        self.assertEqual(found, {number for number, line in enumerate(CALLS.splitlines(), 1) if "#" in line}, said)
