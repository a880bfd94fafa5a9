"""C files of this folder, built to be loaded before the C library of a program, and runs of the program with a fault each."""

import os
import pathlib
import shutil
import struct
import subprocess
import sys

import transcript

HERE = pathlib.Path(__file__).resolve().parent
END = struct.Struct("=IiIIIII")  # struct end of runs.h


def built(name, folder):
    """The library of a C file."""
    found = next((c for c in (os.environ.get("CC"), "cc", "gcc", "clang") if c and shutil.which(c)), None)
    if found is None:
        sys.exit("a C compiler is needed to refuse memory and to make devices fail: set CC\n0 passed, 1 failed")
    library = pathlib.Path(folder) / f"{name}.so"
    subprocess.run([found, "-shared", "-fPIC", "-O1", "-o", library, HERE / f"{name}.c", "-ldl"], check=True)
    return str(library)


class End:
    """How a run ended: `counted` is what the library counted in it, `taken` how many bytes of its input it took. Its output is
    the first `shared` bytes of that of the run without a fault, and `rest`."""

    def __init__(self, number, returncode, counted, taken, front, shared, rest, stderr):
        self.number, self.returncode, self.counted, self.taken = number, returncode, counted, taken
        self.front, self.shared, self.rest, self.stderr = front, shared, rest, stderr

    @property
    def stdout(self):
        return self.front if self.shared == len(self.front) and not self.rest else self.front[: self.shared] + self.rest

    def whole(self):
        return self.returncode, self.stdout, self.stderr

    def shown(self):
        return f"status {self.returncode}, {self.stderr!r}, {self.stdout[-300:]!r}"


def file_of(content):
    """A file in memory, at its start."""
    file = os.fdopen(os.memfd_create("runs"), "r+b")
    file.write(content)
    file.seek(0)
    return file


def ends(program, library, case, numbers=(), **faults):
    """The ends of runs of a case: of the one without a fault, and of one for each number of a fault, ascending (runs.h)."""
    numbers = [0, *numbers]
    packed = struct.pack(f"={len(numbers)}I", *numbers)
    with file_of(packed) as asked, file_of(b"") as told, file_of(case.text) as text, file_of(b"") as out, file_of(b"") as errors:
        environment = {name: str(value) for name, value in faults.items()}
        environment |= {"LD_PRELOAD": library, "RUNS_SECONDS": str(transcript.SECONDS)}
        environment |= {"RUNS_NUMBERS": str(asked.fileno()), "RUNS_ENDS": str(told.fileno())}
        files = {"stdin": text, "stdout": out, "stderr": errors, "pass_fds": (asked.fileno(), told.fileno())}
        status = subprocess.run([program] + case.words, env=environment, **files).returncode
        told.seek(0)
        found = parsed(told.read())
    if status or sorted(it.number for it in found) != numbers:
        raise OSError(f"only {len(found)} of {len(numbers)} runs of {case.name} were made, status {status}")
    return found


def parsed(text):
    found, at, front = [], 0, b""
    while at < len(text):
        number, status, counted, taken, shared, rest, errors = END.unpack_from(text, at)
        at += END.size
        own, said = text[at : at + rest], text[at + rest : at + rest + errors]
        if not found:
            front, shared, own = own, rest, b""
        at += rest + errors
        found.append(End(number, status, counted, taken, front, shared, own, said))
    return found
