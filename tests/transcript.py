"""Transcripts of a program: what it reads, and beneath each line what it answers (tests/README.md)."""

import argparse
import ast
import os
import pathlib
import re
import resource
import subprocess
import tempfile

SECONDS = 60
STACK = 2 << 20  # bytes, as much as a thread has
SMALL = 1 << 20  # bytes of a case's input or answers
ENCODING = "latin-1"  # a character of a transcript is a byte
HERE = pathlib.Path(__file__).resolve().parent

# Programs that are started take this process's limit over. Set here it costs each start nothing.
resource.setrlimit(resource.RLIMIT_STACK, (STACK, resource.getrlimit(resource.RLIMIT_STACK)[1]))


class Case:
    """What a program is given and has to do."""

    def __init__(self, name, words=(), steps=(), printed=b"", errors=b"", status=0):
        self.name = name
        self.words = list(words)
        self.steps = list(steps)  # pairs of a line that is read and what is answered to it
        self.printed = printed + b"".join(answer for _, answer in self.steps)
        self.text = b"".join(line for line, _ in self.steps)
        self.errors = errors
        self.status = status
        self.only_again = False  # a refused call is made again, and never left at that
        self.events_are_open = False  # how many events a storm has depends on which thread came first
        self.is_large = False  # it takes more memory than can be refused bit by bit

    def has_one_answer(self):
        """Whether it is the input's end that is answered, and not each line."""
        return self.words[:1] in (["check"], ["storm"], ["explore"])

    def comparable(self, text):
        """A text without what is left open of it."""
        return re.sub(rb"(?m)^events \d+$", b"events ..", text) if self.events_are_open else text

    def is_small_run(self):
        """Whether commands are read and answered, and few enough of them that they can be run a few times more."""
        return self.status == 0 and self.words[:1] in ([], ["run"]) and max(len(self.text), len(self.printed)) < SMALL

    def goes_by_lines(self):
        """Whether each step is a line, and not many."""
        return all(b"\n" not in line[:-1] for line, _ in self.steps)


def computed(expression):
    """The bytes of texts that are joined by +, repeated by * N, or written for each number below N by @ N, or for each
    of range(A, B) by @ (A, B), of range(A, B, S) by @ (A, B, S)."""

    def value(node):
        if isinstance(node, ast.Constant) and isinstance(node.value, (str, int)):
            return node.value
        if isinstance(node, ast.Tuple):
            return range(*ast.literal_eval(node))
        left, right = value(node.left), value(node.right)
        if isinstance(node.op, ast.Add):
            return left + right
        if isinstance(node.op, ast.Mult):
            return left * right
        numbers = right if isinstance(right, range) else range(right)
        return "".join(left.replace("{}", str(number)) for number in numbers)

    return value(ast.parse(expression.strip(), mode="eval").body).encode(ENCODING)


def header(lines):
    """The lines above the first empty one, by their names, and the rest; nothing where a line of input is first."""
    found = {"words": [], "status": [], "stderr": [], "about": [], "end": [], "mode": []}
    if not lines or lines[0].startswith(">"):
        return found, lines
    for number, line in enumerate(lines):
        if not line:
            return found, lines[number + 1 :]
        name, _, value = line.partition(":")
        found[name].append(value[1:])
    return found, []


def pairs(lines):
    """The lines that are printed before the first that is read, and the steps."""
    printed, steps = [], []
    for line in lines:
        if line.startswith(">= "):
            steps.append((computed(line[3:]) + b"\n", []))
        elif line.startswith(">"):
            steps.append((line[2:].encode(ENCODING) + b"\n", []))
        else:
            answer = computed(line[2:]) if line.startswith("= ") else line.encode(ENCODING)
            (steps[-1][1] if steps else printed).append(answer + b"\n")
    return b"".join(printed), [(line, b"".join(answer)) for line, answer in steps]


def parsed(name, lines):
    """The case of a transcript's lines."""
    said, rest = header(lines)
    printed, steps = pairs(rest)
    if said["end"]:
        line, answer = steps[-1]
        steps[-1] = (line[:-1], answer)
    case = Case(
        name,
        [word for line in said["words"] for word in line.split(" ")],
        steps,
        printed,
        "".join(line + "\n" for line in said["stderr"]).encode(ENCODING),
        int(said["status"][0]) if said["status"] else 0,
    )
    case.only_again = "again" in said["mode"]
    case.events_are_open = "any events" in said["mode"]
    case.is_large = "large" in said["mode"]
    return case


def read(path, name=None):
    path = pathlib.Path(path)
    return parsed(name or path.name, path.read_text(ENCODING).split("\n")[:-1])


def cases_of(folder):
    """The cases of a folder of tests/ and of the folders in it, named by their paths in it."""
    paths = sorted((HERE / folder).rglob("*.case"))
    return [read(path, path.relative_to(HERE / folder).as_posix()) for path in paths]


def all_cases():
    """The cases of tests/cases, and the examples, NAME.stm with NAME.out; those of examples/explore are explored, with the options in
    NAME.args, one a line, if there is such a file."""
    found = cases_of("cases")
    for path in sorted((HERE.parent / "examples").glob("*.stm")):
        found.append(Case(path.name, printed=path.with_suffix(".out").read_bytes()))
        found[-1].text = path.read_bytes()
    for path in sorted((HERE.parent / "examples" / "explore").glob("*.stm")):
        found.append(Case(f"explore {path.name}", ["explore", *options_of(path)], printed=path.with_suffix(".out").read_bytes()))
        found[-1].text = path.read_bytes()
        found[-1].status = 0 if found[-1].printed.endswith(b"\nright\n") else 3
    return found


def options_of(path):
    """The options with which a script of examples/explore is explored."""
    options = path.with_suffix(".args")
    return options.read_text(ENCODING).split("\n")[:-1] if options.exists() else []


def run(program, case):
    """The finished process of a case, with `taken`, how many bytes of its input it took."""
    with tempfile.TemporaryFile() as text:
        text.write(case.text)
        text.seek(0)
        command = [program] + case.words
        done = subprocess.run(command, stdin=text, capture_output=True, timeout=SECONDS)
        done.taken = os.lseek(text.fileno(), 0, os.SEEK_CUR)
    return done


def taken_well(case, taken):
    """Whether so many bytes of the input may have been read. Behind a fault that is found in it the rest may stay unread."""
    if case.status == 3 or (case.status == 1 and case.has_one_answer()):
        return True
    return taken == (len(case.text) if case.status == 0 else 0)


def shown(case, answer, width=160):
    """Where the first answer that differs stands."""
    want, got = (case.comparable(text).decode(ENCODING).split("\n") for text in (case.printed, answer))
    at = next((n for n, (w, g) in enumerate(zip(want, got)) if w != g), min(len(want), len(got)))
    told = lambda lines: lines[at][:width] if at < len(lines) else "(nothing)"
    return f"line {at + 1} of the answers is\n  {told(got)}\nnot\n  {told(want)}"


def judged(program, case):
    """None, or how what a program does differs from the case."""
    try:
        done = run(program, case)
    except subprocess.TimeoutExpired:
        return f"no end after {SECONDS} seconds"
    said = []
    if done.returncode != case.status:
        said.append(f"status {done.returncode}, not {case.status}")
    if done.stderr != case.errors:
        said.append(f"standard error {done.stderr!r}, not {case.errors!r}")
    if case.comparable(done.stdout) != case.comparable(case.printed):
        said.append(shown(case, done.stdout))
    if not taken_well(case, done.taken):
        said.append(f"{done.taken} bytes of the input were read")
    return "\n".join(said) or None


def executable(path):
    """The absolute path of a program, for argparse."""
    if not (os.path.isfile(path) and os.access(path, os.X_OK)):
        raise argparse.ArgumentTypeError(f"no program stands at {path}; `rt run` in the folder of its crate builds it")
    return os.path.abspath(path)


def words_for(about):
    """The parser of a script's words, with its help."""
    return argparse.ArgumentParser(description=about, formatter_class=argparse.RawDescriptionHelpFormatter)


def asked(about):
    """The program that a script is to run, and the part of a name that it is given, or an empty one."""
    parser = words_for(about)
    parser.add_argument("program", metavar="PROGRAM", type=executable, help="the built program: crates/CRATE/out/CRATE")
    parser.add_argument("part", metavar="PART", nargs="?", default="", help="only what has this in its name")
    given = parser.parse_args()
    return given.program, given.part


def tally(results, skipped=0):
    """Prints the failures among pairs of a name and what is said of it, and the last line. Returns the exit status."""
    passed = failed = 0
    for name, said in results:
        if said is None:
            passed += 1
        else:
            failed += 1
            print(f"FAILED {name}\n{said}", flush=True)
    print(f"{passed} passed, {failed} failed" + (f", {skipped} skipped" if skipped else ""), flush=True)
    return 1 if failed or not passed else 0
