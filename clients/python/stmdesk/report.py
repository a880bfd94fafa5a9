"""Says what an exploration found with the names of the variables and the lines of the script.

`python -m stmdesk.report [OPTIONS] [SCRIPT]` explores a script and prints that; `tools/explore` of the repository is the same command. In a
program call `explore(SCRIPT).report()`.
"""

from __future__ import annotations

import argparse
import os
import re
import sys
import textwrap
import threading
from collections.abc import Sequence
from pathlib import Path

from ._desk import Desk
from ._errors import DeskError, Ended, ScriptRefused
from ._explore import ClientAt, Exploration, TraceStep, explore
from ._lines import lines_from, one_line
from ._program import run_once
from ._values import Commits, Throws

WIDTH = 132  # of a list of variables
MOST = 40  # variables that are shown if nothing happens to them

_INIT = re.compile(r"[a-z][A-Za-z0-9_']*\s*:[^=]*=\s*(.+)")
_NAME = re.compile(r"[a-z][A-Za-z0-9_']*")
_NUMBER = re.compile(r"#(\d+)")
_DID = re.compile(r"(?:^|.* )(?:writes (?P<writes>none|#\d+=.*?)(?: news (?P<news>.+))?|throws (?P<fault>\S+))$")
_VERDICT = re.compile(r"commits .* result (\S+)|throws (\S+)|blocks")
_CELL = re.compile(r"(?m)^#(\d+) (?:\S+ )?: .+ = (\S+)$")

_OUTCOMES = {
    "right": "right: no order of the steps leads to a fault",
    "incomplete": "incomplete: more states can be reached than may be kept, and no fault was found in these",
    "deadlock": "deadlock: no client can do its next step, and not all are at their end",
    "broken": "broken: the invariant of line {line} doesn't hold after this order",
    "missed": "missed: after this order the variable hasn't the value that line {line} expects",
    "failed": "failed: the assertion of line {line} doesn't hold after this order",
    "threw": "threw: after this order the block of the `finish` in line {line} throws, and no `throws` allows it",
    "stuck": "stuck: after this order client {client} can't ever do its next step, whatever the others do",
    "never reached": "never reached: after this order no other one leads to where the goal of line {line} returns True",
}


class _Script:
    """The lines of a script that was explored, and what each is."""

    def __init__(self, text: str) -> None:
        self.lines = [" ".join(it.split()) for it in one_line(text).split("\n")]
        self.names: list[str] = []  # of the variables, by their number
        self.first: list[str] = []  # their first values
        self.clients = 0
        self.blocks: list[str] = []  # of each line: its own, or that of the `submit` that a `finish`, a `throws` or a `cancel` names
        submits: list[str] = []  # of the section
        for at in range(len(self.lines)):
            word, rest = self.parts(at)
            block = rest
            if word == "tvar" and (init := _INIT.fullmatch(rest)):
                self.names.append(rest.split(":")[0].strip())
                self.first.append(_value(init[1].strip()))
            elif word == "client":
                self.clients += int(rest or "1")
                submits = []
            elif word == "submit":
                submits.append(rest)
            elif word in ("finish", "throws", "cancel"):
                block = submits[int(rest) - 1]
            self.blocks.append(block)

    def parts(self, at: int) -> tuple[str, str]:
        """The word and the argument of a line; nothing of a comment."""
        word, *rest = self.lines[at].split(None, 1)[:2] or [""]
        return ("", "") if word.startswith("--") else (word, "".join(rest))

    def block(self, number: int) -> str:
        """The block of the line of this number."""
        return self.blocks[number - 1]

    def named(self, text: str) -> str:
        """A text of the program with names in place of the numbers of variables."""
        return _NUMBER.sub(lambda it: self.names[int(it[1])] if int(it[1]) < len(self.names) else it[0], text)


def _value(text: str) -> str:
    """A first value as the program prints it; a name of a variable stays."""
    number = re.fullmatch(r"\(\s*(-)\s*(\d+)\s*\)|(\d+)", text)
    return str(int((number[1] or "") + (number[2] or number[3]))) if number else re.sub(r"\s", "", text)


def report(found: Exploration) -> str:
    """The text of `Exploration.report`."""
    script = _Script(found.script)
    lines = [_OUTCOMES[found.outcome].format(line=found.line, client=found.client)]
    if found.order is None:
        lines += _counts(found, script)
    else:
        steps, last = found._traced()
        lines += _at_line(found, script, last)
        lines += _steps(steps, last, found, script)
        lines += _clients(found, script)
    return "\n".join(lines) + "\n"


def _counts(found: Exploration, script: _Script) -> list[str]:
    states = f"{found.states} {'state' if found.states == 1 else 'states'}"
    lines = [f"  {states}, {found.ended} of them with every client at its end"]
    if any(script.parts(it)[0] == "eventually" for it in range(len(script.lines))):
        lines.append("  each goal can still be reached from each state; an unfair or unlucky order may never reach it")
    if found._asked_for_progress():
        lines.append("  each client can still go on from each state where it isn't at its end; an unfair or unlucky order may never let it")
    for store in found.stores:
        lines += _variables("at an end:", {it.variable.number: _shown(it.value) for it in store}, set(), script)
    if found.ended > len(found.stores):
        lines.append(f"  .. and {found.ended - len(found.stores)} more")
    for it in found.warnings:
        lines += [f"  warning: line {it.line}: {it.text}", f"      {script.lines[it.line - 1]}"]
    return lines


def _shown(value: object) -> str:
    return "()" if value is None else str(value)


def _at_line(found: Exploration, script: _Script, last: str) -> list[str]:
    """The line of the fault, what its block does on the last values, and what may be wrong with it if it is an invariant."""
    if found.line is None:
        return []
    word, block = script.parts(found.line - 1)
    lines = [f"  line {found.line}: {script.lines[found.line - 1]}"]
    if word == "finish":
        lines.append(f"      {script.block(found.line)}")
    if found.outcome in ("broken", "failed", "threw") and (does := _does(found, script.block(found.line), last)):
        lines.append(f"  after this order its block {does}")
    if word == "never" and found.outcome == "broken" and not re.search(r"\bretry\b", block):
        lines.append("  hint: the block of a `never` has to retry, and this one can't: of a condition that shouldn't hold write")
        lines.append("      never do { ..; if CONDITION then return () else retry }")
    return lines


def _does(found: Exploration, block: str, last: str) -> str:
    """What a block does on a store, if that has only numbers, Bools and (): `try` of a desk with these variables. The program gets all its
    input at once."""
    cells = re.findall(r"(?m)^#\d+ (\S+) : (Int|Bool|\(\)) = (\S+)$", last)
    if len(cells) != len(_CELL.findall(last)):
        return ""
    declared = [f"{name} : {kind} = {f'({value})' if value.startswith('-') else value}" for name, kind, value in cells]
    by = found._by
    if isinstance(by, list):
        said = run_once([by[0], "run"], "".join(f"tvar {it}\n" for it in declared) + f"try {block}\n")[1].split("\n")[-2:-1]
        verdict = _VERDICT.fullmatch("".join(said))
        if not verdict:
            return ""
        return f"returns {verdict[1]}" if verdict[1] else f"throws {verdict[2]}" if verdict[2] else "retries"
    with Desk(local=True, library=by[0]) as desk:
        for it in declared:
            desk.tvar(it)
        tried = desk.try_(block)
    if isinstance(tried, Commits):
        return f"returns {_shown(tried.result)}"
    return f"throws {tried.fault}" if isinstance(tried, Throws) else "retries"


def _steps(steps: list[TraceStep], last: str, found: Exploration, script: _Script) -> list[str]:
    """The variables at first, each step with what it changed, and the variables at last."""
    store = dict(enumerate(script.first))
    touched: set[int] = {it.number for client in found.clients for it in client.reads}
    first, lines = dict(store), list[str]()
    for step in steps:
        lines += _step(step, script, store, touched)
    end = {int(number): script.named(value) for number, value in _CELL.findall(last)}
    return [*_variables("at first:", first, touched, script), *lines, *_variables("at last:", end, touched, script)]


def _step(step: TraceStep, script: _Script, store: dict[int, str], touched: set[int]) -> list[str]:
    """A step of the order; it is done in the store."""
    word, rest = script.parts(step.line - 1)
    head = f"{step.number:4}  client {step.client}, line {step.line}: "
    writes: list[tuple[int, str]] = []
    if word == "choose":
        name, value = step.text.removeprefix("chooses ").split(None, 1)
        writes, does = [(script.names.index(name), _value(value))], f"chooses {name} = {_value(value)}"
    elif word != "finish":
        return [f"{head}{word} {rest}"]
    else:
        does = script.block(step.line)
    did = _DID.fullmatch(step.text)
    lines = [head + does]
    if did and did["fault"]:
        return [*lines, f"          throws {did['fault']}"]
    base, made = len(store), (did["news"] or "").split() if did else []
    renamed = [re.sub(r"^new(\d+)$", lambda it: f"#{base + int(it[1])}", it) for it in made]
    store.update({base + at: script.named(value) for at, value in enumerate(renamed)})
    if did and did["writes"] != "none":
        pairs = (it.split("=", 1) for it in did["writes"].split(" "))
        writes = [(int(it[1:]), re.sub(r"^new(\d+)$", lambda new: f"#{base + int(new[1])}", value)) for it, value in pairs]
    for at, value in writes:
        before, store[at] = store.get(at, ""), script.named(value)
        touched.add(at)
        change = f" stays {before}" if before == store[at] else f": {before} -> {store[at]}"
        lines.append(f"          {_variable(at, script)}{change}")
    lines += [f"          #{base + at} is new: {store[base + at]}" for at in range(len(made))]
    return lines if writes or made else [*lines, "          changes nothing"]


def _variable(number: int, script: _Script) -> str:
    return script.named(f"#{number}")


def _variables(head: str, store: dict[int, str], touched: set[int], script: _Script) -> list[str]:
    """The variables with their values on lines of at most WIDTH columns; if there are more than MOST, those that are touched alone, or
    the first if none is."""
    shown = [at for at in store if at in touched or len(store) <= MOST] or [*store][:MOST]
    if not shown:
        return []
    text = ", ".join(f"{_variable(at, script)} = {script.named(store[at])}" for at in shown)
    left = f", and {len(store) - len(shown)} more" if len(shown) < len(store) else ""
    return textwrap.wrap(f"  {head} {text}{left}", WIDTH, subsequent_indent="      ", break_long_words=False, break_on_hyphens=False)


def _clients(found: Exploration, script: _Script) -> list[str]:
    """Where each client is."""
    at, lines = {it.client: it for it in found.clients}, list[str]()
    for client in range(script.clients):
        lines += _client(at[client], script) if client in at else [f"  client {client} is at its end"]
    return lines


def _client(it: ClientAt, script: _Script) -> list[str]:
    reads = ", ".join(f"{_variable(ref.number, script)} = {_shown(value)}" for ref, value in it.reads.items())
    does = {
        "waits": f"waits, since it read {reads or 'nothing'}",
        "ready": "can go on",
        "refused": "can't finish, since the store is full",
        "fails": "fails",
    }[it.what]
    word = script.parts(it.line - 1)[0]
    next_step = script.block(it.line) if word == "finish" else script.lines[it.line - 1]
    return [f"  client {it.client}, line {it.line}: {does}", f"      {next_step}"]


def main(words: Sequence[str], name: str) -> int:
    """The command `name` with these words: explores the script in a file, and prints the report."""
    parser = argparse.ArgumentParser(
        name,
        description="Explores the script in a file, as `stmdesk explore` does, and prints what was found with the names of the variables "
        "and the lines of the script: of a fault each step that leads there, and of an invalid line its place and a hint.",
        epilog="Brackets and braces that are open in a line join it with those below it that are indented deeper. Exit statuses: 0 right, 1 a "
        "line of the script is invalid, or the file can't be read, 2 the words are wrong, 3 a fault or "
        "incomplete, 4 out of memory. The options are those of `stmdesk explore` (docs/EXPLORE.md).",
        allow_abbrev=False,
    )
    parser.add_argument("script", metavar="SCRIPT", nargs="?", default="-", help="the file of the script; without it, or by -, standard input")
    parser.add_argument("--progress", action="store_true", help="it is a fault if a client can't ever do its next step")
    parser.add_argument("--all", action="store_true", help="explores every state")
    parser.add_argument("--allow-throws", action="store_true", help="takes no throw of a block for a fault")
    parser.add_argument("--max-states", type=int, metavar="N", help="how many states may be kept; 1,000,000 if nothing is said")
    parser.add_argument("--trace", action="store_true", help="changes nothing, since a report has each step of the order")
    parser.add_argument("--history", action="store_true", help="prints the history of the fault instead, for check and tools/view")
    plain = "explores nothing, and prints the script with each block on one line, as the program takes it"
    parser.add_argument("--plain", action="store_true", help=plain)
    parser.add_argument("--program", metavar="PROGRAM", help="the program; without it that of find_program()")
    asked = parser.parse_args(words)
    try:
        return _main(asked, name)
    except KeyboardInterrupt:
        print(f"\n{name}: it was broken off", file=sys.stderr)
        return 130
    except BrokenPipeError:  # who reads the output has ended
        os.dup2(os.open(os.devnull, os.O_WRONLY), sys.stdout.fileno())
        return 1


def _main(asked: argparse.Namespace, name: str) -> int:
    try:
        script = sys.stdin.buffer.read() if asked.script == "-" else Path(asked.script).read_bytes()
    except OSError as error:
        print(f"{name}: {asked.script}: {os.strerror(error.errno or 0)}", file=sys.stderr)
        return 1
    if asked.plain:  # byte for byte, but for the blocks
        sys.stdout.buffer.write(one_line(script.decode(errors="surrogateescape")).encode(errors="surrogateescape"))
        sys.stdout.flush()
        return 0
    text = script.decode(errors="replace")
    has_ended = threading.Event()
    if sys.stderr.isatty():
        threading.Thread(target=_say_progress, args=(name, has_ended), daemon=True).start()
    try:
        found = explore(
            text,
            program=asked.program,
            max_states=asked.max_states,
            all=asked.all,
            allow_throws=asked.allow_throws,
            progress=asked.progress,
        )
        said = found.history() if asked.history else report(found)
        has_ended.set()
        if said is None:
            print(f"{name}: {found.outcome}: there is no history of a fault", file=sys.stderr)
        print(said or "", end="", flush=True)
    except ScriptRefused as refused:
        print(_refused("script" if asked.script == "-" else asked.script, text, refused), file=sys.stderr)
        return 1
    except Ended as ended:
        print(f"{name}: {ended}", file=sys.stderr)
        return ended.status if 0 < ended.status < 5 else 1
    except BrokenPipeError:
        raise
    except (DeskError, OSError) as error:
        print(f"{name}: {error}", file=sys.stderr)
        return 1
    finally:
        has_ended.set()
    return 0 if found else 3


def _say_progress(name: str, has_ended: threading.Event) -> None:
    """Says after 5, 10, 20 .. seconds that the search goes on, until it has ended."""
    passed, after = 0, 5
    while not has_ended.wait(after - passed):
        print(f"{name}: still searching after {after} s", file=sys.stderr, flush=True)
        passed, after = after, 2 * after


def _refused(file: str, text: str, refused: ScriptRefused) -> str:
    """What is wrong with a line, with its number and the column in the file, both counted from 1."""
    where = f"{file}:{refused.line}"
    if refused.place is not None:
        lines = "\n".join(lines_from(text, refused.line))
        argument = re.match(r"[ \t\r]*[^ \t\r\n]+[ \t\r\n]*", lines)
        before = lines[: (argument.end() if argument else 0) + refused.place]
        where = f"{file}:{refused.line + before.count(chr(10))}:{len(before) - before.rfind(chr(10))}"
    said, *shown = str(refused).split("\n")
    if refused.text:
        said = said.partition(" is refused: ")[2] or "refused"
    return "\n".join([f"{where}: {said}", *shown])


if __name__ == "__main__":
    sys.exit(main(sys.argv[1:], "python -m stmdesk.report"))
