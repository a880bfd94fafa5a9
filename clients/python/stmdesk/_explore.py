"""Explores every order of the steps of a script's clients."""

from __future__ import annotations

import os
import re
from dataclasses import dataclass, field
from operator import index
from typing import Literal, cast

from ._answers import Answers
from ._commands import decimal
from ._errors import BadAnswer, Ended, ScriptRefused
from ._hints import script_hint
from ._lines import in_places, joined, lines_from
from ._local import File
from ._program import check_built, find_program, run_once
from ._stateless import MAX_STATES, STATES, explore_once, library_of
from ._values import FinalStore, Ref, Value

Outcome = Literal["right", "incomplete", "deadlock", "broken", "missed", "failed", "threw", "stuck", "never reached"]
ClientState = Literal["waits", "ready", "refused", "fails"]

_AT_A_LINE = ("broken", "missed", "failed", "threw", "never reached")

_FOUND = re.compile(
    r"states (?P<states>\d+) steps (?P<steps>\d+)\nended (?P<ended>\d+)\n(?P<stores>(?:(?:#.*\n)*cells \d+\n)*)"
    r"(?:(?P<end>right|incomplete)\n"
    r"|(?P<fault>deadlock|broken|missed|failed|threw|stuck|never reached)(?: line (?P<line>\d+)| client (?P<client>\d+))?\n"
    r"order (?P<order>.*)\n(?P<choices>(?:chose line .*\n)*)(?P<clients>(?:client .*\n)*))"
)
_STORE = re.compile(r"(?:#.*\n)*cells \d+\n")
_CHOICE = re.compile(r"chose line (\d+) (.+)")
_STEP = re.compile(r"(?m)^step (\d+) client (\d+) line (\d+) (.+)$")
_CLIENT = re.compile(r"client (\d+) line (\d+) (waits|ready|refused|fails)(?: (.+))?")
_WARNING = re.compile(r"(?m)^stmdesk: warning: line (\d+): (.+)$")
_DECLARED = re.compile(r"(?m)^[ \t\r]*tvar[ \t\r]+([a-z][A-Za-z0-9_']*)(?:[ \t\r]*:[ \t\r]*([^=\n]*[^=\s]))?")
REFUSED = re.compile(r"(?m)^stmdesk: script line (\d+)(?:: (.+?)(?: (\d+))?)?$")


@dataclass(frozen=True)
class ClientAt:
    """Where a client is in the state with the fault, if it isn't at its end: the line of its next step, and `what` about that.

    It "waits", since the block retries, for one of the variables that the block read, `reads`, to change; it is "ready" to
    do the step; the step is "refused", since a store has no room for the variables that the block makes; or it is an assertion
    that "fails".

    >>> explore("tvar x : Int = 1\\nclient\\nsubmit do { a <- readTVar x; retry }\\nfinish 1").clients
    [ClientAt(client=0, line=4, what='waits', reads={Ref(0, 'x'): 1})]
    """

    client: int
    line: int
    what: ClientState
    reads: dict[Ref, Value]


@dataclass(frozen=True)
class LineWarning:
    """A line of a script that may be a mistake, though nothing is wrong: its number, counted from 1, and why.

    >>> explore("tvar x : Int = 1\\nclient\\nsubmit writeTVar x 2").warnings
    [LineWarning(line=3, text='no `finish` and no `cancel` names this block')]
    """

    line: int
    text: str


@dataclass(frozen=True)
class TraceStep:
    """What a step of the order that leads to a fault did: its number, counted from 1, its client, the line of the step, and as `text` the
    rest of the line that `explore --trace` prints (docs/EXPLORE_REFERENCE.md, "Output"), such as the block and what it wrote.

    >>> explore("tvar x : Int = 0\\nclient\\nsubmit writeTVar x 5\\nfinish 1\\nsubmit retry\\nfinish 2").trace()
    [TraceStep(number=1, client=0, line=4, text='writeTVar x 5 writes #0=5')]
    """

    number: int
    client: int
    line: int
    text: str


@dataclass(frozen=True)
class Exploration:
    """What `explore` found. It is true if `outcome` is "right", and as text it is what the program prints.

    `states`, `steps` and `ended` are the numbers of the states that were met, of the steps that go from them, and of those states
    in which every client is at its end; `stores` are the stores of the first ten of these. Unless all states were asked for, some
    that can't matter may not have been met, but none in which every client is at its end. `outcome` is

    - "right": no order of the steps leads to a fault;
    - "incomplete": more than `max_states` states can be reached, and no fault was found;
    - "deadlock": in a state that can be reached nobody can go on;
    - "broken": in such a state the invariant of line `line` doesn't hold;
    - "missed": in such a state the expectation of line `line` isn't met;
    - "failed": in such a state the assertion of line `line` fails;
    - "threw": in such a state the block throws that the `finish` of line `line` finishes, and isn't allowed to;
    - "stuck": from such a state on the client `client` can't ever do its next step, though others may go on, and progress was asked for;
    - "never reached": from such a state on the block of the `eventually` of line `line` can't ever return `True`.

    After a fault `order` are the clients in the order of their steps that leads there, `choices` the line and the value of each `choose`
    of this order, in their turn, and `clients` where each client is that isn't at its end. Else `order` is None, and the others are
    empty. No shorter order leads to a fault, unless more than `max_states` states can be reached. If the outcome is "right", `warnings`
    are the lines that may be mistakes (docs/EXPLORE_REFERENCE.md, "Output").

    >>> found = explore('''
    ...     tvar x : Int = 0
    ...     always do { a <- readTVar x; return (a < 2) }
    ...     client
    ...     submit do { a <- readTVar x; writeTVar x (a + 1) }
    ...     finish 1
    ...     client
    ...     submit do { a <- readTVar x; writeTVar x (a * 2) }
    ...     finish 1
    ... ''')
    >>> bool(found), found.outcome, found.line, found.order
    (False, 'broken', 3, (0, 1))
    >>> print(found)
    states 5 steps 4
    ended 0
    broken line 3
    order 0 1
    """

    states: int
    steps: int
    ended: int
    stores: list[FinalStore]
    outcome: Outcome
    line: int | None
    order: tuple[int, ...] | None
    clients: list[ClientAt]
    choices: list[tuple[int, Value]]
    text: str = field(repr=False)
    script: str = field(repr=False)
    _by: list[str] | tuple[str, int, bool, bool, bool] = field(repr=False, compare=False)  # a command, or the library and the options
    warnings: list[LineWarning] = field(default_factory=list, repr=False)
    client: int | None = field(default=None, repr=False)

    def __bool__(self) -> bool:
        return self.outcome == "right"

    def __str__(self) -> str:
        return self.text.removesuffix("\n")

    def history(self) -> str | None:
        """The history of the order that leads to the fault, which `check` and tools/timeline read; None if there is no fault.

        It explores once more. Raises `Ended` if the history would have more events than a history may have.

        >>> print(explore("client\\nsubmit retry\\nfinish 1").history(), end="")
        {"format":3,"vars":0}
        {"block":"retry","client":0,"event":"submitted","ticket":1}
        {"client":1,"event":"installed","ticket":1,"verdict":"blocks"}
        """
        return None if self.order is None else self._more("history")

    def trace(self) -> list[TraceStep] | None:
        """What each step of the order that leads to the fault did; None if there is no fault.

        It explores once more. Raises `Ended` if the program ends otherwise, for example since it is out of memory.

        >>> found = explore('''
        ...     tvar x : Int = 0
        ...     client
        ...     submit do { a <- readTVar x; writeTVar x (a + 1) }
        ...     finish 1
        ...     expect x 2
        ... ''')
        >>> for step in found.trace():
        ...     print(step.number, step.client, step.line, step.text)
        1 0 5 do { a <- readTVar x; writeTVar x (a + 1) } writes #0=1
        """
        return None if self.order is None else self._traced()[0]

    def report(self) -> str:
        """What was found, for people: the lines of the script, and the variables by their names. After a fault it has each step of the order,
        with what it changed, and where each client is then; if nothing is wrong, the stores in which all clients have ended, and the
        warnings. `python -m stmdesk.report FILE` and tools/explore print it. The text may differ from version to version.

        After a fault it explores once more, as `trace` does, and raises `Ended` for the same reasons.

        >>> print(explore('''
        ...     tvar x : Int = 0
        ...     client
        ...     submit do { a <- readTVar x; writeTVar x (a + 1) }
        ...     finish 1
        ...     expect x 2
        ... ''').report(), end="")
        missed: after this order the variable hasn't the value that line 6 expects
          line 6: expect x 2
          at first: x = 0
           1  client 0, line 5: do { a <- readTVar x; writeTVar x (a + 1) }
                  x: 0 -> 1
          at last: x = 1
          client 0, line 6: can go on
              expect x 2
        """
        from .report import report

        return report(self)

    def _traced(self) -> tuple[list[TraceStep], str]:
        """The trace of a fault, and below it the lines of the store."""
        printed = self._more("trace")
        steps = [TraceStep(int(number), int(client), int(line), text) for number, client, line, text in _STEP.findall(printed)]
        if [(it.number, it.client) for it in steps] != [*enumerate(self.order or (), 1)]:
            raise BadAnswer("explore", printed)
        return steps, [*_STORE.findall(printed)][-1]

    def _asked_for_progress(self) -> bool:
        return "--progress" in self._by if isinstance(self._by, list) else self._by[4]

    def _more(self, what: Literal["history", "trace"]) -> str:
        """Explores once more, and returns what is printed with this option."""
        status, printed, said = _explored(self._by, self.script, what)
        if status != 3 or not printed:
            raise Ended(status, said)
        return printed


def explore(
    script: str,
    *,
    program: str | os.PathLike[str] | None = None,
    max_states: int | None = None,
    all: bool = False,
    allow_throws: bool = False,
    progress: bool = False,
    local: bool = False,
    library: File | None = None,
) -> Exploration:
    """Tries every order in which the clients of a script can do their steps, by `program explore`.

    docs/EXPLORE.md says what a script is. Here a block may be on several lines: a line in which brackets or braces are open goes on in the
    lines below it that are indented deeper, or begin with a closing one. At most `max_states` states are kept, 1,000,000 if nothing else is given. With
    `all` each state that can be reached is met and counted; else those that can't matter may be left out. With `allow_throws` no
    throw of a block is a fault. With `progress` it is a fault if a client can't ever do its next step again, and each state is met, as with
    `all`. Without `program` it runs what `find_program` returns. Raises `ScriptRefused` if a line of the
    script is invalid, and `Ended` if the program ends otherwise, for example since it is out of memory.

    With `local` no program is run: the script is explored in this process, by the library `libstmdesk.so` at the path `library`, or else by
    what `find_library` returns. Raises OSError if the library can't be loaded, and `OutOfMemory`. A library up to version 0.25.0 reports
    no warnings, and of an invalid line only its number. An exception of a signal handler then comes after the exploration.

    >>> found = explore('''
    ...     tvar a : Int = 100
    ...     tvar b : Int = 0
    ...     always do { x <- readTVar a; y <- readTVar b; return (x + y == 100) }
    ...     client
    ...     submit do { x <- readTVar a; y <- readTVar b; writeTVar a (x - 30); writeTVar b (y + 30) }
    ...     finish 1
    ... ''')
    >>> found
    Exploration(states=2, steps=1, ended=1, stores=[[FinalCell(variable=Ref(0, 'a'), name='a', type='Int', value=70), \
FinalCell(variable=Ref(1, 'b'), name='b', type='Int', value=30)]], outcome='right', line=None, order=None, clients=[], choices=[])
    >>> assert found, found
    """
    if not isinstance(script, str):
        raise TypeError(f"a script is a text, not {type(script).__name__}")
    by = _asked(program, max_states, all, allow_throws, progress, library_of(local, library, program=program))
    status, printed, said = _explored(by, script)
    if status == 1 and REFUSED.search(said):
        raise script_refusal(said, script)
    if status not in (0, 3):
        raise Ended(status, said)
    try:
        found = _read(printed, said, script, by)
    except (ValueError, LookupError):
        raise BadAnswer("explore", printed or said) from None
    if bool(found) != (status == 0):
        raise BadAnswer("explore", f"{printed}with status {status}")
    return found


def script_refusal(said: str, script: str) -> ScriptRefused:
    """What the program said of the first invalid line of a script: its number, and then the same with the reason."""
    line, reason, place = REFUSED.findall(said)[-1]
    lines = lines_from(script, int(line)) or [""]
    types = dict(_DECLARED.findall("\n".join(script.split("\n")[: int(line) - 1])))
    word, *argument = joined(lines).strip().split(None, 1)[:2] or [""]
    at = int(place) if place else None
    return ScriptRefused(int(line), "\n".join(lines).strip(), reason, at, script_hint(reason, at, word, "".join(argument), types))


def _asked(
    program: str | os.PathLike[str] | None, max_states: int | None, all: bool, allow_throws: bool, progress: bool, library: str | None
) -> list[str] | tuple[str, int, bool, bool, bool]:
    """The command that explores with these options, or the library at this path with them."""
    if library is not None:
        states = STATES if max_states is None else index(max_states)
        if not 1 <= states <= MAX_STATES:
            raise ValueError(f"max_states={max_states!r} isn't from 1 to {MAX_STATES}")
        return library, states, all, allow_throws, progress
    path = find_program() if program is None else os.fspath(program)
    options = [] if max_states is None else ["--max-states", decimal(max_states)]
    options += ["--all"] if all else []
    options += ["--allow-throws"] if allow_throws else []
    options += ["--progress"] if progress else []
    check_built(path)
    return [path, "explore", *options]


def _explored(
    by: list[str] | tuple[str, int, bool, bool, bool], script: str, more: Literal["", "history", "trace"] = ""
) -> tuple[int, str, str]:
    """The exit status of an exploration, and what it writes to the two outputs, with `more` the history or the trace of a fault."""

    def ran(text: str) -> tuple[int, str, str]:
        if isinstance(by, list):
            return run_once([*by, f"--{more}"] if more else by, text)
        return explore_once(*by, text, more)

    return in_places(script, ran)


def _read(printed: str, said: str, script: str, by: list[str] | tuple[str, int, bool, bool, bool]) -> Exploration:
    """What the program printed of a script, and said on standard error. Raises ValueError or LookupError if it never prints such a text."""
    answers, found = Answers(), _FOUND.fullmatch(printed)
    if not found or (found["line"] is None) == (found["fault"] in _AT_A_LINE) or (found["client"] is None) == (found["fault"] == "stuck"):
        raise ValueError("no exploration")
    answers.refs = {f"#{number}": Ref(number, name) for number, (name, _) in enumerate(_DECLARED.findall(script))}
    order = None if found["order"] is None else tuple(int(it) for it in found["order"].split(" ") if it != "none")
    return Exploration(
        int(found["states"]),
        int(found["steps"]),
        int(found["ended"]),
        [answers.final_cells(it.splitlines()) for it in _STORE.findall(found["stores"])],
        cast(Outcome, found["end"] or found["fault"]),
        None if found["line"] is None else int(found["line"]),
        order,
        [_client(answers, it) for it in (found["clients"] or "").splitlines()],
        [(int(line), answers.value(value)) for line, value in _CHOICE.findall(found["choices"] or "")],
        printed,
        script,
        by,
        [LineWarning(int(line), text) for line, text in _WARNING.findall(said)],
        None if found["client"] is None else int(found["client"]),
    )


def _client(answers: Answers, line: str) -> ClientAt:
    """A line of a client: `client 0 line 4 waits #0=1`"""
    found = _CLIENT.fullmatch(line)
    if not found or (found[3] in ("ready", "fails")) != (found[4] is None):
        raise ValueError("no client")
    client, number, what, rest = found.groups()
    return ClientAt(int(client), int(number), cast(ClientState, what), answers.pairs(rest.split(" ")) if what == "waits" else {})
