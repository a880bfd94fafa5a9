"""Checks a history in a file."""

from __future__ import annotations

import os
import re
from dataclasses import dataclass
from pathlib import Path
from typing import Literal, cast

from ._errors import BadAnswer, Ended
from ._local import File
from ._program import check_built, find_program, run_once
from ._stateless import check_once, library_of

Finding = Literal["legal", "bad header", "bad line", "not legal"]

_PRINTED = re.compile(
    r"(?:(?P<legal>legal) (?P<events>\d+) events|(?P<header>bad header)|(?P<bad>bad line|not legal) (?P<line>\d+))\n"
    r"(?P<why>(?:line (?P<at>\d+) )?(?:expected (?P<expected>.+)|refused (?P<refused>.+)|unreadable)\n)?"
)


@dataclass(frozen=True)
class Checked:
    """What `check` found of a history. It is true if the history is legal, and as text it is what the program prints.

    `finding` is "legal", "bad header", "bad line" or "not legal", and `events` the number of the events of a legal history, else None.
    `line` is the number of the first line that isn't accepted, counted from 1 with the header; None if the history is legal, or if the
    header is bad and neither `why` nor `local` was asked.

    With `why`, `expected` is the line that would be accepted there for the same call, or `refused` why a desk refuses that call there, as
    "Stale"; both are None if the line can't be read, if the history is legal, or without `why`.

    >>> import tempfile
    >>> from pathlib import Path
    >>> with tempfile.TemporaryDirectory() as folder:
    ...     file = Path(folder) / "history"
    ...     size = file.write_text('{"format":3,"vars":0}\\n{"client":0,"event":"cancelled","ticket":7}\\n')
    ...     found = check(file, why=True)
    >>> found.finding, found.line, found.refused
    ('not legal', 2, 'NoTicket')
    >>> print(found)
    not legal 2
    refused NoTicket
    """

    finding: Finding
    events: int | None
    line: int | None
    expected: str | None
    refused: str | None
    text: str

    def __bool__(self) -> bool:
        return self.finding == "legal"

    def __str__(self) -> str:
        return self.text.removesuffix("\n")


def check(
    path: str | os.PathLike[str],
    *,
    why: bool = False,
    program: str | os.PathLike[str] | None = None,
    local: bool = False,
    library: File | None = None,
) -> Checked:
    """Whether the file at this path is a legal history, by `program check` (docs/HISTORY.md).

    With `why` also what would be accepted in place of the first line that isn't, by `check --why`. Without `program` it runs what
    `find_program` returns. Raises OSError if the file can't be read, and `Ended` if the program ends otherwise, for example since it is
    out of memory.

    With `local` no program is run: the history is checked in this process, by the library `libstmdesk.so` at the path `library`, or else
    by what `find_library` returns. Raises OSError if the library can't be loaded, `OutOfMemory`, and ValueError together with `why`.

    >>> import tempfile
    >>> from pathlib import Path
    >>> with Desk() as desk, tempfile.TemporaryDirectory() as folder:
    ...     x = desk.tvar("x : Int = 1")
    ...     ticket = desk.submit("readTVar x")
    ...     evaluated = desk.eval()
    ...     file = Path(folder) / "history"
    ...     size = file.write_text(desk.history())
    ...     print(check(file))
    ...     size = file.write_text(desk.history().replace('"result":1', '"result":2'))
    ...     found = check(file, why=True)
    legal 2 events
    >>> bool(found), found.finding, found.line
    (False, 'not legal', 4)
    >>> print(found.expected)
    {"client":0,"event":"installed","ticket":1,"verdict":{"commits":{"news":[],"result":1,"writes":[]}}}
    """
    called = library_of(local, library, program=program, why=why)
    if called is not None:
        text, fault = check_once(called, Path(path).read_bytes())
        return _checked(text, fault)
    command = [find_program() if program is None else os.fspath(program), "check"]
    check_built(command[0])
    status, printed, said = run_once(command + ["--why"] * why, Path(path).read_bytes())
    if status not in (0, 3):
        raise Ended(status, said)
    found = _PRINTED.fullmatch(printed)
    if not found or bool(found["legal"]) != (status == 0) or bool(found["why"]) != (why and status == 3):
        raise BadAnswer("check", printed or said)
    line = found["line"] or found["at"]
    return _checked(printed, int(line) if line else None)


def _checked(printed: str, line: int | None) -> Checked:
    """What was found, by what the program prints, with the line of the fault."""
    found = _PRINTED.fullmatch(printed)
    assert found
    return Checked(
        cast(Finding, found["legal"] or found["header"] or found["bad"]),
        int(found["events"]) if found["events"] else None,
        line,
        found["expected"],
        found["refused"],
        printed,
    )
