"""Drives the program stmdesk from Python: one process, one method for each command, answers as typed values.

>>> with Desk() as desk:
...     x = desk.tvar("x : Int = 1")
...     ticket = desk.submit("do { a <- readTVar x; writeTVar x (a + 1); return a }")
...     print(desk.eval())
...     print(desk.finish(ticket))
...     print(desk.store())
1
Finished(ticket=1, result=1, stale=[])
[Cell(variable=Ref(0, 'x'), name='x', type='Int', value=2, count=1)]

A value of the language is a value of Python: a number is an `int`, `True` and `False` are a `bool`, `()` is `None`, `#0` is
`Ref(0)`, and `new0`, the first variable that a block itself makes, is `NewRef(0)`. In Python `True == 1`, so ask for the
type if a block could return either. docs/CONSOLE.md says what each command does, and docs/LANGUAGE.md what a block is. A line
feed in a block is a blank.

A block is a text: `do` makes one of its steps, `literal` writes a value, and `or_else` gives alternatives.

`Desk.atomically` runs a block and waits while it retries; `Desk.batch` gives many commands in one go; `Desk.ready` says which
tickets can be finished, `Desk.why` what one waits for, `Desk.board` who waits for what, and `Desk.events` what has happened since; `Desk(journal=PATH)` keeps
the history in a file, and goes on from there at the next start; `Desk.checkpoint` lets the events so far go; `stmdesk.aio` is the same for asyncio. `explore` needs no desk:
it tries every order of the steps of a script's clients; and `check` judges a history in a file. `connect(PATH)` is a desk at a server, which
several processes share (docs/SERVER.md); `python -m stmdesk.server` is that server.

A call raises `Refused` if the program refuses the command; `Stopped`, which is a `Refused`, if a `settle` stopped; `Ended` if
the program ended, and `JournalError`, which is an `Ended`, if that was because of its journal; `BadAnswer` if the program
printed what stmdesk never prints; `ValueError` or `TypeError` for an argument that is no text or number of the right kind, in
which case nothing is sent. `atomically` also raises `Thrown`, `TimedOut` and `Cancelled`. A desk of `connect` raises `DeskClosed` if no server
takes the call, and `OutcomeUnknown` if its answer didn't come.

`Desk(local=True)` is a desk in this process, by a library in place of the program (docs/EMBEDDING.md). It starts nothing; a call may raise
`OutOfMemory`.
"""

from typing import TYPE_CHECKING

from ._batch import Batch
from ._blocks import do, literal, or_else
from ._check import Checked, Finding, check
from ._commands import Answer
from ._connect import connect
from ._desk import Desk
from ._errors import (
    BadAnswer, Cancelled, DeskClosed, DeskError, Ended, JournalError, OtherType, OutcomeUnknown, OutOfMemory, Refused, ScriptRefused, Stopped, Thrown,
    TimedOut,
)  # fmt: skip
from ._explore import ClientAt, ClientState, Exploration, LineWarning, Outcome, TraceStep, explore
from ._local import find_library
from ._program import find_program
from ._values import (
    Blocks, Cancellation, Cell, Change, Commits, Current, Declaration, Delivery, Entry, Event, Events, Fault, FinalCell, FinalStore, Finish,
    Finished, FinishedThrows, Job, Labelling, New, NewRef, Ready, Reason, Ref, Settled, Stale, StaleBefore, StaleBy, Status, Store,
    Submission, Throws, Value, Verdict, Waiting, Waits,
)  # fmt: skip

__version__ = "0.30.0"

__all__ = [
    "Answer", "BadAnswer", "Batch", "Blocks", "Cancellation", "Cancelled", "Cell", "Change", "Checked", "ClientAt", "ClientState", "Commits",
    "Current", "Declaration", "Delivery", "Desk", "DeskClosed", "DeskError", "Ended", "Entry", "Event", "Events", "Exploration", "Fault", "FinalCell",
    "FinalStore", "Finding",
    "Finish", "Finished", "FinishedThrows", "Job", "JournalError", "Labelling", "LineWarning", "New", "NewRef", "OtherType", "OutOfMemory", "Outcome", "OutcomeUnknown", "Ready", "Reason",
    "Ref", "Refused", "ScriptRefused", "Settled", "Stale", "StaleBefore", "StaleBy", "Status", "Stopped", "Store", "Submission", "Thrown", "Throws",
    "TimedOut", "TraceStep", "Value", "Verdict", "Waiting", "Waits", "check", "connect", "do", "explore", "find_library",
    "find_program", "literal", "or_else",
]  # fmt: skip

for _name in __all__:
    _it = globals()[_name]
    if isinstance(_it, type) or _it in (check, connect, do, explore, find_library, find_program, literal, or_else):
        _it.__module__ = __name__  # so that a traceback says stmdesk.Refused, which can be imported
del _it, _name

if not TYPE_CHECKING:  # else every name would be one of the package

    def __getattr__(name: str) -> object:
        """`stmdesk.aio` after `import stmdesk` alone, which doesn't import asyncio.

        >>> import stmdesk
        >>> stmdesk.aio.Desk
        <class 'stmdesk.aio.Desk'>
        """
        if name != "aio":
            raise AttributeError(f"module {__name__!r} has no attribute {name!r}")
        from importlib import import_module

        return import_module(".aio", __name__)
