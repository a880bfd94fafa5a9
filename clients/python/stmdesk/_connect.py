"""`connect`: a desk at a server."""

from __future__ import annotations

import os
from collections.abc import Sequence

from ._desk import Desk
from ._session import Session

PATIENCE = 30.0  # seconds that a desk tries to connect again

Paths = str | bytes | os.PathLike[str] | os.PathLike[bytes]


def session(paths: Sequence[Paths], reconnect: bool | None, patience: float, keep: bool, *, is_waiting: bool) -> Session:
    if not paths:
        raise TypeError("connect() needs the path of a socket")
    is_again = len(paths) > 1 if reconnect is None else reconnect
    if len(paths) > 1 and not is_again:
        raise ValueError("the leader of several servers may change: reconnect=False goes with one path")
    return Session([os.fsdecode(it) for it in paths], reconnect=is_again, patience=patience, keep=keep, is_waiting=is_waiting)


def connect(*paths: Paths, reconnect: bool | None = None, patience: float = PATIENCE, keep: bool = False) -> Desk:
    """A desk at a server (docs/SERVER.md), which several processes share. `paths` is the path of its socket; or those of several replicas,
    of which one leads.

    It has all methods of a `Desk`. When the connection ends, the blocks that wait for it are cancelled; with `keep` those of `submit` go
    on waiting. A call whose answer doesn't come raises `OutcomeUnknown`, and calls after that raise `DeskClosed`. With `reconnect`, which
    is on for several paths, the desk connects again, for at most `patience` seconds after a connection broke; then a call raises
    `OutcomeUnknown` only if the server no longer knows of it, as after its end. After `patience` seconds the desk gives up: what is under way
    raises `DeskClosed`, or `OutcomeUnknown` if it was sent, and the next call tries again for as long. Raises `DeskClosed` if there is
    no server, or one that doesn't answer within `patience` seconds.

    >>> import subprocess, sys, tempfile
    >>> path = tempfile.mkdtemp() + "/socket"
    >>> server = subprocess.Popen([sys.executable, "-m", "stmdesk.server", path], stderr=subprocess.DEVNULL)
    >>> with connect(path, reconnect=True) as one, connect(path) as other:
    ...     x = one.variable("x : Int = 1"), other.variable("x : Int = 1")
    ...     one.atomically("writeTVar x 5")
    ...     print(*x, other.value("x"))
    x x 5
    >>> server.terminate(), server.wait()
    (None, 0)
    """
    transport = session(paths, reconnect, patience, keep, is_waiting=True)
    desk = Desk._over(transport, patience)
    transport.has_desk = True
    return desk
