"""Checks histories and explores scripts by the library libstmdesk.so (docs/EMBEDDING.md), without a desk and without a process."""

from __future__ import annotations

import ctypes
import os
from contextlib import suppress
from functools import lru_cache
from typing import Any, NamedTuple

from ._errors import BadAnswer, OutOfMemory
from ._local import File, _Fed, _Handle, find_library

# Statuses of include/stmdesk.h.
LEGAL = RIGHT = 0
NO_MEMORY, BAD_HEADER, BAD_LINE, NOT_LEGAL, FAULTY, INCOMPLETE, BAD_SCRIPT, NO_ROOM = range(2, 10)
STATES = 1_000_000  # that an exploration keeps at most, if nothing is said
MAX_STATES = (1 << 32) - 1


class _Seed(ctypes.Structure):
    _fields_ = [("first", ctypes.c_uint64), ("second", ctypes.c_uint64)]


class _Checked(ctypes.Structure):
    _fields_ = [(name, ctypes.c_uint32) for name in ("events", "waiting", "cells", "line")]


class _ExploreOptions(ctypes.Structure):
    _fields_ = [("max_states", ctypes.c_uint32), *((name, ctypes.c_bool) for name in ("history", "all", "allow_throws", "trace", "progress"))]


class _Explored(ctypes.Structure):
    _fields_ = [("length", ctypes.c_size_t), ("line", ctypes.c_uint32)]


class _Functions(NamedTuple):
    """Functions of include/stmdesk.h. Python's other threads go on during a call."""

    check: Any
    explore: Any  # with diagnostics, if the library has them
    feed: Any
    free: Any


@lru_cache(maxsize=None)
def _load(path: str) -> _Functions:
    """Loads the library. Raises OSError if it can't be loaded, or has other functions."""
    loaded, address, text, size = ctypes.CDLL(path), ctypes.c_void_p, ctypes.c_char_p, ctypes.c_size_t
    try:
        functions = _Functions(loaded.stmdesk_check, loaded.stmdesk_explore, loaded.stmdesk_feed, loaded.stmdesk_free)
        with suppress(AttributeError):  # a library up to 0.25.0 has no diagnostics
            functions = functions._replace(explore=loaded.stmdesk_explore_with_diagnostics)
    except AttributeError as error:
        raise OSError(f"{path} is no library of stmdesk that checks and explores: {error}") from None
    functions.check.argtypes, functions.check.restype = [text, size, address, address], ctypes.c_uint32
    functions.explore.argtypes, functions.explore.restype = [text, size, address, address, address], ctypes.c_uint32
    functions.feed.argtypes, functions.feed.restype = [address, text, size, address, size, address], ctypes.c_uint32
    functions.free.argtypes, functions.free.restype = [_Handle], None
    return functions


def library_of(local: bool, library: File | None, **of_a_process: object) -> str | None:
    """The path of the library that is to be called, or None if a program is to be run. Raises ValueError for an option of the other."""
    if not local:
        if library is not None:
            raise ValueError(f"library={library!r} goes with local=True")
        return None
    for name, value in of_a_process.items():
        if value:
            raise ValueError(f"{name}={value!r} doesn't go with local=True: it needs the program")
    return find_library() if library is None else os.path.abspath(os.fsdecode(library))


def check_once(library: str, history: bytes) -> tuple[str, int | None]:
    """What the program prints of a history, and the line of the fault if there is one. Raises `OutOfMemory`."""
    seed, checked = _Seed.from_buffer_copy(os.urandom(16)), _Checked()
    status = _load(library).check(history, len(history), ctypes.byref(seed), ctypes.byref(checked))
    if status == NO_MEMORY:
        raise OutOfMemory("a check")
    line = checked.line or None
    printed = {LEGAL: f"legal {checked.events} events", BAD_HEADER: "bad header", BAD_LINE: f"bad line {line}", NOT_LEGAL: f"not legal {line}"}
    if status not in printed:
        raise BadAnswer("check", f"status {status}")
    return f"{printed[status]}\n", line


def explore_once(
    library: str, max_states: int, all: bool, allow_throws: bool, progress: bool, script: str, more: str = ""
) -> tuple[int, str, str]:
    """The exit status of the program that explores this script, and what it writes to its two outputs. `more` is "history" or "trace" if
    that is wanted. Raises `OutOfMemory`."""
    functions, lines = _load(library), script.encode()
    options = _ExploreOptions(max_states, more == "history", all, allow_throws, more == "trace", progress)
    text, explored = _Handle(), _Explored()
    status = functions.explore(lines, len(lines), ctypes.byref(options), ctypes.byref(text), ctypes.byref(explored))
    if status == NO_MEMORY:
        raise OutOfMemory("an exploration")
    try:
        printed, waiting = _front(functions, text, explored.length)
        said, _ = _front(functions, text, waiting)
    finally:
        functions.free(text)
    if status not in (RIGHT, FAULTY, INCOMPLETE, BAD_SCRIPT, NO_ROOM):
        raise BadAnswer("explore", f"status {status}")
    if not said:  # by a library without diagnostics
        said = {BAD_SCRIPT: f"stmdesk: script line {explored.line}", NO_ROOM: "stmdesk: the fault has no history"}.get(status, "")
    return {RIGHT: 0, BAD_SCRIPT: 1}.get(status, 3), printed, said.strip()


def _front(functions: _Functions, text: _Handle, count: int) -> tuple[str, int]:
    """Takes this many bytes from a text. Returns them, and how many more there are."""
    out, fed = ctypes.create_string_buffer(count + 1), _Fed()
    functions.feed(ctypes.byref(text), b"", 0, out, count, ctypes.byref(fed))
    return out.raw[: fed.given].decode("ascii", "replace"), fed.waiting
