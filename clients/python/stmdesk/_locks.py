"""Which process has locked a file, as far as Linux says."""

from __future__ import annotations

import os
import select
import stat
from contextlib import suppress
from dataclasses import dataclass

LOCKS = "/proc/locks"


@dataclass(frozen=True)
class Holder:
    """A process that has locked a file."""

    pid: int
    command: str  # the front of its words, as far as they may be read

    def is_left(self) -> bool:
        """Whether nobody can write to its standard input any more: it goes through the rest of that, and ends then."""
        try:
            file = os.open(f"/proc/{self.pid}/fd/0", os.O_RDONLY | os.O_NONBLOCK | os.O_CLOEXEC)
        except OSError:
            return False
        try:
            if not stat.S_ISFIFO(os.fstat(file).st_mode):
                return False
            poll = select.poll()
            poll.register(file, 0)
            return any(found & select.POLLHUP for _, found in poll.poll(0))
        finally:
            os.close(file)

    def __str__(self) -> str:
        return f"process {self.pid}{f' ({self.command})' if self.command else ''}"


def holder_of(path: str) -> Holder | None:
    """The process that has locked the file by `flock`. None if there is none, or it can't be known, as of another namespace."""
    try:
        wanted = os.stat(path)
        with open(LOCKS) as file:
            lines = file.read().splitlines()
    except OSError:
        return None
    for it in lines:
        words = it.split()  # `1: FLOCK ADVISORY WRITE 4711 fe:00:123 0 EOF`; `->` is before the kind of one that waits
        if len(words) < 6 or words[1] != "FLOCK" or not words[4].isdigit() or words[5].rpartition(":")[2] != str(wanted.st_ino):
            continue
        pid = int(words[4])  # 0 of a process in another namespace
        if not pid:
            continue
        device = f"{os.major(wanted.st_dev):02x}:{os.minor(wanted.st_dev):02x}"
        if _has_open(pid, wanted, default=words[5].rpartition(":")[0] == device):
            return Holder(pid, _command(pid))
    return None


def _has_open(pid: int, wanted: os.stat_result, *, default: bool) -> bool:
    """Whether the process has the file open; `default` if that may not be known. (The device of a lock isn't that of `stat` on each file
    system.)"""
    folder = f"/proc/{pid}/fd"
    try:
        names = os.listdir(folder)
    except OSError:
        return default
    for it in names:
        with suppress(OSError):
            if os.path.samestat(os.stat(f"{folder}/{it}"), wanted):
                return True
    return False


def _command(pid: int) -> str:
    try:
        with open(f"/proc/{pid}/cmdline", "rb") as file:
            words = file.read(400).rstrip(b"\0").split(b"\0")
    except OSError:
        return ""
    text = b" ".join([os.path.basename(words[0]), *words[1:]]).decode("utf-8", "replace")
    return "".join(it if it.isprintable() else "?" for it in text)[:80]
