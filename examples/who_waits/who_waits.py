#!/usr/bin/env python3
"""Who waits for what on a desk, and for how long: a page of text that is written again and again. README.md explains it.

    python3 examples/who_waits/who_waits.py [--once] [--every SECONDS] [SOCKET]

SOCKET is that of a server (docs/SERVER.md). Without one a desk is started on which a few workers wait for jobs. With --once the page is
written once: who_waits.out is what this prints without a SOCKET.
"""

import argparse
import os
import shutil
import sys
import threading
import time
from collections.abc import Iterable
from contextlib import suppress
from pathlib import Path

sys.path.insert(0, str(Path(__file__).resolve().parents[2] / "clients" / "python"))

from stmdesk import Desk, DeskError, Entry, New, Ready, Reason, StaleBefore, StaleBy, connect
from stmdesk import Value as StmValue

HEADS = ("ticket", "label", "status", "for", "waits for")


def value_text(value: StmValue) -> str:
    """A value as a block would have it."""
    return "()" if value is None else str(value)


def reason(why: Reason) -> str:
    """What a block waits for, for people."""
    if isinstance(why, New):
        return "its first evaluation"
    if isinstance(why, Ready):
        return "its finish"
    if isinstance(why, StaleBefore):
        return "an evaluation, since before the last checkpoint"
    if isinstance(why, StaleBy):
        changes = ", ".join(f"{name} from {value_text(it.read)} to {value_text(it.left)}" for name, it in why.changes.items())
        return f"an evaluation, since ticket {why.finish} changed {changes}"
    reads = " or ".join(f"{name}, which is {value_text(value)}" for name, value in why.reads.items())
    return f"a change of {reads}" if reads else "nothing that could change: it read no variable"


class Page:
    """The page. It knows since when it has seen each ticket: a desk has no clock."""

    def __init__(self, desk: Desk) -> None:
        self.desk = desk
        self.seen: dict[int, float] = {}

    def text(self, columns: int) -> str:
        """The page as it is now, in lines of at most so many characters."""
        entries, now = self.desk.board(), time.monotonic()
        self.seen = {it.ticket: self.seen.get(it.ticket, now) for it in entries}
        rows = [HEADS, *(self.row(it, int(now - self.seen[it.ticket])) for it in entries)]
        widths = [max(len(row[at]) for row in rows) for at in range(len(HEADS) - 1)]
        lines = []
        for row, entry in zip(rows, [None, *entries]):
            lines.append("  ".join([*(f"{it:{width}}" for it, width in zip(row, widths)), row[-1]]))
            lines += [] if entry is None else [" " * (widths[0] + 2) + (entry.block or "")]
        count = "1 block waits" if len(entries) == 1 else f"{len(entries)} blocks wait"
        return "\n".join(it if len(it) <= columns else it[: columns - 1] + "…" for it in [*lines, count, ""])

    def row(self, entry: Entry, seconds: int) -> tuple[str, ...]:
        assert entry.why is not None
        return str(entry.ticket), entry.label or "-", entry.state, f"{seconds} s", reason(entry.why)


# What is shown if no SOCKET is given.

TAKE = "do { j <- readTVar slot; if j == 0 then retry else do { writeTVar slot 0; return j } }"
PUT = "do { j <- readTVar slot; n <- readTVar given; if j == 0 then do { writeTVar slot (n + 1); writeTVar given (n + 1) } else retry }"
REPORT = "do { n <- readTVar given; if n < 1000 then retry else return n }"


def waits_with(desk: Desk, label: str) -> bool:
    """Whether a block with this label waits."""
    return any(it.label == label for it in desk.board(blocks=False, reasons=False))


def begin(desk: Desk, label: str, block: str, pause: float) -> None:
    """Runs the block again and again in a thread of its own, with a pause between. Returns when it waits for the first time."""

    def work() -> None:
        with suppress(DeskError, ValueError):  # the desk is closed
            while True:
                desk.atomically(block, label=label)
                time.sleep(pause)

    threading.Thread(target=work, daemon=True).start()
    while not waits_with(desk, label):
        time.sleep(0.001)


def begin_work(desk: Desk, once: bool) -> None:
    """Two workers who wait for jobs, one who waits for the thousandth, and a block that nobody evaluates; and jobs, if there is more than
    one page."""
    for declaration in ("slot : Int = 0", "given : Int = 0"):
        desk.variable(declaration)
    for label in ("worker-1", "worker-2"):
        begin(desk, label, TAKE, 1.5)
    begin(desk, "report", REPORT, 0)
    desk.submit("writeTVar given 0", label="reset?")
    if not once:
        threading.Thread(target=give, args=(desk,), daemon=True).start()


def give(desk: Desk) -> None:
    """Gives a job a second."""
    with suppress(DeskError, ValueError):
        while True:
            time.sleep(1)
            desk.atomically(PUT, label="giver")


def pages(desk: Desk, once: bool, every: float) -> Iterable[str]:
    page = Page(desk)
    while True:
        yield page.text(shutil.get_terminal_size((160, 24)).columns)
        if once:
            return
        time.sleep(every)


def seconds(text: str) -> float:
    found = float(text)
    if not found >= 0:  # nor is it NaN
        raise ValueError
    return found


def main() -> None:
    parser = argparse.ArgumentParser(description=__doc__, formatter_class=argparse.RawDescriptionHelpFormatter)
    parser.add_argument("socket", metavar="SOCKET", nargs="?", help="the server's")
    parser.add_argument("--once", action="store_true", help="write one page")
    parser.add_argument("--every", type=seconds, default=1.0, metavar="SECONDS", help="from page to page (1)")
    asked = parser.parse_args()
    clear = "\033[H\033[J" if sys.stdout.isatty() and not asked.once else ""
    with connect(asked.socket) if asked.socket else Desk() as desk, suppress(KeyboardInterrupt):
        if asked.socket is None:
            begin_work(desk, asked.once)
        for text in pages(desk, asked.once, asked.every):
            print(f"{clear}{text}", flush=True, end="" if clear or asked.once else "\n")


if __name__ == "__main__":
    try:
        main()
    except BrokenPipeError:  # nobody reads the pages any more
        os.dup2(os.open(os.devnull, os.O_WRONLY), 1)
        sys.exit(1)
    except (DeskError, OSError) as error:  # as there is no server, or the server has ended
        sys.exit(f"who_waits: {error}")
