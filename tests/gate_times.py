"""How long the gate, `rt ci`, takes for each crate and each wrong body. It logs no times, so its processes are looked at once a second.

A process that checks or builds a crate has `--crate-name NAME` among its words. A wrong body is tried in a folder `rt-edit-..`, over the
seed of its crate, a check of the crate as it is: `--incremental FOLDER/seed`, and then `--incremental FOLDER/0` for the first wrong body.
What a process does in its last second is not seen.
"""

from __future__ import annotations

import os
import pathlib
import re
import threading
import time

TICKS = os.sysconf("SC_CLK_TCK")
SECONDS = 1.0  # from one look to the next
PROVED = re.compile(r"rt: (\w+)(?: proved| is kept: .*)")
CRATES = pathlib.Path(__file__).resolve().parent.parent / "crates"
PROOF, TESTS, SEED, BODY = "proof", "tests", "seed", "body"
Key = tuple[str, str, int]  # a crate, what is done for it, and of a wrong body its number


class Process:
    """A process, as /proc has it."""

    def __init__(self, pid: int) -> None:
        stat = pathlib.Path(f"/proc/{pid}/stat").read_text(errors="replace").rpartition(")")[2].split()
        self.pid, self.parent = pid, int(stat[1])
        self.seconds = sum(map(int, stat[11:15])) / TICKS  # its own, and of those that it waited for
        self.began = int(stat[19])

    def key(self) -> Key | None:
        """What it does, if it checks or builds a crate."""
        words = pathlib.Path(f"/proc/{self.pid}/cmdline").read_text(errors="replace").split("\0")
        if "--crate-name" not in words[:-1]:
            return None
        crate, over = words[words.index("--crate-name") + 1], ""
        if not pathlib.Path(os.readlink(f"/proc/{self.pid}/cwd")).name.startswith("rt-edit-"):
            return crate, TESTS if "--test" in words else PROOF, 0
        if "--incremental" in words[:-1]:
            over = pathlib.Path(words[words.index("--incremental") + 1]).name
        return (crate, SEED, 0) if over == "seed" else (crate, BODY, int(over) if over.isdigit() else 0)


def processes() -> dict[int, Process]:
    found = {}
    for it in os.listdir("/proc"):
        if it.isdigit():
            try:
                found[int(it)] = Process(int(it))
            except (OSError, ValueError, IndexError):
                pass  # it has ended
    return found


def bodies_of(crate: str) -> list[str]:
    """The names of its wrong bodies of the first tier, in the order of the gate."""
    return sorted(it.name for it in (CRATES / crate / "must-fail").glob("*.edit"))


class Watch:
    """Looks at what a process starts, from `begin` to `end`."""

    def __init__(self) -> None:
        self.seconds: dict[tuple[int, int], tuple[Key, float]] = {}  # by process, and when it began
        self.keys: dict[tuple[int, int], Key | None] = {}
        self.proved: dict[str, float] = {}
        self.root, self.began, self.is_over = 0, 0.0, threading.Event()
        self.thread = threading.Thread(target=self.look_again, daemon=True)

    def begin(self, root: int) -> None:
        self.root, self.began = root, time.monotonic()
        self.thread.start()

    def look_again(self) -> None:
        while not self.is_over.wait(SECONDS):
            self.look()

    def look(self) -> None:
        there = processes()
        below: dict[int, list[int]] = {}
        for it in there.values():
            below.setdefault(it.parent, []).append(it.pid)

        def total(pid: int) -> float:
            return there[pid].seconds + sum(map(total, below.get(pid, ())))

        left = [self.root]
        while left:
            pid = left.pop()
            process = there.get(pid)
            key = process and self.key_of(process)
            if process and key:
                self.seconds[pid, process.began] = key, total(pid)
            else:
                left += below.get(pid, ())

    def key_of(self, process: Process) -> Key | None:
        at = process.pid, process.began
        if not self.keys.get(at):
            try:
                self.keys[at] = process.key()
            except (OSError, ValueError):
                return None
        return self.keys[at]

    def line(self, text: str) -> None:
        """Notes when a crate has been proved, by what the gate says."""
        found = PROVED.fullmatch(text)
        if found:
            self.proved.setdefault(found[1], time.monotonic() - self.began)

    def end(self) -> None:
        self.is_over.set()
        self.thread.join()

    def sums(self) -> dict[Key, float]:
        found: dict[Key, float] = {}
        for key, seconds in self.seconds.values():
            found[key] = found.get(key, 0.0) + seconds
        return found

    def table(self) -> list[str]:
        """The lines that are printed of it."""
        sums = self.sums()
        crates = [*self.proved, *sorted({crate for crate, _, _ in sums} - {*self.proved})]
        lines = ["== seconds of a processor, by crate, in the order in which they were proved, and the minutes until then"]
        lines += ["   proof   tests  bodies  minutes"]
        whole = [0.0, 0.0, 0.0]
        for crate in crates:
            row = [sum(it for (of, kind, _), it in sums.items() if of == crate and kind in kinds) for kinds in ((PROOF,), (TESTS,), (SEED, BODY))]
            whole = [one + more for one, more in zip(whole, row)]
            at = f"{self.proved[crate] / 60:8.1f}" if crate in self.proved else "       -"
            lines.append("".join(f"{it:8.0f}" for it in row) + f" {at}  {crate}")
        lines.append("".join(f"{it:8.0f}" for it in whole) + "           all")
        tried = sorted(((it, key) for key, it in sums.items() if key[1] in (SEED, BODY)), reverse=True)
        if tried:
            lines.append("== seconds of a processor, by wrong body of the first tier")
        for seconds, (crate, kind, number) in tried:
            names = bodies_of(crate)
            name = "the check that they begin with" if kind == SEED else names[number] if number < len(names) else f"number {number}"
            lines.append(f"{seconds:8.0f}  {crate}: {name}")
        return lines
