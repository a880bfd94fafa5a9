"""Joins the lines of a block in a script, since the program reads a block from one line."""

from __future__ import annotations

import re
from collections.abc import Callable, Iterator

_BLANKS = " \t\r"
_BETWEEN = re.compile(f"[{_BLANKS}]+")


def one_line(script: str, *, keeps_places: bool = False) -> str:
    """The script with each block on one line, as the program takes it, and with as many lines: those that were joined are empty. With
    `keeps_places` each byte of a block has the distance from its first one that it has in the script, else one blank is left between words.

    A line in which brackets or braces are open goes on in the lines below it that are indented deeper, or begin with a closing one. Among
    these, an empty line and one that begins with `--` after its indent say nothing.
    """
    lines = script.split("\n")
    found: list[str] = []
    for begin, end in _spans(lines):
        line = joined(lines[begin:end])
        found.append(line if keeps_places or end - begin == 1 else _BETWEEN.sub(" ", line).strip(" "))
        found += [""] * (end - begin - 1)
    return "\n".join(found)


def in_places(script: str, ran: Callable[[str], tuple[int, str, str]]) -> tuple[int, str, str]:
    """The status of a run on a script with each block on one line, and its two outputs. If a line is refused, with its place in the script."""
    plain, placed = one_line(script), one_line(script, keeps_places=True)
    found = ran(plain)
    return ran(placed) if found[0] == 1 and plain != placed else found


def joined(lines: list[str]) -> str:
    """Lines as one, with a blank for each end of a line and each byte of a comment, so that each byte of the block keeps its distance."""
    return " ".join([lines[0], *(" " * len(it) if it.strip(_BLANKS).startswith("--") else it for it in lines[1:])])


def lines_from(script: str, number: int) -> list[str]:
    """The line of this number, counted from 1, and those in which it goes on; none if the script has no such line."""
    lines = script.split("\n")
    return next((lines[begin:end] for begin, end in _spans(lines) if begin == number - 1), [])


def _spans(lines: list[str]) -> Iterator[tuple[int, int]]:
    """Where each line begins, and before which one it ends."""
    end = 0
    while end < len(lines):
        begin, end = end, end + 1
        depth = 0 if lines[begin].startswith("--") else _depth(lines[begin])
        last = end
        while depth > 0 and last < len(lines):
            line = lines[last].strip(_BLANKS)
            says_nothing = not line or line.startswith("--")
            if not says_nothing and not line.startswith((")", "}")) and _indent(lines[last]) <= _indent(lines[begin]):
                break
            last += 1
            if not says_nothing:
                depth += _depth(line)
                end = last
        yield begin, end


def _depth(line: str) -> int:
    return sum(line.count(it) for it in "({") - sum(line.count(it) for it in ")}")


def _indent(line: str) -> int:
    return len(line) - len(line.lstrip(_BLANKS))
