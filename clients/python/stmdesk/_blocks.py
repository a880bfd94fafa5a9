"""Builds blocks from blocks and values."""

from __future__ import annotations

from operator import index

from ._values import NewRef, Ref, Value

INT_BITS = 64  # of an `Int`, with its sign


def do(*steps: str) -> str:
    """One block that does these steps one after the other: statements, as `a <- readTVar x`, and at last an action. So an f-string needs no
    braces that are doubled.

    >>> slot = "slot"
    >>> do(f"j <- readTVar {slot}", f"if j == 0 then retry else writeTVar {slot} 0", "return j")
    'do { j <- readTVar slot; if j == 0 then retry else writeTVar slot 0; return j }'
    >>> desk.try_(do("a <- readTVar x", "return (a + 1)"))
    Commits(writes={}, news=[], result=2)
    """
    if not steps:
        raise ValueError("do() needs a step")
    return f"do {{ {'; '.join(steps)} }}"


def literal(value: Value) -> str:
    """The text of a value in a block or a declaration. It has brackets where they are needed, so a negative number can stand where any other
    can; None is `()`, and a reference is the name of its variable. Raises ValueError for a number out of range and for a variable
    without a name, and TypeError for what is no value of the language.

    >>> [literal(value) for value in (7, -7, True, None, Ref(0, "slot"))]
    ['7', '(-7)', 'True', '()', 'slot']
    >>> due = -3
    >>> desk.atomically(f"writeTVar x {literal(due)}"), desk.value("x")
    (None, -3)
    """
    if value is None:
        return "()"
    if isinstance(value, bool):
        return str(value)
    if isinstance(value, (Ref, NewRef)):
        if isinstance(value, NewRef) or value.name is None:
            raise ValueError(f"{value} is a variable without a name, and no block can name it")
        return value.name
    try:
        number = index(value)
    except TypeError:
        raise TypeError(f"{value!r} is no value of the language: those are numbers, True, False, None for (), and references") from None
    if not -(1 << INT_BITS - 1) <= number < 1 << INT_BITS - 1:
        raise ValueError(f"{number} is out of range: an `Int` has {INT_BITS} bits")
    return str(number) if number >= 0 else f"({number})"


def or_else(*blocks: str) -> str:
    """One block that does the first of these that doesn't retry, and retries if all do.

    It is a balanced tree of `orElse`, since a chain of 32 is `TooDeep`.

    >>> or_else("readTVar a", "readTVar b", "return 0")
    'orElse (readTVar a) (orElse (readTVar b) (return 0))'
    >>> desk.try_(or_else("retry", "readTVar x"))
    Commits(writes={}, news=[], result=1)
    """
    if not blocks:
        raise ValueError("or_else() needs a block; one that always waits is `retry`")
    if len(blocks) > 1:
        middle = len(blocks) // 2
        return f"orElse ({or_else(*blocks[:middle])}) ({or_else(*blocks[middle:])})"
    (block,) = blocks
    return block
