"""A desk belongs to the process that started it: what a process that is forked from it may do with its copy."""

from __future__ import annotations

import os
import weakref
from collections.abc import Iterable


class Owned:
    """Something of a desk that only the process that made it may use.

    A forked process has a copy. What it read by that would be missing in the owner, and while its copy of a pipe is open the program
    doesn't notice that the owner's end is closed. So there each descriptor is made to be the null device; it remains open, so that what
    closes it later closes nothing else.
    """

    def __init__(self) -> None:
        """To be called last, when there are descriptors."""
        self.owner = os.getpid()
        _owned.add(self)

    def is_owner(self) -> bool:
        return os.getpid() == self.owner

    def check_owner(self) -> None:
        """Raises RuntimeError in another process than the owner."""
        if not self.is_owner():
            raise self.not_owner()

    def not_owner(self) -> RuntimeError:
        return RuntimeError(
            f"this desk belongs to process {self.owner}, and process {os.getpid()} was forked from it and can't use it: see "
            '"Several processes" in clients/python/README.md'
        )

    def descriptors(self) -> Iterable[int]:
        """Those that are open."""
        return ()

    def forked(self) -> None:
        """Called in a forked process, whose only thread this is."""


_owned: weakref.WeakSet[Owned] = weakref.WeakSet()


def _in_child() -> None:
    null = os.open(os.devnull, os.O_RDWR)
    for it in list(_owned):
        for descriptor in it.descriptors():
            os.dup2(null, descriptor, inheritable=False)
        it.forked()
    os.close(null)


os.register_at_fork(after_in_child=_in_child)
