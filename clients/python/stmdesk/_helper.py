"""A thread of a desk's own, which makes calls for others and notices the end of the program."""

from __future__ import annotations

import os
import select
import threading
from collections import deque
from collections.abc import Callable
from contextlib import suppress

from ._fork import Owned


class Helper(Owned):
    """A thread that runs the functions that it is given, in their order, and `on_end` when the program prints no more.

    Python runs signal handlers in the main thread, so no Ctrl-C breaks off what this thread does. The functions must not
    raise. The thread ends with the program, when it has run `on_end` and then what it was given meanwhile; functions that come
    later run at once, in the caller's thread.
    """

    def __init__(self, output: int, on_end: Callable[[], None]) -> None:
        """`output` is a descriptor of the pipe from the program, which the thread closes."""
        self._on_end = on_end
        self._functions: deque[Callable[[], None]] = deque()
        self._queued: set[Callable[[], None]] = set()  # the same, for `once`
        self._is_over = False
        self._ending = threading.Lock()
        self._output = output
        self._woken, self._wake = os.pipe()
        self._open = [self._output, self._woken, self._wake]
        os.set_blocking(self._wake, False)
        super().__init__()
        threading.Thread(target=self._work, name="stmdesk", daemon=True).start()

    def run(self, function: Callable[[], None], *, once: bool = False) -> None:
        """Lets the thread run the function soon. With `once` not a second time, if it waits for its turn already."""
        with self._ending:
            is_over = self._is_over
            if not is_over and not (once and function in self._queued):
                self._functions.append(function)
                with suppress(BlockingIOError):  # a full pipe wakes the thread as well
                    os.write(self._wake, b"\0")
                self._queued.add(function)  # at last: a signal handler may raise before, and then the caller tries again
        if is_over:
            function()

    def has_more(self) -> bool:
        """Whether a function waits for its turn."""
        return bool(self._functions)

    def _work(self) -> None:
        poll = select.poll()
        poll.register(self._woken, select.POLLIN)
        poll.register(self._output, 0)  # which reports only the end
        while self._output not in (it for it, _ in poll.poll()):
            os.read(self._woken, 4096)  # before the functions are run, so that one that comes meanwhile wakes the thread again
            self._run_all()
        self._on_end()
        while not self._is_over:
            self._run_all()
            with self._ending:
                self._is_over = not self._functions
        while self._open:
            os.close(self._open.pop())

    def descriptors(self) -> list[int]:
        return self._open

    def _run_all(self) -> None:
        while self._functions:
            with self._ending:
                function = self._functions.popleft()
                self._queued.discard(function)
            function()
