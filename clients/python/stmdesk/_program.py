"""Finds the program and runs it as a process that takes lines and prints lines."""

from __future__ import annotations

import fcntl
import os
import resource
import select
import shutil
import signal
import subprocess
import tempfile
import threading
import weakref
from collections import deque
from collections.abc import Sequence
from contextlib import suppress
from copy import copy
from io import BufferedReader, BufferedWriter
from pathlib import Path
from typing import Any

from ._errors import JOURNAL_FAULT, DeskError, Ended, JournalError
from ._transport import Closed, Odd, OwnTransport

PART = 1 << 15  # bytes of commands that are sent in one go; while one such is answered, the next is sent
PIECE = 1 << 16  # bytes that are read at a time: what a pipe holds
LINE_LIMIT = 16 << 20  # bytes of a line; stmdesk's longest have some 2 MiB
STACK = 2 << 20  # bytes that the program needs
SAID_LIMIT = 1 << 16  # bytes that are kept of the end of standard error
ROOM = 1 << 14  # bytes that are read at a time by `next`: more than a `BufferedReader` keeps
NOT_READ = b"\xff"  # what is in that room and wasn't read; the program prints ASCII


def find_program() -> str:
    """The path of the program `stmdesk`: of the first that there is of `$STMDESK`, the program in this package, that of the repository
    that this package is in (the built one, or that of release/), and `stmdesk` on the PATH. Raises FileNotFoundError if there is none.

    >>> with Desk(find_program()) as desk:
    ...     desk.eval()
    0
    """
    named = os.environ.get("STMDESK")
    if named:
        found = executable(named)
        if not found:
            raise FileNotFoundError(f"no program to run: STMDESK names {named!r}, which isn't an executable file")
        if is_command(found):
            raise FileNotFoundError(f"no program to run: STMDESK names {named!r}, a command that pip made, which itself runs what STMDESK names")
        return found
    folder = Path(__file__).resolve().parent
    own = os.fspath(folder / "bin" / "stmdesk")
    if shutil.which(own):
        return own
    try:
        return of_repository_above(folder, "--which")
    except OSError as error:
        said = str(error)
    found = executable("stmdesk")
    if found:
        return found
    raise FileNotFoundError(
        "no program to run. Give its path to Desk(..) or in the environment variable STMDESK. STMDESK isn't set; the package "
        f"brings none ({own}); {said}; no folder of the PATH has stmdesk ({os.environ.get('PATH', '')})."
    )


def executable(name: str) -> str | None:
    """The executable file of this name. Without a folder in it, it is the first on the PATH that isn't the command `stmdesk` of pip."""
    if os.path.dirname(name):
        return shutil.which(name)
    path = os.environ.get("PATH", os.defpath)
    for folder in path.split(os.pathsep) if path else ():
        found = shutil.which(name, path=folder or os.curdir)
        if found and not is_command(found):
            return found
    return None


def is_command(path: str) -> bool:
    """Whether the file is the command `stmdesk` that pip installs with this package. It asks `find_program`, so it is no answer to that."""
    try:
        with open(path, "rb") as file:
            begin = file.read(8192)
    except OSError:
        return False
    return begin.startswith(b"#!") and b"from stmdesk.__main__ import" in begin


def is_repository(folder: Path) -> bool:
    """Whether the folder is stmdesk's repository, whose script `stmdesk` runs the program."""
    return (folder / "stmdesk").is_file() and (folder / "crates" / "stmdesk").is_dir()


def of_repository_above(folder: Path, which: str) -> str:
    """What `of_repository` returns of the repository that the folder is in. Raises OSError if there is none, or none of this kind in it."""
    for above in folder.parents:
        if is_repository(above):
            try:
                return of_repository(above, which)
            except OSError as error:
                raise FileNotFoundError(f"the repository {above} has none ({error})") from None
    raise FileNotFoundError(f"no folder above {folder} is stmdesk's repository")


def of_repository(repository: Path, which: str) -> str:
    """The path of the repository's program (`--which`: the built one, or that of release/) or library (`--which-library`: that of release/,
    or the one that tools/library has made). Raises OSError if none is of its present sources. The repository's script would then build the
    program for an hour, or run all commands together at the end of its input."""
    command = [os.fspath(repository / "stmdesk"), which]
    done = subprocess.run(command, stdin=subprocess.DEVNULL, capture_output=True, text=True, errors="surrogateescape")
    if done.returncode:
        raise FileNotFoundError(done.stderr.strip())
    return done.stdout.removesuffix("\n")


def check_built(program: str) -> None:
    """Raises OSError if the program is the script of a repository that has no program to run at once."""
    path = Path(shutil.which(program) or program).resolve()
    if path.name == "stmdesk" and is_repository(path.parent):
        of_repository(path.parent, "--which")


def run_once(command: Sequence[str], text: str | bytes) -> tuple[int, str, str]:
    """Runs the program on this input to its end. Returns its exit status, what it printed, and what it wrote on standard error.
    An exception that breaks this off kills the program, and all that it started."""
    pipe = subprocess.PIPE
    with subprocess.Popen(command, stdin=pipe, stdout=pipe, stderr=pipe, start_new_session=True) as process:
        try:
            printed, said = process.communicate(text.encode() if isinstance(text, str) else text)
        except BaseException:
            if process.poll() is None:
                with suppress(OSError):
                    os.killpg(process.pid, signal.SIGKILL)
                process.wait()
            raise
    return process.returncode, printed.decode("ascii", "replace"), said.decode("utf-8", "replace").strip()


def raise_stack_limit() -> None:
    """Gives this process, and so what it starts, the stack that the program needs, if it may have that. The repository's script does so, too.
    For processes that are this package's own."""
    soft, hard = resource.getrlimit(resource.RLIMIT_STACK)
    if soft != resource.RLIM_INFINITY and soft < STACK:
        with suppress(OSError, ValueError):  # the hard limit is lower: then the program says what it needs
            resource.setrlimit(resource.RLIMIT_STACK, (STACK, hard))


def is_locked(path: str | os.PathLike[str]) -> bool:
    """Whether a process has locked the file, as a run does with its journal."""
    try:
        file = os.open(path, os.O_RDONLY | os.O_NONBLOCK | os.O_CLOEXEC)
    except OSError:
        return False
    try:
        fcntl.flock(file, fcntl.LOCK_SH | fcntl.LOCK_NB)
    except OSError as error:
        return isinstance(error, BlockingIOError)
    finally:
        os.close(file)
    return False


def is_ours(error: BaseException) -> bool:
    """Whether this package raised the error. Python runs a signal handler of the caller in the midst of a call; what that
    raises isn't ours."""
    trace = error.__traceback__
    while trace and trace.tb_next:
        trace = trace.tb_next
    return trace is not None and trace.tb_frame.f_globals.get("__package__") == __package__


def _close(file: Any) -> None:
    with suppress(OSError):
        file.close()


class Process(OwnTransport):
    """The running program, with pipes to its standard input and output."""

    part = PART

    def __init__(self, command: Sequence[str], *, is_opening: bool = False) -> None:
        """`is_opening` says that the program first opens a journal, as it does until somebody sets this to false."""
        self.is_opening = is_opening
        self.end: DeskError | None = None
        self._how: Ended | None = None  # it ended
        self._ending = threading.RLock()
        self._sending = threading.RLock()  # so that the input isn't closed in the midst of a write
        self.lines: deque[str] = deque()  # that were read and not taken
        self._rest = bytearray()  # of the output, after its last line feed
        self._kept = bytearray(NOT_READ * ROOM)  # what `next` has read
        self._taken = self._end = 0  # of that: how much was taken, and where the next line ends
        self._errors = tempfile.TemporaryFile()  # not a pipe, which somebody would have to empty
        try:
            self._process = subprocess.Popen(
                command,
                stdin=subprocess.PIPE,
                stdout=subprocess.PIPE,
                stderr=self._errors,
                start_new_session=True,  # so that Ctrl-C comes to the caller only, and `kill` ends what the program started
            )
        except BaseException:
            self._errors.close()
            raise
        assert isinstance(self._process.stdin, BufferedWriter) and isinstance(self._process.stdout, BufferedReader)
        self._input, self._output = self._process.stdin.raw, self._process.stdout
        os.set_blocking(self._input.fileno(), False)
        # If nobody closes the desk, its end is that of the program's input, as with a file that nobody closes.
        weakref.finalize(self, _close, self._input).atexit = False
        super().__init__()

    def descriptors(self) -> list[int]:
        files: tuple[Any, ...] = (self._input, self._output, self._errors)
        return [it.fileno() for it in files if not it.closed]

    def forked(self) -> None:
        self._process.returncode = 0  # so that nobody waits for it here, where it is no child

    @property
    def pid(self) -> int:
        return self._process.pid

    def alive(self) -> int:
        """A second descriptor of the pipe from the program, which is the caller's to close. Raises `Ended`."""
        with self._ending:
            if self.end:
                raise copy(self.end)
            return os.dup(self._output.fileno())

    def send(self, text: bytes) -> None:
        """Writes to the program. While the program can't take more, keeps what it prints, since it may wait for that. Raises
        `Closed` if it reads no more."""
        left: bytes | memoryview = text
        try:
            while True:
                with self._sending:
                    written = self._input.write(left)
                if written == len(left):
                    return
                left = memoryview(left)[written or 0 :]
                self._wait_to_send()
        except (BrokenPipeError, ValueError) as error:
            if not is_ours(error):
                raise
            raise Closed from None

    def _wait_to_send(self) -> None:
        """Waits until the program can take more, and reads what it prints."""
        output, poll = self._output.fileno(), select.poll()
        poll.register(output, select.POLLIN)
        poll.register(self._input.fileno(), select.POLLOUT)
        if any(it == output for it, _ in poll.poll()):
            self._read()

    def _read(self) -> None:
        """Reads what the program prints next, and keeps its lines. Raises `Closed` if it prints no more."""
        self._keep(self._piece())

    def _piece(self) -> bytes:
        """What the program prints next. Raises `Closed` if it prints no more."""
        try:
            piece = self._output.read1(PIECE)
        except ValueError as error:
            if not is_ours(error):
                raise
            raise Closed from None
        if not piece:
            raise Closed
        return piece

    def _keep(self, piece: bytes) -> None:
        rest = self._rest
        if not rest and piece.endswith(b"\n"):
            self.lines.extend(piece[:-1].decode("ascii", "replace").split("\n"))
            return
        rest += piece
        end = rest.rfind(b"\n", len(rest) - len(piece))
        if end >= 0:
            self.lines.extend(rest[:end].decode("ascii", "replace").split("\n"))
            del rest[: end + 1]
        if len(rest) > LINE_LIMIT:
            raise Odd(rest[:200].decode("ascii", "replace"))

    def line(self) -> str:
        """The next line that the program prints, without its line feed. Raises `Closed` if it prints no more."""
        lines = self.lines
        while not lines:
            piece = self._piece()
            if not self._rest and piece.find(b"\n") == len(piece) - 1:  # the usual case
                return piece[:-1].decode("ascii", "replace")
            self._keep(piece)
        return lines.popleft()

    # One line for one line, in steps of which a signal handler may break off any: it is never in doubt what was read. In doubt is only
    # whether a line was given, and whether a line was taken that the caller has noted; `Desk._mend_cut` finds that out.

    def give(self, text: bytes) -> bool:
        """Gives a line, whole or not at all. False if it has to be given by `send`."""
        if len(text) > select.PIPE_BUF or self.lines or self._rest:
            return False
        if self._taken:
            self._kept[: self._taken] = NOT_READ * self._taken
            self._taken = 0
        try:
            while True:
                with self._sending:
                    written = self._input.write(text)
                if written is not None:
                    return True
                poll = select.poll()
                poll.register(self._input.fileno(), select.POLLOUT)
                poll.poll()
        except (BrokenPipeError, ValueError) as error:
            if not is_ours(error):
                raise
            raise Closed from None

    def next(self) -> str:
        """The next line that the program prints, without its line feed. It isn't taken by that. Raises `Closed` if none comes."""
        kept, begin = self._kept, self._taken
        end = kept.find(b"\n", begin)
        while end < 0:
            self._read_on(kept)
            end = kept.find(b"\n", begin)
        self._end = end + 1
        return kept[begin:end].decode("ascii", "replace")

    def take(self) -> None:
        """Takes the line that `next` has returned."""
        self._taken = self._end

    def take_last(self) -> None:
        """The same, and leaves what comes after it to `line`."""
        self._taken = end = self._end
        kept = self._kept
        if end < len(kept) and kept[end] != NOT_READ[0]:
            self._taken = kept.find(NOT_READ, end) if NOT_READ in kept else len(kept)
            self._keep(bytes(kept[end : self._taken]))

    def _read_on(self, kept: bytearray) -> None:
        at = kept.find(NOT_READ, self._taken)
        if at < 0:
            at = len(kept)
            if at > LINE_LIMIT:
                raise Odd(kept[:200].decode("ascii", "replace"))
            kept.extend(NOT_READ * at)
        try:
            if at == 0:
                count = self._output.readinto1(kept)
            else:
                with memoryview(kept) as view, view[at:] as rest:
                    count = self._output.readinto1(rest)
        except ValueError as error:
            if not is_ours(error):
                raise
            raise Closed from None
        if not count:
            raise Closed

    def broken_off(self) -> None:
        """Kills the program: what it still prints would be taken for the answer to the next call."""
        self.kill()

    def ended(self, patience: float) -> Ended:
        return self.wait(patience)

    def close(self, patience: float) -> Ended | None:
        ended_before = self.end
        end = self.wait(patience)
        return end if end.status and not ended_before else None

    def wait(self, patience: float) -> Ended:
        """Ends the program's input and waits for the program to end. Kills it after `patience` seconds."""
        self.check_owner()
        try:
            with suppress(OSError), self._sending:
                self._input.close()
            with suppress(subprocess.TimeoutExpired):
                self._process.wait(patience)
        finally:
            end = self.kill()
        return end

    def kill(self) -> Ended:
        """Kills the program, and all that it started, if it still runs. Closes its files and returns how it ended."""
        self.check_owner()
        with self._ending:
            if self._how is None:
                if self._process.poll() is None:
                    with suppress(OSError):
                        os.killpg(self._process.pid, signal.SIGKILL)
                status = self._process.wait()
                with suppress(OSError), self._sending:
                    self._input.close()
                with suppress(OSError):
                    self._output.close()
                said = self.said_so_far()
                is_of_journal = JOURNAL_FAULT in said or (self.is_opening and status in (1, 3))
                self.end = self._how = (JournalError if is_of_journal else Ended)(status, said)
                self._errors.close()
            return self._how

    def said_at_last(self) -> str:
        """What `said_so_far` returns, also after the program has ended."""
        with self._ending:
            return self._how.said if self._how is not None else self.said_so_far()

    def said_so_far(self) -> str:
        """The end of what the program wrote on standard error so far."""
        file = self._errors.fileno()  # whose position is the program's, too
        return os.pread(file, SAID_LIMIT, max(0, os.fstat(file).st_size - SAID_LIMIT)).decode("utf-8", "replace").strip()
