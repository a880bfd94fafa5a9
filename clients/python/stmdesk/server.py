"""A desk for several processes, behind a unix socket. docs/SERVER.md describes it.

    python -m stmdesk.server [OPTIONS] SOCKET

Exit statuses: 0 it was stopped by SIGTERM or SIGINT, 1 it couldn't start or its program ended, 2 the words are wrong, 5 it is a replica whose
desk differs from the log.
"""

from __future__ import annotations

import argparse
import asyncio
import errno
import grp
import logging
import os
import resource
import shutil
import signal
import socket
import sys
from collections.abc import Sequence
from contextlib import suppress
from pathlib import Path

from . import __version__
from ._commands import decimal
from ._etcd import Access, context_of
from ._machine import ANSWER, WAITING, Ended
from ._program import check_built, find_program, raise_stack_limit
from ._replica import EVERY, LEASE, Differs, NoCheckpoint, Replica
from ._serve import Limits, Server, out_of_memory
from ._web import CONNECTIONS, Web, host_and_port

CHECKPOINT = 500_000  # events
FIRST_FILE = 3  # that a service manager gives
FILES = 32  # that a server has open beside its connections, at most

log = logging.getLogger("stmdesk.server")


def parser() -> argparse.ArgumentParser:
    found = argparse.ArgumentParser(
        "stmdesk-serve", usage="%(prog)s [OPTIONS] SOCKET", allow_abbrev=False, formatter_class=argparse.RawDescriptionHelpFormatter,
        description="A desk for several processes, behind a unix socket.", epilog="docs/SERVER.md and docs/REPLICAS.md have the whole.",
    )  # fmt: skip
    add = found.add_argument
    add("--version", action="version", version=f"%(prog)s {__version__}")
    add("socket", metavar="SOCKET", nargs="?", help="the path of the socket; none if a service manager gives one")
    add("--program", metavar="PATH", help="the program stmdesk; else the one that the package finds")
    add("--declare", metavar="FILE", help="lines `tvar NAME : TYPE = INIT`, for a desk that is new")
    add("--journal", metavar="FILE", help="keep the desk in FILE, and go on from it")
    add("--sync", choices=("full", "sector", "append", "none"), help="what is synced before an answer (default full)")
    add("--checkpoint-every", metavar="N", type=_number, help=f"events after which a checkpoint is made (default {CHECKPOINT})")
    add("--keep", action="store_true", help="blocks of `submit` go on waiting when their connection ends")
    add("--grace", metavar="SECONDS", type=_seconds, default=10.0, help="how long a session waits for a new connection (default 10)")
    add("--mode", metavar="MODE", type=_mode, default=0o600, help="of the socket, in octal digits (default 600)")
    add("--group", metavar="GROUP", type=_group, help="of the socket")
    add("--max-connections", metavar="N", type=_number, default=Limits.connections, help="default %(default)s")
    add("--max-waiting", metavar="N", type=_number, default=WAITING, help="blocks that wait (default %(default)s)")
    add("--max-waiting-each", metavar="N", type=_number, help="of these, of one session (default an eighth)")
    add("--max-request", metavar="BYTES", type=_number, default=Limits.request, help="of a request, such as a batch (default %(default)s)")
    add("--max-answer", metavar="BYTES", type=_number, default=ANSWER, help="of the answer to a request; then its rest is refused (default %(default)s)")
    add("--max-unread", metavar="BYTES", type=_number, default=Limits.unread, help="of answers that a peer hasn't read (default %(default)s)")
    add("--replicas", metavar="HOST:PORT,..", type=_nodes, help="nodes of etcd with the log of several servers (docs/REPLICAS.md)")
    add("--name", metavar="NAME", help="of this replica")
    add("--folder", metavar="FOLDER", help="of this replica alone, for its files")
    add("--next-program", metavar="PATH", action="append", default=[], help="a further version of the program, for `replica upgrade`")
    add("--lease", metavar="SECONDS", type=_number, default=LEASE, help="after which another replica may lead (default %(default)s)")
    add("--keep-segments", action="store_true", help="keep the history before each checkpoint in FOLDER")
    add("--etcd-prefix", metavar="PREFIX", default="/stmdesk", help="of the keys of this desk (default %(default)s)")
    add("--etcd-ca", metavar="FILE", help="for TLS: who certifies the nodes")
    add("--etcd-cert", metavar="FILE", help="for TLS: this replica's certificate")
    add("--etcd-key", metavar="FILE", help="and its key")
    add("--etcd-user", metavar="NAME", help="a user of etcd")
    add("--etcd-password-file", metavar="FILE", help="and a file with the password")
    add("--http", metavar="HOST:PORT", help="a live page; its address, with a token, is printed")
    add("--metrics", metavar="HOST:PORT", help="figures for Prometheus (needs prometheus_client)")
    return found


def _number(text: str) -> int:
    if not text.isdigit() or int(text) < 1:
        raise argparse.ArgumentTypeError(f"{text!r} isn't a number from 1 on")
    return int(text)


def _seconds(text: str) -> float:
    try:
        found = float(text)
    except ValueError:
        found = -1.0
    if not found >= 0:  # nor is it NaN
        raise argparse.ArgumentTypeError(f"{text!r} isn't a number of seconds")
    return found


def _nodes(text: str) -> str:
    for it in text.split(","):
        try:
            host_and_port(it)
        except ValueError as error:
            raise argparse.ArgumentTypeError(str(error)) from None
    return text


def _mode(text: str) -> int:
    if not text or set(text) - set("01234567") or int(text, 8) > 0o777:
        raise argparse.ArgumentTypeError(f"{text!r} isn't a mode such as 660")
    return int(text, 8)


def _group(text: str) -> str:
    try:
        grp.getgrnam(text)
    except KeyError:
        raise argparse.ArgumentTypeError(f"there is no group {text!r}") from None
    return text


def given_socket() -> socket.socket | None:
    """The socket that a service manager has opened for this process (sd_listen_fds), if it has."""
    if os.environ.get("LISTEN_PID") != str(os.getpid()) or os.environ.get("LISTEN_FDS") != "1":
        return None
    return socket.socket(fileno=FIRST_FILE)


def tell_manager(text: str) -> None:
    """Tells a service manager how it goes (sd_notify)."""
    path = os.environ.get("NOTIFY_SOCKET")
    if path:
        with suppress(OSError), socket.socket(socket.AF_UNIX, socket.SOCK_DGRAM) as it:
            it.connect(f"\0{path[1:]}" if path.startswith("@") else path)
            it.send(text.encode())


def webs(server: Server, words: argparse.Namespace) -> list[Web]:
    """The live page and the figures that were asked for. Raises ValueError, and ImportError if what they need isn't there."""
    for it in (words.http, words.metrics):
        if it:
            host_and_port(it)
    return [Web(server, what) for what, address in (("page", words.http), ("metrics", words.metrics)) if address]


async def listen(pages: Sequence[Web], words: argparse.Namespace) -> None:
    """Raises OSError."""
    for it in pages:
        at = await it.listen(words.http if it.what == "page" else words.metrics)
        if it.what == "page":
            print(f"the live page: {at}", flush=True)
        else:
            log.info("figures for Prometheus: %s", at)


def limits(words: argparse.Namespace) -> Limits:
    """Those of the words; fewer connections if this process may have fewer files."""
    may, _ = resource.getrlimit(resource.RLIMIT_NOFILE)
    others = FILES + (FILES if words.replicas else 0) + sum(CONNECTIONS + 1 for it in (words.http, words.metrics) if it)
    connections = words.max_connections
    if may != resource.RLIM_INFINITY and connections > may - others:
        connections = max(1, may - others)
        log.warning("at most %d connections, since this process may have %d files open (ulimit -n)", connections, may)
    return Limits(connections, words.max_request, words.max_unread, words.max_waiting, words.max_waiting_each, words.max_answer)


def replica(words: argparse.Namespace, program: str, path: str) -> Replica:
    """Raises OSError and ValueError."""
    password = ""
    if words.etcd_password_file:
        with open(words.etcd_password_file) as file:
            password = file.read().rstrip("\n")
    context = context_of(words.etcd_ca, words.etcd_cert, words.etcd_key)
    access = Access(words.replicas.split(","), context, words.etcd_user, password)
    return Replica(
        path, name=words.name, folder=Path(words.folder), access=access, prefix=words.etcd_prefix, programs=[program, *words.next_program],
        lease=words.lease, every=words.checkpoint_every or EVERY, declare=words.declare, keeps_segments=words.keep_segments,
        grace=words.grace, keep=words.keep, limits=limits(words), mode=words.mode, group=words.group,
    )  # fmt: skip


async def serve(words: argparse.Namespace, program: str) -> None:
    """Runs a server until it is stopped. Raises OSError, ValueError, ImportError, `Differs` and `Ended`."""
    stop, loop = asyncio.Event(), asyncio.get_running_loop()
    for number in (signal.SIGTERM, signal.SIGINT):
        loop.add_signal_handler(number, stop.set)
    given = given_socket() if words.socket is None else None
    path = words.socket or (given and str(given.getsockname())) or ""
    if words.replicas:
        await serve_replica(words, replica(words, program, path), given, stop)
        return
    server = Server(path, grace=words.grace, keep=words.keep, limits=limits(words), mode=words.mode, group=words.group)
    loop.set_exception_handler(server.trouble)
    options = []
    if words.journal:
        every = words.checkpoint_every or CHECKPOINT
        options = [f"--journal={words.journal}", f"--sync={words.sync or 'full'}", f"--checkpoint-every={decimal(every)}"]
        server.own_checkpoints = every
    else:
        server.checkpoint_every = words.checkpoint_every or CHECKPOINT
    pages = webs(server, words)
    if given is None:
        server.lock_path()
    try:
        await server.start(program, options, journal=words.journal, declare=words.declare)
        try:
            await listen(pages, words)
            await server.listen(given)
            kept = f"the journal {words.journal}" if words.journal else "memory alone"
            log.info("started on %s, process %d, with %s", path, os.getpid(), kept)
            tell_manager("READY=1")
            await server.run(stop)
            log.info("stopped")
        finally:
            tell_manager("STOPPING=1")
            for it in pages:
                it.close()
            status = await server.machine.console.close(server.left() if server.is_stopping else None)
            if status:
                log.error("the program ended with status %d", status)
    finally:
        server.close_path()


async def serve_replica(words: argparse.Namespace, server: Replica, given: socket.socket | None, stop: asyncio.Event) -> None:
    """The same for a replica."""
    asyncio.get_running_loop().set_exception_handler(server.trouble)
    pages = webs(server, words)
    if given is None:
        server.lock_path()
    try:
        server.lock_folder()
        begun, stopped = asyncio.ensure_future(server.start_replica()), asyncio.ensure_future(stop.wait())
        await asyncio.wait((begun, stopped), return_when=asyncio.FIRST_COMPLETED)
        if not begun.done():
            begun.cancel()
            return
        await begun
        try:
            await listen(pages, words)
            await server.listen(given)
            log.info("started on %s, process %d, as replica %s", server.path, os.getpid(), server.name)
            tell_manager("READY=1")
            await server.run(stop)
            log.info("stopped")
        finally:
            tell_manager("STOPPING=1")
            for it in pages:
                it.close()
            await server.machine.console.close(server.left() if server.is_stopping else None)
    finally:
        server.close_path()


def main(arguments: Sequence[str] | None = None) -> int:
    found = parser()
    words = found.parse_args(arguments)
    if words.socket == "" or words.socket is None and os.environ.get("LISTEN_PID") != str(os.getpid()):
        found.error("the path of a SOCKET is needed")
    if words.sync and not words.journal:
        found.error("--sync goes with --journal")
    if words.replicas and not (words.name and words.folder):
        found.error("--replicas goes with --name and --folder")
    if words.replicas and (words.journal or words.max_waiting != WAITING or words.max_waiting_each or words.max_answer != ANSWER):
        found.error("--journal, --max-waiting.. and --max-answer don't go with --replicas: the log has the desk, and all replicas answer alike")
    if not words.replicas and (words.name or words.folder):
        found.error("--name and --folder go with --replicas")
    logging.basicConfig(level=logging.INFO, format="stmdesk-serve: %(message)s", stream=sys.stderr)
    raise_stack_limit()
    try:
        program = os.fspath(words.program or find_program())
        check_built(program)
        for it in (program, *words.next_program):
            if not shutil.which(it):
                raise FileNotFoundError(errno.ENOENT, "no such program", it)
        asyncio.run(serve(words, program))
    except NoCheckpoint:
        log.error("no checkpoint can be made in %s, so this replica stops; the others go on", words.folder)
        return 1
    except Ended:
        log.error("the program has ended, and the server with it")
        return 1
    except MemoryError:
        out_of_memory()
    except Differs as why:
        log.error("this replica differs, and stops: %s", why)
        return 5
    except ImportError as error:
        log.error("--metrics needs prometheus_client (pip install prometheus_client, or apt-get install python3-prometheus-client): %s", error)
        return 1
    except (OSError, ValueError) as error:
        log.error("%s", f"{error.filename}: {error.strerror}" if isinstance(error, OSError) and error.filename else error)
        return 1
    return 0


if __name__ == "__main__":
    sys.exit(main())
