"""What an operator sees of a server over HTTP: the live page, and figures for Prometheus. Both only read."""

from __future__ import annotations

import asyncio
import html
import importlib
import json
import re
import secrets
from collections.abc import Iterator, Mapping
from contextlib import suppress
from typing import Any

from ._machine import NUMBER_OF_EVENTS, Ended
from ._page import PAGE
from ._serve import Server, peer

HEAD = 8192  # bytes of a request's head
PATIENCE = 10.0  # seconds for it
CONNECTIONS = 64
UNREAD = 1 << 20  # bytes; a reader that has more unread gets no further update until it has read
ROWS = 200  # of the board and of the store
EVENTS = 50
LARGE = 10_000  # variables; of a larger store nothing is shown
OFTEN = 0.2  # seconds between updates, at least
ALIVE = 15.0  # seconds without an update after which a line is sent all the same
FIGURES = {
    "waiting": "Blocks that wait.",
    "ready": "Waiting blocks that can be finished.",
    "stale": "Waiting blocks whose verdict is out of date.",
    "history_events": "Events since the last checkpoint.",
    "connections": "Open connections.",
    "sessions": "Sessions, of connections that ended a moment ago too.",
    "leading": "1 if this server takes calls.",
}
TOTALS = {
    "events": "Events since the start of the server; of replicas since the beginning of the log.",
    "finished": "Blocks that finished.",
    "evaluations": "Evaluations.",
    "cancelled": "Blocks that were cancelled.",
    "checkpoints": "Checkpoints.",
    "groups": "Groups of requests; with a journal each is synced once or a few times.",
    "requests": "Requests in them.",
    "group_seconds": "Seconds in groups: evaluation, journal and syncs, and of replicas the log.",
}


def host_and_port(address: str) -> tuple[str, int]:
    """Of an address HOST:PORT, where HOST may be `[::1]`. Raises ValueError."""
    host, _, port = address.rpartition(":")
    if not host or "/" in host or not (port.isascii() and port.isdigit()) or int(port) >= 1 << 16:
        raise ValueError(f"{address!r} isn't HOST:PORT")
    return host, int(port)


class Web:
    """Serves one address, with the page under a token, or with the figures."""

    def __init__(self, server: Server, what: str) -> None:
        """`what` is `page` or `metrics`. Raises ImportError if there is no prometheus_client for that."""
        self.server, self.what = server, what
        self.prometheus: Any = importlib.import_module("prometheus_client") if what == "metrics" else None
        self.metric: Any = importlib.import_module("prometheus_client.core") if what == "metrics" else None
        self.token = secrets.token_urlsafe(18)
        self._listener: asyncio.Server | None = None
        self._streams: set[asyncio.StreamWriter] = set()
        self._open = 0
        self._changed = asyncio.Event()
        self._publisher: asyncio.Task[None] | None = None
        self._last: bytes = b""
        self._seen, self._events = 0, [("", "")][:0]
        self._is_large = False
        server.on_group.append(self._changed.set)

    async def listen(self, address: str) -> str:
        """Returns the address for a browser. Raises OSError and ValueError."""
        host, port = host_and_port(address)
        self._listener = await asyncio.start_server(self._connected, host.strip("[]"), port, limit=HEAD)
        at = self._listener.sockets[0].getsockname()[1]
        return f"http://{host}:{at}/{f'{self.token}/' if self.what == 'page' else 'metrics'}"

    async def _connected(self, reader: asyncio.StreamReader, writer: asyncio.StreamWriter) -> None:
        self._open += 1
        try:
            if self._open <= CONNECTIONS:
                head = await asyncio.wait_for(reader.readuntil(b"\r\n\r\n"), PATIENCE)
                await self._answer(head.split(b"\r\n", 1)[0].decode("latin-1").split(" "), reader, writer)
        except (OSError, ValueError, EOFError, Ended, asyncio.LimitOverrunError, asyncio.TimeoutError):
            pass
        finally:
            self._open -= 1
            self._streams.discard(writer)
            writer.close()

    async def _answer(self, words: list[str], reader: asyncio.StreamReader, writer: asyncio.StreamWriter) -> None:
        path = words[1] if len(words) == 3 and words[0] == "GET" else ""
        inside = f"/{self.token}/"
        if self.what == "metrics" and path == "/metrics":
            text = await self.metrics()
            await _send(writer, "200 OK", self.prometheus.CONTENT_TYPE_LATEST, text)
        elif self.what == "page" and len(path) >= len(inside) and secrets.compare_digest(path[: len(inside)].encode(), inside.encode()):
            if path == inside:
                nonce = secrets.token_urlsafe(12)
                page = PAGE.replace("NAME_OF_SERVER", html.escape(f"{self.server.name} {self.server.path}")).replace("NONCE_OF_PAGE", nonce)
                rules = f"default-src 'none'; connect-src 'self'; style-src 'unsafe-inline'; script-src 'nonce-{nonce}'"
                await _send(writer, "200 OK", "text/html; charset=utf-8", page.encode(), f"Content-Security-Policy: {rules}\r\n")
            elif path == f"{inside}events":
                await self._stream(reader, writer)
            else:
                await _send(writer, "404 Not Found", "text/plain", b"not found\n")
        else:
            await _send(writer, "404 Not Found", "text/plain", b"not found\n")

    async def _stream(self, reader: asyncio.StreamReader, writer: asyncio.StreamWriter) -> None:
        writer.write(b"HTTP/1.1 200 OK\r\nContent-Type: text/event-stream\r\nCache-Control: no-store\r\nConnection: close\r\n\r\n")
        writer.write(self._last)
        self._streams.add(writer)
        self._changed.set()
        if self._publisher is None or self._publisher.done():
            self._publisher = asyncio.ensure_future(self._publish())
        while await reader.read(1024):  # to the end of the connection
            pass

    async def _publish(self) -> None:
        """Sends the board to all streams, while there are some."""
        while self._streams:
            with suppress(asyncio.TimeoutError):
                await asyncio.wait_for(self._changed.wait(), ALIVE)
            if self._changed.is_set():
                self._changed.clear()
                with suppress(Ended):  # a replica's program ends at each checkpoint, and another one goes on
                    self._last = b"data: %s\n\n" % json.dumps(await self.board()).encode()
                    self._send_all(self._last)
            else:
                self._send_all(b":\n\n")
            await asyncio.sleep(OFTEN)

    def _send_all(self, text: bytes) -> None:
        for it in list(self._streams):
            if it.transport.is_closing():
                self._streams.discard(it)
            elif it.transport.get_write_buffer_size() < UNREAD:
                it.write(text)

    async def board(self) -> dict[str, Any]:
        """What the page shows."""
        server, machine = self.server, self.server.machine
        state = "takes calls" if server.is_leading else "follows the leader"
        counts = {"waiting": len(machine.waiting), **machine.counts, "connections": len(server.open)}
        found: dict[str, Any] = {"state": state, "counts": counts, "board": [], "boardMore": 0, "store": [], "storeMore": "", "events": []}
        if machine.is_declaring:  # a question would end the declarations
            found["store"] = [[*it.decode().split(" ")[:2], it.decode().partition(" : ")[2], "", ""] for it in machine.declared[:ROWS]]
            return found | {"state": f"{state}; variables can still be declared"}
        tickets = sorted(machine.waiting)
        (number,) = (await machine.console.run([NUMBER_OF_EVENTS]))[0]
        count = int(number.split(b" ")[1])
        if count < self._seen:  # there was a checkpoint
            self._seen, self._events = 0, []
        begin = max(self._seen, count - EVENTS) + 1
        asked = [b"events %d" % begin, *(b"why %d" % it for it in tickets[:ROWS]), *([] if self._is_large else [b"store"])]
        events, *rest = await machine.console.run(asked)
        self._seen = begin + len(events) - 2
        self._events = [*self._events, *((str(begin + at), it.decode()) for at, it in enumerate(events[:-1]))][-EVENTS:]
        found["events"] = self._events[::-1]
        names = dict(it.decode().split(" ", 2)[:2] for it in machine.declared)
        for ticket, (why, *_) in zip(tickets, rest):
            words = why.decode().split(" ")
            if words[0] == "why":
                text = named(" ".join(words[3:]), names)
                found["board"].append({"ticket": ticket, "state": words[2], "why": text, **self._of(ticket)})
        found["boardMore"] = max(0, len(tickets) - ROWS)
        if not self._is_large:
            cells = rest[-1][:-1]
            self._is_large = len(cells) > LARGE
            found["store"] = [_cell(it.decode()) for it in cells[:ROWS]]
            found["storeMore"] = f"and {len(cells) - ROWS} more" if len(cells) > ROWS else ""
        else:
            found["storeMore"] = f"more than {LARGE} variables"
        return found

    def _of(self, ticket: int) -> dict[str, str]:
        """The block of a ticket, and for whom it waits."""
        machine = self.server.machine
        where = machine.waits.get(ticket)
        name = where[0] if where else machine.owned.get(ticket, "")
        connection = self.server.connections.get(name)
        who = peer(connection.writer) if connection else "a session" if name else "nobody in particular"
        text, label = machine.waiting.get(ticket, b""), machine.labels.get(ticket)
        block = (text if label is None else b"%s: %s" % (label, text)).decode("ascii", "replace")
        return {"block": block, "who": f"{who}{', in a call' if where else ''}"}

    async def metrics(self) -> bytes:
        """The figures, as Prometheus reads them."""
        server, machine = self.server, self.server.machine
        figures = {"waiting": len(machine.waiting), "history_events": machine.since, "connections": len(server.open)}
        figures |= {"sessions": len(machine.sessions), "leading": int(server.is_leading), "ready": 0, "stale": 0}
        if not machine.is_declaring:
            shown, ready = await machine.console.run([b"show", b"ready"])
            figures["ready"] = sum(it != b"none" for it in ready[0].split(b" ")[1:])
            figures["stale"] = sum(it.split(b" ", 2)[1] == b"stale" for it in shown[:-1])
        totals = {**machine.counts, "groups": server.groups, "requests": server.grouped, "group_seconds": server.seconds}
        metric, refused = self.metric, server.refused

        class Figures:
            def collect(self) -> Iterator[Any]:
                for name, text in FIGURES.items():
                    yield metric.GaugeMetricFamily(f"stmdesk_{name}", text, value=figures[name])
                for name, text in TOTALS.items():
                    yield metric.CounterMetricFamily(f"stmdesk_{name}", text, value=totals[name])
                ended = metric.CounterMetricFamily("stmdesk_ended_connections", "Connections that the server ended.", labels=["why"])
                for why, count in refused.items():
                    ended.add_metric([why], count)
                yield ended

        registry = self.prometheus.CollectorRegistry()
        registry.register(Figures())
        text: bytes = self.prometheus.generate_latest(registry)
        return text

    def close(self) -> None:
        if self._listener:
            self._listener.close()
        if self._publisher:
            self._publisher.cancel()
        for it in self._streams:
            it.transport.abort()


async def _send(writer: asyncio.StreamWriter, status: str, kind: str, text: bytes, more: str = "") -> None:
    head = f"HTTP/1.1 {status}\r\nContent-Type: {kind}\r\nContent-Length: {len(text)}\r\nCache-Control: no-store\r\n"
    more += "Referrer-Policy: no-referrer\r\nX-Content-Type-Options: nosniff\r\nConnection: close\r\n\r\n"
    writer.write((head + more).encode() + text)
    await writer.drain()


def named(text: str, names: Mapping[str, str]) -> str:
    """The text with the name after each number of a declared variable, as `#0 x`."""
    return re.sub(r"#\d+", lambda found: f"{found[0]} {names[found[0]]}" if found[0] in names else found[0], text)


def _cell(line: str) -> list[str]:
    """`#0 x : Int = 1 count 0`"""
    head, _, count = line.rpartition(" count ")
    head, _, value = head.rpartition(" = ")
    name, _, kind = head.partition(" : ")
    number, _, name = name.partition(" ")
    return [number, name, kind, value, count]
