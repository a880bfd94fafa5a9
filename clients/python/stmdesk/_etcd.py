"""A client of etcd's JSON gateway (/v3/..), with what replicas need of it."""

from __future__ import annotations

import asyncio
import base64
import json
import logging
import ssl
import time
from collections.abc import Sequence
from contextlib import suppress
from dataclasses import dataclass
from typing import Any

HEAD = 1 << 16  # bytes of an answer's head, and of a line of a watch
SAYING = 10.0  # seconds between two lines about the same trouble

log = logging.getLogger("stmdesk.server")


class Away(Exception):
    """No node of etcd does what it was asked. It may have been done."""


@dataclass
class Access:
    """How nodes are reached."""

    addresses: Sequence[str]  # HOST:PORT
    context: ssl.SSLContext | None = None
    user: str | None = None
    password: str = ""


def encoded(text: str | bytes) -> str:
    return base64.b64encode(text if isinstance(text, bytes) else text.encode()).decode()


def put(key: str, value: str, lease: str | None = None) -> dict[str, Any]:
    return {"requestPut": {"key": encoded(key), "value": encoded(value), **({"lease": lease} if lease else {})}}


def delete(key: str, end: str) -> dict[str, Any]:
    return {"requestDeleteRange": {"key": encoded(key), "range_end": encoded(end)}}


def to_prefix(key: str) -> str:
    """The end of the range of all keys that begin with this one."""
    return key[:-1] + chr(ord(key[-1]) + 1)


class Etcd:
    """One connection to one node at a time; if that doesn't answer, to the next one. Calls are made one after the other."""

    def __init__(self, access: Access, patience: float) -> None:
        """`patience` is what a node has to answer, in seconds."""
        self.access, self.patience = access, patience
        self._at = 0
        self._pipe: tuple[asyncio.StreamReader, asyncio.StreamWriter] | None = None
        self._token: str | None = None
        self._lock = asyncio.Lock()
        self._said = -SAYING

    async def call(self, path: str, **body: Any) -> Any:
        """Raises `Away`."""
        async with self._lock:
            why: BaseException | None = None
            for _ in range(len(self.access.addresses) + 1):
                try:
                    return await asyncio.wait_for(self._call(path, json.dumps(body).encode()), self.patience)
                except asyncio.CancelledError:
                    self._drop()  # its answer may still come
                    raise
                except (OSError, EOFError, ValueError, asyncio.TimeoutError, asyncio.LimitOverrunError) as error:
                    why = error
                    self._drop()
                    if "auth" not in str(error):
                        self._at = (self._at + 1) % len(self.access.addresses)
            if time.monotonic() - self._said > SAYING:
                self._said = time.monotonic()
                log.warning("etcd doesn't answer: %s", str(why)[:300] or type(why).__name__)
            raise Away(str(why))

    async def _call(self, path: str, body: bytes) -> Any:
        if not self._pipe:
            self._pipe = await self._connect()
        reader, writer = self._pipe
        if self.access.user and not self._token:
            asked = json.dumps({"name": self.access.user, "password": self.access.password}).encode()
            self._token = (await self._ask(reader, writer, "auth/authenticate", asked))["token"]
        return await self._ask(reader, writer, path, body)

    async def _connect(self) -> tuple[asyncio.StreamReader, asyncio.StreamWriter]:
        host, _, port = self.access.addresses[self._at].rpartition(":")
        return await asyncio.open_connection(host.strip("[]"), int(port), ssl=self.access.context, limit=HEAD)

    def _request(self, path: str, body: bytes) -> bytes:
        more = f"Authorization: {self._token}\r\n" if self._token else ""
        host = self.access.addresses[self._at]
        return f"POST /v3/{path} HTTP/1.1\r\nHost: {host}\r\n{more}Content-Length: {len(body)}\r\n\r\n".encode() + body

    async def _ask(self, reader: asyncio.StreamReader, writer: asyncio.StreamWriter, path: str, body: bytes) -> Any:
        writer.write(self._request(path, body))
        head = (await reader.readuntil(b"\r\n\r\n")).lower()
        text = b""
        if b"transfer-encoding: chunked" in head:
            while size := int(await reader.readline(), 16):
                text += (await reader.readexactly(size + 2))[:-2]
            await reader.readline()
        else:
            text = await reader.readexactly(int(head.partition(b"content-length:")[2].split(None, 1)[0]))
        if b" 200 " not in head.partition(b"\r\n")[0]:
            raise OSError(text.decode(errors="replace").strip())  # a timeout, or a change of etcd's own leader, or no room
        return json.loads(text)

    def _drop(self) -> None:
        if self._pipe:
            self._pipe[1].close()
        self._pipe = self._token = None

    async def range(self, key: str, end: str | None = None, limit: int = 0, *, is_old: bool = False) -> list[tuple[str, bytes, str]]:
        """(key, value, created) in order of the keys. `is_old`: what this node has, which may not be the newest. Raises `Away`."""
        body = {"key": encoded(key), "limit": limit, "serializable": is_old, **({"range_end": encoded(end)} if end else {})}
        found = (await self.call("kv/range", **body)).get("kvs", ())
        return [(base64.b64decode(it["key"]).decode(), base64.b64decode(it.get("value", "")), it["create_revision"]) for it in found]

    async def watch(self, key: str, end: str, news: asyncio.Event) -> None:
        """Sets the event when one of the keys changes, and when that isn't known."""
        while True:
            writer = None
            try:
                reader, writer = await asyncio.wait_for(self._connect(), self.patience)
                if self.access.user:
                    asked = json.dumps({"name": self.access.user, "password": self.access.password}).encode()
                    self._token = None
                    self._token = (await asyncio.wait_for(self._ask(reader, writer, "auth/authenticate", asked), self.patience))["token"]
                body = {"create_request": {"key": encoded(key), "range_end": encoded(end)}}
                writer.write(self._request("watch", json.dumps(body).encode()))
                while await reader.read(1 << 16):
                    news.set()
            except (OSError, EOFError, ValueError, asyncio.TimeoutError, asyncio.LimitOverrunError):
                pass
            finally:
                if writer:
                    writer.close()
            news.set()
            self._at = (self._at + 1) % len(self.access.addresses)
            await asyncio.sleep(0.2)

    def close(self) -> None:
        with suppress(OSError):
            self._drop()


def context_of(ca: str | None, cert: str | None, key: str | None) -> ssl.SSLContext | None:
    """For TLS, if one of these files is given. Raises OSError and ValueError."""
    if not (ca or cert or key):
        return None
    found = ssl.create_default_context(cafile=ca)
    if cert:
        found.load_cert_chain(cert, key)
    return found
