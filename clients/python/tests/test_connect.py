"""Desks of `connect` at servers that break off, say nothing or come back, which a thread of the test stands in for."""

import asyncio
import contextlib
import gc
import itertools
import os
import socket
import tempfile
import threading
import time
import unittest
from unittest import mock

from stmdesk import DeskClosed, OtherType, OutcomeUnknown, Ref, _session, aio, connect
from stmdesk._numbers import Numbers

from .common import SECONDS, InThreads, needs_process

NO_DECLARATIONS = "declared 0 open"


class Server:
    """Listens at a path. A test says what it does with each connection."""

    def __init__(self, path):
        self.path = path
        self.listener = socket.socket(socket.AF_UNIX)
        self.listener.settimeout(SECONDS)
        self.listener.bind(path)
        self.listener.listen(8)

    def accept(self):
        it, _ = self.listener.accept()
        it.settimeout(SECONDS)
        return Connection(it)

    def greet(self, greeting="@0 1\nsession ok\n"):
        """Takes a connection, and answers its first line."""
        it = self.accept()
        it.first = it.line()
        it.send(greeting)
        return it

    def begin(self):
        """The same, and answers the question for the declared variables."""
        it = self.greet()
        number, lines = it.request()
        assert lines == ["declared"], lines
        it.answer(number, NO_DECLARATIONS)
        return it

    def close(self):
        """Nobody is there any more."""
        self.listener.close()
        with contextlib.suppress(FileNotFoundError):
            os.unlink(self.path)


class Connection:
    def __init__(self, it):
        self.socket, self.file = it, it.makefile("rb")
        self.acknowledged = Numbers()

    def line(self):
        return self.file.readline().decode().removesuffix("\n")

    def request(self):
        """Its number and its lines."""
        number, count, *acknowledged = self.line().split()
        for it in ",".join(acknowledged).split(",") if acknowledged else []:
            low, _, high = it.partition("-")
            self.acknowledged.add(int(low), int(high or low))
        return int(number.removeprefix("@")), [self.line() for _ in range(int(count))]

    def send(self, text):
        self.socket.sendall(text.encode())

    def answer(self, number, *lines):
        self.send("".join(f"{it}\n" for it in (f"@{number} {len(lines)}", *lines)))

    def reset(self):
        """Ends it as the kill of a server does that has something unread: the peer's next read is an error."""
        self.socket.recv(1, socket.MSG_PEEK)
        self.file.close()
        self.socket.close()

    def close(self):
        self.file.close()
        self.socket.close()


@needs_process("of a desk at a server")
class AtServers(InThreads):
    def setUp(self):
        super().setUp()
        folder = tempfile.TemporaryDirectory()
        self.addCleanup(folder.cleanup)
        self.path = f"{folder.name}/socket"

    def listen(self, path=None):
        server = Server(path or self.path)
        self.addCleanup(server.close)
        return server

    def connected(self, server, *more, **options):
        """A desk at the server, and its connection."""
        desk = self.begin(lambda: connect(server.path, *more, **options))
        it = server.begin()
        self.addCleanup(it.close)
        desk = desk.result(SECONDS)
        self.addCleanup(desk.close)
        return desk, it


class Reconnect(AtServers):
    def test_patience_begins_when_the_connection_breaks(self):
        """However long it lasted, and however it broke: by an end of the stream, or by an error."""
        for number, (end, several) in enumerate(itertools.product((Connection.close, Connection.reset), (False, True))):
            path = f"{self.path}{number}"
            server = self.listen(path)
            later = mock.Mock(wraps=time)
            with mock.patch.object(_session, "time", later):
                desk, it = self.connected(server, *([path] if several else []), reconnect=True, patience=SECONDS)
                later.monotonic.side_effect = lambda: time.monotonic() + 10 * SECONDS
                call = self.begin(desk.value, "x")
                if end is Connection.close:
                    self.assertEqual(it.request(), (2, ["try readTVar x"]))
                end(it)
                again = server.greet()
                self.assertEqual(again.first, it.first.removesuffix(" new"))
                self.assertEqual(again.request(), (2, ["try readTVar x"]))
                again.answer(2, "commits writes none news none result 5")
                self.assertEqual(call.result(SECONDS), 5)
                again.close()
                desk.close()

    def test_a_desk_that_gave_up_tries_again(self):
        server = self.listen()
        desk, it = self.connected(server, reconnect=True, patience=0.25)
        submitted = self.begin(desk.submit, "retry")
        self.assertEqual(it.request(), (2, ["submit retry"]))
        server.close()
        it.close()
        with self.assertRaisesRegex(OutcomeUnknown, "came, and there was no server for 0.25 s: the call may have had its effect$"):
            submitted.result(SECONDS)
        for _ in range(2):
            with self.assertRaises(DeskClosed) as caught:
                desk.show()
            why = f"no server at {self.path}: No such file or directory"
            self.assertEqual(str(caught.exception), f"{why}. The desk gave up after 0.25 s; its next call tries again")
        with self.assertRaisesRegex(DeskClosed, "tries again$"):
            desk.atomically("return 1")
        server = self.listen()
        show = self.begin(desk.show)
        again = server.greet()
        self.assertEqual(again.first, it.first.removesuffix(" new"))  # the same session, if the server has it
        self.assertEqual(again.line(), "!2")  # of which nobody would get the result
        number, lines = again.request()
        self.assertEqual(lines, ["declared"])  # the desk may be another one
        again.answer(2, "ticket 1")
        again.answer(number, NO_DECLARATIONS)
        number, lines = again.request()
        self.assertEqual(lines, ["show"])
        again.answer(number, "waiting 0")
        self.assertEqual(show.result(SECONDS), [])
        value = self.begin(desk.value, "x")
        number, lines = again.request()
        self.assertEqual(lines, ["try readTVar x"])
        again.answer(number, "commits writes none news none result 5")
        self.assertEqual(value.result(SECONDS), 5)
        self.assertIn(2, again.acknowledged)  # so that the server doesn't keep its answer
        again.close()
        desk.close()

    def test_a_new_session_after_giving_up(self):
        """The server was started again, and has other variables."""
        server = self.listen()
        desk, it = self.connected(server, reconnect=True, patience=0.25)
        server.close()
        it.close()
        with self.assertRaisesRegex(DeskClosed, "tries again$"):
            desk.show()
        server = self.listen()
        reads = self.begin(desk.looks, "readTVar x")
        refused = server.greet("@0 refused NoSession\n")
        refused.close()
        it = server.greet()
        self.assertTrue(it.first.endswith(" new"), it.first)
        number, lines = it.request()
        self.assertEqual(lines, ["declared"])
        it.answer(number, "#0 x : Int", "declared 1 late")
        number, lines = it.request()
        self.assertEqual(lines, ["looks readTVar x"])
        it.answer(number, "reads #0=5")
        self.assertEqual(reads.result(SECONDS), {Ref(0, "x"): 5})
        it.close()
        desk.close()

    def test_a_desk_that_gave_up_ends(self):
        """No thread and no descriptor is left, whether it is closed or nobody has it any more."""
        before = threading.active_count(), len(os.listdir("/proc/self/fd"))
        for is_closed in (True, False):
            server = self.listen()
            desk = self.begin(lambda: connect(server.path, reconnect=True, patience=0.25))
            it = server.begin()
            desk = desk.result(SECONDS)
            server.close()
            it.close()
            for call in (desk.show, lambda: desk.atomically("return 1")):
                with self.assertRaisesRegex(DeskClosed, "tries again$"):
                    call()
            if is_closed:
                desk.close()
                self.assertRaises(ValueError, desk.show)
            del desk, call
        self.threads.shutdown()
        while threading.active_count() > before[0] or len(os.listdir("/proc/self/fd")) > before[1]:
            gc.collect()
            time.sleep(0.01)


class SilentServer(AtServers):
    def test_a_server_that_greets_and_says_nothing(self):
        for number, reconnect in enumerate((False, True)):
            server = self.listen(f"{self.path}{number}")
            desk = self.begin(lambda: connect(server.path, reconnect=reconnect, patience=0.5))
            with contextlib.closing(server.greet()) as it:
                self.assertEqual(it.request(), (1, ["declared"]))
                why = f"no server at {server.path}: it takes connections, and doesn't answer"
                gave_up = ". The desk gave up after 0.5 s" if reconnect else ""
                with self.assertRaises(DeskClosed) as caught:
                    desk.result(SECONDS)
                self.assertEqual(str(caught.exception), why + gave_up)
                self.assertEqual(it.line(), "")  # the connection has ended

    def test_a_server_that_says_nothing_at_all(self):
        server = self.listen()
        for _ in range(2):
            with self.assertRaisesRegex(DeskClosed, "it takes connections, and doesn't answer$"):
                connect(self.path, patience=0.5)
        del server

    def test_a_greeting_without_an_end(self):
        server = self.listen()
        desk = self.begin(lambda: connect(self.path, patience=SECONDS))
        it = server.accept()
        with contextlib.suppress(OSError):
            for _ in range(100):
                it.send("x" * 10_000)
        with self.assertRaisesRegex(DeskClosed, f"^no server at {self.path}: x{{200}}$"):
            desk.result(SECONDS)
        it.close()

    def test_a_server_that_works_isnt_silent(self):
        """A question for the declarations in the midst of the desk's life may take its time."""
        server = self.listen()
        with mock.patch.object(_session, "LEAST", 0.01):
            desk, it = self.connected(server, reconnect=True, patience=0.5)
            variable = self.begin(desk.variable, "x : Int = 0")
            number, lines = it.request()
            it.answer(number, "refused Twice")
            number, lines = it.request()
            self.assertEqual(lines, ["declared"])
            time.sleep(1)
            it.answer(number, "#0 x : Int", "declared 1 late")
            self.assertEqual(variable.result(SECONDS), Ref(0, "x"))
            it.close()
            desk.close()


class Variables(AtServers):
    def test_a_variable_is_an_event(self):
        """So that a journal of the server keeps it once it is answered."""
        server = self.listen()
        desk, it = self.connected(server)
        for declaration, answers, wanted in (
            ("x : Int = 0", ["declared #0 x"], Ref(0, "x")),
            ("y : Int = 0", ["refused Command", "tvar #1 y"], Ref(1, "y")),  # of a program that knows no `declare`
            ("z : Int = 0", ["refused Command", "refused Late"], "Late"),
            ("z : Int = w", ["refused Unknown 8"], "Unknown"),
        ):
            call = self.begin(desk.variable, declaration)
            for word, answer in zip(("declare", "tvar"), answers):
                number, lines = it.request()
                self.assertEqual(lines, [f"{word} {declaration}"])
                it.answer(number, answer)
                if answer == "refused Late":  # has somebody else declared it?
                    number, lines = it.request()
                    self.assertEqual(lines, ["declared"])
                    it.answer(number, "#0 x : Int", "#1 y : Int", "declared 2 late")
            if isinstance(wanted, Ref):
                self.assertEqual(call.result(SECONDS), wanted)
            else:
                self.assert_refused(call.result, wanted, *([8] if wanted == "Unknown" else []))
        it.close()
        desk.close()

    def test_a_variable_of_another_type(self):
        """Somebody else has declared it since."""
        server = self.listen()
        desk, it = self.connected(server)
        call = self.begin(desk.variable, "x : Bool = True")
        number, lines = it.request()
        it.answer(number, "refused Twice")
        number, lines = it.request()
        self.assertEqual(lines, ["declared"])
        it.answer(number, "#0 x : TVar Int", "declared 1 late")
        with self.assertRaisesRegex(OtherType, "^x is declared as TVar Int, and not as Bool\n"):
            call.result(SECONDS)
        it.close()
        desk.close()


class OfAsyncio(AtServers):
    def test_a_desk_that_gave_up_tries_again(self):
        async def main():
            desk = aio.connect(self.path, reconnect=True, patience=0.25)
            for _ in range(2):
                with self.assertRaisesRegex(DeskClosed, "The desk gave up after 0.25 s; its next call tries again$"):
                    await desk.show()
            server = self.listen()
            show = asyncio.create_task(desk.show())
            it = await asyncio.to_thread(server.begin)
            number, lines = await asyncio.to_thread(it.request)
            self.assertEqual(lines, ["show"])
            it.answer(number, "waiting 0")
            self.assertEqual(await show, [])
            it.close()
            await desk.close()

        asyncio.run(main())

    def test_async_with_without_a_server(self):
        async def main():
            desk = aio.connect(self.path, reconnect=True, patience=0.25)
            with self.assertRaisesRegex(DeskClosed, "The desk gave up after 0.25 s"):
                async with desk:
                    pass
            with self.assertRaisesRegex(DeskClosed, "^the connection was closed$"):
                await desk.show()

        asyncio.run(main())

    def test_a_server_that_greets_and_says_nothing(self):
        async def main():
            server = self.listen()
            desk = aio.connect(self.path, patience=0.5)
            it = await asyncio.to_thread(server.greet)
            with self.assertRaisesRegex(DeskClosed, "it takes connections, and doesn't answer$"):
                async with desk:
                    pass
            it.close()

        asyncio.run(main())

    def test_a_variable_that_another_client_declares_meanwhile(self):
        async def main():
            server = self.listen()
            desk = aio.connect(self.path)
            it = await asyncio.to_thread(server.begin)
            variable = asyncio.create_task(desk.variable("x : Int = 0"))
            number, lines = await asyncio.to_thread(it.request)
            it.answer(number, "refused Twice")
            number, lines = await asyncio.to_thread(it.request)
            self.assertEqual(lines, ["declared"])
            it.answer(number, "#0 x : Int", "declared 1 late")
            self.assertEqual(await variable, Ref(0, "x"))
            it.close()
            await desk.close()

        asyncio.run(main())


if __name__ == "__main__":
    unittest.main()
