"""Desks and forks."""

import asyncio
import contextlib
import fcntl
import gc
import multiprocessing
import os
import pathlib
import re
import signal
import subprocess
import sys
import tempfile
import threading
import time
import warnings
import weakref
from functools import partial

from stmdesk import Commits, Desk, Ended, New
from tests.common import HERE, INCREMENT, SECONDS, InThreads, library, needs_process, new_aio_desk, new_desk, program, waits_for


class Forks(InThreads):
    """A desk belongs to the process that started it: a forked one can't use it, and disturbs nothing."""

    # What the methods of a desk are called with; nothing if they aren't here.
    GIVEN = {
        "tvar": ("y : Int = 1",), "declare": ("y : Int = 1",), "try_": ("retry",), "looks": ("retry",), "submit": ("retry",), "take": (1,),
        "deliver": (1,), "handback": (1,), "finish": (1,), "cancel": (1,), "label": (1, "a"), "reads": (1,), "block": (1,), "why": (1,),
        "value": ("x",), "variable": ("x : Int = 1",), "atomically": ("retry",),
    }  # fmt: skip

    def fork(self):
        """As os.fork. The child is killed by an alarm if it doesn't end."""
        with warnings.catch_warnings():
            warnings.simplefilter("ignore", DeprecationWarning)  # of forks while there are threads
            child = os.fork()
        if not child:
            signal.signal(signal.SIGALRM, signal.SIG_DFL)
            signal.alarm(SECONDS // 2)
        return child

    def in_child(self, function):
        """What the function returns in a forked process, as a text."""
        ours, theirs = os.pipe()
        child = self.fork()
        if not child:
            try:
                os.write(theirs, repr(function()).encode())
            finally:
                os._exit(0)
        os.close(theirs)
        with open(ours) as file:
            said = file.read()
        os.waitpid(child, 0)
        return said

    def outcome(self, call, *given, **named):
        """What comes of a call."""
        try:
            call(*given, **named)
        except RuntimeError as error:
            return f"RuntimeError of {re.findall('[0-9]+', str(error))}"
        except BaseException as error:
            return repr(error)
        return "no error"

    def refused_in(self, child, owner):
        """What `outcome` has to be in a child of this process."""
        return f"RuntimeError of {[str(owner), str(child)]}"

    def assert_refused_in_child(self, calls):
        """Each of these calls, pairs of a name and a function, raises RuntimeError in a child, with the numbers of both processes."""
        owner = os.getpid()

        def wrong():
            wanted = self.refused_in(os.getpid(), owner)
            return [(name, got) for name, call in calls if (got := self.outcome(call)) != wanted]

        self.assertEqual(self.in_child(wrong), "[]")

    def calls_of(self, desk):
        names = [it for it in dir(desk) if not it.startswith("_") and it != "close" and callable(getattr(desk, it))]
        self.assertGreater(len(names), 22)
        found = [(name, partial(getattr(desk, name), *self.GIVEN.get(name, ()))) for name in names]
        return [*found, ("atomically with a timeout", partial(desk.atomically, "retry", timeout=0.01))]

    def test_each_call_raises(self):
        for is_begun in (False, True):  # whether the desk has a thread
            desk = self.start()
            if is_begun:
                desk.atomically("writeTVar x 7")

            def batch(begun):
                with begun:
                    pass

            with desk.batch() as answers:
                answer = answers.eval()
                calls = [*self.calls_of(desk), ("a batch that began before", partial(batch, answers)), ("its answer", answer.result)]
                self.assert_refused_in_child(calls[:-1])
            self.assert_is(answer.result(), 0)
            self.assert_is(desk.value("x"), 7 if is_begun else 1)
            self.assert_is(desk.show(), [])

    def test_each_call_of_asyncio_raises(self):
        for is_begun in (False, True):
            desk = new_aio_desk()
            if is_begun:
                asyncio.run(desk.tvar("x : Int = 1"))

            def awaited(call):
                async def main():
                    found = call()
                    if asyncio.iscoroutine(found):
                        await found

                asyncio.run(main())

            async def within():
                async with desk:
                    pass

            calls = [(name, partial(awaited, call)) for name, call in self.calls_of(desk)]
            self.assert_refused_in_child([*calls, ("async with", lambda: asyncio.run(within()))])
            self.assertEqual(self.in_child(lambda: asyncio.run(desk.close())), "None")
            self.assert_is(asyncio.run(desk.eval()), 0)
            asyncio.run(desk.close())

    def test_it_raises_while_the_owner_is_in_a_call(self):
        desk = Desk(self.stand_in("read line", "sleep 1000"), patience=0)
        call = self.begin(desk.eval)
        while not desk._caller:  # the thread has the lock of the desk
            time.sleep(0.001)
        self.assert_refused_in_child([*self.calls_of(desk), ("again", desk.eval)])
        self.assertFalse(call.done())
        with self.assertRaises(Ended):
            desk.close()
        self.assertIsInstance(call.exception(), Ended)

    def test_the_owner_loses_no_answer(self):
        desk, count = self.start(), 40

        def work():
            for _ in range(100):
                desk.atomically(INCREMENT)

        threads = [self.begin(work) for _ in range(4)]
        for _ in range(count):
            self.assert_refused_in_child([("value", lambda: desk.value("x")), ("atomically", lambda: desk.atomically(INCREMENT, timeout=1))])
        for it in threads:
            it.result()
        self.assert_is(desk.value("x"), 401)

    def test_what_a_child_leaves_goes_on(self):
        desk = self.start()
        (waiting,) = self.waiting(desk, waits_for(5))

        def leaves(how):
            def end():
                with contextlib.suppress(SystemExit), desk:
                    how()

            return end

        def close():
            desk.close()
            desk.close()

        for end in (leaves(lambda: None), leaves(lambda: sys.exit(3)), close):
            self.assertEqual(self.in_child(end), "None")
            self.assert_is(desk.try_("return 1"), Commits({}, [], 1))
        self.assertFalse(waiting.done())
        desk.atomically("writeTVar x 5")
        self.assert_is(waiting.result(), 5)

    def test_a_child_drops_its_copy(self):
        desks = [new_desk()]
        desks[0].tvar("x : Int = 1")
        desks[0].atomically("writeTVar x 2")

        def drop():
            dropped = weakref.ref(desks.pop())
            gc.collect()
            return dropped() is None

        self.assertEqual(self.in_child(drop), "True")
        self.assert_is(desks[0].value("x"), 2)
        desks[0].close()

    def test_a_child_that_ends_as_a_program(self):
        code = [
            "import os, sys, warnings",
            "from stmdesk import Desk",
            "warnings.simplefilter('ignore', DeprecationWarning)",
            "with Desk(local=True, library=sys.argv[1]) as desk:" if library else "with Desk(sys.argv[1]) as desk:",
            "    x = desk.tvar('x : Int = 1')",
            "    desk.atomically('writeTVar x 2')",
            "    child = os.fork()",
            "    if not child:",
            "        sys.exit(7)  # through the end of the `with`, and of the interpreter",
            "    print(os.waitstatus_to_exitcode(os.waitpid(child, 0)[1]), desk.value('x'))",
        ]
        command = [sys.executable, "-B", "-c", "\n".join(code), library or program]
        done = subprocess.run(command, capture_output=True, text=True, timeout=SECONDS, cwd=HERE)
        self.assertEqual((done.returncode, done.stdout, done.stderr), (0, "7 2\n", ""))

    @needs_process("the end of a program that is waited for")
    def test_the_program_ends_though_a_child_lives(self):
        for is_begun in (False, True):
            ours, theirs = os.pipe()
            desk = self.start(patience=10**6)
            if is_begun:
                desk.atomically("writeTVar x 2")
            child = self.fork()
            if not child:
                os.close(theirs)
                os.read(ours, 1)  # until the owner has closed the desk
                os._exit(0)
            desk.close()  # would wait for the child, if that kept the program's input open
            self.assert_gone(desk.pid)
            os.close(theirs)
            os.close(ours)
            os.waitpid(child, 0)

    @needs_process("a journal")
    def test_the_program_ends_after_its_owner_though_a_child_lives(self):
        code = [
            "import os, sys, signal, warnings",
            "from stmdesk import Desk",
            "warnings.simplefilter('ignore', DeprecationWarning)",
            "desk = Desk(sys.argv[1], journal=sys.argv[2], sync='none')",
            "desk.submit('retry')",
            "child = os.fork()",
            "if child:",
            "    print(child, flush=True)",
            "signal.alarm(60)",
            "signal.pause()",
        ]
        with tempfile.TemporaryDirectory() as folder:
            path = pathlib.Path(folder) / "journal"
            command = [sys.executable, "-B", "-c", "\n".join(code), program, path]
            owner = subprocess.Popen(command, stdout=subprocess.PIPE, text=True, cwd=HERE)
            child = int(owner.stdout.readline())
            owner.kill()
            owner.wait()
            with path.open() as file:
                fcntl.flock(file, fcntl.LOCK_SH)  # waits for the program's end
            os.kill(child, signal.SIGKILL)
            owner.stdout.close()
            with new_desk(journal=path) as desk:
                self.assert_is(desk.show(), [New(1)])

    def handler(self, children, after=lambda: None):
        """A signal handler that forks once, puts the child's number into the list, and does what comes after that."""

        def handle(number, frame):
            if not children:
                children.append(self.fork())
                after()

        return handle

    def assert_forked_well(self, got, owner, children):
        """What comes of a call in which such a handler forked: it is refused in the child, which ends here, and not in its owner."""
        if os.getpid() != owner:
            os._exit(0 if got == self.refused_in(os.getpid(), owner) else 1)
        self.assertEqual(got, "no error")
        return lambda: self.assertEqual(os.waitstatus_to_exitcode(os.waitpid(children.pop(), 0)[1]), 0)

    def test_a_signal_handler_forks_while_a_block_waits(self):
        owner, children = os.getpid(), []
        signal.signal(signal.SIGUSR1, self.handler(children))
        for timeout in (None, 10**6):
            desk = self.start()

            def send(desk=desk):
                self.until_blocked(desk, 1)
                signal.pthread_kill(threading.main_thread().ident, signal.SIGUSR1)
                while not children:
                    time.sleep(0.001)
                desk.atomically("writeTVar x 5")

            sender = self.begin(send)
            got = self.outcome(desk.atomically, waits_for(5), timeout=timeout)
            assert_ended_well = self.assert_forked_well(got, owner, children)
            sender.result()
            assert_ended_well()

    def test_a_signal_handler_forks_in_the_midst_of_a_call(self):
        owner, children = os.getpid(), []
        with tempfile.TemporaryDirectory() as folder:
            has_forked = pathlib.Path(folder) / "has_forked"
            signal.signal(signal.SIGUSR1, self.handler(children, has_forked.touch))
            until = f"until [ -e {has_forked} ]; do sleep 0.01; done"
            desk = Desk(self.stand_in("read line", "kill -USR1 $PPID", until, "echo evaluated 0", "cat >/dev/null"))
            got = self.outcome(desk.eval)
            self.assert_forked_well(got, owner, children)()
            desk.close()

    def test_a_child_has_a_desk_of_its_own(self):
        desk = self.start()

        def other():
            with new_desk() as mine:
                mine.tvar("x : Int = 8")
                return mine.atomically(INCREMENT), mine.value("x")

        self.assertEqual(self.in_child(other), "(8, 9)")
        self.assert_is(desk.value("x"), 1)

    def test_multiprocessing(self):
        desk, forks = self.start(), multiprocessing.get_context("fork")
        desk.atomically("writeTVar x 2")
        queue = forks.SimpleQueue()

        def work():
            queue.put((os.getpid(), self.outcome(desk.atomically, INCREMENT, timeout=3)))

        workers = [forks.Process(target=work) for _ in range(4)]
        with warnings.catch_warnings():
            warnings.simplefilter("ignore", DeprecationWarning)  # of forks while there are threads
            for it in workers:
                it.start()
        for it in workers:
            it.join()
        got = dict(queue.get() for _ in workers)
        self.assertEqual(got, {it.pid: self.refused_in(it.pid, os.getpid()) for it in workers})
        self.assertEqual([it.exitcode for it in workers], [0] * 4)
        self.assert_is(desk.value("x"), 2)
