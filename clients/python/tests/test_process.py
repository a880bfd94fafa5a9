"""The process of a desk: how it ends, and answers without end."""

import concurrent.futures
import gc
import os
import pathlib
import signal
import threading
import time
import warnings
from unittest import mock

from stmdesk import BadAnswer, Desk, Ended, Refused, TimedOut, _commands, _helper
from tests.common import HERE, OnProgram, needs_process, new_desk


class Ends(OnProgram):
    def test_a_with_ends_the_program(self):
        with new_desk() as desk:
            desk.store()
        self.assert_gone(desk.pid)
        desk.close()
        with self.assertRaises(ValueError):
            desk.store()

    def test_a_with_of_no_call(self):
        with new_desk() as desk:
            pass
        self.assert_gone(desk.pid)

    def test_a_body_that_raises(self):
        def job():
            raise ZeroDivisionError

        with self.assertRaises(ZeroDivisionError), new_desk() as desk:
            desk.submit("retry")
            job()
        self.assert_gone(desk.pid)

    def test_a_refusal_passes_out_of_a_with(self):
        with self.assertRaises(Refused), new_desk() as desk:
            desk.finish(1)
        self.assert_gone(desk.pid)

    @needs_process("the program ends")
    def test_a_desk_that_nobody_refers_to(self):
        for blocks in ([], ["retry"]):  # the second has a thread of the desk's own
            desk = new_desk()
            for it in blocks:
                with self.assertRaises(TimedOut):
                    desk.atomically(it, timeout=0)
            desk.store()
            state = pathlib.Path(f"/proc/{desk.pid}/stat")
            with warnings.catch_warnings():
                warnings.simplefilter("ignore", ResourceWarning)
                del desk
                gc.collect()
            while state.exists() and state.read_text().split()[2] != "Z":  # Python waits for it when it starts the next process
                time.sleep(0.01)

    @needs_process("the program is killed")
    def test_a_program_that_is_killed(self):
        with new_desk() as desk:
            desk.submit("retry")
            os.kill(desk.pid, signal.SIGKILL)
            for _ in range(2):
                with self.assertRaises(Ended) as caught:
                    desk.show()
                self.assertEqual((caught.exception.status, caught.exception.said), (-signal.SIGKILL, ""))
        self.assert_gone(desk.pid)

    @needs_process("the program is killed")
    def test_a_program_that_is_killed_between_the_calls_is_told_at_the_end(self):
        with self.assertRaises(Ended), new_desk() as desk:
            desk.submit("retry")
            os.kill(desk.pid, signal.SIGKILL)
        self.assert_gone(desk.pid)

    @needs_process("the program isn't there")
    def test_a_program_that_is_not_there(self):
        with self.assertRaises(FileNotFoundError):
            Desk(HERE / "no_such_program")
        with self.assertRaises(PermissionError):
            Desk(HERE / "job_engine.out")

    @needs_process("the program refuses options")
    def test_options_that_are_refused(self):
        for options in ({"workers": 0}, {"workers": 65}, {"levels": 9}, {"max_events": 1048577}):
            with self.subTest(options=options), new_desk(**options) as desk:
                with self.assertRaises(Ended) as caught:
                    desk.store()
                self.assertEqual(caught.exception.status, 2)
                self.assertTrue(caught.exception.said.startswith("error: "))
        with self.assertRaises(TypeError):
            new_desk(workers="2")

    def test_the_status_and_what_was_said(self):
        for status, said in ((1, "stmdesk: write fault"), (4, "stmdesk: out of memory")):
            path = self.stand_in("read line", "printf 'ticket'", f"echo '{said}' >&2", f"exit {status}")
            with Desk(path) as desk:
                with self.assertRaises(Ended) as caught:
                    desk.submit("retry")
                self.assertEqual((caught.exception.status, caught.exception.said), (status, said))
                self.assertEqual(str(caught.exception), f"the program ended with status {status}: {said}")
            self.assert_gone(desk.pid)

    def test_much_on_standard_error(self):
        path = self.stand_in("head -c 1000000 /dev/zero >&2", "read line", "echo ticket 7")
        with Desk(path) as desk:
            self.assert_is(desk.submit("retry"), 7)

    def test_a_program_that_does_not_end(self):
        path = self.stand_in("read line", "echo ticket 1", "sleep 1000")
        before = time.monotonic()
        with self.assertRaises(Ended) as caught, Desk(path, patience=0.2) as desk:
            desk.submit("retry")
        self.assertEqual(caught.exception.status, -signal.SIGKILL)
        self.assertLess(time.monotonic() - before, 10)
        self.assert_gone(desk.pid)

    def test_what_the_program_started_ends_with_it(self):
        path = self.stand_in("read line", "sleep 1000 &", "echo ticket $!", "wait")
        with self.assertRaises(ZeroDivisionError), Desk(path) as desk:
            child = desk.submit("retry")
            raise ZeroDivisionError
        state = pathlib.Path(f"/proc/{child}/stat")
        while state.exists() and state.read_text().split()[2] != "Z":  # one that init has yet to wait for is Z
            time.sleep(0.01)

    def test_a_call_that_is_broken_off(self):
        def interrupt(number, frame):
            raise KeyboardInterrupt

        signal.signal(signal.SIGALRM, interrupt)
        path = self.stand_in("read line", "printf 'tick'", "sleep 1000")
        with self.assertRaises(KeyboardInterrupt), Desk(path) as desk:
            signal.setitimer(signal.ITIMER_REAL, 0.2)
            try:
                desk.submit("retry")
            finally:
                with self.assertRaises(Ended):
                    desk.submit("retry")
        self.assert_gone(desk.pid)

    def test_an_end_that_is_broken_off(self):
        def interrupt(number, frame):
            raise KeyboardInterrupt

        signal.signal(signal.SIGALRM, interrupt)
        path = self.stand_in("sleep 1000")
        with self.assertRaises(KeyboardInterrupt), Desk(path) as desk:
            signal.setitimer(signal.ITIMER_REAL, 0.2)
        self.assert_gone(desk.pid)

    def test_a_close_during_a_call_of_another_thread(self):
        path = self.stand_in("read line", 'touch "$0.has_read"', "sleep 1000")
        desk = Desk(path, patience=0.2)
        ends = []

        def call():
            with self.assertRaises(Ended) as caught:
                desk.submit("retry")
            ends.append(caught.exception.status)

        thread = threading.Thread(target=call)
        thread.start()
        while not path.with_name("stand_in.has_read").exists():
            time.sleep(0.01)
        with self.assertRaises(Ended) as caught:
            desk.close()
        thread.join()
        self.assertEqual((ends, caught.exception.status), ([-signal.SIGKILL], -signal.SIGKILL))
        self.assert_gone(desk.pid)

    def test_a_close_during_a_write_of_another_thread(self):
        path = self.stand_in('touch "$0.has_begun"', "sleep 1000")  # it reads nothing, so the pipe fills
        desk = Desk(path, patience=0.2)
        future = concurrent.futures.ThreadPoolExecutor(1).submit(desk.submit, "retry" + " " * 10**6)
        while not path.with_name("stand_in.has_begun").exists():
            time.sleep(0.01)
        with self.assertRaises(Ended):
            desk.close()
        self.assertIsInstance(future.exception(), (Ended, ValueError))  # it may have come after the close
        self.assert_gone(desk.pid)

    def test_answers_that_no_stmdesk_gives(self):
        calls = {
            "nothing": lambda desk: desk.submit("retry"),
            "queued 1": lambda desk: desk.submit("retry"),
            "jobs 1": lambda desk: desk.take(1),
            "stopped HistoryFull": lambda desk: desk.settle(),
            "stopped HistoryFull settled 1 evaluations 2": lambda desk: desk.eval(),
            "settled 1 evaluations 2": lambda desk: desk.drain(),
            "stopped HistoryFull drained 1 evaluations 2": lambda desk: desk.settle(),
            "ticket": lambda desk: desk.submit("retry"),
            "ticket 1": lambda desk: desk.atomically("retry"),
            "waits": lambda desk: desk.atomically("retry"),
            "waits x": lambda desk: desk.atomically("retry"),
            "waits 1": lambda desk: desk.submit("retry"),
            "ticket x": lambda desk: desk.submit("retry"),
            "refused X y": lambda desk: desk.submit("retry"),
            "commits": lambda desk: desk.try_("retry"),
            "cells 1": lambda desk: desk.store(),
            "#0 x = 1\ncells 1": lambda desk: desk.store(),
            "1 new\n2 new\nwaiting 1": lambda desk: desk.show(),
            "1 odd\nwaiting 1": lambda desk: desk.show(),
            "commits writes none news none result ()\nx": lambda desk: desk.history(),
            '{"format":3,"vars":0}\ncommits writes none news none result 1': lambda desk: desk.history(),
            "ready": lambda desk: desk.why(1),
            "ready x": lambda desk: desk.ready(),
            "why 1": lambda desk: desk.why(1),
            "why 1 odd": lambda desk: desk.why(1),
            "why 1 stale": lambda desk: desk.why(1),
            "why 1 stale 2 #0=1": lambda desk: desk.why(1),
            "why 1 waits x=1": lambda desk: desk.why(1),
            "events": lambda desk: desk.events(),
            "nothing\nevents 0": lambda desk: desk.events(),
            '{"client":0,"event":"cancelled","ticket":1}\nevents 0': lambda desk: desk.events(),
            '{"client":0,"event":"cancelled"}\nevents 1': lambda desk: desk.events(),
            '{"client":0,"event":"odd","ticket":1}\nevents 1': lambda desk: desk.events(),
            '{"client":0,"event":"submitted","ticket":1}\nevents 1': lambda desk: desk.events(),
            '{"client":0,"event":"installed","ticket":1,"verdict":[]}\nevents 1': lambda desk: desk.events(),
            '{"client":0,"event":"installed","ticket":1,"verdict":{"commits":3}}\nevents 1': lambda desk: desk.events(),
            "{\nevents 1": lambda desk: desk.events(),
            '{"a":' * 100_000 + "\nevents 1": lambda desk: desk.events(),
        }
        for answer, call in calls.items():
            path = self.stand_in("read line", f"cat <<'END'\n{answer}\nEND", "sleep 1000")
            with self.subTest(answer=answer), Desk(path) as desk:
                with self.assertRaises(BadAnswer):
                    call(desk)
                with self.assertRaises(Ended):
                    call(desk)
            self.assert_gone(desk.pid)


@needs_process("no desk: a thread")
class Helpers(OnProgram):
    def test_what_comes_while_the_end_is_noticed(self):
        """It runs after all that came before it, and not at once."""
        ran, is_noticed, is_given, is_done = [], threading.Event(), threading.Event(), threading.Event()

        def on_end():
            is_noticed.set()
            is_given.wait()
            ran.append("the end")

        output, program_end = os.pipe()
        helper = _helper.Helper(output, on_end)
        os.close(program_end)
        is_noticed.wait()
        helper.run(lambda: ran.append("first"))
        helper.run(lambda: (ran.append("second"), is_done.set()))
        is_given.set()
        is_done.wait()
        self.assertEqual(ran, ["the end", "first", "second"])


class Floods(OnProgram):
    """A program that never ends its answer."""

    def assert_bad(self, call, *lines):
        with Desk(self.stand_in("read line", *lines)) as desk:
            with self.assertRaises(BadAnswer):
                call(desk)
        self.assert_gone(desk.pid)

    def test_of_one_line(self):
        for call in (lambda desk: desk.submit("retry"), lambda desk: desk.show(), lambda desk: desk.history()):
            self.assert_bad(call, "cat /dev/zero")

    def test_of_other_lines(self):
        for line in ("y", "", "commits"):
            for call in (lambda desk: desk.show(), lambda desk: desk.store(), lambda desk: desk.history(), lambda desk: desk.events()):
                self.assert_bad(call, f"yes '{line}'")

    def test_of_lines(self):
        self.assert_bad(lambda desk: desk.show(), "yes '1 new'")
        with mock.patch.multiple(_commands, CELLS_LIMIT=1000, EVENTS_LIMIT=1000):
            self.assert_bad(lambda desk: desk.store(), "yes '#0 x : Int = 1 count 0'")
            self.assert_bad(lambda desk: desk.history(), "yes '{}'")
            self.assert_bad(lambda desk: desk.events(), "yes '{}'")
