"""Tests of the blocking client under signals, forks and callbacks that do not end.

`python3 test_interrupts.py --calls 100000` makes this many calls that may be interrupted; without it, it makes as many as
fit into 8 seconds.
"""

from __future__ import annotations

import contextlib
import os
import random
import signal
import subprocess
import sys
import textwrap
import threading
import time
import unittest
from collections.abc import Iterator
from types import FrameType
from typing import Any, Optional
from unittest import mock

from support import CLIENTS, WAIT, ClientCase, passed_in_child, within

from dirwolleu import Barrier, Client, ConnectionClosedError, Counter, Held, Lock, Queue, Registration, State, WatchedEvent

INTERRUPTED_CALLS, LONGEST = 100_000, 8.0


class InterruptedCase(ClientCase):
    is_armed = False

    @contextlib.contextmanager
    def on_alarm(self, handler: Any) -> Iterator[None]:
        before = signal.signal(signal.SIGALRM, handler)
        try:
            yield
        finally:
            signal.signal(signal.SIGALRM, signal.SIG_IGN)  # a handler that has yet to run may set the timer again
            signal.setitimer(signal.ITIMER_REAL, 0)
            signal.signal(signal.SIGALRM, before)

    def arm(self) -> None:
        """Interrupts within the next call or so, and not between calls."""
        self.is_armed = True
        signal.setitimer(signal.ITIMER_REAL, random.uniform(1e-6, 3e-3))

    def interrupt(self, *_: Any) -> None:
        if self.is_armed:
            self.is_armed = False
            raise KeyboardInterrupt


class SignalTest(InterruptedCase):
    is_long = True

    def test_calls_that_are_interrupted_leave_the_client_as_it_is(self) -> None:
        client = self.client(self.partner().host)
        client.create("/a", b"0")
        done = interrupted = 0
        began = time.monotonic()
        with self.on_alarm(self.interrupt):
            while done + interrupted < INTERRUPTED_CALLS and time.monotonic() < began + LONGEST * (1 if interrupted > 50 else 6):
                try:
                    self.arm()
                    stat = client.set("/a", str(done).encode())
                    self.is_armed = False
                    self.assertGreaterEqual(stat.version, done + 1)
                    done += 1
                except KeyboardInterrupt:
                    interrupted += 1
        print(f"{done} calls, and {interrupted} that were interrupted", file=sys.stderr)
        self.assertGreater(interrupted, 50)
        self.check_counts(client, done, interrupted)

    def check_counts(self, client: Client, done: int, interrupted: int) -> None:
        """Each call that was answered has happened, each other one maybe, and the client goes on as before."""
        _, stat = client.get("/a")
        self.assertGreaterEqual(stat.version, done)
        self.assertLessEqual(stat.version, done + interrupted)
        self.assertEqual((client.state, client._engine._sent, len(client._engine._line)), (State.CONNECTED, {}, 0))
        client.create("/b")
        self.assertEqual(sorted(client.get_children("/")), ["a", "b"])

    def test_a_signal_handler_may_call_the_client(self) -> None:
        client = self.client(self.partner().host)
        client.create("/a", b"one")
        read: list[Optional[bytes]] = []

        def handle(_: int, __: Optional[FrameType]) -> None:
            read.append(client.get("/a", watch=True)[0])
            kept = client.kept("/a")
            read.append(kept.data if kept is not None else None)
            signal.setitimer(signal.ITIMER_REAL, 0.003)  # once more, when this one has ended

        with self.on_alarm(handle):
            signal.setitimer(signal.ITIMER_REAL, 0.001)
            for _ in range(300):
                self.assertEqual(client.get("/a", watch=True)[0], b"one")
                self.assertIsNotNone(client.kept("/a"))
        self.assertEqual(set(read), {b"one"})

    def test_a_signal_handler_may_stop_the_client(self) -> None:
        partner = self.partner()
        client = self.client(partner.host)
        partner.do("mute")
        with self.on_alarm(lambda *_: client.stop()):
            signal.setitimer(signal.ITIMER_REAL, 0.2)
            with self.raises(ConnectionClosedError, None):
                client.get("/")
        self.assertIs(client.state, State.LOST)

    def test_an_interrupt_ends_a_start(self) -> None:
        partner = self.partner()
        partner.do("mute")
        client = Client(partner.host)
        self.addCleanup(client.close)
        self.is_armed = True
        with self.on_alarm(self.interrupt):
            with self.assertRaises(KeyboardInterrupt):
                signal.setitimer(signal.ITIMER_REAL, 0.2)
                client.start()
        partner.do("unmute")
        client.start(WAIT)
        client.stop()


class ForkTest(InterruptedCase):
    def test_a_forked_child_is_told_so(self) -> None:
        client = self.client(self.partner().host)
        held = Lock(client, "/lock").acquire(WAIT)
        registration = Registration(client, "/one")
        self.assertTrue(registration.wait(WAIT))
        child = os.fork()
        if child == 0:
            signal.alarm(int(WAIT))
            os._exit(self.try_in_child(client, held, registration))
        _, status = os.waitpid(child, 0)
        self.assertEqual(status, 0)
        self.assertEqual(sorted(client.get_children("/")), ["lock", "one"])
        held.check()

    def try_in_child(self, client: Client, held: Held, registration: Registration) -> int:
        failures = passed_in_child([
            lambda: client.get("/"), lambda: next(client.follow("/")), client.start, client.fresh,
            lambda: next(client.follow_children("/")), lambda: client.ensure_path_async("/a"),
            lambda: client.DataWatch("/a", print), lambda: Lock(client, "/lock").acquire(), held.release, held.check,
            registration.wait, lambda: registration.is_registered, registration.withdraw, lambda: Registration(client, "/x"),
            Barrier(client, "/barrier").wait, Counter(client, "/count").get, Queue(client, "/queue").get,
        ])  # fmt: skip
        failures += held.is_held
        client.stop()
        client.close()
        return failures


class EndTest(InterruptedCase):
    is_long = True

    def test_a_callback_that_does_not_return_holds_no_stop(self) -> None:
        partner = self.partner()
        client, runs, ends = self.client(partner.host), threading.Event(), threading.Event()
        self.addCleanup(ends.set)

        def watch(_: WatchedEvent) -> None:
            runs.set()
            ends.wait()

        client.exists("/a", watch=watch)
        partner.do("create /a")
        self.assertTrue(runs.wait(WAIT))
        with mock.patch("dirwolleu._waiting.LONGEST_CALLBACK", 0.2), self.assertLogs("dirwolleu", "WARNING"):
            began = time.monotonic()
            client.stop()
        self.assertLess(time.monotonic() - began, WAIT)

    def test_a_callback_that_exits_leaves_the_others(self) -> None:
        partner = self.partner()
        client, told = self.client(partner.host), threading.Event()

        def leave(_: WatchedEvent) -> None:
            sys.exit("this ends no program")

        client.exists("/a", watch=leave)
        client.exists("/b", watch=lambda _: told.set())
        with self.assertLogs("dirwolleu", "ERROR"):
            partner.do("create /a", "create /b")
            self.assertTrue(told.wait(WAIT))

    def test_a_program_that_does_not_stop_its_client_ends_at_once_and_says_nothing(self) -> None:
        program = """
            import sys, threading; sys.path.insert(0, sys.argv[2])
            import dirwolleu
            client = dirwolleu.Client(sys.argv[1], 60.0)  # also on a busy machine
            client.start(60.0)
            told = threading.Event()
            client.DataWatch("/a", lambda *_: told.set())
            dirwolleu.Registration(client, "/one").wait()
            held = dirwolleu.Lock(client, "/lock").acquire()
            waits = [dirwolleu.Lock(client, "/lock").acquire, lambda: [*client.follow("/a")], dirwolleu.Queue(client, "/b").get]
            for wait in waits:
                threading.Thread(target=wait, daemon=True).start()
            while not told.is_set() or len(client.get_children("/lock")) < 2:
                pass
            print("ends", flush=True)
        """
        words = [sys.executable, "-c", textwrap.dedent(program), self.partner().host, str(CLIENTS / "python")]
        process = subprocess.Popen(words, stdout=subprocess.PIPE, stderr=subprocess.PIPE, text=True)
        assert process.stdout is not None
        if process.stdout.readline() != "ends\n":
            self.fail(process.communicate(timeout=3 * WAIT)[1])
        began = time.monotonic()
        self.assertEqual(process.communicate(timeout=3 * WAIT), ("", ""))
        self.assertEqual(process.returncode, 0)
        self.assertLess(time.monotonic() - began, WAIT)

    def test_no_import_loads_asyncio(self) -> None:
        program = "import sys; sys.path.insert(0, sys.argv[1]); import dirwolleu; print({'asyncio', 'ssl'} & {*sys.modules}, dirwolleu.aio.Client.__name__)"
        words = [sys.executable, "-c", program, str(CLIENTS / "python")]
        done = subprocess.run(words, capture_output=True, text=True, timeout=3 * WAIT, check=True)
        self.assertEqual(done.stdout, "set() Client\n")

    def test_a_call_that_was_given_up_leaves_the_client_as_it_was(self) -> None:
        partner = self.partner()
        client = self.client(partner.host)
        partner.do("down")
        within(lambda: client.state is State.SUSPENDED)
        self.is_armed = True
        with self.on_alarm(self.interrupt):
            with self.assertRaises(KeyboardInterrupt):
                signal.setitimer(signal.ITIMER_REAL, 1)
                client.create("/a")
        partner.do("up")
        client.create("/b")
        self.assertIn(client.get_children("/"), (["a", "b"], ["b", "a"]))


if __name__ == "__main__":
    if "--calls" in sys.argv:
        place = sys.argv.index("--calls")
        INTERRUPTED_CALLS, LONGEST = int(sys.argv[place + 1]), float("inf")
        del sys.argv[place : place + 2]
    unittest.main()
