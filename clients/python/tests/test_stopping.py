"""Tests of blocking clients that several threads start and stop at once."""

from __future__ import annotations

import contextlib
import random
import sys
import threading
import time
import unittest
from collections.abc import Iterator
from typing import Any, Callable
from unittest import mock

from both import in_thread
from support import TIMEOUT, WAIT, Partner, PartnerCase, within

from dirwolleu import Client, ConnectionClosedError, NoNodeError, SessionExpiredError, State, ZookeeperError
from dirwolleu import _requests as requests
from dirwolleu._threads import Threads
from dirwolleu._waiting import Callbacks, Waiter

ROUNDS, LONGEST = 60, 0.4


@contextlib.contextmanager
def quick_switches() -> Iterator[None]:
    """Until the context ends, the interpreter goes from thread to thread as often as it can."""
    before = sys.getswitchinterval()
    sys.setswitchinterval(1e-6)
    try:
        yield
    finally:
        sys.setswitchinterval(before)


@contextlib.contextmanager
def held_at_start(thread: Any) -> Iterator[None]:
    """Until the context ends, a start of the thread is under way: it has an `ident`, and is not alive yet."""
    is_there, goes_on, started = threading.Event(), threading.Event(), thread._started

    def set_started() -> None:
        is_there.set()
        goes_on.wait(WAIT)
        threading.Event.set(started)

    with mock.patch.object(started, "set", set_started):
        begun = in_thread(thread.start)
        try:
            assert is_there.wait(WAIT) and thread.ident is not None
            yield
        finally:
            goes_on.set()
            assert begun.get(timeout=WAIT) is None


class StoppingCase(PartnerCase):
    def client(self, host: str = "127.0.0.1:1", timeout: float = TIMEOUT) -> Client:
        """A client, which finds no server unless it gets one."""
        client = Client(host, timeout)
        self.addCleanup(client.close)
        self.addCleanup(client.stop)
        return client

    def check_stopped(self, client: Client) -> None:
        self.assertEqual((client._threads(), client._engine.is_running, client.state), (None, False, State.LOST))


class ThreadsTest(StoppingCase):
    """The threads of one client, which are stopped at chosen moments."""

    def setUp(self) -> None:
        self.stopped = self.client()
        self.threads = Threads(self.stopped._driver(), self.stopped._engine, self.stopped._sleepers, lambda: None)
        self.addCleanup(self.threads.stop, lambda: None)

    def check_over(self, life: int) -> None:
        """All is over, and the engine has begun this often."""
        within(self.threads.are_over)
        within(lambda: not self.threads.callbacks.is_alive())
        self.assertEqual((self.stopped._engine.life, self.stopped._engine.is_running), (life, False))

    def stop(self) -> None:
        for _ in range(2):
            self.threads.stop(self.stopped._engine.end)

    def test_a_stop_while_the_thread_of_callbacks_starts(self) -> None:
        with held_at_start(self.threads.callbacks):
            self.stop()
        self.threads.loop.start()
        self.check_over(0)

    def test_a_stop_before_the_start(self) -> None:
        self.stop()
        self.threads.start()
        self.check_over(0)

    def test_a_stop_before_the_first_step(self) -> None:
        run = self.threads.loop._run

        def stop_and_run(reactor: Any) -> Any:
            self.stop()
            return run(reactor)

        with mock.patch.object(self.threads.loop, "_run", stop_and_run):
            self.threads.start()
            self.check_over(0)

    def test_a_stop_of_a_client_that_runs(self) -> None:
        self.threads.start()
        within(lambda: self.threads.have_begun)
        self.stop()
        self.check_over(1)

    def test_the_loop_ends_where_the_engine_does(self) -> None:
        self.threads.start()
        within(lambda: self.threads.have_begun)
        self.threads.loop.soon(self.stopped._engine.end)
        self.threads.loop.act()
        self.check_over(1)


class CallbacksTest(unittest.TestCase):
    def told(self) -> tuple[Callbacks, list[int]]:
        """Callbacks that have got a function to call, and the calls up to now."""
        callbacks, called = Callbacks(lambda begin: None), list[int]()
        self.assertTrue(callbacks.tell(called.append, 1))
        return callbacks, called

    def test_what_is_told_is_called_once_or_refused(self) -> None:
        callbacks, called = self.told()
        callbacks.start()
        callbacks.stop()
        self.assertEqual((callbacks.tell(called.append, 2), called), (False, [1]))

    def test_what_is_told_before_a_thread_that_never_begins_is_called(self) -> None:
        callbacks, called = self.told()
        callbacks.seal()
        callbacks.start()
        callbacks.join(WAIT)
        self.assertEqual((callbacks.tell(called.append, 2), called), (False, [1]))

    def test_it_is_started_once_where_two_threads_begin_it(self) -> None:
        """The thread that polls, and one that stops the client: two threads would run it, and one of them for ever."""
        started, goes_on = list[Callbacks](), threading.Event()

        def start(callbacks: Callbacks) -> None:
            started.append(callbacks)
            self.assertTrue(goes_on.wait(WAIT))

        callbacks = Callbacks(lambda begin: None)
        with mock.patch.object(Callbacks, "start", start):
            first = in_thread(callbacks._begin)
            within(lambda: started)
            second = in_thread(callbacks._begin)
            within(lambda: not second.empty() or len(started) == 2)
            goes_on.set()
            self.assertEqual((first.get(timeout=WAIT), second.get(timeout=WAIT), started), (None, None, [callbacks]))

    def test_what_is_told_while_the_thread_ends(self) -> None:
        """Each number is called, or is reported as not called."""
        with quick_switches():
            for _ in range(20):
                called, refused = list[int](), list[int]()
                callbacks = Callbacks(lambda begin: None)
                callbacks.start()

                def tell() -> None:
                    for number in range(200):
                        if not callbacks.tell(called.append, number):
                            refused.append(number)

                tells = in_thread(tell)
                callbacks.stop()
                self.assertIsNone(tells.get(timeout=WAIT))
                callbacks.join(WAIT)
                self.assertEqual(sorted(called + refused), list(range(200)))


class ClientTest(StoppingCase):
    def test_a_stop_that_comes_late_leaves_the_next_session(self) -> None:
        client = self.client(self.shared_partner().host)
        client.start(WAIT)
        first = client._threads()
        client.stop()
        client.start(WAIT)
        client._stop(first)
        self.assertEqual(client.get_children("/"), [])

    def test_a_start_waits_for_a_stop(self) -> None:
        client, goes_on = self.client(self.shared_partner().host), threading.Event()
        self.addCleanup(goes_on.set)
        client.start(WAIT)
        session, threads = client.session_id, client._threads()
        assert threads is not None
        close = threads.loop._close

        def close_late() -> None:
            goes_on.wait(WAIT)
            close()

        with mock.patch.object(threads.loop, "_close", close_late):
            stops = in_thread(client.stop)
            within(lambda: client.state is not State.CONNECTED)
            starts = in_thread(lambda: client.start(WAIT))
            with self.assertRaises(TimeoutError):
                client.start(0.05)
            goes_on.set()
            self.assertIsNone(starts.get(timeout=WAIT))
            self.assertIsNone(stops.get(timeout=WAIT))
        self.assertNotEqual(client.session_id, session)
        self.assertEqual(client.get_children("/"), [])

    def test_a_follower_ends_though_the_client_is_started_again(self) -> None:
        client = self.client(self.shared_partner().host)
        client.start(WAIT)
        follower = client.follow("/")
        next(follower)
        client.stop()
        client.start(WAIT)
        self.assertEqual(list(follower), [])

    def test_a_start_after_an_interrupted_stop(self) -> None:
        """The server has ended the session, and the stop did not come to its end."""
        client = self.client(self.shared_partner().host, 3 * WAIT)
        client.start(WAIT)
        with mock.patch.object(Threads, "stop", side_effect=KeyboardInterrupt), self.assertRaises(KeyboardInterrupt):
            with mock.patch("dirwolleu.client.LONGEST_FAREWELL", WAIT):  # also on a busy machine
                client.stop()
        client.start(WAIT)
        self.assertEqual(client.get_children("/"), [])

    def test_one_thread_serves_all_clients(self) -> None:
        """It ends with the last of them. The one for callbacks begins with the first."""

        def threads() -> list[str]:
            return sorted(thread.name for thread in threading.enumerate() if thread.name.startswith("dirwolleu"))

        host, told = self.shared_partner().host, threading.Event()
        clients = [self.client(host) for _ in range(3)]
        for client in clients:
            client.start(WAIT)
        self.assertEqual(threads(), ["dirwolleu"])
        clients[0].exists("/", watch=lambda _: told.set())
        clients[0].stop()
        self.assertTrue(told.wait(WAIT))
        self.assertEqual([client.get_children("/") for client in clients[1:]], [[], []])
        within(lambda: threads() == ["dirwolleu"])  # a stop waits for the others, and not for ever
        for client in clients[1:]:
            client.stop()
        within(lambda: not threads())

    def test_a_stop_comes_at_any_moment_of_a_start(self) -> None:
        until = time.monotonic() + LONGEST
        with quick_switches():
            for _ in range(ROUNDS):
                client = self.client()
                starts = in_thread(lambda: client.start(None))
                while starts.empty():
                    client.stop()
                self.assertIsInstance(starts.get(), ConnectionClosedError)
                self.check_stopped(client)
                if time.monotonic() > until:
                    break

    def test_many_start_and_stop_at_once(self) -> None:
        until = time.monotonic() + LONGEST
        with quick_switches():
            for _ in range(ROUNDS):
                self.check_many(self.client())
                if time.monotonic() > until:
                    break

    def check_many(self, client: Client) -> None:
        calls = [lambda: client.start(None), client.stop, lambda: client.start(None), client.stop, client.stop]
        random.shuffle(calls)
        outcomes = [in_thread(call) for call in calls]
        while any(outcome.empty() for outcome in outcomes):
            client.stop()
        for call, outcome in zip(calls, outcomes):
            self.assertIsInstance(outcome.get(), type(None) if call == client.stop else ConnectionClosedError)
        self.check_stopped(client)
        client.close()
        with self.raises(ConnectionClosedError, None):
            client.start()


class TurnTest(StoppingCase):
    """A call goes on when the turn in which its answer came is over, however that ends."""

    def setUp(self) -> None:
        self.started = self.client(self.shared_partner().host)
        self.started.start(WAIT)
        self.engine = self.started._engine

    @contextlib.contextmanager
    def held_up_after(self, name: str) -> Iterator[None]:
        """Until the context ends, each step of the engine by this name is over late, once it has answered."""
        step = getattr(self.engine, name)

        def late(*words: Any) -> None:
            step(*words)
            time.sleep(0.1)
            self.is_over = True

        self.is_over = False
        with mock.patch.object(self.engine, name, late):
            yield

    def check_over(self) -> None:
        """The turn is over, and has reported what came."""
        self.assertEqual((self.is_over, self.started.state), (True, State.LOST))

    def test_what_comes_after_an_answer_is_there_when_the_call_goes_on(self) -> None:
        with self.held_up_after("received"):
            self.assertEqual(self.started.get_children("/"), [])
            self.assertTrue(self.is_over)

    def test_an_error_is_told_when_the_turn_is_over(self) -> None:
        with self.held_up_after("received"):
            with self.raises(NoNodeError, -101):
                self.started.get("/none")
            self.assertTrue(self.is_over)

    def test_the_end_of_a_session_is_told_before_its_answer(self) -> None:
        with self.held_up_after("_forget_callers"):
            self.started._ask(requests.close_session())
            self.check_over()

    def start_and_mute(self) -> tuple[Partner, Client]:
        partner = self.partner()
        client = self.started = self.client(partner.host)
        client.start(WAIT)
        self.engine = client._engine
        partner.do("mute")
        return partner, client

    def test_an_expiry_is_told_with_its_state(self) -> None:
        partner, client = self.start_and_mute()
        waits = in_thread(lambda: self.outcome(lambda: client.get("/")))
        within(lambda: self.engine._sent)
        with self.held_up_after("_forget_callers"):
            partner.do("expire", "unmute")
            error, is_over, state = waits.get(timeout=WAIT)
        self.assertEqual((error, is_over), (SessionExpiredError, True))
        self.assertIn(state, (State.LOST, State.CONNECTED))  # the next session may have begun meanwhile

    def test_a_stop_is_told_with_its_state(self) -> None:
        _, client = self.start_and_mute()
        waits = [in_thread(lambda: self.outcome(lambda: client.get("/"))) for _ in range(3)]
        within(lambda: len(self.engine._sent) == 3)
        with self.held_up_after("end"):
            client.stop()
            for one in waits:
                self.assertEqual(one.get(timeout=WAIT), (ConnectionClosedError, True, State.LOST))

    def outcome(self, call: Callable[[], object]) -> tuple[Any, bool, State]:
        """The error of a call, whether the turn is over by then, and the state."""
        try:
            return call(), self.is_over, self.started.state
        except ZookeeperError as error:
            return type(error), self.is_over, self.started.state

    def test_an_answer_is_had_where_its_turn_fails(self) -> None:
        answers, is_at_rest = self.engine.connection_stats.answers, self.engine.is_at_rest
        failures = [RuntimeError("the turn fails")]

        def fail_once() -> Any:
            if failures and self.engine.connection_stats.answers > answers:
                raise failures.pop()
            return is_at_rest()

        with self.assertLogs("dirwolleu", "ERROR"), mock.patch.object(self.engine, "is_at_rest", fail_once):
            self.assertEqual(self.started.get_children("/"), [])
        self.assertEqual(failures, [])
        self.assertEqual(self.started.get_children("/"), [])

    def test_a_close_wakes_who_waits(self) -> None:
        """If no thread is left to do so."""
        waiter = Waiter(self.started._sleepers)
        self.started.stop()
        waiter.set_result("one")
        self.started.close()
        self.assertEqual(waiter.result(WAIT), "one")
