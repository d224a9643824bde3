"""Tests of calls: their timeouts, their futures, which are asked again, which are counted, and the end of a program."""

from __future__ import annotations

import asyncio
import concurrent.futures
import math
import os
import queue
import signal
import subprocess
import sys
import threading
import time
import unittest
from typing import Any, Callable
from unittest import mock

from both import in_thread
from support import CLIENTS, GET_DATA, LIMIT, SET_WATCHES, WAIT, ClientCase, Peer, data_reply, let_pass, passed_in_child, reply, within

from dirwolleu import (
    CallTimeoutError,
    Client,
    ConnectionClosedError,
    ConnectionLoss,
    Lock,
    LockLostError,
    Mark,
    NodeExistsError,
    NoNodeError,
    NotConnectedError,
    NotEmptyError,
    Retry,
    SessionExpiredError,
    SessionMovedError,
    State,
    ZookeeperError,
    aio,
)
from dirwolleu._clock import moment
from dirwolleu._locks import Taken

SET_DATA = 5


class TimeoutTest(ClientCase):
    is_long = True

    def test_a_call_that_was_sent_may_still_happen(self) -> None:
        partner = self.partner()
        client = self.client(partner.host, 60.0)
        partner.do("mute")
        made = in_thread(lambda: client.create("/a", timeout=LIMIT))
        within(lambda: client.stats().in_flight)
        let_pass(client, LIMIT)
        with self.assertRaisesRegex(CallTimeoutError, "may still happen") as caught:
            made.result()
        self.assertTrue(caught.exception.may_have_happened)
        with self.assertRaises(TimeoutError) as read:
            client.get("/", timeout=0.2)
        self.assertFalse(read.exception.may_have_happened)  # type: ignore[attr-defined]
        partner.do("unmute")
        self.assertIsNotNone(client.exists("/a", timeout=WAIT))

    def test_a_call_that_was_not_sent_does_not_happen(self) -> None:
        partner = self.partner()
        client = self.client(partner.host, 60.0)
        partner.do("down")
        within(lambda: client.state is State.SUSPENDED)
        with self.assertRaisesRegex(CallTimeoutError, "was not sent") as caught:
            client.create("/a", timeout=0.2)
        self.assertFalse(caught.exception.may_have_happened)
        partner.do("up")
        self.assertIsNone(client.exists("/a"))
        self.assertEqual(client.stats().lost, 1)

    def test_a_timeout_that_is_not_used_costs_nothing(self) -> None:
        client = self.client(self.partner().host)
        for _ in range(1500):
            client.exists("/a", timeout=1000.0)
        within(lambda: len(client._engine._line._limits) <= 1100)

    def test_asyncio(self) -> None:
        partner = self.partner()

        async def run() -> None:
            async with aio.Client(partner.host, 60.0) as client:
                partner.do("mute")
                with self.assertRaises(CallTimeoutError) as caught:
                    await client.set("/", b"x", timeout=2.0)
                self.assertTrue(caught.exception.may_have_happened)
                partner.do("unmute")
                await client.ensure_path("/a/b/c")
                self.assertEqual(await client.create("/x/y", makepath=True, timeout=WAIT), "/x/y")
                self.assertEqual(await client.retry(client.get_children, "/a"), ["b"])
                await client.delete("/a", recursive=True)
                self.assertIsNone(await client.exists("/a"))

        asyncio.run(run())


class FutureTest(ClientCase):
    def test_futures_are_answered_in_their_order(self) -> None:
        client = self.client(self.partner().host, 600.0)  # so that no busy machine ends a call
        client.create("/a", b"one")
        answered: list[int] = []
        futures = [client.get_async("/a") for _ in range(1500)]
        for number, future in enumerate(futures):
            future.add_done_callback(lambda _, number=number: answered.append(number))  # type: ignore[misc]
        done, waiting = concurrent.futures.wait(futures, 9 * WAIT)
        self.assertEqual((len(done), len(waiting)), (1500, 0))
        within(lambda: len(answered) == 1500, 9 * WAIT)
        self.assertEqual(answered, list(range(1500)))
        self.assertEqual({future.result()[0] for future in futures}, {b"one"})

    def test_each_call_has_a_future(self) -> None:
        client = self.client(self.partner().host)
        self.assertEqual(client.create_async("/a", b"x").result(WAIT), "/a")
        self.assertEqual(client.set_async("/a", b"y").result(WAIT).version, 1)
        self.assertEqual(client.get_children_async("/").result(WAIT), ["a"])
        found = client.exists_async("/a").result(WAIT)
        assert found is not None
        self.assertEqual(found.version, 1)
        client.delete_async("/a").result(WAIT)
        self.assertIsInstance(client.get_async("/a").exception(WAIT), NoNodeError)
        with self.assertRaises(ValueError):
            client.get_async("no path").result(WAIT)

    def test_a_callback_may_call_the_client(self) -> None:
        client, read = self.client(self.partner().host), queue.Queue[Any]()
        client.create_async("/a", b"one").add_done_callback(lambda done: read.put(client.get(done.result())[0]))
        self.assertEqual(read.get(timeout=WAIT), b"one")

    def test_a_future_is_cancelled_only_before_it_is_sent(self) -> None:
        partner = self.partner()
        client = self.client(partner.host, 60.0)
        partner.do("mute")
        sent = client.create_async("/sent")
        within(lambda: client.stats().in_flight == 1)
        self.assertFalse(sent.cancel())
        partner.do("unmute")
        self.assertEqual(sent.result(WAIT), "/sent")
        partner.do("mute")
        others = [client.exists_async("/") for _ in range(600)]
        unsent = client.create_async("/unsent")
        self.assertTrue(unsent.cancel())
        partner.do("unmute")
        for other in others:
            other.result(WAIT)
        self.assertIsNone(client.exists("/unsent"))

    def test_a_future_has_a_limit(self) -> None:
        """Also if it is several requests, and so it is with asyncio."""
        partner = self.partner()
        client = self.client(partner.host, 60.0)
        partner.do("mute")
        futures: list[Any] = [client.get_async("/", timeout=0.1), client.ensure_path_async("/a/b", timeout=0.1)]
        for future in futures:
            self.assertIsInstance(future.exception(WAIT), CallTimeoutError)
        partner.do("unmute")

        async def run() -> None:
            async with aio.Client(partner.host, 60.0) as client:
                partner.do("mute")
                futures: list[Any] = [client.get_async("/", timeout=0.1), client.ensure_path_async("/a/b", timeout=0.1)]
                for future in futures:
                    with self.assertRaises(CallTimeoutError):
                        await asyncio.wait_for(future, WAIT)
                partner.do("unmute")

        asyncio.run(run())

    def test_futures_end_with_the_client(self) -> None:
        partner = self.partner()
        client = self.client(partner.host)
        partner.do("down")
        told = queue.Queue[Any]()
        future = client.get_async("/")
        future.add_done_callback(told.put)
        client.stop()
        self.assertIsInstance(future.exception(WAIT), ZookeeperError)
        self.assertIs(told.get(timeout=WAIT), future)
        with self.assertRaises(ConnectionClosedError):
            client.get_async("/")


class PathTest(ClientCase):
    def test_nodes_above_are_made(self) -> None:
        client = self.client(self.partner().host)
        client.ensure_path("/a/b/c")
        client.ensure_path("/a/b/c")
        client.ensure_path("/")
        self.assertEqual(client.create("/x/y/n-", b"one", sequence=True, makepath=True), "/x/y/n-0000000000")
        with self.raises(NoNodeError, -101):
            client.create("/none/a")
        with self.raises(NodeExistsError, -110):
            client.create("/a/b", makepath=True)

    def test_nodes_below_are_deleted(self) -> None:
        client = self.client(self.partner().host)
        for path in ("/a/b/c", "/a/b/d", "/a/e/f/g"):
            client.ensure_path(path)
        with self.raises(NotEmptyError, -111):
            client.delete("/a")
        client.delete("/a", recursive=True)
        self.assertEqual(client.get_children("/"), [])
        client.delete("/a", recursive=True)
        with self.raises(NoNodeError, -101):
            client.delete("/a")

    def test_the_root_itself_is_made(self) -> None:
        client = self.client(self.partner().host + "/app")
        client.ensure_path("/a/b")
        self.assertEqual(client.get_children("/"), ["a"])


class RetryTest(ClientCase):
    def server(self, answers: Callable[[Peer, int], None]) -> str:
        """A server that ends the first connection with the first call."""
        connections: list[None] = []

        def serve(peer: Peer) -> None:
            connections.append(None)
            peer.admit()
            answers(peer, len(connections))

        return self.raw_server(serve).host

    def test_a_read_is_asked_again(self) -> None:
        def answers(peer: Peer, number: int) -> None:
            asked = peer.take()
            if number > 1:
                peer.send(data_reply(asked, b"one"))
                peer.take()

        self.assertEqual(self.client(self.server(answers)).get("/a")[0], b"one")
        client = self.client(self.server(answers), retry=Retry(pause=0.01))
        self.assertEqual(client.get("/a")[0], b"one")

    def test_a_write_that_was_sent_is_not_asked_again(self) -> None:
        writes: list[int] = []

        def answers(peer: Peer, number: int) -> None:
            writes.append(peer.take().kind)

        client = self.client(self.server(answers), retry=Retry(pause=0.01))
        with self.assertRaises(ConnectionLoss) as caught:
            client.set("/a", b"x")
        self.assertTrue(caught.exception.may_have_happened)
        self.assertEqual(writes.count(SET_DATA), 1)

    def test_what_was_not_sent_is_asked_again(self) -> None:
        """The first call is like one that was asked for a minute before."""
        partner = self.partner()
        client = self.client(partner.host, 15.0, retry=Retry(tries=None, deadline=6 * WAIT, pause=0.05))
        partner.do("down")
        within(lambda: client.state is State.SUSPENDED)
        past = [moment() - 60_000]
        with mock.patch("dirwolleu.client.moment", lambda: past.pop() if past else moment()):
            made = in_thread(lambda: client.create("/a"))
            within(lambda: client.stats().lost)
            partner.do("up")
            self.assertEqual(made.get(timeout=WAIT), "/a")

    def test_what_is_asked_again(self) -> None:
        policy = Retry(tries=3, pause=0.0)
        for error, is_asked in (
            (NotConnectedError("x"), True),
            (SessionExpiredError("x"), True),
            (SessionMovedError("x"), True),
            (ConnectionLoss("x"), False),
            (ConnectionClosedError("x"), False),
            (NoNodeError("x"), False),
            (CallTimeoutError("x"), False),
        ):
            tries: list[None] = []

            def call() -> None:
                tries.append(None)
                raise error

            client = Client("127.0.0.1:1", retry=policy)
            with self.subTest(error=error), self.assertRaises(type(error)):
                client.retry(call)
            self.assertEqual(len(tries), 3 if is_asked else 1)
            client.close()

    def test_the_deadline_bounds_the_tries(self) -> None:
        """Nobody waits for it here."""
        attempts = Retry(tries=None, deadline=20 * WAIT, pause=15 * WAIT, chance=0.0, longest_pause=20 * WAIT).attempts()
        self.assertEqual(attempts.after(NotConnectedError("x")), 15 * WAIT)
        with self.assertRaises(NotConnectedError):
            attempts.after(NotConnectedError("x"))

    def test_pauses_double_and_part_of_them_is_chance(self) -> None:
        self.assertEqual(list(Retry(tries=4, pause=1.0, chance=0.0, longest_pause=3.0).pauses()), [1.0, 2.0, 3.0])
        for first in (next(Retry(pause=1.0, chance=0.5).pauses()) for _ in range(50)):
            self.assertTrue(0.5 <= first <= 1.0)
        for wrong in (dict(tries=0), dict(chance=2.0), dict(pause=-1.0)):
            with self.assertRaises(ValueError):
                Retry(**wrong)  # type: ignore[arg-type]


HOUR = 3600.0


def serves_one(peer: Peer) -> None:
    """Answers each read of data, and everything else with nothing."""
    for asked in peer.requests():
        peer.send(data_reply(asked, b"one") if asked.kind == GET_DATA else reply(asked))


class AgeTest(ClientCase):
    def test_what_is_kept_is_as_old_as_the_last_answer(self) -> None:
        partner = self.partner()
        partner.do("create /a one")
        client = Client(partner.host, 60.0)
        self.addCleanup(client.close)
        self.addCleanup(client.stop)
        self.assertEqual(client.age(), math.inf)
        client.start(WAIT)
        client.get("/a", watch=True)
        client.get_children("/a", watch=True)
        self.assertLess(client.age(), WAIT)
        kept, children = client.kept("/a", within=WAIT), client.kept_children("/a", within=WAIT)
        assert kept is not None and children is not None
        self.assertIs(kept.mark, Mark.GOOD)
        partner.do("mute")
        time.sleep(0.3)
        self.assertGreaterEqual(client.age(), 0.3)
        self.assertIsNone(client.kept("/a", within=0.25) or client.kept_children("/a", within=0.25))
        self.assertIsNotNone(client.kept("/a"))
        partner.do("set /a two", "unmute")
        within(lambda: client.kept("/a", within=60.0) is None)
        self.assertIs(getattr(client.kept("/a"), "mark"), Mark.STALE)

    @unittest.skipUnless(hasattr(time, "CLOCK_BOOTTIME"), "the system has no clock that goes on while it is suspended")
    def test_what_is_kept_gets_old_while_the_machine_is_suspended(self) -> None:
        """The monotonic clock stands still meanwhile, and the one since the boot goes on."""
        client = self.client(self.raw_server(serves_one).host, 3 * HOUR)
        client.get("/a", watch=True)
        lock = Lock(client, "/lock")
        held = lock._held(Taken("/lock/x", 1, "", lambda: 1, mock.Mock()))
        held.check(within=HOUR / 2)
        real = time.clock_gettime_ns

        def later(clock: int) -> int:
            return real(clock) + int(HOUR * 1e9) * (clock == time.CLOCK_BOOTTIME)

        with mock.patch("time.clock_gettime_ns", later):
            self.assertGreaterEqual(client.age(), HOUR)
            self.assertIsNone(client.kept("/a", within=HOUR / 2))
            with self.assertRaisesRegex(LockLostError, "was not heard"):
                held.check(within=HOUR / 2)

    def test_a_connection_whose_watches_are_not_set_again_makes_nothing_younger(self) -> None:
        first = threading.Event()

        def serve(peer: Peer) -> None:
            peer.admit()
            while not first.is_set():
                asked = peer.take()
                peer.send(data_reply(asked, b"one") if asked.kind == GET_DATA else reply(asked))
                if asked.kind == GET_DATA:
                    return first.set()
            self.assertEqual(peer.take().kind, SET_WATCHES)
            while True:
                peer.take()

        client = self.client(self.raw_server(serve).host, 9.0)
        client.get("/a", watch=True)
        within(lambda: client.stats().connections >= 2)
        age = client.age()
        time.sleep(0.3)
        self.assertGreaterEqual(client.age(), age + 0.29)

    def test_what_is_counted(self) -> None:
        partner = self.partner()
        client = self.client(partner.host)
        self.assertEqual(client.stats()[:7], (1, 1, 0, 0, 0, 0, 0))
        client.get("/")
        partner.do("drop")
        within(lambda: client.stats().connections == 2)
        partner.do("expire")
        within(lambda: client.stats().expiries == 1 and client.connected)
        client.get("/")
        stats = client.stats()
        self.assertEqual((stats.answered, stats.lost, stats.waiting, stats.in_flight), (2, 0, 0, 0))
        assert stats.round_trip is not None
        self.assertTrue(0 <= stats.round_trip < WAIT)


class LogTest(ClientCase):
    def test_an_operator_reads_what_happened(self) -> None:
        partner = self.partner()
        with self.assertLogs("dirwolleu", "INFO") as logged:
            client = self.client(partner.host)
            partner.do("drop")
            within(lambda: client.stats().connections == 2)
            partner.do("expire")
            within(lambda: client.stats().expiries == 1 and client.connected)
            client.stop()
        lines = "\n".join(logged.output)
        self.assertIn(f"INFO:dirwolleu.connection:connected to {partner.host}: session 0x10000000", lines)
        self.assertIn(f"WARNING:dirwolleu.connection:the connection to {partner.host} is over: ", lines)
        self.assertRegex(lines, "WARNING:dirwolleu.connection:the session 0x10000000[0-9a-f]+ has expired")
        self.assertRegex(lines, "INFO:dirwolleu.connection:the session 0x10000000[0-9a-f]+ is closed")


PROGRAM = f"""
import asyncio, sys, threading
sys.path.insert(0, {str(CLIENTS / "python")!r})
import dirwolleu
host = sys.argv[1]
"""

ENDING = """
import atexit, time
from dirwolleu import _poll, _threads, client as of
there, left, threads = threading.Event(), threading.Event(), []
client = dirwolleu.Client(host)

def hold(owner, name):
    '''Holds up who calls this function, until the end of the program has left the client.'''
    function = getattr(owner, name)
    def call(*words, **named):
        there.set()
        left.wait()
        return function(*words, **named)
    setattr(owner, name, call)

def begin(call):
    def run():
        call()
        print("it has returned", flush=True)
    threads.append(threading.Thread(target=run, daemon=True))
    threads[-1].start()

def end():
    left.set()
    until = time.monotonic() + 0.5
    for thread in threads:
        thread.join(max(until - time.monotonic(), 0))

atexit.unregister(of._leave_all)
atexit.register(end)
atexit.register(of._leave_all)
"""
"""A program whose threads meet its end at places that are chosen: they go on when the client is left, and have half a second to say a word."""

CALLS = """
from dirwolleu.kazoo.client import KazooClient
client.start(60)
kazoos = KazooClient(host)
kazoos.start(60)
future, tree, registration = client.get_async("/"), client.tree("/"), dirwolleu.Registration(client, "/r")
follower = client.follow("/")
next(follower)
for call in (
    lambda: client.get("/"),
    lambda: client.get_async("/"),
    lambda: client.ensure_path("/a"),
    lambda: client.ensure_path_async("/a").result(0),
    lambda: future.result(0),
    lambda: next(follower, None),
    lambda: next(client.follow("/"), None),
    lambda: tree.wait(0),
    lambda: registration.wait(0),
    lambda: dirwolleu.Lock(client, "/l").acquire(0),
    lambda: dirwolleu.Client(host).start(0),
    lambda: kazoos.get("/"),
    lambda: KazooClient(host).start(0),
):
    begin(lambda call=call: left.wait() and call())

def look():
    try: client.get("/")
    except dirwolleu.ConnectionClosedError: print("closed")
    client.stop()
    print("stopped")
atexit.unregister(of._leave_all)
atexit.unregister(end)
atexit.register(look)
atexit.register(end)
atexit.register(of._leave_all)
"""


class ProgramTest(ClientCase):
    is_long = True

    def run_program(self, text: str, host: str) -> tuple[str, str]:
        """The output of a program, and its standard error. It ends with status 0, in time."""
        command = [sys.executable, "-c", PROGRAM + text, host]
        done = subprocess.run(command, capture_output=True, text=True, timeout=3 * WAIT)
        self.assertEqual(done.returncode, 0, done.stderr)
        return done.stdout, done.stderr

    def test_a_program_with_an_open_client_ends_quietly(self) -> None:
        partner = self.partner()
        for text in (
            "c = dirwolleu.Client(host); c.start(60); c.create('/a' + str(c.session_id), ephemeral=True)",
            "c = dirwolleu.Client(host); c.start(60); c.exists('/x', watch=print); [c.get_async('/') for _ in range(99)]",
            "c = dirwolleu.Client(host); threading.Thread(target=c.start, daemon=True).start()",
            "c = dirwolleu.Client('127.0.0.1:1')",
        ):
            with self.subTest(text):
                self.assertEqual(self.run_program(text, partner.host), ("", ""))
        partner.do("mute")
        text = "c = dirwolleu.Client(host)\ntry: c.start(0.2)\nexcept TimeoutError: c.close()"
        self.assertEqual(self.run_program(text, partner.host), ("", ""))

    def test_a_thread_that_starts_a_client_meets_the_end_of_the_program_at_each_place(self) -> None:
        host = self.partner().host
        for text in (
            "hold(of.Client, '_begin_threads')",
            "hold(of.Client, '_start_threads')",
            "hold(_threads.Threads, 'start')",
            "hold(_threads.Loop, 'start')",
            "hold(_threads.Loop, '_run')",
            "hold(of.Client, '_wait')",
            "hold(of.Client, '_is_connected')",
            "of.News = type('Late', (of.News,), {'wait': lambda *_: there.set() or left.wait() and False})\n"  # the time of the start has passed
            "of.Client._is_connected = lambda *_: False",  # else a start that is held up before has nothing to wait for
        ):
            with self.subTest(text):
                said = self.run_program(f"{ENDING}\n{text}\nbegin(client.start)\nthere.wait()", host)
                self.assertEqual(said, ("", ""))

    def test_a_thread_that_can_start_no_others_any_more_awaits_the_end(self) -> None:
        """Python 3.12 and later say so before they call the functions that were registered for the end, which may wait for the thread."""
        text = f"""{ENDING}
def refuse(_):
    there.set()
    raise RuntimeError("can't create new thread at interpreter shutdown")
_poll.Reactor.run = refuse
def run(**named):
    thread = threading.Thread(target=client.start, **named)
    thread.start()
    return thread
"""
        host = self.partner().host
        self.assertEqual(self.run_program(text + "run(daemon=True)\nthere.wait()", host), ("", ""))
        for others in ("run()", "run(daemon=True, args=[0.1]).join()"):
            with self.subTest(others):
                self.assertIn("RuntimeError: can't create new thread", self.run_program(text + others, host)[1])

    def test_no_call_of_a_thread_returns_once_the_program_has_left_its_client(self) -> None:
        """A call in the thread in which the program ends does return."""
        self.assertEqual(self.run_program(ENDING + CALLS, self.partner().host), ("closed\nstopped\n", ""))

    def test_an_exception_in_a_callback_is_seen_without_any_set_up(self) -> None:
        partner = self.partner()
        _, said = self.run_program(
            """
told = threading.Event()
def fail(_): raise ValueError("this is seen")
with dirwolleu.Client(host, 60.0) as client:
    client.exists("/b", watch=fail)
    client.exists("/b", watch=lambda _: told.set())
    client.create("/b")
    told.wait(10)
""",
            partner.host,
        )
        self.assertIn("ValueError: this is seen", said)
        _, said = self.run_program(
            """
async def fail(_): raise ValueError("this is seen too")
async def main():
    async with dirwolleu.aio.Client(host, 60.0) as client:
        await client.exists("/c", watch=fail)
        await client.create("/c")
        await asyncio.sleep(0.2)
asyncio.run(main())
""",
            partner.host,
        )
        self.assertIn("ValueError: this is seen too", said)

    def test_a_forked_child_is_told_so_by_each_call(self) -> None:
        client = self.client(self.partner().host)
        client.exists("/", watch=True)
        child = os.fork()
        if child == 0:
            signal.alarm(int(WAIT))
            os._exit(self.try_in_child(client))
        self.assertEqual(os.waitpid(child, 0)[1], 0)

    def try_in_child(self, client: Client) -> int:
        return passed_in_child([
            lambda: client.kept("/"), lambda: client.kept_children("/"), lambda: client.get_async("/"), client.sync,
            lambda: client.ensure_path("/a/b"), lambda: client.transaction().commit(),
        ])  # fmt: skip
