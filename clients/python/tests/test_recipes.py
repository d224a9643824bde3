"""Tests of the lock, the election and the registration, against the partner, with cuts, expiries and lost answers."""

from __future__ import annotations

import asyncio
import functools
import queue
import threading
import time
import unittest
from typing import Any, Callable, Optional
from unittest import mock

from both import in_thread
from support import TIMEOUT, WAIT, ClientCase, PartnerCase, within
from test_leaving import CREATE, Relay

import dirwolleu
from dirwolleu import Client, ConnectionClosedError, Election, Held, Lock, LockLostError, LockTimeout, ReadLock, Registration, State, aio
from dirwolleu._locks import in_line, mixed_names


class LockTest(ClientCase):
    is_long = True

    def setUp(self) -> None:
        self.server, self.root = self.shared_partner(), self.own_root()
        self.host = self.server.host + self.root
        self.one, self.other = self.client(self.host), self.client(self.host)
        self.one.ensure_path("/")

    def test_one_holds_and_the_next_has_a_greater_token(self) -> None:
        first, second = Lock(self.one, "/locks/x", "one"), Lock(self.other, "/locks/x", "other")
        with first as held:
            held.check()
            held.check(within=WAIT)
            self.assertTrue(held.is_held)
            with self.assertRaises(LockTimeout):
                second.acquire(0)
            waits = in_thread(lambda: second.acquire(3 * WAIT))
            within(lambda: first.contenders() == ["one", "other"])
            self.assertTrue(waits.empty())
        self.assertFalse(held.is_held)
        later: Held = waits.get(timeout=WAIT)
        self.assertGreater(later.token, held.token)
        later.release()
        later.release()
        self.assertEqual(first.contenders(), [])

    def test_a_wait_that_ends_leaves_no_contender(self) -> None:
        with Lock(self.one, "/locks/x", "one"):
            lock = Lock(self.other, "/locks/x", "other")
            with self.assertRaises(LockTimeout):
                lock.acquire(0.3)
            self.assertEqual(lock.contenders(), ["one"])

    def test_those_of_the_same_names_are_in_one_line(self) -> None:
        curator = "_c_6fbbe9d5-8b1c-4b8a-a8a7-f9c1a1b0f3e5-lock-0000000003"
        kazoo = "b5a4f3dc0e0f4f4b8b9c3e2a1d0c9b8a__lock__0000000002"
        engine, last, below = self.one._engine, "x__rlock__0000000007", "x-lock--2147483648"
        self.assertEqual(in_line(engine, "/locks", [curator, last, "other", kazoo, "x__lock__-000000001"]), [kazoo, last])
        self.assertEqual(in_line(engine, "/locks", [curator, kazoo, below], "curator"), [curator])  # a number below 0 never holds
        self.assertEqual(in_line(engine, "/locks", []), [])
        self.assertIn(f"{below} is there, by names of Curator's locks", str(mixed_names(engine, "/locks", [kazoo, below], "kazoo")))

    def test_one_of_kazoo_that_is_first_is_waited_for(self) -> None:
        kazoos = f"{self.root}/locks/b5a4__lock__0000000000"
        self.server.do(f"create {self.root}/locks", f"create {self.root}/locks/other", f"create {kazoos} k")
        waits = in_thread(lambda: Lock(self.one, "/locks", "one").acquire(3 * WAIT))
        within(lambda: Lock(self.other, "/locks").contenders() == ["k", "one"])
        time.sleep(0.1)
        self.assertTrue(waits.empty())
        self.server.do(f"delete {kazoos}")
        waits.get(timeout=WAIT).release()

    def test_each_watches_the_one_before_it_alone(self) -> None:
        clients = self.one, self.other, self.client(self.host)
        first, second, third = (Lock(client, "/locks") for client in clients)
        held = first.acquire(WAIT)
        waits = in_thread(lambda: second.acquire(3 * WAIT))
        within(lambda: len(first.contenders()) == 2)
        last = in_thread(lambda: third.acquire(3 * WAIT))
        within(lambda: len(first.contenders()) == 3)
        answered = third._client.stats().answered
        within(lambda: third._client.stats().in_flight == 0)
        held.release()
        later: Held = waits.get(timeout=WAIT)
        time.sleep(0.1)
        self.assertTrue(last.empty())
        self.assertLessEqual(third._client.stats().answered - answered, 4)
        later.release()
        last.get(timeout=WAIT).release()

    def check_lost(self, lock: Lock, lost: queue.Queue[Held], lose: Callable[[Held], None], why: str) -> None:
        held = lock.acquire(WAIT)
        lose(held)
        within(lambda: not held.is_held)
        with self.assertRaisesRegex(LockLostError, why):
            held.check()
        self.assertIs(lost.get(timeout=WAIT), held)
        within(lambda: self.one.connected)
        self.assertFalse(held.is_held)
        held.release()
        self.assertTrue(lost.empty())

    def test_what_ends_a_lock(self) -> None:
        lost: queue.Queue[Held] = queue.Queue()
        lock = Lock(self.one, "/locks", on_lost=lost.put)
        self.check_lost(lock, lost, lambda held: self.other.delete(held.path), "not known to be there")
        self.check_lost(lock, lost, lambda held: self.server.do("drop"), "connection was lost")
        self.check_lost(lock, lost, lambda held: self.server.do("expire"), "connection was lost|session is over")

    def test_a_lock_that_is_kept_while_suspended(self) -> None:
        lost: queue.Queue[Held] = queue.Queue()
        lock = Lock(self.one, "/locks", on_lost=lost.put, keeps_while_suspended=True)
        held = lock.acquire(WAIT)
        self.server.do("down")
        within(lambda: self.one.state is State.SUSPENDED)
        held.check()
        with self.assertRaisesRegex(LockLostError, "not heard"):
            time.sleep(0.05)
            held.check(within=0.04)
        self.server.do("up")
        within(lambda: self.one.connected)
        held.check()
        self.assertTrue(lost.empty())
        held.release()
        self.check_lost(lock, lost, lambda held: self.server.do("expire"), "session is over|not known to be there")

    def test_it_is_lost_with_the_first_step_that_can_know(self) -> None:
        """After each step of the client: its report, and whether the lock is still held."""
        for keeps, end, wanted in (
            (False, "drop", [(State.CONNECTED, True), (State.SUSPENDED, False)]),
            (True, "expire", [(State.CONNECTED, True), (State.SUSPENDED, True), (State.LOST, False)]),
            (True, "delete", [(State.CONNECTED, True), (State.CONNECTED, False)]),
        ):
            with self.subTest(end):
                held = Lock(self.one, f"/{end}", keeps_while_suspended=keeps).acquire(WAIT)
                seen = [(State.CONNECTED, held.is_held)]
                engine, step = self.one._engine, self.one._engine._step

                def stepped(*words: Any, seen: Any = seen, held: Held = held, step: Any = step) -> None:
                    step(*words)
                    if (engine.state, held.is_held) != seen[-1]:
                        seen.append((engine.state, held.is_held))

                with mock.patch.object(engine, "_step", stepped):
                    if end == "delete":
                        self.other.delete(held.path)
                    else:
                        self.server.do(end)
                    within(lambda: not held.is_held and len(seen) >= len(wanted))
                self.assertEqual(seen[: len(wanted)], wanted)
                within(lambda: self.one.connected)
                held.release()
                later = Lock(self.one, f"/{end}").acquire(WAIT)
                self.assertGreater(later.token, held.token)
                later.release()

    def test_a_wait_without_a_connection_ends_in_time(self) -> None:
        self.server.do("down")
        self.addCleanup(self.server.do, "up")
        within(lambda: self.one.state is State.SUSPENDED)
        began = time.monotonic()
        with self.assertRaises(LockTimeout):
            Lock(self.one, "/locks").acquire(0.1)
        self.assertLess(time.monotonic() - began, WAIT)

    def test_each_thread_gives_back_what_it_has_taken(self) -> None:
        lock, may_end, helds = ReadLock(self.one, "/locks"), threading.Event(), queue.Queue[Held]()
        self.addCleanup(may_end.set)

        def work() -> None:
            with lock as held:
                helds.put(held)
                may_end.wait(WAIT)

        end = in_thread(work)
        first = helds.get(timeout=WAIT)
        with lock as second:
            may_end.set()
            self.assertIsNone(end.get(timeout=WAIT))
            self.assertFalse(first.is_held)
            second.check()
        self.assertFalse(second.is_held)

    def test_what_locks_have_left_is_forgotten(self) -> None:
        with mock.patch("dirwolleu._cache_view.RECIPES_BEFORE_FORGETTING", 3):
            paths = []
            for _ in range(3):
                with Lock(self.one, "/locks") as held:
                    paths.append(held.path)
        self.assertEqual([self.one.kept(path) for path in paths[:2]], [None, None])

    def test_a_lost_create_is_settled(self) -> None:
        """The answer to the first create of a contender is lost, which has happened or not."""
        relay = Relay(int(self.server.host.rpartition(":")[2]))
        self.addCleanup(relay.stop)
        client = self.client(relay.host + self.root)
        client.ensure_path("/locks")
        for at in ("request", "answer"):
            with self.subTest(at):
                lock, creates = Lock(client, "/locks", "one"), list[bytes]()
                relay.hear = lambda frame, creates=creates: creates.append(frame) if b"__lock__" in frame[:200] else None  # type: ignore[misc]
                relay.cut(CREATE, at, 0.0)
                with lock as held:
                    self.assertEqual((lock.contenders(), relay.cuts), (["one"], 1))
                    held.check()
                made = [frame for frame in creates if frame[4:8] == bytes((0, 0, 0, CREATE))]
                self.assertEqual(len(made), 1 if at == "answer" else 2)
                self.assertEqual(lock.contenders(), [])

    def test_an_expiry_is_waited_through(self) -> None:
        held = Lock(self.one, "/locks", "one", on_lost=lambda held: held.release()).acquire(WAIT)
        waits = in_thread(lambda: Lock(self.other, "/locks", "other").acquire(3 * WAIT))
        within(lambda: len(Lock(self.one, "/locks").contenders()) == 2)
        session = self.other.session_id
        self.server.do("expire")
        later: Held = waits.get(timeout=3 * WAIT)
        self.assertNotEqual(self.other.session_id, session)
        later.check()
        self.assertFalse(held.is_held)
        later.release()

    def test_a_client_that_is_stopped_waits_no_longer(self) -> None:
        with Lock(self.one, "/locks", "one"):
            waits = in_thread(lambda: Lock(self.other, "/locks", "other").acquire())
            within(lambda: len(Lock(self.one, "/locks").contenders()) == 2)
            self.other.stop()
            self.assertIsInstance(waits.get(timeout=WAIT), ConnectionClosedError)

    def test_no_two_hold_at_once(self) -> None:
        holders, most, tokens = [0], [0], list[int]()

        def work(client: Client) -> None:
            lock = Lock(client, "/locks")
            for _ in range(5):
                with lock as held:
                    holders[0] += 1
                    most[0] = max(most[0], holders[0])
                    tokens.append(held.token)
                    time.sleep(0.001)
                    holders[0] -= 1

        ends = [in_thread(functools.partial(work, client)) for client in 3 * (self.one, self.other)]
        for end in ends:
            self.assertIsNone(end.get(timeout=6 * WAIT))
        self.assertEqual((most[0], tokens), (1, sorted(tokens)))
        self.assertEqual(len(set(tokens)), 30)


class ElectionTest(ClientCase):
    def test_a_leader_and_the_next(self) -> None:
        partner = self.partner()
        one, other = self.client(partner.host), self.client(partner.host)
        leads, may_end = queue.Queue[str](), threading.Event()
        self.addCleanup(may_end.set)

        def lead(held: Held) -> int:
            leads.put("one")
            may_end.wait(WAIT)
            return held.token

        first = in_thread(lambda: Election(one, "/leader", "one").run(lead))
        self.assertEqual(leads.get(timeout=WAIT), "one")
        election = Election(other, "/leader", "other")
        self.assertEqual((election.leader(), election.contenders()), ("one", ["one"]))
        second = in_thread(lambda: election.run(lambda held: held.token))
        within(lambda: election.contenders() == ["one", "other"])
        self.assertEqual(election.leader(), "one")
        may_end.set()
        self.assertLess(first.get(timeout=WAIT), second.get(timeout=WAIT))
        self.assertIsNone(election.leader())


class RegistrationTest(ClientCase):
    def test_a_node_is_made_again_in_each_new_session(self) -> None:
        partner = self.partner()
        client, other = self.client(partner.host), self.client(partner.host)
        with Registration(client, "/workers/one", b"first") as registration:
            self.assertTrue(registration.wait(WAIT))
            self.assertTrue(registration.is_registered)
            self.assertEqual(other.get("/workers/one")[0], b"first")
            registration.set(b"second")
            session = client.session_id
            partner.do("expire")
            within(lambda: client.session_id != session and registration.wait(0) and registration.is_registered)
            data, stat = other.retry(other.get, "/workers/one")
            self.assertEqual((data, stat.ephemeral_owner), (b"second", client.session_id))
            other.delete("/workers/one")
            within(lambda: other.exists("/workers/one"))
        self.assertIsNone(other.exists("/workers/one"))
        self.assertFalse(registration.wait(0))

    def test_a_node_of_another_session_is_waited_for(self) -> None:
        partner = self.partner()
        client, other = self.client(partner.host), self.client(partner.host)
        self.await_farewells()
        other.create("/one", b"other", ephemeral=True)
        registration = Registration(client, "/one", b"own")
        self.assertFalse(registration.wait(0.2))
        other.stop()
        self.assertTrue(registration.wait(WAIT))
        self.assertEqual(client.get("/one")[0], b"own")
        registration.withdraw()
        self.assertIsNone(client.exists("/one"))

    def test_a_client_may_start_later(self) -> None:
        client = Client(self.partner().host)
        self.addCleanup(client.close)
        self.addCleanup(client.stop)
        registration = Registration(client, "/one")
        client.start(WAIT)
        self.assertTrue(registration.wait(WAIT))


class AioTest(PartnerCase):
    def test_locks_of_asyncio(self) -> None:
        partner = self.partner()
        lost: list[Optional[aio.Held]] = []

        async def within_loop(condition: Callable[[], Any]) -> None:
            until = time.monotonic() + WAIT
            while not condition():
                self.assertLess(time.monotonic(), until)
                await asyncio.sleep(0.005)

        async def run() -> None:
            async with aio.Client(partner.host, TIMEOUT) as one, aio.Client(partner.host, TIMEOUT) as other:
                lock, second = aio.Lock(one, "/locks", "one", on_lost=lost.append), aio.Lock(other, "/locks", "other")
                async with lock as held:
                    held.check(within=WAIT)
                    with self.assertRaises(LockTimeout):
                        await second.acquire(0.1)
                    waits = asyncio.ensure_future(second.acquire())
                    while await lock.contenders() != ["one", "other"]:
                        await asyncio.sleep(0.01)
                    waits.cancel()
                    with self.assertRaises(asyncio.CancelledError):
                        await waits
                    self.assertEqual(await lock.contenders(), ["one"])
                    await other.delete(held.path)
                    await within_loop(lambda: lost)
                    with self.assertRaises(LockLostError):
                        held.check()
                    async with second as later:
                        self.assertGreater(later.token, held.token)

                async def lead(held: aio.Held) -> bool:
                    return held.is_held

                self.assertTrue(await aio.Election(one, "/leader").run(lead))

        asyncio.run(run())


    def test_a_registration_of_asyncio(self) -> None:
        partner = self.partner()

        async def run() -> None:
            async with aio.Client(partner.host, TIMEOUT) as client, aio.Client(partner.host, TIMEOUT) as other:
                async with aio.Registration(client, "/workers/one", b"first") as registration:
                    self.assertTrue(await registration.wait(WAIT))
                    self.assertTrue(registration.is_registered)
                    await registration.set(b"second")
                    session = client.session_id
                    partner.do("expire")
                    until = time.monotonic() + WAIT
                    while client.session_id == session or not registration.is_registered:
                        self.assertLess(time.monotonic(), until)
                        await asyncio.sleep(0.01)
                    data, stat = await other.retry(other.get, "/workers/one")
                    self.assertEqual((data, stat.ephemeral_owner), (b"second", client.session_id))
                self.assertIsNone(await other.exists("/workers/one"))

        asyncio.run(run())


class NamesTest(unittest.TestCase):
    def test_each_name_is_there(self) -> None:
        for module in (dirwolleu.aio, dirwolleu.recipes, dirwolleu.security):
            for name in module.__all__:
                self.assertTrue(hasattr(module, name))
