"""Tests of the recipes of dirwolleu.kazoo, against the partner. The expected results are those of kazoo 2.8."""

from __future__ import annotations

import datetime
import json
import threading
from typing import Any, Callable
from unittest import mock

from both import run_in_thread
from support import WAIT, within
from test_kazoo import KazooCase

from dirwolleu.kazoo.exceptions import (
    CancelledError, ConfigurationError, ConnectionClosedError, KazooException, LockTimeout, NoNodeError, ZookeeperError,
)  # fmt: skip
from dirwolleu.kazoo.recipe import election, lock, party
from dirwolleu.kazoo.recipe.cache import TreeCache, TreeEvent
from dirwolleu.kazoo.recipe.watchers import PatientChildrenWatch


class RecipesCase(KazooCase):
    def setUp(self) -> None:
        super().setUp()
        self.one, self.other = self.client(), self.client()

    def in_thread(self, call: Callable[[], Any]) -> list[Any]:
        """The result of a call in a thread, once it has returned."""
        outcome: list[Any] = []
        run_in_thread(call, outcome.append)
        return outcome


class RecipesTest(RecipesCase):
    def test_a_lock(self) -> None:
        first, second = self.one.Lock("/lock", "one"), self.other.Lock("/lock", "other")
        self.assertTrue(first.acquire())
        self.assertEqual((first.is_acquired, first.contenders(), first.data), (True, ["one"], b"one"))
        self.assertRegex(str(first.node), r"^[0-9a-f]{32}__lock__\d{10}$")
        self.assertFalse(second.acquire(blocking=False))
        with self.assertRaises(LockTimeout):
            second.acquire(timeout=0.1)
        self.assertEqual(first.contenders(), ["one"])
        self.assertFalse(first.acquire(blocking=False))
        waits = self.in_thread(second.acquire)
        within(lambda: first.contenders() == ["one", "other"])
        self.assertTrue(first.release())
        self.assertFalse(first.release())
        within(lambda: waits == [True])
        waits = self.in_thread(first.acquire)
        within(lambda: second.contenders() == ["other", "one"])
        first.cancel()
        within(lambda: waits)
        self.assertIsInstance(waits[0], CancelledError)
        self.assertEqual(second.contenders(), ["other"])
        second.release()
        with first:
            self.assertTrue(first.is_acquired)

    def test_a_lock_is_lost_with_its_session(self) -> None:
        lock = self.one.Lock("/lock", "one")
        lock.acquire()
        self.server.do("drop")
        within(lambda: not self.one.connected)
        within(lambda: self.one.connected)
        self.assertTrue(lock.is_acquired)
        self.server.do("expire")
        within(lambda: not lock.is_acquired)
        self.assertTrue(lock.acquire())
        self.assertEqual(lock.contenders(), ["one"])

    def test_a_lock_is_free_when_all_of_it_is(self) -> None:
        """Threads may have one lock: the next one of them takes it as soon as it is not held."""
        nodes = list[Any]()

        class Told(lock.Lock):
            def __setattr__(self, name: str, value: Any) -> None:
                super().__setattr__(name, value)
                if name == "_taken" and not value:
                    nodes.append(self.node)

        made = Told(self.one, "/lock")
        made.acquire()
        nodes.clear()
        self.assertTrue(made.release())
        self.assertEqual(nodes, [None])

    def test_a_release_is_not_cancelled(self) -> None:
        """Only the wait of another thread for the same lock is cancelled, which has news of its own."""
        made = self.one.Lock("/lock", "one")
        made.acquire()
        made.cancel()
        self.assertTrue(made.release())
        self.assertEqual((made.cancelled, made.wake_event.is_set()), (True, True))
        with self.assertRaises(CancelledError):
            made.acquire()
        self.assertTrue(made.acquire())

    def test_a_lock_is_held_where_the_core_says_so(self) -> None:
        nobody = mock.patch("dirwolleu._engine.Engine.held_by", lambda *_: None)
        with nobody:
            lock = self.one.Lock("/lock", "one")
            with mock.patch("dirwolleu.kazoo._session.Session.session_timeout", 0.15):
                self.assertFalse(lock.acquire(blocking=False))
            self.assertFalse(lock.acquire(timeout=0.15))  # nobody is before it
        self.assertTrue(lock.acquire(blocking=False))
        self.assertFalse(lock.acquire(blocking=False))

    def test_what_a_lock_waits_for(self) -> None:
        """All of kazoo's, as the core says. Beside Curator's it raises an error, and leaves no node: they can't see it.
        """
        for name in ("a__lock__", "a__rlock__"):
            self.one.create(f"/lock/{name}0000000000", makepath=True)
            self.assertFalse(self.other.Lock("/lock", "other").acquire(blocking=False))
            self.one.delete("/lock", recursive=True)
        for begin, whose in (("_c_6fbbe9d5-lock-", "locks"), ("a-latch-", "latches"), ("a__WRIT__", "locks"), ("a__READ__", "locks")):
            with self.subTest(begin):
                name = f"{begin}0000000000"
                self.one.create(f"/lock/{name}", makepath=True)
                for kind in ("Lock", "ReadLock", "WriteLock"):
                    with self.assertRaisesRegex(ZookeeperError, f"^{name} is there, by names of Curator's {whose}: /lock; all contenders"):
                        getattr(self.other, kind)("/lock", "other").acquire()
                self.assertEqual(self.one.get_children("/lock"), [name])
                self.one.delete("/lock", recursive=True)
        self.one.create("/lock/others-0000000000", makepath=True)
        self.assertTrue(self.other.Lock("/lock", "other", ["__rlock__"]).acquire(blocking=False))
        with self.assertRaisesRegex(ConfigurationError, 'as dirwolleu.Lock does with names="curator"$'):
            self.other.Lock("/lock", "other", ["others-"])
        with self.assertRaisesRegex(ConfigurationError, "leave ephemeral true"):
            self.other.Lock("/lock", "other").acquire(ephemeral=False)

    def test_a_lock_whose_node_is_deleted_is_lost_and_not_taken_again(self) -> None:
        made = self.one.Lock("/lock", "one")
        made.acquire()
        self.other.delete(f"/lock/{made.node}")
        within(lambda: not made.is_acquired)
        within(lambda: made.contenders() == [])
        self.assertFalse(made.release())
        self.assertTrue(made.acquire())
        self.assertEqual(made.contenders(), ["one"])

    def test_readers_and_writers(self) -> None:
        readers = [self.one.ReadLock("/lock", "r1"), self.other.ReadLock("/lock", "r2")]
        writer = self.one.WriteLock("/lock", "w")
        self.assertTrue(all(reader.acquire() for reader in readers))
        self.assertFalse(writer.acquire(blocking=False))
        waits = self.in_thread(writer.acquire)
        within(lambda: len(writer.contenders()) == 3)
        self.assertFalse(self.other.ReadLock("/lock", "late").acquire(blocking=False))
        for reader in readers:
            reader.release()
        within(lambda: waits == [True])
        writer.release()

    def test_an_election(self) -> None:
        ran: list[str] = []
        go_on = threading.Event()
        elections = [self.one.Election("/election", "one"), self.other.Election("/election", "other")]

        def lead() -> None:
            ran.append("one")
            go_on.wait(WAIT)

        first = self.in_thread(lambda: elections[0].run(lead))
        within(lambda: ran)
        second = self.in_thread(lambda: elections[1].run(ran.append, "other"))
        within(lambda: elections[0].contenders() == ["one", "other"])
        elections[1].cancel()
        within(lambda: second == [None])
        go_on.set()
        within(lambda: first == [None])
        self.assertEqual(ran, ["one"])
        with self.assertRaises(ValueError):
            elections[0].run(None)  # type: ignore[arg-type]

    def test_parties(self) -> None:
        for make in ("Party", "ShallowParty"):
            party, other = getattr(self.one, make)("/party", "one"), getattr(self.other, make)("/party", "other")
            party.join()
            party.join()
            other.join()
            self.assertEqual((sorted(party), len(other), party.participating), (["one", "other"], 2, True))
            self.assertTrue(party.leave())
            self.assertFalse(party.leave())
            self.assertEqual(list(other), ["other"])
            other.leave()

    def test_a_barrier(self) -> None:
        barrier = self.one.Barrier("/barrier")
        self.assertEqual((barrier.wait(), barrier.remove()), (True, False))
        barrier.create()
        barrier.create()
        self.assertFalse(self.other.Barrier("barrier").wait(0))
        waits = self.in_thread(self.other.Barrier("/barrier").wait)
        self.assertEqual(waits, [])
        self.assertTrue(barrier.remove())
        within(lambda: waits == [True])

    def test_a_double_barrier(self) -> None:
        one, other = self.one.DoubleBarrier("/step", 2, "one"), self.other.DoubleBarrier("/step", 2)
        come = self.in_thread(one.enter)
        within(lambda: self.other.exists(one.create_path))
        self.assertEqual((come, one.participating, self.other.get(one.create_path)[0]), ([], False, b"one"))
        other.enter()
        within(lambda: come == [None])
        self.assertTrue(one.participating and other.participating)
        gone = self.in_thread(one.leave)
        other.leave()
        within(lambda: gone == [None])
        self.assertFalse(one.participating or other.participating)
        self.one.create("/ephemeral", ephemeral=True)
        barred = self.one.DoubleBarrier("/ephemeral/step", 1)
        barred.enter()
        self.assertFalse(barred.participating)

    def test_a_counter(self) -> None:
        counter = self.one.Counter("/counter")
        self.assertEqual((counter.value, counter.pre_value, counter.post_value), (0, None, None))
        counter += 5
        counter -= 2
        self.assertEqual((counter.value, counter.pre_value, counter.post_value, self.other.get("/counter")[0]), (3, 5, 3, b"3"))
        with self.assertRaisesRegex(TypeError, "^invalid type for value change$"):
            counter + 1.5
        halves = self.one.Counter("/halves", default=0.5) + 1.0
        self.assertEqual((halves.value, self.other.get("/halves")[0]), (1.5, b"1.5"))
        curators = self.one.Counter("/curators", support_curator=True) - 2
        self.assertEqual((curators.value, self.other.get("/curators")[0]), (-2, b"\xff\xff\xff\xfe"))
        with self.assertRaises(TypeError):
            self.one.Counter("/curators", 0.5, support_curator=True)
        self.one.stop()
        with self.assertRaises(ConnectionClosedError):
            counter + 1

    def test_a_queue(self) -> None:
        queue = self.one.Queue("/queue")
        self.assertEqual((len(queue), queue.get()), (0, None))
        for value, priority in ((b"third", 100), (b"fourth", 100), (b"first", 0), (b"second", 7)):
            queue.put(value, priority)
        self.assertEqual(len(queue), 4)
        taken = [taker.Queue("/queue").get() for taker in (self.one, self.other) * 2]
        self.assertEqual(taken, [b"first", b"second", b"third", b"fourth"])
        refused: list[tuple[Any, type[Exception]]] = [((1,), TypeError), ((b"x", "1"), TypeError), ((b"x", 1000), ValueError)]
        for wrong, kind in refused:
            with self.assertRaises(kind):
                queue.put(*wrong)
            with self.assertRaises(kind):
                self.one.LockingQueue("/queue").put(*wrong)

    def test_a_queue_that_locks(self) -> None:
        self.await_farewells()
        one, other = self.one.LockingQueue("/queue"), self.other.LockingQueue("/queue")
        self.assertEqual((one.get(0), one.consume(), one.release(), one.holds_lock(), len(one)), (None, False, False, False, 0))
        one.put(b"second")
        one.put_all([b"first", b""], priority=1)
        self.assertEqual((one.get(), one.get(), other.get(WAIT), len(other)), (b"first", b"first", b"", 3))
        self.assertTrue(one.holds_lock() and one.consume() and other.release())
        self.assertFalse(one.consume() or other.release())
        self.assertEqual((other.get(WAIT), one.get(WAIT), len(one)), (b"", b"second", 2))
        waits = self.in_thread(self.client().LockingQueue("/queue").get)
        self.other.stop()  # another one gets what it has locked
        within(lambda: waits == [b""])
        self.assertTrue(one.consume())

    def test_names_that_are_at_rest(self) -> None:
        self.one.ensure_path("/workers")
        rests = list[float]()

        def rest(seconds: float) -> None:
            rests.append(seconds)
            if len(rests) == 1:  # the names change meanwhile
                seen = threading.Event()
                self.one.get_children("/workers", lambda _: seen.set())
                self.other.create("/workers/a")
                seen.wait(WAIT)

        with mock.patch.object(self.one.handler, "sleep_func", rest):
            names, changed = PatientChildrenWatch(self.one, "/workers", 5.0).start().get(timeout=WAIT)
            self.assertEqual((names, rests, changed.ready()), (["a"], [5.0, 5.0], False))
            self.other.create("/workers/b")
            self.assertGreater(changed.get(timeout=WAIT), 0)
            with self.assertRaises(NoNodeError):
                PatientChildrenWatch(self.one, "/none").start().get(timeout=WAIT)


class SharesTest(RecipesCase):
    """Sets that several share, and a kept tree."""

    def test_a_semaphore(self) -> None:
        first, second = self.one.Semaphore("/some", "one", 2), self.other.Semaphore("/some", "other", max_leases=2)
        third = self.one.Semaphore("/some", "third", max_leases=2)
        self.assertTrue(first.acquire() and first.acquire() and second.acquire())
        self.assertEqual((self.one.get("/some")[0], sorted(third.lease_holders())), (b"2", ["one", "other"]))
        self.assertFalse(third.acquire(blocking=False))
        with self.assertRaises(LockTimeout):
            third.acquire(timeout=0.1)
        waits = self.in_thread(third.acquire)
        within(lambda: self.one.get_children("/some-__lock__"))
        self.assertTrue(second.release())
        self.assertFalse(second.release())
        within(lambda: waits == [True])
        waits = self.in_thread(second.acquire)
        within(lambda: self.one.get_children("/some-__lock__"))
        second.cancel()
        within(lambda: waits)
        self.assertIsInstance(waits[0], CancelledError)
        self.assertEqual(sorted(first.lease_holders()), ["one", "third"])
        with self.assertRaisesRegex(ValueError, "^/some has 2 leases at most, and not 3$"):
            self.other.Semaphore("/some", max_leases=3).acquire()
        self.one.create("/ours", b"-2")
        with self.assertRaisesRegex(ValueError, "^/ours has -2 leases at most, and not 2$"):
            self.other.Semaphore("/ours", max_leases=2).acquire()  # dirwolleu.Semaphore has other nodes
        first.release()
        with second:
            self.assertTrue(second.is_acquired)
        self.assertFalse(second.is_acquired)

    def test_a_lease_is_lost_with_its_session(self) -> None:
        self.await_farewells()
        semaphore = self.other.Semaphore("/some", max_leases=1)
        semaphore.acquire()
        self.other.stop()
        self.other.start(WAIT)
        self.assertEqual((semaphore.is_acquired, self.one.Semaphore("/some").lease_holders()), (False, []))

    def test_no_lease_is_made_by_one_that_has_lost_the_lock(self) -> None:
        semaphore = self.one.Semaphore("/some", "one")
        take, taken = semaphore._make, list[str]()

        def overtaken() -> None:
            if not taken:
                taken.append(semaphore._lock.node)
                self.other.delete("/some-__lock__/" + taken[0])
            take()

        with mock.patch.object(semaphore, "_make", overtaken):
            self.assertTrue(semaphore.acquire())
        self.assertEqual(len(self.one.get_children("/some")), 1)

    def test_leases_by_the_clock(self) -> None:
        now = datetime.datetime(2026, 1, 2, 3, 4, 5)
        hour = datetime.timedelta(hours=1)
        self.assertTrue(self.one.NonBlockingLease("/lease", hour, "one", lambda: now))
        data, _ = self.other.get("/lease/lease_holder")
        self.assertEqual(json.loads(data or b""), {"version": 1, "holder": "one", "end": "2026-01-02T04:04:05"})
        other = self.other.NonBlockingLease("/lease", hour, "other", lambda: now + hour / 2)
        self.assertFalse(other or other.obtained)
        self.assertTrue(self.other.NonBlockingLease("/lease", hour, "one", lambda: now + hour / 2))
        self.assertTrue(self.other.NonBlockingLease("/lease", hour, "other", lambda: now + 2 * hour))
        self.one.set("/lease/lease_holder", b'{"version": 2}')
        self.assertFalse(self.other.NonBlockingLease("/lease", hour, "other", lambda: now + 9 * hour))
        leases = [self.one.MultiNonBlockingLease(2, "/leases", hour, name, lambda: now) for name in ("a", "b", "c", "a")]
        self.assertEqual([lease.obtained for lease in leases], [True, True, False, True])

    def shares(self, client: Any, name: str, **named: Any) -> Any:
        return client.SetPartitioner("/shares", set=("c", "a", "b"), identifier=name, time_boundary=0.05, **named)

    def test_a_set_is_shared_out(self) -> None:
        first = self.shares(self.one, "one")
        first.wait_for_acquire(WAIT)
        self.assertEqual((first.state, list(first)), ("ACQUIRED", ["a", "b", "c"]))
        second = self.shares(self.other, "other")
        within(lambda: first.release)
        self.assertEqual((list(first), list(second)), ([], []))
        first.release_set()
        for one in (first, second):
            one.wait_for_acquire(WAIT)
        self.assertEqual((list(first), list(second)), (["a", "c"], ["b"]))
        self.assertEqual(sorted(self.one.get_children("/shares/locks")), ["a", "b", "c"])
        second.finish()
        self.assertTrue(second.failed)
        within(lambda: first.release)
        first.release_set()
        first.wait_for_acquire(WAIT)
        self.assertEqual(list(first), ["a", "b", "c"])
        first.finish()
        self.assertEqual((first.state, list(first), self.one.get_children("/shares/party")), ("FAILURE", [], []))

    def test_a_part_is_lost_with_the_session(self) -> None:
        shares = self.shares(self.one, "one", partition_func=lambda name, members, whole: [(name, *members, *whole)])
        shares.wait_for_acquire(WAIT)
        self.assertEqual(list(shares), [("one", "one", "c", "a", "b")])
        self.server.do("expire")
        within(lambda: shares.failed)

    def test_a_tree(self) -> None:
        cache, told, faults = TreeCache(self.one, "/tree"), list[TreeEvent](), list[Exception]()
        cache.listen(told.append)
        cache.listen_fault(faults.append)
        cache.start()
        within(lambda: len(told) == 2)
        transaction = self.other.transaction()
        for path in ("/tree/a", "/tree/a/b"):
            transaction.create(path, path.encode())
        transaction.commit()
        within(lambda: len(told) == 4)
        self.assertEqual((cache.get_children("/tree/a"), cache.get_data("/tree/a/b").data), (frozenset("b"), b"/tree/a/b"))
        self.assertEqual((cache.get_data("/tree/x", 7), cache.get_children("/tree/x", 8)), (7, 8))
        self.other.set("/tree/a", b"new")
        within(lambda: len(told) == 5)
        known: Any = self.other.exists("/tree/a")
        self.assertEqual(cache.get_data("/tree/a").stat, known._replace(cversion=None, aversion=None))
        self.other.delete("/tree/a", recursive=True)
        within(lambda: len(told) >= 7)
        added, updated, removed, whole = TreeEvent.NODE_ADDED, TreeEvent.NODE_UPDATED, TreeEvent.NODE_REMOVED, TreeEvent.INITIALIZED
        found = [(event.event_type, event.event_data and event.event_data.path) for event in told]
        of_a, of_b = "/tree/a", "/tree/a/b"
        wanted: list[Any] = [(added, "/tree"), (whole, None), (added, of_a), (added, of_b), (updated, of_a)]
        self.assertEqual(found[:5], wanted)
        self.assertEqual([path for kind, path in found if kind == removed], [of_b, of_a])
        for bad in ("/trees", "/"):
            with self.assertRaises(ValueError):
                cache.get_data(bad)
        with self.assertRaises(KazooException):
            cache.start()
        cache.close()
        self.assertIsNone(cache.get_data("/tree"))
        self.assertEqual(faults, [])

    def test_a_tree_lives_through_sessions(self) -> None:
        cache, told = TreeCache(self.one, "/tree"), list[int]()
        cache.listen(lambda event: told.append(event.event_type))
        cache.start()
        within(lambda: TreeEvent.INITIALIZED in told)
        self.one.stop()
        self.other.create("/tree/new")
        self.one.start(WAIT)
        within(lambda: told.count(TreeEvent.INITIALIZED) == 2)
        lost, again = told.index(TreeEvent.CONNECTION_LOST), told.index(TreeEvent.CONNECTION_RECONNECTED)
        self.assertLess(lost, again)
        self.assertIn(TreeEvent.NODE_ADDED, told[again:])
        cache.close()

    def test_a_listener_of_a_tree_that_fails(self) -> None:
        cache, faults = TreeCache(self.one, "/tree"), list[Exception]()
        cache.listen(lambda _: 1 // 0)
        cache.listen_fault(faults.append)
        cache.start()
        within(lambda: len(faults) == 2)
        self.assertIsInstance(faults[0], ZeroDivisionError)
        cache.close()
