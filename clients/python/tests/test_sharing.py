"""Tests of shared locks, semaphores, barriers, counters and queues, of both clients, against the partner."""

from __future__ import annotations

import functools
import itertools
import struct
import time
import unittest
from typing import Any, Callable, Optional
from unittest import mock

from both import AioCase, TwoCase, in_thread
from support import GET_DATA, STAT, WAIT, Asked, Peer, buffer, data_reply, reply, within
from test_library import connected
from test_library import reply as answer_to

from dirwolleu import CallTimeoutError, ConnectionLoss, LockLostError, LockTimeout, aio
from dirwolleu import _requests as requests
from dirwolleu import _steps as steps
from dirwolleu import _library as library
from dirwolleu._locks import EXCLUSIVE, READING, WRITING, Kind
from dirwolleu._session import Contends

DELETE, GET_CHILDREN_2 = 2, 12
"""Types of requests."""


class SharingRules(TwoCase):
    def names_below(self, path: str) -> list[str]:
        return sorted(self.one.get_children(path))

    def test_readers_share_and_a_writer_waits_for_all_of_them(self) -> None:
        for names in ("curator", "kazoo"):
            with self.subTest(names):
                self.check_sharing(functools.partial(self.recipe, names=names), f"/{names}")

    def check_sharing(self, recipe: Any, path: str) -> None:
        first = recipe("ReadLock", self.one, path, "first").acquire(WAIT)
        second = recipe("ReadLock", self.other, path, "second").acquire(WAIT)
        writes = in_thread(lambda: recipe("WriteLock", self.one, path, "writer").acquire(3 * WAIT))
        within(lambda: len(self.names_below(path)) == 3)
        with self.assertRaises(LockTimeout):
            recipe("ReadLock", self.other, path, "late").acquire(0)
        with self.assertRaises(LockTimeout):
            recipe("Lock", self.other, path, "late").acquire(0)
        first.release()
        time.sleep(0.05)
        self.assertTrue(writes.empty())
        second.check()
        second.release()
        writer = writes.get(timeout=WAIT)
        self.assertGreater(writer.token, second.token)
        reads = in_thread(lambda: recipe("ReadLock", self.other, path).acquire(3 * WAIT))
        within(lambda: len(self.names_below(path)) == 2)
        self.assertTrue(reads.empty())
        writer.release()
        reads.get(timeout=WAIT).release()
        self.assertEqual(self.names_below(path), [])

    def test_names_that_others_understand(self) -> None:
        for name, names, wanted in (
            ("Lock", "curator", r"_c_[0-9a-f-]{36}-lock-\d{10}"),
            ("WriteLock", "curator", r"_c_[0-9a-f-]{36}-__WRIT__\d{10}"),
            ("ReadLock", "curator", r"_c_[0-9a-f-]{36}-__READ__\d{10}"),
            ("Lock", "kazoo", r"[0-9a-f]{32}__lock__\d{10}"),
            ("ReadLock", "kazoo", r"[0-9a-f]{32}__rlock__\d{10}"),
        ):
            with self.recipe(name, self.one, "/names", names=names) as held:
                self.assertRegex(held.path, f"^/names/{wanted}$")
        for name, wanted in (("Lock", "__lock__"), ("WriteLock", "__lock__"), ("ReadLock", "__rlock__")):
            with self.recipe(name, self.one, "/names") as held:
                self.assertRegex(held.path, rf"^/names/[0-9a-f]{{32}}{wanted}\d{{10}}$")
        self.assertRegex(self.leader(self.recipe("Election", self.one, "/names")), r"^/names/[0-9a-f]{32}__lock__\d{10}$")
        with self.assertRaises(ValueError):
            self.recipe("Lock", self.one, "/names", names="others")

    def leader(self, election: Any) -> str:
        """The node of a candidate that leads."""

        async def lead(held: Any) -> str:
            return str(held.path)

        return str(election.run(lead) if self.module() is aio else election.run(lambda held: held.path))

    def test_a_lock_is_taken_again_after_the_node_of_an_earlier_session(self) -> None:
        """A node of this contender that an expired session has left does not hold."""
        lock = self.recipe("Lock", self.one, "/locks")
        first = in_thread(lambda: self.recipe("Lock", self.other, "/locks").acquire(3 * WAIT))
        held = first.get(timeout=WAIT)
        waits = in_thread(lambda: lock.acquire(3 * WAIT))
        within(lambda: len(self.names_below("/locks")) == 2)
        self.server.do("expire")
        later = waits.get(timeout=3 * WAIT)
        later.check()
        self.assertFalse(held.is_held)
        self.assertEqual(self.one.exists(later.path).ephemeral_owner, self.one.session_id)

    def test_a_semaphore_has_no_more_than_its_leases(self) -> None:
        taken = [self.recipe("Semaphore", self.one, "/leases", name, 2) for name in ("a", "b")]
        first, second = (one.acquire(WAIT) for one in taken)
        third = self.recipe("Semaphore", self.other, "/leases", "c", 2)
        with self.assertRaises(LockTimeout):
            third.acquire(0.2)
        self.assertEqual(sorted(third.lease_holders()), ["a", "b"])
        waits = in_thread(lambda: third.acquire(3 * WAIT))
        within(lambda: len(self.names_below("/leases")) == 3)
        time.sleep(0.05)
        self.assertTrue(waits.empty())
        self.assertEqual((third.lease_holders(), self.one.get("/leases")[0]), (["a", "b"], b"-2"))
        first.check()
        first.release()
        later = waits.get(timeout=WAIT)
        self.assertEqual(sorted(third.lease_holders()), ["b", "c"])
        self.one.delete(later.path)
        within(lambda: not later.is_held)
        with self.assertRaises(LockLostError):
            later.check()
        second.release()
        with self.assertRaisesRegex(ValueError, "^/leases has 2 leases at most, and not 3$"):
            self.recipe("Semaphore", self.one, "/leases", max_leases=3).acquire(WAIT)

    def test_a_lease_goes_with_its_session(self) -> None:
        held = self.recipe("Semaphore", self.one, "/leases").acquire(WAIT)
        waits = in_thread(lambda: self.recipe("Semaphore", self.other, "/leases").acquire(3 * WAIT))
        within(lambda: len(self.names_below("/leases")) == 2)
        self.server.do("expire")
        later = waits.get(timeout=3 * WAIT)
        later.check()
        self.assertFalse(held.is_held)
        self.assertEqual(len(self.names_below("/leases")), 1)

    def test_many_take_leases(self) -> None:
        at_once, most = [0], [0]

        def work(client: Any) -> None:
            semaphore = self.recipe("Semaphore", client, "/leases", max_leases=3)
            for _ in range(3):
                with semaphore:
                    at_once[0] += 1
                    most[0] = max(most[0], at_once[0])
                    time.sleep(0.005)
                    at_once[0] -= 1

        ends = [in_thread(functools.partial(work, client)) for client in 3 * (self.one, self.other)]
        for end in ends:
            self.assertIsNone(end.get(timeout=6 * WAIT))
        self.assertIn(most[0], (1, 2, 3))

    def test_a_barrier(self) -> None:
        barrier = self.recipe("Barrier", self.one, "/barrier")
        self.assertTrue(barrier.wait(0))
        self.assertFalse(barrier.remove())
        barrier.create()
        barrier.create()
        self.assertFalse(barrier.wait(0.05))
        waits = in_thread(lambda: self.recipe("Barrier", self.other, "/barrier").wait())
        time.sleep(0.05)
        self.server.do("drop")
        self.assertTrue(waits.empty())
        self.assertTrue(barrier.remove())
        self.assertTrue(waits.get(timeout=WAIT))

    def test_a_double_barrier(self) -> None:
        clients = self.one, self.other, self.one
        barriers = [self.recipe("DoubleBarrier", client, "/step", 3) for client in clients]
        self.assertFalse(barriers[0].enter(0.05))
        self.assertEqual(self.names_below("/step"), [])
        enters = [in_thread(functools.partial(barrier.enter, 3 * WAIT)) for barrier in barriers[:2]]
        within(lambda: len(self.names_below("/step")) == 2)
        time.sleep(0.05)
        self.assertTrue(all(one.empty() for one in enters))
        self.assertTrue(barriers[2].enter(WAIT))
        self.assertEqual([one.get(timeout=WAIT) for one in enters], [True, True])
        leaves = [in_thread(functools.partial(barrier.leave, 3 * WAIT)) for barrier in barriers[:2]]
        within(lambda: "ready" not in self.names_below("/step"))
        self.assertTrue(all(one.empty() for one in leaves))
        self.assertTrue(barriers[2].leave(WAIT))
        self.assertEqual([one.get(timeout=WAIT) for one in leaves], [True, True])
        self.assertEqual(self.names_below("/step"), [])

    def test_a_member_that_expires_comes_again(self) -> None:
        barriers = [self.recipe("DoubleBarrier", client, "/step", 2) for client in (self.one, self.other)]
        enters = in_thread(lambda: barriers[0].enter(3 * WAIT))
        within(lambda: self.one.exists("/step") and len(self.names_below("/step")) == 1)
        session = self.one.session_id
        self.server.do("expire")
        within(lambda: self.one.session_id != session and self.one.connected)
        within(lambda: self.names_below("/step"))
        self.assertTrue(barriers[1].enter(3 * WAIT))
        self.assertTrue(enters.get(timeout=WAIT))

    def test_a_counter(self) -> None:
        counter = self.recipe("Counter", self.one, "/count")
        self.assertEqual((counter.get(), counter.add(5), counter.add(-2)), (0, 5, 3))
        self.assertEqual(counter.change(lambda number: number * 7), 21)
        self.assertEqual(self.one.get("/count")[0], b"21")
        share = self.recipe("Counter", self.one, "/share", 1.5)
        self.assertEqual((share.add(0.25), self.one.get("/share")[0]), (1.75, b"1.75"))
        self.one.set("/count", b"none")
        with self.assertRaises(ValueError):
            counter.get()

    def test_a_counter_answers_what_its_node_has(self) -> None:
        counter, share = self.recipe("Counter", self.one, "/count", 1), self.recipe("Counter", self.one, "/share", 0.5)
        for own, change, words in (
            (counter, lambda number: number + 1.5, "the counter /count is of int, and 2.5 is none"),
            (counter, lambda number: None, "the counter /count is of int, and None is none"),
            (share, lambda number: "1.5", "the counter /share is of float, and '1.5' is none"),
        ):
            with self.assertRaises(TypeError) as caught:
                own.change(change)
            self.assertEqual(str(caught.exception), words)
        self.assertEqual([self.one.get(path)[0] for path in ("/count", "/share")], [b"", b""])
        told = [counter.add(True), share.add(1), share.change(lambda _: 3)]
        self.assertEqual(list(map(repr, told)), ["2", "1.5", "3.0"])
        self.assertEqual([self.one.get(path)[0] for path in ("/count", "/share")], [b"2", b"3.0"])

    def test_many_change_a_counter(self) -> None:
        def work(client: Any) -> None:
            for _ in range(10):
                self.recipe("Counter", client, "/count").add(1)

        ends = [in_thread(functools.partial(work, client)) for client in 2 * (self.one, self.other)]
        for end in ends:
            self.assertIsNone(end.get(timeout=6 * WAIT))
        self.assertEqual(self.recipe("Counter", self.one, "/count").get(), 40)

    def lossy(self, lost: list[bool]) -> Any:
        """Loses the answer to each next request of the kind, whether it has happened or not."""
        ask = self.engine().ask

        def asked(now: int, request: Any, waiter: Any, timeout: Any = None) -> None:
            if not lost or request not in MADE:
                ask(now, request, waiter, timeout)
                return
            if lost.pop(0):
                ask(now, request, mock.Mock(begin=lambda: True, done=lambda: False))
            error = ConnectionLoss()
            error.path = request.path
            waiter.set_exception(error)

        return mock.patch.object(self.engine(), "ask", asked)

    def engine(self) -> Any:
        return getattr(self.one, "_made", self.one)._engine

    def test_a_change_whose_answer_is_lost_happens_once_or_is_said_to_be_open(self) -> None:
        counter = self.recipe("Counter", self.one, "/count")
        counter.add(1)
        with recorded("set"), self.lossy([False]):
            self.assertEqual(counter.add(1), 2)
        with recorded("set"), self.lossy([True]), self.assertRaises(ConnectionLoss) as caught:
            counter.add(1)
        self.assertTrue(caught.exception.may_have_happened)
        self.assertEqual(counter.get(), 3)

    def test_an_entry_whose_answer_is_lost_is_there_once(self) -> None:
        entries = self.recipe("Queue", self.one, "/queue")
        with recorded("create"), self.lossy([False, False]):
            entries.put(b"one")
        with recorded("create"), self.lossy([True]):
            entries.put(b"two")
        self.assertEqual((len(entries), entries.get(0), entries.get(0), entries.get(0)), (2, b"one", b"two", None))

    def test_a_queue(self) -> None:
        entries = self.recipe("Queue", self.one, "/queue")
        self.assertIsNone(entries.get(0))
        waits = in_thread(lambda: self.recipe("Queue", self.other, "/queue").get(3 * WAIT))
        time.sleep(0.05)
        self.assertTrue(waits.empty())
        path = entries.put(b"one")
        self.assertRegex(path, r"^/queue/entry-100-[0-9a-f]{32}-\d{10}$")
        self.assertEqual(waits.get(timeout=WAIT), b"one")
        for value, priority in ((b"late", 200), (b"first", 0), (b"a", 100), (b"b", 100)):
            entries.put(value, priority)
        self.server.do(f"create {self.root}/queue/entry-100-0000000003 kazoos")
        self.assertEqual([entries.get(0) for _ in range(5)], [b"first", b"kazoos", b"a", b"b", b"late"])
        with self.assertRaises(ValueError):
            entries.put(b"", 1000)

    def queue_of(self, delete: Callable[[Peer, Asked], None], timeout: float = 6.0, granted_ms: Optional[int] = None) -> Any:
        """A queue with one entry, at a server that handles a delete as the test says."""

        def serve(peer: Peer) -> None:
            peer.admit(granted_ms)
            while True:
                asked = peer.take()
                if asked.kind == GET_CHILDREN_2:
                    name = b"entry-100-0000000001"
                    peer.send(reply(asked, struct.pack(">ii", 1, len(name)) + name + STAT))
                elif asked.kind == DELETE:
                    delete(peer, asked)
                else:
                    peer.send(data_reply(asked, b"one") if asked.kind == GET_DATA else reply(asked))

        client = self.client(self.raw_server(serve).host, timeout)
        return self.recipe("Queue", client, "/queue")

    def test_an_entry_whose_delete_is_answered_late_is_given(self) -> None:
        def late(peer: Peer, asked: Asked) -> None:
            time.sleep(0.6)
            peer.send(reply(asked))

        with mock.patch.object(steps, "SHORTEST_ASK", 0.05):
            self.assertEqual(self.queue_of(late).get(0.1), b"one")

    def test_an_entry_whose_delete_has_no_answer_is_told(self) -> None:
        def cut(peer: Peer, _: Asked) -> None:
            peer.reset()

        with self.assertRaises(ConnectionLoss) as caught:
            self.queue_of(cut).get(0)
        error = caught.exception
        self.assertEqual((error.may_have_happened, error.entry, error.path), (True, b"one", "/queue/entry-100-0000000001"))

    def test_an_entry_whose_delete_is_answered_never_is_told(self) -> None:
        """Also if the time for the wait is over before that of the call: a server has granted a longer timeout than that."""
        with mock.patch.object(steps, "SHORTEST_ASK", 0.05), self.assertRaises(CallTimeoutError) as caught:
            self.queue_of(lambda *_: None, 3.0, 60_000).get(1.5)
        error = caught.exception
        self.assertEqual((error.may_have_happened, error.entry, error.path), (True, b"one", "/queue/entry-100-0000000001"))

    def test_many_take_each_entry_once(self) -> None:
        for number in range(20):
            self.recipe("Queue", self.one, "/queue").put(b"%d" % number)
        taken: list[Any] = []

        def work(client: Any) -> None:
            entries = self.recipe("Queue", client, "/queue")
            while len(entries):  # `get` returns None too if the connection was lost
                if (data := entries.get(0)) is not None:
                    taken.append(int(data))

        ends = [in_thread(functools.partial(work, client)) for client in (self.one, self.other)]
        for end in ends:
            self.assertIsNone(end.get(timeout=6 * WAIT))
        self.assertEqual(sorted(taken), list(range(20)))


MADE: list[Any] = []


class recorded:
    """Until the context ends, requests of this name that recipes make are in MADE."""

    def __init__(self, name: str) -> None:
        make = getattr(requests, name)

        def made(path: str, *words: Any) -> Any:
            request = make(path, *words)
            if path.count("/") == 2 or name == "set":
                MADE.append(request)
            return request

        self._patch = mock.patch.object(requests, name, made)

    def __enter__(self) -> None:
        MADE.clear()
        self._patch.start()

    def __exit__(self, *_: Any) -> None:
        self._patch.stop()


class ThreadsTest(SharingRules):
    pass


class AioTest(AioCase, SharingRules):
    pass


KINDS = EXCLUSIVE, READING, WRITING


def marker_of(kind: Kind, names: str) -> str:
    """The text before the number in the names of contenders."""
    if names == "kazoo":
        return "__rlock__" if kind is READING else "__lock__"
    return {EXCLUSIVE: "-lock-", READING: "-__READ__", WRITING: "-__WRIT__"}[kind]


class Contest:
    """A session of the core with a contender whose place is there, of this guid and number."""

    def __init__(self, kind: Kind, names: str, guid: str, number: str) -> None:
        self.session, self._xid = connected(), 0
        begin = f"_c_{guid}" if names == "curator" else guid
        self.name = f"{begin}{marker_of(kind, names)}{number}"
        made = self.session.contend(200, 1, "/l", getattr(kind, f"{names}s"), guid, b"", b"", False)
        self.expect(made, f"/l/{self.name[:-10]}")
        read = self.answer(88, buffer(f"/l/{self.name}".encode()))
        self.expect(read, f"/l/{self.name}")
        owned = struct.pack(">qqqqiiiqiiq", 88, 88, 0, 0, 0, 0, 0, 0x1234, 0, 0, 88)
        self.expect(self.answer(88, buffer(b"") + owned), "/l")

    def expect(self, actions: list[Any], path: str) -> None:
        (send,) = actions
        assert path.encode() in send.frame, actions

    def answer(self, zxid: int, body: bytes) -> list[Any]:
        self._xid += 1
        return self.session.received(300, answer_to(self._xid, zxid, 0, body))

    def listed(self, zxid: int, names: list[str]) -> list[Any]:
        """The output of the core when these are the names in the directory."""
        return self.answer(zxid, struct.pack(">i", len(names)) + b"".join(buffer(name.encode()) for name in names) + STAT)


class OrderTest(unittest.TestCase):
    """Whom a contender waits for, by the core."""

    def expect(self, contest: Contest, names: list[str], rival: Optional[str]) -> None:
        """It reads the rival with a watch, or holds."""
        (said,) = contest.listed(90, names)
        if rival is None:
            self.assertEqual((said, contest.session.held(1)), (Contends(1, library.CONTENDER_HOLDS, 88), 88))
        else:
            self.assertEqual((f"/l/{rival}".encode() in said.frame, contest.session.held(1)), (True, None))

    def test_which_one_is_waited_for(self) -> None:
        """Those that share wait only for those that do not."""
        kinds = EXCLUSIVE, READING, READING, EXCLUSIVE, READING, WRITING
        for names in ("kazoo", "curator"):
            line = [f"{letter}{marker_of(kind, names)}000000000{letter}" for letter, kind in zip("123456", kinds)]
            others = ["7-lock--000000001", "8__lock__-000000001", "other", "note-0000000000"]
            for place, kind, wanted in zip(range(6), kinds, (None, 0, 0, 2, 3, 4)):
                contest = Contest(kind, names, "own", f"000000000{place + 1}")
                listing = [*line[:place], contest.name, *line[place + 1 :], *others]
                self.expect(contest, listing[::-1], None if wanted is None else line[wanted])

    def test_none_holds_beside_other_names(self) -> None:
        """Nobody waits for those of another family: each kind pauses beside each kind of theirs, before it or after."""
        for names, others in (("kazoo", "curator"), ("curator", "kazoo")):
            for kind, other, number in itertools.product(KINDS, KINDS, "13"):
                contest, foreign = Contest(kind, names, "own", "0000000002"), f"a{marker_of(other, others)}000000000{number}"
                (said,) = contest.listed(90, [foreign, contest.name])
                self.assertEqual(said, Contends(1, library.CONTENDER_PAUSES, 0, library.MIXED_NAMES))
                self.assertIsNone(contest.session.held(1))

    def test_a_listing_that_is_older_than_the_node_is_not_believed(self) -> None:
        contest = Contest(EXCLUSIVE, "kazoo", "own", "0000000001")
        (said,) = contest.listed(80, [contest.name])
        self.assertEqual((said.stands, contest.session.held(1)), (library.CONTENDER_PAUSES, None))


def load_tests(loader: unittest.TestLoader, *_: Any) -> unittest.TestSuite:
    """The rules are no test by themselves."""
    return unittest.TestSuite(loader.loadTestsFromTestCase(one) for one in (ThreadsTest, AioTest, OrderTest))
