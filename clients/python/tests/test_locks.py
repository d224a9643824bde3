"""Tests of how a contender takes a lock by the verdict of the core, of both clients, against the partner."""

from __future__ import annotations

import contextlib
import functools
import itertools
import struct
import threading
import time
import unittest
from typing import Any, Optional
from unittest import mock

from both import AioCase, BothCase, TwoCase, in_thread
from support import GET_DATA, STAT, WAIT, PartnerCase, Peer, reply, within

import dirwolleu
from dirwolleu import (
    Client,
    ConnectionLoss,
    Lock,
    LockLostError,
    LockTimeout,
    MixedNamesError,
    NoNodeError,
    TransactionFailedError,
    ZookeeperError,
)
from dirwolleu._contenders import Contender
from dirwolleu._library import Halted
from dirwolleu._retry import is_passing
from dirwolleu._session import Session
from dirwolleu._steps import Steps
from dirwolleu.security import ACL, ANYONE_ID_UNSAFE, Id, Permissions

CREATE, DELETE, GET_CHILDREN_2 = 1, 2, 12
"""Types of requests."""


class ContendingRules(TwoCase):
    def engine(self, client: Any) -> Any:
        return getattr(client, "_made", client)._engine

    def names(self) -> list[str]:
        return sorted(self.one.get_children("/locks"))

    def taking(self, name: str, client: Any, **named: Any) -> Any:
        """The outcome of a lock that a thread takes."""
        return in_thread(lambda: self.recipe(name, client, "/locks", **named).acquire(3 * WAIT))

    def test_nobody_holds_unless_the_core_says_so(self) -> None:
        with mock.patch.object(self.engine(self.one), "held_by", lambda _: None):
            with self.assertRaises(LockTimeout):
                self.recipe("Lock", self.one, "/locks").acquire(0.15)
        self.assertEqual(self.names(), [])

    def test_a_check_asks_the_core_again(self) -> None:
        held, engine = self.recipe("Lock", self.one, "/locks").acquire(WAIT), self.engine(self.one)
        held_by, asked = engine.held_by, list[Any]()

        def holds(contender: Contender) -> Optional[int]:
            asked.append(contender)
            found: Optional[int] = held_by(contender)
            return found

        with mock.patch.object(engine, "held_by", holds):
            held.check()
        (contender,) = asked
        self.assertEqual((contender.directory, engine.place_of(contender), held_by(contender)), ("/locks", held.path, held.token))
        with mock.patch.object(engine, "held_by", lambda _: held.token + 1):
            with self.assertRaisesRegex(LockLostError, "not known to be there"):
                held.check()
        self.assertFalse(held.is_held)
        held.release()

    def test_what_is_lost_is_not_taken_again(self) -> None:
        """Neither if its node is deleted nor if its data are set: another one takes the lock, before it is released."""
        for lose, words in ((self.other.delete, ()), (self.other.set, (b"set",))):
            held = self.recipe("Lock", self.one, "/locks", keeps_while_suspended=True).acquire(WAIT)
            lose(held.path, *words)
            within(functools.partial(self.is_lost, held))
            within(lambda: self.names() == [])
            later = self.recipe("Lock", self.other, "/locks").acquire(WAIT)
            self.assertGreater(later.token, held.token)
            self.assertFalse(held.is_held)
            held.release()
            later.check()
            later.release()

    def test_a_loss_is_waited_for(self) -> None:
        """The loss of the node, of the connection, and the release."""
        for keeps, lose in ((True, self.delete), (False, self.drop), (True, self.let_go)):
            held = self.recipe("Lock", self.one, "/locks", keeps_while_suspended=keeps).acquire(WAIT)
            self.assertFalse(held.wait_lost(0))
            waits = in_thread(functools.partial(held.wait_lost, 3 * WAIT))
            time.sleep(0.05)
            self.assertTrue(waits.empty())
            lose(held)
            self.assertEqual((waits.get(timeout=WAIT), held.is_held, held.wait_lost()), (True, False, True))
            within(lambda: self.one.connected)
            held.release()

    def delete(self, held: Any) -> None:
        self.other.delete(held.path)

    def drop(self, _: Any) -> None:
        self.server.do("drop")

    def let_go(self, held: Any) -> None:
        held.release()

    def is_lost(self, held: Any) -> bool:
        return not held.is_held

    def halt(self, client: Any) -> None:
        """The core of a client runs out of memory in the step that takes the next bytes, once."""
        received, halted = Session.received, list[int]()

        def receives(session: Session, *words: Any) -> list[Any]:
            if session is self.engine(client)._session and not halted:
                halted.append(1)
                raise Halted
            return received(session, *words)

        with mock.patch.object(Session, "received", receives):
            with contextlib.suppress(ConnectionLoss):
                client.sync("/")
            within(lambda: halted)
        within(lambda: client.connected)

    def test_a_core_without_memory_in_line_goes_on_by_the_same_place(self) -> None:
        with self.recipe("Lock", self.other, "/locks"):
            waits = self.taking("Lock", self.one)
            within(lambda: len(self.other.get_children("/locks")) == 2)
            before = sorted(self.other.get_children("/locks"))
            self.halt(self.one)
            self.other.sync("/")
            self.assertEqual(sorted(self.other.get_children("/locks")), before)
            self.assertTrue(waits.empty())
        held = waits.get(timeout=WAIT)
        self.assertIn(held.path.rpartition("/")[2], before)
        held.release()
        self.assertEqual(self.names(), [])

    def test_a_core_without_memory_holds_no_more(self) -> None:
        held = self.recipe("Lock", self.one, "/locks", keeps_while_suspended=True).acquire(WAIT)
        self.halt(self.one)
        self.assertFalse(held.is_held)
        within(lambda: self.names() == [])
        held.release()

    def test_a_session_that_is_lost_in_line(self) -> None:
        first = self.recipe("Lock", self.one, "/locks").acquire(WAIT)
        waits = self.taking("Lock", self.other)
        within(lambda: len(self.names()) == 2)
        before = set(self.names())
        saved, session = self.other.saved_session, self.other.session_id
        while self.other.session_id == session:  # the client may take it back before it is ended
            thief = dirwolleu.Client(self.server.host, saved=saved)
            self.addCleanup(thief.close)
            thief.start(WAIT)  # takes the session over
            thief.stop()  # and ends it
        within(lambda: len(set(self.names()) - before) == 1)
        self.assertTrue(waits.empty())
        first.release()
        later = waits.get(timeout=WAIT)
        later.check()
        self.assertEqual(self.one.exists(later.path).ephemeral_owner, self.other.session_id)
        self.assertGreater(later.token, first.token)

    def test_a_node_that_is_deleted_in_line_is_made_again(self) -> None:
        first = self.recipe("Lock", self.one, "/locks").acquire(WAIT)
        waits = self.taking("Lock", self.other)
        within(lambda: len(self.names()) == 2)
        (own,) = {f"/locks/{name}" for name in self.names()} - {first.path}
        within(lambda: self.engine(self.other).kept(own))
        self.one.delete(own)
        within(lambda: len(self.names()) == 2)
        self.assertTrue(waits.empty())
        first.release()
        self.assertNotEqual(waits.get(timeout=WAIT).path, own)

    def test_those_that_share_and_those_that_do_not_are_in_one_line(self) -> None:
        """Nodes as those of kazoo, and as those of Curator, before each of ours."""
        for names, shared, alone in (("kazoo", "__rlock__", "__lock__"), ("curator", "-__READ__", "-__WRIT__")):
            with self.subTest(names):
                line = f"a{shared}0000000000", f"b{shared}0000000001", f"c{alone}0000000002", "other"
                self.server.do(f"create {self.root}/locks", *(f"create {self.root}/locks/{name}" for name in line))
                self.check_line(names, *line[:3])
                self.server.do(f"delete {self.root}/locks/other")
                within(lambda: not self.names())
                self.server.do(f"delete {self.root}/locks")

    def check_line(self, names: str, first: str, second: str, third: str) -> None:
        reads = [self.taking("ReadLock", self.one, names=names) for _ in range(2)]
        within(lambda: len(self.names()) == 6)
        writes = self.taking("WriteLock", self.other, names=names)
        within(lambda: len(self.names()) == 7)
        self.server.do(f"delete {self.root}/locks/{first}")
        time.sleep(0.05)
        self.assertTrue(all(one.empty() for one in (*reads, writes)))
        self.server.do(f"delete {self.root}/locks/{third}")
        helds = [one.get(timeout=WAIT) for one in reads]
        self.assertTrue(writes.empty())
        self.server.do(f"delete {self.root}/locks/{second}")
        for held in helds:
            held.check()
            time.sleep(0.02)
            self.assertTrue(writes.empty())
            held.release()
        last = writes.get(timeout=WAIT)
        last.check()
        last.release()

    def test_places_of_other_names_are_told(self) -> None:
        """The one that finds a place of other names before it holds gives up its own."""
        kazoos, curators, latches = "kazoo", "Curator's locks", "Curator's latches"
        for names, others in (
            ("kazoo", {"-lock-": curators, "lock-": curators, "-__WRIT__": curators, "-__READ__": curators, "-latch-": latches}),
            ("curator", {"__lock__": kazoos, "__rlock__": kazoos, "-latch-": latches}),
        ):
            for kind, (other, family) in itertools.product(("Lock", "WriteLock", "ReadLock"), others.items()):
                with self.subTest(f"{kind} of {names} beside {other}"):
                    self.check_meeting(self.recipe(kind, self.one, "/locks", names=names), f"a{other}0000000007", family)

    def check_meeting(self, lock: Any, foreign: str, family: str) -> None:
        self.one.create(f"/locks/{foreign}", makepath=True)
        with self.assertRaises(MixedNamesError) as caught:
            lock.acquire(WAIT)
        words = f"{foreign} is there, by names of {family}: /locks; all contenders of a path use one kind of names"
        self.assertEqual((str(caught.exception), caught.exception.path), (words, "/locks"))
        self.assertEqual(self.names(), [foreign])
        self.one.delete("/locks", recursive=True)

    def test_a_meeting_is_told_though_nobody_is_met_any_more(self) -> None:
        """The one that was met may be gone when the names are read for the words of the error."""
        self.one.create("/locks/a-latch-0000000007", makepath=True)
        lock = self.recipe("Lock", self.one, "/locks")

        def look(_: Any) -> Steps[list[str]]:
            yield from ()
            return []

        with mock.patch("dirwolleu._locks.BaseLock._look_at_names", look):
            with self.assertRaisesRegex(MixedNamesError, "^contenders by another kind of names are there: /locks; all contenders"):
                lock.acquire(WAIT)

    def test_a_place_of_other_names_that_comes_in_line_is_told(self) -> None:
        for names, other in (("kazoo", "-lock-"), ("curator", "__lock__")):
            first = self.recipe("Lock", self.one, "/locks", names=names).acquire(WAIT)
            waits = self.taking("Lock", self.other, names=names)
            within(lambda: len(self.names()) == 2)
            foreign = self.one.create(f"/locks/a{other}", sequence=True)
            first.check()
            first.release()
            self.assertIsInstance(waits.get(timeout=WAIT), MixedNamesError)
            self.assertEqual(self.names(), [foreign.rpartition("/")[2]])
            self.one.delete(foreign)

    def test_what_is_no_contender_is_not_waited_for(self) -> None:
        others = "note-0000000000", "lock_0000000000", "a__lock__000000001", "a-lock-", "a__lock__0000000000.bak"
        for name in others:
            self.one.create(f"/locks/{name}", makepath=True)
        for names in ("kazoo", "curator"):
            held = self.recipe("Lock", self.one, "/locks", names=names).acquire(WAIT)
            held.check()
            held.release()

    def test_contenders_are_those_of_its_own_names(self) -> None:
        for names, line in (
            ("kazoo", ("b__rlock__2000000003", "c__lock__2000000004", "a-latch-0000000001")),
            ("curator", ("b-lock-2000000003", "c-__READ__2000000004", "a-latch-0000000001")),
        ):
            with self.subTest(names):
                held = self.recipe("Lock", self.one, "/locks", identifier="own", names=names).acquire(WAIT)
                for name in line:
                    self.one.create(f"/locks/{name}", name.encode())
                lock = self.recipe("Lock", self.other, "/locks", names=names)
                self.assertEqual(lock.contenders(), ["own", line[0], line[1]])
                held.release()
                self.one.delete("/locks", recursive=True)

    def test_what_a_lock_makes_has_its_acl(self) -> None:
        """Its place, and the nodes at its path and above it that were not there."""
        acl = [ACL(Permissions.ALL, ANYONE_ID_UNSAFE), ACL(Permissions.READ, Id("ip", "10.0.0.1"))]
        kinds: dict[str, dict[str, Any]] = {"Lock": {}, "ReadLock": {"names": "curator"}, "Semaphore": {"max_leases": 2}}
        for name, named in kinds.items():
            held = self.recipe(name, self.one, f"/guarded-{name}/x", acl=acl, **named).acquire(WAIT)
            for path in (held.path, f"/guarded-{name}/x", f"/guarded-{name}"):
                self.assertEqual(self.other.get_acls(path)[0], acl, path)
            held.release()

    def test_an_election_has_one_kind_of_names(self) -> None:
        self.one.create("/leader/a-latch-0000000000", makepath=True)
        election = self.recipe("Election", self.one, "/leader", names="curator")
        with self.assertRaises(MixedNamesError):
            election.run(lambda held: None)
        self.assertEqual(self.one.get_children("/leader"), ["a-latch-0000000000"])

    def test_a_semaphore_is_none_of_other_libraries(self) -> None:
        self.one.create("/curators/leases", makepath=True)
        self.one.create("/kazoos", b"3")
        for path, whose in (("/curators", "Curator"), ("/kazoos", "kazoo")):
            names = self.one.get_children(path)
            with self.assertRaisesRegex(MixedNamesError, f"^the node is that of a semaphore of {whose}: {path}; take another path$"):
                self.recipe("Semaphore", self.one, path, max_leases=3).acquire(WAIT)
            self.assertEqual(self.one.get_children(path), names)

    def test_data_that_are_set_in_line_end_no_wait(self) -> None:
        """The node is read again: it is its place in line that counts."""
        first = self.recipe("Lock", self.one, "/locks").acquire(WAIT)
        waits = self.taking("Lock", self.other)
        within(lambda: len(self.names()) == 2)
        (own,) = {f"/locks/{name}" for name in self.names()} - {first.path}
        self.one.set(own, b"set")
        first.release()
        self.assertEqual(waits.get(timeout=WAIT).path, own)


class ThreadsTest(ContendingRules):
    pass


class AioTest(AioCase, ContendingRules):
    pass


class OutageTest(PartnerCase):
    """Contenders whose connections and sessions end at any time: each write is guarded by the node of its lock, and tokens rise."""

    def work(self, client: Client, is_over: threading.Event, tokens: list[int]) -> None:
        lock = Lock(client, "/locks", keeps_while_suspended=True)
        while not is_over.is_set():
            try:
                with lock as held:
                    held.check()
                    data, stat = client.get("/state")
                    self.assertLessEqual(int(data or b""), held.token)
                    with client.transaction() as transaction:
                        transaction.check(held.path, -1)
                        transaction.set_data("/state", b"%d" % held.token, stat.version)
                    tokens.append(held.token)
            except TransactionFailedError as refused:
                self.assertIsInstance(refused.error, NoNodeError)  # and never another writer's version
            except LockLostError:
                pass
            except ZookeeperError as error:
                self.assertTrue(is_passing(error), error)

    def test_no_two_write_through_outages(self) -> None:
        server, is_over, tokens = self.partner(), threading.Event(), list[int]()
        clients = [Client(server.host, 4.0) for _ in range(4)]
        for client in clients:
            self.addCleanup(client.close)
            self.addCleanup(client.stop)
            client.start(WAIT)
        clients[0].ensure_path("/locks")
        clients[0].create("/state", b"0")
        ends = [in_thread(functools.partial(self.work, client, is_over, tokens)) for client in clients]
        for end in 2 * ["drop", "drop", "expire", "drop", "down", "up", "expire", "drop"]:
            server.do(end)
            time.sleep(0.15)
        within(lambda: len(tokens) > 4)
        is_over.set()
        self.assertEqual([end.get(timeout=6 * WAIT) for end in ends], 4 * [None])
        self.assertGreater(len(tokens), 4)
        within(lambda: not clients[0].retry(clients[0].get_children, "/locks"))  # on a busy machine a release leaves its node for later


class NumberTest(BothCase):
    def test_numbers_that_are_used_up_are_told(self) -> None:
        """After 2,147,483,647 the servers go on with -2147483648."""
        place = list[bytes]()

        def serve(peer: Peer) -> None:
            peer.admit()
            while True:
                asked = peer.take()
                if asked.kind == CREATE:
                    (length,) = struct.unpack_from(">i", asked.body)
                    place[:] = [asked.body[4 : 4 + length] + b"-2147483648"]
                    peer.send(reply(asked, struct.pack(">i", len(place[0])) + place[0]))
                elif asked.kind == GET_DATA:
                    peer.send(reply(asked, struct.pack(">i", 0) + struct.pack(">qqqqiiiqiiq", 5, 5, 0, 0, 0, 0, 0, 7, 0, 0, 5)))
                elif asked.kind == GET_CHILDREN_2:
                    name = place[0].rpartition(b"/")[2]
                    peer.send(reply(asked, struct.pack(">ii", 1, len(name)) + name + STAT))
                else:
                    peer.send(reply(asked))
                    if asked.kind == DELETE:
                        place.clear()

        lock = self.recipe("Lock", self.client(self.raw_server(serve).host), "/locks", names="curator")
        with self.assertRaises(ZookeeperError) as caught:
            lock.acquire(WAIT)
        self.assertEqual(str(caught.exception), "the numbers of nodes below it are used up: /locks; take another path")
        self.assertEqual(place, [])


def load_tests(loader: unittest.TestLoader, *_: Any) -> unittest.TestSuite:
    """The rules are no test by themselves."""
    return unittest.TestSuite(loader.loadTestsFromTestCase(one) for one in (ThreadsTest, AioTest, OutageTest, NumberTest))
