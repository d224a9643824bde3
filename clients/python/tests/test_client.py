"""Tests of both clients against the partner."""

from __future__ import annotations

import functools
import queue
import struct
import threading
import time
import unittest
from typing import Any, Optional

from both import AioCase, BothCase, in_thread
from support import CLOSE_SESSION, WAIT, Partner, Peer, reply, within

import dirwolleu
from dirwolleu import (
    BadVersionError,
    ConnectionClosedError,
    ConnectionLoss,
    EventType,
    Kept,
    Mark,
    NoChildrenForEphemeralsError,
    NodeExistsError,
    NoNodeError,
    NotConnectedError,
    NotEmptyError,
    SessionExpiredError,
    State,
    TooLargeError,
    WatchedEvent,
    ZookeeperError,
)


class Following:
    """A follower in a thread of its own."""

    def __init__(self, client: Any, path: str) -> None:
        self._told: queue.Queue[Optional[Kept]] = queue.Queue()
        self._follower = client.follow(path)
        in_thread(self._run)

    def _run(self) -> None:
        for kept in self._follower:
            self._told.put(kept)
        self._told.put(None)

    def next(self) -> Optional[Kept]:
        return self._told.get(timeout=WAIT)


class ClientCase(BothCase):
    def listen(self, client: Any) -> queue.Queue[State]:
        states: queue.Queue[State] = queue.Queue()
        client.add_listener(states.put)
        return states


class CallsRules(ClientCase):
    def test_each_call(self) -> None:
        client = self.client(self.partner().host)
        self.assertEqual(client.create("/a", b"one"), "/a")
        data, stat = client.get("/a")
        self.assertEqual((data, stat.version, stat.data_length, stat.ephemeral_owner), (b"one", 0, 3, 0))
        changed = stat._replace(mzxid=2, mtime=0, version=1, data_length=5)
        self.assertEqual(client.set("/a", b"three", 0)._replace(mtime=0), changed)
        self.assertEqual(client.create("/a/b"), "/a/b")
        found = client.exists("/a")
        assert found is not None
        self.assertEqual((found.num_children, found.pzxid), (1, 3))
        self.assertEqual(client.get_children("/a"), ["b"])
        client.delete("/a/b", 0)
        self.assertIsNone(client.exists("/a/b"))
        self.assertEqual(client.get_children("/a"), [])
        self.assertEqual(client.last_zxid, 4)

    def test_ephemeral_and_sequential_nodes(self) -> None:
        self.await_farewells()
        partner = self.partner()
        client, other = self.client(partner.host), self.client(partner.host)
        self.assertEqual(client.create("/n-", b"", sequence=True), "/n-0000000000")
        self.assertEqual(client.create("/n-", b"", ephemeral=True, sequence=True), "/n-0000000001")
        found = other.exists("/n-0000000001")
        assert found is not None
        self.assertEqual(found.ephemeral_owner, client.session_id)
        client.stop()
        self.assertEqual(other.get_children("/"), ["n-0000000000"])

    def test_null_data_are_not_empty_data(self) -> None:
        client = self.client(self.partner().host)
        client.create("/null", None)
        client.create("/empty", b"")
        self.assertIsNone(client.get("/null")[0])
        self.assertEqual(client.get("/empty")[0], b"")
        client.set("/empty", None)
        self.assertIsNone(client.get("/empty", watch=True)[0])
        kept = client.kept("/empty")
        assert kept is not None
        self.assertEqual((kept.data, kept.has_data, kept.exists), (None, True, True))

    def test_what_a_server_refuses(self) -> None:
        client = self.client(self.partner().host)
        client.create("/a")
        client.create("/a/b", ephemeral=True)
        with self.raises(NoNodeError, -101):
            client.get("/none")
        with self.raises(NoNodeError, -101):
            client.get_children("/none")
        with self.raises(NoNodeError, -101):
            client.create("/none/a")
        with self.raises(NodeExistsError, -110):
            client.create("/a")
        with self.raises(BadVersionError, -103):
            client.set("/a", b"", 7)
        with self.raises(BadVersionError, -103):
            client.delete("/a", 7)
        with self.raises(NotEmptyError, -111):
            client.delete("/a")
        with self.raises(NoChildrenForEphemeralsError, -108):
            client.create("/a/b/c")

    def test_what_is_not_sent(self) -> None:
        client = self.client(self.partner().host)
        with self.raises(TooLargeError, None):
            client.create("/a", bytes(1_048_576))
        with self.raises(ValueError, None):
            client.get("no path")
        with self.raises(ValueError, None):
            client.kept("/a/")
        with self.raises(TypeError, None):
            client.set("/a", "text")
        client.create("/a", bytes(1_000_000))
        self.assertEqual(client.get("/a")[0], bytes(1_000_000))

    def test_pieces_of_one_byte(self) -> None:
        client = self.client(self.partner("--piece", "1").host)
        client.create("/a", b"x" * 5000)
        self.assertEqual(client.get("/a", watch=True)[0], b"x" * 5000)
        client.set("/a", b"y")
        kept = client.kept("/a")
        assert kept is not None
        self.assertEqual((kept.mark, kept.data), (Mark.STALE, b"x" * 5000))


class WatchRules(ClientCase):
    def test_each_watch_is_told_once(self) -> None:
        partner = self.partner()
        partner.do("create /a one")
        client, events = self.client(partner.host), queue.Queue[WatchedEvent]()
        client.get("/a", watch=events.put)
        client.get_children("/a", watch=events.put)
        client.exists("/b", watch=events.put)
        partner.do("set /a two", "set /a three")
        self.assertEqual(events.get(timeout=WAIT), (EventType.CHANGED, State.CONNECTED, "/a"))
        partner.do("create /a/c")
        self.assertEqual(events.get(timeout=WAIT), (EventType.CHILD, State.CONNECTED, "/a"))
        partner.do("create /b")
        self.assertEqual(events.get(timeout=WAIT), (EventType.CREATED, State.CONNECTED, "/b"))
        client.exists("/b", watch=events.put)
        partner.do("set /a four", "delete /b")
        self.assertEqual(events.get(timeout=WAIT), (EventType.DELETED, State.CONNECTED, "/b"))
        self.assertTrue(events.empty())

    def test_a_function_that_is_left_twice_is_called_once(self) -> None:
        partner = self.partner()
        partner.do("create /a one")
        client, events = self.client(partner.host), queue.Queue[WatchedEvent]()
        client.get("/a", watch=events.put)
        client.exists("/a", watch=events.put)
        partner.do("set /a two", "create /b")
        self.assertEqual(events.get(timeout=WAIT).type, EventType.CHANGED)
        client.get("/a", watch=events.put)
        partner.do("delete /a")
        self.assertEqual(events.get(timeout=WAIT).type, EventType.DELETED)
        self.assertTrue(events.empty())

    def test_a_watch_is_left_only_where_there_is_a_node(self) -> None:
        partner = self.partner()
        client, events = self.client(partner.host), queue.Queue[WatchedEvent]()
        with self.assertRaises(NoNodeError):
            client.get("/a", watch=events.put)
        client.exists("/a", watch=events.put)
        partner.do("create /a")
        self.assertEqual(events.get(timeout=WAIT).type, EventType.CREATED)
        self.assertTrue(events.empty())

class KeptRules(ClientCase):
    def kept(self, client: Any, path: str) -> Kept:
        kept: Optional[Kept] = client.kept(path)
        assert kept is not None
        return kept

    def test_an_answer_is_good_until_a_change_is_told(self) -> None:
        partner = self.partner()
        partner.do("create /a one")
        client = self.client(partner.host)
        client.get("/a")
        self.assertIsNone(client.kept("/a"))
        _, stat = client.get("/a", watch=True)
        kept = self.kept(client, "/a")
        self.assertEqual((kept.mark, kept.data, kept.last_zxid), (Mark.GOOD, b"one", 1))
        assert kept.stat is not None
        self.assertEqual((kept.stat.czxid, kept.stat.mzxid, kept.stat.version), (1, 1, 0))
        partner.do("set /a two")
        within(lambda: self.kept(client, "/a").mark is Mark.STALE)
        self.assertEqual(self.kept(client, "/a").data, b"one")
        client.get("/a", watch=True)
        self.assertEqual((self.kept(client, "/a").mark, self.kept(client, "/a").data), (Mark.GOOD, b"two"))

    def test_absence_is_kept(self) -> None:
        partner = self.partner()
        client = self.client(partner.host)
        client.exists("/a", watch=True)
        kept = self.kept(client, "/a")
        self.assertEqual((kept.mark, kept.exists, kept.has_data, kept.stat), (Mark.GOOD, False, False, None))
        partner.do("create /a one")
        within(lambda: self.kept(client, "/a").mark is Mark.STALE)
        client.exists("/a", watch=True)
        kept = self.kept(client, "/a")
        self.assertEqual((kept.mark, kept.exists, kept.has_data, kept.data), (Mark.GOOD, True, False, None))

    def test_children_are_kept(self) -> None:
        partner = self.partner()
        partner.do("create /a", "create /a/c", "create /a/b")
        client = self.client(partner.host)
        self.assertIsNone(client.kept_children("/a"))
        client.get_children("/a", watch=True)
        kept = client.kept_children("/a")
        assert kept is not None
        self.assertEqual((kept.mark, kept.names, kept.pzxid, kept.last_zxid), (Mark.GOOD, ("b", "c"), 3, 3))
        partner.do("delete /a/b")
        within(lambda: (kept := client.kept_children("/a")) and kept.mark is Mark.STALE)
        client.forget_stale()
        self.assertIsNone(client.kept_children("/a"))

    def test_answers_stay_good_over_a_reconnect_that_missed_nothing(self) -> None:
        partner = self.partner()
        partner.do("create /a one", "create /b one")
        client = self.client(partner.host)
        client.get("/a", watch=True)
        client.get("/b", watch=True)
        partner.do("down")
        within(lambda: client.state is State.SUSPENDED)
        self.assertEqual(self.kept(client, "/a").mark, Mark.GOOD)
        partner.do("set /b two", "up")
        within(lambda: self.kept(client, "/b").mark is Mark.STALE)
        self.assertEqual(self.kept(client, "/a").mark, Mark.GOOD)
        partner.do("set /a two")
        within(lambda: self.kept(client, "/a").mark is Mark.STALE)


class FollowRules(ClientCase):
    def test_each_change_is_yielded(self) -> None:
        partner = self.partner()
        client = self.client(partner.host)
        following = Following(client, "/a")
        self.check(following, None)
        self.check_after(partner, following, b"one", "create /a one")
        self.check_after(partner, following, b"two", "set /a two")
        self.check_after(partner, following, b"three", "drop", "set /a three")
        self.check_after(partner, following, None, "delete /a")
        client.stop()
        self.assertIsNone(following.next())

    def test_a_restart_and_an_expiry_are_lived_through(self) -> None:
        partner = self.partner()
        partner.do("create /a one")
        client = self.client(partner.host)
        following = Following(client, "/a")
        self.check(following, b"one")
        self.check_after(partner, following, b"two", "down", "set /a two", "up")
        first = client.session_id
        self.check_after(partner, following, b"three", "expire", "set /a three")
        self.assertNotEqual(client.session_id, first)
        client.close()
        self.assertIsNone(following.next())

    def test_the_last_of_many_changes_is_told(self) -> None:
        partner = self.partner()
        partner.do("create /a 0")
        client = self.client(partner.host)
        follower = client.follow("/a")
        self.assertEqual(next(follower).data, b"0")
        partner.do(*(f"set /a {number}" for number in range(1, 6)))
        within(lambda: (kept := client.kept("/a")) and (kept.mark, kept.data) == (Mark.GOOD, b"5"))
        self.assertEqual(in_thread(lambda: next(follower)).result().data, b"5")
        follower.close()

    def test_a_client_that_is_not_started_follows_nothing(self) -> None:
        client = self.new_client("127.0.0.1:1")
        with self.assertRaises(ConnectionClosedError):
            next(client.follow("/a"))

    def check_after(self, partner: Partner, following: Following, data: Optional[bytes], *commands: str) -> None:
        partner.do(*commands)
        self.check(following, data)

    def check(self, following: Following, data: Optional[bytes]) -> None:
        """The next answer that is reported has these data, or says that there is no node."""
        kept = following.next()
        assert kept is not None
        self.assertEqual((kept.mark, kept.data, kept.exists), (Mark.GOOD, data, data is not None))


class SessionRules(ClientCase):
    is_long = True

    def test_states_are_told(self) -> None:
        partner = self.partner()
        client = self.new_client(partner.host)
        states = self.listen(client)
        self.assertIs(client.state, State.LOST)
        client.start(WAIT)
        self.assertIs(states.get(timeout=WAIT), State.CONNECTED)
        partner.do("drop")
        self.assertIs(states.get(timeout=WAIT), State.SUSPENDED)
        self.assertIs(states.get(timeout=WAIT), State.CONNECTED)
        partner.do("expire")
        self.assertEqual([states.get(timeout=WAIT) for _ in range(3)], [State.SUSPENDED, State.LOST, State.CONNECTED])
        client.stop()
        self.assertIs(states.get(timeout=WAIT), State.LOST)
        client.remove_listener(states.put)
        client.start(WAIT)
        client.stop()
        self.assertTrue(states.empty())

    def test_a_call_whose_connection_ends_is_lost(self) -> None:
        partner = self.partner()
        client = self.client(partner.host)
        partner.do("mute")
        call = in_thread(lambda: client.set("/", b"x"))
        within(lambda: client._engine._sent)
        partner.do("drop")
        with self.raises(ConnectionLoss, -4):
            call.result()

    def test_a_call_waits_for_a_connection(self) -> None:
        partner = self.partner()
        partner.do("create /a one")
        client = self.client(partner.host)
        partner.do("down")
        within(lambda: client.state is State.SUSPENDED)
        call = in_thread(lambda: client.get("/a"))
        within(lambda: client.stats().waiting)
        partner.do("up")
        self.assertEqual(call.result()[0], b"one")

    def test_a_call_waits_for_the_timeout_at_most(self) -> None:
        partner = self.partner()
        client = self.client(partner.host, timeout=0.5)
        partner.do("down")
        within(lambda: client.state is State.SUSPENDED)
        began = time.monotonic()
        with self.raises(NotConnectedError, -4):
            client.get("/a")
        self.assertGreaterEqual(time.monotonic() - began, 0.4)

    def test_a_call_does_not_go_on_to_another_session(self) -> None:
        partner = self.partner()
        client = self.client(partner.host)
        partner.do("down")
        within(lambda: client.state is State.SUSPENDED)
        call = in_thread(lambda: client.get("/"))
        within(lambda: client.stats().waiting)
        partner.do("expire", "up")
        with self.raises(SessionExpiredError, -112):
            call.result()
        within(lambda: client.connected)
        self.assertEqual(client.get_children("/"), [])

    def test_an_expiry_ends_watches_and_ephemeral_nodes(self) -> None:
        partner = self.partner()
        client, events = self.client(partner.host), queue.Queue[WatchedEvent]()
        client.create("/a", ephemeral=True)
        client.get("/a", watch=events.put)
        session, states = client.session_id, self.listen(client)
        partner.do("expire")
        self.assertEqual([states.get(timeout=WAIT) for _ in range(3)], [State.SUSPENDED, State.LOST, State.CONNECTED])
        self.assertEqual(events.get(timeout=WAIT), (EventType.NONE, State.LOST, "/a"))
        self.assertIsNone(client.kept("/a"))
        self.assertNotEqual(client.session_id, session)
        self.assertIsNone(client.exists("/a"))

    def test_a_silent_server_is_left_for_the_next(self) -> None:
        first, second = self.partner(), self.partner()
        second.do("create /a second", "create /b", "create /c")
        client = self.client(f"{first.host},{second.host}", 15.0, randomize_hosts=False)  # silent for ten seconds: a busy one is not
        states = self.listen(client)
        began = time.monotonic()
        first.do("mute")
        self.assertEqual([states.get(timeout=WAIT) for _ in range(3)], [State.SUSPENDED, State.LOST, State.CONNECTED])
        self.assertGreaterEqual(time.monotonic() - began, 0.9)
        self.assertEqual(client.get("/a")[0], b"second")

    def test_a_session_is_put_away_and_taken_up(self) -> None:
        partner = self.partner()
        client = self.new_client(partner.host)
        self.assertIsNone(client.saved_session)
        client.start(WAIT)
        client.create("/a", ephemeral=True)
        client.close()
        self.assertIs(client.state, State.LOST)
        other = self.client(partner.host, saved=client.saved_session)
        self.assertEqual(other.session_id, client.session_id)
        found = other.exists("/a")
        assert found is not None
        self.assertEqual(found.ephemeral_owner, other.session_id)
        self.assertGreaterEqual(other.last_zxid, client.last_zxid)

    def test_a_server_that_is_behind_is_not_read(self) -> None:
        partner, late = self.partner(), self.partner()
        partner.do("create /a one")
        client = self.client(f"{partner.host},{late.host}", randomize_hosts=False)
        client.get("/a", watch=True)
        partner.do("down")
        within(lambda: client.state is State.SUSPENDED)
        saved = client.saved_session
        assert saved is not None
        self.assertEqual(struct.unpack(">q", saved[-8:])[0], client.last_zxid)
        time.sleep(0.5)
        self.assertIs(client.state, State.SUSPENDED)
        late.do("create /a two", "create /b", "create /c")
        within(lambda: client.connected)
        self.assertEqual(client.get("/a")[0], b"two")

    def test_hostile_servers(self) -> None:
        def work(host: str) -> None:
            client = self.client(host, 1.2)
            for _ in range(4):
                try:
                    in_thread(lambda: client.get("/a", watch=True)).result()
                except ZookeeperError:
                    pass

        hosts = [self.partner("--hostile", str(seed)).host for seed in range(6)]
        for seed, end in enumerate([in_thread(functools.partial(work, host)) for host in hosts]):
            with self.subTest(seed=seed):
                end.result(6 * WAIT)

    def test_a_client_begins_and_ends(self) -> None:
        partner = self.partner()
        client = self.new_client(partner.host)
        with self.raises(ConnectionClosedError, None):
            client.get("/")
        client.stop()
        with client:
            first = client.session_id
            client.start()
            self.assertEqual(client.session_id, first)
            client.stop()
            client.start()
            self.assertNotEqual(client.session_id, first)
        client.close()
        with self.raises(ConnectionClosedError, None):
            client.start()
        with self.raises(ConnectionClosedError, None):
            client.get("/")
        self.assertIsNone(client.kept("/"))
        within(lambda: "dirwolleu" not in [thread.name for thread in threading.enumerate()])

    def test_where_no_server_is_start_says_so(self) -> None:
        partner = self.partner()
        partner.do("down")
        client = self.new_client(partner.host, 1.0)
        with self.assertRaises(TimeoutError):
            client.start(0.3)

    def test_a_server_that_answers_nothing(self) -> None:
        partner = self.partner()
        client = self.client(partner.host, 9.0)  # so that the first call is sent, also on a busy machine
        partner.do("mute")
        with self.raises(ConnectionLoss, -4):
            client.set("/", b"x")
        with self.raises(NotConnectedError, -4):
            client.get("/")
        waits = in_thread(lambda: client.get("/"))
        within(lambda: client.stats().waiting)
        partner.do("unmute")
        waits.result()

    def test_a_server_that_never_says_farewell_holds_no_stop(self) -> None:
        def serve(peer: Peer) -> None:
            for asked in peer.requests(2_147_483_647):
                if asked.kind != CLOSE_SESSION:
                    peer.send(reply(asked))

        client = self.client(self.raw_server(serve).host)
        began = time.monotonic()
        client.stop()
        self.assertLess(time.monotonic() - began, WAIT)

    def test_what_no_client_is_made_of(self) -> None:
        for timeout in (0, -1, 3e6):
            with self.assertRaises(ValueError):
                self.new_client("a:1", timeout)
        with self.assertRaises(ValueError):
            self.new_client("a:1", saved=b"none")


class CallsTest(CallsRules):
    def test_calls_of_many_threads(self) -> None:
        client = self.client(self.partner().host)
        client.create("/a", b"one")
        calls = [in_thread(lambda: [client.get("/a")[0] for _ in range(20)]) for _ in range(8)]
        self.assertEqual([call.result() for call in calls], 8 * [20 * [b"one"]])


class WatchTest(WatchRules):
    def test_a_watch_may_call_the_client(self) -> None:
        partner = self.partner()
        partner.do("create /a one")
        client, read = self.client(partner.host), queue.Queue[Optional[bytes]]()
        client.get("/a", watch=lambda event: read.put(client.get(event.path)[0]))
        partner.do("set /a two")
        self.assertEqual(read.get(timeout=WAIT), b"two")

    def test_a_watch_that_fails_leaves_the_others(self) -> None:
        partner = self.partner()
        partner.do("create /a one")
        client, events = self.client(partner.host), queue.Queue[WatchedEvent]()
        client.get("/a", watch=lambda _: [][0])
        client.get("/a", watch=events.put)
        with self.assertLogs("dirwolleu", "ERROR"):
            partner.do("set /a two")
            self.assertEqual(events.get(timeout=WAIT).type, EventType.CHANGED)


class SessionTest(SessionRules):
    def test_a_watch_may_stop_the_client(self) -> None:
        partner = self.partner()
        client = self.client(partner.host)
        stopped = threading.Event()

        def stop(_: WatchedEvent) -> None:
            client.stop()
            stopped.set()

        client.exists("/a", watch=stop)
        partner.do("create /a")
        self.assertTrue(stopped.wait(WAIT))
        self.assertIs(client.state, State.LOST)

    def test_a_client_may_be_stopped_while_it_starts(self) -> None:
        partner = self.partner()
        partner.do("mute")
        client = self.new_client(partner.host)
        starts = in_thread(lambda: client.start(None))
        within(client._threads)
        client.stop()
        with self.raises(ConnectionClosedError, None):
            starts.result()

    def test_each_name_is_there(self) -> None:
        for name in dirwolleu.__all__:
            self.assertTrue(hasattr(dirwolleu, name))


class KeptTest(KeptRules): ...


class FollowTest(FollowRules): ...


class AioCallsTest(AioCase, CallsRules): ...


class AioWatchTest(AioCase, WatchRules): ...


class AioKeptTest(AioCase, KeptRules): ...


class AioFollowTest(AioCase, FollowRules): ...


class AioSessionTest(AioCase, SessionRules): ...


def load_tests(loader: unittest.TestLoader, *_: Any) -> unittest.TestSuite:
    """The rules are no test by themselves."""
    of_threads = CallsTest, WatchTest, KeptTest, FollowTest, SessionTest
    of_asyncio = AioCallsTest, AioWatchTest, AioKeptTest, AioFollowTest, AioSessionTest
    return unittest.TestSuite(loader.loadTestsFromTestCase(one) for one in (*of_threads, *of_asyncio))
