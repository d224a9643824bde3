"""Tests of DataWatch, ChildrenWatch, follow_children and fresh, of both clients."""

from __future__ import annotations

import asyncio
import itertools
import queue
import struct
import threading
import time
import unittest
from types import SimpleNamespace
from typing import Any, Callable, Optional

from both import AioCase, Blocking, BothCase, in_thread
from support import GET_DATA, TIMEOUT, WAIT, Asked, Peer, data_reply, notice, reply, within

import dirwolleu
from dirwolleu import KeptChildren, Mark, NoAuthError, State, aio
from dirwolleu import _requests as requests
from dirwolleu._following import Watching
from dirwolleu._steps import Ask, Call, Steps, Wait
from dirwolleu._tasks import Task

SYNC, EXISTS = 9, 3


class WatchRules(BothCase):
    def watch(self, client: Any, name: str, path: str, function: Any) -> Any:
        """A watch by the decorator of the client."""
        own = client._made if isinstance(client, Blocking) else client
        return self.made(lambda: getattr(own, name)(path)(function) and None)

    def next_of(self, told: queue.Queue[Any]) -> Any:
        return told.get(timeout=WAIT)

    def test_data_are_told_with_each_change(self) -> None:
        partner, told = self.partner(), queue.Queue[Any]()
        client = self.client(partner.host)
        self.watch(client, "DataWatch", "/a", lambda data, stat: told.put((data, stat and stat.version)))
        self.assertEqual(self.next_of(told), (None, None))
        partner.do("create /a one")
        self.assertEqual(self.next_of(told), (b"one", 0))
        partner.do("set /a two")
        self.assertEqual(self.next_of(told), (b"two", 1))
        partner.do("down", "set /a three", "up")
        self.assertEqual(self.next_of(told), (b"three", 2))
        partner.do("expire", "set /a four")
        self.assertEqual(self.next_of(told), (b"four", 3))
        partner.do("drop")
        within(lambda: client.stats().connections >= 4 and client.connected)
        partner.do("delete /a")
        self.assertEqual(self.next_of(told), (None, None))

    def test_children_are_told_with_each_change(self) -> None:
        partner, told = self.partner(), queue.Queue[list[str]]()
        client = self.client(partner.host)
        self.watch(client, "ChildrenWatch", "/a", told.put)
        self.assertEqual(self.next_of(told), [])
        partner.do("create /a one")
        self.assertEqual(self.next_of(told), [])
        partner.do("create /a/b x")
        self.assertEqual(self.next_of(told), ["b"])
        partner.do("set /a two", "expire", "create /a/c x")
        self.assertEqual(self.next_of(told), ["b", "c"])
        partner.do("delete /a/b", "delete /a/c", "delete /a")
        within(lambda: self.next_of(told) == [])
        self.assertIsNone(client.exists("/a"))

    def test_a_watch_ends(self) -> None:
        partner, told = self.partner(), queue.Queue[Any]()
        client = self.client(partner.host)

        def once(data: Optional[bytes], _: Any) -> bool:
            told.put(data)
            return data is None

        self.watch(client, "DataWatch", "/a", once)
        watch = self.recipe("DataWatch", client, "/a", lambda data, stat: told.put(data))
        self.assertEqual([self.next_of(told), self.next_of(told)], [None, None])
        partner.do("create /a one")
        self.assertEqual([self.next_of(told), self.next_of(told)], [b"one", b"one"])
        partner.do("set /a two")
        self.assertEqual(self.next_of(told), b"two")
        watch.stop()
        partner.do("set /a three")
        self.assertEqual(client.get("/a")[0], b"three")
        time.sleep(0.05)
        self.assertTrue(told.empty())
        with self.assertRaises(ValueError):
            watch(told.put)
        with self.assertRaises(ValueError):
            self.watch(client, "DataWatch", "no-path", told.put)

    def test_a_function_that_fails_is_logged_and_called_again(self) -> None:
        partner, told = self.partner(), queue.Queue[Any]()
        client = self.client(partner.host)

        def fail(data: Optional[bytes], _: Any) -> None:
            told.put(data)
            raise LookupError("a fault of the program")

        with self.assertLogs("dirwolleu", "ERROR") as logs:
            self.watch(client, "DataWatch", "/a", fail)
            self.assertIsNone(self.next_of(told))
            partner.do("create /a one")
            self.assertEqual(self.next_of(told), b"one")
            within(lambda: len(logs.output) == 2)
        self.assertIn("LookupError: a fault of the program", logs.output[0])

    def test_what_is_refused_ends_a_watch_and_is_logged(self) -> None:
        def serve(peer: Peer) -> None:
            for asked in peer.requests():
                peer.send(reply(asked, code=NoAuthError.code if asked.kind == GET_DATA else 0))

        client, told = self.client(self.raw_server(serve).host), queue.Queue[Any]()
        with self.assertLogs("dirwolleu", "ERROR") as logs:
            self.watch(client, "DataWatch", "/a", lambda *words: told.put(words))
            within(lambda: logs.output)
        self.assertIn("the watch of /a has ended: the node's ACL does not admit this client: /a", logs.output[0])
        self.assertTrue(told.empty())

    def test_what_is_told_is_good_and_never_older(self) -> None:
        """A node that is changed all the time, through cuts: each call has a good answer, with greater and greater zxids."""
        partner, told, bad = self.partner(), list[int](), list[Any]()
        client = self.client(partner.host)
        own = getattr(client, "_made", client)

        def changed(data: Optional[bytes], stat: Any) -> None:
            kept = own.kept("/a")
            if kept is None or kept.stat is None or kept.stat.mzxid < stat.mzxid or told[-1:] > [stat.mzxid]:
                bad.append((kept, stat))
            if self.module() is aio and (kept.mark is not Mark.GOOD or kept.data != data):
                bad.append((kept, data))
            told.append(stat.mzxid)

        partner.do("create /a 0")
        self.watch(client, "DataWatch", "/a", changed)
        for number in range(150):
            partner.do(f"set /a {number}")
            if number % 50 == 25:
                partner.do("drop")
        last = client.retry(client._made.get if isinstance(client, Blocking) else client.get, "/a")[1].mzxid
        within(lambda: told[-1:] == [last])
        self.assertEqual(bad, [])

    def test_an_answer_that_a_notice_overtakes_is_not_told(self) -> None:
        is_calm, overtaken = threading.Event(), list[Asked]()

        def serve(peer: Peer) -> None:
            for asked in peer.requests():
                if asked.kind != GET_DATA:
                    peer.send(reply(asked))
                elif is_calm.is_set():
                    peer.send(data_reply(asked, b"calm"))
                else:
                    peer.send(data_reply(asked, b"overtaken"), notice("/a"))
                    overtaken.append(asked)

        client, told = self.client(self.raw_server(serve).host, 3.0), queue.Queue[Any]()  # its first call may wait that long
        self.watch(client, "DataWatch", "/a", lambda data, _: told.put(data))
        within(lambda: len(overtaken) > 2)
        is_calm.set()
        self.assertEqual(self.next_of(told), b"calm")

    def test_a_watch_may_begin_before_its_client_and_outlives_a_stop(self) -> None:
        partner, told = self.partner(), queue.Queue[Any]()
        client = self.made(lambda: self.module().Client(partner.host, TIMEOUT))
        self.addCleanup(client.close)
        self.addCleanup(client.stop)
        self.watch(client, "DataWatch", "/a", lambda data, _: told.put(data))
        client.start(WAIT)
        self.assertIsNone(self.next_of(told))
        client.stop()
        partner.do("create /a one")
        client.start(WAIT)
        self.assertEqual(self.next_of(told), b"one")

    def test_a_stop_within_a_read_does_not_end_a_watch(self) -> None:
        reads = list[bytes]()

        def serve(peer: Peer) -> None:
            for asked in peer.requests():
                if asked.kind != GET_DATA:
                    peer.send(reply(asked))
                elif len(reads) != 1:
                    peer.send(data_reply(asked, reads and b"two" or b"one"), *([] if reads else [notice("/a")]))
                if asked.kind == GET_DATA:
                    reads.append(b"")

        client, told = self.client(self.raw_server(serve).host), queue.Queue[Any]()
        with self.assertLogs("dirwolleu") as logs:
            in_thread(lambda: self.watch(client, "DataWatch", "/a", lambda data, _: told.put(data)))  # it waits for an answer
            within(lambda: len(reads) == 2)
            client.stop()
            client.start(WAIT)
            within(lambda: self.next_of(told) == b"two")
        self.assertNotIn("ERROR", [record.levelname for record in logs.records])


class FreshRules(BothCase):
    def test_what_is_good_after_it_has_each_write_that_was_answered(self) -> None:
        partner = self.partner()
        one, other = self.client(partner.host), self.client(partner.host)
        one.create("/a", b"0")
        for quorum in (False, True):
            for number in range(20):
                one.get("/a", watch=True)
                written = other.set("/a", b"%d" % number)
                seen = one.fresh(quorum=quorum, timeout=WAIT)
                self.assertGreaterEqual(seen, written.mzxid)
                self.assertGreaterEqual(one.last_zxid, written.mzxid)
                self.assertIs(one.kept("/a").mark, Mark.STALE)

    def test_it_asks_no_more_than_it_needs(self) -> None:
        partner = self.partner()
        client = self.client(partner.host)
        client.exists("/")
        before = client.stats().answered
        client.fresh()
        self.assertEqual(client.stats().answered - before, 1)  # only sync: its zxid was seen already
        partner.do("create /later")
        self.assertEqual(partner_asks(client, True), 1)  # only the transaction

    def test_the_zxid_of_its_answer_is_seen(self) -> None:
        """The answer to sync has a greater zxid than any before, and notices of changes up to it come before it."""
        asked_for = list[int]()

        def serve(peer: Peer) -> None:
            for asked in peer.requests():
                asked_for.append(asked.kind)
                if asked.kind == SYNC:
                    peer.send(notice("/a"), reply(asked, struct.pack(">i", 1) + b"/", zxid=9))
                elif asked.kind == GET_DATA:
                    peer.send(data_reply(asked, b"old", zxid=5))
                else:
                    peer.send(reply(asked))

        client = self.client(self.raw_server(serve).host)
        client.get("/a", watch=True)
        self.assertEqual((client.fresh(), client.last_zxid), (9, 9))
        self.assertEqual((client.kept("/a").mark, client.kept("/a").data), (Mark.STALE, b"old"))
        self.assertEqual(asked_for, [GET_DATA, SYNC])

    def test_a_root_that_is_not_there(self) -> None:
        client = self.client(self.partner().host + "/none")
        client.fresh(quorum=True)
        client.fresh()


def partner_asks(client: Any, quorum: bool) -> int:
    """How many calls `fresh` makes."""
    before: int = client.stats().answered
    client.fresh(quorum=quorum)
    return int(client.stats().answered) - before


class ThreadsWatchTest(WatchRules):
    def test_a_function_is_called_before_its_watch_is_there(self) -> None:
        partner, told, threads = self.partner(), list[Any](), set[int]()
        client = self.client(partner.host)
        partner.do("create /a one", "create /a/b x")

        def hear(*values: Any) -> None:
            told.append(values[0])
            threads.add(threading.get_ident())

        for number in range(50):
            self.watch(client, "DataWatch", "/a", hear)
            self.watch(client, "ChildrenWatch", "/a", hear)
            self.assertEqual(len(told), 2 * number + 2)
        self.assertEqual((told, threads), (50 * [b"one", ["b"]], {threading.get_ident()}))
        partner.do("set /a two")
        within(lambda: len(told) == 150)
        self.assertEqual(told[100:], 50 * [b"two"])

    def test_a_function_that_wants_no_more_at_first_is_called_once(self) -> None:
        partner, told = self.partner(), list[Any]()
        client = self.client(partner.host)

        def hear(data: Optional[bytes], _: Any) -> bool:
            told.append(data)
            return False

        self.watch(client, "DataWatch", "/a", hear)
        partner.do("create /a one")
        within(lambda: client.get("/a")[0] == b"one")
        time.sleep(0.05)
        self.assertEqual(told, [None])

    def test_a_watch_that_is_made_within_one_calls_too(self) -> None:
        partner, told = self.partner(), queue.Queue[Any]()
        client = self.client(partner.host)

        def make(data: Optional[bytes], _: Any) -> None:
            if data is not None:
                client.DataWatch("/b", lambda data, stat: told.put(data))
                told.put(data)

        self.watch(client, "DataWatch", "/a", make)
        partner.do("create /a one")
        self.assertEqual([self.next_of(told), self.next_of(told)], [None, b"one"])

    def test_a_watch_without_a_server_is_there_in_time(self) -> None:
        partner, told = self.partner(), queue.Queue[Any]()
        client = self.client(partner.host, 1.0)
        partner.do("down")
        within(lambda: client.state is not State.CONNECTED)
        self.watch(client, "DataWatch", "/a", lambda data, stat: told.put(data))
        self.assertTrue(told.empty())
        partner.do("up")
        self.assertIsNone(self.next_of(told))


class AioWatchTest(AioCase, WatchRules):
    pass


class ThreadsFreshTest(FreshRules):
    pass


class AioFreshTest(AioCase, FreshRules):
    pass


class FollowChildrenRules(BothCase):
    def test_names_and_absence_are_told(self) -> None:
        partner, told = self.partner(), queue.Queue[KeptChildren]()
        client = self.client(partner.host)

        def collect() -> None:
            for kept in client.follow_children("/a"):
                told.put(kept)

        in_thread(collect)
        kept = told.get(timeout=WAIT)
        self.assertEqual((kept.exists, kept.names, kept.mark), (False, (), Mark.GOOD))
        partner.do("create /a x")
        kept = told.get(timeout=WAIT)
        self.assertEqual((kept.exists, kept.names), (True, ()))
        partner.do("create /a/b x")
        self.assertEqual(told.get(timeout=WAIT).names, ("b",))
        partner.do("set /a y", "create /a/c x")
        self.assertEqual(told.get(timeout=WAIT).names, ("b", "c"))
        partner.do("down", "delete /a/b", "up")
        self.assertEqual(told.get(timeout=WAIT).names, ("c",))
        partner.do("expire", "delete /a/c", "delete /a")
        within(lambda: not told.get(timeout=WAIT).exists)


class FollowChildrenTest(FollowChildrenRules): ...


class AioFollowChildrenTest(AioCase, FollowChildrenRules): ...


class AtOnce:
    """A client whose thread of the callbacks is as fast as can be: it has called each function before `_tell` returns."""

    def _tell(self, function: Callable[[Any], object], argument: Any) -> bool:
        function(argument)
        return True

    def _later(self, seconds: float, function: Callable[[], object]) -> None:
        function()

    def _hand_in(self, request: Any, waiter: Any, timeout: Optional[float] = None) -> None:
        waiter.set_result(request)


class TaskTest(unittest.TestCase):
    def test_no_news_is_lost_where_the_other_thread_is_faster(self) -> None:
        woken = [0]

        def steps(task: Task) -> Steps[None]:
            while True:
                yield Wait(None)
                woken[0] += 1

        task = Task(AtOnce(), steps, lambda *_: None)
        task.start()
        begun = woken[0]
        for number in range(1, 4):
            task.set()
            self.assertEqual(woken[0], begun + number)

    def test_steps_are_done_up_to_their_result_or_error(self) -> None:
        ends: list[Any] = []
        request = requests.exists("/", None)

        def steps(fails: bool) -> Steps[Any]:
            found = [(yield request), (yield Ask(request, 1.0)), (yield Call(lambda: 7)), (yield Wait(0.0))]
            if fails:
                raise LookupError
            return found

        for fails in (False, True):
            Task(AtOnce(), lambda _, fails=fails: steps(fails), lambda *end: ends.append(end)).start()  # type: ignore[misc]
        self.assertEqual(ends[0], ([request, request, 7, None], None))
        self.assertIsInstance(ends[1][1], LookupError)


class LookTest(unittest.TestCase):
    def test_an_answer_that_comes_right_after_a_look_is_told(self) -> None:
        """One read for another watch brings it, which is no news."""
        good: Any = object()
        engine: Any = SimpleNamespace(is_running=True, state=State.CONNECTED, life=0)
        looks = itertools.chain([None], itertools.repeat(good))
        subject: Any = SimpleNamespace(settled=lambda: next(looks), fields=lambda kept: kept, read=lambda: iter([requests.get("/a", True)]))
        steps = Watching(engine, subject, threading.Event(), lambda: True)._next_good()
        with self.assertRaises(StopIteration) as told:
            while not isinstance(steps.send(None), Wait):
                pass
        self.assertIs(told.exception.value, good)


class FutureTest(BothCase):
    """Calls of more than one request, as futures."""

    def test_plans_are_futures(self) -> None:
        client = self.client(self.partner().host)
        self.assertEqual(client.create_async("/a/b/c", b"x", makepath=True).result(WAIT), "/a/b/c")
        client.ensure_path_async("/a/d").result(WAIT)
        self.assertEqual(client.create2_async("/e").result(WAIT).stat, client.exists("/e"))
        client.add_auth_async("digest", "bob:secret").result(WAIT)
        client.delete_async("/a", recursive=True).result(WAIT)
        self.assertEqual(client.fresh_async().result(WAIT), client.last_zxid)
        with self.assertRaises(dirwolleu.NoNodeError):
            client.create_async("/x/y").result(WAIT)
        self.assertEqual(client.get_children("/"), ["e"])

    def test_a_plan_whose_client_stops_ends(self) -> None:
        partner = self.partner()
        client = self.client(partner.host)
        partner.do("mute")
        future = client.ensure_path_async("/a/b")
        client.stop()
        with self.assertRaises(dirwolleu.ConnectionClosedError):
            future.result(WAIT)
        with self.assertRaises(dirwolleu.ConnectionClosedError):
            client.ensure_path_async("/a").result(WAIT)

    def test_calls_of_asyncio_are_handed_in_at_once(self) -> None:
        partner = self.partner()

        async def run() -> None:
            async with aio.Client(partner.host, TIMEOUT) as client:
                futures: list[asyncio.Future[Any]] = [client.create_async("/a", b"x"), client.get_async("/a")]
                self.assertEqual([await one for one in futures], ["/a", (b"x", await client.exists("/a"))])
                await client.create_async("/b/c", makepath=True)
                self.assertEqual(sorted(await client.get_children_async("/")), ["a", "b"])
                await asyncio.gather(client.delete_async("/b", recursive=True), client.set_async("/a", b"y"))
                self.assertEqual(await client.sync_async("/a"), "/a")
                self.assertEqual((await client.exists_async("/b"), (await client.get("/a"))[0]), (None, b"y"))

        asyncio.run(run())


class StateTest(BothCase):
    def test_a_callback_is_not_held_up_by_a_registration(self) -> None:
        """While there is no connection, the thread of the callbacks goes on."""
        partner, told = self.partner(), queue.Queue[Any]()
        client = self.client(partner.host, 9 * WAIT)  # a call that waited for a connection would take that long
        with dirwolleu.Registration(client, "/one", b"x") as registration:
            self.assertTrue(registration.wait(WAIT))
            client.add_listener(told.put)
            partner.do("down", "delete /one")
            self.assertIs(told.get(timeout=WAIT), State.SUSPENDED)
            began = time.monotonic()
            client._tell(told.put, "called")
            self.assertEqual(told.get(timeout=WAIT), "called")
            self.assertLess(time.monotonic() - began, WAIT)
            partner.do("up")
            within(lambda: client.connected and client.retry(client.exists, "/one"))
            self.assertTrue(registration.wait(WAIT))


def load_tests(loader: unittest.TestLoader, *_: Any) -> unittest.TestSuite:
    """The rules are no test by themselves."""
    of_threads = ThreadsWatchTest, ThreadsFreshTest, FollowChildrenTest, FutureTest, StateTest, TaskTest, LookTest
    of_asyncio = AioWatchTest, AioFreshTest, AioFollowChildrenTest
    return unittest.TestSuite(loader.loadTestsFromTestCase(one) for one in (*of_threads, *of_asyncio))
