"""Tests of how the thread that polls is woken, and of which functions wait for watches."""

from __future__ import annotations

import functools
import os
import socket
import threading
import time
import unittest
from concurrent.futures import wait
from types import SimpleNamespace
from typing import Any
from unittest import mock

import support

from dirwolleu._library import CHILDREN_SIDE, DATA_SIDE
from dirwolleu._poll import READ, WRITE, Reactor, join
from dirwolleu._process import this_process
from dirwolleu._registry import Watchers
from dirwolleu._requests import Watcher
from dirwolleu._rooms import ROOM, Rooms
from dirwolleu._sockets import MOST_ROOMS, Link
from dirwolleu._waiting import Future, Sleepers


class FutureTest(unittest.TestCase):
    """Futures whose answers have come in a step that has not ended."""

    def setUp(self) -> None:
        self.told = list[Future]()
        self.sleepers = Sleepers()

    def future(self) -> Future:
        def tell(_: object, done: Future) -> bool:
            self.told.append(done)
            return True

        return Future(tell, self.sleepers)

    def test_who_waits_goes_on_at_the_end_of_the_step(self) -> None:
        future = self.future()
        future.set_result(1)
        self.assertFalse(wait([future], 0).done)
        self.sleepers.wake()
        self.assertTrue(wait([future], 0).done)
        self.assertEqual((future.result(0), self.told), (1, []))

    def test_who_looks_finds_what_has_come(self) -> None:
        looked, taken, raised, cancelled, told = (self.future() for _ in range(5))
        for future in (looked, taken, cancelled, told):
            future.set_result(1)
        raised.set_exception(KeyError("a"))
        self.assertEqual((looked.done(), looked.running(), looked.begin()), (True, False, False))
        self.assertEqual((taken.result(0), repr(raised.exception(0)), cancelled.cancel()), (1, "KeyError('a')", False))
        told.add_done_callback(print)
        self.assertEqual(self.told, [told])
        self.sleepers.wake()
        self.assertEqual([future.done() for future in (looked, taken, raised, cancelled, told)], [True] * 5)

    def test_one_with_a_callback_is_told_in_the_order_of_what_comes(self) -> None:
        first, second = self.future(), self.future()
        for future in (second, first):
            future.add_done_callback(print)
        first.set_result(1)
        second.set_exception(KeyError("a"))
        self.assertEqual(self.told, [first, second])

    def test_one_that_was_cancelled_is_left_so(self) -> None:
        future = self.future()
        self.assertTrue(future.cancel())
        future.set_result(1)
        self.sleepers.wake()
        self.assertTrue(future.cancelled())


class LinkTest(unittest.TestCase):
    """The bytes that a connection hands in, and how it ends."""

    def read(self, *counts: object) -> tuple[list[object], int]:
        """What a connection reports after reads that bring these, and how often it reads."""
        told = list[object]()
        driver: Any = SimpleNamespace(bring=lambda piece: told.append(len(piece)), leave=told.append)
        reactor: Any = SimpleNamespace(rooms=Rooms(), leave=mock.Mock())
        link = Link(reactor, mock.Mock(), driver)
        receives = mock.Mock(side_effect=counts)
        link._socket = mock.Mock(recv_into=receives)
        link._ready(READ)
        return told, receives.call_count

    def test_a_room_that_came_full_is_filled_again_at_once(self) -> None:
        self.assertEqual(self.read(ROOM, BlockingIOError()), ([ROOM], 2))
        self.assertEqual(self.read(ROOM, 40_000), ([ROOM, 40_000], 2))
        self.assertEqual(self.read(ROOM, 0), ([ROOM, "the server has closed it"], 2))
        self.assertEqual(self.read(ROOM, ConnectionResetError(104, "reset")), ([ROOM, "[Errno 104] reset"], 2))

    def test_others_have_their_turn_whatever_comes(self) -> None:
        self.assertEqual(self.read(*[ROOM] * 100), ([ROOM] * MOST_ROOMS, MOST_ROOMS))

    def test_a_piece_is_handed_in_at_once(self) -> None:
        for count in (1, 65_536, ROOM - 1):
            self.assertEqual(self.read(count), ([count], 1))

    def test_nothing_is_read_of_a_connection_that_a_piece_has_ended(self) -> None:
        driver: Any = mock.Mock()
        link = Link(SimpleNamespace(rooms=Rooms(), leave=mock.Mock()), mock.Mock(), driver)  # type: ignore[arg-type]
        driver.bring = lambda _: link.close()
        receives = mock.Mock(return_value=ROOM)
        link._socket = mock.Mock(recv_into=receives)
        link._ready(READ)
        self.assertEqual(receives.call_count, 1)


class ReactorTest(unittest.TestCase):
    """A reactor whose turns are made here."""

    def setUp(self) -> None:
        self.taken = list[int]()
        self.reactor = Reactor()
        self.addCleanup(self.reactor.close)
        self.near, self.far = socket.socketpair()
        self.addCleanup(self.near.close)
        self.addCleanup(self.far.close)
        self.near.setblocking(False)

    def post(self, number: int) -> None:
        self.assertTrue(self.reactor.post(lambda: self.taken.append(number)))

    def read(self, _: int) -> None:
        self.taken.append(self.near.recv(1)[0])

    def turn_within(self, longest: float) -> None:
        """One turn, which takes less than this."""
        began = time.monotonic()
        self.reactor._turn()
        self.assertLess(time.monotonic() - began, longest)

    def test_what_is_posted_before_is_done_without_a_wait(self) -> None:
        self.post(1)
        self.turn_within(support.WAIT)
        self.assertEqual(self.taken, [1])

    def test_it_waits_until_a_timer_is_due(self) -> None:
        began = time.monotonic()
        self.reactor.later(self, 0.1, lambda: self.taken.append(1))
        self.turn_within(support.WAIT)
        self.assertGreaterEqual(time.monotonic() - began, 0.1)
        self.assertEqual(self.taken, [1])

    def test_what_is_posted_meanwhile_wakes_it(self) -> None:
        threading.Timer(0.1, self.post, (1,)).start()
        self.turn_within(3 * support.WAIT)
        self.assertEqual(self.taken, [1])

    def test_nothing_is_lost_where_many_post(self) -> None:
        """Each wait ends long before its bound: else a function that was posted has woken nobody."""

        def post(first: int) -> None:
            for number in range(first, first + 5000):
                self.post(number)
                if number % 50 == 0:
                    time.sleep(0.0005)  # so that it also waits

        self.reactor.later(self, 9 * support.WAIT, lambda: None)
        threads = [threading.Thread(target=post, args=(first,)) for first in (0, 5000, 10000)]
        for thread in threads:
            thread.start()
        while len(self.taken) < 15000:
            self.turn_within(3 * support.WAIT)
        for thread in threads:
            thread.join()
        self.assertEqual(sorted(self.taken), list(range(15000)))

    def test_a_member_acts_once_for_all_who_have_asked_before(self) -> None:
        member = SimpleNamespace(asked=lambda: self.taken.append(1))
        hashed = type("Member", (), {"asked": staticmethod(member.asked)})()
        for _ in range(3):
            self.reactor.ask(hashed)
        self.turn_within(support.WAIT)
        self.assertEqual(self.taken, [1])
        self.reactor.ask(hashed)
        self.turn_within(support.WAIT)
        self.assertEqual(self.taken, [1, 1])

    def test_what_has_come_is_read_before_what_is_asked_and_what_is_due(self) -> None:
        self.reactor.watch(self.near.fileno(), READ, self.read)
        self.reactor.later(self, 0, lambda: self.taken.append(9))
        self.post(8)
        self.far.send(bytes([7]))
        self.turn_within(support.WAIT)
        self.assertEqual(self.taken, [7, 8, 9])

    def test_what_a_timer_sets_is_due_after_another_look_at_what_has_come(self) -> None:
        def set_another() -> None:
            self.far.send(bytes([7]))
            self.reactor.later(self, 0, lambda: self.taken.append(9))

        self.reactor.watch(self.near.fileno(), READ, self.read)
        self.reactor.later(self, 0, set_another)
        self.turn_within(support.WAIT)
        self.assertEqual(self.taken, [])
        self.turn_within(support.WAIT)
        self.assertEqual(self.taken, [7, 9])

    def test_what_is_polled_no_more_is_not_read(self) -> None:
        for _ in range(2):
            self.reactor.watch(self.near.fileno(), READ, self.read)
            self.reactor.leave(self.near.fileno())
            self.reactor.leave(self.near.fileno())
        self.far.send(bytes([1]))
        self.post(2)
        self.turn_within(support.WAIT)
        self.assertEqual(self.taken, [2])

    def test_what_is_watched_for_room_to_write(self) -> None:
        found = list[int]()
        self.reactor.watch(self.near.fileno(), READ, found.append)
        self.reactor.watch(self.near.fileno(), READ | WRITE, found.append)
        self.turn_within(support.WAIT)
        self.assertEqual(found, [WRITE])

    def test_timers_that_are_cancelled_or_whose_owner_has_left_are_not_due(self) -> None:
        for owner in (self, self, "other"):
            timer = self.reactor.later(owner, 0, lambda: self.taken.append(1))
        timer.cancel()
        self.reactor.later("other", 0, lambda: self.taken.append(2))
        self.reactor.drop_timers(self)
        self.turn_within(support.WAIT)
        self.assertEqual(self.taken, [2])


class PipeTest(ReactorTest):
    """The same before Python 3.10, which has no eventfd."""

    def setUp(self) -> None:
        without = SimpleNamespace(pipe=os.pipe, set_blocking=os.set_blocking)
        with mock.patch("dirwolleu._poll.os", without):
            super().setUp()
        self.assertIsNot(self.reactor._bell._reads, self.reactor._bell._writes)


class SelectingTest(ReactorTest):
    """The same if threads are not the system's: gevent and eventlet have no epoll."""

    def setUp(self) -> None:
        with mock.patch("dirwolleu._poll.has_system_threads", return_value=False):
            super().setUp()


class JoinTest(unittest.TestCase):
    """The thread that polls has its own beginning and its own end."""

    def test_it_goes_on_for_its_members_and_another_one_begins_after_it(self) -> None:
        begun = list[Reactor]()

        def begin(reactor: Reactor) -> None:
            reactor.members += 1
            begun.append(reactor)

        def leave() -> None:
            begun[0].members -= 1

        for _ in range(2):
            join(begin)
        support.within(lambda: len(begun) == 2)
        self.assertIs(*begun)
        for _ in range(2):
            self.assertTrue(begun[0].post(leave))
        support.within(lambda: begun[0]._is_closed)
        self.assertFalse(begun[0].post(lambda: None))
        self.assertIsNot(join(begin), begun[0])
        support.within(lambda: len(begun) == 3)
        begun[2].post(lambda: setattr(begun[2], "members", 0))

    def test_what_is_posted_while_it_ends_is_done_or_refused(self) -> None:
        for _ in range(300):
            reactor, done = Reactor(), list[int]()
            reactor.post(lambda: None)
            reactor.run()
            taken = [number for number in range(40) if reactor.post(functools.partial(done.append, number))]
            support.within(lambda: reactor._is_closed and reactor._thread)
            support.within(lambda: done == taken)

    def test_many_who_run_it_run_one_thread(self) -> None:
        reactor, threads = Reactor(), set[int]()
        reactor.members = 1
        for _ in range(20):
            reactor.run()
            reactor.post(lambda: threads.add(threading.get_ident()))
        support.within(lambda: not reactor._posted)
        assert reactor._thread is not None
        self.assertEqual(threads, {reactor._thread.ident})
        reactor.post(lambda: setattr(reactor, "members", 0))
        support.within(lambda: reactor._is_closed)


class WatchersTest(unittest.TestCase):
    def test_each_function_waits_once_and_for_its_side(self) -> None:
        watchers = Watchers()

        def one(_: Any) -> None: ...
        def other(_: Any) -> None: ...

        for function in list[Any]((one, one, other, one, print)):
            watchers.add(Watcher("/a", DATA_SIDE, function))
        watchers.add(Watcher("/a", CHILDREN_SIDE, other))
        watchers.add(Watcher("/b", DATA_SIDE, other))
        self.assertEqual((watchers.has("/a"), watchers.has("/c")), (True, False))
        self.assertEqual(
            set(watchers.all()),
            {
                Watcher("/a", DATA_SIDE, one),
                Watcher("/a", DATA_SIDE, other),
                Watcher("/a", DATA_SIDE, print),
                Watcher("/a", CHILDREN_SIDE, other),
                Watcher("/b", DATA_SIDE, other),
            },
        )
        self.assertEqual(list(watchers.take("/a", DATA_SIDE)), [one, other, print])
        self.assertEqual(list(watchers.take("/a", DATA_SIDE)), [])
        self.assertEqual(list(watchers.take("/a", CHILDREN_SIDE)), [other])
        self.assertEqual(list(watchers.take("/b", CHILDREN_SIDE)), [])
        watchers.clear()
        self.assertEqual(watchers.all(), [])


class ProcessTest(unittest.TestCase):
    def test_a_forked_child_is_another_process(self) -> None:
        self.assertEqual(this_process(), os.getpid())
        child = os.fork()
        if child == 0:
            os._exit(0 if this_process() == os.getpid() else 1)
        self.assertEqual(os.waitstatus_to_exitcode(os.waitpid(child, 0)[1]), 0)
