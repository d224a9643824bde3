"""Tests of the event that one thread waits for and another one sets."""

from __future__ import annotations

import signal
import threading
import time
import unittest
from types import FrameType
from typing import Callable, Optional
from unittest import mock

import support  # noqa: F401  # for the place of the package

from dirwolleu import _semaphore
from dirwolleu._semaphore import Semaphore
from dirwolleu._waiting import News, Sleepers, Waiter

LONGEST = 30.0
"""How long anything that a test waits for may take, in seconds."""


def is_within(function: Callable[..., object], frame: Optional[FrameType]) -> bool:
    """Whether a frame is that of a function, or of one that the function has called."""
    while frame is not None and frame.f_code is not function.__code__:
        frame = frame.f_back
    return frame is not None


class SemaphoreTest(unittest.TestCase):
    def test_each_set_ends_one_wait_before_it_or_after(self) -> None:
        semaphore, ended = Semaphore(), threading.Semaphore(0)

        def wait() -> None:
            semaphore.wait(None)
            ended.release()

        semaphore.set()
        semaphore.wait(None)
        threads = [threading.Thread(target=wait, daemon=True) for _ in range(3)]
        for thread in threads:
            thread.start()
        for _ in threads:
            self.assertFalse(ended.acquire(timeout=0.02))
            semaphore.set()
            self.assertTrue(ended.acquire(timeout=LONGEST))

    def test_a_wait_has_a_bound(self) -> None:
        for clock in (_semaphore._wait_by_clock, None):
            with mock.patch.object(_semaphore, "_wait_by_clock", clock):
                begun, semaphore = time.monotonic(), Semaphore()
                semaphore.wait(0.05)
                self.assertGreaterEqual(time.monotonic() - begun, 0.04)
                semaphore.set()
                semaphore.wait(LONGEST)
                self.assertLess(time.monotonic() - begun, LONGEST)


class WaiterTest(unittest.TestCase):
    def setUp(self) -> None:
        self.sleepers = Sleepers()

    def test_an_answer_may_come_before_the_wait_or_in_it(self) -> None:
        waiter = Waiter(self.sleepers)
        waiter.set_result("one")
        self.sleepers.wake()
        self.assertEqual(waiter.result(None), "one")
        waiter = Waiter(self.sleepers)
        waiter.set_exception(KeyError("two"))
        threading.Timer(0.05, self.sleepers.wake).start()
        self.assertRaises(KeyError, waiter.result, LONGEST)

    def test_an_answer_is_had_at_the_end_of_a_turn(self) -> None:
        waiters = [Waiter(self.sleepers) for _ in range(3)]
        for number, waiter in enumerate(waiters):
            self.assertTrue(waiter.begin())
            waiter.set_result(number)
            self.assertTrue(waiter.done())
            self.assertRaises(TimeoutError, waiter.result, 0.01)
        self.sleepers.wake()
        self.assertEqual([waiter.result(None) for waiter in waiters], [0, 1, 2])

    def test_who_was_not_woken_is_woken_by_the_next_one(self) -> None:
        waiters = [Waiter(self.sleepers) for _ in range(3)]
        for waiter in waiters:
            waiter.set_result("one")
        with mock.patch.object(Waiter, "wake", side_effect=KeyboardInterrupt):
            self.assertRaises(KeyboardInterrupt, self.sleepers.wake)
        self.sleepers.wake()
        self.assertEqual([waiter.result(LONGEST) for waiter in waiters], ["one"] * 3)

    def test_several_threads_may_wake_at_once(self) -> None:
        waiters, is_over = [Waiter(self.sleepers) for _ in range(500)], threading.Event()

        def wake() -> None:
            while not is_over.is_set():
                self.sleepers.wake()

        threads = [threading.Thread(target=wake) for _ in range(3)]
        for thread in threads:
            thread.start()
        self.addCleanup(is_over.set)
        for number, waiter in enumerate(waiters):
            waiter.set_result(number)
        self.assertEqual([waiter.result(LONGEST) for waiter in waiters], [*range(500)])
        is_over.set()
        for thread in threads:
            thread.join()

    def test_who_has_waited_leaves_its_semaphore_to_the_next_one(self) -> None:
        for seconds in (0.05, 1.0, 10.0):  # a busy machine begins to wait later
            waiter = Waiter(self.sleepers)
            waiter.set_result("one")
            threading.Timer(seconds, self.sleepers.wake).start()
            self.assertEqual(waiter.result(None), "one")
            others = [Waiter(self.sleepers) for _ in range(2)]
            if others[0]._news is waiter._news:
                break
        self.assertEqual([other._news is waiter._news for other in others], [True, False])
        self.assertRaises(TimeoutError, others[0].result, 0.01)  # it is not set
        others[1].set_result("two")
        self.sleepers.wake()
        self.assertEqual(others[1].result(None), "two")  # without a wait: so it is set, and left to nobody
        self.assertNotIn(Waiter(self.sleepers)._news, [other._news for other in others])

    def test_a_semaphore_that_is_set_too_often_ends_no_wait_before_its_answer(self) -> None:
        waiter = Waiter(self.sleepers)

        def answer() -> None:
            waiter.set_result("one")
            self.sleepers.wake()

        waiter._news.set()
        threading.Timer(0.05, answer).start()
        self.assertEqual(waiter.result(None), "one")

    def test_no_answer_in_time_is_an_error(self) -> None:
        for timeout in (0.0, 0.01):
            self.assertRaises(TimeoutError, Waiter(self.sleepers).result, timeout)

    def test_threads_that_are_not_of_the_system_wait_in_their_own_way(self) -> None:
        class Lock:
            """A lock like gevent's, as far as the code looks at it."""

        self.assertIsInstance(Waiter(self.sleepers)._news, Semaphore)
        with mock.patch("threading.Lock", Lock), mock.patch.object(News, "__init__", lambda _: None):
            self.assertIsInstance(Waiter(self.sleepers)._news, News)

    def test_a_signal_has_its_handler_called_in_a_wait(self) -> None:
        waiter, handled = Waiter(self.sleepers), list[int]()

        def handle(number: int, frame: Optional[FrameType]) -> None:
            if not is_within(Waiter.result, frame):  # on a busy machine it comes before the wait, or after it
                return
            handled.append(number)
            if len(handled) == 2:
                raise InterruptedError

        self.addCleanup(signal.signal, signal.SIGALRM, signal.signal(signal.SIGALRM, handle))
        self.addCleanup(signal.setitimer, signal.ITIMER_REAL, 0)
        for timeout in (None, LONGEST):
            handled.clear()
            signal.setitimer(signal.ITIMER_REAL, 0.02, 0.02)
            self.assertRaises(InterruptedError, waiter.result, timeout)
            signal.setitimer(signal.ITIMER_REAL, 0)
            self.assertEqual(len(handled), 2)
        waiter.set_result("late")
        self.sleepers.wake()
        self.assertEqual(waiter.result(None), "late")
