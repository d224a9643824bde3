"""How threads wait: for an answer, for news, and for the end of another one; and the thread in which a client calls functions."""

from __future__ import annotations

import collections
import concurrent.futures
import contextlib
import logging
import queue
import threading
import time
from typing import Any, Callable, Optional, Union

from dirwolleu import _ending as ending
from dirwolleu._semaphore import Semaphore, has_system_threads

logger = logging.getLogger("dirwolleu")

LONGEST_CALLBACK = 5.0
"""How long `stop` waits for a callback that runs, in seconds."""


class News:
    """An event for one thread that waits. The thread that sets it waits for no lock.

    So it does not matter if a thread that waits is interrupted, and its signal handlers may wait for other events.
    """

    def __init__(self) -> None:
        self._lack = threading.Lock()
        self._lack.acquire()

    def set(self) -> None:
        try:
            self._lack.release()
        except RuntimeError:  # it is set already
            pass

    def clear(self) -> None:
        self._lack.acquire(blocking=False)

    def wait(self, timeout: Optional[float]) -> bool:
        """Waits until it is set, and clears it. Returns whether it was set in time."""
        return self._lack.acquire(timeout=-1 if timeout is None else min(max(timeout, 0), threading.TIMEOUT_MAX))


class Sleepers:
    """The threads whose answers have come in a step of a client. They go on at its end.

    So they meet all that the step had to report, and do not hold up the functions that it calls in the thread of the callbacks.
    """

    def __init__(self) -> None:
        self.waiters: collections.deque[Union[Waiter, Future]] = collections.deque()
        self.add = self.waiters.append
        """Wakes a thread at the end of the step."""
        self._spare: list[Union[Semaphore, News]] = []
        self.keep = self._spare.append
        """Keeps an event that a thread has waited for, and that is not set now, for another wait."""

    def news(self) -> Union[Semaphore, News]:
        """The event for a wait: one that was kept, or a new one."""
        try:
            return self._spare.pop()
        except IndexError:
            return Semaphore() if has_system_threads() else News()

    def wake(self) -> None:
        """Wakes them. Any thread may call it, and it does not matter if that is interrupted: no waiter is forgotten before it goes on."""
        waiters = self.waiters
        while waiters:
            try:
                waiter = waiters[0]
                waiter.wake()
                waiters.remove(waiter)
            except (IndexError, ValueError):  # another thread was first
                pass


class Waiter:
    """One thread that waits for an answer. The thread that answers waits for no lock."""

    __slots__ = "_sleepers", "_news", "_answer", "_is_given_up", "_is_awake"

    def __init__(self, sleepers: Sleepers) -> None:
        self._sleepers, self._news = sleepers, sleepers.news()
        self._answer: Optional[tuple[Any, Optional[BaseException]]] = None
        self._is_given_up = self._is_awake = False

    def begin(self) -> bool:
        return not self._is_given_up and self._answer is None

    def cancel(self) -> None:
        """Waits no longer. A request that was not handed over yet is not sent."""
        self._is_given_up = True

    def done(self) -> bool:
        return self._is_given_up or self._answer is not None

    def set_result(self, result: Any) -> None:
        self._answer = result, None
        self._sleepers.add(self)

    def set_exception(self, error: BaseException) -> None:
        self._answer = None, error
        self._sleepers.add(self)

    def wake(self) -> None:
        """Wakes the thread, which has its answer."""
        self._is_awake = True
        self._news.set()

    def result(self, timeout: Optional[float]) -> Any:
        until = None if timeout is None else time.monotonic() + timeout
        news, was_set = self._news, False
        while not self._is_awake:
            left = None if until is None else until - time.monotonic()
            if left is not None and left <= 0:
                raise TimeoutError
            was_set = news.wait(left)
        if was_set:  # so it is clear again: one that `wake` has still to set would end the next wait too early, once
            self._sleepers.keep(news)
        assert self._answer is not None
        result, error = self._answer
        if error is not None:
            raise error
        return result


class Future(concurrent.futures.Future[Any]):
    """The future that a call whose name ends in `_async` returns. Its `cancel` returns true only if the call is not handed over, and is
    not sent.

    Its callbacks run where those of watches do, so that they may call the client.
    """

    def __init__(self, tell: Callable[[Callable[[Any], object], Any], bool], sleepers: Optional[Sleepers] = None) -> None:
        """Whoever looks at it finds the answer as soon as it has come. Whoever waits for it goes on by `sleepers`, at the end of the
        step.
        """
        super().__init__()
        self._tell, self._sleepers = tell, sleepers
        self._is_begun = False
        self._came: Optional[tuple[Any, Optional[BaseException]]] = None

    def begin(self) -> bool:
        if not self._is_begun and not self.done():
            self._is_begun = self.set_running_or_notify_cancel()
            return self._is_begun
        return self.running()

    def set_result(self, result: Any) -> None:
        self._settle(result, None)

    def set_exception(self, error: Optional[BaseException]) -> None:
        self._settle(None, error)

    def _settle(self, result: Any, error: Optional[BaseException]) -> None:
        self._came = result, error
        if self._sleepers is None:
            self.wake()
        else:
            self._sleepers.add(self)

    def wake(self) -> None:
        """Takes the answer that has come, and wakes those who wait for it."""
        if self._came is not None and not super().done():
            result, error = self._came
            with contextlib.suppress(concurrent.futures.InvalidStateError):  # another thread was first
                if error is None:
                    super().set_result(result)
                else:
                    super().set_exception(error)

    def done(self) -> bool:
        return self._came is not None or super().done()

    def running(self) -> bool:
        return self._came is None and super().running()

    def cancel(self) -> bool:
        self.wake()
        return super().cancel()

    def result(self, timeout: Optional[float] = None) -> Any:
        self.wake()
        with ending.resting():
            return super().result(timeout)

    def exception(self, timeout: Optional[float] = None) -> Optional[BaseException]:
        self.wake()
        return super().exception(timeout)

    def add_done_callback(self, function: Callable[[Any], object]) -> None:
        def tell(done: Any) -> None:
            if not self._tell(function, done):
                function(done)

        self._sleepers = None  # so that the function is called in the order of events
        self.wake()
        super().add_done_callback(tell)


def ends_within(thread: threading.Thread, longest: float) -> bool:
    """Waits for the end of a thread, and returns whether it came in time. It does not wait for one that has not begun, nor for the
    current one.

    While a thread starts, it has an `ident` before it may be joined; it may be joined once it is alive.
    """
    if thread is threading.current_thread():
        return True
    try:
        if thread.is_alive():
            thread.join(longest)
        return not thread.is_alive()
    except AssertionError:  # it has ended, and CPython 3.11 trips if two threads see that at one moment
        return True


class Fate:
    """Whether a thread runs, or was stopped before it began: the thread and whoever stops it may ask at the same time.

    The first one to ask decides, and all later answers are the same.
    """

    def __init__(self) -> None:
        self._decided: dict[str, bool] = {}  # a dict's functions are single steps of the interpreter: no lock

    def begins(self) -> bool:
        """The thread asks this, before all else."""
        return self._decided.setdefault("runs", True)

    def never_begins(self) -> bool:
        """Whoever stops the thread asks this."""
        return not self._decided.setdefault("runs", False)

    def is_sealed(self) -> bool:
        """Whether it was stopped before it began."""
        return not self._decided.get("runs", True)


class _Told:
    """A function to call, by the first one who takes it."""

    __slots__ = "function", "argument", "_turns"

    def __init__(self, function: Callable[[Any], object], argument: Any) -> None:
        self.function, self.argument, self._turns = function, argument, [None]

    def take(self) -> bool:
        try:
            self._turns.pop()
        except IndexError:
            return False
        return True


class Callbacks(threading.Thread):
    """The thread that calls a program's functions, one after the other, so that these may use the client.

    It starts with the first of them, by `soon`: in a thread that no signal interrupts.
    """

    def __init__(self, soon: Callable[[Callable[[], object]], object]) -> None:
        super().__init__(name="dirwolleu-callbacks", daemon=True)
        self._soon = soon
        self._queue: queue.SimpleQueue[Optional[_Told]] = queue.SimpleQueue()
        self._fate = Fate()
        self._turns = [None]
        """The turn to start it, which one of those takes who see that it has not begun: two threads can't call `Thread.start` at once."""
        self._is_begun = self._has_ended = self._is_left = False

    def tell(self, function: Callable[[Any], object], argument: Any) -> bool:
        """Calls a function in the thread, and returns whether it will: not if the thread has ended."""
        told = _Told(function, argument)
        self._queue.put(told)
        if not self._is_begun:
            self._soon(self._begin)
        return not (self._has_ended and told.take())

    def end(self) -> None:
        """Ends after the functions that it has got before. It waits for nothing."""
        if not self._is_begun:
            self._has_ended = True  # before it looks into the queue
            if self._queue.empty():
                return
            self._begin()
        self._queue.put(None)

    def _begin(self) -> None:
        """Begins, if it has not, and nobody starts it. The functions stay in the queue if no thread can be started now."""
        if self._is_begun:
            return
        try:
            self._turns.pop()
        except IndexError:
            return
        try:
            self.start()
        except RuntimeError as error:
            self._turns.append(None)
            if self.ident is None and not ending.has_come():
                logger.error("no callback is called: %s", error)

    def start(self) -> None:
        super().start()
        self._is_begun = True

    def seal(self) -> None:
        """Never begins, if it has not begun: the functions that it has got are called here."""
        if self._fate.never_begins():
            self._call_the_rest()

    def stop(self) -> None:
        """Ends after the functions that it has got before, and waits for that, up to a bound."""
        self.end()
        if not self._is_left and not ends_within(self, LONGEST_CALLBACK):
            self._is_left = True
            logger.warning("a callback has not returned in %s seconds: it is left to itself", LONGEST_CALLBACK)

    def run(self) -> None:
        if self._fate.begins():
            while (told := self._queue.get()) is not None:
                self._call(told)
            self._call_the_rest()

    def _call_the_rest(self) -> None:
        """Takes no more functions. Those that it has got up to now are still called."""
        self._has_ended = True
        with contextlib.suppress(queue.Empty):
            while True:
                told = self._queue.get_nowait()
                if told is not None:
                    self._call(told)

    def _call(self, told: _Told) -> None:
        if not told.take():
            return
        try:
            told.function(told.argument)
        except BaseException:  # SystemExit too, which would end the callbacks, not the program
            logger.exception("a callback failed")
