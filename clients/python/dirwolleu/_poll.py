"""The one thread of a process that keeps all its blocking clients connected: one poll for their connections, one heap for their timers.

No lock is taken. Whoever asks leaves word in a single step of the interpreter, and rings a bell if the thread waits: so it does not matter
where a thread that asks is interrupted. The thread ends after its last client, and the next client starts another.
"""

from __future__ import annotations

import collections
import functools
import heapq
import io
import itertools
import logging
import os
import select
import selectors
import sys
import threading
import time
from typing import Any, Callable, Optional, Protocol

from dirwolleu._process import this_process
from dirwolleu._rooms import Rooms
from dirwolleu._semaphore import has_system_threads
from dirwolleu._waiting import ends_within

logger = logging.getLogger("dirwolleu")

READ, WRITE = 1, 4
"""The events for which a descriptor is polled, as poll and epoll number them."""
PAUSE = 1.0
"""How long the thread rests after a turn that has failed, in seconds, so that one that always fails takes no processor."""
_ONE = (1).to_bytes(8, sys.byteorder)
"""The bytes that ring a bell: an eventfd adds them, and a pipe carries them."""
_MOST_EVENTS = 64
"""How many descriptors one poll reports, at most."""
_EDGE = getattr(select, "EPOLLET", 0)

Function = Callable[[], object]


class Member(Protocol):
    """A client in the thread, which acts once somebody has asked it to."""

    def asked(self) -> None: ...


class _Selecting:
    """A poll by the means that gevent and eventlet leave, with the names of an epoll."""

    def __init__(self) -> None:
        self._selector = selectors.DefaultSelector()

    def register(self, descriptor: int, wanted: int) -> None:
        self._selector.register(descriptor, self._of(wanted))

    def modify(self, descriptor: int, wanted: int) -> None:
        self._selector.modify(descriptor, self._of(wanted))

    def unregister(self, descriptor: int) -> None:
        self._selector.unregister(descriptor)

    def poll(self, timeout: Optional[float], _: int) -> list[tuple[int, int]]:
        found = self._selector.select(timeout)
        return [(key.fd, READ * bool(events & selectors.EVENT_READ) + WRITE * bool(events & selectors.EVENT_WRITE)) for key, events in found]

    def close(self) -> None:
        self._selector.close()

    def _of(self, wanted: int) -> int:
        return selectors.EVENT_READ * bool(wanted & READ) + selectors.EVENT_WRITE * bool(wanted & WRITE)


class Bell:
    """Wakes the thread that polls when another one writes: an eventfd, or before Python 3.10 the ends of a pipe."""

    def __init__(self) -> None:
        if hasattr(os, "eventfd"):
            self._writes = self._reads = io.FileIO(os.eventfd(0), "r+")
        else:
            reads, writes = os.pipe()
            self._reads, self._writes = io.FileIO(reads), io.FileIO(writes, "w")
        for end in (self._reads, self._writes):
            os.set_blocking(end.fileno(), False)

    def fileno(self) -> int:
        return self._reads.fileno()

    def ring(self) -> None:
        try:
            self._writes.write(_ONE)  # it writes nothing if it is full: then it rings already
        except (OSError, ValueError):  # it is closed
            pass

    def still(self) -> None:
        self._reads.read(4096)

    def close(self) -> None:
        self._writes.close()
        self._reads.close()


class Timer:
    """A function that is called at a moment, unless the timer is cancelled. Its owner may take back all that it has."""

    __slots__ = "owner", "function"

    def __init__(self, owner: object, function: Optional[Function]) -> None:
        self.owner, self.function = owner, function

    def cancel(self) -> None:
        self.function = None


class Reactor:
    """Polls, from the first client that joins until the last one has left. `members` counts them, within the thread."""

    def __init__(self) -> None:
        self.rooms = Rooms()
        """The rooms into which connections read."""
        self.members = 0
        self.wakes: list[Function] = []
        """Functions that wake threads whose answers have come. They are called before the next wait, which lets those have the
        interpreter."""
        self._functions: dict[int, Callable[[int], object]] = {}
        self._posted: collections.deque[list[Function]] = collections.deque()
        self._asked: dict[Member, None] = {}
        self._timers: list[tuple[float, int, Timer]] = []
        self._numbers = itertools.count()
        self._waits = self._is_closed = False
        self._thread: Optional[threading.Thread] = None
        self._turns: list[Function] = [self._go_on]
        self._bell = Bell()
        try:
            self._hang_bell()
        except BaseException:
            self._bell.close()
            raise

    def _hang_bell(self) -> None:
        is_edge = _EDGE and hasattr(os, "eventfd") and has_system_threads()
        self._polls: Any = select.epoll() if is_edge else _Selecting()
        if is_edge:  # which is reported once for each ring, and never read
            self._polls.register(self._bell.fileno(), READ | _EDGE)
        else:
            self.watch(self._bell.fileno(), READ, lambda _: self._bell.still())

    # Any thread may call these.

    def post(self, function: Function) -> bool:
        """Calls a function in the thread, after those that were posted before, and returns whether it will: not if the thread has ended."""
        word = [function]
        self._posted.append(word)
        self._ring()
        return not (self._is_closed and _taken(word) is not None)

    def ask(self, member: Member) -> None:
        """Makes a member act, once for all who have asked it before it does."""
        self._asked[member] = None
        self._ring()

    def is_current(self) -> bool:
        return self._thread is threading.current_thread()

    def await_end(self, longest: float) -> None:
        """Waits, up to a bound, until the thread has ended, if it has no member left."""
        until = time.monotonic() + longest
        while self._thread is not None and not self.members and time.monotonic() < until:
            if ends_within(self._thread, 0.01):
                break

    def run(self) -> None:
        """Starts a thread that polls, if none does. It does not matter how many are started: the first one goes on."""
        if self._thread is None:
            threading.Thread(target=self._run, name="dirwolleu", daemon=True).start()

    def _ring(self) -> None:
        if self._waits:
            self._bell.ring()

    # Only the thread calls these.

    def later(self, owner: object, seconds: float, function: Function) -> Timer:
        timer = Timer(owner, function)
        heapq.heappush(self._timers, (time.monotonic() + seconds, next(self._numbers), timer))
        return timer

    def drop_timers(self, owner: object) -> None:
        self._timers = [entry for entry in self._timers if entry[2].owner is not owner]
        heapq.heapify(self._timers)

    def watch(self, descriptor: int, wanted: int, function: Callable[[int], object]) -> None:
        """Calls a function with what a descriptor is ready for. Its connection is read before timers and requests."""
        if descriptor in self._functions:
            self._polls.modify(descriptor, wanted)
        else:
            self._polls.register(descriptor, wanted)
        self._functions[descriptor] = function

    def leave(self, descriptor: int) -> None:
        """Stops polling a descriptor, which must still be open."""
        if self._functions.pop(descriptor, None) is not None:
            self._polls.unregister(descriptor)

    def in_thread(self, function: Callable[[], Any], then: Callable[[Any, Optional[BaseException]], object]) -> None:
        """Calls a function that may wait in a thread of its own, and `then` with the result or the error in this one. If this one has
        ended, the other one calls it.
        """

        def run() -> None:
            try:
                took = functools.partial(then, function(), None)
            except Exception as error:
                took = functools.partial(then, None, error)
            if not self.post(took):
                took()

        threading.Thread(target=run, name="dirwolleu-dial", daemon=True).start()

    def _run(self) -> None:
        go_on = _taken(self._turns)
        if go_on is not None:
            go_on()

    def _go_on(self) -> None:
        self._thread = threading.current_thread()
        try:
            while self.members or not self._is_over():
                try:
                    self._turn()
                except Exception:  # none of its functions raises anything: somebody else has closed a descriptor of its own
                    logger.exception("a turn of the clients has failed")
                    time.sleep(PAUSE)
        finally:
            self._is_closed = True
            self._wake()
            self.close()
            _forget(self)

    def close(self) -> None:
        """Frees the means by which it polls, if no thread does."""
        self._polls.close()
        self._bell.close()

    def _is_over(self) -> bool:
        """Whether it has nobody to serve any more. A function that is posted while it looks is found here, or is taken back."""
        if self.members or self._posted:
            return False
        self._is_closed = True
        if self._posted:
            self._is_closed = False
        return self._is_closed

    def _turn(self) -> None:
        """It reads what has come before it does what was asked, and does that before what is due."""
        if self.wakes:
            self._wake()
        self._waits = True  # before it looks whether something is asked
        left = self._timers[0][0] - time.monotonic() if self._timers else None
        is_due = left is not None and left <= 0
        events = self._polls.poll(0 if is_due or self._asked or self._posted else left, _MOST_EVENTS)
        self._waits = False
        for descriptor, ready in events:
            function = self._functions.get(descriptor)
            if function is not None:
                function(ready)
        if self._asked:
            self._serve_those_who_ask()
        if self._posted:
            self._call_what_was_posted()
        if is_due or not events:  # else it looks in the next turn
            self._call_those_due()

    def _wake(self) -> None:
        while self.wakes:
            self.wakes.pop()()

    def _serve_those_who_ask(self) -> None:
        for _ in range(len(self._asked)):
            self._asked.popitem()[0].asked()

    def _call_what_was_posted(self) -> None:
        for _ in range(len(self._posted)):
            function = _taken(self._posted.popleft())
            if function is not None:
                function()

    def _call_those_due(self) -> None:
        """Calls the timers that are due now. Those that they set are due after another look at what has come."""
        now, due = time.monotonic(), list[Timer]()
        while self._timers and self._timers[0][0] <= now:
            due.append(heapq.heappop(self._timers)[2])
        for timer in due:
            if timer.function is not None:
                timer.function()


def _taken(word: list[Function]) -> Optional[Function]:
    """Takes the only function of a list: only one thread does."""
    try:
        return word.pop()
    except IndexError:
        return None


_reactors: dict[tuple[int, bool], Reactor] = {}
"""The reactors, by their process and by whether its threads are the system's: a forked child has none."""


def _first(key: tuple[int, bool], made: Reactor) -> Reactor:
    """This one, unless another thread was first to make one."""
    reactor = _reactors.setdefault(key, made)
    if reactor is not made:
        made.close()
    return reactor


def _forget(reactor: Reactor) -> None:
    for key, one in list(_reactors.items()):
        if one is reactor:
            _reactors.pop(key, None)


def join(begin: Callable[[Reactor], object]) -> Reactor:
    """Calls a function in the thread that polls, which is started if there is none."""
    key = this_process(), has_system_threads()
    while True:
        reactor = _reactors.get(key) or _first(key, Reactor())
        if reactor.post(functools.partial(begin, reactor)):
            reactor.run()
            return reactor
        _forget(reactor)  # its thread has ended
