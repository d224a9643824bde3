"""A started client, in the thread that keeps all blocking clients connected, and its own thread for callbacks."""

from __future__ import annotations

import collections
import contextlib
import functools
import logging
from typing import Any, Callable, Optional

from dirwolleu._driver import Driver
from dirwolleu._engine import Engine
from dirwolleu._poll import Reactor, Timer, join
from dirwolleu._process import this_process
from dirwolleu._sockets import Link, link
from dirwolleu._waiting import Callbacks, Fate, News, Sleepers
from dirwolleu.exceptions import ConnectionClosedError

logger = logging.getLogger("dirwolleu")

LONGEST_END = 5.0
"""How long `stop` waits for the thread that polls, in seconds: it acts at once, unless the process is held up."""


class Loop:
    """The work of a client in the thread that polls: each step of the engine, the first and the last.

    `begin` begins the engine. `end` ends it, if nobody has stopped it; `ended` is called when all is over.
    """

    def __init__(
        self,
        driver: Driver,
        sleepers: Sleepers,
        begin: Callable[[], None],
        end: Callable[[], None],
        ended: Callable[[], None],
    ) -> None:
        self._driver, self._sleepers = driver, sleepers
        self._begin, self._end, self._ended = begin, end, ended
        self._fate = Fate()
        self._reactor: Optional[Reactor] = None
        self._waiting: collections.deque[News] = collections.deque()
        """Those who wait for the end."""
        self.is_stopped = self._is_over = False

    # Any thread may call these.

    def start(self) -> None:
        join(self._run)

    def is_over(self) -> bool:
        """Whether it has ended, and does nothing more with the engine; or never begins."""
        return self._is_over or self.never_runs()

    def never_runs(self) -> bool:
        return self._fate.is_sealed()

    def act(self) -> bool:
        """Lets the driver take the requests, and returns whether it does: not if it has ended, or never begins."""
        reactor = self._reactor
        if reactor is None:  # the first step does it, if there is one
            return not self.never_runs()
        reactor.ask(self)
        return not self._is_over

    def later(self, seconds: float, function: Callable[[], object]) -> None:
        """Calls a function after this many seconds, in the thread that polls. If the client ends before, it does not."""
        self.soon(lambda: self.call_later(seconds, function))

    def soon(self, call: Callable[[], object]) -> None:
        """Calls a function as a step of the client, unless it is over by then."""
        if self._reactor is not None:
            self._reactor.post(functools.partial(self._do, call))

    def stop(self, end: Callable[[], None], longest: float = LONGEST_END) -> None:
        """Calls `end`, which ends the engine, and waits for that, up to a bound.

        If the client has ended already, `end` is not called; nor if it has not begun, and then it never begins.
        """
        self.is_stopped = True
        if self._fate.never_begins():
            self._tell_end()
        else:
            self.soon(lambda: self._driver.stop(end))
            self._await_end(longest)

    def _await_end(self, longest: float) -> None:
        if self._reactor is not None and not self._reactor.is_current():
            news = News()
            self._waiting.append(news)
            if self._is_over or news.wait(longest):
                self._reactor.await_end(longest)

    # Only the thread that polls calls these.

    def call_soon(self, function: Callable[..., object], *words: Any) -> None:
        assert self._reactor is not None
        self._reactor.post(functools.partial(self._do, function, *words))

    def call_later(self, seconds: float, function: Callable[..., object], *words: Any) -> Timer:
        assert self._reactor is not None
        return self._reactor.later(self, seconds, functools.partial(self._do, function, *words))

    def dial(self, driver: Driver, place: int) -> Link:
        assert self._reactor is not None
        made = link(self._reactor, self._do, driver, driver.tls)
        self.call_soon(made.dial, place)
        return made

    def asked(self) -> None:
        self._do(self._driver.act)

    def _run(self, reactor: Reactor) -> None:
        """Begins, unless it was stopped before."""
        self._reactor = reactor
        if self._fate.begins():
            reactor.members += 1
            self._do(self._start)

    def _start(self) -> None:
        try:
            self._begin()
        finally:
            self._driver.start(self)

    def _do(self, function: Callable[..., object], *words: Any) -> None:
        """Makes a step of the client, and does what follows from it: a thread whose answer has come goes on after the
        turn.
        """
        if self._is_over:
            return
        try:
            function(*words)
        except BaseException:  # SystemExit too, which would end all clients, not the program
            logger.exception("a step of a client has failed")
        if self._driver.is_over:
            self._finish()
        elif self._sleepers.waiters and self._reactor is not None:
            self._reactor.wakes.append(self._sleepers.wake)

    def _finish(self) -> None:
        assert self._reactor is not None
        try:
            if not self._driver.is_stopped:
                self._driver.stop(self._end)
        except Exception:
            logger.exception("the end of a client has failed")
        self._reactor.drop_timers(self)
        self._close()
        self._is_over = True
        self._reactor.members -= 1
        self._sleepers.wake()
        self._tell_end()

    def _close(self) -> None:
        """The last step before it is over."""

    def _tell_end(self) -> None:
        self._ended()
        for news in list(self._waiting):
            news.set()


class Threads:
    """The threads of a client, from its start to its stop, in one process."""

    def __init__(self, driver: Driver, engine: Engine, sleepers: Sleepers, begun: Callable[[], None]) -> None:
        """`begun` is called once the engine has begun."""
        self._engine, self._begun = engine, begun
        self.loop = Loop(driver, sleepers, self._begin, engine.end, self._ended)
        self.callbacks = Callbacks(self.loop.soon)
        self.have_begun = False
        self.later: dict[str, Optional[Threads]] = {}
        """The next threads of the client, once these are over."""
        self._process = this_process()

    def are_here(self) -> bool:
        """Whether this is the process that they run in. A forked child has none of them."""
        return this_process() == self._process

    def have_come(self) -> bool:
        """Whether they have begun the engine, or never will."""
        return self.have_begun or self.are_over()

    def are_over(self) -> bool:
        """Whether they do nothing more with the engine. A callback may still run."""
        return self.loop.is_over()

    def are_ending(self) -> bool:
        """Whether they were stopped, or end by themselves, as when the session is closed."""
        return self.loop.is_stopped or self.have_begun and not self._engine.is_running

    def start(self) -> None:
        self.loop.start()

    def stop(self, end: Callable[[], None]) -> None:
        """Ends the engine by `end`, if these have begun it, and ends them. Any thread may call it, and again."""
        self.loop.stop(end)
        if self.loop.never_runs():
            self.callbacks.seal()
        self.callbacks.stop()

    def _begin(self) -> None:
        with contextlib.suppress(ConnectionClosedError):  # the client was closed
            self._engine.begin()
        self.have_begun = True
        self._engine.tell_news()
        self._begun()

    def _ended(self) -> None:
        self.callbacks.end()
        self._engine.tell_news()
