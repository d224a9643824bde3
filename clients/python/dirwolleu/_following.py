"""How both clients follow a node or its children: which answers they report, and what they do before the next one.

`follow` has the core keep its subject good. A watch that calls a function reads for itself: the core looks at each of its subjects
after each step, and a program may have watches by the thousand.
"""

from __future__ import annotations

import logging
import time
from collections.abc import Iterator
from contextlib import contextmanager
from typing import Any, Callable, Generic, Optional, TypeVar, Union

from dirwolleu import _library as library
from dirwolleu import _requests as requests
from dirwolleu._checks import checked_path
from dirwolleu._engine import Engine, News
from dirwolleu._followed import Followed
from dirwolleu._plans import Plan
from dirwolleu._retry import is_passing
from dirwolleu._steps import Call, Steps, TimeIsOver, Wait, bounded, until_of
from dirwolleu.exceptions import ConnectionClosedError, NoNodeError, ZookeeperError
from dirwolleu.security import AuthFailedError
from dirwolleu.types import Kept, KeptChildren, State

logger = logging.getLogger("dirwolleu")

BETWEEN_REFUSED_READS = 1.0
"""The least number of seconds between a read that brought no good answer and the next one."""

Told = TypeVar("Told", bound=Union[Kept, KeptChildren])


class Subject(Generic[Told]):
    """A side of a path that is followed. It never changes."""

    def __init__(
        self,
        path: str,
        side: int,
        settled: Callable[[], Optional[Told]],
        overtaken: Callable[[], Optional[Told]],
        fields: Callable[[Told], Any],
        read: Callable[[], Plan[Any]],
    ) -> None:
        self.path, self.side = checked_path(path), side
        self.settled = settled
        """The answer, if it is good and whole now, or None."""
        self.overtaken = overtaken
        """The answer that a notice has ended, or None."""
        self.fields = fields
        """The fields by which two answers differ."""
        self.read = read


def data_of(engine: Engine, path: str) -> Subject[Kept]:
    return Subject(
        path,
        library.DATA_SIDE,
        lambda: engine.settled(path),
        lambda: engine.overtaken(path),
        lambda kept: (kept.stat, kept.data),
        lambda: _read(path, requests.get),
    )


def children_of(engine: Engine, path: str) -> Subject[KeptChildren]:
    return Subject(
        path,
        library.CHILDREN_SIDE,
        lambda: engine.settled_children(path),
        lambda: engine.overtaken_children(path),
        lambda kept: (kept.exists, kept.names, kept.pzxid),
        lambda: _read(path, requests.get_children),
    )


def _read(path: str, read: Callable[[str, bool], Any]) -> Plan[None]:
    """Reads the subject, or the absence of its node, with a watch."""
    try:
        yield read(path, True)
    except NoNodeError:
        yield requests.exists(path, True)


class Follower(Generic[Told]):
    """Follows a subject: within `listening`, it gives each answer to report. `news` is set at each news of the subject."""

    def __init__(self, engine: Engine, subject: Subject[Told], news: News, told: Optional[Told] = None) -> None:
        self._engine, self._subject, self._news = engine, subject, news
        self._life = engine.life
        self._told = told
        self._past: Optional[Told] = None
        """The answer that was overtaken before it began to follow."""
        self._trouble = ""
        """The last trouble of the reads that was logged since the last good answer."""

    @contextmanager
    def listening(self) -> Iterator[Callable[[], Steps[Optional[Told]]]]:
        """Yields a function that makes the steps to the next answer: None if the client was stopped.

        An answer that was good when it came is reported, even if a notice has come since.
        """
        subject, wake = self._subject, self._news.set
        self._past = subject.overtaken()
        with self._engine.news(wake, subject.path), self._engine.following(subject.path, subject.side, wake) as followed:
            yield lambda: self._next(followed)

    def _next(self, followed: Followed) -> Steps[Optional[Told]]:
        while self._engine.is_running and self._engine.life == self._life:
            self._news.clear()
            kept = self._subject.settled() or self._overtaken()
            if kept is not None and self._is_another(kept):
                return kept
            refused, followed.refused = followed.refused, None
            if refused is not None:
                self._let_pass(refused)
            yield Wait(None)
        return None

    def _overtaken(self) -> Optional[Told]:
        """An answer that was good when it came, though a notice ended it before anybody looked."""
        kept, past = self._subject.overtaken(), self._past
        return None if kept is None or past is not None and self._subject.fields(kept) == self._subject.fields(past) else kept

    def _let_pass(self, error: BaseException) -> None:
        """Raises an error after which no read brings anything. An unknown one is logged, and the read is asked again."""
        if _is_passing(error):
            return
        if type(error) is not ZookeeperError and not isinstance(error, NoNodeError):
            raise error
        if str(error) != self._trouble:
            self._trouble = str(error)
            logger.warning("a read is refused, and asked again: %s", error)

    def _is_another(self, kept: Told) -> bool:
        """Takes a good answer, and returns whether it differs from the last one reported."""
        told, self._told, self._trouble = self._told, kept, ""
        return told is None or self._subject.fields(kept) != self._subject.fields(told)


def _is_passing(error: BaseException) -> bool:
    """Whether a later read may bring an answer. A client that has ended may have been started again."""
    return isinstance(error, ZookeeperError) and (is_passing(error) or isinstance(error, (ConnectionClosedError, AuthFailedError)))


class Watching(Follower[Told]):
    """A follower that reads for itself, while it is wanted, and gives only answers that are good now."""

    def __init__(
        self, engine: Engine, subject: Subject[Told], news: News, is_wanted: Callable[[], bool], told: Optional[Told] = None
    ) -> None:
        super().__init__(engine, subject, news, told)
        self._is_wanted = is_wanted
        self._read_at: Optional[float] = None

    @contextmanager
    def listening(self) -> Iterator[Callable[[], Steps[Optional[Told]]]]:
        """Yields a function that makes the steps to the next answer: None if the client was stopped, or no answer is wanted."""
        with self._engine.news(self._news.set, self._subject.path):
            yield self._next_good

    def _next_good(self) -> Steps[Optional[Told]]:
        while self._engine.is_running and self._is_wanted():
            self._news.clear()
            kept = self._subject.settled()  # looked up once: an answer to another read right after it is no news
            if kept is None:
                yield from self._read_when_due()
                continue
            self._read_at = None
            if self._is_another(kept):
                return kept
            yield Wait(None)
        return None

    def _read_when_due(self) -> Steps[None]:
        """Reads, but only a second after a read that brought nothing. Without a server it waits for news."""
        if self._engine.state is not State.CONNECTED:
            yield Wait(None)
            return
        now = time.monotonic()
        if self._read_at is not None and now < self._read_at + BETWEEN_REFUSED_READS:
            yield Wait(self._read_at + BETWEEN_REFUSED_READS - now)
            return
        self._read_at = now
        try:
            yield from self._subject.read()
        except ZookeeperError as error:
            self._let_pass(error)


def begun(engine: Engine) -> None:
    if not engine.is_running:
        raise engine.why_over("the client is not started")


def first(
    engine: Engine, subject: Subject[Told], news: News, call: Callable[[Told], Any], is_wanted: Callable[[], bool]
) -> Steps[tuple[Optional[Told], bool]]:
    """Calls a function with the first good answer. Returns that answer and whether the function wants more: no answer if none came
    within the timeout of the session, or the client was stopped.
    """
    with Watching(engine, subject, news, is_wanted).listening() as next_one:
        try:
            kept = yield from bounded(next_one(), until_of(engine.timeout()))
        except TimeIsOver:
            return None, True
        return kept, kept is None or (yield from _called(call, kept)) is not False


def watching(
    engine: Engine,
    subject: Subject[Told],
    news: News,
    call: Callable[[Told], Any],
    is_wanted: Callable[[], bool],
    told: Optional[Told] = None,
) -> Steps[None]:
    """Calls a function with each good answer except `told`, which was reported before, until it returns False. It goes on if the
    client is started again.
    """
    with Watching(engine, subject, news, is_wanted, told).listening() as next_one:
        while is_wanted():
            kept = yield from next_one()
            if kept is not None:
                if is_wanted() and (yield from _called(call, kept)) is False:
                    return
            elif is_wanted():
                yield Wait(None)


def _called(call: Callable[[Told], Any], kept: Told) -> Steps[Any]:
    try:
        return (yield Call(lambda: call(kept)))
    except Exception:
        logger.exception("a callback failed")
        return None
