"""How both kinds of clients take and release a lock: what they ask of the core, and what they wait for.

A lock hands the core a contender, by the names of kazoo or of Curator, and the core does the rest: see `_contenders`.
"""

from __future__ import annotations

import contextlib
import logging
import math
import time
from collections.abc import Sequence
from typing import TYPE_CHECKING, Any, Callable, Generic, NamedTuple, Optional, TypeVar

from dirwolleu import _library as library
from dirwolleu import _plans as plans
from dirwolleu import _requests as requests
from dirwolleu._checks import checked_path, checked_text
from dirwolleu._clock import moment
from dirwolleu._contenders import Contender
from dirwolleu._engine import Engine
from dirwolleu._plans import Acls, Plan
from dirwolleu._retry import is_lived_through
from dirwolleu._steps import SHORTEST_ASK, Ask, GetNews, Result, Steps, TimeIsOver, Wait, left_of, run, until_of
from dirwolleu.exceptions import (
    CallTimeoutError,
    ConnectionLoss,
    LockLostError,
    LockTimeout,
    MixedNamesError,
    NoNodeError,
    ZookeeperError,
)
from dirwolleu.types import State

if TYPE_CHECKING:
    from dirwolleu._shown import Shown

logger = logging.getLogger("dirwolleu.connection")

BETWEEN_TRIES = 0.1
"""How long a recipe waits before it repeats a request that a connection has lost, in seconds."""

KAZOO, CURATOR, LATCHES, LEASES = "kazoo", "curator", "latches", "leases"
"""The kinds of names that contenders may have; and those of Curator's latches, and of leases."""


_MARKERS = {KAZOO: ("__lock__", "__rlock__"), CURATOR: ("lock-", "__WRIT__", "__READ__"), LATCHES: ("latch-",), LEASES: ("__lease__",)}
"""The text before the numbers of contenders, for people who look at the names: the core reads these, and says in which order they are."""
_FAMILIES = {KAZOO: "kazoo", CURATOR: "Curator's locks", LATCHES: "Curator's latches"}
"""The kinds of names that exclude one another, in words."""


def checked_names(names: str) -> str:
    """Raises `ValueError` if there is no such kind of names."""
    if names not in (KAZOO, CURATOR):
        raise ValueError(f"names are those of kazoo or of curator, and not of {names}")
    return names


class Kind(NamedTuple):
    """The naming of contenders, by kazoo's names and by Curator's."""

    kazoos: int
    curators: int

    def contender(self, path: str, names: str, data: bytes, acl: Acls, on_lost: Callable[[Any], object]) -> Contender:
        """A contender for the lock of this path."""
        tag = plans.new_tag()
        naming, guid = (self.curators, str(tag)) if names == CURATOR else (self.kazoos, tag.hex)
        return Contender(path, naming, guid, data, acl, on_lost)


EXCLUSIVE = Kind(library.KAZOO, library.CURATOR_LOCK)
WRITING = Kind(library.KAZOO, library.CURATOR_WRITER)
READING = Kind(library.KAZOO_READER, library.CURATOR_READER)


def in_line(engine: Engine, path: str, names: Sequence[str], whose: str = KAZOO) -> list[str]:
    """The names of the contenders at a path, the one with the least number in front. It is for people: the core decides who holds."""
    return engine.in_line(path, names, _MARKERS[whose])


def mixed_names(engine: Engine, path: str, names: Sequence[str], whose: str) -> MixedNamesError:
    """The error that says who was met beside contenders of these names, as far as the names at the path still show it: the core has
    decided.
    """
    error = MixedNamesError()
    for family, words in _FAMILIES.items():
        markers = _MARKERS[family]
        met = [] if family == whose else engine.in_line(path, names, (*markers, *(f"{marker}-" for marker in markers)))  # of numbers below 0
        if met:
            error = MixedNamesError(f"{met[0]} is there, by names of {words}", error._advice)
            break
    error.path = path
    return error


class Taken(NamedTuple):
    """A lock that was taken: the path of the node, its token, the guid by which to listen for news of it, a function that gives the token
    again for as long as the core shows it, and one that releases it.
    """

    path: str
    token: int
    guid: str
    shown: Callable[[], Optional[int]]
    leave: Callable[[], Steps[None]]


class TurnIsNotYet(TimeIsOver):
    """A contender does not hold by its moment. `waits` says whether another one is known to be before it."""

    def __init__(self, waits: bool) -> None:
        super().__init__()
        self.waits = waits


def contend(client: Shown, contender: Contender, until: Optional[float], least: float = SHORTEST_ASK) -> Steps[Optional[Taken]]:
    """Adds a contender, and waits until it holds. None if the lock was lost again before that was noticed here. If the wait ends before,
    the contender is given up, and leaves no place.

    The core has `least` seconds at least to say for the first time how it stands.
    """
    engine, news = client._engine, (yield GetNews())
    with engine.news(news.set, contender.guid):
        try:
            return (yield from _held(client, contender, until, time.monotonic() + least))
        except GeneratorExit:
            engine.give_up(contender)
            raise
        except BaseException:
            with contextlib.suppress(ZookeeperError):  # the core goes on with it
                yield from leave(client, contender)
            raise


def _held(client: Shown, contender: Contender, until: Optional[float], told_by: float) -> Steps[Optional[Taken]]:
    engine, life = client._engine, client._engine.life
    engine.contend(contender)
    client._act()
    while engine.is_running and engine.life == life and not contender.is_lost:
        if contender.refused is not None:
            raise contender.refused
        waits, token, path = contender.told == library.CONTENDER_WAITS, engine.held_by(contender), engine.place_of(contender)
        if token is not None and path is not None and engine.held_by(contender) == token:
            return Taken(path, token, contender.guid, lambda: engine.held_by(contender), lambda: leave(client, contender))
        left = left_of(until if until is None or waits else max(until, told_by))
        if left is not None and left <= 0:
            raise TurnIsNotYet(waits)
        yield Wait(left)
    if not contender.is_lost:
        raise engine.why_over("the client was stopped")
    return None


def leave(client: Shown, contender: Contender) -> Steps[None]:
    """Gives a contender up, and waits until it has no place any more: for twice the timeout of the session. Then it raises an error, and
    the core goes on with it for as long as the session lives.
    """
    engine, life, until, news = client._engine, client._engine.life, until_of(2 * client._engine.timeout()), (yield GetNews())
    with engine.news(news.set, contender.guid):
        engine.give_up(contender)
        client._act()
        while not contender.is_over and engine.is_running and engine.life == life:
            left = left_of(until)
            if left is not None and left <= 0:
                error = CallTimeoutError("no answer has come in time") if engine.state is State.CONNECTED else ConnectionLoss()
                error.path, error.may_have_happened = contender.directory, True
                raise error
            yield Wait(left)
    engine.used()


def patiently(engine: Engine, plan: Callable[[], Steps[Result]]) -> Steps[Result]:
    """Makes steps that may be made twice, and makes them again if the connection, the session or the load of a server ended them, or no
    answer came in time: for twice the timeout of the session, and then it raises the error.
    """
    until = time.monotonic() + 2 * engine.timeout()
    while True:
        try:
            return (yield from plan())
        except ZookeeperError as error:
            if not is_lived_through(error) or time.monotonic() > until:
                raise
        yield Wait(BETWEEN_TRIES)


def identifiers(engine: Engine, path: str, whose: str, most: float = math.inf) -> Plan[list[str]]:
    """The identifiers of the contenders at a path, of the first ones `most`. It only looks, and decides nothing."""
    found: list[str] = []
    for name in in_line(engine, path, (yield from names_of(path)), whose):
        if len(found) == most:
            break
        try:
            data, _ = yield requests.get(plans.child_of(path, name), None)
            found.append((data or b"").decode(errors="replace"))
        except NoNodeError:
            pass
    return found


AnyClient = TypeVar("AnyClient", bound="Shown")


class BaseHeld(Generic[AnyClient]):
    """A lock or a lease that was taken, for both kinds of clients."""

    def __init__(
        self, client: AnyClient, taken: Taken, on_lost: Optional[Callable[[Any], object]], keeps_while_suspended: bool = False
    ) -> None:
        engine = client._engine
        self._client, self._engine, self._taken, self._on_lost, self._keeps = client, engine, taken, on_lost, keeps_while_suspended
        self._session, self._connections = engine.session_id(), engine.connection_stats.admissions
        self._why, self._is_released, self._is_told = "", False, False

    def __repr__(self) -> str:
        return f"<Held {self.path}, token {self.token}{'' if self.is_held else ', not held'}>"

    @property
    def path(self) -> str:
        """The path of the node that holds."""
        return self._taken.path

    @property
    def token(self) -> int:
        """The zxid at which that node was made: each later holder of an exclusive lock has a greater one.

        Pass it along with each request, and let the protected resource refuse one that is smaller than the greatest it has seen.
        """
        return self._taken.token

    @property
    def is_held(self) -> bool:
        """Whether it is shown to be held: at the last seen zxid, not now. In a forked child it is not."""
        return not self._is_released and not self._why_lost()

    def check(self, within: Optional[float] = None) -> None:
        """Raises `LockLostError` from the step on at which it is not shown to be held. It asks no server: it asks the core whether its node
        still holds, by the same token, as of the last seen zxid.

        With `within` it also raises once the server was not heard for this many seconds: when the client's knowledge may be older than
        that, by the clock of `Client.age`.
        """
        why = "it was released" if self._is_released else self._why_lost()
        proved_at = self._engine.connection_stats.proved_at
        if not why and within is not None and (proved_at is None or moment() - proved_at > within * 1000):
            why = f"the server was not heard within {within} seconds"
        if why:
            raise LockLostError(f"{self.path}: {why}")

    def _why_lost(self) -> str:
        """Why the lock is not shown to be held; empty if it is. A lock that was lost once stays lost."""
        self._why = self._why or self._found_lost()
        return self._why

    def _found_lost(self) -> str:
        engine = self._engine
        if not engine.is_here():
            return "it is held in another process, before a fork"
        is_cut = engine.state is not State.CONNECTED or engine.connection_stats.admissions != self._connections
        if is_cut and not self._keeps:
            return "the connection was lost"
        if engine.session_id() != self._session or engine.state is State.LOST:
            return "the session is over"
        return "" if self._taken.shown() == self.token else "the node of the lock is not known to be there"

    def _release(self) -> Steps[None]:
        """Releases it, and waits until its node is gone. It may be called again. If its session is over, so is it.

        It waits for twice the timeout of the session. Then it raises `ConnectionLoss` or `CallTimeoutError`, and the node may still be
        there: the core deletes it later, through any number of connections, as long as the session lives.
        """
        self._engine.check_process()
        if not self._is_released:
            self._is_released = True
            self._client.remove_listener(self._look)
            self._engine.tell_news(self._taken.guid)
        return self._taken.leave()

    def _losing(self, timeout: Optional[float] = None) -> Steps[bool]:
        """Waits until it is known to be lost, or is released, for `timeout` seconds at most, and returns whether it is. It asks no server.
        """
        until, news = until_of(timeout), (yield GetNews())
        with self._engine.news(news.set, self._taken.guid):
            while self.is_held:
                left = left_of(until)
                if left is not None and left <= 0:
                    return False
                yield Wait(left)
        return True

    def _look(self, _: object = None) -> None:
        """Reports that it was lost, once."""
        if not self._is_released and not self._is_told and self._why_lost():
            self._is_told = True
            logger.warning("the lock %s is lost: %s", self.path, self._why)
            if self._on_lost is not None:
                self._client._call_back(self._on_lost, self)


AnyHeld = TypeVar("AnyHeld", bound="BaseHeld[Any]")


class BaseTaker(Generic[AnyClient, AnyHeld]):
    """A lock or a semaphore, for both kinds of clients."""

    def __init__(
        self,
        client: AnyClient,
        path: str,
        identifier: str = "",
        *,
        acl: Acls = None,
        on_lost: Optional[Callable[[AnyHeld], object]] = None,
        keeps_while_suspended: bool = False,
    ) -> None:
        self._client, self._path, self._data, self._acl = client, checked_path(path), identified(identifier), acl
        self._on_lost, self._keeps = on_lost, keeps_while_suspended
        self._entered: dict[object, list[AnyHeld]] = {}

    def __repr__(self) -> str:
        return f"<{type(self).__name__} at {self._path}>"

    if not TYPE_CHECKING:

        def __getattr__(self, name: str) -> Any:
            """Says where a name of kazoo's locks is here."""
            is_of_held = hasattr(BaseHeld, name) or name in ("release", "is_acquired")
            hint = ": what acquire() returns has is_held and release()" if is_of_held else ""
            raise AttributeError(f"a {type(self).__name__} has no {name}{hint}")

    def _enter(self, who: object, held: AnyHeld) -> AnyHeld:
        """Keeps what a thread or a task has taken by `with`, to release it at the end of the block."""
        self._entered.setdefault(who, []).append(held)
        return held

    def _exit(self, who: object) -> AnyHeld:
        found = who if who in self._entered else next(reversed(self._entered))
        held = self._entered[found].pop()
        if not self._entered[found]:
            del self._entered[found]
        return held

    def _held(self, taken: Taken) -> AnyHeld:
        raise NotImplementedError

    def _contender(self, on_lost: Callable[[Any], object]) -> Contender:
        """A contender for it, which calls `on_lost`, later, if it may be lost."""
        raise NotImplementedError

    def _take(self, on_lost: Callable[[Any], object], until: Optional[float]) -> Steps[Taken]:
        """Waits until a contender holds, up to a moment."""
        taken: Optional[Taken] = None
        while taken is None:
            taken = yield from contend(self._client, self._contender(on_lost), until)
        return taken

    def _taking(self, timeout: Optional[float]) -> Steps[AnyHeld]:
        told: list[AnyHeld] = []
        try:
            taken = yield from self._take(lambda _: _look_at(told), until_of(timeout))
        except TimeIsOver:
            raise LockTimeout(f"{self._path} was not taken in time") from None
        held = self._held(taken)
        told.append(held)
        self._client.add_listener(held._look)
        self._client._tell(held._look, None)  # a report from before is not repeated
        return held


def _look_at(told: list[AnyHeld]) -> None:
    for held in told:
        held._look()


class BaseLock(BaseTaker[AnyClient, AnyHeld]):
    """A lock, for both kinds of clients."""

    _kind = EXCLUSIVE

    def __init__(
        self,
        client: AnyClient,
        path: str,
        identifier: str = "",
        *,
        names: str = KAZOO,
        acl: Acls = None,
        on_lost: Optional[Callable[[AnyHeld], object]] = None,
        keeps_while_suspended: bool = False,
    ) -> None:
        super().__init__(client, path, identifier, acl=acl, on_lost=on_lost, keeps_while_suspended=keeps_while_suspended)
        self._names = checked_names(names)

    def _contender(self, on_lost: Callable[[Any], object]) -> Contender:
        return self._kind.contender(self._path, self._names, self._data, self._acl, on_lost)

    def _take(self, on_lost: Callable[[Any], object], until: Optional[float]) -> Steps[Taken]:
        try:
            return (yield from super()._take(on_lost, until))
        except MixedNamesError as error:
            raise mixed_names(self._client._engine, self._path, (yield from self._look_at_names()), self._names) from error

    def _look_at_names(self) -> Steps[list[str]]:
        """The names at the path, for people; none if they do not come soon."""
        with contextlib.suppress(ZookeeperError):
            names: list[str] = yield Ask(requests.get_children(self._path, None), SHORTEST_ASK)
            return names
        return []

    def _contenders(self, most: float = math.inf) -> Steps[list[str]]:
        """The identifiers of those that take the lock, in their order, the holder's first: with `most`, no more than that. It shows the
        nodes of a moment, and decides nothing.
        """
        return run(identifiers(self._client._engine, self._path, self._names, most), self._client._retry, None)


def identified(identifier: str) -> bytes:
    """The data by which a node names its maker. Raises `TypeError`."""
    return checked_text("an identifier", identifier).encode()


def names_of(path: str) -> Plan[list[str]]:
    """The names below a path; none if there is no node."""
    try:
        names: list[str] = yield requests.get_children(path, None)
    except NoNodeError:
        return []
    return names

