"""Locks, by kazoo's names of nodes (kazoo.recipe.lock).

A lock hands a contender to the proved core, and waits for its reports: see `dirwolleu.Lock`.
"""

from __future__ import annotations

import contextlib
import time
import uuid
from collections.abc import Iterable
from types import TracebackType
from typing import TYPE_CHECKING, Any, Optional

from dirwolleu import _library as library
from dirwolleu import exceptions as own
from dirwolleu._contenders import Contender
from dirwolleu._locks import KAZOO, Taken, TurnIsNotYet, contend, in_line, mixed_names
from dirwolleu._steps import SHORTEST_ASK, Result, Step, Steps, Wait, drive
from dirwolleu.kazoo._checks import own_acls
from dirwolleu.kazoo.exceptions import (
    CancelledError,
    ConfigurationError,
    ConnectionClosedError,
    KazooException,
    LockTimeout,
    NoNodeError,
    error_of,
)
from dirwolleu.kazoo.protocol.paths import join, own_path
from dirwolleu.kazoo.recipe.semaphore import Semaphore as Semaphore
from dirwolleu.kazoo.retry import ForceRetryError, KazooRetry, RetryFailedError

if TYPE_CHECKING:
    from dirwolleu.kazoo._session import Session
    from dirwolleu.kazoo.client import KazooClient


class _News:
    """News of a contender. Whoever waits for it waits as the handler does."""

    def __init__(self, client: KazooClient, event: Any) -> None:
        self._soon, self._event = client.handler._soon, event

    def set(self) -> None:
        self._soon(self._event.set)

    def clear(self) -> None:
        self._event.clear()


class Lock:
    """An exclusive lock: of those that contend at a path, one holds at a time.

    It is not reentrant. It is held if the proved core says so, as of the last seen zxid, and waits for all contenders with names of kazoo.
    Beside contenders with names of Curator `acquire` raises an error, which says whose they are: those do not see this one.
    `extra_lock_patterns` of others than kazoo raise `ConfigurationError`. A program that was paused may believe that it holds when another
    one does: see `dirwolleu.Lock`, which has a token against that.

        lock = client.Lock("/locks/job", "host-1")
        with lock:
            print(lock.contenders())
    """

    _naming = library.KAZOO

    def __init__(
        self,
        client: KazooClient,
        path: str,
        identifier: Optional[str] = None,
        extra_lock_patterns: Iterable[str] = (),
    ) -> None:
        if set(extra_lock_patterns) - {"__lock__", "__rlock__"}:
            raise ConfigurationError(
                "extra_lock_patterns has names of others than kazoo, who do not see this lock's node: have all contenders of a path use "
                'kazoo\'s names, or all Curator\'s, as dirwolleu.Lock does with names="curator"'
            )
        self.client, self.path, self.data = client, path, str(identifier or "").encode()
        self.node: Optional[str] = None
        self.wake_event = client.handler.event_object()
        self.cancelled = False
        self._lock = client.handler.lock_object()
        self._retry = KazooRetry(max_tries=None, sleep_func=client.handler.sleep_func)
        self._taken: Optional[Taken] = None

    @property
    def is_acquired(self) -> bool:
        """Whether the lock was taken and not released, and is not lost: with its session, or because its node was deleted."""
        taken = self._taken
        return taken is not None and taken.shown() == taken.token

    def cancel(self) -> None:
        """Ends a wait for the lock with `CancelledError`."""
        self.cancelled = True
        self.wake_event.set()

    def acquire(self, blocking: bool = True, timeout: Optional[float] = None, ephemeral: bool = True) -> bool:
        """Takes the lock, and returns whether it has.

        If `blocking` is false, it tries once. Raises `LockTimeout` if the contender before it is there after `timeout` seconds; it returns
        False if that time has passed otherwise. No contender is left then. Raises `ConfigurationError` if the node is not to be
        `ephemeral`.
        """
        if not ephemeral:
            raise ConfigurationError(
                "the node of a lock is ephemeral, so that it goes with its session: leave ephemeral true, and create a node of its own "
                "for what is to stay"
            )
        until = None if timeout is None else time.monotonic() + timeout
        longest = -1.0 if timeout is None else max(timeout, 0)
        if not (self._lock.acquire(timeout=longest) if blocking else self._lock.acquire(blocking=False)):
            return False
        try:
            return self._acquire(blocking, until)
        finally:
            self._lock.release()

    def _acquire(self, blocking: bool, until: Optional[float]) -> bool:
        retry = self._retry.copy()
        retry.deadline = None if until is None else max(until - time.monotonic(), 0)
        try:
            return bool(retry(self._try, blocking, until))
        except RetryFailedError:
            return False
        finally:
            self.cancelled = False

    def _try(self, blocking: bool, until: Optional[float]) -> bool:
        if self.is_acquired:
            if not blocking:
                return False
            raise ForceRetryError()
        self.node = self._taken = None
        return self._contend(blocking, until)

    def _contend(self, blocking: bool, until: Optional[float]) -> bool:
        session = self._session()
        contender = Contender(own_path(self.path), self._naming, uuid.uuid4().hex, self.data, own_acls(self.client.default_acl))
        limit, patience = (until, SHORTEST_ASK) if blocking else (time.monotonic(), session.session_timeout)
        try:
            taken = self._drive(contend(session, contender, limit, least=patience), self.wake_event)
        except TurnIsNotYet as late:
            if blocking and late.waits:
                raise LockTimeout(f"Failed to acquire lock on {self.path} in time") from None
            return False
        if taken is None:
            raise ForceRetryError()
        self.node, self._taken = taken.path.rpartition("/")[2], taken
        return True

    def _drive(self, steps: Steps[Result], event: Any) -> Result:
        """Makes steps in this thread. They only wait for news, by an event that nobody else waits for. Raises kazoo's errors."""
        try:
            return drive(steps, lambda step: self._done(step, event))
        except own.MixedNamesError as error:
            raise self._mixed_names() from error
        except own.ZookeeperError as error:
            raise error_of(error) from error

    def _session(self) -> Session:
        session = self.client._session
        if session is None:
            raise ConnectionClosedError("Connection has been closed")
        return session

    def _mixed_names(self) -> BaseException:
        """The error that says who was met, for people, as far as the names at the path can be had."""
        names: list[str] = []
        with contextlib.suppress(KazooException):
            names = self.client.get_children(self.path)
        return error_of(mixed_names(self._session()._engine, own_path(self.path), names, KAZOO))

    def _done(self, step: Step, event: Any) -> Optional[_News]:
        """Makes a step. `cancel` ends one of `acquire`, which waits by `wake_event`: another thread may release meanwhile."""
        if not isinstance(step, Wait):
            return _News(self.client, event)
        is_ended = event is self.wake_event and self.cancelled
        if not is_ended:
            event.wait(step.seconds)
            event.clear()
        if event is self.wake_event and self.cancelled:
            self.cancelled = False
            raise CancelledError()
        return None

    def release(self) -> bool:
        """Releases the lock, and returns whether it was held. Raises `ConnectionLoss` if its node may be there for a while."""
        taken, was_held = self._taken, self.is_acquired
        self.node = None
        self._taken = None  # after the node: another thread that has this lock takes it from here on, and sets the others
        if taken is not None and was_held:
            self._drive(taken.leave(), self.client.handler.event_object())
        return was_held

    def contenders(self) -> list[str]:
        """The identifiers of the contenders, in the order of their numbers. It shows the nodes of a moment, and decides nothing."""
        self.client.ensure_path(self.path)
        found = []
        for name in in_line(self._session()._engine, own_path(self.path), self.client.get_children(self.path)):
            try:
                data, _ = self.client.get(join(self.path, name))
            except NoNodeError:
                continue
            if data is not None:
                found.append(data.decode())
        return found

    def __enter__(self) -> None:
        self.acquire()

    def __exit__(
        self, kind: Optional[type[BaseException]], error: Optional[BaseException], trace: Optional[TracebackType]
    ) -> None:
        self.release()


class WriteLock(Lock):
    """A lock that excludes all others at its path, also those of readers, as `Lock` does here."""


class ReadLock(Lock):
    """A lock that several readers hold at a time, and no writer beside them."""

    _naming = library.KAZOO_READER
