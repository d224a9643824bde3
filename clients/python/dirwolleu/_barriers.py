"""Barriers for both clients, with kazoo's nodes."""

from __future__ import annotations

import os
import socket
from typing import Callable, Generic, Optional

from dirwolleu import _plans as plans
from dirwolleu import _requests as requests
from dirwolleu._checks import checked_path
from dirwolleu._engine import News
from dirwolleu._locks import BETWEEN_TRIES, AnyClient, identified, names_of, patiently
from dirwolleu._plans import Plan
from dirwolleu._retry import is_lived_through
from dirwolleu._steps import GetNews, Steps, TimeIsOver, Wait, bounded, until_of
from dirwolleu.exceptions import NodeExistsError, NoNodeError, SessionExpiredError, ZookeeperError

_READY = "ready"


def _until(news: News, is_done: Callable[[News], Steps[bool]]) -> Steps[None]:
    """Tries until it is done, through lost connections and expired sessions."""
    while True:
        news.clear()
        try:
            if (yield from is_done(news)):
                return
        except ZookeeperError as error:
            if not is_lived_through(error):
                raise
            yield Wait(BETWEEN_TRIES)


class BaseBarrier(Generic[AnyClient]):
    """A barrier, for both clients."""

    def __init__(self, client: AnyClient, path: str) -> None:
        self._client, self._path = client, path

    def _create(self) -> Steps[None]:
        """Puts the barrier up, if it is not up."""
        return patiently(self._client._engine, lambda: plans.ensure_path(self._path, None))

    def _remove(self) -> Steps[bool]:
        """Takes the barrier away, and returns whether it was there."""
        return patiently(self._client._engine, self._delete)

    def _delete(self) -> Plan[bool]:
        try:
            yield requests.delete(self._path, -1)
        except NoNodeError:
            return False
        return True

    def _wait(self, timeout: Optional[float] = None) -> Steps[bool]:
        """Waits until there is no barrier, for at most this many seconds, and returns whether it is gone.

        It waits through lost connections and expired sessions.
        """
        news: News = yield GetNews()
        with self._client._engine.news(news.set):
            try:
                yield from bounded(_until(news, self._is_open), until_of(timeout))
            except TimeIsOver:
                return False
        return True

    def _is_open(self, news: News) -> Steps[bool]:
        """Whether there is no barrier. If there is one, it waits for news first."""
        if (yield requests.exists(self._path, lambda _: news.set())) is None:
            return True
        yield Wait(None)
        return False


class BaseDoubleBarrier(Generic[AnyClient]):
    """A double barrier, for both clients."""

    def __init__(
        self, client: AnyClient, path: str, num_clients: int, identifier: str = "", name: Optional[str] = None
    ) -> None:
        if num_clients < 1:
            raise ValueError("a double barrier is for one client at least")
        self._client, self._path, self._count = client, checked_path(path), num_clients
        self._data = identified(identifier or f"{socket.getfqdn()}-{os.getpid()}")
        self._name = name or plans.new_tag().hex
        self._own, self._ready = plans.child_of(path, self._name), plans.child_of(path, _READY)

    def _enter(self, timeout: Optional[float] = None) -> Steps[bool]:
        """Waits until all have come, for at most this many seconds, and returns whether they have.

        If they have not, this member withdraws. A member whose session ends meanwhile enters again in the next one.
        """
        news: News = yield GetNews()
        is_in = False
        with self._client._engine.news(news.set):
            try:
                yield from bounded(_until(news, self._have_come), until_of(timeout))
                is_in = True
            except TimeIsOver:
                pass
            finally:
                if not is_in:
                    yield from self._withdraw()
        return is_in

    def _leave(self, timeout: Optional[float] = None) -> Steps[bool]:
        """Leaves, waits until all have left, for at most this many seconds, and returns whether they have."""
        news: News = yield GetNews()
        with self._client._engine.news(news.set):
            try:
                yield from bounded(_until(news, self._have_left), until_of(timeout))
            except TimeIsOver:
                yield from self._withdraw()
                return False
        return True

    def _withdraw(self) -> Steps[None]:
        """Deletes this member's node. If its session is over, the node is gone too."""
        try:
            yield from patiently(self._client._engine, self._delete)
        except SessionExpiredError:
            pass

    def _delete(self, path: Optional[str] = None) -> Plan[None]:
        try:
            yield requests.delete(path or self._own, -1)
        except NoNodeError:
            pass

    def _have_come(self, news: News) -> Steps[bool]:
        """Makes this member's node, and returns whether the barrier is ready. The last member makes it ready."""
        yield from self._make()
        if (yield requests.exists(self._ready, lambda _: news.set())) is not None:
            return True
        names = yield from self._members()
        if len(names) >= self._count:
            yield from plans.ensure_path(self._ready, None)
            return True
        yield Wait(None)
        return False

    def _make(self) -> Plan[None]:
        yield from plans.ensure_path(self._path, None)
        try:
            yield requests.create(self._own, self._data, True, False)
        except NodeExistsError:
            pass

    def _members(self) -> Plan[list[str]]:
        names = yield from names_of(self._path)
        return sorted(name for name in names if name != _READY)

    def _have_left(self, news: News) -> Steps[bool]:
        """Deletes this member's node, and returns whether all are gone. The first in the order of names goes last."""
        yield from self._delete(self._ready)
        names = yield from self._members()
        if not names or names == [self._name]:
            yield from self._delete()
            return True
        other = names[-1] if names[0] == self._name else names[0]
        if names[0] != self._name:
            yield from self._delete()
        if (yield requests.exists(plans.child_of(self._path, other), lambda _: news.set())) is not None:
            yield Wait(None)
        return False
