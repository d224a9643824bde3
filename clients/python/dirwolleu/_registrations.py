"""How both kinds of clients keep an ephemeral node there."""

from __future__ import annotations

import logging
from typing import Any, Callable, Generic, Optional, Protocol

from dirwolleu import _plans as plans
from dirwolleu import _requests as requests
from dirwolleu._checks import checked_data
from dirwolleu._engine import News
from dirwolleu._locks import BETWEEN_TRIES, AnyClient, patiently
from dirwolleu._plans import Plan
from dirwolleu._retry import is_lived_through
from dirwolleu._steps import Steps, Wait
from dirwolleu.exceptions import NodeExistsError, NoNodeError, SessionExpiredError, ZookeeperError
from dirwolleu.types import Kept, State

logger = logging.getLogger("dirwolleu.connection")


class Event(Protocol):
    """An event that is set while the node is there."""

    def set(self) -> None: ...
    def clear(self) -> None: ...


class BaseRegistration(Generic[AnyClient]):
    """A registration, for both kinds of clients."""

    def __init__(self, client: AnyClient, path: str, value: bytes, is_there: Event) -> None:
        self._client, self._path, self._value = client, path, checked_data(value)
        self._there, self._is_wanted = is_there, True
        self._news: Optional[News] = None
        client._engine.kept(path)  # a ValueError if it is no path
        client._begin(self._going_on, self._end)

    def __repr__(self) -> str:
        is_there = self._is_ours(self._client._engine.settled(self._path))
        return f"<Registration of {self._path}, {'registered' if is_there else 'not registered'}>"

    @property
    def is_registered(self) -> bool:
        """Whether the node is known to be there, as this session's: at the last seen zxid, not now."""
        self._client._engine.check_process()
        return self._is_ours(self._client._engine.settled(self._path))

    def _is_ours(self, kept: Optional[Kept]) -> bool:
        stat = None if kept is None else kept.stat
        return stat is not None and stat.ephemeral_owner == self._client._engine.session_id()

    def _end(self, _: Any, error: Optional[BaseException]) -> None:
        if error is not None:
            logger.error("the registration %s has ended: %s", self._path, error)

    def _going_on(self, news: News) -> Steps[None]:
        """Keeps the node there until it is withdrawn, and then deletes it."""
        self._news = news
        engine = self._client._engine
        with engine.news(news.set, self._path):
            while self._is_wanted:
                news.clear()
                try:
                    yield from self._make()
                    pause = None
                except ZookeeperError as error:
                    pause = BETWEEN_TRIES if is_lived_through(error) and engine.state is State.CONNECTED else None
                    if not is_lived_through(error) and engine.is_running:
                        logger.error("the registration %s failed: %s", self._path, error)
                if self._is_wanted:
                    yield Wait(pause)
        if engine.is_running:
            yield from self._withdraw()

    def _make(self) -> Plan[None]:
        """Reads the node with a watch, if there is no good answer about it, and makes it if it is not there."""
        engine = self._client._engine
        if engine.state is State.LOST:
            self._there.clear()
        while self._is_wanted and engine.state is State.CONNECTED:
            kept = engine.settled(self._path)
            if kept is None or not kept.exists:
                yield from self._read_or_create()
            elif not self._is_ours(kept):
                return self._there.clear()  # it waits for the end of another session's node
            elif kept.data != self._value:
                yield requests.set(self._path, self._value, -1)
            else:
                return self._there.set()

    def _read_or_create(self) -> Plan[None]:
        try:
            yield requests.get(self._path, True)
        except NoNodeError:
            self._there.clear()
            create = requests.create(self._path, self._value, True, False)
            try:
                yield from plans.create(create, self._path, None)
            except NodeExistsError:
                pass

    def _set(self, value: bytes) -> Plan[None]:
        """Gives the node other data, now and in later sessions."""
        self._value = checked_data(value)
        try:
            yield requests.set(self._path, value, -1)
        except ZookeeperError as error:
            if not is_lived_through(error) and not isinstance(error, NoNodeError):
                raise  # else it is made with these data, or set when the connection is back
        if self._news is not None:
            self._news.set()

    def _withdraw(self) -> Steps[None]:
        """Deletes the node, if it is this session's, and no longer makes it. If its session is over, so is the node."""
        self._is_wanted = False
        self._there.clear()
        if self._news is not None:
            self._news.set()
        if self._client._engine.state is State.LOST:
            return
        try:
            stat = yield from patiently(self._client._engine, self._look)
            if stat is not None and stat.ephemeral_owner == self._client._engine.session_id():
                yield from _surely(self._client, self._delete)
                self._client._engine.used()
        except SessionExpiredError:
            pass

    def _look(self) -> Plan[Any]:
        return (yield requests.exists(self._path, None))

    def _delete(self) -> Plan[None]:
        try:
            yield requests.delete(self._path, -1)
        except NoNodeError:
            pass


def _surely(client: AnyClient, plan: Callable[[], Steps[None]]) -> Steps[None]:
    """Makes the steps that delete a node of the session. When `patiently` gives up, it raises the error, and the client goes on
    in the background until the node is deleted or the session is over.
    """
    engine, session = client._engine, client._engine.session_id()

    def go_on(_: News) -> Steps[None]:
        while engine.is_running and engine.session_id() == session:
            try:
                return (yield from patiently(engine, plan))
            except ZookeeperError as error:
                _let_pass(error)

    try:
        yield from patiently(engine, plan)
    except SessionExpiredError:
        pass
    except ZookeeperError as error:
        if is_lived_through(error):
            client._begin(go_on, lambda *_: None)
        raise


def _let_pass(error: ZookeeperError) -> None:
    """Raises an error after which the same session can't do it any more."""
    if isinstance(error, SessionExpiredError) or not is_lived_through(error):
        raise error
