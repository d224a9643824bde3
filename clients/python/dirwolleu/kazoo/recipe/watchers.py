"""Functions that are called with each new value (kazoo.recipe.watchers).

The values were good right before: the core has kept the answer, and no report has ended it since. An answer that is stale by
then is read again, at once or with the event that reports the change.
"""

from __future__ import annotations

import functools
import inspect
import logging
import time
from typing import TYPE_CHECKING, Any, Callable, Optional, TypeVar

from dirwolleu.kazoo.exceptions import ConnectionClosedError, KazooException, NoNodeError
from dirwolleu.kazoo.protocol.states import EventType, KazooState, WatchedEvent, ZnodeStat
from dirwolleu.kazoo.retry import KazooRetry
from dirwolleu.types import Mark

if TYPE_CHECKING:
    from dirwolleu.kazoo.client import KazooClient
    from dirwolleu.kazoo.handlers.threading import AsyncResult

log = logging.getLogger(__name__)

Function = TypeVar("Function", bound=Callable[..., object])
Read = TypeVar("Read")


def _takes(function: Callable[..., object], count: int) -> bool:
    """Whether a function can be called with this many values. One whose signature is not known can."""
    try:
        inspect.signature(function).bind(*range(count))
    except TypeError:
        return False
    except ValueError:
        pass
    return True


class _Watch:
    """The base of both watches: one function, and one read at a time."""

    def __init__(self, client: KazooClient, path: str, goes_on: bool) -> None:
        self._client, self._path = client, path
        self._func: Optional[Callable[..., object]] = None
        self._goes_on, self._stopped = goes_on, False
        self._run_lock = client.handler.lock_object()
        self._retry = KazooRetry(max_tries=None, sleep_func=client.handler.sleep_func)

    def __call__(self, func: Function) -> Function:
        """Calls a function from now on. Raises `KazooException` if there is one already."""
        if self._func is not None or self._stopped:
            raise KazooException(f"A function has already been associated with this {type(self).__name__} instance.")
        self._func = func
        if self._goes_on:
            self._client.add_listener(self._session_watcher)
        self._look(None)
        return func

    def _watcher(self, event: WatchedEvent) -> None:
        if event.type != EventType.NONE:
            self._look(event)

    def _is_followed(self, event: Optional[WatchedEvent], was_told: bool) -> bool:
        """Whether another look comes after this one, whose answer is no longer good: at the next connection, or, if this one
        comes after a lost connection, at the event that has ended the answer. So that change has its event.
        """
        return not self._client.connected or event is None and was_told

    def _session_watcher(self, state: str) -> Optional[bool]:
        if self._stopped:
            return True
        if state == KazooState.CONNECTED:
            self._client.handler.spawn(self._look, None)
        return None

    def _look(self, event: Optional[WatchedEvent]) -> None:
        with self._run_lock:
            if self._stopped:
                return
            try:
                self._tell(event)
            except ConnectionClosedError:
                pass  # the client was stopped: the next session looks

    def _tell(self, event: Optional[WatchedEvent]) -> None:
        raise NotImplementedError

    def _call(self, *values: object) -> None:
        assert self._func is not None
        try:
            if self._func(*values) is False:
                self._stop()
        except Exception:
            log.exception("the function of a watch of %s has failed", self._path)
            raise

    def _stop(self) -> None:
        self._stopped = True
        self._client.remove_listener(self._session_watcher)


class DataWatch(_Watch):
    """Calls a function with the data and the `ZnodeStat` of a node, at once and after each change.

    If there is no node, both are None. A function that takes three values gets the `WatchedEvent` too, which is None at first
    and after a lost connection. After it returns False it is not called any more.

        @client.DataWatch("/config")
        def told(data, stat):
            print(data)
    """

    def __init__(
        self, client: KazooClient, path: str, func: Optional[Callable[..., object]] = None, *args: Any, **kwargs: Any
    ) -> None:
        if args or kwargs:
            raise TypeError(f"DataWatch takes no further arguments: {[*args, *kwargs]}")
        super().__init__(client, path, goes_on=True)
        self._told_zxid: Optional[int] = None
        self._was_told = False
        if func is not None:
            self(func)

    def _tell(self, event: Optional[WatchedEvent]) -> None:
        found = self._read(event)
        if found is None:
            return
        data, stat = found
        zxid = None if stat is None else stat.mzxid
        if self._was_told and zxid == self._told_zxid:
            return
        self._told_zxid, self._was_told = zxid, True
        assert self._func is not None
        self._call(*((data, stat, event) if _takes(self._func, 3) else (data, stat)))

    def _read(self, event: Optional[WatchedEvent]) -> Optional[tuple[Optional[bytes], Optional[ZnodeStat]]]:
        """A good answer, or None if another look brings one."""
        while True:
            found: tuple[Optional[bytes], Optional[ZnodeStat]] = self._retry(self._ask)
            if self._is_good(found[1]):
                return found
            if self._is_followed(event, self._was_told):
                return None

    def _ask(self) -> tuple[Optional[bytes], Optional[ZnodeStat]]:
        while True:
            try:
                return self._client.get(self._path, self._watcher)
            except NoNodeError:
                if self._client.exists(self._path, self._watcher) is None:
                    return None, None

    def _is_good(self, stat: Optional[ZnodeStat]) -> bool:
        kept = self._client._kept(self._path)
        if kept is None or kept.mark is not Mark.GOOD:
            return False
        return (None if kept.stat is None else kept.stat.mzxid) == (None if stat is None else stat.mzxid)


class ChildrenWatch(_Watch):
    """Calls a function with the names of a node's children, at once and after each change.

    With `send_event` the function gets the `WatchedEvent` too, which is None at first and after a lost connection. After it
    returns False it is not called any more, nor after its node is gone. With `allow_session_lost` false it is not called
    after a lost connection.

        @client.ChildrenWatch("/workers")
        def told(names):
            print(sorted(names))
    """

    def __init__(
        self,
        client: KazooClient,
        path: str,
        func: Optional[Callable[..., object]] = None,
        allow_session_lost: bool = True,
        send_event: bool = False,
    ) -> None:
        super().__init__(client, path, goes_on=allow_session_lost)
        self._sends_event = send_event
        self._told_names: Optional[list[str]] = None
        if func is not None:
            self(func)

    def _tell(self, event: Optional[WatchedEvent]) -> None:
        try:
            names = self._read(event)
        except NoNodeError:
            self._stop()
            return
        if names is None or event is None and self._told_names == sorted(names):
            return
        self._told_names = sorted(names)
        self._call(*((names, event) if self._sends_event else (names,)))

    def _read(self, event: Optional[WatchedEvent]) -> Optional[list[str]]:
        """A good answer, or None if another look brings one."""
        ask = functools.partial(self._client.get_children, self._path, self._watcher)
        while True:
            names: list[str] = self._client.retry(ask)
            kept = self._client._kept_children(self._path)
            if kept is not None and kept.mark is Mark.GOOD and sorted(kept.names) == sorted(names):
                return names
            if self._is_followed(event, self._told_names is not None):
                return None


class PatientChildrenWatch:
    """Waits until the names of a node's children have not changed for `time_boundary` seconds.

        names, changed = PatientChildrenWatch(client, "/workers", 5.0).start().get()
    """

    def __init__(self, client: KazooClient, path: str, time_boundary: float = 30) -> None:
        self.client, self.path, self.time_boundary = client, path, time_boundary

    def start(self) -> AsyncResult:
        """Returns a result that is set once the names are at rest: to these, and to a result that is set when they change."""
        outcome = self.client.handler.async_result()
        self.client.handler.spawn(self._wait, outcome)
        return outcome

    def _wait(self, outcome: AsyncResult) -> None:
        handler, is_at_rest = self.client.handler, False
        try:
            while not is_at_rest:
                changed = handler.async_result()
                names = self.client.retry(self.client.get_children, self.path, functools.partial(_set_now, changed))
                handler.sleep_func(self.time_boundary)
                is_at_rest = not changed.ready()
            outcome.set((names, changed))
        except Exception as error:
            outcome.set_exception(error)


def _set_now(changed: AsyncResult, _: WatchedEvent) -> None:
    changed.set(time.time())
