"""The handler for gevent. It needs no monkey patching, and works with it (kazoo.handlers.gevent)."""

from __future__ import annotations

from importlib import import_module
from typing import Any, Callable

from dirwolleu.kazoo.handlers._green import GreenHandler, GreenResult
from dirwolleu.kazoo.handlers.threading import Found, KazooTimeoutError

gevent: Any = import_module("gevent")  # which has no types
_event, _lock, _queue, _thread = (import_module(f"gevent.{name}") for name in ("event", "lock", "queue", "thread"))
_select: Any = import_module("gevent.select")
_socket: Any = import_module("gevent.socket")

__all__ = ["AsyncResult", "KazooTimeoutError", "SequentialGeventHandler"]


class AsyncResult(GreenResult):
    """The result of a call that does not wait: whoever waits for it leaves the processor to other greenlets."""


class SequentialGeventHandler(GreenHandler):
    """Calls watches one after the other in a greenlet, the functions of async results in another, and listeners in a third."""

    name = "sequential_gevent_handler"
    sleep_func = staticmethod(gevent.sleep)
    queue_impl = _queue.Queue
    queue_empty = _queue.Empty
    sockets = _socket
    result = AsyncResult

    def select(self, *args: Any, **kwargs: Any) -> Found:
        """`gevent.select.select`."""
        found: Found = _select.select(*args, **kwargs)
        return found

    def event_object(self) -> Any:
        """An event that greenlets wait for."""
        return _event.Event()

    def lock_object(self) -> Any:
        """A lock of greenlets."""
        return _thread.allocate_lock()

    def rlock_object(self) -> Any:
        """A lock of greenlets that its greenlet may take again."""
        return _lock.RLock()

    def spawn(self, func: Callable[..., object], *args: Any, **kwargs: Any) -> Any:
        """Calls a function in a greenlet of its own, and returns the greenlet."""
        return gevent.spawn(func, *args, **kwargs)

    def _wait_readable(self, descriptor: int) -> None:
        _socket.wait_read(descriptor)

    def _is_current(self, worker: Any) -> bool:
        return worker is gevent.getcurrent()
