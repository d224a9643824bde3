"""The handler for eventlet. It needs no monkey patching, and works with it (kazoo.handlers.eventlet)."""

from __future__ import annotations

from importlib import import_module
from typing import Any, Callable

from dirwolleu.kazoo.handlers._green import GreenHandler, GreenResult
from dirwolleu.kazoo.handlers.threading import Found, KazooTimeoutError

eventlet: Any = import_module("eventlet")  # which has no types
_hubs: Any = import_module("eventlet.hubs")
_queue: Any = import_module("eventlet.queue")
green_select: Any = import_module("eventlet.green.select")
green_socket: Any = import_module("eventlet.green.socket")
green_threading: Any = import_module("eventlet.green.threading")

__all__ = ["AsyncResult", "SequentialEventletHandler", "TimeoutError", "green_socket"]

TimeoutError = KazooTimeoutError


class AsyncResult(GreenResult):
    """The result of a call that does not wait: whoever waits for it leaves the processor to other green threads."""


class SequentialEventletHandler(GreenHandler):
    """Calls watches one after the other in a green thread, the functions of async results in another, and listeners in a third."""

    name = "sequential_eventlet_handler"
    sleep_func = staticmethod(eventlet.sleep)
    queue_impl = _queue.LightQueue
    queue_empty = _queue.Empty
    sockets = green_socket
    result = AsyncResult

    def select(self, *args: Any, **kwargs: Any) -> Found:
        """`select.select` of eventlet."""
        found: Found = green_select.select(*args, **kwargs)
        return found

    def event_object(self) -> Any:
        """An event that green threads wait for."""
        return green_threading.Event()

    def lock_object(self) -> Any:
        """A lock of green threads."""
        return green_threading.Lock()

    def rlock_object(self) -> Any:
        """A lock of green threads that its thread may take again."""
        return green_threading.RLock()

    def spawn(self, func: Callable[..., object], *args: Any, **kwargs: Any) -> Any:
        """Calls a function in a green thread of its own, and returns the thread."""
        thread = green_threading.Thread(target=func, args=args, kwargs=kwargs, daemon=True)
        thread.start()
        return thread

    def _wait_readable(self, descriptor: int) -> None:
        _hubs.trampoline(descriptor, read=True)

    def _is_current(self, worker: Any) -> bool:
        return worker is green_threading.current_thread()
