"""The base of the handlers for green threads: a waiting one leaves the processor to others of the same thread of the
system.

The client's own threads are the system's. The thread of the handler gets their reports, and a green one calls the
functions: so no other thread ever touches a lock or an event of green threads.
"""

from __future__ import annotations

import _thread
import collections
import contextlib
import os
import select
import socket
from typing import Any, Callable, Optional

from dirwolleu import _ending as ending
from dirwolleu.kazoo.handlers import utils
from dirwolleu.kazoo.handlers import threading as threads
from dirwolleu.kazoo.handlers.threading import Found, Function, SequentialThreadingHandler, _run, _Socket
from dirwolleu.kazoo.protocol.states import Callback


class GreenResult(threads.AsyncResult):
    """The result of a call that does not wait, for green threads."""

    def __init__(self, handler: GreenHandler) -> None:
        super().__init__(handler)
        self._green, self._is_set = handler, handler.event_object()

    def wait(self, timeout: Optional[float] = None) -> bool:
        """Waits until it holds something, for at most this many seconds, and returns whether it does."""
        with ending.resting():
            self._is_set.wait(timeout)
            return self._is_ready

    def _settle(self, value: Any, exception: Optional[BaseException]) -> None:
        self._green._soon(lambda: self._settle_here(value, exception))

    def _settle_here(self, value: Any, exception: Optional[BaseException]) -> None:
        super()._settle(value, exception)
        self._is_set.set()


class GreenHandler(SequentialThreadingHandler):
    """A handler whose functions are called by green threads of the thread of the system that starts it."""

    sockets: Any = socket
    """The module whose sockets wait by green threads."""
    result: type[GreenResult] = GreenResult

    def __init__(self) -> None:
        super().__init__()
        self._home = _thread.get_native_id()
        self._told: collections.deque[Function] = collections.deque()
        self._bell: Optional[tuple[int, int]] = None

    def _begin_queues(self) -> None:
        super()._begin_queues()
        self.listener_queue: Any = self.queue_impl()

    def start(self) -> None:
        """Begins to call functions."""
        if self._running:
            return
        self._running, self._home = True, _thread.get_native_id()
        self._bell = os.pipe()
        for end in self._bell:
            os.set_blocking(end, False)
        self._workers = [self.spawn(self._hear, self._bell[0])]
        for functions in (self.completion_queue, self.callback_queue, self.listener_queue):
            self._workers.append(self.spawn(self._work, functions))

    def stop(self) -> None:
        """Ends after the functions that wait, but not within one of them."""
        if not self._running:
            return
        self._ring()
        self._running = False
        hearing, *working = self._workers
        if not self._is_current(hearing):
            hearing.join()
        self._call_told()
        for functions in (self.completion_queue, self.callback_queue, self.listener_queue):
            functions.put(None)
        for worker in working:
            if not self._is_current(worker):
                worker.join(threads.LONGEST_CALLBACK)
        self._workers = []
        self._begin_queues()

    def _work(self, functions: Any) -> None:
        while (function := functions.get()) is not None:
            _run(function)

    def _hear(self, bell: int) -> None:
        """Calls the functions that other threads have handed over, until it is stopped."""
        while self._running:
            self._wait_readable(bell)
            with contextlib.suppress(BlockingIOError):
                os.read(bell, 4096)
            self._call_told()
        bells, self._bell = self._bell, None
        for end in bells or ():
            os.close(end)

    def _call_told(self) -> None:
        while self._told:
            _run(self._told.popleft())

    def _ring(self) -> None:
        bell = self._bell
        if bell is not None:
            with contextlib.suppress(OSError):  # it is full, and so rings already; or it was closed
                os.write(bell[1], b"\0")

    def _soon(self, function: Function) -> None:
        if _thread.get_native_id() == self._home:
            function()
        else:
            self._told.append(function)
            self._ring()

    def _elsewhere(self, function: Callable[[], Any]) -> Any:
        """Calls, in a thread of the system, a function that would hold up all green threads here, and waits for it."""
        if not self._running or _thread.get_native_id() != self._home:
            return function()
        return self._begin_elsewhere(function).get()

    def _tell_listeners(self, _: Any, function: Callable[[Any], object], argument: Any) -> None:
        self._soon(lambda: self.listener_queue.put(lambda: function(argument)))

    def _dial(self, address: tuple[str, int], timeout: Optional[float]) -> _Socket:
        return utils.create_tcp_connection(socket, address, timeout)

    def _wait_readable(self, descriptor: int) -> None:
        raise NotImplementedError

    def _is_current(self, worker: Any) -> bool:
        raise NotImplementedError

    def select(self, *args: Any, **kwargs: Any) -> Found:
        """`select.select`, for green threads."""
        return select.select(*args, **kwargs)

    def socket(self) -> _Socket:
        """A socket for TCP, for green threads."""
        return utils.create_tcp_socket(self.sockets)

    def create_connection(self, *args: Any, **kwargs: Any) -> _Socket:
        """A connection to an address. Without TLS it waits by green threads. Raises `OSError`."""
        is_plain = not (kwargs.get("use_ssl") or len(args) > 2 and args[2])
        return utils.create_tcp_connection(self.sockets if is_plain else socket, *args, **kwargs)

    def create_socket_pair(self) -> tuple[_Socket, _Socket]:
        """Two sockets that are connected to each other, for green threads."""
        return utils.create_socket_pair(self.sockets)

    def async_result(self) -> GreenResult:
        """The result of a call that does not wait."""
        return self.result(self)

    def dispatch_callback(self, callback: Callback) -> None:
        """Lets the green thread of the watches call a function."""
        self._soon(lambda: self.callback_queue.put(lambda: callback.func(*callback.args)))
