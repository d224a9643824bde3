"""The handler for threads: it calls a program's functions, and makes the results of calls that do not wait."""

from __future__ import annotations

import logging
import queue
import select
import socket
import threading
import time
from collections.abc import Iterable
from typing import Any, Callable, Optional

from dirwolleu import _ending as ending
from dirwolleu.kazoo.handlers import utils
from dirwolleu.kazoo.protocol.states import Callback

log = logging.getLogger(__name__)

LONGEST_CALLBACK = 5.0
"""How long `stop` waits for a callback that runs, in seconds."""

Function = Callable[[], object]
Found = tuple[list[Any], list[Any], list[Any]]
_Socket = socket.socket
_HAS_EPOLL = hasattr(select, "epoll")
if _HAS_EPOLL:
    _WANTED = select.EPOLLIN, select.EPOLLOUT, select.EPOLLPRI
    _TOLD = select.EPOLLIN | select.EPOLLHUP | select.EPOLLERR, select.EPOLLOUT | select.EPOLLERR, select.EPOLLPRI


def _descriptor(one: Any) -> int:
    return one if isinstance(one, int) else int(one.fileno())


class KazooTimeoutError(Exception):
    """No answer, or no connection, came in time."""


class AsyncResult:
    """The result of a call that does not wait: a value or an exception, once (kazoo.interfaces.IAsyncResult)."""

    def __init__(self, handler: SequentialThreadingHandler) -> None:
        self._handler = handler
        self._condition = threading.Condition()
        self._callbacks: list[Callable[[Any], object]] = []
        self._relays: list[Callable[[Any], object]] = []
        self._is_ready = False
        self.value: Any = None
        self.exception: Optional[BaseException] = None

    def ready(self) -> bool:
        """Whether it holds a value or an exception."""
        return self._is_ready

    def successful(self) -> bool:
        """Whether it holds a value."""
        return self._is_ready and self.exception is None

    def set(self, value: Any = None) -> None:
        """Stores the value, unless it holds something already."""
        self._settle(value, None)

    def set_exception(self, exception: BaseException) -> None:
        """Stores the exception, unless it holds something already."""
        self._settle(None, exception)

    def get(self, block: bool = True, timeout: Optional[float] = None) -> Any:
        """Returns the value or raises the exception. Raises `KazooTimeoutError` after `timeout` seconds."""
        if block:
            self.wait(timeout)
        if not self._is_ready:
            raise KazooTimeoutError("no answer has come in time")
        if self.exception is not None:
            raise self.exception
        return self.value

    def get_nowait(self) -> Any:
        """`get` without waiting."""
        return self.get(block=False)

    def wait(self, timeout: Optional[float] = None) -> bool:
        """Waits until it holds something, for at most this many seconds, and returns whether it does."""
        with ending.resting(), self._condition:
            return self._condition.wait_for(self.ready, timeout)

    def rawlink(self, callback: Callable[[Any], object]) -> None:
        """Lets the handler call a function with this object once it holds something."""
        with self._condition:
            if not self._is_ready:
                if callback not in self._callbacks:
                    self._callbacks.append(callback)
                return
        self._dispatch(callback)

    def unlink(self, callback: Callable[[Any], object]) -> None:
        """Does not call the function any more, unless that has happened."""
        with self._condition:
            if callback in self._callbacks:
                self._callbacks.remove(callback)

    def relay(self, callback: Callable[[Any], object]) -> None:
        """Calls a function with this object in the thread that sets it. The function must not wait for anything."""
        with self._condition:
            if not self._is_ready:
                self._relays.append(callback)
                return
        callback(self)

    def _settle(self, value: Any, exception: Optional[BaseException]) -> None:
        with self._condition:
            if self._is_ready:
                return
            self.value, self.exception, self._is_ready = value, exception, True
            relays, callbacks = self._relays, self._callbacks
            self._relays, self._callbacks = [], []
            self._condition.notify_all()
        for relay in relays:
            relay(self)
        for callback in callbacks:
            self._dispatch(callback)

    def _dispatch(self, callback: Callable[[Any], object]) -> None:
        if self._handler.running:
            self._handler.completion_queue.put(lambda: callback(self))
        else:
            _run(lambda: callback(self))


def _run(function: Function) -> None:
    try:
        function()
    except Exception:
        log.exception("a callback failed")


class _Worker(threading.Thread):
    """Calls the functions of a queue, one after the other, up to a None."""

    def __init__(self, name: str, functions: queue.Queue[Optional[Function]]) -> None:
        super().__init__(name=name, daemon=True)
        self._functions = functions

    def run(self) -> None:
        while (function := self._functions.get()) is not None:
            _run(function)

    def end(self) -> None:
        """Ends after the functions that were put in before, and waits for them, up to a bound."""
        self._functions.put(None)
        if threading.current_thread() is self:
            return
        self.join(LONGEST_CALLBACK)
        if self.is_alive():
            log.warning("a callback has not returned in %s seconds: it is left to itself", LONGEST_CALLBACK)


class SequentialThreadingHandler:
    """Calls watches one after the other in one thread, and the functions of async results in another.

    A program may derive its own: each dial calls `create_connection`, and `spawn`, `event_object` and the others are
    called as kazoo calls them. `select` and the sockets are here for those who override them; the client itself waits
    by an event loop.
    """

    name = "sequential_threading_handler"
    timeout_exception: type[Exception] = KazooTimeoutError
    sleep_func = staticmethod(time.sleep)
    queue_impl = queue.Queue
    queue_empty = queue.Empty

    def __init__(self) -> None:
        self._begin_queues()
        self._running = False
        self._state_change = threading.Lock()
        self._workers: list[Any] = []

    def _begin_queues(self) -> None:
        self.callback_queue: queue.Queue[Optional[Function]] = self.queue_impl()
        self.completion_queue: queue.Queue[Optional[Function]] = self.queue_impl()

    @property
    def running(self) -> bool:
        """Whether it calls functions."""
        return self._running

    def start(self) -> None:
        """Begins to call functions."""
        with self._state_change:
            if self._running:
                return
            self._workers = [
                _Worker("kazoo-completions", self.completion_queue),
                _Worker("kazoo-watches", self.callback_queue),
            ]
            for worker in self._workers:
                worker.start()
            self._running = True

    def stop(self) -> None:
        """Ends after the functions that wait. It waits 5 seconds for one that does not return."""
        with self._state_change:
            if not self._running:
                return
            self._running = False
            workers, self._workers = self._workers, []
            for worker in workers:
                worker.end()
            self._begin_queues()

    def select(
        self, rlist: Iterable[Any], wlist: Iterable[Any], xlist: Iterable[Any], timeout: Optional[float] = None
    ) -> Found:
        """`select.select`, if the system has epoll for descriptors of any number."""
        return self._epoll_select(rlist, wlist, xlist, timeout) if _HAS_EPOLL else self._select(rlist, wlist, xlist, timeout)

    def _select(self, *args: Any) -> Found:
        return select.select(*args)

    def _epoll_select(
        self, rlist: Iterable[Any], wlist: Iterable[Any], xlist: Iterable[Any], timeout: Optional[float] = None
    ) -> Found:
        wanted: dict[int, int] = {}
        lists = [{_descriptor(one): one for one in ones} for ones in (rlist, wlist, xlist)]
        for ones, event in zip(lists, _WANTED):
            for descriptor in ones:
                wanted[descriptor] = wanted.get(descriptor, 0) | event
        with select.epoll() as waiting:
            for descriptor, events in wanted.items():
                waiting.register(descriptor, events)
            found = dict(waiting.poll(timeout))
        reads, writes, fails = ([one for at, one in ones.items() if found.get(at, 0) & told] for ones, told in zip(lists, _TOLD))
        return reads, writes, fails

    def socket(self) -> _Socket:
        """A socket for TCP."""
        return utils.create_tcp_socket(socket)

    def create_connection(self, *args: Any, **kwargs: Any) -> _Socket:
        """A connection to an address, as `create_tcp_connection` of `kazoo.handlers.utils`. Raises `OSError`."""
        return utils.create_tcp_connection(socket, *args, **kwargs)

    def create_socket_pair(self) -> tuple[_Socket, _Socket]:
        """`socket.socketpair`."""
        return utils.create_socket_pair(socket)

    def event_object(self) -> threading.Event:
        """An event that threads wait for."""
        return threading.Event()

    def lock_object(self) -> threading.Lock:
        """A lock of one process."""
        return threading.Lock()

    def rlock_object(self) -> threading.RLock:
        """A lock of one process that its thread may take again."""
        return threading.RLock()

    def async_result(self) -> AsyncResult:
        """The result of a call that does not wait."""
        return AsyncResult(self)

    def spawn(self, func: Callable[..., object], *args: Any, **kwargs: Any) -> threading.Thread:
        """Calls a function in a thread of its own, and returns the thread."""
        thread = threading.Thread(target=func, args=args, kwargs=kwargs, daemon=True)
        thread.start()
        return thread

    def _soon(self, function: Function) -> None:
        """Calls a function in the thread of those that wait by this handler, in order: for threads that is any."""
        function()

    def _elsewhere(self, function: Callable[[], Any]) -> Any:
        """Calls a function that holds a thread of the system up until something happens."""
        return function()

    def _begin_elsewhere(self, function: Callable[[], Any]) -> AsyncResult:
        """Calls it in a thread of its own, and returns an object that is set to its result."""
        outcome = self.async_result()
        threading.Thread(target=utils.wrap(outcome)(function), daemon=True).start()
        return outcome

    def _tell_listeners(self, session: Any, function: Callable[[Any], object], argument: Any) -> None:
        """Lets a function be called that calls listeners, in order. A session has a thread for that."""
        session.tell_listeners(function, argument)

    def _dial(self, address: tuple[str, int], timeout: Optional[float]) -> _Socket:
        """A connection to a server, made in a thread of its own."""
        return self.create_connection(address=address, timeout=timeout)

    def dispatch_callback(self, callback: Callback) -> None:
        """Lets the thread of the watches call a function."""
        self.callback_queue.put(lambda: callback.func(*callback.args))
