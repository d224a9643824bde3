"""The server in memory in a thread of its own, as tests use it."""

from __future__ import annotations

import asyncio
import contextlib
import socket
import threading
from collections.abc import Iterator
from concurrent.futures import Future
from types import TracebackType
from typing import Callable, NamedTuple, Optional, TypeVar

from dirwolleu._checks import checked_data, checked_path
from dirwolleu._paths import no_path, parent
from dirwolleu.exceptions import NodeExistsError, error_of
from dirwolleu.testing._ensemble import Ensemble, Session, hold
from dirwolleu.testing._library import DELETED, MADE, NO_CHILDREN_FOR_EPHEMERALS, NO_NODE, NOT_PATH, OK, WRITTEN

Result = TypeVar("Result")


class _Running(NamedTuple):
    """The parts of a server while it runs."""

    ensemble: Ensemble
    loop: asyncio.AbstractEventLoop
    thread: threading.Thread
    held: socket.socket
    """It has the port, also while nobody listens there."""


class Server:
    """A ZooKeeper server in memory, at a port of 127.0.0.1.

    Use it by `with` or `async with`, or call `start` and `close`. It runs in a thread of its own, and any thread may call it, an event loop
    too: no function waits for a client. When a function returns, its work is done, and the notices of it have been sent to clients.

    Each session has a server of its own, and all servers learn each change at once, unless they `lag`. A session ends when its client
    closes it and by `expire`, never by silence. The clock of its nodes is that of the system.

    A function that takes a `session` takes its number, a client's `session_id`; without one it acts on all sessions. It raises
    `LookupError` if there is no such session, and each raises `RuntimeError` if the server is not running.
    """

    def __init__(self, port: int = 0) -> None:
        """Port 0 is any free one."""
        self._wanted = port
        self._running: Optional[_Running] = None

    def start(self) -> None:
        """Listens. Raises `OSError` if it can't, as when the port is taken."""
        if self._running is not None:
            raise RuntimeError("the server is running already")
        held = hold(self._wanted)
        loop = asyncio.new_event_loop()
        thread = threading.Thread(target=loop.run_forever, name="dirwolleu.testing", daemon=True)
        thread.start()
        self._running = _Running(Ensemble(), loop, thread, held)
        try:
            self._listen(held.getsockname()[1])
        except BaseException:
            self.close()
            raise

    def close(self) -> None:
        """Ends the server with its sessions and nodes. It does nothing if the server is not running."""
        running, self._running = self._running, None
        if running is None:
            return
        if running.thread.is_alive():  # not in a child that was forked
            asyncio.run_coroutine_threadsafe(_end(running.ensemble), running.loop).result()
            running.loop.call_soon_threadsafe(running.loop.stop)
            running.thread.join()
            running.loop.close()
        running.held.close()

    def __enter__(self) -> Server:
        """Starts it, unless it is running."""
        if self._running is None:
            self.start()
        return self

    def __exit__(self, kind: Optional[type[BaseException]], error: Optional[BaseException], trace: Optional[TracebackType]) -> None:
        self.close()

    async def __aenter__(self) -> Server:
        return self.__enter__()

    async def __aexit__(
        self, kind: Optional[type[BaseException]], error: Optional[BaseException], trace: Optional[TracebackType]
    ) -> None:
        self.close()

    @property
    def port(self) -> int:
        return self._alive().ensemble.port

    @property
    def hosts(self) -> str:
        """The hosts for a client: `127.0.0.1:PORT`."""
        return f"127.0.0.1:{self.port}"

    @property
    def zxid(self) -> int:
        """The zxid of the last change."""
        return self._do(lambda ensemble: ensemble.log.zxid())

    @property
    def sessions(self) -> tuple[int, ...]:
        """The numbers of the sessions that have not ended, in the order in which they began."""
        return self._do(lambda ensemble: tuple(ensemble.sessions))

    @property
    def connections(self) -> int:
        """How many connections have come."""
        return self._do(lambda ensemble: ensemble.came)

    def create(self, path: str, value: bytes = b"", *, makepath: bool = False) -> int:
        """Makes a node, as another client does, and returns the zxid of that. With `makepath` it makes the nodes above it too.

        Raises `NodeExistsError`, of the parent `NoNodeError` and `NoChildrenForEphemeralsError`, and `ValueError` if the path is none.
        """
        if makepath and parent(checked_path(path)) != "/":
            with contextlib.suppress(NodeExistsError):
                self.create(parent(path), makepath=True)
        return self._change(MADE, path, value)

    def set(self, path: str, value: bytes) -> int:
        """Writes a node's data, as another client does, and returns the zxid of that. Raises `NoNodeError`."""
        return self._change(WRITTEN, path, value)

    def delete(self, path: str) -> int:
        """Deletes a node, as another client does, and returns the zxid of that. Raises `NoNodeError` and `NotEmptyError`."""
        return self._change(DELETED, path, b"")

    def drop(self, session: Optional[int] = None) -> None:
        """Closes the connection of a session, or each connection. Sessions and nodes stay."""
        self._do(lambda ensemble: ensemble.drop() if session is None else _named(ensemble, session)[0].drop())

    def expire(self, session: Optional[int] = None) -> None:
        """Ends a session, or all: deletes its ephemeral nodes and closes its connection; its client learns of it when it connects."""

        def end(ensemble: Ensemble) -> None:
            for one in _named(ensemble, session):
                ensemble.expire(one)

        self._do(end)

    @contextlib.contextmanager
    def lag(self, session: Optional[int] = None) -> Iterator[None]:
        """A context in which the server of a session, or of each session that there is, learns nothing of the changes by others.

        It answers reads by what it knows. If its client asks for a change or for `sync` it learns all first, as any server of ZooKeeper
        does, and its client gets the notices before the answer. At the end of the context it learns all.
        """
        behind = self._do(lambda ensemble: _named(ensemble, session))
        self._do(lambda ensemble: ensemble.lag(behind, True))
        try:
            yield
        finally:
            self._do(lambda ensemble: ensemble.lag(behind, False))

    def stop(self) -> None:
        """Closes each connection and stops listening, as a server that is killed. Sessions, nodes and the port stay for `restart`."""
        self._do(Ensemble.go_down)

    def restart(self) -> None:
        """Listens again, at the same port. A server that was not stopped is stopped first."""
        self.stop()
        self._listen(self.port)

    def _listen(self, port: int) -> None:
        running = self._alive()
        asyncio.run_coroutine_threadsafe(running.ensemble.listen(port), running.loop).result()

    def _alive(self) -> _Running:
        if self._running is None or not self._running.thread.is_alive():
            raise RuntimeError("the server is not running: use it by `with`, or call start, in this process")
        return self._running

    def _do(self, function: Callable[[Ensemble], Result]) -> Result:
        """Calls a function in the thread of the server, and returns what it returns or raises what it raises."""
        running, done = self._alive(), Future[Result]()

        def run() -> None:
            try:
                done.set_result(function(running.ensemble))
            except BaseException as error:
                done.set_exception(error)

        running.loop.call_soon_threadsafe(run)
        return done.result()

    def _change(self, kind: int, path: str, value: bytes) -> int:
        data = checked_data(value) or b""
        code, zxid = self._do(lambda ensemble: (ensemble.change(kind, checked_path(path), data), ensemble.log.zxid()))
        if code == NOT_PATH:
            raise no_path(path)
        if code != OK:
            error = error_of(code)
            error.path = parent(path) if kind == MADE and code in (NO_NODE, NO_CHILDREN_FOR_EPHEMERALS) else path
            raise error
        return zxid


def _named(ensemble: Ensemble, number: Optional[int]) -> list[Session]:
    """The session of this number, or all."""
    if number is None:
        return list(ensemble.sessions.values())
    if number not in ensemble.sessions:
        raise LookupError(f"there is no session {number:#x}")
    return [ensemble.sessions[number]]


async def _end(ensemble: Ensemble) -> None:
    """Closes all sockets. A socket is closed a turn of the loop after its connection was ended."""
    ensemble.go_down()
    await asyncio.sleep(0)
    await asyncio.sleep(0)
