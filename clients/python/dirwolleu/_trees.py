"""The trees that both kinds of clients give a program."""

from __future__ import annotations

from collections.abc import AsyncGenerator, Generator
from contextlib import AbstractAsyncContextManager, AbstractContextManager
from types import TracebackType
from typing import Any, Callable, Optional, Protocol

from dirwolleu._checks import checked_int
from dirwolleu._engine import Engine, News
from dirwolleu._steps import GetNews, Steps, TimeIsOver, Wait, bounded, until_of
from dirwolleu._tree_view import TreeView
from dirwolleu.exceptions import CallTimeoutError
from dirwolleu.tree import TreeSnapshot

MOST_NODES = 65_536
"""How many nodes a tree has at most, if a program sets no bound: as many as the core watches."""


class _Grown:
    """A tree of one client, and those who wait for its snapshots."""

    def __init__(self, engine: Engine, path: str, most: int) -> None:
        if checked_int("the bound of a tree", most, 64) < 1:
            raise ValueError("a tree has one node at least")
        engine.kept(path)  # a ValueError if it is no path
        self._engine = engine
        self._waiting: list[Callable[[], None]] = []
        self._tree_view = TreeView(engine, path, most, self._told)
        engine.add_tree(self._tree_view)

    @property
    def latest(self) -> Optional[TreeSnapshot]:
        """The newest snapshot, or None before there is one. It asks no server, and any thread may look."""
        return self._tree_view.latest

    @property
    def current(self) -> Optional[TreeSnapshot]:
        """The newest snapshot, if no report to the client since has ended it, else None.

        So it is the servers' tree at the client's last seen zxid.
        """
        return self._tree_view.latest if self._tree_view.is_current() else None

    @property
    def trouble(self) -> Optional[Exception]:
        """Why there is no newer snapshot, or None if reads are only under way.

        `NoNodeError`: there is no root. Another error of a server: it refused a read. `ValueError`: there are more nodes than the
        tree was to have.
        """
        return self._tree_view.trouble

    def close(self) -> None:
        """Stops reading. The client keeps the answers until they are stale and forgotten."""
        self._engine.remove_tree(self._tree_view)
        self._told()

    def _told(self) -> None:
        for wake in list(self._waiting):
            wake()

    def _first(self, timeout: Optional[float]) -> Steps[TreeSnapshot]:
        """Waits for a snapshot if there is none."""
        try:
            found = yield from bounded(self._next(None), until_of(timeout))
        except TimeIsOver:
            raise CallTimeoutError("the tree is not whole yet", "it is read on") from None
        if found is None:
            raise self._engine.why_over("the tree was closed, or its client stopped")
        return found

    def _next(self, told: Optional[TreeSnapshot]) -> Steps[Optional[TreeSnapshot]]:
        """Waits for another snapshot than this one: None if the tree or the client ends before."""
        news: News = yield GetNews()
        self._waiting.append(news.set)
        try:
            with self._engine.news(news.set):
                while self._engine.is_running and self._engine.has_tree(self._tree_view):
                    news.clear()
                    if self.latest is not told:
                        return self.latest
                    if self.latest is None and self.trouble is not None:
                        raise self.trouble
                    yield Wait(None)
        finally:
            self._waiting.remove(news.set)
        return None


class _Client(Protocol):
    """The functions that a tree needs of a client for threads."""

    _engine: Engine

    def _drive(self, steps: Steps[Any]) -> Any: ...


class Tree(_Grown, AbstractContextManager["Tree"]):
    """All nodes at and below a path, kept as the servers have them: `client.tree` returns one. A thread of the client reads them,
    and reads again those that change, through lost connections and new sessions: the proved core decides which nodes.

    Each snapshot is of one moment, and no node is left out: the proved core judges that. When one is shown is tested.

        with client.tree("/config") as tree:
            for snapshot in tree.snapshots():
                print(len(snapshot), "nodes at zxid", snapshot.zxid)
                tree.close()
    """

    def __init__(self, client: _Client, path: str, most: int) -> None:
        super().__init__(client._engine, path, most)
        self._client = client

    def __exit__(
        self, kind: Optional[type[BaseException]], error: Optional[BaseException], trace: Optional[TracebackType]
    ) -> None:
        self.close()

    def wait(self, timeout: Optional[float] = None) -> TreeSnapshot:
        """The newest snapshot. If there is none yet it waits, for at most this many seconds: None is no bound.

        Raises `CallTimeoutError` if none came in time, and the `trouble` that keeps it from coming.
        """
        found: TreeSnapshot = self._client._drive(self._first(timeout))
        return found

    def snapshots(self) -> Generator[TreeSnapshot, None, None]:
        """Yields the newest snapshot, and each newer one. If several come between two of its steps, it yields the last one.

        It ends if the tree is closed or the client is stopped.
        """
        told = None
        while (told := self._client._drive(self._next(told))) is not None:
            yield told


class _AsyncClient(Protocol):
    """The functions that a tree needs of a client for asyncio."""

    _engine: Engine

    async def _drive(self, steps: Steps[Any]) -> Any: ...


class AsyncTree(_Grown, AbstractAsyncContextManager["AsyncTree"]):
    """`dirwolleu.Tree` for asyncio: `client.tree` of `dirwolleu.aio` returns one.

        async with client.tree("/config") as tree:
            async for snapshot in tree.snapshots():
                print(len(snapshot), "nodes at zxid", snapshot.zxid)
                tree.close()
    """

    def __init__(self, client: _AsyncClient, path: str, most: int) -> None:
        super().__init__(client._engine, path, most)
        self._client = client

    async def __aexit__(
        self, kind: Optional[type[BaseException]], error: Optional[BaseException], trace: Optional[TracebackType]
    ) -> None:
        self.close()

    async def wait(self, timeout: Optional[float] = None) -> TreeSnapshot:
        """The newest snapshot, as `wait` of `dirwolleu.Tree`."""
        found: TreeSnapshot = await self._client._drive(self._first(timeout))
        return found

    async def snapshots(self) -> AsyncGenerator[TreeSnapshot, None]:
        """Yields the newest snapshot, and each newer one, as `snapshots` of `dirwolleu.Tree`."""
        told = None
        while (told := await self._client._drive(self._next(told))) is not None:
            yield told
