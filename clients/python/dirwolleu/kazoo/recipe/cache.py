"""A tree of nodes that is kept as the servers have it (kazoo.recipe.cache).

It uses `Client.tree`: all look-ups between two events are of one moment, so no transaction is seen by half.
"""

from __future__ import annotations

import logging
from typing import TYPE_CHECKING, Any, Callable, NamedTuple, Optional

from dirwolleu import exceptions as own
from dirwolleu._trees import Tree
from dirwolleu.kazoo.exceptions import KazooException
from dirwolleu.kazoo.protocol.paths import own_path
from dirwolleu.kazoo.protocol.states import Callback, KazooState, ZnodeStat
from dirwolleu.tree import TreeNode, TreeSnapshot

if TYPE_CHECKING:
    from dirwolleu.kazoo._session import Session
    from dirwolleu.kazoo.client import KazooClient

__all__ = ["NodeData", "TreeCache", "TreeEvent", "TreeNode"]

log = logging.getLogger(__name__)


class NodeData(NamedTuple):
    """A node of a tree."""

    path: str
    data: Optional[bytes]
    stat: ZnodeStat
    """`cversion` and `aversion` are None: no watch reports these."""


class _Event(NamedTuple):
    event_type: int
    event_data: Optional[NodeData]
    """The node of NODE_ADDED and NODE_UPDATED, and the former one of NODE_REMOVED."""


class TreeEvent(_Event):
    """The argument of a listener: `event_type` is one of these, and `event_data` the node that it is about."""

    __slots__ = ()

    NODE_ADDED = 0
    NODE_UPDATED = 1
    NODE_REMOVED = 2
    CONNECTION_SUSPENDED = 3
    CONNECTION_RECONNECTED = 4
    CONNECTION_LOST = 5
    INITIALIZED = 6
    """All of the tree was reported, at first or since the session was lost."""

    @classmethod
    def make(cls, event_type: int, event_data: Optional[NodeData]) -> TreeEvent:
        """An event."""
        return cls(event_type, event_data)


_OF_STATES = {
    KazooState.SUSPENDED: TreeEvent.CONNECTION_SUSPENDED,
    KazooState.CONNECTED: TreeEvent.CONNECTION_RECONNECTED,
    KazooState.LOST: TreeEvent.CONNECTION_LOST,
}


class TreeCache:
    """All nodes at and below a path, which are read again when they change, through lost connections and new sessions.

    Each state of the tree is of one moment. The handler reports its changes one after the other: a new node after its parent,
    a removed one before. `most` bounds the number of its nodes.

        cache = TreeCache(client, "/config")
        cache.listen(print)
        cache.start()
        print(cache.get_children("/config"))
        cache.close()
    """

    STATE_LATENT, STATE_STARTED, STATE_CLOSED = 0, 1, 2

    def __init__(self, client: KazooClient, path: str, most: int = 65_536) -> None:
        self._client, self._path, self._most = client, own_path(path), most
        self._state = self.STATE_LATENT
        self._listeners: list[Callable[[TreeEvent], object]] = []
        self._fault_listeners: list[Callable[[Exception], object]] = []
        self._session: Optional[Session] = None
        self._tree: Optional[Tree] = None
        self._snapshot = TreeSnapshot(self._path, 0, ())
        self._is_initialized = self._is_told = False

    def start(self) -> None:
        """Begins to read, and makes the path's node if there is none. Raises `KazooException` if it was begun before."""
        if self._state != self.STATE_LATENT:
            raise KazooException("a cache is started once, and not after it was closed")
        self._state = self.STATE_STARTED
        self._client.ensure_path(self._path)
        self._client.add_listener(self._told_state)
        self._follow()

    def close(self) -> None:
        """Reads no more, reports no more, and forgets its nodes."""
        self._state = self.STATE_CLOSED
        self._client.remove_listener(self._told_state)
        if self._tree is not None:
            self._tree.close()
        self._snapshot = TreeSnapshot(self._path, 0, ())

    def listen(self, listener: Callable[[TreeEvent], object]) -> Callable[[TreeEvent], object]:
        """Calls a function with each `TreeEvent`."""
        self._listeners.append(listener)
        return listener

    def listen_fault(self, listener: Callable[[Exception], object]) -> Callable[[Exception], object]:
        """Calls a function with each exception of a listener, and each reason why the tree can't be read."""
        self._fault_listeners.append(listener)
        return listener

    def get_data(self, path: str, default: Any = None) -> Any:
        """The `NodeData` of a node, if there is one, else `default`. Raises `ValueError` if the path is not in the tree."""
        node = self._snapshot.get(self._checked(path))
        return default if node is None else _data_of(node, self._snapshot)

    def get_children(self, path: str, default: Any = None) -> Any:
        """The names below a node as a frozenset, if there is one, else `default`. Raises `ValueError` as `get_data`."""
        spelled, snapshot = self._checked(path), self._snapshot
        return frozenset(snapshot.children(spelled)) if spelled in snapshot else default

    def _checked(self, path: str) -> str:
        spelled = own_path(path)
        if spelled != self._path and not spelled.startswith(self._path.rstrip("/") + "/"):
            raise ValueError(f"{path} is not at or below {self._path}")
        return spelled

    def _follow(self) -> None:
        """Follows the tree by the session that the client has now."""
        session = self._client._session
        if session is not None and session is not self._session and self._state == self.STATE_STARTED:
            self._session = session
            self._tree = session.tree(self._path, most=self._most)
            self._tree._waiting.append(self._wake)
            self._wake()

    def _wake(self) -> None:
        """Within a step of the engine: makes the handler look."""
        if not self._is_told:
            self._is_told = True
            self._client.handler.dispatch_callback(Callback("cache", self._look, ()))

    def _look(self) -> None:
        """Reports how the newest snapshot differs from the one before."""
        self._is_told = False
        tree = self._tree
        if tree is None or self._state != self.STATE_STARTED:
            return
        latest, trouble = tree.latest, tree.trouble
        if isinstance(trouble, own.NoNodeError):
            latest = TreeSnapshot(self._path, 0, ())
        elif trouble is not None:
            self._tell_fault(trouble)
        if latest is None:
            return
        self._tell_changes(latest)
        if not self._is_initialized:
            self._is_initialized = True
            self._tell(TreeEvent.INITIALIZED)

    def _tell_changes(self, latest: TreeSnapshot) -> None:
        before, self._snapshot = self._snapshot, latest
        change = latest.changed_since(before)
        for path in reversed(change.removed):
            self._tell(TreeEvent.NODE_REMOVED, _data_of(before[path], before))
        for path in change.changed:
            self._tell(TreeEvent.NODE_UPDATED, _data_of(latest[path], latest))
        for path in change.added:
            self._tell(TreeEvent.NODE_ADDED, _data_of(latest[path], latest))

    def _told_state(self, state: str) -> None:
        if state == KazooState.LOST:
            self._is_initialized = False
        self._client.handler.dispatch_callback(Callback("cache", self._tell, (_OF_STATES[state],)))
        if state == KazooState.CONNECTED:
            self._follow()
            self._wake()

    def _tell(self, event_type: int, data: Optional[NodeData] = None) -> None:
        if self._state == self.STATE_STARTED:
            for listener in list(self._listeners):
                try:
                    listener(TreeEvent(event_type, data))
                except Exception as error:
                    self._tell_fault(error)

    def _tell_fault(self, error: Exception) -> None:
        log.warning("the tree at %s: %s", self._path, error)
        for listener in list(self._fault_listeners):
            try:
                listener(error)
            except Exception:
                log.exception("a listener for faults has failed")


def _data_of(node: TreeNode, snapshot: TreeSnapshot) -> NodeData:
    unknown: Any = None
    stat = ZnodeStat(
        *node.stat[:5], unknown, unknown, node.stat.ephemeral_owner, node.stat.data_length,
        len(snapshot.children(node.path)), node.pzxid,
    )  # fmt: skip
    return NodeData(node.path, node.data, stat)
