"""States and events, by kazoo's names (kazoo.protocol.states)."""

from __future__ import annotations

from typing import Any, Callable, NamedTuple, Optional


class KazooState:
    """The state of a client, as its listeners get it."""

    SUSPENDED = "SUSPENDED"
    """There is no connection, and the session may live."""
    CONNECTED = "CONNECTED"
    LOST = "LOST"
    """The session is over, or the client was stopped: its ephemeral nodes and its watches are gone."""


class KeeperState:
    """The state of a session, as a watch gets it."""

    AUTH_FAILED = "AUTH_FAILED"
    CONNECTED = "CONNECTED"
    CONNECTED_RO = "CONNECTED_RO"
    CONNECTING = "CONNECTING"
    CLOSED = "CLOSED"
    EXPIRED_SESSION = "EXPIRED_SESSION"


class EventType:
    """The event of a watch."""

    CREATED = "CREATED"
    DELETED = "DELETED"
    CHANGED = "CHANGED"
    CHILD = "CHILD"
    NONE = "NONE"
    """No event of the node: the watch has ended, with the connection or the session."""


class WatchedEvent(NamedTuple):
    """The argument with which a watch is called, once: the type is one of `EventType`, the state one of `KeeperState`.
    """

    type: str
    state: str
    path: Optional[str]
    """The node, or None if the watch has ended with the connection or the session."""


class Callback(NamedTuple):
    """A function and its arguments, for a handler to call."""

    type: str
    func: Callable[..., object]
    args: tuple[Any, ...]


class ZnodeStat(NamedTuple):
    """The metadata of a node, by the names of zookeeper.jute. Times are milliseconds since 1970."""

    czxid: int
    mzxid: int
    ctime: int
    mtime: int
    version: int
    cversion: int
    aversion: int
    ephemeralOwner: int
    dataLength: int
    numChildren: int
    pzxid: int

    @property
    def acl_version(self) -> int:
        """The number of changes of the ACL."""
        return self.aversion

    @property
    def children_version(self) -> int:
        """The number of changes of the set of children."""
        return self.cversion

    @property
    def created(self) -> float:
        """When the node was made, in seconds since 1970."""
        return self.ctime / 1000.0

    @property
    def last_modified(self) -> float:
        """When the data were set, in seconds since 1970."""
        return self.mtime / 1000.0

    @property
    def owner_session_id(self) -> Optional[int]:
        """The session that an ephemeral node belongs to, None if it is none."""
        return self.ephemeralOwner or None

    @property
    def creation_transaction_id(self) -> int:
        """The zxid at which the node was made."""
        return self.czxid

    @property
    def last_modified_transaction_id(self) -> int:
        """The zxid at which the data were set."""
        return self.mzxid

    @property
    def data_length(self) -> int:
        """The number of bytes of the data."""
        return self.dataLength

    @property
    def children_count(self) -> int:
        """The number of children."""
        return self.numChildren
