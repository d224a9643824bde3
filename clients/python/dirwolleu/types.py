"""The types of a client's answers and reports."""

from __future__ import annotations

import enum
from collections.abc import Mapping
from typing import Callable, NamedTuple, Optional, Union

__all__ = ["DataStat", "EventType", "Kept", "KeptChildren", "Mark", "Snapshot", "Stat", "State", "Stats", "Watch", "WatchedEvent"]


class State(str, enum.Enum):
    """The state of a client's session and connection."""

    CONNECTED = "CONNECTED"
    """A server has accepted the session."""

    SUSPENDED = "SUSPENDED"
    """There is a session and no connection. What is kept stays kept, and the watches are set again with the next
    connection.
    """

    LOST = "LOST"
    """There is no session: none was begun yet, it has expired, or the client was stopped. Nothing is kept or watched.
    """


class EventType(str, enum.Enum):
    """The event of a watch."""

    CREATED = "CREATED"
    DELETED = "DELETED"
    CHANGED = "CHANGED"
    CHILD = "CHILD"

    NONE = "NONE"
    """No event of the node: the watch has ended with the session."""


class WatchedEvent(NamedTuple):
    """The argument with which a watch is called, once."""

    type: EventType
    state: State
    path: str


Watch = Union[bool, Callable[[WatchedEvent], object], None]
"""Whether a read leaves a watch, so that its answer is kept.

A callable is called when the watch fires, and once if it was left on the same data or children more than once. True
calls nothing.
"""


class Mark(enum.IntEnum):
    """Whether a report to the client has ended a kept answer. It is about a zxid, and not about a time."""

    GOOD = 1
    """ZooKeeper held this at the last seen zxid, and no report to the client has ended it."""

    STALE = 2
    """A change was reported since, and the path was not read again."""


class Stat(NamedTuple):
    """The metadata of a node, as zookeeper.jute has them. Times are milliseconds since 1970."""

    czxid: int
    mzxid: int
    ctime: int
    mtime: int
    version: int
    cversion: int
    aversion: int
    ephemeral_owner: int
    data_length: int
    num_children: int
    pzxid: int


class DataStat(NamedTuple):
    """The fields of a `Stat` that change only if a data watch fires."""

    czxid: int
    mzxid: int
    ctime: int
    mtime: int
    version: int
    ephemeral_owner: int
    data_length: int


class Stats(NamedTuple):
    """The counts of a client since it was made, and its calls now."""

    dials: int
    """How many attempts to connect there were."""

    connections: int
    """On how many connections a server accepted the session."""

    expiries: int
    """How many sessions have expired."""

    answered: int
    """How many calls a server has answered, with a result or an error."""

    lost: int
    """How many calls have ended without an answer: with a connection or a session, or by their own timeout."""

    waiting: int
    """How many calls wait to be sent now."""

    in_flight: int
    """How many calls were sent and wait for their answers now."""

    round_trip: Optional[float]
    """How long answers to calls and pings took recently, in seconds, or None if none came yet."""


class Kept(NamedTuple):
    """The kept answer for a node that was read with a watch."""

    path: str

    mark: Mark

    last_zxid: int
    """The greatest zxid that the client has seen: if the mark is good, the answer is that of the history at this zxid.
    """

    stat: Optional[DataStat]
    """None if no node is there."""

    data: Optional[bytes]
    """The node's data. None if they are null, if they were not read, and if no node is there."""

    has_data: bool
    """Whether the data are known, null or not: `exists` alone does not bring them."""

    @property
    def exists(self) -> bool:
        """Whether there is a node."""
        return self.stat is not None


class Snapshot(NamedTuple):
    """The kept answers for several nodes, all good and of one moment: `client.snapshot` returns one."""

    zxid: int
    """The zxid at which the servers had all of it."""

    nodes: Mapping[str, Kept]
    """The kept answers for the nodes, by path."""

    children: Mapping[str, KeptChildren]
    """The kept answers for the names below the parents, by path."""


class KeptChildren(NamedTuple):
    """The kept answer for the children of a node that were read with a watch."""

    path: str

    mark: Mark

    last_zxid: int
    """The greatest zxid that the client has seen: if the mark is good, the names are those of the history at this
    zxid.
    """

    names: tuple[str, ...]
    """The names of the children, in the order of their bytes."""

    pzxid: int
    """The zxid of the last change of this set, 0 if there is no node."""

    exists: bool = True
    """Whether there is a node. `follow_children` yields its absence too, which is in the kept answer for its data."""
