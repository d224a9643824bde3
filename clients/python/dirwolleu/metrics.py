"""A client's activity in numbers: the events that `observe` reports, and a page of them for Prometheus.

    metrics = Metrics(client)
    page = metrics.text()

The series have the same names in C, Rust and Python.
"""

from __future__ import annotations

import bisect
import math
from collections.abc import Iterator
from typing import TYPE_CHECKING, Any, NamedTuple, Optional, Union

if TYPE_CHECKING:
    from dirwolleu._shown import Shown

__all__ = ["CallEvent", "ConnectionEvent", "Metrics", "Observation", "Transfer"]


class ConnectionEvent(NamedTuple):
    """Something has happened to a connection, or to the session."""

    kind: str
    """`connected`: a server has accepted the session. `failed`: an attempt to connect has failed. `over`: a connection has ended.
    `expired`: the session has expired."""
    reason: str
    """Of `over`: `ended` by the server or the network, `silent`, `unreadable`, `server_behind`, `watches_refused`, `expired`, `closed`,
    `credentials_refused` or `dropped`."""
    words: str
    """Why, in words."""
    server: str
    session_id: int


class CallEvent(NamedTuple):
    """A call was answered, or will not be. One that nobody waits for any more is not reported."""

    kind: str
    """`exists`, `get`, `children`, `set`, `create`, `delete`, `transaction`, `sync`, `acl`, `close` or `other`."""
    path: Optional[str]
    outcome: str
    """`ok`, `refused` by the server, `lost`, `expired`, `closed`, `not_connected`, `late`, or `not_asked`: refused before it was sent, or its
    answer is too long."""
    code: int
    """ZooKeeper's number of the server's error, 0 if it has not answered or all was well."""
    zxid: int
    """The greatest zxid that was seen by then."""
    seconds: float
    """How long it took, from the request on."""


class Transfer(NamedTuple):
    """Bytes went over the connection."""

    direction: str
    """`in`: from the server. `out`: to it."""
    size: int


Observation = Union[ConnectionEvent, CallEvent, Transfer]

BOUNDS = (0.001, 0.002, 0.005, 0.01, 0.02, 0.05, 0.1, 0.2, 0.5, 1, 2, 5, 10)
"""The bounds, in seconds, up to which calls are counted together."""


class _Histogram:
    def __init__(self) -> None:
        self.counts, self.total = [0] * (len(BOUNDS) + 1), 0.0

    def add(self, seconds: float) -> None:
        self.counts[bisect.bisect_left(BOUNDS, seconds)] += 1
        self.total += seconds


class Metrics:
    """Counts what a client does from now on, and prints it as Prometheus reads it. Any thread may ask for the page."""

    def __init__(self, client: Shown) -> None:
        self._client = client
        self._connections = self._failed = self._expired = 0
        self._ends: dict[str, int] = {}
        self._calls: dict[tuple[str, str], int] = {}
        self._seconds: dict[str, _Histogram] = {}
        self._bytes = {"in": 0, "out": 0}
        client.observe(self._take)

    def _take(self, told: Observation) -> None:
        """Runs in the client's own thread. No lock is taken: the others only look."""
        if isinstance(told, Transfer):
            self._bytes[told.direction] += told.size
        elif isinstance(told, CallEvent):
            key = told.kind, told.outcome
            self._calls[key] = self._calls.get(key, 0) + 1
            if told.outcome != "not_asked":
                self._seconds.setdefault(told.kind, _Histogram()).add(told.seconds)
        elif told.kind == "over":
            self._ends[told.reason] = self._ends.get(told.reason, 0) + 1
        else:
            self._connections += told.kind == "connected"
            self._failed += told.kind == "failed"
            self._expired += told.kind == "expired"

    def text(self) -> str:
        """The page: the text format 0.0.4 of Prometheus, whose type is `text/plain; version=0.0.4`."""
        return "".join(f"{line}\n" for line in self._lines())

    def _lines(self) -> Iterator[str]:
        yield from _series("connections_total", "counter", "Servers have accepted the session so often.", [("", self._connections)])
        yield from _series("attempts_failed_total", "counter", "Attempts to connect of which no connection came.", [("", self._failed)])
        ends = [(_labels(reason=reason), count) for reason, count in sorted(self._ends.copy().items())]
        yield from _series("connection_ends_total", "counter", "Connections that are over.", ends)
        yield from _series("sessions_lost_total", "counter", "Sessions that have expired.", [("", self._expired)])
        calls = [(_labels(kind=kind, outcome=outcome), count) for (kind, outcome), count in sorted(self._calls.copy().items())]
        yield from _series("calls_total", "counter", "Calls that were answered, or will not be.", calls)
        yield from self._histogram()
        sums = [(_labels(direction=direction), count) for direction, count in self._bytes.items()]
        yield from _series("bytes_total", "counter", "Bytes read from servers, and written to them.", sums)
        yield from self._gauges()

    def _histogram(self) -> Iterator[str]:
        rows: list[tuple[str, str, Union[int, float]]] = []
        for kind, seconds in sorted(self._seconds.copy().items()):
            count = 0
            for bound, more in zip((*map(str, BOUNDS), "+Inf"), seconds.counts):
                count += more
                rows.append(("_bucket", _labels(kind=kind, le=bound), count))
            rows += [("_sum", _labels(kind=kind), seconds.total), ("_count", _labels(kind=kind), count)]
        yield from _head("call_seconds", "histogram", "From the question to the answer, of calls that were asked.")
        for suffix, labels, number in rows:
            yield f"dirwolleu_call_seconds{suffix}{labels} {number}"

    def _gauges(self) -> Iterator[str]:
        age = self._client.age()
        if math.isfinite(age):
            yield from _series("age_seconds", "gauge", "Since a server was heard: how old what is followed, and good, may be.", [("", age)])
        followed, size = self._client._engine.holdings()
        kinds = [(_labels(kind=kind), count) for kind, count in followed.items()]
        yield from _series("followed", "gauge", "What is followed.", kinds)
        yield from _series("kept_bytes", "gauge", "Bytes of paths, data and names that are kept of what is followed.", [("", size)])


def _head(name: str, kind: str, what: str) -> list[str]:
    return [f"# HELP dirwolleu_{name} {what}", f"# TYPE dirwolleu_{name} {kind}"]


def _series(name: str, kind: str, what: str, rows: list[tuple[str, Any]]) -> list[str]:
    return [*_head(name, kind, what), *(f"dirwolleu_{name}{labels} {number}" for labels, number in rows)]


def _labels(**named: str) -> str:
    """These words have neither quotes nor backslashes."""
    return "{" + ",".join(f'{name}="{text}"' for name, text in named.items()) + "}"
