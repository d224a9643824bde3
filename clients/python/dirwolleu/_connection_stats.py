"""Counters of connections and calls, and the pings that wait for their answers."""

from __future__ import annotations

import collections
import struct
from collections.abc import Iterator
from typing import Optional, Union

_PONG = struct.pack(">ii", 16, -2)
"""How the answer to a ping begins: its length and its xid."""


def is_ping(frame: bytes) -> bool:
    """Whether a frame to the server, with its length, is a ping."""
    return frame[4:8] == _PONG[4:]


class Pings:
    """The pings on one connection that wait for their answers.

    The session takes the answers and does not report them. So while a ping waits, the bytes that come are searched for the beginning of
    an answer. The data of a node may have the same bytes; then the ping counts as answered when they come.
    """

    def __init__(self) -> None:
        self.waiting: collections.deque[int] = collections.deque()
        """When each of them was sent."""
        self._tail = b""

    def sent(self, now: int) -> None:
        self.waiting.append(now)

    def answered_by(self, data: Union[bytes, memoryview]) -> Iterator[int]:
        """When each of the pings was sent that these bytes answer."""
        seen = self._tail + data
        for _ in range(min(seen.count(_PONG), len(self.waiting))):
            yield self.waiting.popleft()
        self._tail = seen[1 - len(_PONG) :] if self.waiting else b""


class ConnectionStats:
    """Counters of connections and calls. Moments are milliseconds."""

    dials: int = 0
    """How many attempts to connect there were."""

    admissions: int = 0
    """On how many connections a server accepted the session."""

    answers: int = 0
    """How many calls a server has answered, without the answers that end the connection."""

    losses: int = 0
    """How many calls have ended without an answer."""

    expiries: int = 0
    """How many sessions have expired."""

    heard_at: int = 0
    """When a server that had accepted the session was last heard, or when dialling began."""

    proved_at: Optional[int] = None
    """When the newest answered call or ping was handed in, or when a lock asked for the listing by which it holds. All that the server
    sent before that answer has been taken in."""

    round_trip: Optional[float] = None
    """How long answers took recently, in milliseconds."""

    def answered(self, asked_at: int, now: int) -> None:
        """A call or a ping was answered."""
        took, average = float(now - asked_at), self.round_trip
        self.prove(asked_at)
        self.round_trip = took if average is None else average + (took - average) / 8

    def prove(self, asked_at: int) -> None:
        """A server has answered a call or a ping that was handed in at this moment, or later."""
        if self.proved_at is None or asked_at > self.proved_at:
            self.proved_at = asked_at
