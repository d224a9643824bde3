"""The requests that wait to be handed over, in the order of asking, and the limits of those that the library does not have."""

from __future__ import annotations

import collections
import heapq
import itertools
from collections.abc import Iterator
from typing import Optional

from dirwolleu._asked import Asked


class Line:
    """The requests that are handed over later, since the core has as many as it may have: `waiting`, the one that was asked first in
    front. And the limits of these, and of credentials.
    """

    def __init__(self) -> None:
        self.waiting: collections.deque[Asked] = collections.deque()
        self._limits: list[tuple[int, int, Asked]] = []
        self._numbers = itertools.count()

    def __len__(self) -> int:
        return len(self.waiting)

    def add(self, asked: Asked) -> None:
        self.waiting.append(asked)
        if asked.ends_at is not None:
            self.limit(asked, asked.ends_at)

    def limit(self, asked: Asked, moment: int) -> None:
        """Bounds the wait of a request by this moment."""
        heapq.heappush(self._limits, (moment, next(self._numbers), asked))

    def late(self, now: int, is_connected: bool) -> list[Asked]:
        """The requests whose limit has come, which wait no longer: while no server has accepted the session, also those that have
        waited for one for too long.
        """
        ended: list[Asked] = []
        while self._limits and (self._limits[0][0] <= now or self._has_none(self._limits[0][2])):
            asked = heapq.heappop(self._limits)[2]
            ended += [] if self._has_none(asked) else [asked]
        if not is_connected:
            ended += [asked for asked in self._patient() if asked.until <= now]
        return ended

    def deadline(self, is_connected: bool) -> Optional[int]:
        """The first moment at which a limit comes."""
        moments = [self._limits[0][0]] if self._limits else []
        if not is_connected:
            moments += [asked.until for asked in itertools.islice(self._patient(), 1)]
        return min(moments, default=None)

    def tidy(self) -> None:
        """Forgets the requests that nobody waits for."""
        while self.waiting and self.waiting[0].waiter.done():
            self.waiting.popleft()
        if len(self._limits) > 1024 + 2 * len(self.waiting):
            self._limits = [limit for limit in self._limits if not self._has_none(limit[2])]
            heapq.heapify(self._limits)

    def clear(self) -> list[Asked]:
        """Forgets all, and returns those that wait to be handed over."""
        left = list(self.waiting)
        self.waiting.clear()
        self._limits.clear()
        return left

    def _has_none(self, asked: Asked) -> bool:
        """Whether a request has no limit here: it was answered, or the core has it."""
        return asked.is_handed or asked.waiter.done()

    def _patient(self) -> Iterator[Asked]:
        """Those that wait without a limit of their own."""
        return (asked for asked in self.waiting if asked.ends_at is None and not asked.waiter.done())
