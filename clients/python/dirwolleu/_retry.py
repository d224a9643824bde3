"""When a call is asked again."""

from __future__ import annotations

import itertools
import random
import time
from collections.abc import Iterator
from typing import NamedTuple, Optional

from dirwolleu.exceptions import (
    CallTimeoutError,
    ConnectionClosedError,
    ConnectionLoss,
    SessionExpiredError,
    SessionMovedError,
    ZookeeperError,
)

_THROTTLED = -127
_PASSING = (ConnectionLoss.code, SessionExpiredError.code, SessionMovedError.code, _THROTTLED)


def is_passing(error: ZookeeperError) -> bool:
    """Whether a later try may succeed: the connection or the session was lost, or the server is busy."""
    return not isinstance(error, ConnectionClosedError) and error.code in _PASSING


def is_lived_through(error: ZookeeperError) -> bool:
    """Whether a wait that is longer than a call may ask again: also if no answer has come in time."""
    return is_passing(error) or isinstance(error, CallTimeoutError)


class _Bounds(NamedTuple):
    """The fields of a policy."""

    tries: Optional[int]
    """How often a call is asked, at most; None is no bound."""

    deadline: Optional[float]
    """For how many seconds tries begin; None is no bound."""

    pause: float
    """The first pause in seconds. Each one is twice the one before."""

    chance: float
    """The random part of a pause, from 0 to 1, so that many clients do not come back at one moment."""

    longest_pause: float
    """The longest pause, in seconds."""


class Retry(_Bounds):
    """A policy: how often a call is asked, and how long it pauses between two tries.

    A call is asked again if its connection or its session was lost, or the server was busy, and only if that can't make a change twice: if
    it only reads, was surely not sent, or has the same effect when it is done twice, as `ensure_path` has. A read whose connection was lost
    is asked again without a policy too. A write whose connection ended before its answer is not asked again: it raises `ConnectionLoss`,
    with `may_have_happened` true. After an expiry a call goes on in the new session.

        retry = Retry(tries=5, deadline=30.0)
        client = Client("127.0.0.1:2181", retry=retry)           # for each call
        stat = client.retry(client.exists, "/config")            # or for these alone
    """

    __slots__ = ()

    def __new__(
        cls,
        tries: Optional[int] = 5,
        deadline: Optional[float] = None,
        pause: float = 0.1,
        chance: float = 0.5,
        longest_pause: float = 10.0,
    ) -> Retry:
        if tries is not None and tries < 1:
            raise ValueError("a call is asked once at least")
        if not 0 <= chance <= 1 or pause < 0 or longest_pause < 0:
            raise ValueError("pauses are not below 0, and the part that is left to chance is 0 to 1")
        return super().__new__(cls, tries, deadline, pause, chance, longest_pause)

    def attempts(self) -> Attempts:
        """The tries of one call, which begin now."""
        return Attempts(self)

    def pauses(self) -> Iterator[float]:
        """The pauses between tries, with their random part.

        >>> list(Retry(tries=4, pause=1.0, chance=0.0).pauses())
        [1.0, 2.0, 4.0]
        """
        count = itertools.count() if self.tries is None else range(self.tries - 1)
        for number in count:
            pause = min(self.pause * 2.0 ** min(number, 64), self.longest_pause)
            yield pause * (1 - self.chance * random.random())


class Attempts:
    """The tries of one call."""

    def __init__(self, retry: Retry) -> None:
        self._pauses = retry.pauses()
        self._until = None if retry.deadline is None else time.monotonic() + retry.deadline

    def after(self, error: ZookeeperError) -> float:
        """How many seconds to wait before the call is asked again. Raises the error if it is not."""
        if error.may_have_happened or not is_passing(error):
            raise error
        pause = next(self._pauses, None)
        if pause is None or self._until is not None and time.monotonic() + pause > self._until:
            raise error
        return pause
