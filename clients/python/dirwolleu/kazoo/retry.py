"""When a call is made again (kazoo.retry)."""

from __future__ import annotations

import random
import time
from typing import Any, Callable, Optional, TypeVar

from dirwolleu.kazoo.exceptions import (
    ConnectionClosedError,
    ConnectionLoss,
    KazooException,
    OperationTimeoutError,
    SessionExpiredError,
)

Returned = TypeVar("Returned")

ENDLESS = -1
LONGEST_SLEEP = 0.1
"""How long a pause lasts, in seconds, before `interrupt` is asked again."""


class ForceRetryError(Exception):
    """A function raises this to be called again."""


class RetryFailedError(KazooException):
    """The tries or the time of a policy are used up."""


class InterruptedError(RetryFailedError):
    """The function `interrupt` of a policy has returned true."""


class KazooRetry:
    """Calls a function again if its connection or its session was lost.

    It is kazoo's policy, so a change that may have happened is made again too: a create may then raise `NodeExistsError` for a node of its
    own. A sequential create is not made again: it raises its error. `max_tries` is how often the function is called again: -1 and None are
    no bound; `delay` is the first pause in seconds, each later one is `backoff` times the one before, up to `max_delay`, and up to the part
    `max_jitter` of each is random. With `deadline` no pause begins that would end after this many seconds. An expired session counts unless
    `ignore_expire` is false. A client that is stopped is never asked again.
    """

    RETRY_EXCEPTIONS: tuple[type[Exception], ...] = (ConnectionLoss, OperationTimeoutError, ForceRetryError)
    EXPIRED_EXCEPTIONS: tuple[type[Exception], ...] = (SessionExpiredError,)

    def __init__(
        self,
        max_tries: Optional[int] = 1,
        delay: float = 0.1,
        backoff: float = 2,
        max_jitter: float = 0.4,
        max_delay: float = 60.0,
        ignore_expire: bool = True,
        sleep_func: Callable[[float], object] = time.sleep,
        deadline: Optional[float] = None,
        interrupt: Optional[Callable[[], object]] = None,
    ) -> None:
        self.max_tries, self.delay, self.backoff = max_tries, delay, backoff
        self.max_jitter, self.max_delay = max(min(max_jitter, 1.0), 0.0), float(max_delay)
        self.sleep_func, self.deadline, self.interrupt = sleep_func, deadline, interrupt
        self.retry_exceptions = self.RETRY_EXCEPTIONS + (self.EXPIRED_EXCEPTIONS if ignore_expire else ())
        self.reset()

    def reset(self) -> None:
        """Begins to count from the first try."""
        self._attempts = 0
        self._cur_delay = self.delay
        self._until: Optional[float] = None

    def copy(self) -> KazooRetry:
        """The same policy, which counts for itself."""
        other = KazooRetry(
            self.max_tries,
            self.delay,
            self.backoff,
            self.max_jitter,
            self.max_delay,
            sleep_func=self.sleep_func,
            deadline=self.deadline,
            interrupt=self.interrupt,
        )
        other.retry_exceptions = self.retry_exceptions
        return other

    def __call__(self, func: Callable[..., Returned], *args: Any, **kwargs: Any) -> Returned:
        """Calls a function until it returns, or raises an error that is not tried again. Raises `RetryFailedError`."""
        self.reset()
        if self.deadline is not None:
            self._until = time.monotonic() + self.deadline
        while True:
            try:
                return func(*args, **kwargs)
            except ConnectionClosedError:
                raise
            except self.retry_exceptions as error:
                if getattr(error, "is_final", False):
                    raise
                pause = self.next_pause(error)
            self._sleep(pause)

    def next_pause(self, error: Optional[BaseException] = None) -> float:
        """How long to wait before the next try, in seconds. Raises `RetryFailedError` if there is none."""
        if self._attempts == self.max_tries:
            raise RetryFailedError("Too many retry attempts") from error
        self._attempts += 1
        pause = self._cur_delay * random.uniform(1.0 - self.max_jitter, 1.0 + self.max_jitter)
        if self._until is not None and time.monotonic() + pause >= self._until:
            raise RetryFailedError("Exceeded retry deadline") from error
        self._cur_delay = min(pause * self.backoff, self.max_delay)
        return pause

    def _sleep(self, pause: float) -> None:
        if self.interrupt is None:
            self.sleep_func(pause)
            return
        until = time.monotonic() + pause
        while (left := until - time.monotonic()) > 0:
            self.sleep_func(min(LONGEST_SLEEP, left))
            if self.interrupt():
                raise InterruptedError()
