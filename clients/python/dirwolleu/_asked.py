"""A program's request, and the waiter for its answer."""

from __future__ import annotations

from typing import Any, Optional, Protocol

from dirwolleu._library import Answer
from dirwolleu._paths import shown
from dirwolleu._requests import Request
from dirwolleu._root import Root
from dirwolleu.exceptions import CallTimeoutError, NoNodeError, NotConnectedError, ZookeeperError


class Waiter(Protocol):
    """Something that waits for an answer, such as a future. It is done even if it waits no longer."""

    def begin(self) -> bool:
        """Hears that the request is handed over next, and returns whether anybody still waits for its answer."""

    def cancel(self) -> object: ...
    def done(self) -> bool: ...
    def set_result(self, result: Any, /) -> None: ...
    def set_exception(self, exception: Any, /) -> None: ...


class Asked:
    """A request, the waiter for its answer, and its limit: the moment from which it waits no longer, sent or not.

    Without a limit of its own, it waits until `until` while no server accepts the session; if one does, the hand-over sets
    its limit.
    """

    __slots__ = "request", "waiter", "until", "ends_at", "root", "sent_at", "is_sent", "is_handed"

    def __init__(
        self,
        request: Request[Any],
        waiter: Waiter,
        until: int,
        ends_at: Optional[int] = None,
        root: Root = Root(),
    ) -> None:
        self.request, self.waiter, self.until, self.ends_at = request, waiter, until, ends_at
        self.root = root
        self.sent_at, self.is_sent, self.is_handed = 0, False, False

    def fail(self, error: BaseException) -> None:
        if self.waiter.done():
            return
        if isinstance(error, ZookeeperError):
            error.path = error.path or self.request.path
            error.may_have_happened = error.may_have_happened and not self.request.is_repeatable
            if self.root.path and error.path == "/" and isinstance(error, NoNodeError):
                error.args = "no node", f"that is the root of this client, {shown(self.root.path)}"
        self.waiter.set_exception(error)

    def settle(self, answer: Answer) -> None:
        """Gives the waiter the answer, as the request reads it. Raises `Malformed` if it does not parse."""
        if not self.waiter.done():
            try:
                self.waiter.set_result(self.request.result(answer, self.root))
            except ZookeeperError as error:
                self.fail(error)

    def give_up(self, no_server: str) -> None:
        """The limit has come. If it is not the caller's own, and nothing was sent, no server was found in time."""
        if self.ends_at is None and not self.is_sent:
            return self.fail(NotConnectedError(no_server))
        fate = "it may still happen" if self.is_sent else "it was not sent, and is not sent any more"
        error = CallTimeoutError("no answer has come in time", fate)
        error.may_have_happened = error.was_sent = self.is_sent
        self.fail(error)
