"""The observers of a client."""

from __future__ import annotations

import logging
import time
from collections.abc import Sequence
from typing import Any, Callable, Optional

from dirwolleu import _library as library
from dirwolleu._asked import Waiter
from dirwolleu._cache_view import CacheView
from dirwolleu._followed import Followed
from dirwolleu._requests import Request
from dirwolleu._session import Session
from dirwolleu.exceptions import (
    CallTimeoutError,
    ConnectionClosedError,
    ConnectionLoss,
    NotConnectedError,
    SessionExpiredError,
    TooLargeError,
    TooManyWatchesError,
    ZookeeperError,
)
from dirwolleu.metrics import CallEvent, ConnectionEvent, Observation, Transfer
from dirwolleu.security import AuthFailedError
from dirwolleu.tree import TreeSnapshot

logger = logging.getLogger("dirwolleu")

Function = Callable[[Observation], object]

DROPPED = -1
"""The cause of the end of a connection that the host itself has given up, beside the causes of the library."""
LATE = "an answer has taken more than two thirds of the timeout"
ELSEWHERE = "the server has said that the session is over or elsewhere"
MOVED = "the hosts are others"
_REASONS = {
    DROPPED: "dropped",
    library.BAD_FRAME: "unreadable",
    library.BAD_PAYLOAD: "unreadable",
    library.SILENT: "silent",
    library.BEHIND: "server_behind",
    library.WATCHES_REFUSED: "watches_refused",
}
_KINDS = frozenset(("exists", "get", "children", "set", "create", "delete", "close"))
_RAW = {
    library.MULTI: "transaction",
    library.SYNC: "sync",
    library.GET_ACL: "acl",
    library.SET_ACL: "acl",
    library.CREATE2: "create",
    library.CREATE_CONTAINER: "create",
    library.CREATE_TTL: "create",
}
_OUTCOMES: tuple[tuple[type[BaseException], str], ...] = (
    (NotConnectedError, "not_connected"),
    (TooLargeError, "not_asked"),
    (TooManyWatchesError, "not_asked"),
    (ConnectionLoss, "lost"),
    (ConnectionClosedError, "closed"),
    (SessionExpiredError, "expired"),
    (AuthFailedError, "refused"),
    (ZookeeperError, "refused"),
)


def reason_of(cause: int, why: str, is_refused: bool, is_running: bool) -> str:
    """Why a connection is over."""
    if cause:
        return _REASONS.get(cause, "dropped")
    if is_refused:
        return "credentials_refused"
    if why == LATE:
        return "silent"
    if why == ELSEWHERE or why.startswith("the server answered"):
        return "expired"
    return "ended" if is_running else "closed"


def kind_of(request: Request[Any]) -> str:
    """The kind of a request."""
    if request.call is Session.raw:
        return _RAW.get(request.words[0], "other")
    first, _, last = request.call.__name__.partition("_")
    return next((word for word in (last, first) if word in _KINDS), "other")


def outcome_of(error: BaseException) -> str:
    """The outcome of a call that has this error."""
    if isinstance(error, CallTimeoutError):
        return "late" if error.was_sent else "not_connected"
    return next((outcome for kind, outcome in _OUTCOMES if isinstance(error, kind)), "not_asked")


def holdings_of(
    looks: CacheView, subjects: Sequence[Followed], trees: Sequence[Optional[TreeSnapshot]]
) -> tuple[dict[str, int], int]:
    """How many nodes, lists of children and trees are followed, and the bytes that are kept for these."""
    size = 0
    for one in subjects:
        if one.side == library.DATA_SIDE:
            kept = looks.kept(one.path)
            size += 0 if kept is None else len(one.path.encode()) + len(kept.data or b"")
        else:
            children = looks.kept_children(one.path)
            size += 0 if children is None else len(one.path.encode()) + sum(len(name.encode()) for name in children.names)
    for tree in trees:
        size += sum(len(path.encode()) + len(node.data or b"") for path, node in (tree or {}).items())
    nodes = sum(one.side == library.DATA_SIDE for one in subjects)
    return {"node": nodes, "children": len(subjects) - nodes, "tree": len(trees)}, size


class Observers:
    """The functions that observe a client. If one of them raises an exception, it is logged."""

    def __init__(self, looks: CacheView) -> None:
        self.functions: list[Function] = []
        self._looks = looks

    def tell(self, told: Observation) -> None:
        for function in self.functions:
            try:
                function(told)
            except Exception:
                logger.exception("what observes a client has failed")

    def contact(self, kind: str, server: str, session_id: int, reason: str = "", words: str = "") -> None:
        self.tell(ConnectionEvent(kind, reason, words, server, session_id))

    def transfer(self, direction: str, count: int) -> None:
        if count:
            self.tell(Transfer(direction, count))

    def watching(self, request: Request[Any], waiter: Waiter) -> Waiter:
        """A waiter instead of this one, which reports the outcome too."""
        return _Watching(self, request, waiter)

    def call(self, request: Request[Any], outcome: str, code: int, seconds: float) -> None:
        self.tell(CallEvent(kind_of(request), request.path, outcome, code, self._looks.last_zxid(), seconds))


class _Watching:
    """A waiter whose outcome is reported to the observers too."""

    __slots__ = "_observers", "_request", "_waiter", "_began"

    def __init__(self, observers: Observers, request: Request[Any], waiter: Waiter) -> None:
        self._observers, self._request, self._waiter = observers, request, waiter
        self._began = time.perf_counter()

    def begin(self) -> bool:
        return self._waiter.begin()

    def cancel(self) -> object:
        return self._waiter.cancel()

    def done(self) -> bool:
        return self._waiter.done()

    def set_result(self, result: Any) -> None:
        self._tell("ok", 0)
        self._waiter.set_result(result)

    def set_exception(self, error: Any) -> None:
        outcome = outcome_of(error)
        self._tell(outcome, (getattr(error, "code", 0) or 0) if outcome == "refused" else 0)
        self._waiter.set_exception(error)

    def _tell(self, outcome: str, code: int) -> None:
        self._observers.call(self._request, outcome, code, time.perf_counter() - self._began)


class Observed(CacheView):
    """A session whose steps are reported to observers."""

    observers: Optional[Observers] = None
    place = trouble = ""
    """The server of the connection, and how the last attempt went, in words."""
    _number = 0

    def observe(self, function: Function) -> None:
        self.observers = self.observers or Observers(self)
        self.observers.functions.append(function)

    def attempt_failed(self) -> None:
        """An attempt to connect has failed. `trouble` says why."""
        self._observe("failed", "", self.trouble)

    def _observe(self, kind: str, reason: str = "", words: str = "") -> None:
        if self.observers is not None:
            self.observers.contact(kind, self.place, self._number, reason, words)

    def _fields(self) -> dict[str, Any]:
        """The fields of a record of the log beside its words, for searches."""
        return {"session_id": f"{self._number:#x}", "server": self.place, "zxid": self.last_zxid()}
