"""The requests that a program can make of a server, and the results of their answers."""

from __future__ import annotations

from typing import Any, Callable, Generic, NamedTuple, Optional, TypeVar

from dirwolleu import _library as library
from dirwolleu._checks import checked_data, checked_function, checked_path, checked_version
from dirwolleu._library import Answer
from dirwolleu._paths import parent
from dirwolleu._root import Root
from dirwolleu._session import Action, Session
from dirwolleu.exceptions import (
    ConnectionClosedError,
    ConnectionLoss,
    NoChildrenForEphemeralsError,
    NoNodeError,
    NotConnectedError,
    SessionExpiredError,
    TooLargeError,
    TooManyWatchesError,
    ZookeeperError,
    error_of,
)
from dirwolleu.types import Stat, Watch, WatchedEvent

Result = TypeVar("Result")

_CODE, _DATA, _CREATED, _NAMES = library.CODE, library.DATA, library.CREATED, library.NAMES  # a module's own names are quicker

# made by scripts/interface from include/interface.toml
_ERRORS: dict[int, type[ZookeeperError]] = {
    library.LOST: ConnectionLoss,
    library.AFTER_EXPIRY: SessionExpiredError,
    library.AFTER_CLOSE: ConnectionClosedError,
    library.NOT_CONNECTED: NotConnectedError,
    library.TOO_MANY_WATCHES: TooManyWatchesError,
    library.TOO_LARGE: TooLargeError,
}
# end of what is made


def refusal_of(code: int, created: Optional[str] = None) -> ZookeeperError:
    """The error of a code that a server answered. Its path may be the parent, if a node can't be created for that reason."""
    error = error_of(code)
    error.is_answer = True
    if created is not None and isinstance(error, (NoNodeError, NoChildrenForEphemeralsError)):
        error.path = parent(created)
    return error


class Watcher(NamedTuple):
    """A function to call when a watch fires."""

    path: str
    side: int
    function: Callable[[WatchedEvent], object]


class Request(Generic[Result]):
    """A call of a session, at a moment, with a ticket and a limit, whose answer brings a result of this type.

    Once it is asked it does not change.
    """

    __slots__ = "call", "path", "words", "is_repeatable", "watcher"

    is_exists = is_create = False

    def __init__(
        self,
        call: Callable[..., list[Action]],
        path: Optional[str] = None,
        words: tuple[Any, ...] = (),
        is_repeatable: bool = False,
        watcher: Optional[Watcher] = None,
    ) -> None:
        self.call, self.words = call, words
        """The step of a session, and its arguments after the moment, the ticket and the limit."""
        self.path = path
        """The path of the node that it is about."""
        self.is_repeatable = is_repeatable
        """Whether it does no harm to ask it again if it may have happened."""
        self.watcher = watcher

    def leaves_watch(self, answer: Answer) -> bool:
        """Whether a watch that was asked for is left: if there is no node, only `exists` leaves one."""
        is_absent = answer.result == library.CODE
        return answer.lack == 0 and (not is_absent or self.is_exists and answer.code == NoNodeError.code)

    def result(self, answer: Answer, root: Root) -> Any:
        """The result in the answer. Raises its error. The root is that of the client."""
        _, lack, result, code, stat, text, names, _ = answer
        if lack:
            raise _ERRORS[lack]()
        if result == _DATA:
            return text, stat
        if result == _CODE:
            if self.is_exists and code == NoNodeError.code:
                return None
            raise refusal_of(code, self.path if self.is_create else None)
        if result == _CREATED:
            return (text or b"").decode()
        return names if result == _NAMES else stat


class _Exists(Request[Result]):
    __slots__ = ()
    is_exists = True


class _Create(Request[Result]):
    __slots__ = ()
    is_create = True


def _watcher(path: str, side: int, watch: Watch) -> Optional[Watcher]:
    if watch is None or isinstance(watch, bool):
        return None
    return Watcher(path, side, checked_function("a watch that is no bool", watch))


def _read(call: Callable[..., list[Action]], path: str, side: int, watch: Watch) -> tuple[Any, ...]:
    """The arguments of a request that reads a side of a node."""
    return call, checked_path(path), (path, bool(watch)), True, _watcher(path, side, watch)


def exists(path: str, watch: Watch) -> Request[Optional[Stat]]:
    return _Exists(*_read(Session.exists, path, library.DATA_SIDE, watch))


def get(path: str, watch: Watch) -> Request[tuple[Optional[bytes], Stat]]:
    return Request(*_read(Session.get_data, path, library.DATA_SIDE, watch))


def get_children(path: str, watch: Watch) -> Request[list[str]]:
    return Request(*_read(Session.get_children, path, library.CHILDREN_SIDE, watch))


def set(path: str, value: Optional[bytes], version: int) -> Request[Stat]:
    return Request(Session.set_data, checked_path(path), (path, checked_data(value), checked_version(version)))


def create(path: str, value: Optional[bytes], ephemeral: bool, sequence: bool) -> Request[str]:
    mode = (library.EPHEMERAL if ephemeral else 0) | (library.SEQUENTIAL if sequence else 0)
    return _Create(Session.create, checked_path(path), (path, checked_data(value), mode))


def delete(path: str, version: int) -> Request[None]:
    return Request(Session.delete, checked_path(path), (path, checked_version(version)))


def close_session() -> Request[None]:
    return Request(Session.close_session)
