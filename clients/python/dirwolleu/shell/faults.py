"""The ends of commands: the statuses and sentences of `zk_shell`."""

from __future__ import annotations

import errno
import os
import re
from typing import NamedTuple, Optional

from dirwolleu._paths import why_no_path
from dirwolleu.exceptions import (
    CallTimeoutError,
    ConnectionClosedError,
    ConnectionLoss,
    NoNodeError,
    NotConnectedError,
    SessionExpiredError,
    SessionMovedError,
    TooLargeError,
    TooManyWatchesError,
    ZookeeperError,
)
from dirwolleu.security import AuthFailedError
from dirwolleu.shell.printing import quoted, word

DONE, FAULT, USAGE, STREAM, NO_NODE, REFUSED = 0, 1, 2, 4, 5, 6
UNCONNECTED, UNANSWERED, NEVER_CONNECTED, UNREAD, MORE, INTERRUPTED = 7, 8, 9, 10, 11, 130
"""The exit statuses. Only `zk_shell` has 3, that memory ran out; 1 is a fault in a script."""

_CODES = {
    -4: "the server has lost its connection",
    -6: "the server does not know the request",
    -8: "the path, the flags or the data are refused",
    -102: "the ACL does not admit it",
    -103: "the node has another version",
    -108: "the parent is ephemeral",
    -110: "the node is there",
    -111: "the node has children",
    -112: "the session is over",
    -114: "the open ACL is refused",
    -118: "the session was taken up over another connection",
}
_PATHS = {
    "it is empty": "the path is empty",
    "more than 4096 bytes": "the path has more than 4,096 bytes",
    "no slash at its beginning": "the path does not begin with a slash",
    "a character that paths do not have": "the path has a character that no path may have",
    "an empty name": "the path has an empty name: two slashes follow one another, or it ends with a slash",
    "a name that is . or ..": "the path has a name of one dot or of two",
}
_REASONS = {
    errno.ENOSPC: "no storage space",
    errno.ENOENT: "there is no such file",
    errno.EACCES: "the system does not let it be read",
}
_NUMBERED = ("C2", "C3", "D2", "D3")
"""The faults of a connection whose values are the numbers of their words, in their order."""
_UNREAD = {"is cut off": "J1", "is below -1": "J2", "is neither 0 nor 1": "J3", "is not UTF-8": "J4"}
"""Why a message does not parse, by the end of its words."""
_UNANSWERED = (ConnectionLoss, SessionMovedError, ConnectionClosedError)
_CLIENTS_OWN = {
    TooManyWatchesError: "65,536 paths of the side are watched, pending reads counted",
    TooLargeError: "the payload has more than 1,048,575 bytes",
}


class Ending(Exception):
    """The end of a command: its status, and its message."""

    def __init__(self, status: int, told: str = "") -> None:
        super().__init__(told)
        self.status, self.told = status, told


def usage(words: str) -> Ending:
    """The command line has a fault."""
    return Ending(USAGE, f"error: {words}")


def refused(words: str) -> Ending:
    """A word of the command line is not understood."""
    return usage(f"{words}\n\nFor more information, try '--help'.")


def path_fault(path: str) -> Optional[Ending]:
    """Why a word of the command line is no path of a node, or None if it is one."""
    why = why_no_path(path)
    return None if why is None else usage(f"{quoted(path)}: {_PATHS[why]}")


def unread(name: str, error: OSError) -> Ending:
    """A file that the words name gives no data."""
    return Ending(UNREAD, f"unread: {name}: {_REASONS.get(error.errno or 0, 'a read failed')}")


def unwritten(error: Exception) -> Ending:
    """Standard output failed. Whoever has closed it gets no message."""
    if isinstance(error, BrokenPipeError):
        return Ending(STREAM)
    number = error.errno if isinstance(error, OSError) else None
    why = _REASONS.get(number, os.strerror(number).lower()) if number is not None else str(error)
    return Ending(STREAM, f"error: standard output: {why}")


def late(path: str, is_read: bool, was_sent: bool) -> Ending:
    """The time of a call is over. A read changes nothing, whether it was sent or not."""
    why = "" if is_read else ", and it may or may not have happened" if was_sent else ", and it was not sent"
    return Ending(UNANSWERED, f"no answer: {path}: its time is over{why}")


def of_call(error: ZookeeperError, path: str, is_read: bool) -> Ending:
    """How a command ends after this error of its call."""
    if isinstance(error, NoNodeError):
        return Ending(NO_NODE, f"no node: {path}")
    if isinstance(error, (CallTimeoutError, NotConnectedError)):
        return late(path, is_read, error.may_have_happened)
    if isinstance(error, ConnectionLoss) and not error.is_answer:
        return Ending(UNANSWERED, f"no answer: {path}: the connection was lost: the call may or may not have happened")
    if isinstance(error, SessionExpiredError) and not error.is_answer:
        return expired(path)
    if isinstance(error, _UNANSWERED) and not error.is_answer:
        return Ending(UNANSWERED, f"no answer: {path}: {_CODES.get(error.code or 0, 'the session is closed or is being closed')}")
    own = _CLIENTS_OWN.get(type(error)) or (str(error) if error.code is None else None)
    if own is not None:
        return Ending(REFUSED, f"refused: {path}: {own}")
    words = _CODES.get(error.code or 0, "the server refuses it")
    if isinstance(error, AuthFailedError) and error.args:
        words = error.args[0]
    return Ending(REFUSED, f"refused: {path}: {words} ({error.code})")


def values_of(fault: str, words: str) -> list[str]:
    """The values of a connection's fault after its code, by its words."""
    if fault in _NUMBERED:
        return re.findall(r"-?\d+", words)
    unread = re.fullmatch(r".* at byte (\d+) (.*)", words) if fault in ("C4", "C5") else None
    return [_UNREAD[unread[2]], "at", unread[1]] if unread is not None and unread[2] in _UNREAD else []


class Dialled(NamedTuple):
    """How the last attempt at an address went."""

    address: str
    reason: str


def expired(path: str) -> Ending:
    """A server has said that the session has expired."""
    return Ending(UNANSWERED, f"no answer: {path}: the session has expired")


def unconnected(path: str, dialled: list[Dialled]) -> Ending:
    lines = [f"not connected: {path}: no server has answered in time"]
    return Ending(UNCONNECTED, "\n".join([*lines, *(f"{word(address)}: {reason}" for address, reason in dialled)]))
