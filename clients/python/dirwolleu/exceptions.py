"""The errors of calls. The names are kazoo's, if kazoo has one."""

from __future__ import annotations

from typing import Optional

from dirwolleu._paths import shown

__all__ = [
    "BadArgumentsError",
    "BadVersionError",
    "CallTimeoutError",
    "ConnectionClosedError",
    "ConnectionLoss",
    "InvalidACLError",
    "LockLostError",
    "LockTimeout",
    "MixedNamesError",
    "NoAuthError",
    "NoChildrenForEphemeralsError",
    "NoNodeError",
    "NodeExistsError",
    "NotConnectedError",
    "NotEmptyError",
    "SessionExpiredError",
    "SessionMovedError",
    "TooLargeError",
    "TooManyWatchesError",
    "TransactionFailedError",
    "UnimplementedError",
    "ZookeeperError",
]


_OPEN = "it may or may not have happened: read again"


class ZookeeperError(Exception):
    """The base of all errors of calls.

    Its text is the reason, the path, and what to do if the reason does not say it: `no node: /nope`. `code` is ZooKeeper's number of the
    error, below 0, and None if ZooKeeper has none.
    """

    code: Optional[int] = None
    path: Optional[str] = None
    """The node that the call is about; of a create that its parent prevents, the parent. None if there is none."""

    may_have_happened: bool = False
    """Whether a change that was asked for may have happened, or may still: asking again might do it twice."""

    is_answer: bool = False
    """Whether a server answered the call with this code, if the client itself may raise it too, as when the session has expired."""

    entry: Optional[bytes] = None
    """Of `Queue.get`, if an entry may have been taken out: its data."""

    _reason, _advice = "the call has failed", ""

    def __str__(self) -> str:
        """The arguments are the reason and the advice. Each may be left out."""
        reason, advice = self._reason, self._advice
        if self.args:
            reason, advice = self.args[0], _OPEN if self.may_have_happened else ""
        if len(self.args) > 1:
            advice = self.args[1]
        about = f": {shown(self.path)}" if self.path is not None else ""
        return f"{reason}{about}" + (f"; {advice}" if advice else "")


class ConnectionLoss(ZookeeperError):
    """The connection ended before the reply. A write may or may not have happened. A read is asked again instead."""

    code = -4
    may_have_happened = True
    _reason = "the connection ended before the reply"
    _advice = _OPEN


class NotConnectedError(ConnectionLoss):
    """No server accepted the session in time. Nothing was sent, so nothing has happened."""

    may_have_happened = False
    _reason = "no server has accepted the session"
    _advice = "call again later"

    def __str__(self) -> str:
        return str(self.args[0]) if self.args else super().__str__()


class CallTimeoutError(ZookeeperError, TimeoutError):
    """No answer came in time: within the `timeout` of the call, or that of the session. If `may_have_happened` is true, it may still
    happen.
    """

    _reason = "no answer has come in time"

    was_sent = False
    """Whether the request was sent to a server."""


class UnimplementedError(ZookeeperError):
    """The server does not know this request."""

    code = -6
    _reason = "the server does not know the request"


class BadArgumentsError(ZookeeperError):
    """The server refuses the path, the flags or the data."""

    code = -8
    _reason = "the server refuses the path, the mode or the data"


class NoNodeError(ZookeeperError):
    """There is no node of this path, or for a create no parent."""

    code = -101
    _reason = "no node"


class NoAuthError(ZookeeperError):
    """The node's ACL does not admit this client with the credentials that it has."""

    code = -102
    _reason = "the node's ACL does not admit this client"


class BadVersionError(ZookeeperError):
    """The node has another version than the call names."""

    code = -103
    _reason = "the node has another version"
    _advice = "read it again"


class NoChildrenForEphemeralsError(ZookeeperError):
    """The parent is an ephemeral node."""

    code = -108
    _reason = "an ephemeral node has no children"


class NodeExistsError(ZookeeperError):
    """There is a node of this path already."""

    code = -110
    _reason = "there is a node already"


class NotEmptyError(ZookeeperError):
    """The node has children."""

    code = -111
    _reason = "the node has children"
    _advice = "delete them first"


class SessionExpiredError(ZookeeperError):
    """The session has expired, with its ephemeral nodes and its watches. Nothing was sent."""

    code = -112
    _reason = "the session has expired"
    _advice = "call again: another one begins"


class InvalidACLError(ZookeeperError):
    """The server refuses the ACL."""

    code = -114
    _reason = "the server does not take this ACL"


class LockLostError(ZookeeperError):
    """A lock is no longer shown to be held."""


class LockTimeout(ZookeeperError, TimeoutError):
    """A lock was not taken in time. No contender is left, or the client goes on to delete it."""


class MixedNamesError(ZookeeperError):
    """Others contend for a lock by names that this contender's can't be mixed with: kazoo's with Curator's. `path` is that of the lock. No
    contender of its own is left.
    """

    _reason = "contenders by another kind of names are there"
    _advice = "all contenders of a path use one kind of names"


class SessionMovedError(ZookeeperError):
    """The session was taken up over another connection."""

    code = -118
    _reason = "the session was taken up over another connection"
    _advice = "have one program use it"


class ConnectionClosedError(ZookeeperError):
    """The client is not started, or was stopped or closed. Nothing was sent, unless the call was on its way by then."""

    _reason = "the session is closed"
    _advice = "start the client"


class TooManyWatchesError(ZookeeperError):
    """65,536 paths are watched for their data, or as many for their children. Nothing was sent."""

    _reason = "65536 paths are watched"
    _advice = "read without a watch, or in another session"


class TransactionFailedError(ZookeeperError):
    """An operation of a transaction was refused, so that none of them has happened."""

    def __init__(self, message: str, index: int = 0, error: Optional[ZookeeperError] = None) -> None:
        super().__init__(message, index, error)
        self.index = index
        """Which operation was refused, from 0 on."""
        self.error = error
        """Why it was refused."""
        if error is not None:
            self.code, self.path = error.code, error.path

    def __str__(self) -> str:
        return str(self.args[0])


class TooLargeError(ZookeeperError):
    """The request would have more than 1,048,575 bytes, or than `longest_request` of the client, and was not sent; or the answer to a read
    has more than 4,194,304, or than `longest_answer`, and is not asked for again."""

    _reason = "the request or its answer is longer than the session allows"
    _advice = "send or read less, or raise longest_request or longest_answer"


# made by scripts/interface from include/interface.toml
_OTHERS = {
    -1: ("the server has failed", ""),
    -2: ("the server has found itself inconsistent", ""),
    -3: ("the server has found its data inconsistent", ""),
    -5: ("the server can not read the request", ""),
    -7: ("the server has not done it in time", ""),
    -12: ("the server does not know the session", ""),
    -13: ("no quorum of the new servers is connected", ""),
    -14: ("the servers are being changed", "call again later"),
    -100: ("the server refuses the request", ""),
    -113: ("the callback is refused", ""),
    -115: ("the server does not take these credentials", ""),
    -119: ("the server is read-only", ""),
    -120: ("a local session makes no ephemeral nodes", ""),
    -121: ("no such watch is set", ""),
    -122: ("the leader has not answered the server in time", ""),
    -123: ("the servers are not to be changed by clients", ""),
    -124: ("the server wants SASL, and has closed the session", ""),
    -125: ("the quota would be exceeded", ""),
    -127: ("the server has too much to do", "call again later"),
}
# end of what is made


def error_of(code: int) -> ZookeeperError:
    """The error of a code that a server answered. One without a class of its own is a plain `ZookeeperError`."""
    for kind in ZookeeperError.__subclasses__():
        if kind.code == code:
            return kind()
    error = ZookeeperError(*_OTHERS.get(code, (f"the server answers {code}", "")))
    error.code = code
    return error
