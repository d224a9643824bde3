"""The errors of kazoo, by its names and with its codes (kazoo.exceptions)."""

from __future__ import annotations

from typing import Optional

from dirwolleu import exceptions as own
from dirwolleu.security import AuthFailedError as OwnAuthFailedError


class KazooException(Exception):
    """The base of all errors of kazoo."""


class ZookeeperError(KazooException):
    """The error of a call, of a server or by the state of the session. Its text has the path, and what to do."""

    code: Optional[int] = None
    """ZooKeeper's number of the error, and None if there is none."""

    is_final = False
    """Whether a `KazooRetry` does not call again: a sequential node may have been made, and there would be two."""


class CancelledError(KazooException):
    """Another thread has cancelled it."""


class ConfigurationError(KazooException):
    """The arguments do not fit, or name what this package does not do."""


class ConnectionDropped(KazooException):
    """The connection is over. It is here only for programs that catch it: calls raise `ConnectionLoss`."""


class LockTimeout(KazooException):
    """A lock was not taken in time."""


class RolledBackError(ZookeeperError):
    """An operation of a transaction did not happen, since a later one was refused."""

    code = 0


class SystemZookeeperError(ZookeeperError):
    """An error of the server itself."""

    code = -1


class RuntimeInconsistency(ZookeeperError):
    """An operation of a transaction was not tried, since an earlier one was refused."""

    code = -2


class DataInconsistency(ZookeeperError):
    """The server has found its data inconsistent."""

    code = -3


class ConnectionLoss(ZookeeperError):
    """The connection ended before the answer: a change may or may not have happened. Or no connection came in time."""

    code = -4


class MarshallingError(ZookeeperError):
    """A request or an answer does not parse."""

    code = -5


class UnimplementedError(ZookeeperError):
    """The server does not know the request."""

    code = -6


class OperationTimeoutError(ZookeeperError):
    """No answer came in time: it may or may not have happened."""

    code = -7


class BadArgumentsError(ZookeeperError):
    """The server refuses the path, the mode or the data."""

    code = -8


class NewConfigNoQuorumError(ZookeeperError):
    """The servers of a new configuration are no quorum that follows the leader."""

    code = -13


class ReconfigInProcessError(ZookeeperError):
    """The servers are being changed already."""

    code = -14


class APIError(ZookeeperError):
    """An error that a server answers if it has no more specific one."""

    code = -100


class NoNodeError(ZookeeperError):
    """There is no node of this path, or for a create no parent."""

    code = -101


class NoAuthError(ZookeeperError):
    """The node's ACL does not admit this client."""

    code = -102


class BadVersionError(ZookeeperError):
    """The node has another version."""

    code = -103


class NoChildrenForEphemeralsError(ZookeeperError):
    """The parent is an ephemeral node."""

    code = -108


class NodeExistsError(ZookeeperError):
    """There is a node of this path already."""

    code = -110


class NotEmptyError(ZookeeperError):
    """The node has children."""

    code = -111


class SessionExpiredError(ZookeeperError):
    """The session has expired, with its ephemeral nodes and its watches."""

    code = -112


class InvalidCallbackError(ZookeeperError):
    """The server refuses the callback."""

    code = -113


class InvalidACLError(ZookeeperError):
    """The server refuses the ACL."""

    code = -114


class AuthFailedError(ZookeeperError):
    """The server refuses the credentials."""

    code = -115


class SessionMovedError(ZookeeperError):
    """The session was taken up over another connection."""

    code = -118


class NotReadOnlyCallError(ZookeeperError):
    """The server reads only. Only its name is here: this package connects to no such server."""

    code = -119


class ConnectionClosedError(SessionExpiredError):
    """The client is not started, or was stopped."""


class _Exceptions(dict[int, type[ZookeeperError]]):
    def __missing__(self, code: int) -> type[ZookeeperError]:
        raise RuntimeError(f"Invalid error code: {code}")


EXCEPTIONS = _Exceptions({kind.code: kind for kind in ZookeeperError.__subclasses__() if kind.code is not None})
"""The classes by ZooKeeper's numbers."""

NoNodeException, NodeExistsException, NotEmptyException, BadVersionException = NoNodeError, NodeExistsError, NotEmptyError, BadVersionError
NoAuthException, AuthFailedException, InvalidACLException = NoAuthError, AuthFailedError, InvalidACLError
NoChildrenForEphemeralsException, BadArgumentsException = NoChildrenForEphemeralsError, BadArgumentsError
ConnectionLossException, SessionExpiredException, OperationTimeoutException = ConnectionLoss, SessionExpiredError, OperationTimeoutError
MarshallingErrorException, UnimplementedException, ApiErrorException = MarshallingError, UnimplementedError, APIError
SystemErrorException, RuntimeInconsistencyException, DataInconsistencyException = SystemZookeeperError, RuntimeInconsistency, DataInconsistency
InvalidCallbackException, ZookeeperStoppedError = InvalidCallbackError, ConnectionClosedError


def error_of_code(code: int) -> ZookeeperError:
    """The error of a number that a server has answered."""
    kind = EXCEPTIONS.get(code)
    if kind is not None:
        return kind()
    error = ZookeeperError(f"the server answers {code}")
    error.code = code
    return error


def _kind_of(error: BaseException) -> type[ZookeeperError]:
    if isinstance(error, own.ConnectionClosedError):
        return ConnectionClosedError
    if isinstance(error, own.CallTimeoutError):
        return OperationTimeoutError
    if isinstance(error, OwnAuthFailedError):
        return AuthFailedError
    if isinstance(error, ValueError):  # from a path
        return BadArgumentsError
    code = getattr(error, "code", None)
    return EXCEPTIONS.get(code, ZookeeperError) if isinstance(code, int) else ZookeeperError


def error_of(error: BaseException) -> BaseException:
    """The error of kazoo for one of dirwolleu, which is its cause."""
    if isinstance(error, KazooException):
        return error
    if not isinstance(error, (own.ZookeeperError, ValueError, MemoryError)):
        return error
    found = _kind_of(error)(str(error))
    if found.code is None:
        found.code = getattr(error, "code", None)
    found.__cause__ = error
    return found
