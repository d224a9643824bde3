"""Requests over a connection of their own: four letters, and over another session those that the client's session does not carry.
"""

from __future__ import annotations

import socket
import struct
from collections.abc import Iterable
from typing import Callable

from dirwolleu import _jute as jute
from dirwolleu._credentials import Credential
from dirwolleu._jute import Malformed, Reader
from dirwolleu.kazoo.exceptions import AuthFailedError, ConnectionLoss, ZookeeperError, error_of_code

RECONFIG = 16
_AUTH, _AUTH_XID, _XID = 100, -4, 1
_CLOSE = struct.pack(">ii", 2, -11)
_LONGEST = 4_194_304
_TIMEOUT_MS = 10_000
_LONGEST_WORDS = 65536


def all_of(receive: Callable[[int], bytes]) -> bytes:
    """The bytes up to the end of a connection, as far as they are of use."""
    taken = b""
    while len(taken) < _LONGEST_WORDS and (piece := receive(8192)):
        taken += piece
    return taken


def asked_aside(connection: socket.socket, credentials: Iterable[Credential], operation: int, body: bytes) -> Reader:
    """The answer's body to a request by a new session with these credentials. Raises the server's error, and `ConnectionLoss`."""
    try:
        with connection:
            return _asked(connection, credentials, operation, body)
    except (OSError, Malformed) as error:
        raise ConnectionLoss(f"the connection for this request has failed: {error}") from error


def _asked(connection: socket.socket, credentials: Iterable[Credential], operation: int, body: bytes) -> Reader:
    _send(connection, struct.pack(">iqiqi", 0, 0, _TIMEOUT_MS, 0, 16) + bytes(16))
    _frame(connection)
    for scheme, credential in credentials:
        _send(connection, struct.pack(">iii", _AUTH_XID, _AUTH, 0) + jute.text(scheme) + jute.buffer(credential))
        try:
            _reply(connection, _AUTH_XID)
        except ZookeeperError:
            raise AuthFailedError("the server does not take the credentials") from None
    _send(connection, struct.pack(">ii", _XID, operation) + body)
    found = _reply(connection, _XID)
    _send(connection, _CLOSE)
    return found


def _send(connection: socket.socket, payload: bytes) -> None:
    connection.sendall(jute.buffer(payload))


def _frame(connection: socket.socket) -> bytes:
    length = int.from_bytes(_exactly(connection, 4), "big", signed=True)
    if not 0 <= length <= _LONGEST:
        raise Malformed(f"a frame of {length} bytes")
    return _exactly(connection, length)


def _exactly(connection: socket.socket, count: int) -> bytes:
    taken = b""
    while len(taken) < count:
        piece = connection.recv(count - len(taken))
        if not piece:
            raise ConnectionError("the server has closed it")
        taken += piece
    return taken


def _reply(connection: socket.socket, xid: int) -> Reader:
    """The body of the answer of this xid."""
    while True:
        frame = _frame(connection)
        if len(frame) < 16:
            raise Malformed("an answer does not read")
        found, _, code = struct.unpack_from(">iqi", frame)
        if found == xid:
            if code:
                raise error_of_code(code)
            return Reader(frame[16:])
