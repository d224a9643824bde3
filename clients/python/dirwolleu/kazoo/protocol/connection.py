"""The markers that kazoo's harness for tests hands to `client._call` to lose a connection, or a session
(kazoo.protocol.connection).
"""

from __future__ import annotations

import socket
import struct

_CONNECTION_DROP = object()
_SESSION_EXPIRED = object()

_CLOSE = struct.pack(">iii", 8, 0, -11)
_WAIT = 10.0


def _end_elsewhere(address: tuple[str, int], number: int, password: bytes) -> None:
    """Ends a session at its server over another connection, so that it has expired for its client. Raises `OSError`."""
    connect = struct.pack(">iqiqi", 0, 0, 10000, number, len(password)) + password
    with socket.create_connection(address, _WAIT) as connection:
        connection.sendall(struct.pack(">i", len(connect)) + connect + _CLOSE)
        while connection.recv(4096):
            pass
