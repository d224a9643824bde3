"""The servers for tests of clients: the server in memory, in a process of its own, and servers that a test writes itself."""

from __future__ import annotations

import contextlib
import functools
import json
import pathlib
import socket
import struct
import subprocess
import sys
import threading
import time
from collections.abc import Iterator
from typing import Any, Callable, NamedTuple, Optional

__all__ = [
    "CLOSE_SESSION", "EXISTS", "GET_DATA", "PASSWORD", "PING", "SET_WATCHES", "STAT", "WAIT", "Asked", "Connected", "Listener", "Partner", "Peer",
    "RawServer", "begin_making", "buffer", "data_reply", "framed", "notice", "reply", "text", "texts",
]  # fmt: skip

WAIT = 60.0
"""The longest that a test waits for one thing, in seconds: a busy machine takes less."""


@functools.cache
def begin_making() -> tuple[subprocess.Popen[str], int]:
    """The process that makes partners, and its port. It ends with the last process that was forked from this one after the first call."""
    command = [sys.executable, "-B", str(pathlib.Path(__file__).with_name("maker.py"))]
    maker = subprocess.Popen(command, stdin=subprocess.PIPE, stdout=subprocess.PIPE, text=True)
    assert maker.stdout is not None
    return maker, int(maker.stdout.readline().split()[1])


def framed(*payloads: bytes) -> bytes:
    """Each payload after its length."""
    return b"".join(map(buffer, payloads))


def buffer(data: bytes) -> bytes:
    return struct.pack(">i", len(data)) + data


def text(value: str) -> bytes:
    return buffer(value.encode())


def texts(*values: str) -> bytes:
    return struct.pack(">i", len(values)) + b"".join(map(text, values))


class Partner:
    """A server in memory, in a process of its own."""

    def __init__(self, *options: str) -> None:
        self._commands = socket.create_connection(("127.0.0.1", begin_making()[1]), 6 * WAIT)
        self._answers = self._commands.makefile()
        self.port = int(self.ask(json.dumps(options)).split()[1])
        self.host = f"127.0.0.1:{self.port}"

    def ask(self, command: str) -> str:
        """Hands in a command, and returns the answer."""
        self._commands.sendall(f"{command}\n".encode())
        return self._answers.readline().strip()

    def do(self, *commands: str) -> None:
        """Hands in commands, each of which has to be done."""
        for command in commands:
            answer = self.ask(command)
            if answer != "done":
                raise AssertionError(f"{command}: {answer}")

    def stop(self) -> None:
        """Ends the process, unless it has ended. Its data are lost."""
        if self._answers.closed:
            return
        with self._commands, self._answers:
            self._commands.shutdown(socket.SHUT_WR)
            self._answers.read()


class Asked(NamedTuple):
    """A request."""

    xid: int
    kind: int
    body: bytes


class Connected(NamedTuple):
    """The fields of a ConnectRequest."""

    last_zxid: int
    timeout_ms: int
    session: int


PING, EXISTS, GET_DATA, SET_WATCHES, CLOSE_SESSION = 11, 3, 4, 101, -11
PASSWORD = struct.pack(">i", 16) + bytes(16)
STAT = struct.pack(">qqqqiiiqiiq", 5, 5, 0, 0, 0, 0, 0, 0, 3, 0, 5)


class Peer:
    """A connection, as a server that a test writes has it. Each of its functions raises `OSError` if it is over."""

    def __init__(self, connection: socket.socket) -> None:
        self.connection = connection

    def take_payload(self) -> bytes:
        return self.take_bytes(struct.unpack(">i", self.take_bytes(4))[0])

    def take(self) -> Asked:
        payload = self.take_payload()
        xid, kind = struct.unpack(">ii", payload[:8])
        return Asked(xid, kind, payload[8:])

    def take_connect(self) -> Connected:
        _, last_zxid, timeout_ms, session = struct.unpack(">iqiq", self.take_payload()[:24])
        return Connected(last_zxid, timeout_ms, session)

    def admit(self, timeout_ms: Optional[int] = None) -> Connected:
        """Accepts the session, with the requested timeout or another one."""
        asked = self.take_connect()
        self.send(struct.pack(">iiq", 0, timeout_ms or asked.timeout_ms, asked.session or 7) + PASSWORD + b"\0")
        return asked

    def requests(self, timeout_ms: Optional[int] = None) -> Iterator[Asked]:
        """Accepts the session, and yields each request as it comes."""
        self.admit(timeout_ms)
        while True:
            yield self.take()

    def refuse(self) -> None:
        """Says that the session has expired."""
        self.send(struct.pack(">iiq", 0, 0, 0) + PASSWORD + b"\0")

    def send(self, *payloads: bytes) -> None:
        self.send_bytes(framed(*payloads))

    def send_bytes(self, data: bytes) -> None:
        self.connection.sendall(data)

    def finish(self) -> None:
        """Sends no more, and takes what comes until the connection is over: so the bytes that were sent arrive, also if more came than
        was read.
        """
        self.connection.shutdown(socket.SHUT_WR)
        while True:
            self.take_payload()

    def reset(self) -> None:
        """Ends the connection by a reset, at once."""
        self.connection.setsockopt(socket.SOL_SOCKET, socket.SO_LINGER, struct.pack("ii", 1, 0))
        self.connection.close()

    def trickle(self, data: bytes, pause: float) -> None:
        """Sends a byte after the other, with pauses."""
        for byte in data:
            self.send_bytes(bytes([byte]))
            time.sleep(pause)

    def take_bytes(self, count: int) -> bytes:
        taken = b""
        while len(taken) < count:
            piece = self.connection.recv(count - len(taken))
            if not piece:
                raise ConnectionError("the connection is over")
            taken += piece
        return taken


def reply(asked: Asked, body: bytes = b"", code: int = 0, zxid: int = 5) -> bytes:
    return struct.pack(">iqi", asked.xid, zxid, code) + body


def notice(path: str, event: int = 3) -> bytes:
    return struct.pack(">iqiii", -1, -1, 0, event, 3) + text(path)


def data_reply(asked: Asked, data: bytes, zxid: int = 5) -> bytes:
    return reply(asked, buffer(data) + STAT, zxid=zxid)


class Listener:
    """Takes connections at a port of its own, in a thread of its own, until it is stopped."""

    def __init__(self) -> None:
        self._listener = socket.create_server(("127.0.0.1", 0))
        self.port: int = self._listener.getsockname()[1]
        self.host = f"127.0.0.1:{self.port}"
        threading.Thread(target=self._accept, daemon=True).start()

    def _accept(self) -> None:
        with contextlib.suppress(OSError):
            while True:
                self._take(self._listener.accept()[0])

    def _take(self, connection: socket.socket) -> None:
        """Begins with a connection, and returns."""
        raise NotImplementedError

    def stop(self) -> None:
        with contextlib.suppress(OSError):
            self._listener.shutdown(socket.SHUT_RDWR)
        self._listener.close()


class RawServer(Listener):
    """A server whose behaviour a test writes: a function serves each connection, in a thread of its own."""

    def __init__(self, serve: Callable[[Any], object], peer: type[Peer] = Peer) -> None:
        self._serve, self._peer = serve, peer
        self.dials: list[float] = []
        """The moments of the connections."""
        self.ends: list[float] = []
        """The moments at which connections have ended."""
        super().__init__()

    def _take(self, connection: socket.socket) -> None:
        self.dials.append(time.monotonic())
        threading.Thread(target=self._run, args=(connection,), daemon=True).start()

    def _run(self, connection: socket.socket) -> None:
        with connection, contextlib.suppress(OSError):
            self._serve(self._peer(connection))
        self.ends.append(time.monotonic())
