"""The proved server in memory at a port of this machine, for one connection at a time."""

from __future__ import annotations

import contextlib
import socket
import threading
import time
from typing import Iterator, NamedTuple

from machine import Server

ROOM = 1 << 16
PAUSE = 0.0005
"""Seconds between two pieces."""
REQUESTS = 16
"""The most requests that are processed after one read."""


class Heard(NamedTuple):
    """Bytes of the client, and when they came, in seconds."""

    moment: float
    data: bytes


class World:
    """A server with an empty tree, whose clock stands at 0. It admits each session as the first one, as a server whose sessions don't end."""

    def __init__(self, host: str = "127.0.0.1", piece: int | None = None) -> None:
        self.heard: list[Heard] = []
        self._piece = piece
        self._server, self._lock = Server(), threading.Lock()
        self._family = socket.AF_INET6 if ":" in host else socket.AF_INET
        self._held = socket.socket(self._family)
        """Has the port while nobody listens, so that the system gives it to nobody else."""
        self._held.setsockopt(socket.SOL_SOCKET, socket.SO_REUSEADDR, 1)
        self._held.bind((host, 0))
        self.port: int = self._held.getsockname()[1]
        self._connection: socket.socket | None = None
        self.join()

    def _serve(self, listener: socket.socket) -> None:
        with contextlib.suppress(OSError):  # which says that nothing listens there any more
            while True:
                connection, _ = listener.accept()
                connection.setsockopt(socket.IPPROTO_TCP, socket.TCP_NODELAY, 1)
                with connection, contextlib.suppress(OSError):
                    self._hold(connection)

    def _hold(self, connection: socket.socket) -> None:
        with self._lock:
            self._server.connect(1)
            self._connection = connection
        while data := connection.recv(ROOM):
            self.heard.append(Heard(time.monotonic(), data))
            with self._lock:
                self._server.hear(data)
                for _ in range(REQUESTS):
                    self._server.process(0)
                self._say(connection)
                if not self._server.is_open:
                    return

    def _say(self, connection: socket.socket) -> None:
        """Sends what the server says: at once, or in pieces, between which a reader has time to come."""
        data = self._server.say()
        piece = self._piece or len(data) or 1
        for at in range(0, len(data), piece):
            connection.sendall(data[at : at + piece])
            if self._piece:
                time.sleep(PAUSE)

    def change(self, kind: int, path: str, data: bytes = b"") -> None:
        """Another session changes a node, and the server takes it at once."""
        with self._lock:
            self._server.change(0, kind, path, data)
            self._server.take(1)
            if self._connection:
                with contextlib.suppress(OSError):
                    self._say(self._connection)

    def part(self) -> None:
        """Nobody listens any more, and the connection ends."""
        for end in (self._listener, self._connection):
            if end:
                with contextlib.suppress(OSError):
                    end.shutdown(socket.SHUT_RDWR)
        self._listener.close()

    def join(self) -> None:
        """It listens, at its port."""
        self._listener = socket.create_server(self._held.getsockname(), family=self._family)
        threading.Thread(target=self._serve, args=(self._listener,), daemon=True).start()

    def end(self) -> None:
        self.part()
        self._held.close()


@contextlib.contextmanager
def world(host: str = "127.0.0.1", piece: int | None = None) -> Iterator[World]:
    served = World(host, piece)
    try:
        yield served
    finally:
        served.end()

