"""The connection of a blocking client: a socket that the thread of all clients polls."""

from __future__ import annotations

import functools
import os
import socket
from typing import TYPE_CHECKING, Any, Callable, Optional

from dirwolleu._driver import CLOSED, Driver
from dirwolleu._hosts import Place
from dirwolleu._poll import READ, WRITE, Reactor
from dirwolleu._rooms import Inbox

if TYPE_CHECKING:
    import ssl

MOST_ROOMS = 8
"""How often a room that was filled is filled again at once, at most: then others have their turn."""

Do = Callable[..., object]


class Link:
    """One connection to a server, or an attempt to make it. All of it runs in the thread that polls."""

    not_now: tuple[type[OSError], ...] = (BlockingIOError, InterruptedError)
    """The errors of a socket that is not ready."""

    def __init__(self, reactor: Reactor, do: Do, driver: Driver) -> None:
        """`do` makes a step of the client, and does what follows from it."""
        self._reactor, self._do, self._driver = reactor, do, driver
        self.inbox = Inbox(reactor.rooms)
        self._socket: Optional[socket.socket] = None
        self._unsent = bytearray()
        self._is_over = False

    def dial(self, number: int) -> None:
        """Begins an attempt to connect to the server at a place of the list."""
        if not self._is_over:
            try:
                self._driver.servers.find(number, self._soon, self._found)
            except RuntimeError as error:  # no thread can be started for a look-up
                self._fail(error)

    def write(self, frames: bytes) -> None:
        if self._socket is None:
            return
        if not self._unsent:
            try:
                sent = self._socket.send(frames)
            except self.not_now:
                sent = 0
            except OSError as error:  # not within this step
                return self._soon(functools.partial(self.end, str(error)))
            if sent == len(frames):
                return
            frames = frames[sent:]
            self._watch(READ | WRITE)
        self._unsent += frames

    def close(self) -> None:
        """Ends the connection, or the attempt to make one, at once. The engine has asked for it."""
        self._is_over = True
        connection, self._socket = self._socket, None
        if connection is not None:
            self._reactor.leave(connection.fileno())
            connection.close()

    def end(self, why: str = "") -> None:
        """Ends the connection at once, and tells the driver why."""
        if not self._is_over:
            self.close()
            self._driver.leave(why)

    def _soon(self, function: Callable[[], object]) -> None:
        self._reactor.post(functools.partial(self._do, function))

    def _found(self, place: Optional[Place], error: Optional[OSError]) -> None:
        if self._is_over:
            return
        if place is None:
            return self._fail(error)
        self._driver.dials(place)
        try:
            if self._driver.connects is None:
                self._connect(place)
            else:
                self._reactor.in_thread(functools.partial(self._driver.connects, place), self._take)
        except (OSError, RuntimeError) as failed:
            self._fail(failed)

    def _connect(self, place: Place) -> None:
        is_6 = ":" in place.address
        address = socket.getaddrinfo(place.address, place.port, type=socket.SOCK_STREAM)[0][4] if is_6 else place[1:]
        connection = self._socket = socket.socket(socket.AF_INET6 if is_6 else socket.AF_INET, socket.SOCK_STREAM)
        connection.setblocking(False)
        try:
            connection.connect(address)
        except self.not_now:
            pass
        self._reactor.watch(connection.fileno(), WRITE, functools.partial(self._do, self._connected))

    def _take(self, connection: Optional[socket.socket], error: Optional[BaseException]) -> None:
        """Another thread has connected, or has failed to."""
        if self._is_over:
            if connection is not None:
                connection.close()
        elif connection is None:
            self._do(self._fail, error)
        else:
            self._socket = connection
            connection.setblocking(False)
            self._do(self._connected, WRITE)

    def _connected(self, _: int) -> None:
        """The attempt has ended."""
        if self._socket is None:
            return
        code = self._socket.getsockopt(socket.SOL_SOCKET, socket.SO_ERROR)
        if code:
            return self._fail(OSError(code, os.strerror(code)))
        self._socket.setsockopt(socket.IPPROTO_TCP, socket.TCP_NODELAY, True)
        self._begin()

    def _begin(self) -> None:
        self._watch(READ)
        self._driver.begin()

    def _fail(self, error: Optional[BaseException]) -> None:
        if not self._is_over:
            self.close()
            self._driver.failed(error)

    def _watch(self, wanted: int) -> None:
        if self._socket is not None:
            self._reactor.watch(self._socket.fileno(), wanted, functools.partial(self._do, self._ready))

    def _ready(self, ready: int) -> None:
        try:
            if ready & WRITE and self._unsent:
                self._flush()
            if ready & ~WRITE:
                self._read()
        except self.not_now:
            pass
        except OSError as error:
            self.end(str(error))
        except Exception as error:
            self.end(str(error))
            raise

    def _flush(self) -> None:
        """Sends more of the bytes that were not written."""
        assert self._socket is not None
        try:
            sent = self._socket.send(self._unsent)
        except self.not_now:
            return
        del self._unsent[:sent]
        if not self._unsent:
            self._watch(READ)

    def _read(self) -> None:
        """Reads on only if the room was filled: else the rest of a long frame is mostly not there yet."""
        inbox = self.inbox
        for _ in range(MOST_ROOMS):
            if self._socket is None:
                return
            room = inbox.room()
            count = self._socket.recv_into(room)
            if not count:
                return self.end(CLOSED)
            self._driver.bring(inbox.take(count))
            if count < len(room):
                return


def link(reactor: Reactor, do: Do, driver: Driver, tls: Optional[ssl.SSLContext]) -> Link:
    """A connection that has yet to be dialled."""
    if tls is None:
        return Link(reactor, do, driver)
    from dirwolleu._tls_sockets import TlsLink

    return TlsLink(reactor, do, driver, tls)
