"""The connection of a client for asyncio, over the event loop's own transports."""

from __future__ import annotations

import asyncio
import ssl
import weakref
from collections.abc import Callable
from typing import Any, Optional, cast

from dirwolleu._driver import CLOSED, Driver
from dirwolleu._hosts import Place, Servers
from dirwolleu._rooms import Inbox, Rooms

_rooms: weakref.WeakKeyDictionary[asyncio.AbstractEventLoop, Rooms] = weakref.WeakKeyDictionary()


def _rooms_of(loop: asyncio.AbstractEventLoop) -> Rooms:
    """The rooms into which the connections of a loop read."""
    rooms = _rooms.get(loop)
    if rooms is None:
        rooms = _rooms[loop] = Rooms()
    return rooms


async def address_at(servers: Servers, place: int) -> Place:
    """An address of the server at a place of the list. Raises `OSError` if its name is not found."""
    loop = asyncio.get_running_loop()
    found: asyncio.Future[Place] = loop.create_future()

    def soon(function: Callable[[], object]) -> None:
        try:
            loop.call_soon_threadsafe(function)
        except RuntimeError:  # it is closed
            pass

    def settle(place: Optional[Place], error: Optional[OSError]) -> None:
        if found.done():
            return
        if place is None:
            found.set_exception(error or OSError("no address"))
        else:
            found.set_result(place)

    servers.find(place, soon, settle)
    return await found


class Link(asyncio.BufferedProtocol):
    """One connection to a server, from its dial on."""

    def __init__(self, driver: Driver, place: int) -> None:
        loop = asyncio.get_running_loop()
        self._driver, self.inbox = driver, Inbox(_rooms_of(loop))
        self._transport: Optional[asyncio.Transport] = None
        self._is_over = False
        self._dialling = loop.create_task(self._connect(loop, driver.tls, place))
        self._dialling.add_done_callback(self._dialled)

    async def _connect(self, loop: asyncio.AbstractEventLoop, tls: Optional[ssl.SSLContext], number: int) -> None:
        place = await address_at(self._driver.servers, number)
        self._driver.dials(place)
        name = place.name if tls is not None else None
        await loop.create_connection(lambda: self, place.address, place.port, ssl=tls, server_hostname=name)

    def _dialled(self, dialling: asyncio.Future[Any]) -> None:
        """The attempt to connect has ended."""
        error = None if dialling.cancelled() else dialling.exception()
        if not self._is_over and self._transport is None:
            self.close()
            self._driver.failed(error)

    def connection_made(self, transport: asyncio.BaseTransport) -> None:
        self._transport = cast(asyncio.Transport, transport)
        if self._is_over:
            self._transport.abort()
        else:
            self._driver.begin()

    def get_buffer(self, sizehint: int) -> memoryview:
        return self.inbox.room()

    def buffer_updated(self, nbytes: int) -> None:
        if not self._is_over:
            self._driver.bring(self.inbox.take(nbytes))

    def connection_lost(self, error: Optional[Exception]) -> None:
        self.end(str(error) if error is not None else CLOSED)

    def write(self, frames: bytes) -> None:
        if self._transport is not None:
            self._transport.write(frames)

    def end(self, why: str = "") -> None:
        """Ends the connection at once, and tells the driver why."""
        if not self._is_over:
            self.close()
            self._driver.leave(why)

    def close(self) -> None:
        """Ends the connection, or the attempt to make one, at once. The engine has asked for it."""
        self._is_over = True
        self._dialling.cancel()
        if self._transport is not None:
            self._transport.abort()


class Loop:
    """The running event loop, as a driver uses it."""

    def __init__(self) -> None:
        loop = asyncio.get_running_loop()
        self.call_soon, self.call_later = loop.call_soon, loop.call_later

    def dial(self, driver: Driver, place: int) -> Link:
        return Link(driver, place)
