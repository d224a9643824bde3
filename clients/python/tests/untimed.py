"""An event loop without sockets, whose time passes only when there is nothing left to do before: so a test of hours takes no time, and no
load of the machine changes what it sees.
"""

from __future__ import annotations

import asyncio
import contextlib
import errno
import functools
import os
import selectors
import struct
import threading
from collections.abc import Coroutine, Iterator
from typing import Any, Callable, NamedTuple, Optional, cast
from unittest import mock

from support import PASSWORD, Asked, Connected, PartnerCase, framed

from dirwolleu import _aio_link as aio_link
from dirwolleu import aio
from dirwolleu.testing._ensemble import Ensemble

Serve = Callable[[], asyncio.Protocol]


class _Clock(selectors.SelectSelector):
    """The selector of a loop: it waits for nothing, and its time is later then."""

    now = 1000.0

    def select(self, timeout: Optional[float] = None) -> list[tuple[selectors.SelectorKey, int]]:
        found = super().select(0)
        if not found:
            if timeout is None:
                raise AssertionError("nothing is left that could come")
            self.now += timeout
        return found


class _End(asyncio.Transport):
    """One end of a connection. Bytes that are written at it come at the other one in the next turn of the loop."""

    other: _End

    def __init__(self, loop: Untimed, protocol: asyncio.BaseProtocol) -> None:
        super().__init__()
        self._loop, self._protocol, self._is_over = loop, protocol, False

    def write(self, data: Any) -> None:
        if not self._is_over:
            self._loop.call_soon(self.other._bring, bytes(data))

    def is_closing(self) -> bool:
        return self._is_over

    def close(self) -> None:
        if not self._is_over:
            self._is_over = True
            self._loop.call_soon(self._protocol.connection_lost, None)
            self._loop.call_soon(self.other.close)

    def abort(self) -> None:
        self.close()

    def _bring(self, data: bytes) -> None:
        if self._is_over:
            return
        if isinstance(self._protocol, asyncio.BufferedProtocol):
            while data:
                room = memoryview(self._protocol.get_buffer(len(data)))
                piece, data = data[: len(room)], data[len(room) :]
                room[: len(piece)] = piece
                self._protocol.buffer_updated(len(piece))
        else:
            cast(asyncio.Protocol, self._protocol).data_received(data)


class _Listener:
    """A listener at a port, as the server in memory has it."""

    def __init__(self, loop: Untimed, port: int) -> None:
        self._loop, self._port, self.sockets = loop, port, [self]

    def getsockname(self) -> tuple[str, int]:
        return "127.0.0.1", self._port

    def close(self) -> None:
        self._loop.servers.pop(self._port, None)


class Untimed(asyncio.SelectorEventLoop):
    """A loop whose connections lead to servers in it."""

    def __init__(self) -> None:
        self._clock = _Clock()
        super().__init__(self._clock)
        self.servers: dict[int, Serve] = {}
        """The server at each port. At all others a connection is refused."""
        self.away: set[int] = set()
        """The ports of hosts that are away: nothing there answers an attempt to connect."""
        self.dials: list[tuple[float, int]] = []
        """The moments of the dials, and their ports."""

    def time(self) -> float:
        return self._clock.now

    def moment(self) -> int:
        return round(self.time() * 1000)

    async def create_connection(self, factory: Any, host: Any = None, port: Any = None, **_: Any) -> Any:  # type: ignore[override]
        self.dials.append((self.time(), port))
        if port in self.away:
            await self.create_future()
        if port not in self.servers:
            raise ConnectionRefusedError(errno.ECONNREFUSED, os.strerror(errno.ECONNREFUSED))
        protocols = factory(), self.servers[port]()
        ends = [_End(self, protocol) for protocol in protocols]
        for end, other, protocol in zip(ends, reversed(ends), protocols):
            end.other = other
            protocol.connection_made(end)
        return ends[0], protocols[0]

    async def create_server(self, factory: Any, host: Any = None, port: Any = None, **_: Any) -> Any:  # type: ignore[override]
        port = port or 1 + max(self.servers, default=0)
        self.servers[port] = factory
        return _Listener(self, port)


class Came(NamedTuple):
    """A request, and when it came."""

    at: float
    asked: Asked


class Server:
    """A server whose answers a test writes. It accepts each session, unless `admits` says otherwise."""

    def __init__(self, loop: Untimed, port: int, answer: Callable[[Asked], Optional[bytes]]) -> None:
        self.answer = answer
        self.admits = True
        self.granted_ms: Optional[int] = None
        """The timeout that it grants, if that is not the requested one."""
        self.came: list[Came] = []
        self.connects: list[Connected] = []
        self.write: Callable[[bytes], object] = lambda _: None
        """Sends bytes over the connection that came last."""
        self.loop = loop
        loop.servers[port] = lambda: _Served(self)


class _Served(asyncio.Protocol):
    """A connection of such a server."""

    def __init__(self, server: Server) -> None:
        self._server, self._came, self._is_admitted = server, b"", False

    def connection_made(self, transport: asyncio.BaseTransport) -> None:
        self._transport = cast(asyncio.Transport, transport)
        self._server.write = self._transport.write

    def data_received(self, data: bytes) -> None:
        self._came += data
        while len(self._came) >= 4:
            end = 4 + int.from_bytes(self._came[:4], "big")
            if len(self._came) < end:
                return
            payload, self._came = self._came[4:end], self._came[end:]
            answer = self._take(payload) if self._is_admitted else self._admit(payload)
            if answer is not None:
                self._transport.write(framed(answer))

    def _take(self, payload: bytes) -> Optional[bytes]:
        xid, kind = struct.unpack(">ii", payload[:8])
        asked = Asked(xid, kind, payload[8:])
        self._server.came.append(Came(self._server.loop.time(), asked))
        return self._server.answer(asked)

    def _admit(self, payload: bytes) -> Optional[bytes]:
        _, last_zxid, timeout_ms, session = struct.unpack(">iqiq", payload[:24])
        self._server.connects.append(Connected(last_zxid, timeout_ms, session))
        if not self._server.admits:
            return None
        self._is_admitted = True
        return struct.pack(">iiq", 0, self._server.granted_ms or timeout_ms, session or 7) + PASSWORD + b"\0"


class _Polling:
    """This loop, in a thread, as a blocking client has the one that polls."""

    def __init__(self, loop: Untimed) -> None:
        self.loop, self.members, self.wakes = loop, 0, self

    def append(self, wake: Callable[[], object]) -> None:
        wake()

    def post(self, function: Callable[[], object]) -> bool:
        with contextlib.suppress(RuntimeError):  # it is closed
            self.loop.call_soon_threadsafe(function)
        return True

    def ask(self, member: Any) -> None:
        self.post(member.asked)

    def later(self, _: object, seconds: float, function: Callable[[], object]) -> asyncio.TimerHandle:
        return self.loop.call_later(seconds, function)

    def drop_timers(self, _: object) -> None:
        self.loop.call_soon(self.loop.stop)  # its only client has ended

    def is_current(self) -> bool:
        return False

    def await_end(self, _: float) -> None: ...


class _Stepping:
    """A driver for which each report of a connection is a step of its client."""

    def __init__(self, do: Callable[..., object], driver: Any) -> None:
        self._do, self._driver = do, driver

    def __getattr__(self, name: str) -> Any:
        found = getattr(self._driver, name)
        return functools.partial(self._do, found) if callable(found) else found


class _Dialled:
    """A connection of such a client, which the loop makes as it does for asyncio."""

    def __init__(self, _: object, do: Callable[..., object], driver: Any, __: object) -> None:
        self._driver, self._link = cast(Any, _Stepping(do, driver)), cast(Any, None)

    @property
    def inbox(self) -> Any:
        return self._link.inbox

    def dial(self, place: int) -> None:
        self._link = aio_link.Loop().dial(self._driver, place)

    def write(self, frames: bytes) -> None:
        self._link.write(frames)

    def close(self) -> None:
        if self._link is not None:
            self._link.close()


@contextlib.contextmanager
def blocking_clients_in(loop: Untimed) -> Iterator[None]:
    """Until the context ends, the blocking clients that are started have this loop."""
    polling = _Polling(loop)
    thread = threading.Thread(target=loop.run_forever, daemon=True)

    def join(begin: Callable[[Any], object]) -> None:
        if not thread.is_alive():
            polling.post(lambda: begin(polling))
            thread.start()

    with mock.patch("dirwolleu._threads.join", join), mock.patch("dirwolleu._threads.link", _Dialled):
        yield
    thread.join()


class UntimedCase(PartnerCase):
    """A test whose client and servers share one such loop, `loop`."""

    def setUp(self) -> None:
        self.loop = Untimed()
        self.addCleanup(self.loop.close)
        for module in ("_driver", "_shown", "aio"):
            patch = mock.patch(f"dirwolleu.{module}.moment", self.loop.moment)
            patch.start()
            self.addCleanup(patch.stop)

    def run_in_loop(self, main: Coroutine[Any, Any, None]) -> None:
        asyncio.set_event_loop(self.loop)
        try:
            self.loop.run_until_complete(main)
        finally:
            asyncio.set_event_loop(None)

    async def a_partner(self) -> Ensemble:
        """The server in memory, within the loop. Its `port` is where it listens."""
        made = Ensemble()
        await made.listen(0)
        return made

    @contextlib.asynccontextmanager
    async def client(self, *ports: int, timeout: float, is_awaited: bool = True) -> Any:
        """A client of these servers, in their order."""
        hosts = ",".join(f"127.0.0.1:{port}" for port in ports)
        client = aio.Client(hosts, timeout, randomize_hosts=False)
        starting = asyncio.ensure_future(client.start(None))
        if is_awaited:
            await starting
        try:
            yield client
        finally:
            starting.cancel()
            await asyncio.gather(starting, return_exceptions=True)
            await client.stop()
            await client.close()

    async def until(self, condition: Callable[[], Any], seconds: float) -> float:
        """Waits until a condition holds, in the loop's time, and returns the moment."""
        end = self.loop.time() + seconds
        while not condition():
            self.assertLess(self.loop.time(), end, "this has not come to pass in time")
            await asyncio.sleep(0.001)
        return self.loop.time()
