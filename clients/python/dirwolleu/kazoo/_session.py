"""The session of a `KazooClient`, from `start` to `stop`: a client of dirwolleu whose steps call kazoo's functions.

An engine reports within its step, in the thread of all clients. So the order is the engine's own, and the functions that
are called here must not wait for anything.
"""

from __future__ import annotations

import functools
import logging
import ssl
import struct
import time
from collections.abc import Iterable
from dataclasses import dataclass
from typing import TYPE_CHECKING, Any, Callable, NamedTuple, Optional

from dirwolleu import _requests as requests
from dirwolleu._asked import Asked
from dirwolleu._clock import moment
from dirwolleu._connection_stats import ConnectionStats
from dirwolleu._credentials import Credential
from dirwolleu._driver import Driver
from dirwolleu._engine import Engine, Tell
from dirwolleu._hosts import Place, Servers
from dirwolleu._requests import Watcher
from dirwolleu._root import Root
from dirwolleu.client import Client
from dirwolleu.kazoo._asking import Ask, told
from dirwolleu.kazoo.handlers.threading import AsyncResult, SequentialThreadingHandler
from dirwolleu.kazoo.retry import KazooRetry, RetryFailedError
from dirwolleu.types import State, WatchedEvent

if TYPE_CHECKING:
    from dirwolleu.kazoo.client import KazooClient
    from dirwolleu.sasl import Sasl

logger = logging.getLogger("dirwolleu.connection")

PASSWORD_LENGTH = 16


def _count_of_hosts(servers: Servers) -> int:
    return len(servers.hosts.servers)


class Identity(NamedTuple):
    """The number, the password and the last zxid of a session. It is a secret."""

    number: int
    password: bytes
    last_zxid: int = 0

    def spelled(self) -> bytes:
        """The bytes by which a client of dirwolleu resumes it."""
        head = struct.pack(">qi", self.number, len(self.password))
        return head + self.password + struct.pack(">q", self.last_zxid)


def identity_of(saved: bytes) -> Identity:
    """The identity in the saved bytes of a client of dirwolleu."""
    number, length = struct.unpack(">qi", saved[:12])
    (last_zxid,) = struct.unpack(">q", saved[12 + length :])
    return Identity(number, saved[12 : 12 + length], last_zxid)


class Answered:
    """Waits for the answer to a request, and gives it to an async result in kazoo's form."""

    def __init__(self, outcome: AsyncResult, ask: Ask) -> None:
        self._outcome, self._form, self._once = outcome, ask.form, ask.once
        self._is_given_up = False

    def begin(self) -> bool:
        return not self.done()

    def cancel(self) -> None:
        self._is_given_up = True

    def done(self) -> bool:
        return self._is_given_up or self._outcome.ready()

    def set_result(self, result: Any) -> None:
        self._outcome.set(self._form(result))

    def set_exception(self, error: BaseException) -> None:
        self._outcome.set_exception(told(error, self._once))


class _Probe:
    """Waits for the answer to a probe: it is enough that something comes."""

    def begin(self) -> bool:
        return True

    def cancel(self) -> None: ...

    def done(self) -> bool:
        return False

    def set_result(self, _: Any) -> None: ...

    def set_exception(self, _: BaseException) -> None: ...


class KazooEngine(Engine):
    """An engine that also closes a connection whose server was not heard for a read timeout, as kazoo does.

    If half of that has passed without a byte, it asks for the root, and if nothing comes for the other half, the
    connection is over. Without a read timeout only the rules of `Engine` hold.
    """

    read_timeout_ms: Optional[int] = None

    def __init__(
        self,
        timeout: float,
        saved: Optional[bytes],
        tell: Tell,
        root: Root,
        credentials: Iterable[Credential],
        on_refused: Callable[[], object],
        on_over: Callable[[], object],
    ) -> None:
        self._probed_at: Optional[int] = None
        self._on_refused, self._on_over = on_refused, on_over
        super().__init__(timeout, saved, tell, root, credentials)

    def tick(self, now: int) -> None:
        super().tick(now)
        half = self._half_ms()
        if half is None:
            return
        if self._probed_at is not None and self.connection_stats.heard_at >= self._probed_at:
            self._probed_at = None
        if self._probed_at is None:
            if now - self.connection_stats.heard_at >= half:
                self._probe(now)
        elif now - self._probed_at >= half:
            self.drop(now, f"the server was not heard for {2 * half / 1000:g} seconds")

    def deadline(self) -> Optional[int]:
        deadline, half = super().deadline(), self._half_ms()
        if half is None or deadline is None:
            return deadline
        since = self.connection_stats.heard_at if self._probed_at is None else self._probed_at
        return min(deadline, since + half)

    def is_recast(self) -> bool:
        return self.read_timeout_ms is not None or super().is_recast()

    def drop_watchers(self) -> list[Watcher]:
        """Forgets the functions that wait for watches, and returns them."""
        dropped = self._watchers.all()
        self._watchers.clear()
        return dropped

    def drop_connection(self, why: str) -> None:
        """Closes the connection. The session goes on."""
        if self.state is State.CONNECTED:
            self.drop(moment(), why)

    def _half_ms(self) -> Optional[int]:
        is_watched = self.read_timeout_ms is not None and self.state is State.CONNECTED
        return self.read_timeout_ms // 2 if is_watched and self.read_timeout_ms else None

    def _probe(self, now: int) -> None:
        self._probed_at = now
        self._line.add(Asked(requests.exists("/", None), _Probe(), now + self._timeout_ms))
        self._send_line(now)

    def _leave_connection(self) -> None:
        self._probed_at = None
        super()._leave_connection()

    def refuse(self, words: str, may_have_happened: bool) -> None:
        self._on_refused()  # before the calls that wait fail
        super().refuse(words, may_have_happened)
        self._on_over()


class KazooPolicy:
    """The tries and the time that a policy has for finding a server. The library decides the pauses between tries."""

    def __init__(self, retry: KazooRetry, count_of_hosts: Callable[[], int]) -> None:
        self._retry, self._count_of_hosts = retry.copy(), count_of_hosts
        self._admissions = self._dials = 0
        self._until: Optional[float] = None

    def is_over(self, stats: ConnectionStats) -> bool:
        """Whether the search for a server ends, after a connection or an attempt that has ended now."""
        if stats.admissions != self._admissions:
            self._admissions, self._dials, self._until = stats.admissions, 0, None
            self._retry.reset()
        self._dials += 1
        if self._until is None and self._retry.deadline is not None:
            self._until = time.monotonic() + self._retry.deadline
        if self._dials % max(self._count_of_hosts(), 1):
            return False  # a try is a round of all hosts
        try:
            pause = self._retry.next_pause()
        except RetryFailedError:
            return True
        return self._until is not None and time.monotonic() + pause >= self._until


class KazooDriver(Driver):
    """A driver that dials by the handler of the program."""

    def __init__(
        self,
        servers: Servers,
        engine: Engine,
        tls: Optional[ssl.SSLContext],
        sasl: Optional[Sasl],
        handler: SequentialThreadingHandler,
        timeout: float,
    ) -> None:
        super().__init__(servers, engine, tls, sasl)
        self._is_first = True
        self.connects = lambda place: handler._dial((place.address, place.port), timeout)

    def use_policy(self, retry: KazooRetry, on_end: Callable[[], object]) -> None:
        """Bounds the tries and the time by a policy. If it gives up, the engine ends."""
        self._policy = KazooPolicy(retry, functools.partial(_count_of_hosts, self.servers))
        self._on_end = on_end

    def _dial(self, place: int) -> None:
        if self._is_first or not self._policy.is_over(self._engine.connection_stats):
            self._is_first = False
            return super()._dial(place)
        logger.warning("no server was found within the policy for connections: the client ends")
        self.stop(self._engine.end)
        self._on_end()


class Session(Client):
    """A client of dirwolleu whose steps report to a `KazooClient`."""

    _engine: KazooEngine

    def __init__(
        self,
        owner: KazooClient,
        servers: Servers,
        timeout: float,
        identity: Optional[Identity],
        credentials: Iterable[Credential],
        tls: Optional[ssl.SSLContext],
        sasl: Optional[Sasl],
    ) -> None:
        saved = None if identity is None else identity.spelled()
        engine = KazooEngine(timeout, saved, self._tell, servers.hosts.root, credentials, owner._told_refusal, owner._told_over)
        self._servers, self._engine, self._retry = servers, engine, None
        self._owner, self._tls, self._sasl, self._timeout = owner, tls, sasl, timeout
        self._tasks = {}
        self._prepare()
        self._dials: Optional[KazooDriver] = None
        engine.add_listener(owner._told_state)

    def begin(self) -> None:
        """Begins to connect, and does not wait for a server."""
        self._check_process()
        threads = self._begin_threads()
        if threads is not None:  # it always is, without a bound of the wait
            self._wait(threads.have_come, None)

    def is_running(self) -> bool:
        """Whether it goes on by itself."""
        return self._engine.is_running

    def send(self, ask: Ask, outcome: AsyncResult) -> None:
        """Asks a server. Raises `ConnectionClosedError` of dirwolleu if it is not started."""
        self._check_process()
        self._engine.ask(moment(), ask.request, Answered(outcome, ask))
        self.act()

    def act(self) -> None:
        """Lets the thread of the clients take the requests."""
        threads = self._threads()
        if threads is not None:
            threads.loop.act()

    def soon(self, call: Callable[[], object]) -> None:
        """Lets the thread of the clients call a function, and do what follows from it."""
        threads = self._threads()
        if threads is not None:
            threads.loop.soon(call)
            threads.loop.act()

    def drop_connection(self, why: str) -> None:
        """Closes the connection, so that another one is made. The session goes on."""
        self.soon(lambda: self._engine.drop_connection(why))

    def tell_listeners(self, function: Callable[[Any], object], argument: Any) -> None:
        """Calls a function that may wait, in the thread of the listeners."""
        if not super()._tell(function, argument):
            function(argument)

    def drop_watchers(self) -> list[Watcher]:
        """Within a step: forgets the functions that wait for watches, and returns them."""
        return self._engine.drop_watchers()

    def use_read_timeout(self, milliseconds: Optional[int]) -> None:
        """Within a step: how long the server may be silent."""
        self._engine.read_timeout_ms = milliseconds

    def identity(self) -> Identity:
        """The number, the password and the last zxid of the session."""
        return identity_of(self._engine.saved())

    def no_server(self, timeout: Optional[float]) -> str:
        """Says that no server was found in this time, and how the last attempt went."""
        return self._engine.no_server(timeout)

    def place(self) -> Optional[Place]:
        """The server of the connection, or of the last one."""
        return None if self._dials is None else self._dials.place

    def _driver(self) -> Driver:
        driver = KazooDriver(self._servers, self._engine, self._tls, self._sasl, self._owner.handler, self._timeout)
        driver.use_policy(self._owner._conn_retry, self._owner._told_end)
        self._dials = driver
        return driver

    def _tell(self, function: Callable[[Any], object], argument: Any) -> bool:
        try:
            function(argument)
        except Exception:  # from a program's logger or handler: the step goes on
            logger.exception("what was told could not be handed on")
        return True


@dataclass(frozen=True)
class Told:
    """The function that the engine calls when a watch fires: it lets the handler call the program's function."""

    owner: KazooClient
    function: Callable[[Any], object]

    def __call__(self, event: WatchedEvent) -> None:
        self.owner._told_watch(self.function, event)

