"""The connection of a client: it dials, reads and writes when the engine says so, and wakes at deadlines."""

from __future__ import annotations

import errno
import logging
import os
import sys
from typing import TYPE_CHECKING, Any, Callable, Optional, Protocol

from dirwolleu._clock import moment as moment
from dirwolleu._engine import Engine
from dirwolleu._hosts import Hosts, Place, Servers
from dirwolleu._login import Failed, Login, Refused
from dirwolleu._rooms import Inbox, Piece
from dirwolleu.types import State

if TYPE_CHECKING:
    import socket
    import ssl

    from dirwolleu.sasl import Sasl

logger = logging.getLogger("dirwolleu.connection")

SHORTEST_WAIT = 0.1
MOST_TURNS = 16
"""How many times a connection is read, at most, before the engine gets the moment."""
CLOSED = "the server has closed it"
_NO_DESCRIPTOR = (errno.EMFILE, errno.ENFILE)


def _is_of_tls(error: Optional[BaseException]) -> bool:
    ssl = sys.modules.get("ssl")  # which a client without TLS does not load
    return ssl is not None and isinstance(error, ssl.SSLError)


def _words_of(error: Optional[BaseException]) -> str:
    """Why an attempt to connect has failed, in the system's words."""
    if isinstance(error, OSError) and not _is_of_tls(error) and error.errno is not None:
        if error.errno > 0:
            words = os.strerror(error.errno)
            return words[:1].lower() + words[1:]
        return str(error.strerror)  # from a name look-up
    if isinstance(error, ConnectionError) and not str(error):  # from TLS
        return "the server ended the connection within the TLS handshake"
    return str(error or "no connection in time")


class Timer(Protocol):
    def cancel(self) -> object: ...


class Link(Protocol):
    """One connection, from its dial on. It reports to its driver by `dials`, `begin`, `bring`, `failed` and `leave`."""

    inbox: Inbox

    def write(self, frames: bytes) -> object: ...

    def close(self) -> None:
        """Ends the connection, or the attempt to make one, at once, and reports nothing more."""


class Loop(Protocol):
    """Calls functions later, and makes connections."""

    def call_soon(self, function: Callable[..., object], *words: Any) -> object: ...
    def call_later(self, seconds: float, function: Callable[..., object], *words: Any) -> Timer: ...

    def dial(self, driver: Driver, place: int) -> Link:
        """Begins an attempt to connect to the server at a place of the list, not within this call."""


class Driver:
    """Keeps an engine connected to one of its servers, from `start` to `stop`. Except for its making, all of it belongs to one loop:
    that of asyncio, or that of all blocking clients.

    It consists of the loop's callbacks, and not of a task: whoever cancels all tasks of a loop does not end it.
    """

    connects: Optional[Callable[[Place], socket.socket]] = None
    """Connects to an address, in a thread of its own, if the loop is not to do so itself."""

    def __init__(
        self, servers: Servers, engine: Engine, tls: Optional[ssl.SSLContext] = None, sasl: Optional[Sasl] = None
    ) -> None:
        self.servers, self.tls, self._sasl = servers, tls, sasl
        self._login: Optional[Login] = None
        """The log-in on the connection, until it is over."""
        self.place: Optional[Place] = None
        """The server of the connection, or of the attempt to make one."""
        self._hosts: Optional[Hosts] = None
        self._engine = engine
        self._link: Optional[Link] = None
        self._timer: Optional[Timer] = None
        self._wakes_at = self._awake_at = self._came_at = 0
        self._has_brought = self._is_dialling = False
        self._is_to_act = self._is_started = self.is_stopped = self.is_over = False

    def start(self, loop: Loop) -> None:
        """Goes on until it is stopped or the session is closed. Then it is over."""
        self._loop = loop
        self._is_started = True
        self._engine.connection_stats.heard_at = moment()
        self.act()

    def stop(self, end: Callable[[], None]) -> None:
        """Calls `end`, which ends the engine, then ends the connection, and stops dialling."""
        self.is_stopped = True
        try:
            end()
        finally:
            self._hang_up()
            self._end()

    def dials(self, place: Place) -> None:
        """An attempt to connect goes to this address."""
        logger.debug("dials %s", place)
        self.place = place
        self._engine.place = str(place)

    def begin(self) -> None:
        """The connection is open."""
        logger.debug("asks %s for a session", self.place)
        self._is_dialling = False
        if self._engine.state is not State.CONNECTED:
            self._engine.trouble = f"{self._where()}connected, and it has not accepted the session"
        self._login = None if self._sasl is None else Login(self._sasl)
        self._engine.opened(moment())
        self.act()

    def bring(self, piece: Piece) -> None:
        """Bytes came. Hands this piece in, unless it is empty. The engine takes it before later bytes overwrite it."""
        self._has_brought = True
        now = self._came_at = self._noticed()
        if not piece:
            return
        if self._login is not None:
            piece = self._log_in(self._login, bytes(piece))
        if piece:
            self._engine.received(now, piece)
        if not self._engine.is_at_rest():
            self.act(now)

    def _log_in(self, login: Login, data: bytes) -> bytes:
        """Goes on with the log-in of the connection, and returns the bytes that came for the session: none before the log-in is over."""
        try:
            frames, passed = login.take(data)
        except Failed as error:
            self._login, words = None, f"the log-in by SASL has failed: {error}"
            if isinstance(error, Refused):
                self._engine.refuse(words, may_have_happened=False)
            else:
                self._engine.drop(moment(), words)
            return b""
        if frames and self._link is not None:
            self._link.write(frames)
        if passed is None:
            return b""
        self._login = None
        return passed

    def act_soon(self) -> None:
        """Acts at once if no call waits for its answer, and else once after all requests of this turn of the event loop."""
        if self._is_to_act:
            return
        if self._engine.is_idle():
            self.act()
        else:
            self._is_to_act = True
            self._loop.call_soon(self.act)

    def act(self, now: Optional[int] = None) -> None:
        """Hands in the requests, executes the engine's commands, and sets the timer for its deadline."""
        if not self._is_started:
            return
        self._is_to_act = False
        engine = self._engine
        if engine.is_running and self.servers.hosts is not self._hosts:
            self._tell_hosts()
        engine.take_handed(self._noticed() if now is None else now)
        if self.is_stopped:
            return
        hangs_up, dial, frames = engine.take_commands()
        if hangs_up:
            self._hang_up()
        if frames and self._link is not None:
            self._link.write(frames if self._login is None else self._login.hold(frames))
        if not engine.is_running:
            return self._end()
        if dial is not None:
            self._dial(dial.place)
        if not self.is_stopped and (self._timer is None or engine.is_recast()):
            self._wake_by(engine.deadline())

    def leave(self, why: str = "") -> None:
        """The connection is over."""
        self._link = None
        self._engine.cut(moment(), why)
        self.act()

    def _tell_hosts(self) -> None:
        """Gives the engine the list of servers, or a new one."""
        hosts = self._hosts = self.servers.hosts
        self._engine.hosts = hosts.text
        self._engine.addresses(moment(), *self.servers.arrange(hosts.servers))

    def _hang_up(self) -> None:
        """Closes the connection, or gives the attempt up."""
        link, self._link = self._link, None
        if self._is_dialling:
            self._is_dialling = False
            self._note_failure(None)
        if link is not None:
            link.close()

    def _dial(self, place: int) -> None:
        """Begins an attempt to connect. The engine says when to give it up."""
        self.place, self._is_dialling = None, True
        self._link = self._loop.dial(self, place)

    def failed(self, error: Optional[BaseException]) -> None:
        """An attempt to connect has failed. Its link is closed."""
        self._is_dialling, self._link = False, None
        self._note_failure(error)
        self._engine.failed(moment())
        self.act()

    def _note_failure(self, error: Optional[BaseException]) -> None:
        self._engine.trouble = f"{self._where()}{_words_of(error)}"
        is_ours = _is_of_tls(error) or isinstance(error, OSError) and error.errno in _NO_DESCRIPTOR
        logger.log(logging.WARNING if is_ours else logging.INFO, "no connection to %s", self._engine.trouble)
        self._engine.attempt_failed()

    def _where(self) -> str:
        return f"{self.place}: " if self.place is not None else ""

    def _noticed(self) -> int:
        """The moment to give for what came: now, or if this process was held up, the last moment before that, and before anything was
        due.

        It may have come at any time since then.
        """
        now = moment()
        if self._timer is not None and now < self._wakes_at:  # which is not after the deadline
            self._awake_at = now
            return now
        if self._timer is None or now <= self._wakes_at + self._longest_wait():
            self._awake_at = now
        return self._engine.in_time(self._awake_at)

    def _longest_wait(self) -> int:
        """A tenth of the timeout, in milliseconds: so that a driver that was held up knows how long, and no deadline that frames bring
        comes before the next wake.
        """
        return int(1000 * max(self._engine.timeout() / 10, SHORTEST_WAIT))

    def _wake_by(self, deadline: Optional[int]) -> None:
        if deadline is None:
            return
        longest = self._longest_wait()
        wakes_at = min(deadline, (moment() // longest + 1) * longest)  # clients of one timeout wake together, which costs less
        if self._timer is None or wakes_at < self._wakes_at:
            self._set_timer(wakes_at)

    def _set_timer(self, wakes_at: int) -> None:
        if self._timer is not None:
            self._timer.cancel()
        self._wakes_at = wakes_at
        self._timer = self._loop.call_later(max(wakes_at - moment(), 0) / 1000, self._awake)

    def _awake(self) -> None:
        """Gives the engine the moment if something is due, after the loop has read the socket: in each turn timers come after reads."""
        self._noticed()
        deadline = self._engine.deadline()
        if deadline is None or deadline <= moment() or self._awake_at < self._wakes_at or self._has_rest():
            return self._tick_next(MOST_TURNS)
        self._timer = None
        self._wake_by(deadline)

    def _tick_next(self, turns: int) -> None:
        self._has_brought, ticks_at = False, moment()
        self._timer = self._loop.call_later(0, self._tick, turns - 1, ticks_at)

    def _tick(self, turns: int, ticks_at: int) -> None:
        """Gives the engine the moment from before the loop has read: it may be held up between that and this, and what comes meanwhile
        is read later.
        """
        if self._has_brought and turns:
            return self._tick_next(turns)  # the socket may have more
        self._timer = None
        if self._link is not None and self._has_rest():
            self._engine.received(self._came_at, self._link.inbox.rest())
        self._engine.tick(ticks_at)
        self.act()

    def _has_rest(self) -> bool:
        """Whether the session is to get the beginning of a long frame, so that it knows when the server was heard."""
        return self._login is None and self._link is not None and self._link.inbox.has_rest()

    def _end(self) -> None:
        if self._timer is not None:
            self._timer.cancel()
            self._timer = None
        self.is_over = self._is_started
