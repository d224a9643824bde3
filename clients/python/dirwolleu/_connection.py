"""The connection, as the session sees it: its events, the commands for it, and when the session is to get the next moment."""

from __future__ import annotations

import logging
from typing import Any, Optional, Union

from dirwolleu._connection_commands import NO_COMMANDS, ConnectionCommands
from dirwolleu._connection_stats import Pings, is_ping
from dirwolleu._handle import made
from dirwolleu._library import Drop, NoMemory, Send
from dirwolleu._observing import DROPPED, ELSEWHERE, LATE, MOVED, reason_of
from dirwolleu._session import Dial, PlainAction, Session, unbegun
from dirwolleu._views import Views
from dirwolleu.types import State

logger = logging.getLogger("dirwolleu.connection")

_CONNECTED = State.CONNECTED  # a look-up in the enum's class is slow
_SESSION = 0xFFFF_FFFF_FFFF_FFFF


class Connection(Views):
    """Takes the bytes that come over the connection, and gives the frames that go over it."""

    def __init__(self, *words: Any) -> None:
        super().__init__(*words)
        self._frames, self._pings = list[bytes](), Pings()
        self._dial: Optional[Dial] = None
        self._hangs_up, self._is_open, self._is_admitted = False, False, False
        self._count = 0

    # Its events.

    def addresses(self, now: int, kept: int, added: int, is_listed: bool = True) -> None:
        """Takes a list of servers: first those that were in the list before. With the first list the session asks for a connection; with a
        later one it may move to another server, and does if the connection's own is not listed.
        """
        self._count = kept + added
        self._why = MOVED
        self._step(now, Session.addresses, kept, added, is_listed)
        self._why = ""

    def opened(self, now: int) -> None:
        """The connection that the session asked for is open."""
        self._is_open = self._is_recast = True
        self._credentials.begin_connection()
        self._step(now, Session.opened)

    def failed(self, now: int) -> None:
        """The connection that the session asked for could not be made."""
        self._step(now, Session.failed)
        self._is_recast = True

    def cut(self, now: int, why: str = "") -> None:
        """The connection is over."""
        self._why = self._why or why
        self._step(now, Session.cut)
        self._leave_connection()

    def drop(self, now: int, why: str) -> None:
        """Closes the connection, for a reason of the host."""
        self._why = why
        self._hangs_up, self._cause = True, self._cause or DROPPED
        self.cut(now)

    def tick(self, now: int) -> None:
        self._why = LATE  # if the session leaves the connection and gives no reason
        self._step(now, Session.moment)
        self._why = ""
        for asked in self._line.late(now, self.state is State.CONNECTED):
            self.connection_stats.losses += 1
            asked.give_up(self.no_server(self._timeout_ms / 1000))
        self._line.tidy()
        if self._trees:
            self._grow_trees(now)

    def received(self, now: int, data: Union[bytes, memoryview]) -> None:
        """Bytes came, maybe in memory that later bytes overwrite."""
        if self.observers is not None:
            self.observers.transfer("in", len(data))
        try:
            self._step(now, Session.received, data)
        except NoMemory:
            self._bring_again(now, data)
        if self._pings.waiting:
            for pinged_at in self._pings.answered_by(data):
                self.connection_stats.answered(pinged_at, now)
        if self._trees:
            self._tend_trees(now)
            self._grow_trees(now)
        if self.state is _CONNECTED:
            self.connection_stats.heard_at = now
        if self._line.waiting:
            self._send_line(now)

    # The commands for it, and when it is due.

    def take_commands(self) -> ConnectionCommands:
        """The commands that the driver executes next."""
        if self._recorder is not None:
            self._flush_record()
        if not self._frames and not self._hangs_up and self._dial is None:
            return NO_COMMANDS
        commands = made(ConnectionCommands, (self._hangs_up, self._dial, b"".join(self._frames)))
        if self.observers is not None:
            self.observers.transfer("out", len(commands.frames))
        self._frames.clear()
        self._hangs_up, self._dial = False, None
        return commands

    def is_at_rest(self) -> bool:
        """Whether there is nothing to do for now: no commands, no wishes, and the deadline as it was."""
        return not (self._frames or self._is_recast or self._wishes or self._trees or self._recorder)

    def deadline(self) -> Optional[int]:
        """The moment at which `tick` has to come, at the latest."""
        self._is_recast = False
        if self._saved_at_close is not None:
            return None
        is_connected = self.state is State.CONNECTED
        moments = [self._session.deadline(), self._line.deadline(is_connected)]
        if is_connected:
            moments += [tree.deadline() for tree in list(self._trees)]
        self._due = min((moment for moment in moments if moment is not None), default=None)
        return self._due

    def in_time(self, now: int) -> int:
        """The moment to give for bytes that came: now, or if something is due already, the last moment before that.

        The bytes may have come before it was due, and may be the answer without which the session would leave the server.
        """
        if self._due is None or now < self._due or self._saved_at_close is not None:
            return now
        due = self._session.deadline()
        return now if due is None or now < due else max(due - 1, 0)

    def is_recast(self) -> bool:
        """Whether the deadline may be earlier than the last call of `deadline` said, for another reason than frames that came and went:
        what these bring is due after a third of the timeout, or later.
        """
        return self._is_recast or bool(self._trees)

    # The outputs of steps that concern it.

    def _take_frame(self, send: Send) -> None:
        self._frames.append(send.frame)
        if self._recorder is not None:
            self._recorder.sent(send.frame)
        if is_ping(send.frame):
            self._pings.sent(self._now)

    def _take_reason(self, drop: Drop) -> None:
        self._why, self._cause = f"{drop.fault} {drop.words}", drop.cause

    def _take_dial(self, dial: Dial) -> None:
        self._dial = dial
        self._is_recast = True
        self.connection_stats.dials += 1

    def _take_plain_action(self, action: PlainAction) -> None:
        if action is PlainAction.HANG_UP:
            self._why = self._why or ELSEWHERE
            self._hangs_up, self._dial = True, None
            self._leave_connection()
        elif self._recorder is not None:
            self._recorder.begin(self._timeout_ms, unbegun(self._session.last_zxid()))

    def _bring_again(self, now: int, piece: Union[bytes, memoryview]) -> None:
        """Hands the session bytes once more, for which it had no memory."""
        try:
            self._step(now, Session.received, piece)
        except NoMemory:
            self.drop(now, "there is no memory for what the server has sent")

    def _admit(self) -> None:
        """A server has accepted the session."""
        self.trouble = ""
        self._is_admitted = True
        self.connection_stats.heard_at = self._now
        self.connection_stats.admissions += 1
        self._number = self.session_id() & _SESSION
        where, words = self.place or "a server", "connected to %s: session %#x with a timeout of %s seconds"
        logger.info(words, where, self._number, self.timeout(), extra=self._fields())
        self._observe("connected")
        self._enter(State.CONNECTED)

    def _leave_connection(self) -> None:
        """Forgets the state of one connection."""
        if self._is_admitted or self._why not in ("", LATE):
            level = logging.DEBUG if not self._is_admitted else logging.WARNING if self.is_running else logging.INFO
            where, reason = self.place or "the server", self._why or "it was closed"
            logger.log(level, "the connection to %s is over: %s", where, reason, extra=self._fields())
        if self._is_open:
            self._observe("over", reason_of(self._cause, self._why, bool(self.refused), self.is_running), self._why)
        if self._recorder is not None:
            self._recorder.cut()
        self._why, self._cause, self._is_open = "", 0, False
        self._frames.clear()
        self._pings = Pings()
        self._is_admitted, self._is_recast = False, True
