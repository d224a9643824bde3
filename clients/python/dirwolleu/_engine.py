"""The part that both clients share: a session, and those who wait for its reports. It has no socket, no thread and no clock.

The session decides which server is dialled and when, when a connection is left, which calls wait and how they end at a cut, what is read
again, which nodes of a tree are read, and when another session begins. The host decides only when a tree is looked at, and whose
function is called.
"""

from __future__ import annotations

import contextlib
import logging
import os
from collections.abc import Iterable
from typing import Optional

from dirwolleu import _library as library
from dirwolleu._connection_commands import News as News
from dirwolleu._contenders import ContendingConnection
from dirwolleu._core import Listener as Listener
from dirwolleu._core import Tell as Tell
from dirwolleu._credentials import Credential
from dirwolleu._dispatcher import LONGEST_TIMEOUT_MS
from dirwolleu._dispatcher import MOST_HANDED as MOST_HANDED
from dirwolleu._library import Answer, Closed, Drop, Report, Send, StateChange
from dirwolleu._listening import Listeners
from dirwolleu._process import this_process
from dirwolleu._recording import Path, Recorder
from dirwolleu._root import Root
from dirwolleu._session import (
    Contends,
    CredentialAnswer,
    Dial,
    Limits,
    MemberAdded,
    MemberRemoved,
    PlainAction,
    Refused,
    Session,
    Shown,
    TimedOut,
    TreeBounded,
    TreeComplete,
    unbegun,
)
from dirwolleu.exceptions import ConnectionClosedError, ConnectionLoss, SessionExpiredError, ZookeeperError
from dirwolleu.security import AuthFailedError
from dirwolleu.types import EventType, State, Stats, WatchedEvent

logger = logging.getLogger("dirwolleu.connection")


class Engine(ContendingConnection):
    """A session with its callers.

    One thread makes the steps, those of `take_handed` too; another one may once that has ended. Any thread may call `ask` and the
    look-ups, and a signal handler: they take no lock. Moments are milliseconds of one clock that does not go back. `tell` gets a
    function and its argument, and calls the function later, not within the call.
    """

    def __init__(
        self,
        timeout: float,
        saved: Optional[bytes],
        tell: Tell,
        root: Root = Root(),
        credentials: Iterable[Credential] = (),
        limits: Limits = Limits(),
    ) -> None:
        if not 0.001 <= timeout <= LONGEST_TIMEOUT_MS / 1000:
            raise ValueError(f"a timeout is 0.001 to {LONGEST_TIMEOUT_MS / 1000} seconds")
        super().__init__(int(timeout * 1000), root, tell, credentials)
        self._limits = limits
        self._session = self._new_session(saved)
        self._granted_ms = self._session.timeout_ms()
        self._session.peek_data("/")  # a ValueError if the root is no path
        self.life = 0
        """How often it has begun."""

    def _new_session(self, saved: Optional[bytes], addresses: int = 0) -> Session:
        if self._recorder is not None:
            self._recorder.begin(self._timeout_ms, saved)
        seed = int.from_bytes(os.urandom(8), "big")
        session = Session(self._timeout_ms, seed, saved, self._root, addresses, self._limits)
        self._credentials.begin(session)
        return session

    def record(self, path: Path, saved: Optional[bytes]) -> None:
        """Writes a file with all that the session gets, and what it sends."""
        self._recorder = Recorder(path)
        self._recorder.begin(self._timeout_ms, saved)

    # The life of a client.

    def begin(self) -> None:
        if self._saved_at_close is not None:
            raise ConnectionClosedError("the client is closed")
        if not self.is_running:
            self._process = this_process()
            self._refuse_handed(ConnectionClosedError("the client was not started"))
            self.refused = ""
            self.life += 1
            self.is_running = True

    def end(self) -> None:
        """Accepts no more requests and gives the session up, whether the servers know or not."""
        self.is_running = False
        self._begin_anew(ConnectionClosedError("the client was stopped"))

    def leave(self) -> None:
        """Accepts no more requests, at the end of the program: the session goes on for its timeout.

        Nobody hears of it, since the threads that still wait end with the program.
        """
        self.is_running = False
        self._listening = Listeners()
        self._handed.clear()
        self._line.clear()
        self._sent.clear()
        self._subjects.clear()
        self._contenders.clear()
        self._watchers.clear()
        self._listeners.clear()

    def close(self) -> None:
        """Accepts no more requests, and frees the session, without ending it."""
        if self._saved_at_close is not None:
            return
        self.is_running = False
        self._subjects.clear()
        self._end_contenders()
        self._forget_callers(ConnectionClosedError("the client was closed"), State.LOST)
        with contextlib.suppress(Closed):  # by another thread that closes it too
            self._saved_at_close = self._session.saved()
            self._granted_ms = self._timeout_ms
            self._session.close()
        if self._recorder is not None:
            self._recorder.cut()
            self._flush_record()
            self._end_record()

    def stats(self) -> Stats:
        stats, sent = self.connection_stats, len(self._sent) + len(self._credentials.waiting())
        held = 0 if self.state is State.CONNECTED else sent
        return Stats(
            dials=stats.dials,
            connections=stats.admissions,
            expiries=stats.expiries,
            answered=stats.answers,
            lost=stats.losses,
            waiting=len(self._line) + len(self._handed) + held,
            in_flight=sent - held,
            round_trip=None if stats.round_trip is None else stats.round_trip / 1000,
        )

    # The life of its session.

    def _change(self, change: StateChange) -> None:
        self._recast()
        if change.state == library.CONNECTED:
            self._admit()
        elif change.state == library.EXPIRED:
            self.connection_stats.expiries += 1
            logger.warning("the session %#x has expired: a new one begins", self._number, extra=self._fields())
            self._observe("expired")
            self._forget_callers(SessionExpiredError(), State.LOST)
        elif change.state == library.SESSION_CLOSED:
            logger.info("the session %#x is closed", self._number)
            self.is_running = False
            self._begin_anew(ConnectionClosedError())
        elif self.state is State.CONNECTED:
            self._enter(State.SUSPENDED)

    def refuse(self, words: str, may_have_happened: bool) -> None:
        """The authentication has failed: the session is over, and no server is dialled any more."""
        self.refused = self.trouble = self._why = words
        logger.error("%s", words)
        self._enter(State.LOST)  # listeners know before followers find that it does not run
        self.is_running = False
        error = AuthFailedError(words)
        error.may_have_happened = may_have_happened
        self._begin_anew(error)

    def _begin_anew(self, error: ZookeeperError) -> None:
        """Replaces the session by one that has not begun, and accepts no server that has seen less than the old one, and fails all
        callers of that.
        """
        if self._saved_at_close is None:
            self._replace(unbegun(self._session.last_zxid()), 0)
        self._subjects.clear()
        self._end_contenders()
        self._forget_callers(error, State.LOST)
        self._leave_connection()

    def _resume(self, why: str) -> None:
        """Resumes the same session, with nothing kept, if the old one can't go on."""
        self._why = why
        self._replace(self._session.saved(), self._count)
        self._wishes.extend((self._follow, followed) for followed in self._subjects.values())
        self._subjects.clear()
        self._join_again()
        self._forget_callers(ConnectionLoss(why), State.SUSPENDED)
        self._leave_connection()

    def _replace(self, saved: bytes, addresses: int) -> None:
        """Replaces the session by another one. The connection has to be closed."""
        old, self._session = self._session, self._new_session(saved, addresses)
        old.close()
        for tree in self._planted.values():
            tree.begin_again()
        self._planted.clear()
        self._recast()
        self._hangs_up, self._dial = True, None

    def _forget_callers(self, error: ZookeeperError, state: State) -> None:
        """Fails all calls that wait for an answer, ends all watches, and enters a state. The error says whether calls that were sent may
        have happened.
        """
        self._refuse_handed(error)
        for tree in list(self._trees):
            tree.end_current()
        for asked in [*self._sent.values(), *self._credentials.clear()]:
            lost = type(error)(*error.args)
            lost.may_have_happened = error.may_have_happened
            self._count_loss(asked, lost)
        for asked in self._line.clear():
            self._count_loss(asked, type(error)(*error.args))
        self._sent.clear()
        watchers = self._watchers.all()
        self._watchers.clear()
        for watcher in watchers:
            self._tell(watcher.function, WatchedEvent(EventType.NONE, state, watcher.path))
        self._enter(state)


Engine._takers = {
    Send: Engine._take_frame,
    Answer: Engine._answer,
    Report: Engine._report,
    StateChange: Engine._change,
    Drop: Engine._take_reason,
    Dial: Engine._take_dial,
    PlainAction: Engine._take_plain_action,
    TimedOut: Engine._time_out,
    Shown: Engine._show,
    Refused: Engine._refuse,
    MemberAdded: Engine._hear_of_tree,
    MemberRemoved: Engine._hear_of_tree,
    TreeBounded: Engine._hear_of_tree,
    TreeComplete: Engine._hear_of_tree,
    CredentialAnswer: Engine._hear_of_credential,
    Contends: Engine._hear_of_contender,
}
