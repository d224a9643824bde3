"""Calls and their outcomes: those that the session has, those that wait for it, and the watches that they leave."""

from __future__ import annotations

import collections
import contextlib
import itertools
from collections.abc import Iterable
from typing import Any, Optional

from dirwolleu._asked import Asked, Waiter
from dirwolleu._core import Core, Tell
from dirwolleu._credentials import TAKEN, Credential, CredentialCall, CredentialQueue
from dirwolleu._jute import Malformed
from dirwolleu._library import Answer
from dirwolleu._line import Line
from dirwolleu._registry import Watchers
from dirwolleu._requests import Request
from dirwolleu._root import Root
from dirwolleu._session import CredentialAnswer, Session, TimedOut
from dirwolleu.exceptions import ConnectionLoss, SessionExpiredError, SessionMovedError, ZookeeperError
from dirwolleu.security import AuthFailedError
from dirwolleu.types import State

_CONNECTED = State.CONNECTED  # a look-up in the enum's class is slow
_ENDING = (SessionExpiredError.code, SessionMovedError.code)
LONGEST_TIMEOUT_MS = 2_147_483_647
MOST_HANDED = 256
"""The most calls that the core has at once. The others wait in the host's line, and one that is cancelled there is never sent."""


class Dispatcher(Core):
    """Hands calls to the core, and answers to those who wait for them."""

    def __init__(self, timeout_ms: int, root: Root, tell: Tell, credentials: Iterable[Credential]) -> None:
        super().__init__(timeout_ms, root, tell)
        self._credentials = CredentialQueue(credentials)
        self._tickets = itertools.count(1)
        self._handed: collections.deque[Asked] = collections.deque()
        self._line = Line()
        self._sent: dict[int, Asked] = {}
        self._watchers = Watchers()
        self._due: Optional[int] = None
        self._why = ""

    def is_authenticated(self) -> bool:
        """Whether a server has accepted the session, and answered for all credentials."""
        return self.state is State.CONNECTED and self._credentials.are_answered() and not self.refused

    def is_idle(self) -> bool:
        """Whether no call that was sent waits for its answer."""
        return not self._sent

    # The requests of a program.

    def ask(
        self,
        now: int,
        request: Request[Any],
        waiter: Waiter,
        timeout: Optional[float] = None,
    ) -> None:
        """Takes a request in. `take_handed` hands it to the core, or keeps it until it can.

        The caller's timeout, in seconds, bounds the whole wait. Without one, the session's timeout does.
        """
        self.check_process()
        if self.observers is not None:
            waiter = self.observers.watching(request, waiter)
        ends_at = None if timeout is None else now + int(min(max(timeout, 0) * 1000, LONGEST_TIMEOUT_MS))
        if not self.is_running or not self._is_handed_in(
            Asked(request, waiter, now + self._timeout_ms, ends_at, self._root)
        ):
            waiter.cancel()
            raise self.why_over("the client is not started")

    def _is_handed_in(self, asked: Asked) -> bool:
        """Takes a request in, and returns whether anything will handle it: if the end comes after this looks, it finds the request and
        refuses it.
        """
        self._handed.append(asked)
        if self.is_running:
            return True
        with contextlib.suppress(ValueError):  # the end has found it
            self._handed.remove(asked)
        return False

    def take_handed(self, now: int) -> None:
        """Takes the requests that were handed in."""
        if not self.is_running:
            self._refuse_handed(self.why_over("the client was stopped"))
        handed, waiting = self._handed, self._line.waiting
        while handed:
            asked = handed.popleft()
            if waiting or len(self._sent) >= MOST_HANDED:
                self._line.add(asked)
                self._is_recast = self._is_recast or asked.ends_at is not None or self.state is not State.CONNECTED
            elif asked.waiter.begin():
                self._hand_over(asked, now)
        if waiting:
            self._send_line(now)

    def _send_line(self, now: int) -> None:
        """Hands over the requests that wait for that, as many as the core may have, except those that nobody waits for any more."""
        waiting = self._line.waiting
        while waiting and len(self._sent) < MOST_HANDED:
            asked = waiting.popleft()
            if asked.waiter.begin():
                self._hand_over(asked, now)

    def _hand_over(self, asked: Asked, now: int) -> None:
        asked.sent_at = now
        request, until = asked.request, asked.ends_at
        if until is None:
            until = now + self._timeout_ms if self.state is _CONNECTED else asked.until
        if self._due is None or until < self._due:
            self._is_recast = True
        if isinstance(request, CredentialCall):
            self._line.limit(asked, until)
            return self._add_credential(asked, Credential(*request.words), now)
        ticket = next(self._tickets)
        asked.is_handed = True
        self._sent[ticket] = asked
        try:
            self._step(now, request.call, ticket, until, *request.words)
        except Exception as error:  # any error concerns only this call
            self._sent.pop(ticket, None)
            asked.fail(error)

    def _refuse_handed(self, error: ZookeeperError) -> None:
        while self._handed:
            self._handed.popleft().fail(type(error)(*error.args))

    # Their outcomes.

    def _answer(self, answer: Answer) -> None:
        asked = self._sent.pop(answer.ticket, None)
        if asked is None:
            return
        if answer.lack == 0:
            if answer.code in _ENDING:
                self._why = f"the server answered {answer.code}"
            else:
                self.connection_stats.answers += 1
            self.connection_stats.answered(asked.sent_at, self._now)
        else:
            self.connection_stats.losses += 1
        request = asked.request
        if request.watcher is not None and request.leaves_watch(answer):
            self._watchers.add(request.watcher)
        try:
            asked.settle(answer)
        except Malformed:
            self._fault = "an answer does not read"
            self._count_loss(asked, ConnectionLoss("the answer does not read"))

    def _time_out(self, timed_out: TimedOut) -> None:
        asked = self._sent.pop(timed_out.ticket, None)
        if asked is not None:
            self.connection_stats.losses += 1
            asked.is_sent = timed_out.was_sent
            asked.give_up(self.no_server(self._timeout_ms / 1000))

    def _count_loss(self, asked: Asked, error: ZookeeperError) -> None:
        self.connection_stats.losses += 1
        asked.fail(error)

    # Credentials.

    def _add_credential(self, asked: Asked, credential: Credential, now: int) -> None:
        """Adds a credential to this connection and all later ones, once."""
        asked.is_sent = self.state is _CONNECTED or asked.ends_at is not None  # the session keeps it
        if self._credentials.is_taken(credential):
            return asked.settle(TAKEN)
        if self._credentials.wait(asked, credential):
            try:
                self._step(now, Session.credential, *credential)
            except Exception as error:  # as above
                self._credentials.withdraw(asked)
                asked.fail(error)

    def _hear_of_credential(self, answer: CredentialAnswer) -> None:
        if answer.code:
            return self._bar(answer.place)
        for asked in self._credentials.take(answer.place):
            self.connection_stats.answers += 1
            self.connection_stats.answered(asked.sent_at, self._now)
            asked.settle(TAKEN)
        self._wake(None)

    def _bar(self, place: int) -> None:
        """A server refuses the credential at this place. The calls that were sent after it may have happened."""
        scheme, asked_for_it = self._credentials.scheme(place), self._credentials.leave(place)
        self.refuse(f"the server refuses the credentials of the scheme {scheme}", may_have_happened=True)
        for asked in asked_for_it:
            asked.fail(AuthFailedError())
