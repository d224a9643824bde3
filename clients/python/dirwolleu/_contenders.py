"""The contenders of a session, for its locks: they are handed to the core, and hear its reports.

The core alone decides. It makes a place, finds it again if an answer was lost, watches the one before it, says whether it holds, and
deletes it once it is given up. It contends again after an expiry.
"""

from __future__ import annotations

from collections.abc import Sequence
from typing import Any, Callable, Optional

from dirwolleu import _jute as jute
from dirwolleu import _library as library
from dirwolleu._connection import Connection
from dirwolleu._library import Send
from dirwolleu._plans import Acls
from dirwolleu._retry import is_lived_through
from dirwolleu._session import Contends, Session
from dirwolleu._views import error_of_refusal
from dirwolleu.exceptions import MixedNamesError, ZookeeperError


class Contender:
    """A contender for the lock of a directory, with one of the core's namings and a guid that nobody else has.

    It holds once at most: when it no longer holds, it is given up, and `on_lost` is called.
    """

    def __init__(
        self,
        directory: str,
        naming: int,
        guid: str,
        data: bytes,
        acl: Acls = None,
        on_lost: Callable[[Any], object] = lambda _: None,
    ) -> None:
        self.words = directory, naming, guid, data, b"" if acl is None else jute.acls(acl)
        self.directory, self.guid, self.on_lost = directory, guid, on_lost
        self.ticket = self.told = 0
        """`told` is the core's last report, one of `CONTENDER_WAITS` to `CONTENDER_GIVEN_UP`."""
        self.asked_at: Optional[int] = None
        """When the first frame about its directory was sent since the core's last report of it, in milliseconds: none of its calls since
        is older."""
        self.refused: Optional[BaseException] = None
        """Why it makes no progress."""
        self.may_be_there = self.is_lost = self.is_given_up = self.is_over = False

    def obstacle(self, told: Contends) -> Optional[ZookeeperError]:
        """The error for which it pauses, unless that may pass."""
        error: ZookeeperError
        if told.refusal == library.NUMBERS_USED_UP:
            error = ZookeeperError("the numbers of nodes below it are used up", "take another path")
        elif told.refusal == library.MIXED_NAMES:
            error = MixedNamesError()
        else:
            error = error_of_refusal(told.refusal, told.code)
        error.path = self.directory
        return None if is_lived_through(error) else error


class ContendingConnection(Connection):
    """Hands contenders to the core, and wakes those who wait for them: they listen by the guid, as others do by a path."""

    def __init__(self, *words: Any) -> None:
        super().__init__(*words)
        self._contenders: dict[int, Contender] = {}
        self._unasked: dict[Contender, bytes] = {}
        """Those that wait, and about whose directory, as frames spell it, none was sent since the core's last report of them."""
        self._postponed: list[Contender] = []
        """Those for which there was no memory when the session was resumed: they may have a place already."""

    def take_handed(self, now: int) -> None:
        super().take_handed(now)
        if self._postponed:
            self._wishes.extendleft((self._join, contender) for contender in self._postponed)
            self._postponed.clear()

    def contend(self, contender: Contender) -> None:
        """Adds a contender, in the next step. Any thread may call this, and the three below."""
        self.check_process()
        if not self.is_running:
            raise self.why_over("the client is not started")
        self._wishes.append((self._join, contender))

    def give_up(self, contender: Contender) -> None:
        """Gives a contender up, in the next step. It is over once it has no place any more."""
        contender.is_given_up = True
        self._wishes.append((self._part, contender))

    def held_by(self, contender: Contender) -> Optional[int]:
        """The token, if the core shows that the session holds by this contender, at the last seen zxid."""
        return None if contender.is_lost else self._look(lambda session: session.held(contender.ticket))

    def place_of(self, contender: Contender) -> Optional[str]:
        """The path of its place, if it is known."""
        return self._look(lambda session: session.place(contender.ticket))

    def in_line(self, directory: str, names: Sequence[str], markers: Sequence[str]) -> list[str]:
        """The names in a directory that have one of these markers before their numbers, in their order, the first one in front. The core
        says who is the last one before each.
        """
        found = [f"{markers[0]}{'9' * 10}"]  # no place has a greater number
        while True:
            before = self._look(lambda session: session.standing(directory, found[-1], names, 0, (markers[0], *markers)))
            if before is None or before.rival is None:
                return found[:0:-1]
            found.append(before.rival)

    def _join(self, now: int, contender: Contender) -> None:
        if not self.is_running or contender.is_given_up and not contender.may_be_there:
            return self._end(contender)
        contender.ticket = ticket = next(self._tickets)
        self._contenders[ticket] = contender
        may_be_there, contender.may_be_there = contender.may_be_there, True
        try:
            self._await_frame(contender)
            self._step(now, Session.contend, ticket, *contender.words, may_be_there)
        except Exception as error:  # any error concerns only this contender
            self._contenders.pop(ticket, None)
            if may_be_there:
                return self._postponed.append(contender)
            contender.refused = error
            return self._end(contender)
        if contender.is_given_up and contender.ticket in self._contenders:
            self._part(now, contender)

    def _part(self, now: int, contender: Contender) -> None:
        if contender.ticket in self._contenders:
            self._step(now, Session.give_up, contender.ticket)
        elif contender not in self._postponed:
            self._end(contender)

    def _hear_of_contender(self, told: Contends) -> None:
        contender = self._contenders.get(told.ticket)
        if contender is None:
            return
        self._is_recast = True
        self._lose(contender)
        contender.told = told.stands
        if told.stands == library.CONTENDER_GIVEN_UP:
            del self._contenders[told.ticket]
            return self._end(contender)
        if told.stands == library.CONTENDER_HOLDS:
            self._prove(contender)
        else:
            self._await_frame(contender)
        if told.stands == library.CONTENDER_PAUSES:
            contender.refused = contender.obstacle(told)
        self._wake(contender.guid)

    def _lose(self, contender: Contender) -> None:
        """It no longer holds, if it did."""
        if contender.told == library.CONTENDER_HOLDS and not contender.is_lost:
            contender.is_lost = True
            if not contender.is_given_up:
                self._tell(contender.on_lost, None)
                self.give_up(contender)

    def _end(self, contender: Contender) -> None:
        contender.is_over = True
        self._unasked.pop(contender, None)
        self._wake(contender.guid)

    def _end_contenders(self) -> None:
        """Their session is over, with their places."""
        for contender in self._lose_contenders():
            self._end(contender)

    def _join_again(self) -> None:
        """The same session is resumed, and knows nothing of them: their places are looked for, before anything else is asked."""
        self._wishes.extendleft((self._join, contender) for contender in self._lose_contenders())

    def _lose_contenders(self) -> list[Contender]:
        """The contenders of a session that another one has replaced."""
        lost = list(self._contenders.values())
        self._contenders.clear()
        for contender in lost:
            self._lose(contender)
        return lost

    # How old the core's reports of them are. Their calls are the core's own, and it does not report the answers.

    def _await_frame(self, contender: Contender) -> None:
        contender.asked_at = None
        self._unasked[contender] = self._root.spell(contender.directory)

    def _take_frame(self, send: Send) -> None:
        super()._take_frame(send)
        for contender in [one for one, directory in self._unasked.items() if directory in send.frame]:
            del self._unasked[contender]
            contender.asked_at = self._now

    def _prove(self, contender: Contender) -> None:
        """It holds by the answer to a listing that it has asked for since the core's last report of it."""
        if contender.asked_at is not None:
            self.connection_stats.prove(contender.asked_at)
