"""The credentials that a session sends first on each connection, and the calls that wait for a server's answer to one."""

from __future__ import annotations

from collections.abc import Iterable
from typing import NamedTuple

from dirwolleu import _library as library
from dirwolleu._asked import Asked
from dirwolleu._library import Answer
from dirwolleu._requests import Request
from dirwolleu._session import Session

TAKEN = Answer(0, library.REPLIED, library.DONE, 0, None, None, [])
"""The answer to a credential that a server has accepted."""


class Credential(NamedTuple):
    """How a session identifies itself. It is a secret."""

    scheme: str
    credential: bytes

    def __repr__(self) -> str:
        return f"Credential(scheme={self.scheme!r}, credential=..)"


class CredentialCall(Request[None]):
    """Adds a credential to the session, on this connection and on each later one."""

    __slots__ = ()

    def __init__(self, credential: Credential) -> None:
        super().__init__(Session.credential, words=credential, is_repeatable=True)


class CredentialQueue:
    """The credentials of a session by their places, and the calls that wait for the answer to one."""

    def __init__(self, credentials: Iterable[Credential]) -> None:
        self._kept = list(credentials)
        self._given: list[Credential] = []
        self._waiting: list[tuple[int, Asked]] = []
        self._count = 0

    def begin(self, session: Session) -> None:
        """Gives an unbegun session the credentials that servers have accepted, or that the client was made with."""
        self._given = list(self._kept)
        for credential in self._given:
            session.credential(0, *credential)
        self.begin_connection()

    def begin_connection(self) -> None:
        self._count = 0

    def are_answered(self) -> bool:
        """Whether the server of this connection has answered all of them."""
        return self._count >= len(self._given)

    def is_taken(self, credential: Credential) -> bool:
        """Whether the server of this connection has accepted it."""
        return credential in self._given[: self._count]

    def wait(self, asked: Asked, credential: Credential) -> bool:
        """Adds a call that waits for the answer to a credential, and returns whether the credential is new."""
        is_new = credential not in self._given
        if is_new:
            self._given.append(credential)
        self._waiting.append((self._given.index(credential), asked))
        return is_new

    def withdraw(self, asked: Asked) -> None:
        """Forgets the last credential, which the session does not have."""
        self._given.pop()
        self._waiting = [one for one in self._waiting if one[1] is not asked]

    def scheme(self, place: int) -> str:
        return self._given[place].scheme

    def take(self, place: int) -> list[Asked]:
        """A server has accepted the credential at this place. Returns the calls that wait for that."""
        self._count = max(self._count, place + 1)
        credential = self._given[place]
        if credential not in self._kept:
            self._kept.append(credential)
        return self.leave(place)

    def leave(self, place: int) -> list[Asked]:
        """Forgets the calls that wait for the answer to the credential at this place, and returns them."""
        found = [asked for waits, asked in self._waiting if waits == place]
        self._waiting = [one for one in self._waiting if one[0] != place]
        return found

    def waiting(self) -> list[Asked]:
        return [asked for _, asked in self._waiting if not asked.waiter.done()]

    def clear(self) -> list[Asked]:
        """Forgets all calls that wait, and returns them."""
        waiting, self._waiting = self.waiting(), []
        return waiting
