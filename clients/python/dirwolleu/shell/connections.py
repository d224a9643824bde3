"""The reports of a client on its connections, in the words of `zk_shell`."""

from __future__ import annotations

import logging
import re
from typing import Any, Callable, NamedTuple, Optional

from dirwolleu._hosts import Place, hosts_of
from dirwolleu.shell.faults import Dialled

NO_SESSION = "connected, but no session was accepted"
_NOT_FOUND = "host not found"
_OWN = "it was closed"
"""The reason of an end that the client itself has caused."""

_WORDS = {
    "broken pipe": "a write failed",
    "connected, and it has not accepted the session": NO_SESSION,
    "connection reset by peer": "connection reset",
    "connection timed out": "timed out",
    "name or service not known": _NOT_FOUND,
    "network is unreachable": "network unreachable",
    "no connection in time": "timed out",
    "no route to host": "host unreachable",
    "the server has closed it": "end of stream",
}


def _reason(why: str) -> str:
    return _WORDS.get(why[:1].lower() + why[1:], why)


class Said(NamedTuple):
    """A report of the client on a connection: which, to which address, and why."""

    kind: str
    """dial, failed, connecting, ended, drop, connected, expired or closed."""

    address: str = ""
    reason: str = ""
    session: int = 0
    timeout_ms: int = 0
    fault: str = ""

    @property
    def is_of_server(self) -> bool:
        """Whether the server, and not the client, has ended the session or the connection, or caused its end."""
        return self.kind in ("closed", "drop") or self.kind == "ended" and self.reason != _OWN


class Connections(logging.Handler):
    """Handles the records of the client's logger, which names each connection and each session, and passes them on."""

    def __init__(self, hosts: str, tell: Callable[[Said], object]) -> None:
        super().__init__()
        self._words, self._named = dict[str, str](), dict[str, list[str]]()
        """The word of the command line for a server, by the client's name of it, and all words that have a name."""
        for word in hosts.partition("/")[0].split(","):
            name, port = hosts_of(word).servers[0]
            self._words[str(Place(name, name, port))] = word
            self._named.setdefault(name, []).append(word)
        self._tell = tell
        self._readers: dict[str, Callable[..., Said]] = {
            "dials %s": lambda place: Said("dial", self._address(str(place))),
            "no connection to %s": self._failed,
            "asks %s for a session": lambda place: Said("connecting", self._address(str(place))),
            "the connection to %s is over: %s": self._ended,
            "connected to %s: session %#x with a timeout of %s seconds": self._connected,
            "the session %#x has expired: a new one begins": lambda _: Said("expired"),
            "the session %#x is closed": lambda _: Said("closed"),
        }

    def __enter__(self) -> Connections:
        logger = logging.getLogger("dirwolleu.connection")
        logger.setLevel(logging.DEBUG)
        logger.propagate = False
        logger.addHandler(self)
        return self

    def __exit__(self, *_: object) -> None:
        logging.getLogger("dirwolleu.connection").removeHandler(self)

    def emit(self, record: logging.LogRecord) -> None:
        read = self._readers.get(str(record.msg))
        arguments: Any = record.args or ()
        if read is not None:
            self._tell(read(*arguments))

    def _address(self, place: str) -> str:
        """The word of the command line for a server: if a name was looked up, without the address."""
        address = re.sub(r" \(.*\)$", "", place)
        return self._words.get(address, address)

    def failed(self, trouble: str) -> Optional[Dialled]:
        """The address whose last attempt has failed, and why."""
        address, colon, why = trouble.partition(": ")
        if not colon:
            return None
        unknown = self._named.get(address)
        if unknown is not None:
            unknown.append(unknown.pop(0))  # the logger does not say which of them it was: they take turns
            return Dialled(unknown[-1], _NOT_FOUND)
        return Dialled(self._address(address), _reason(why))

    def _failed(self, trouble: str) -> Said:
        dialled = self.failed(str(trouble))
        if dialled is not None and dialled.reason == _NOT_FOUND:  # it was looked up for a dial, and the logger names no dial then
            self._tell(Said("dial", dialled.address))
        return Said("failed", *dialled) if dialled is not None else Said("failed", "", str(trouble))

    def _ended(self, place: object, why: str) -> Said:
        address, fault = self._address(str(place)), re.fullmatch(r"([A-Z]\d) (.*)", why)
        if fault is not None:
            return Said("drop", address, fault[2], fault=fault[1])
        return Said("ended", address, _reason(re.sub(r"^\[Errno \d+\] ", "", why)))

    def _connected(self, place: str, session: int, seconds: float) -> Said:
        return Said("connected", self._address(str(place)), "", session, round(1000 * seconds))


class Attempts:
    """How the last attempt at each address went, in the order in which they were first dialled."""

    def __init__(self) -> None:
        self._last: dict[str, str] = {}
        self._is_accepted = self.was_accepted = False
        self.is_expired = False
        """Whether a server has said that the session has expired, and none has accepted another since."""

    def note(self, said: Said) -> None:
        if said.kind == "connecting":
            self._last[said.address] = NO_SESSION
        elif said.address and (said.kind == "failed" or said.kind in ("ended", "drop") and self._is_accepted):
            self._last[said.address] = said.reason
        self._is_accepted = said.kind == "connected"
        self.was_accepted = self.was_accepted or self._is_accepted
        self.is_expired = said.kind == "expired" or self.is_expired and not self._is_accepted

    def all(self) -> list[Dialled]:
        return [Dialled(address, reason) for address, reason in self._last.items()]
