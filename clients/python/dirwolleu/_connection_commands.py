"""The commands of an engine for its driver."""

from __future__ import annotations

from typing import NamedTuple, Optional, Protocol

from dirwolleu._session import Dial


class News(Protocol):
    """An event that is set when there is news."""

    def set(self) -> None: ...
    def clear(self) -> None: ...


class ConnectionCommands(NamedTuple):
    """The commands of one turn, in this order: close the connection, dial, and write these frames."""

    hangs_up: bool
    dial: Optional[Dial]
    frames: bytes


NO_COMMANDS = ConnectionCommands(False, None, b"")
