"""A subject that the core keeps good for a follower."""

from __future__ import annotations

from typing import Callable, Optional


class Followed:
    """A subject of the core: the data of a node, or the names of its children. `refused` says why its last read was refused."""

    def __init__(self, path: str, side: int, wake: Callable[[], None]) -> None:
        self.path, self.side = path, side
        self._wake = wake
        self.refused: Optional[BaseException] = None

    def show(self) -> None:
        """Its kept answer is good."""
        self.refused = None
        self._wake()

    def refuse(self, error: BaseException) -> None:
        self.refused = error
        self._wake()
