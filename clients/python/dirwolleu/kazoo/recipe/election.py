"""An election: the leader is the holder of a lock (kazoo.recipe.election)."""

from __future__ import annotations

from typing import TYPE_CHECKING, Any, Callable, Optional

from dirwolleu.kazoo.exceptions import CancelledError

if TYPE_CHECKING:
    from dirwolleu.kazoo.client import KazooClient


class Election:
    """Calls a function while this candidate leads: while it holds a lock at the path."""

    def __init__(self, client: KazooClient, path: str, identifier: Optional[str] = None) -> None:
        self.lock = client.Lock(path, identifier)

    def run(self, func: Callable[..., object], *args: Any, **kwargs: Any) -> None:
        """Waits until this candidate leads, and calls the function. It returns after that, and after `cancel`."""
        if not callable(func):
            raise ValueError("leader function is not callable")
        try:
            with self.lock:
                func(*args, **kwargs)
        except CancelledError:
            pass

    def cancel(self) -> None:
        """Ends the wait. A function that was called already goes on."""
        self.lock.cancel()

    def contenders(self) -> list[str]:
        """The identifiers of the candidates, the leader's first."""
        return self.lock.contenders()
