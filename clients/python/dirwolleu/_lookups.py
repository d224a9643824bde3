"""Look-ups of the names of hosts, in threads that hold up neither the thread that keeps clients connected nor the end of a
program.
"""

from __future__ import annotations

import collections
import socket
import threading
from typing import Callable, Optional

Tell = Callable[[list[str], Optional[OSError]], object]


class LookUp:
    """One look-up, in a thread of its own. All who wait for it share it."""

    def __init__(self, host: str, port: int) -> None:
        self._host, self._port = host, port
        self._waiting: collections.deque[Tell] = collections.deque()
        self._found: Optional[tuple[list[str], Optional[OSError]]] = None
        threading.Thread(target=self._run, name="dirwolleu-lookup", daemon=True).start()

    def is_done(self) -> bool:
        return self._found is not None

    def then(self, tell: Tell) -> None:
        """Calls a function with the addresses, or with the error: in the thread of the look-up, or here if it is done."""
        self._waiting.append(tell)
        self._tell_those_who_wait()

    def _run(self) -> None:
        try:
            found = socket.getaddrinfo(self._host, self._port, type=socket.SOCK_STREAM)
            self._found = [str(one[4][0]) for one in found], None
        except OSError as error:
            self._found = [], OSError(error.errno, f"{self._host}: {error.strerror}")
        self._tell_those_who_wait()

    def _tell_those_who_wait(self) -> None:
        """Each of them is called once, by this thread or by another one that asks at the same time."""
        while self._found is not None and self._waiting:
            try:
                tell = self._waiting.popleft()
            except IndexError:
                break
            tell(*self._found)
