"""A session with its steps, its state and its listeners. It has no socket, no thread and no clock."""

from __future__ import annotations

import contextlib
import logging
from collections.abc import Iterator
from typing import Any, Callable, Optional

from dirwolleu import _library as library
from dirwolleu._connection_stats import ConnectionStats
from dirwolleu._library import NoMemory
from dirwolleu._listening import Listeners
from dirwolleu._observing import Observed
from dirwolleu._process import this_process
from dirwolleu._recording import Recorder
from dirwolleu._root import Root
from dirwolleu._session import Action
from dirwolleu.exceptions import ConnectionClosedError, ZookeeperError
from dirwolleu.security import AuthFailedError
from dirwolleu.types import State

logger = logging.getLogger("dirwolleu")

Listener = Callable[[State], object]
Tell = Callable[[Callable[[Any], object], Any], object]


class Core(Observed):
    """The base of all parts of an engine."""

    _takers: dict[type, Callable[[Any, Any], None]] = {}
    """The function that takes each kind of action of a step."""

    def __init__(self, timeout_ms: int, root: Root, tell: Tell) -> None:
        super().__init__()
        self._timeout_ms, self._granted_ms = timeout_ms, timeout_ms
        self._root, self._tell = root, tell
        self._listening = Listeners()
        self._listeners: list[Listener] = []
        self._fault, self._cause = "", 0
        self._now = self._number = 0
        self._is_recast = True
        self.connection_stats = ConnectionStats()
        self.hosts = ""
        """The servers, as the program has named them."""
        self.trouble = ""
        """How the last attempt to find a server went, in words; empty once one has accepted the session."""
        self.refused = ""
        """That a server has refused credentials of the client, in words, if that has ended the session; empty once it begins again."""
        self._process: Optional[int] = None
        self._recorder: Optional[Recorder] = None
        self.is_running = False
        self.state = State.LOST

    # The parts above implement these.

    def drop(self, now: int, why: str) -> None:
        """Closes the connection, for a reason of the host."""
        raise NotImplementedError

    def refuse(self, words: str, may_have_happened: bool) -> None:
        """The authentication has failed: the session is over, and no server is dialled any more."""
        raise NotImplementedError

    def _resume(self, why: str) -> None:
        """Resumes the same session, with nothing kept, if the old one can't go on."""
        raise NotImplementedError

    # Its state.

    def why_over(self, words: str) -> ZookeeperError:
        """Why it accepts no call: refused credentials, or else these words."""
        refused = self.refused
        return AuthFailedError(refused) if refused else ConnectionClosedError(words)

    def check_process(self) -> None:
        """Raises if this is a forked child of the process in which the client was started."""
        if not self.is_here():
            raise ConnectionClosedError("the client was started in another process, before a fork: make one here")

    def is_here(self) -> bool:
        """Whether this process is no forked child of the one in which the client was started."""
        return self._process in (None, this_process())

    def no_server(self, seconds: Optional[float]) -> str:
        """Says that no server was found in this time, and how the last attempt went."""
        within = f" in {seconds:g} s" if seconds is not None else ""
        last = f"; last: {self.trouble}" if self.trouble else ""
        return f"no server of {self.hosts} accepted the session{within}{last}"

    def timeout(self) -> float:
        """The timeout of the session in seconds: the one that a server granted last, or the one to ask for."""
        return self._granted_ms / 1000

    # Its listeners.

    def add_listener(self, listener: Listener) -> None:
        self._listeners.append(listener)

    def remove_listener(self, listener: Listener) -> None:
        self._listeners.remove(listener)

    @contextlib.contextmanager
    def news(self, wake: Callable[[], None], path: Optional[str] = None) -> Iterator[None]:
        """Calls `wake` at each change of the state, and at each report of a path, until the context ends."""
        key = object()
        self._listening.add(path, key, wake)
        try:
            yield
        finally:
            self._listening.remove(path, key)

    def tell_news(self, path: Optional[str] = None) -> None:
        self._wake(path)

    def _enter(self, state: State) -> None:
        if state is not self.state:
            self.state = state
            for listener in list(self._listeners):
                self._tell(listener, state)
        self._wake(None)

    def _wake(self, path: Optional[str]) -> None:
        """Wakes those who wait for news of this path, or all."""
        for wake in self._listening.all() if path is None else self._listening.of(path):
            wake()

    # Steps.

    def _step(self, now: int, step: Callable[..., list[Action]], *words: Any) -> None:
        """Makes a step of the session, with these arguments. Raises `NoMemory` and `ValueError` if none was made."""
        if self._saved_at_close is not None:
            return
        self._now = now
        session = self._session
        try:
            actions = step(session, now, *words)
            if self._recorder is not None:
                self._recorder.stepped(now, step, words)
            for action in actions:
                self._takers[type(action)](self, action)
                if self._session is not session:
                    return  # it is closed, and its other actions are dropped
        except NoMemory:
            raise
        except MemoryError:  # within the step
            self._resume("the client ran out of memory")
        except KeyboardInterrupt:  # within an event loop of the main thread
            self._resume("the client was interrupted")
            raise
        if self._fault:
            fault, self._fault = self._fault, ""
            self._cause = library.BAD_PAYLOAD
            self.drop(now, fault)

    # The record.

    def _flush_record(self) -> None:
        """Writes what was recorded since the last turn. If that fails, the record ends, and the session goes on."""
        recorder = self._recorder
        if recorder is not None:
            try:
                recorder.flush()
            except OSError as error:
                logger.warning("the record ends: %s", error.strerror)
                self._end_record()

    def _end_record(self) -> None:
        recorder, self._recorder = self._recorder, None
        if recorder is not None:
            recorder.close()

    def _recast(self) -> None:
        """The deadline may have changed."""
        self._is_recast = True
        if self._saved_at_close is None:
            self._granted_ms = self._session.timeout_ms()
