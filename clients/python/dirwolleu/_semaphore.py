"""An event for one thread, which another one sets without the lock of the interpreter.

A thread that releases a lock of `threading` has the interpreter's lock. So the thread that it wakes waits again at once, for that one.
The semaphores of the C library are called by ctypes, which releases the interpreter's lock for the time of a call.
"""

from __future__ import annotations

import ctypes
import threading
import time
from typing import Optional

_library = ctypes.CDLL(None)
_init, _post, _wait = _library.sem_init, _library.sem_post, _library.sem_wait
_wait_by_clock = getattr(_library, "sem_clockwait", None)  # not before glibc 2.30
_wait_by_calendar = _library.sem_timedwait
_Room = ctypes.c_int64 * 4  # a sem_t of Linux on x86-64


def has_system_threads() -> bool:
    """Whether threads are those of the system. gevent and eventlet put their own into `threading`, and none of these may wait here."""
    return threading.Lock.__module__ == "_thread"


class _Moment(ctypes.Structure):
    """A timespec."""

    _fields_ = [("seconds", ctypes.c_int64), ("nanoseconds", ctypes.c_int64)]

    @classmethod
    def of(cls, seconds: float) -> _Moment:
        return cls(int(seconds), int(seconds % 1 * 1_000_000_000))


class Semaphore:
    """An event for one thread that waits, as `News` is. It does not matter if that thread is interrupted."""

    __slots__ = ("_at",)

    def __init__(self) -> None:
        self._at = ctypes.byref(_Room())  # it keeps its target alive
        _init(self._at, 0, 0)

    def set(self) -> None:
        """Ends one wait: the current one, or the next."""
        _post(self._at)

    def wait(self, timeout: Optional[float]) -> bool:
        """Waits until it is set, and clears it, for at most this many seconds. It ends at a signal too, so that its handler is called.

        Returns whether it has cleared it.
        """
        if timeout is None:
            ended = _wait(self._at)
        elif _wait_by_clock is not None:
            ended = _wait_by_clock(self._at, time.CLOCK_MONOTONIC, ctypes.byref(_Moment.of(time.monotonic() + timeout)))
        else:
            ended = _wait_by_calendar(self._at, ctypes.byref(_Moment.of(time.time() + timeout)))
        return bool(ended == 0)
