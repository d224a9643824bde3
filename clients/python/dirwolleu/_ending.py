"""The end of the program, as its other threads meet it: they end with it, and nobody reads what they print.

Python ends a program in its main thread. That thread waits for the threads that are no daemons, and calls the functions of `atexit`,
while the other threads go on until they are killed. Their calls to a client that was left have no answer: so these do not return. A
thread that has a lock of the package must not rest: the main thread's calls may want it.
"""

from __future__ import annotations

import contextlib
import threading
from collections.abc import Iterator
from typing import Optional

_ends_in: Optional[int] = None
"""The thread in which the program ends, once it does."""
_begun = threading.Event()


def begin() -> None:
    """The program ends, in this thread."""
    global _ends_in
    _ends_in = threading.get_ident()
    _begun.set()


def has_come() -> bool:
    """Whether the program ends, and this thread with it."""
    return _ends_in is not None and _ends_in != threading.get_ident()


def rest() -> None:
    """Does not return if the program ends, and this thread with it."""
    if has_come():
        threading.Event().wait()


@contextlib.contextmanager
def resting(longest: Optional[float] = 0.0) -> Iterator[None]:
    """Rests at the end of the context, if the program ends.

    From shortly before that on, Python 3.12 and later start no thread, and raise an error: then this waits for the end, for this many
    seconds.
    """
    try:
        yield
    except RuntimeError as error:
        if "shutdown" in str(error) and threading.current_thread().daemon:
            _begun.wait(longest)
        raise
    finally:
        rest()
