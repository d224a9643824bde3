"""The proved server in memory, as a library: include/dirwolleu_bench.h by ctypes."""

from __future__ import annotations

import os
import pathlib
from ctypes import CDLL, POINTER, byref, c_bool, c_int32, c_int64, c_size_t, c_uint64, c_void_p
from ctypes import create_string_buffer, string_at
from typing import Any

from dirwolleu._library import _Handle, declare

# made by scripts/interface from include/bench.toml
OK = 0
NONE = 1
NO_MEMORY = -2
CLOSED = -3
NOT_TEXT = -4
NOT_PATH = -5
NO_SUCH_SERVER = -6
NO_SUCH_KIND = -7
BAD_ARGUMENTS = -8
NO_TRANSACTION = -9
NO_NODE = -101
NO_CHILDREN_FOR_EPHEMERALS = -108
NODE_EXISTS = -110
NOT_EMPTY = -111
MADE = 1
WRITTEN = 2
DELETED = 3

_HANDLE = POINTER(_Handle)
_FUNCTIONS: dict[str, tuple[Any, tuple[Any, ...]]] = {
    "dw_bench_open": (c_int32, (_HANDLE, c_int64)),
    "dw_bench_close": (None, (_HANDLE,)),
    "dw_bench_change": (c_int32, (_HANDLE, c_uint64, c_int32, c_int64, c_void_p, c_size_t, c_void_p, c_size_t)),
    "dw_bench_learn": (c_int32, (_HANDLE, _HANDLE)),
    "dw_bench_zxid": (c_int64, (_HANDLE,)),
    "dw_bench_connect": (c_int32, (_HANDLE, c_int32)),
    "dw_bench_cut": (c_int32, (_HANDLE,)),
    "dw_bench_hear": (c_int32, (_HANDLE, c_void_p, c_size_t)),
    "dw_bench_say": (c_int32, (_HANDLE, c_void_p, c_size_t, POINTER(c_size_t))),
    "dw_bench_process": (c_int32, (_HANDLE, c_uint64)),
    "dw_bench_take": (c_int32, (_HANDLE, c_int32)),
    "dw_bench_expire": (c_int32, (_HANDLE, c_bool)),
}
# end of what is made

ROOM = 1 << 16
_NAME = "libdirwolleu_bench.so"
_HERE = pathlib.Path(__file__).resolve().parent


class BenchError(Exception):
    """The library returns a code that it must not return to this program."""


def _find() -> str:
    """The file of the library: the one that the environment names, else the one in the package, else the one that a checkout has built or
    brings along.
    """
    named = os.environ.get("DIRWOLLEU_BENCH")
    if named:
        return named
    clients = _HERE.parents[2]
    places = (_HERE / _NAME, clients / "out" / _NAME, clients / "bench" / "x86_64-linux" / _NAME)
    found = next((str(place) for place in places if place.is_file()), None)
    if found is None:
        raise ImportError(f"{_NAME} is not found: install the package again, or name the file by DIRWOLLEU_BENCH")
    return found


def _load(file: str) -> CDLL:
    library = CDLL(file)
    declare(file, library, _FUNCTIONS)
    return library


_LIBRARY = _load(_find())


def _done(result: int, *allowed: int) -> int:
    if result != OK and result not in allowed:
        raise BenchError(f"the server in memory answers {result}")
    return result


class Bench:
    """A server in memory for one session, which is a number above 0."""

    def __init__(self, session: int) -> None:
        self._handle = _Handle()
        self._room = create_string_buffer(ROOM)
        self.is_open = False
        """Whether a server had the connection when its output was last asked for."""
        _done(_LIBRARY.dw_bench_open(byref(self._handle), session))

    def __del__(self) -> None:
        _LIBRARY.dw_bench_close(byref(self._handle))

    def change(self, now_ms: int, kind: int, path: str, data: bytes = b"", owner: int = 0) -> int:
        """Another session changes a node. Returns 0, or the code for which the tree does not admit it."""
        text = path.encode()
        result = _LIBRARY.dw_bench_change(byref(self._handle), now_ms, kind, owner, text, len(text), data, len(data))
        return _done(result, NOT_PATH, BAD_ARGUMENTS, NO_NODE, NO_CHILDREN_FOR_EPHEMERALS, NODE_EXISTS, NOT_EMPTY)

    def learn(self, other: Bench) -> bool:
        """Learns the next transaction that the other one has and this one has not. Returns whether there is one."""
        return _done(_LIBRARY.dw_bench_learn(byref(self._handle), byref(other._handle)), NONE) == OK

    def zxid(self) -> int:
        return int(_LIBRARY.dw_bench_zxid(byref(self._handle)))

    def connect(self, server: int) -> None:
        _done(_LIBRARY.dw_bench_connect(byref(self._handle), server))
        self.is_open = True

    def cut(self) -> None:
        _done(_LIBRARY.dw_bench_cut(byref(self._handle)))
        self.is_open = False

    def hear(self, data: bytes) -> None:
        """Hands in the bytes that the client sent."""
        _done(_LIBRARY.dw_bench_hear(byref(self._handle), data, len(data)))

    def process(self, now_ms: int) -> bool:
        """Processes the next whole request. Returns whether there is one."""
        return _done(_LIBRARY.dw_bench_process(byref(self._handle), now_ms), NONE) == OK

    def take(self, server: int) -> None:
        _done(_LIBRARY.dw_bench_take(byref(self._handle), server))

    def say(self) -> bytes:
        """Takes out all that the server sent."""
        said, count = b"", c_size_t(ROOM)
        while count.value == ROOM:
            result = _LIBRARY.dw_bench_say(byref(self._handle), self._room, ROOM, byref(count))
            self.is_open = _done(result, NONE) == OK
            said += string_at(self._room, count.value)
        return said

    def expire(self, is_expired: bool) -> None:
        """From now on clients hear that the session has expired, or are admitted again."""
        _done(_LIBRARY.dw_bench_expire(byref(self._handle), is_expired))
