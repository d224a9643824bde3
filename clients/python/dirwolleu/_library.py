"""The shared library by ctypes: its functions, structs and numbers, the outputs of its steps, and its errors. `Session` hides its
pointers.

No call lets another thread run before it has returned, since it holds the interpreter's lock: so calls do not overlap, and no thread that
is interrupted keeps a lock.
"""

from __future__ import annotations

import ctypes
import os
import sys
import types
from collections.abc import Collection
from ctypes import POINTER, Structure
from ctypes import c_bool, c_int32, c_int64, c_size_t, c_uint32, c_uint64, c_void_p
from typing import Any, NamedTuple, Optional, Union

from dirwolleu.types import Stat

# made by scripts/interface from include/interface.toml
VERSION = 3000

OK = 0
NONE = 1
WAITS = 2
HALTED = -1
NO_MEMORY = -2
CLOSED = -3
NOT_TEXT = -4
NOT_PATH = -5
BAD_TIMEOUT = -6
NO_SUCH_MODE = -7
NOT_SAVED = -8
NOT_WHOLE = -9
TOO_MANY = -10
NOT_TEXTS = -11
NO_SUCH_OPERATION = -12
CREDENTIAL_TOO_LARGE = -13
NO_SUCH_LIMITS = -14
NOT_ACL = -15

SEND = 1
ANSWER = 2
REPORT = 3
STATE = 4
DROP = 5
DIAL = 6
HANG_UP = 7
TIMED_OUT = 8
RENEWED = 9
SHOWN = 10
REFUSED = 11
MEMBER_ADDED = 12
MEMBER_REMOVED = 13
TREE_BOUNDED = 14
TREE_COMPLETE = 15
CREDENTIAL = 16
CONTENDER_WAITS = 17
CONTENDER_HOLDS = 18
CONTENDER_LOST = 19
CONTENDER_PAUSES = 20
CONTENDER_GIVEN_UP = 21

IDLE = 0
CONNECTING = 1
CONNECTED = 2
EXPIRED = 3
SESSION_CLOSED = 4

CODE = 1
STAT = 2
DATA = 3
NAMES = 4
CREATED = 5
DONE = 6
RAW = 7

NODE_CREATED = 1
NODE_DELETED = 2
DATA_CHANGED = 3
CHILDREN_CHANGED = 4

DATA_SIDE = 1
CHILDREN_SIDE = 2

REPLIED = 0
LOST = 1
AFTER_EXPIRY = 2
AFTER_CLOSE = 3
NOT_CONNECTED = 4
TOO_MANY_WATCHES = 5
TOO_LARGE = 6
TOO_MANY_PENDING = 7

BAD_FRAME = 1
BAD_PAYLOAD = 2
SILENT = 3
BEHIND = 4
WATCHES_REFUSED = 5

READ_CODE = 1
READ_TOO_MANY_WATCHES = 2
READ_TOO_LARGE = 3
READ_CLOSED = 4
NUMBERS_USED_UP = 5
MIXED_NAMES = 6

CONNECTION_LOSS = -4
UNIMPLEMENTED = -6
BAD_ARGUMENTS = -8
NO_NODE = -101
NO_AUTH = -102
BAD_VERSION = -103
NO_CHILDREN_FOR_EPHEMERALS = -108
NODE_EXISTS = -110
NOT_EMPTY = -111
SESSION_EXPIRED = -112
INVALID_ACL = -114
SESSION_MOVED = -118

PERSISTENT = 0
EPHEMERAL = 1
SEQUENTIAL = 2

GET_ACL = 6
SET_ACL = 7
SYNC = 9
MULTI = 14
CREATE2 = 15
CREATE_CONTAINER = 19
CREATE_TTL = 21
MULTI_READ = 22
GET_EPHEMERALS = 103
GET_ALL_CHILDREN_NUMBER = 104
WHO_AM_I = 107

KAZOO = 0
KAZOO_READER = 1
CURATOR_LOCK = 2
CURATOR_LATCH = 3
CURATOR_WRITER = 4
CURATOR_READER = 5
LEASES = 6

GOOD = 1
STALE = 2

NOTHING = 0
ABSENT = 1
KNOWN = 2
FULL = 3


class _Slot(Structure):
    _fields_ = [("at", c_void_p)]


class _Handle(Structure):
    _fields_ = [
        ("is_open", c_bool),
        ("slot", _Slot),
    ]


class _Stat(Structure):
    _fields_ = [
        ("czxid", c_int64),
        ("mzxid", c_int64),
        ("ctime", c_int64),
        ("mtime", c_int64),
        ("ephemeral_owner", c_int64),
        ("pzxid", c_int64),
        ("version", c_int32),
        ("cversion", c_int32),
        ("aversion", c_int32),
        ("data_length", c_int32),
        ("num_children", c_int32),
    ]


class _Output(Structure):
    _fields_ = [
        ("kind", c_int32),
        ("detail", c_int32),
        ("result", c_int32),
        ("code", c_int32),
        ("ticket", c_uint64),
        ("zxid", c_int64),
        ("length", c_size_t),
        ("names", c_size_t),
        ("is_null", c_bool),
        ("has_stat", c_bool),
        ("stat", _Stat),
    ]


class _DataStat(Structure):
    _fields_ = [
        ("czxid", c_int64),
        ("mzxid", c_int64),
        ("ctime", c_int64),
        ("mtime", c_int64),
        ("ephemeral_owner", c_int64),
        ("version", c_int32),
        ("data_length", c_int32),
    ]


class _KeptData(Structure):
    _fields_ = [
        ("kind", c_int32),
        ("mark", c_int32),
        ("length", c_size_t),
        ("is_null", c_bool),
        ("stat", _DataStat),
    ]


class _KeptNames(Structure):
    _fields_ = [
        ("mark", c_int32),
        ("count", c_size_t),
        ("pzxid", c_int64),
    ]


_HANDLE = POINTER(_Handle)
_FUNCTIONS: dict[str, tuple[Any, tuple[Any, ...]]] = {
    "dw_version": (c_uint32, ()),
    "dw_session_open": (c_int32, (_HANDLE, c_int32, c_size_t, c_uint64)),
    "dw_session_resume": (c_int32, (_HANDLE, c_int32, c_size_t, c_uint64, c_void_p, c_size_t)),
    "dw_session_open_with_limits": (c_int32, (_HANDLE, c_int32, c_size_t, c_uint64, c_size_t, c_size_t)),
    "dw_session_resume_with_limits": (
        c_int32,
        (_HANDLE, c_int32, c_size_t, c_uint64, c_size_t, c_size_t, c_void_p, c_size_t),
    ),
    "dw_session_free": (None, (_HANDLE,)),
    "dw_session_opened": (c_int32, (_HANDLE, c_uint64)),
    "dw_session_failed": (c_int32, (_HANDLE, c_uint64)),
    "dw_session_bytes": (c_int32, (_HANDLE, c_uint64, c_void_p, c_size_t)),
    "dw_session_cut": (c_int32, (_HANDLE, c_uint64)),
    "dw_session_moment": (c_int32, (_HANDLE, c_uint64)),
    "dw_session_addresses": (c_int32, (_HANDLE, c_uint64, c_size_t, c_size_t, c_bool)),
    "dw_session_exists": (c_int32, (_HANDLE, c_uint64, c_uint64, c_uint64, c_void_p, c_size_t, c_bool)),
    "dw_session_get_data": (c_int32, (_HANDLE, c_uint64, c_uint64, c_uint64, c_void_p, c_size_t, c_bool)),
    "dw_session_get_children": (c_int32, (_HANDLE, c_uint64, c_uint64, c_uint64, c_void_p, c_size_t, c_bool)),
    "dw_session_set_data": (
        c_int32,
        (_HANDLE, c_uint64, c_uint64, c_uint64, c_void_p, c_size_t, c_void_p, c_size_t, c_bool, c_int32),
    ),
    "dw_session_create": (
        c_int32,
        (_HANDLE, c_uint64, c_uint64, c_uint64, c_void_p, c_size_t, c_void_p, c_size_t, c_bool, c_uint32),
    ),
    "dw_session_delete": (c_int32, (_HANDLE, c_uint64, c_uint64, c_uint64, c_void_p, c_size_t, c_int32)),
    "dw_session_raw": (c_int32, (_HANDLE, c_uint64, c_uint64, c_uint64, c_int32, c_void_p, c_size_t)),
    "dw_session_credential": (c_int32, (_HANDLE, c_uint64, c_void_p, c_size_t, c_void_p, c_size_t)),
    "dw_session_close": (c_int32, (_HANDLE, c_uint64, c_uint64, c_uint64)),
    "dw_session_follow_data": (c_int32, (_HANDLE, c_uint64, c_uint64, c_void_p, c_size_t)),
    "dw_session_follow_names": (c_int32, (_HANDLE, c_uint64, c_uint64, c_void_p, c_size_t)),
    "dw_session_unfollow": (c_int32, (_HANDLE, c_uint64, c_uint64)),
    "dw_session_follow_tree": (c_int32, (_HANDLE, c_uint64, c_uint64, c_void_p, c_size_t, c_size_t)),
    "dw_session_unfollow_tree": (c_int32, (_HANDLE, c_uint64, c_uint64)),
    "dw_session_contend": (
        c_int32,
        (_HANDLE, c_uint64, c_uint64, c_void_p, c_size_t, c_uint32, c_void_p, c_size_t, c_void_p, c_size_t, c_bool, c_bool, c_void_p, c_size_t),
    ),
    "dw_session_give_up": (c_int32, (_HANDLE, c_uint64, c_uint64)),
    "dw_session_next": (c_int32, (_HANDLE, POINTER(_Output))),
    "dw_session_copy": (c_size_t, (_HANDLE, c_size_t, c_void_p, c_size_t)),
    "dw_session_name": (c_size_t, (_HANDLE, c_size_t, c_void_p, c_size_t)),
    "dw_session_names": (c_int32, (_HANDLE, c_void_p, c_size_t, POINTER(c_size_t))),
    "dw_session_words": (c_int32, (_HANDLE, c_void_p, c_size_t, POINTER(c_size_t))),
    "dw_session_outputs": (c_int32, (_HANDLE, c_void_p, c_size_t, POINTER(c_size_t))),
    "dw_session_state": (c_int32, (_HANDLE,)),
    "dw_session_revision": (c_uint64, (_HANDLE,)),
    "dw_session_last_zxid": (c_int64, (_HANDLE,)),
    "dw_session_timeout_ms": (c_int64, (_HANDLE,)),
    "dw_session_deadline": (c_int32, (_HANDLE, POINTER(c_uint64))),
    "dw_session_heard_at": (c_int32, (_HANDLE, POINTER(c_uint64))),
    "dw_session_saved": (c_int32, (_HANDLE, c_void_p, c_size_t, POINTER(c_size_t))),
    "dw_session_peek_data": (c_int32, (_HANDLE, c_void_p, c_size_t, POINTER(_KeptData), c_void_p, c_size_t)),
    "dw_session_peek_children": (c_int32, (_HANDLE, c_void_p, c_size_t, POINTER(_KeptNames))),
    "dw_session_peek_name": (c_int32, (_HANDLE, c_void_p, c_size_t, c_size_t, c_void_p, c_size_t, POINTER(c_size_t))),
    "dw_session_peek_names": (c_int32, (_HANDLE, c_void_p, c_size_t, c_void_p, c_size_t, POINTER(c_size_t))),
    "dw_session_subtree": (c_int32, (_HANDLE, c_void_p, c_size_t, c_size_t, c_void_p, c_size_t, POINTER(c_size_t))),
    "dw_session_lacking": (c_int32, (_HANDLE, c_void_p, c_size_t, c_size_t, c_void_p, c_size_t, POINTER(c_size_t))),
    "dw_session_snapshot": (
        c_int32,
        (_HANDLE, c_void_p, c_size_t, c_void_p, c_size_t, c_void_p, c_size_t, POINTER(c_size_t)),
    ),
    "dw_session_standing": (
        c_int32,
        (_HANDLE, c_void_p, c_size_t, c_void_p, c_size_t, c_void_p, c_size_t, c_int64, c_void_p, c_size_t, POINTER(c_int64), c_void_p, c_size_t, POINTER(c_size_t)),
    ),
    "dw_session_holder": (
        c_int32,
        (_HANDLE, c_void_p, c_size_t, c_void_p, c_size_t, c_void_p, c_size_t, POINTER(c_int64)),
    ),
    "dw_session_held": (c_int32, (_HANDLE, c_uint64, POINTER(c_int64))),
    "dw_session_place": (c_int32, (_HANDLE, c_uint64, c_void_p, c_size_t, POINTER(c_size_t))),
    "dw_session_forget": (c_int32, (_HANDLE,)),
}

_RESULT_WORDS = {
    HALTED: "out of memory within a step; take the saved session, and resume it",
    NO_MEMORY: "out of memory; hand the same in again",
    CLOSED: "the handle holds no session; open one",
    NOT_TEXT: "the path is no UTF-8",
    NOT_PATH: "the text is no path",
    BAD_TIMEOUT: "the timeout is not 1 to 2147483647 milliseconds",
    NO_SUCH_MODE: "the mode is no sum of EPHEMERAL and SEQUENTIAL",
    NOT_SAVED: "the bytes are no saved session; take all of those that a client has saved",
    NOT_WHOLE: "some of what is asked for is not kept, or not good; read what is lacking, with a watch",
    TOO_MANY: "the subtree has more nodes than were asked for; ask for more, or for a path below",
    NOT_TEXTS: "the bytes are no texts, each after its length",
    NO_SUCH_OPERATION: "no operation that a caller may spell has the number",
    CREDENTIAL_TOO_LARGE: "the scheme and the secret have more than 1048555 bytes",
    NO_SUCH_LIMITS: "a limit of payloads is below that of every session, or above 1073741823 bytes",
    NOT_ACL: "the bytes spell no ACL of one entry or more",
}
# end of what is made

_HERE = os.path.dirname(os.path.realpath(__file__))


def _find() -> str:
    """The file of the library: the one that the environment names, else the one in the package, else the one that a checkout has built or
    brings along, else the system's.
    """
    named = os.environ.get("DIRWOLLEU_LIBRARY")
    if named:
        return named
    checkout = os.path.dirname(os.path.dirname(os.path.dirname(_HERE)))
    places = (_HERE, os.path.join(checkout, "clients", "out"), os.path.join(checkout, "prebuilt", "x86_64-linux"))
    files = (os.path.join(place, "libdirwolleu.so") for place in places)
    found = next(filter(os.path.exists, files), None) or _installed()
    if found is None:
        raise ImportError("libdirwolleu.so is not found: install the package again, or name the file by DIRWOLLEU_LIBRARY")
    return found


def _installed() -> Optional[str]:
    """The library of the system."""
    from ctypes.util import find_library  # here, since it takes a tenth of the time of the whole import

    return find_library("dirwolleu")


def _check_machine() -> None:
    """Raises an `ImportError` that says why if the library can't run."""
    system = os.uname() if hasattr(os, "uname") else None
    machine, name = (system.machine, system.sysname) if system else ("another machine", sys.platform)
    if (machine.lower(), name) not in (("x86_64", "Linux"), ("amd64", "Linux")):
        raise ImportError(f"dirwolleu runs on Linux on x86-64 alone, and this is {name} on {machine}")
    if not getattr(sys, "_is_gil_enabled", lambda: True)():
        raise ImportError("dirwolleu wants an interpreter with its global lock (GIL)")


def version_text(number: int) -> str:
    """A version as people write it: 1002003 is 1.2.3."""
    return f"{number // 1000000}.{number // 1000 % 1000}.{number % 1000}"


def _check_version(file: str, library: ctypes.PyDLL) -> None:
    """Raises an `ImportError` that says so if the library has another version than this package was written for."""
    function = getattr(library, "dw_version", None)
    found = version_text(function()) if function else "0.2.0 or earlier"
    if found != version_text(VERSION):
        raise ImportError(
            f"{file} is of version {found}, and this package of {version_text(VERSION)}: install both of one version"
        )


def declare(file: str, library: ctypes.CDLL, functions: dict[str, tuple[Any, tuple[Any, ...]]]) -> None:
    """Declares what the functions of a library take and return. Raises `ImportError` if one is missing."""
    for name, (result, parameters) in functions.items():
        function = getattr(library, name, None)
        if function is None:
            raise ImportError(f"{file} is of another version than this package: it has no {name}")
        function.restype, function.argtypes = result, parameters


def _load(file: str) -> ctypes.PyDLL:
    library = ctypes.PyDLL(file)
    _check_version(file, library)
    declare(file, library, _FUNCTIONS)
    return library


_check_machine()
_library = _load(_find())


class Send(NamedTuple):
    """A frame to write to the server."""

    frame: bytes


class Answer(NamedTuple):
    """The answer to a call. `lack` is 0 for a reply, which has a zxid, and else 1 to 7, for K1 to K7."""

    ticket: int
    lack: int
    result: int
    code: int
    stat: Optional[Stat]
    text: Optional[bytes]
    names: list[str]
    zxid: int = 0


class Report(NamedTuple):
    """The good answer about a side of a path has ended."""

    event: int
    side: int
    path: str


class StateChange(NamedTuple):
    """The state has changed."""

    state: int


class Drop(NamedTuple):
    """The connection is given up: close it. The fault is one of docs/CODES.md."""

    fault: str
    words: str
    cause: int = 0


Output = Union[Send, Answer, Report, StateChange, Drop]


class NotWhole(LookupError):
    """Some of the nodes that were asked for are not kept, or not good."""


class TooManyNodes(ValueError):
    """The subtree has more nodes than were asked for."""


class Halted(MemoryError):
    """The machine ran out of memory within a step. It is of no use from then on, but its session can still be saved."""


class NoMemory(MemoryError):
    """There was no memory for what was handed in. Nothing has happened: it can be handed in again."""


class Closed(RuntimeError):
    """The machine is closed."""


class UnknownNumber(RuntimeError):
    """The library gives a number that this package does not know: it has another version."""


def known(what: str, number: int, among: Collection[int]) -> int:
    """The number, if it is one of these. Raises `UnknownNumber` if not."""
    if number not in among:
        raise UnknownNumber(f"the library gives the {what} {number}, which this package does not know: take both of one version")
    return number


def checked(code: int) -> None:
    """Raises the error of a code below 0."""
    if code >= OK:
        return
    words = _RESULT_WORDS[known("result", code, _RESULT_WORDS)]
    raise {
        HALTED: Halted,
        NO_MEMORY: NoMemory,
        CLOSED: Closed,
        NOT_WHOLE: NotWhole,
        TOO_MANY: TooManyNodes,
    }.get(code, ValueError)(words)


def functions(prefix: str) -> types.SimpleNamespace:
    """The functions of the library whose names begin with this prefix, by their names without it."""
    names = [name for name in _FUNCTIONS if name.startswith(prefix)]
    found = types.SimpleNamespace(**{name[len(prefix) :]: getattr(_library, name) for name in names})
    # These are called most, with pointers and sizes of C: by other objects, which do not check their arguments.
    vars(found).update((name, _library[prefix + name]) for name in ("next", "copy", "outputs") if name in vars(found))
    return found
