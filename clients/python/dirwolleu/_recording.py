"""The record of a session: what the library gets and what it sends, as lines that `zk_shell` replays and shows.

No secret is written: the passwords in the request for a session and in the answer to it are zeros, and so is all of a
credential. A log-in by SASL is over before the library gets anything.
"""

from __future__ import annotations

import os
import struct
import time
from typing import Any, Callable, Optional, Union

from dirwolleu._library import VERSION, version_text
from dirwolleu._session import Session

Path = Union[str, "os.PathLike[str]"]

_AT_XID, _AT_RECORD, _AT_SENT_PASSWORD, _AT_CAME_PASSWORD = 4, 12, 32, 24
"""The places of the fields that are read in frames: after the length, in the request for a session, and in the answer to
it."""
_AUTH = -4
_NAMES = {1: "create", 2: "delete", 3: "exists", 4: "getdata", 5: "setdata", 12: "getchildren", -11: "close"}
"""The calls whose answers the library reads, by the types of their requests."""
_READS, _WITH_DATA = ("exists", "getdata", "getchildren"), ("create", "setdata")


def _int(frame: bytes, at: int) -> int:
    return int.from_bytes(frame[at : at + 4], "big", signed=True)


def _path_word(path: bytes) -> str:
    return "".join(chr(byte) if 32 < byte < 127 and byte != 92 else f"\\x{byte:02x}" for byte in path)


def _data_word(data: bytes) -> str:
    return data.hex() or "\\e"


def _call(frame: bytes) -> str:
    """The call that has made the library send this request."""
    kind, end = _int(frame, 8), len(frame)
    name = _NAMES.get(kind)
    if name is None:
        return f"raw {kind} {_data_word(frame[_AT_RECORD:])}"
    if end == _AT_RECORD:
        return name
    after = _AT_RECORD + 4 + _int(frame, _AT_RECORD)
    words = [name, _path_word(frame[_AT_RECORD + 4 : after])]
    if name in _WITH_DATA:
        length = _int(frame, after)
        words.append("\\0" if length < 0 else _data_word(frame[after + 4 : after + 4 + length]))
    words.append(str(frame[-1] if name in _READS else _int(frame, end - 4)))
    return " ".join(words)


def _hidden(data: bytes, begin: int, end: int) -> bytes:
    """The bytes, with zeros for those from one place to another, some of which may be elsewhere."""
    begin, end = min(max(begin, 0), len(data)), min(max(end, 0), len(data))
    return data[:begin] + bytes(end - begin) + data[end:]


class Recorder:
    """Writes the record of a client into a file, from its beginning."""

    def __init__(self, path: Path) -> None:
        self._file = open(path, "wb", buffering=0, opener=lambda name, flags: os.open(name, flags, 0o600))
        self._lines = [f"# dirwolleu {version_text(VERSION)} record 1 of {time.time_ns() // 1_000_000}"]
        self._begun: Optional[int] = None
        self._told: Optional[int] = None
        self._machine = ""
        self._is_open = self._has_sent = False
        self._head, self._came = b"", 0

    def begin(self, timeout_ms: int, saved: Optional[bytes]) -> None:
        """Another session begins, or is resumed."""
        self._machine = f"timeout {timeout_ms}"
        if saved is not None:
            session, length = struct.unpack_from(">qi", saved)
            (zxid,) = struct.unpack(">q", saved[-8:])
            self._machine = f"resume {timeout_ms} {session} {_data_word(bytes(length))} {zxid}"

    def stepped(self, now: int, step: Callable[..., object], words: tuple[Any, ...]) -> None:
        """The library has made this step."""
        self._now = now
        if step is Session.received:
            self._bytes(bytes(words[0]))
        elif step is Session.opened:
            self._is_open, self._has_sent, self._head, self._came = True, False, b"", 0
            self._add("opened")
        elif step is Session.cut:
            self.cut()

    def cut(self) -> None:
        """The connection is over, if there was one. It belonged to the session before another one that begins."""
        if self._is_open:
            self._is_open, machine, self._machine = False, self._machine, ""
            self._add("cut")
            self._machine = machine

    def sent(self, frame: bytes) -> None:
        """The library has sent a frame."""
        xid = _int(frame, _AT_XID)
        if not self._has_sent:
            frame = _hidden(frame, _AT_SENT_PASSWORD, _AT_SENT_PASSWORD + _int(frame, _AT_SENT_PASSWORD - 4))
        elif xid == _AUTH:
            frame = _hidden(frame, _AT_RECORD, len(frame))
        elif xid >= 0:
            self._add(f"call {xid} {_call(frame)}")
        self._has_sent = True
        self._add(f"> {frame.hex()}")

    def _bytes(self, data: bytes) -> None:
        came, self._came = self._came, self._came + len(data)
        if came < _AT_CAME_PASSWORD:
            self._head = (self._head + data)[:_AT_CAME_PASSWORD]
        begin, length = _AT_CAME_PASSWORD - came, _int(self._head, _AT_CAME_PASSWORD - 4)
        if came + len(data) > _AT_CAME_PASSWORD and begin + length > 0:
            data = _hidden(data, begin, begin + length)
        self._add(f"bytes {data.hex()}")

    def _add(self, line: str) -> None:
        """Adds a line, after the moment if that has changed."""
        if self._machine:
            self._lines.append(self._machine)
            self._machine = ""
        if self._begun is None:
            self._begun = self._now
        if self._told != self._now:
            self._told = self._now
            self._lines.append(f"now {max(self._now - self._begun, 0)}")
        self._lines.append(line)

    def flush(self) -> None:
        """Writes what was recorded. Raises `OSError` if that fails."""
        if self._lines:
            left = "".join(f"{line}\n" for line in self._lines).encode()
            self._lines.clear()
            while left:
                left = left[self._file.write(left) :]

    def close(self) -> None:
        self._file.close()
