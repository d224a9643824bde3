"""A session of the library as a program in C has it, and the server in memory of one session, by ctypes."""

from __future__ import annotations

import sys
from ctypes import byref, c_int64, c_size_t, c_uint64, create_string_buffer
from pathlib import Path
from typing import Any, Iterator

sys.path.insert(0, str(Path(__file__).resolve().parents[1] / "clients" / "python"))

from dirwolleu import _library as declared  # noqa: E402
from dirwolleu.testing import _library as bench  # noqa: E402

ROOM = 192
"""More bytes than a text of the rows has, except for long frames."""
LONGEST_FRAME = 1 << 21
MOST_NUMBER = 2**63 - 1
REQUESTS = 4
"""More requests than are sent at one step."""


class Server(bench.Bench):
    """The server in memory. Its clock stands at 0."""

    def __init__(self) -> None:
        super().__init__(1)

    def answer(self, frames: bytes) -> None:
        """Takes frames, and answers the requests in them."""
        self.hear(frames)
        for _ in range(REQUESTS):
            self.process(0)

    def piece(self, most: int) -> bytes:
        """Takes out at most this many of the bytes that were sent."""
        room, count = create_string_buffer(most), c_size_t()
        bench._LIBRARY.dw_bench_say(byref(self._handle), room, most, byref(count))
        return room.raw[: count.value]


class Handle:
    """A handle of the library: a dw_session."""

    def __init__(self) -> None:
        self._handle = declared._Handle()

    def call(self, name: str, *words: Any) -> int:
        """Calls the function of this name with these parameters, in which bytes stand before their length."""
        function, spelled = getattr(declared._library, "dw_session_" + name), list[Any]()
        for word in words:
            spelled += [word, len(word)] if isinstance(word, bytes) else [word]
        return int(function(byref(self._handle), *spelled))

    def outputs(self) -> Iterator[declared._Output]:
        """The outputs of the last step."""
        output = declared._Output()
        while self.call("next", byref(output)) == declared.OK:
            yield output

    def text(self, room: int = ROOM) -> tuple[int, bytes]:
        """The length of the last output's text, and as much of it as fits."""
        out = create_string_buffer(room)
        length = self.call("copy", 0, out, room)
        return length, out.raw[: min(length, room)]

    def name(self, index: int) -> bytes:
        out = create_string_buffer(ROOM)
        length = self.call("name", index, out, ROOM)
        return out.raw[:length]

    def counted(self, name: str, *words: Any) -> tuple[int, int, bytes]:
        """The result of a function that writes bytes and their number, that number, and the bytes that fitted."""
        out, count = create_string_buffer(ROOM), c_size_t()
        result = self.call(name, *words, out, ROOM, byref(count))
        return result, count.value, out.raw[: min(count.value, ROOM)]

    def deadline(self) -> int | None:
        moment = c_uint64()
        return moment.value if self.call("deadline", byref(moment)) == declared.OK else None

    def token(self, name: str, *words: Any) -> tuple[int, int]:
        """The result of `holder`, and the token."""
        token = c_int64()
        return self.call(name, *words, byref(token)), token.value


def word_of(is_so: bool) -> str:
    return "true" if is_so else "false"


def number_of(ticket: int) -> int:
    return min(ticket, MOST_NUMBER)


def spelled_lines(spelled: bytes) -> list[str]:
    """Bytes as numbers, if there are any."""
    return [f"  {list(spelled)}"] if spelled else []


def text_line(text: bytes) -> str:
    return "  " + text.decode(errors="replace")
