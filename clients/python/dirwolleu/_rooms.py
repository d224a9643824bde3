"""The rooms into which connections read, and which bytes the session gets at once: a long frame only when all of it is there.

The session copies the bytes that it gets, and the part of a frame that it has once more with the rest. So the beginning of a long frame
waits where it was read.
"""

from __future__ import annotations

import struct
from typing import Optional, Union

ROOM = 262_144
"""How many bytes of a connection are read at once, at most."""
SHORT = 4096
"""Fewer bytes than these are copied before the session takes them, which is faster than to lend them, and do not wait for others."""
MOST_SPARE = 4
"""How many rooms are kept that nobody reads into, at most."""
_length_at = struct.Struct(">I").unpack_from

Piece = Union[bytes, memoryview]


class Rooms:
    """The rooms of a thread. Its connections read into a common one, one after the other. A connection whose bytes wait there has it for
    itself once another connection is to read.
    """

    def __init__(self) -> None:
        self.common = memoryview(bytearray(ROOM))
        self.guest: Optional[Inbox] = None
        """The inbox whose bytes wait in the common one."""
        self._spare: list[memoryview] = []

    def move(self) -> None:
        """Makes another room the common one."""
        self.guest, self.common = None, self._spare.pop() if self._spare else memoryview(bytearray(ROOM))

    def give_back(self, room: memoryview) -> None:
        """Nothing waits in this room any more."""
        if room is self.common:
            self.guest = None
        elif len(self._spare) < MOST_SPARE:
            self._spare.append(room)


class Inbox:
    """The bytes of a connection that wait for the rest of a long frame. Places are those of its room, from 0 on."""

    def __init__(self, rooms: Rooms) -> None:
        self._rooms, self._room = rooms, rooms.common
        self._begin = self._end = 0
        """Where the bytes that wait begin and end; the end is 0 if there are none."""
        self._next = 0
        """Where the next frame begins: below 0 if its first bytes were handed in, and its length is not known."""
        self._head = b""
        """These bytes."""

    def room(self) -> memoryview:
        """The room for the next bytes."""
        end = self._end
        if end:
            return self._room[end:]
        rooms = self._rooms
        if rooms.guest is not None:
            rooms.move()
        room = self._room = rooms.common
        return room

    def take(self, count: int) -> Piece:
        """The bytes to hand in before anything else is read, now that this many bytes came; none if all are to wait."""
        room, end = self._room, self._end + count
        after = self._next or 4 + _length_at(room)[0]
        if after == end:
            if self._end:
                return self._hand_in(end, end)
            self._next = 0
            return room[:end].tobytes() if end < SHORT else room[:end]
        return self._wait(self._begin, end, after) if after > end > 3 else self._take(end)

    def has_rest(self) -> bool:
        """Whether bytes wait."""
        return bool(self._end)

    def rest(self) -> Piece:
        """The bytes that wait, to be handed in now."""
        return self._hand_in(self._end, self._next) if self._end else b""

    def _take(self, end: int) -> Piece:
        """The same, up to a place that is in another frame than the first, or in its length."""
        room, frame, after = self._room, self._begin, self._next
        if after < 0:
            self._head += room[: min(4 + after, end)]
            if end - after < 4:
                return self._hand_in(end, after)
            after += 4 + int.from_bytes(self._head, "big")
        while after + 4 <= end:
            frame, after = after, after + 4 + _length_at(room, after)[0]
        if after > end:
            return self._wait(frame, end, after)
        self._head = bytes(room[after:end])
        return self._hand_in(end, after)

    def _wait(self, frame: int, end: int, after: int) -> Piece:
        """The bytes before the last frame, of which more is to come; or all, if that is short or does not fit. So the session judges a
        length that no frame may have as soon as it comes.
        """
        if after - frame < SHORT or after > len(self._room):
            return self._hand_in(end, after)
        before = self._room[self._begin : frame] if frame > self._begin else b""
        if not self._end:
            self._rooms.guest = self
        self._begin, self._end, self._next = frame, end, after
        return bytes(before) if len(before) < SHORT else before

    def _hand_in(self, end: int, after: int) -> Piece:
        """All bytes up to a place. The next frame begins at another one."""
        piece = self._room[self._begin : end]
        if self._end:
            self._rooms.give_back(self._room)
        self._begin, self._end, self._next = 0, 0, after - end
        return piece.tobytes() if len(piece) < SHORT else piece
