"""The records of zookeeper.jute that the core does not know."""

from __future__ import annotations

import struct
from collections.abc import Iterable
from typing import Callable, Optional, TypeVar

from dirwolleu._checks import checked_int
from dirwolleu.security import ACL, Id
from dirwolleu.types import Stat

Item = TypeVar("Item")
_STAT = struct.Struct(">qqqqiiiqiiq")
ERROR = -1
"""The operation of a refused part in the answer to a multi, and of the end of a multi."""


class Malformed(Exception):
    """The bytes of a record do not parse."""


def integer(value: int) -> bytes:
    return struct.pack(">i", checked_int("a number", value))


def long(value: int) -> bytes:
    return struct.pack(">q", value)


def boolean(value: bool) -> bytes:
    return b"\1" if value else b"\0"


def buffer(value: Optional[bytes]) -> bytes:
    return integer(-1) if value is None else integer(len(value)) + value


def text(value: str) -> bytes:
    return buffer(value.encode())


def acls(values: Iterable[ACL]) -> bytes:
    """Raises `TypeError` if a value is no ACL."""
    spelled = list(map(_acl, values))
    return integer(len(spelled)) + b"".join(spelled)


def _acl(value: ACL) -> bytes:
    try:
        return integer(value.perms) + text(value.id.scheme) + text(value.id.id)
    except AttributeError:
        raise TypeError(f"an ACL is a list of security.ACL, and this one has {value!r}") from None


def multi_header(operation: int, is_last: bool = False) -> bytes:
    """A MultiHeader: it comes before each part of a multi, and at its end."""
    return integer(operation) + boolean(is_last) + integer(-1)


MULTI_END = multi_header(ERROR, True)


class Reader:
    """Takes the fields of a record, from left to right. Each function raises `Malformed`."""

    def __init__(self, payload: bytes) -> None:
        self._payload, self._place = payload, 0

    def _take(self, count: int) -> bytes:
        taken = self._payload[self._place : self._place + max(count, 0)]
        if count < 0 or len(taken) < count:
            raise Malformed
        self._place += count
        return taken

    def integer(self) -> int:
        return int(struct.unpack(">i", self._take(4))[0])

    def boolean(self) -> bool:
        return self._take(1) != b"\0"

    def buffer(self) -> Optional[bytes]:
        count = self.integer()
        return None if count == -1 else self._take(count)

    def text(self) -> str:
        try:
            return self._take(self.integer()).decode()
        except UnicodeDecodeError:
            raise Malformed from None

    def stat(self) -> Stat:
        czxid, mzxid, ctime, mtime, version, cversion, aversion, owner, length, children, pzxid = _STAT.unpack(
            self._take(_STAT.size)
        )
        return Stat(czxid, mzxid, ctime, mtime, version, cversion, aversion, owner, length, children, pzxid)

    def multi_header(self) -> int:
        """The operation that a MultiHeader names."""
        operation, _, _ = self.integer(), self.boolean(), self.integer()
        return operation

    def acl(self) -> ACL:
        return ACL(self.integer(), Id(self.text(), self.text()))

    def items(self, take: Callable[[], Item]) -> list[Item]:
        """A vector, whose items a function takes."""
        count = self.integer()
        if count > len(self._payload):
            raise Malformed
        return [take() for _ in range(count)]
