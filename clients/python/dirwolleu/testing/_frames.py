"""Frames of the client protocol, as zookeeper.jute spells them: the parts that the socket loop has to see."""

from __future__ import annotations

import struct
from collections.abc import Iterator
from typing import NamedTuple, Optional

from dirwolleu._jute import Malformed, Reader

CREATE, DELETE, EXISTS, GET_DATA, SET_DATA, GET_ACL, SET_ACL, GET_CHILDREN, SYNC = 1, 2, 3, 4, 5, 6, 7, 8, 9
PING, GET_CHILDREN2, CHECK, MULTI, CREATE2, AUTH, SET_WATCHES, CLOSE_SESSION, ERROR = 11, 12, 13, 14, 15, 100, 101, -11, -1
CREATE_CONTAINER, CREATE_TTL, MULTI_READ, GET_EPHEMERALS, GET_ALL_CHILDREN_NUMBER, WHO_AM_I = 19, 21, 22, 103, 104, 107

READS = (
    EXISTS, GET_DATA, GET_ACL, GET_CHILDREN, GET_CHILDREN2, PING, AUTH, SET_WATCHES, MULTI_READ, GET_EPHEMERALS, GET_ALL_CHILDREN_NUMBER,
    WHO_AM_I,
)  # fmt: skip
"""The requests that a server answers by what it knows, however far it is behind the others."""

OK = 0
EPHEMERAL, SEQUENTIAL, CONTAINER, TTL = 1, 2, 4, 5
"""The flags of a create, and the numbers of other kinds of nodes: one more is a sequential node with a TTL."""

LONGEST = 4_194_304
"""The greatest length of a frame that is accepted: more than real servers accept by default, which is 1,048,575."""


class Record(Reader):
    """Reads the fields of a record, from left to right."""

    def rest(self) -> bytes:
        return self._payload[self._place :]

    def long(self) -> int:
        return int(struct.unpack(">q", self._take(8))[0])

    def text(self) -> str:
        """A text. A null one is empty."""
        try:
            return (self.buffer() or b"").decode()
        except UnicodeDecodeError:
            raise Malformed from None

    def acls(self) -> bytes:
        """The bytes of an ACL."""
        begin = self._place
        for _ in range(self.integer()):
            self.integer(), self.text(), self.text()
        return self._payload[begin : self._place]


class Reply(NamedTuple):
    """A message of a server: a reply, or a notice, whose xid is -1."""

    xid: int
    zxid: int
    code: int
    body: bytes


def framed(payload: bytes) -> bytes:
    return struct.pack(">i", len(payload)) + payload


def put_reply(xid: int, zxid: int, code: int, body: bytes = b"") -> bytes:
    return framed(struct.pack(">iqi", xid, zxid, code) + body)


def split(output: bytes) -> Iterator[bytes]:
    """The frames in a server's output, each with its length."""
    while output:
        end = 4 + int.from_bytes(output[:4], "big")
        yield output[:end]
        output = output[end:]


def read_password(frame: bytes) -> Optional[bytes]:
    """The password in the answer to a request to connect."""
    record = Record(frame[4:])
    record.integer(), record.integer(), record.long()
    return record.buffer()


def read_reply(frame: bytes) -> Reply:
    xid, zxid, code = struct.unpack(">iqi", frame[4:20])
    return Reply(xid, zxid, code, frame[20:])
