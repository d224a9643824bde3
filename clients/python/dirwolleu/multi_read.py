"""Reads of several nodes at one zxid."""

from __future__ import annotations

from collections.abc import Iterable
from typing import NamedTuple, Optional, Union

from dirwolleu import _jute as jute
from dirwolleu import _library as library
from dirwolleu._checks import checked_path
from dirwolleu._jute import ERROR, Malformed, Reader
from dirwolleu._records import RawRequest
from dirwolleu._root import Root
from dirwolleu.exceptions import ZookeeperError, error_of
from dirwolleu.types import Stat

__all__ = ["Read", "ReadOutcome"]

ReadOutcome = Union[tuple[Optional[bytes], Stat], list[str], ZookeeperError]
"""The result of a read of `multi_read`: a node's data and its Stat, or the names of its children, or the error of this read
alone."""

_GET_DATA, _GET_CHILDREN = 4, 8


class Read(NamedTuple):
    """A read among those of `multi_read`: `Read.data("/a")` or `Read.children("/a")`."""

    operation: int
    path: str

    @classmethod
    def data(cls, path: str) -> Read:
        """A read of a node's data and its Stat."""
        return cls(_GET_DATA, checked_path(path))

    @classmethod
    def children(cls, path: str) -> Read:
        """A read of the names of a node's children."""
        return cls(_GET_CHILDREN, checked_path(path))

    def _outcome(self, reader: Reader) -> ReadOutcome:
        operation = reader.multi_header()
        if operation == ERROR:
            error = error_of(reader.integer())
            error.path = self.path
            return error
        if operation != self.operation:
            raise Malformed
        return (reader.buffer(), reader.stat()) if operation == _GET_DATA else reader.items(reader.text)


def multi_read(reads: Iterable[Read]) -> RawRequest[list[ReadOutcome]]:
    """All reads, as one request. Raises `TypeError` if one is no `Read`."""
    asked = list(reads)
    for one in asked:
        if not isinstance(one, Read):
            raise TypeError(f"a read is a dirwolleu.Read, and not {type(one).__name__}")

    def body(root: Root) -> bytes:
        each = [jute.multi_header(one.operation) + jute.text(root.full(one.path)) + jute.boolean(False) for one in asked]
        return b"".join(each) + jute.MULTI_END

    def read(reader: Reader, _: Root) -> list[ReadOutcome]:
        return [one._outcome(reader) for one in asked]

    return RawRequest(library.MULTI_READ, None, body, read, is_repeatable=True, named=[one.path for one in asked])
