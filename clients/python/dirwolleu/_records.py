"""Requests that the core carries without reading them: each is a record of zookeeper.jute, with a reader for the record of its
answer.

The session numbers, orders and bounds them as it does all calls, and asks those again that change nothing.
"""

from __future__ import annotations

from collections.abc import Sequence
from typing import Any, Callable, NamedTuple, Optional

from dirwolleu import _jute as jute
from dirwolleu import _library as library
from dirwolleu._checks import checked_data, checked_number, checked_path, checked_version
from dirwolleu._jute import Reader
from dirwolleu._library import Answer
from dirwolleu._requests import Request, Result
from dirwolleu._root import Root
from dirwolleu._session import Session
from dirwolleu.security import ACL, OPEN_ACL_UNSAFE, Id
from dirwolleu.types import Stat

Body = Callable[[Root], bytes]
"""Spells what comes after the header of a request, for the root of a client."""

LONGEST_TTL_MS = 0xFF_FFFF_FFFF
"""ZooKeeper keeps a node's TTL in 40 bits."""


class Created(NamedTuple):
    """A node that was made."""

    path: str
    stat: Stat


class RawRequest(Request[Result]):
    """A request of another operation than the core's own. Once it is asked it does not change."""

    __slots__ = ("read",)

    def __init__(
        self,
        operation: int,
        path: Optional[str],
        body: Body,
        read: Callable[[Reader, Root], Result],
        is_repeatable: bool = False,
        named: Optional[Sequence[str]] = None,
    ) -> None:
        """`named` are the paths that have to be paths of nodes, if that is not `path`. `read` takes the body of the answer."""
        if named is None:
            named = () if path is None else (path,)
        super().__init__(Session.raw, path, (operation, named, body), is_repeatable)
        self.read = read

    def result(self, answer: Answer, root: Root) -> Any:
        """The result in the answer. Raises its error, or `Malformed` if its body does not parse."""
        if answer.result == library.RAW:
            return self.read(Reader(answer.text or b""), root)
        return super().result(answer, root)


def body_of(path: str, more: bytes = b"") -> Body:
    """A body that begins with the path of a node."""
    checked_path(path)
    return lambda root: jute.text(root.full(path)) + more


def read_path(reader: Reader, root: Root) -> str:
    return root.own(reader.text())


def read_stat(reader: Reader, _: Root) -> Stat:
    return reader.stat()


def sync(path: str) -> RawRequest[str]:
    return RawRequest(library.SYNC, path, body_of(path), read_path, is_repeatable=True)


def get_acls(path: str) -> RawRequest[tuple[list[ACL], Stat]]:
    def read(reader: Reader, _: Root) -> tuple[list[ACL], Stat]:
        return reader.items(reader.acl), reader.stat()

    return RawRequest(library.GET_ACL, path, body_of(path), read, is_repeatable=True)


def set_acls(path: str, acls: Sequence[ACL], version: int) -> RawRequest[Stat]:
    body = body_of(path, jute.acls(acls) + jute.integer(checked_version(version)))
    return RawRequest(library.SET_ACL, path, body, read_stat)


def get_ephemerals(prefix: str) -> RawRequest[list[str]]:
    def read(reader: Reader, root: Root) -> list[str]:
        return [root.own(path) for path in reader.items(reader.text) if root.has(path)]

    return RawRequest(library.GET_EPHEMERALS, prefix, body_of(prefix), read, is_repeatable=True)


def get_all_children_number(path: str) -> RawRequest[int]:
    def read(reader: Reader, _: Root) -> int:
        return reader.integer()

    return RawRequest(library.GET_ALL_CHILDREN_NUMBER, path, body_of(path), read, is_repeatable=True)


def who_am_i() -> RawRequest[list[Id]]:
    def read(reader: Reader, _: Root) -> list[Id]:
        return reader.items(lambda: Id(reader.text(), reader.text()))

    return RawRequest(library.WHO_AM_I, None, lambda _: b"", read, is_repeatable=True)


class Mode(NamedTuple):
    """How a node is made: CreateMode of ZooKeeper."""

    ephemeral: bool = False
    sequence: bool = False
    container: bool = False
    ttl_ms: Optional[int] = None

    @classmethod
    def of(cls, ephemeral: bool, sequence: bool, container: bool, ttl: Optional[float]) -> Mode:
        """The mode for the parameters of a call, with the TTL in seconds. Raises `ValueError` and `TypeError`."""
        if container and (ephemeral or sequence):
            raise ValueError("a container is neither ephemeral nor sequential")
        if ttl is None:
            return cls(ephemeral, sequence, container)
        if ephemeral or container:
            raise ValueError("a node with a TTL is neither ephemeral nor a container")
        ttl_ms = round(checked_number("a TTL", ttl) * 1000)
        if not 0 < ttl_ms <= LONGEST_TTL_MS:
            raise ValueError(f"a TTL is 0.001 to {LONGEST_TTL_MS / 1000} seconds, and not {ttl}")
        return cls(False, sequence, False, ttl_ms)

    @property
    def flags(self) -> int:
        if self.ttl_ms is not None:
            return 5 + self.sequence
        return 4 if self.container else self.ephemeral + 2 * self.sequence

    @property
    def operation(self) -> int:
        """The operation that makes such a node, whose answer has its path and its Stat."""
        if self.ttl_ms is not None:
            return library.CREATE_TTL
        return library.CREATE_CONTAINER if self.container else library.CREATE2


def is_nameless(path: str, mode: Mode) -> bool:
    """Whether a new node has no name but its digits, since its path ends with a slash."""
    return mode.sequence and path.endswith("/")


def place_of(path: str, mode: Mode) -> str:
    """The path by which a server decides whether a new node may have this one."""
    return path.rstrip("/") or "/" if is_nameless(checked_path(path), mode) and not path.endswith("//") else path


def create_body(path: str, value: Optional[bytes], acl: Optional[Sequence[ACL]], mode: Mode) -> Body:
    """The body of a request that makes a node."""
    spelled = (
        jute.buffer(checked_data(value))
        + jute.acls(OPEN_ACL_UNSAFE if acl is None else acl)
        + jute.integer(mode.flags)
        + (b"" if mode.ttl_ms is None else jute.long(mode.ttl_ms))
    )
    if not is_nameless(checked_path(path), mode):
        return body_of(path, spelled)
    return lambda root: jute.text(root.path + path) + spelled


class _Creation(RawRequest[Result]):
    __slots__ = ()
    is_create = True


def _creation(
    path: str, value: Optional[bytes], acl: Optional[Sequence[ACL]], mode: Mode, read: Callable[[Reader, Root], Result]
) -> RawRequest[Result]:
    body = create_body(path, value, acl, mode)
    return _Creation(mode.operation, path, body, read, named=(place_of(path, mode),))


def create(path: str, value: Optional[bytes], acl: Optional[Sequence[ACL]], mode: Mode) -> RawRequest[str]:
    return _creation(path, value, acl, mode, read_path)


def create2(path: str, value: Optional[bytes], acl: Optional[Sequence[ACL]], mode: Mode) -> RawRequest[Created]:
    def read(reader: Reader, root: Root) -> Created:
        return Created(root.own(reader.text()), reader.stat())

    return _creation(path, value, acl, mode, read)
