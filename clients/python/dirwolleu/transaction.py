"""Several changes that happen together or not at all."""

from __future__ import annotations

from collections.abc import Awaitable
from contextlib import AbstractAsyncContextManager, AbstractContextManager
from types import TracebackType
from typing import Callable, NamedTuple, Optional, Union

from dirwolleu import _jute as jute
from dirwolleu import _library as library
from dirwolleu import _records as records
from dirwolleu._checks import checked_data, checked_version
from dirwolleu._jute import ERROR, Malformed, Reader
from dirwolleu._plans import Acls
from dirwolleu._records import Mode, RawRequest
from dirwolleu._requests import refusal_of
from dirwolleu._root import Root
from dirwolleu.exceptions import TransactionFailedError
from dirwolleu.types import Stat

__all__ = ["AsyncTransaction", "Outcome", "Transaction"]

Outcome = Union[str, Stat, bool]
"""The result of an operation: the path of a created node, the Stat of one that was set, or else True, as in kazoo."""

_CREATE, _DELETE, _SET_DATA, _CHECK = 1, 2, 5, 13
_ROLLED_BACK, _NOT_TRIED = 0, -2


class _Part(NamedTuple):
    """One operation: its number, its body, and the reader of its result."""

    operation: int
    path: str
    body: Callable[[Root], bytes]
    read: Callable[[Reader, Root], Outcome]
    named: str
    """The path that has to be valid for a node."""


def _versioned(path: str, version: int, data: bytes = b"") -> Callable[[Root], bytes]:
    return records.body_of(path, data + jute.integer(checked_version(version)))


class _Operations:
    """The operations of a transaction, for both clients."""

    def __init__(self) -> None:
        self._parts: list[_Part] = []

    def create(
        self,
        path: str,
        value: Optional[bytes] = b"",
        *,
        acl: Acls = None,
        ephemeral: bool = False,
        sequence: bool = False,
    ) -> None:
        """Creates a node. The result is its path."""
        mode = Mode(ephemeral, sequence)
        body = records.create_body(path, value, acl, mode)
        self._parts.append(_Part(_CREATE, path, body, records.read_path, records.place_of(path, mode)))

    def delete(self, path: str, version: int = -1) -> None:
        """Deletes a node that has this version; -1 is any. The result is True."""
        self._parts.append(_Part(_DELETE, path, _versioned(path, version), lambda *_: True, path))

    def set_data(self, path: str, value: Optional[bytes], version: int = -1) -> None:
        """Sets the data of a node that has this version; -1 is any. The result is its `Stat`."""
        body = _versioned(path, version, jute.buffer(checked_data(value)))
        self._parts.append(_Part(_SET_DATA, path, body, records.read_stat, path))

    def check(self, path: str, version: int) -> None:
        """Lets the transaction happen only if the node has this version; -1 is any. The result is True."""
        self._parts.append(_Part(_CHECK, path, _versioned(path, version), lambda *_: True, path))

    def __len__(self) -> int:
        return len(self._parts)

    def request(self) -> RawRequest[list[Outcome]]:
        """All operations, as one request."""
        parts = list(self._parts)

        def body(root: Root) -> bytes:
            return b"".join(jute.multi_header(part.operation) + part.body(root) for part in parts) + jute.MULTI_END

        def read(reader: Reader, root: Root) -> list[Outcome]:
            return _outcomes(parts, reader, root)

        path = parts[0].path if len(parts) == 1 else None
        return RawRequest(library.MULTI, path, body, read, named=[part.named for part in parts])


def _outcomes(parts: list[_Part], reader: Reader, root: Root) -> list[Outcome]:
    """The result of each operation. Raises the error of the one that was refused."""
    outcomes: list[Outcome] = []
    codes: list[int] = []
    for part in parts:
        operation = reader.multi_header()
        if operation == ERROR:
            codes.append(reader.integer())
        elif operation == part.operation:
            outcomes.append(part.read(reader, root))
        else:
            raise Malformed
    if codes:
        _raise(parts, codes)
    return outcomes


def _raise(parts: list[_Part], codes: list[int]) -> None:
    refused = [index for index, code in enumerate(codes) if code not in (_ROLLED_BACK, _NOT_TRIED)]
    index = refused[0] if refused else 0
    part = parts[index]
    error = refusal_of(codes[index], part.path if part.operation == _CREATE else None)
    error.path = error.path or part.path
    raise TransactionFailedError(f"operation {index} was refused, and nothing has happened: {error}", index, error) from error


class Transaction(_Operations, AbstractContextManager["Transaction"]):
    """Several changes that happen together or not at all, in their order.

    `commit` sends them. At the end of a `with` block they are sent too, unless an error leaves it.

        with client.transaction() as transaction:
            transaction.check("/config", version=3)
            transaction.set_data("/config", b"new")
            transaction.create("/log/n-", b"changed", sequence=True)
        path = transaction.results[2]
    """

    def __init__(self, ask: Callable[[RawRequest[list[Outcome]], Optional[float]], list[Outcome]]) -> None:
        super().__init__()
        self._ask = ask
        self.results: list[Outcome] = []
        """The results of the operations, in their order; empty before `commit`."""

    def commit(self, timeout: Optional[float] = None) -> list[Outcome]:
        """Does all operations, and returns their results.

        Raises `TransactionFailedError` if one is refused; then nothing has happened. After `ConnectionLoss` and
        `CallTimeoutError` all of it may have happened.
        """
        self.results = self._ask(self.request(), timeout)
        return self.results

    def __exit__(
        self, kind: Optional[type[BaseException]], error: Optional[BaseException], trace: Optional[TracebackType]
    ) -> None:
        if error is None:
            self.commit()


class AsyncTransaction(_Operations, AbstractAsyncContextManager["AsyncTransaction"]):
    """A `Transaction` of the client for asyncio: `commit` is a coroutine, and the end of an `async with` block commits."""

    def __init__(self, ask: Callable[[RawRequest[list[Outcome]], Optional[float]], Awaitable[list[Outcome]]]) -> None:
        super().__init__()
        self._ask = ask
        self.results: list[Outcome] = []
        """The results of the operations, in their order; empty before `commit`."""

    async def commit(self, timeout: Optional[float] = None) -> list[Outcome]:
        """Does all operations, as `Transaction.commit` does."""
        self.results = await self._ask(self.request(), timeout)
        return self.results

    async def __aexit__(
        self, kind: Optional[type[BaseException]], error: Optional[BaseException], trace: Optional[TracebackType]
    ) -> None:
        if error is None:
            await self.commit()
