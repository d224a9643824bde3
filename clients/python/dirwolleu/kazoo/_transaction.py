"""Several changes that happen together or not at all."""

from __future__ import annotations

import functools
from collections.abc import Sequence
from contextlib import AbstractContextManager
from types import TracebackType
from typing import TYPE_CHECKING, Any, Optional

from dirwolleu._jute import Malformed, Reader
from dirwolleu._records import Mode, RawRequest
from dirwolleu._root import Root
from dirwolleu.kazoo._checks import Acls, check, check_acls, check_flags, checked_path, own_acls
from dirwolleu.kazoo.exceptions import error_of_code
from dirwolleu.kazoo.handlers.threading import AsyncResult
from dirwolleu.kazoo.protocol import serialization
from dirwolleu.kazoo.protocol.serialization import CheckVersion, Create, Delete, Operation, SetData
from dirwolleu.kazoo.protocol.states import ZnodeStat
from dirwolleu.transaction import _Operations

if TYPE_CHECKING:
    from dirwolleu.kazoo.client import KazooClient


class TransactionRequest(AbstractContextManager["TransactionRequest"]):
    """Several changes that happen together or not at all, in their order. `with` commits them at its end."""

    def __init__(self, client: KazooClient) -> None:
        self.client = client
        self.operations: list[Operation] = []
        self.committed = False

    def create(
        self,
        path: str,
        value: bytes = b"",
        acl: Acls = None,
        ephemeral: bool = False,
        sequence: bool = False,
    ) -> None:
        """Makes a node. Its result is its path."""
        acl = acl or self.client.default_acl
        if acl:
            check_acls(acl)
        check("value", value, bytes, "must be a byte string")
        check_flags(ephemeral=ephemeral, sequence=sequence)
        self._add(Create(checked_path(path), value, own_acls(acl), Mode(ephemeral, sequence).flags))

    def delete(self, path: str, version: int = -1) -> None:
        """Deletes a node of this version (-1: any). Its result is True."""
        check("version", version, int, "int")
        self._add(Delete(checked_path(path), version))

    def set_data(self, path: str, value: bytes, version: int = -1) -> None:
        """Sets the data of a node of this version (-1: any). Its result is the node's `ZnodeStat`."""
        check("value", value, bytes, "must be a byte string")
        check("version", version, int, "int")
        self._add(SetData(checked_path(path), value, version))

    def check(self, path: str, version: int) -> None:
        """Lets the transaction happen only if the node has this version. Its result is True."""
        check("version", version, int, "int")
        self._add(CheckVersion(checked_path(path), version))

    def commit(self) -> list[Any]:
        """Does all of it, and returns the result of each operation.

        If one is refused, nothing has happened, and the results are errors: the refused one has its own, those before
        it `RolledBackError`, and those after it `RuntimeInconsistency`. It raises none of them.
        """
        results: list[Any] = self.commit_async().get()
        return results

    def commit_async(self) -> AsyncResult:
        """`commit`, which does not wait."""
        self._check_open()
        self.committed = True
        return self.client._send(_request_of(self.operations))

    def __exit__(
        self, kind: Optional[type[BaseException]], error: Optional[BaseException], trace: Optional[TracebackType]
    ) -> None:
        if error is None:
            self.commit()

    def _check_open(self) -> None:
        if self.committed:
            raise ValueError("Transaction already committed")

    def _add(self, operation: Operation) -> None:
        self._check_open()
        self.operations.append(operation)


def _request_of(operations: Sequence[Operation]) -> RawRequest[Any]:
    """The request of a transaction, whose result is kazoo's."""
    asked = _Operations()
    for one in operations:
        if isinstance(one, Create):
            asked.create(one.path, one.data, acl=one.acl, ephemeral=bool(one.flags & 1), sequence=bool(one.flags & 2))
        elif isinstance(one, Delete):
            asked.delete(one.path, one.version)
        elif isinstance(one, SetData):
            asked.set_data(one.path, one.data, one.version)
        else:
            asked.check(one.path, one.version)
    request: RawRequest[Any] = asked.request()
    request.read = functools.partial(_results, len(operations))
    return request


def _results(count: int, reader: Reader, root: Root) -> list[Any]:
    return [_result(reader, root) for _ in range(count)]


def _result(reader: Reader, root: Root) -> Any:
    """The result of one operation, or its error. Raises `Malformed`."""
    operation = reader.multi_header()
    if operation == serialization.ERROR:
        return error_of_code(reader.integer())
    if operation == serialization.CREATE:
        return root.own(reader.text())
    if operation == serialization.SET_DATA:
        return ZnodeStat(*reader.stat())
    if operation in (serialization.DELETE, serialization.CHECK):
        return True
    raise Malformed
