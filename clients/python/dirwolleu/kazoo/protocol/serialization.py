"""The operations of a transaction, by kazoo's names (kazoo.protocol.serialization). `type` is ZooKeeper's number."""

from __future__ import annotations

from collections.abc import Sequence
from typing import NamedTuple, Optional, Union

from dirwolleu.security import ACL

CREATE, DELETE, SET_DATA, CHECK, ERROR = 1, 2, 5, 13, -1


class Create(NamedTuple):
    """Makes a node. The flags are 1 for an ephemeral one, and 2 for one with a number."""

    path: str
    data: bytes
    acl: Optional[Sequence[ACL]]
    flags: int

    @property
    def type(self) -> int:
        return CREATE


class Delete(NamedTuple):
    """Deletes a node of this version; -1 is any."""

    path: str
    version: int

    @property
    def type(self) -> int:
        return DELETE


class SetData(NamedTuple):
    """Sets the data of a node of this version; -1 is any."""

    path: str
    data: bytes
    version: int

    @property
    def type(self) -> int:
        return SET_DATA


class CheckVersion(NamedTuple):
    """Lets the transaction happen only if the node has this version."""

    path: str
    version: int

    @property
    def type(self) -> int:
        return CHECK


Operation = Union[Create, Delete, SetData, CheckVersion]
