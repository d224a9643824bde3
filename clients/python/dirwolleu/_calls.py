"""The calls of both clients, with their parameters and texts.

`dirwolleu.Client` and `dirwolleu.aio.Client` make two functions of each: one waits for the answer, and one, whose name ends in `_async`,
returns a future.
"""

from __future__ import annotations

import functools
from collections.abc import Iterable, Sequence
from typing import Callable, Optional, TypeVar, Union

from dirwolleu import _plans as plans
from dirwolleu import _records as records
from dirwolleu import _requests as requests
from dirwolleu._credentials import CredentialCall
from dirwolleu._freshening import freshening
from dirwolleu._plans import Acls, Plan
from dirwolleu._records import Created, Mode
from dirwolleu._requests import Request, Result
from dirwolleu._shown import Shown, credential_of
from dirwolleu.multi_read import Read, ReadOutcome
from dirwolleu.multi_read import multi_read as multi_read_of
from dirwolleu.security import ACL, Id
from dirwolleu.types import Stat, Watch

Wanted = tuple[Union[Request[Result], Plan[Result]], Optional[float]]
"""One request or several, and the seconds within which they are to be answered."""

Made = TypeVar("Made", bound=Callable[..., object])


def shown(made: Made, call: Callable[..., object], ending: str = "", *, is_awaited: bool = False) -> Made:
    """Gives a function of a client or a recipe the name, the parameters and the text of the call that it makes."""
    functools.update_wrapper(made, call)
    name, words = call.__name__.lstrip("_"), call.__doc__ or ""
    made.__name__ = made.__qualname__ = name + ending
    if is_awaited:
        words = words.replace(f"client.{name}(", f"await client.{name}(")
    made.__doc__ = f"`{name}`, which does not wait." if ending else words
    return made


def exists(client: Shown, path: str, watch: Watch = None, *, timeout: Optional[float] = None) -> Wanted[Optional[Stat]]:
    """The `Stat` of a node, or None if there is no node. A watch is left in both cases."""
    return requests.exists(path, watch), timeout


def get(
    client: Shown, path: str, watch: Watch = None, *, timeout: Optional[float] = None
) -> Wanted[tuple[Optional[bytes], Stat]]:
    """The data of a node, None if they are null, and its `Stat`.

    Raises `NoNodeError`; then no watch is left.
    """
    return requests.get(path, watch), timeout


def get_children(client: Shown, path: str, watch: Watch = None, *, timeout: Optional[float] = None) -> Wanted[list[str]]:
    """The names of a node's children, in no order. Raises `NoNodeError`; then no watch is left."""
    return requests.get_children(path, watch), timeout


def create(
    client: Shown,
    path: str,
    value: Optional[bytes] = b"",
    *,
    acl: Acls = None,
    ephemeral: bool = False,
    sequence: bool = False,
    container: bool = False,
    ttl: Optional[float] = None,
    makepath: bool = False,
    timeout: Optional[float] = None,
) -> Wanted[str]:
    """Creates a node and returns its path. The node is open to all unless an ACL is given; None as value is null data.

    An ephemeral node ends with the session. With `sequence` the servers add ten digits to the path; if it ends with a slash, the
    digits are the whole name. The servers delete a `container` some time after its last child is gone, and a node with a
    `ttl`, in seconds, when it had neither a change nor a child for that long; servers without the option
    `zookeeper.extendedTypesEnabled` refuse a TTL with `UnimplementedError`. With `makepath` missing nodes above it are created too.
    Raises `NodeExistsError`, `NoNodeError` if there is no parent, `NoChildrenForEphemeralsError`, `InvalidACLError`.

    With an ACL, or if the path ends with a slash, the call uses create2; a container uses createContainer and a TTL createTTL.
    ZooKeeper has the three since 3.5.

        client.create("/queue/job-", b"one", sequence=True, makepath=True)
    """
    request = plans.create_request(path, value, acl, Mode.of(ephemeral, sequence, container, ttl))
    return plans.create(request, path, acl) if makepath else request, timeout


def create2(
    client: Shown,
    path: str,
    value: Optional[bytes] = b"",
    *,
    acl: Acls = None,
    ephemeral: bool = False,
    sequence: bool = False,
    makepath: bool = False,
    timeout: Optional[float] = None,
) -> Wanted[Created]:
    """Creates a node as `create` does, and returns its `path` and its `stat`."""
    request = records.create2(path, value, acl, Mode(ephemeral, sequence))
    return plans.create(request, path, acl) if makepath else request, timeout


def ensure_path(client: Shown, path: str, *, acl: Acls = None, timeout: Optional[float] = None) -> Wanted[None]:
    """Creates a node and all missing nodes above it. It is safe to repeat."""
    return plans.ensure_path(path, acl), timeout


def set(
    client: Shown, path: str, value: Optional[bytes], version: int = -1, *, timeout: Optional[float] = None
) -> Wanted[Stat]:
    """Sets the data of a node that has this version; -1 is any. Raises `NoNodeError` and `BadVersionError`."""
    return requests.set(path, value, version), timeout


def delete(
    client: Shown, path: str, version: int = -1, *, recursive: bool = False, timeout: Optional[float] = None
) -> Wanted[None]:
    """Deletes a node that has this version; -1 is any.

    Raises `NoNodeError`, `BadVersionError`, `NotEmptyError`. With `recursive` it also deletes all nodes below, one after the
    other, and a missing node is no error; another client may see a part of that.
    """
    return plans.delete_all(path, version) if recursive else requests.delete(path, version), timeout


def sync(client: Shown, path: str = "/", *, timeout: Optional[float] = None) -> Wanted[str]:
    """Lets the server catch up with all earlier writes before it answers, and returns the path.

    A read after it sees each write that was answered, to any client, before `sync` was called. It marks no kept
    answer: kept answers have those writes once a later read or ping is answered.
    """
    return records.sync(path), timeout


def fresh(client: Shown, *, quorum: bool = False, timeout: Optional[float] = None) -> Wanted[int]:
    """Makes sure that good answers have each write that was answered before this call, to any client. Returns the zxid that was seen.

    It asks a server to `sync`; the zxid of the answer is at least that of each such write. Notices of changes come first and make
    answers stale, so an answer that is good afterwards is the servers' state at the call, or a later one.

    A leader that is cut off from its ensemble and has not noticed yet still answers `sync`. With `quorum` the call asks for an
    empty transaction instead, which a majority of the servers has to accept.

        client.fresh()
        kept = client.kept("/config")
        is_current = kept is not None and kept.mark is dirwolleu.Mark.GOOD
    """
    return freshening(client._engine, quorum), timeout


def get_ephemerals(client: Shown, prefix: str = "/", *, timeout: Optional[float] = None) -> Wanted[list[str]]:
    """The paths of the session's ephemeral nodes that begin with a prefix, in no order. ZooKeeper has it since 3.6."""
    return records.get_ephemerals(prefix), timeout


def get_all_children_number(client: Shown, path: str, *, timeout: Optional[float] = None) -> Wanted[int]:
    """How many nodes are below a node, at all depths. Raises `NoNodeError`. ZooKeeper has it since 3.6."""
    return records.get_all_children_number(path), timeout


def who_am_i(client: Shown, *, timeout: Optional[float] = None) -> Wanted[list[Id]]:
    """The schemes and ids by which the server knows this client: its address and its credentials. ZooKeeper has it since 3.7."""
    return records.who_am_i(), timeout


def multi_read(client: Shown, reads: Iterable[Read], *, timeout: Optional[float] = None) -> Wanted[list[ReadOutcome]]:
    """Reads the data or the names of several nodes at one zxid. Returns for each read the data with the `Stat`, or the names, or
    its error, which is not raised. It leaves no watch, and its answers are not kept. ZooKeeper has it since 3.6.

        client.multi_read([dirwolleu.Read.data("/config"), dirwolleu.Read.children("/")])
    """
    return multi_read_of(reads), timeout


def get_acls(client: Shown, path: str, *, timeout: Optional[float] = None) -> Wanted[tuple[list[ACL], Stat]]:
    """The ACL of a node and its `Stat`. Raises `NoNodeError`."""
    return records.get_acls(path), timeout


def set_acls(
    client: Shown, path: str, acls: Sequence[ACL], version: int = -1, *, timeout: Optional[float] = None
) -> Wanted[Stat]:
    """Sets the ACL of a node whose `aversion` is this one; -1 is any.

    Raises `NoNodeError`, `BadVersionError`, `InvalidACLError`, `NoAuthError`.
    """
    return records.set_acls(path, acls, version), timeout


def add_auth(
    client: Shown, scheme: str, credential: Union[str, bytes], *, timeout: Optional[float] = None
) -> Wanted[None]:
    """Adds a credential to the session, now and on each later connection.

    Raises `AuthFailedError` if the server refuses it or does not know the scheme. Then the session is over, as with `auth_data`,
    and the credential is forgotten. The scheme `digest` accepts any `username:password`.

        client.add_auth("digest", "bob:secret")
    """
    return CredentialCall(credential_of(scheme, credential)), timeout
