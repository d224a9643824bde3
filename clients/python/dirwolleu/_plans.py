"""Plans of more than one request: each yields requests, and is sent their results or thrown their errors."""

from __future__ import annotations

from collections.abc import Generator, Sequence
from typing import TYPE_CHECKING, Any, Optional

from dirwolleu import _records as records
from dirwolleu import _requests as requests
from dirwolleu._checks import checked_path, checked_version
from dirwolleu._records import Mode, is_nameless
from dirwolleu._requests import Request, Result
from dirwolleu.exceptions import NodeExistsError, NoNodeError, NotEmptyError
from dirwolleu.security import ACL

if TYPE_CHECKING:
    from uuid import UUID

Plan = Generator[Request[Any], Any, Result]
Acls = Optional[Sequence[ACL]]


def parent_of(path: str) -> str:
    return path.rpartition("/")[0] or "/"


def child_of(path: str, name: str) -> str:
    return f"/{name}" if path == "/" else f"{path}/{name}"


def new_tag() -> UUID:
    """A tag that is in no other name."""
    import uuid  # here, since few programs make such names, and the import is slow

    return uuid.uuid4()


def create_request(path: str, value: Optional[bytes], acl: Acls, mode: Mode) -> Request[str]:
    """The core's own create, if the node is open to all and has a name; else a request that the core only carries."""
    is_plain = acl is None and not mode.container and mode.ttl_ms is None
    if is_plain and not is_nameless(checked_path(path), mode):
        return requests.create(path, value, mode.ephemeral, mode.sequence)
    return records.create(path, value, acl, mode)


def ensure_path(path: str, acl: Acls) -> Plan[None]:
    """Makes a node and the missing ones above it."""
    return _ensure(checked_path(path), acl)


def _ensure(path: str, acl: Acls) -> Plan[None]:
    missing: list[str] = []
    while (yield requests.exists(path, None)) is None:
        missing.append(path)
        if path == "/":
            break
        path = parent_of(path)
    for path in reversed(missing):
        try:
            request = create_request(path, b"", acl, Mode())
            request.is_repeatable = True
            yield request
        except NodeExistsError:
            pass


def create(request: Request[Result], path: str, acl: Acls) -> Plan[Result]:
    """Makes a node, and the missing ones above it."""
    result: Result
    try:
        result = yield request
    except NoNodeError:
        if path == "/":
            raise
        yield from ensure_path(parent_of(path), acl)
        result = yield request
    return result


def delete_all(path: str, version: int) -> Plan[None]:
    """Deletes a node of this version, and all below it."""
    return _delete_all(checked_path(path), checked_version(version))


def _delete_all(path: str, version: int) -> Plan[None]:
    while True:
        try:
            request = requests.delete(path, version)
            request.is_repeatable = version == -1
            yield request
            return
        except NoNodeError:
            return
        except NotEmptyError:
            pass
        try:
            names: list[str] = yield requests.get_children(path, None)
        except NoNodeError:
            return
        for name in names:
            yield from _delete_all(child_of(path, name), -1)
