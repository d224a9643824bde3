"""Checks of the values of calls, in kazoo's words."""

from __future__ import annotations

from collections.abc import Sequence
from typing import Optional, Union

from dirwolleu.kazoo.protocol.paths import own_path
from dirwolleu.kazoo.security import ACL, OPEN_ACL_UNSAFE

Acls = Optional[Sequence[ACL]]


def check(name: str, value: object, kind: Union[type, tuple[type, ...]], words: str) -> None:
    if not isinstance(value, kind):
        raise TypeError(f"Invalid type for '{name}' ({words} expected)")


def checked_path(path: object) -> str:
    check("path", path, str, "string")
    assert isinstance(path, str)
    return own_path(path)


def check_watch(watch: object) -> None:
    if watch and not callable(watch):
        raise TypeError("Invalid type for 'watch' (must be a callable)")


def check_acls(acls: object) -> None:
    if isinstance(acls, ACL) or not isinstance(acls, (tuple, list)):
        raise TypeError("Invalid type for 'acl' (acl must be a tuple/list of ACL's)")


def check_flags(**flags: object) -> None:
    for name, value in flags.items():
        check(name, value, bool, "bool")


def own_acls(acls: Acls) -> Acls:
    """The ACL as dirwolleu takes it: None for the open one, so that the proved core makes the node."""
    return None if not acls or list(acls) == OPEN_ACL_UNSAFE else acls


def own_key(certfile: Optional[str], keyfile: Optional[str]) -> Optional[str]:
    """The key as dirwolleu takes it. kazoo ignores one that has no certificate."""
    return None if certfile is None else keyfile
