"""Who may do what to a node, by kazoo's names (kazoo.security)."""

from __future__ import annotations

from dirwolleu.security import (
    ACL,
    ANYONE_ID_UNSAFE,
    AUTH_IDS,
    Id,
    Permissions,
    make_digest_acl,
    make_digest_acl_credential,
)

__all__ = [
    "ACL",
    "ANYONE_ID_UNSAFE",
    "AUTH_IDS",
    "CREATOR_ALL_ACL",
    "Id",
    "OPEN_ACL_UNSAFE",
    "Permissions",
    "READ_ACL_UNSAFE",
    "make_acl",
    "make_digest_acl",
    "make_digest_acl_credential",
]

OPEN_ACL_UNSAFE = [ACL(Permissions.ALL, ANYONE_ID_UNSAFE)]
CREATOR_ALL_ACL = [ACL(Permissions.ALL, AUTH_IDS)]
READ_ACL_UNSAFE = [ACL(Permissions.READ, ANYONE_ID_UNSAFE)]


def make_acl(
    scheme: str,
    credential: str,
    read: bool = False,
    write: bool = False,
    create: bool = False,
    delete: bool = False,
    admin: bool = False,
    all: bool = False,
) -> ACL:
    """A line of an ACL for somebody, by the name that a scheme has.

    >>> make_acl("x509", "CN=patroni", read=True).acl_list
    ['READ']
    """
    names = ("READ", "WRITE", "CREATE", "DELETE", "ADMIN")
    given = zip(names, (read, write, create, delete, admin))
    permissions = Permissions.ALL if all else sum(getattr(Permissions, name) for name, is_given in given if is_given)
    return ACL(permissions, Id(scheme, credential))
