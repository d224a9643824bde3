"""Who may do what to a node. The names are those of kazoo.security."""

from __future__ import annotations

from typing import NamedTuple

from dirwolleu.exceptions import ZookeeperError

__all__ = [
    "ACL",
    "ANYONE_ID_UNSAFE",
    "AUTH_IDS",
    "AuthFailedError",
    "CREATOR_ALL_ACL",
    "Id",
    "OPEN_ACL_UNSAFE",
    "Permissions",
    "READ_ACL_UNSAFE",
    "make_digest_acl",
    "make_digest_acl_credential",
]


class AuthFailedError(ZookeeperError):
    """The server refuses the credentials, or does not know their scheme."""

    code = -115
    _reason = "the server does not take these credentials"


class Id(NamedTuple):
    """An identity: a scheme, such as `digest`, and the name that it has there."""

    scheme: str
    id: str


class Permissions:
    """What somebody may do. They can be added up."""

    READ = 1
    WRITE = 2
    CREATE = 4
    DELETE = 8
    ADMIN = 16
    ALL = 31


class ACL(NamedTuple):
    """One line of a node's list: the permissions of somebody."""

    perms: int
    id: Id

    def __repr__(self) -> str:
        return f"ACL(perms={self.perms}, acl_list={self.acl_list}, id={self.id})"

    @property
    def acl_list(self) -> list[str]:
        """The names of the permissions: `["ALL"]`, or some of READ, WRITE, CREATE, DELETE and ADMIN."""
        if self.perms & Permissions.ALL == Permissions.ALL:
            return ["ALL"]
        names = ("READ", "WRITE", "CREATE", "DELETE", "ADMIN")
        return [name for name in names if self.perms & getattr(Permissions, name)]


ANYONE_ID_UNSAFE = Id("world", "anyone")
AUTH_IDS = Id("auth", "")

OPEN_ACL_UNSAFE = (ACL(Permissions.ALL, ANYONE_ID_UNSAFE),)
"""Anybody may do anything: the list of a node for which no ACL is given."""
CREATOR_ALL_ACL = (ACL(Permissions.ALL, AUTH_IDS),)
"""Those who have the credentials of the session that makes the node may do anything, and nobody else."""
READ_ACL_UNSAFE = (ACL(Permissions.READ, ANYONE_ID_UNSAFE),)
"""Anybody may read."""


def make_digest_acl_credential(username: str, password: str) -> str:
    """The identity of a user in the scheme `digest`: the name, and a hash of name and password.

    >>> make_digest_acl_credential("super", "test")
    'super:D/InIHSb7yEEbrWz8b9l71RjZJU='
    """
    import base64  # here, since few programs want these, and they are slow to load
    import hashlib

    spelled = f"{username}:{password}".encode()
    return f"{username}:{base64.b64encode(hashlib.sha1(spelled).digest()).decode()}"


def make_digest_acl(
    username: str,
    password: str,
    read: bool = False,
    write: bool = False,
    create: bool = False,
    delete: bool = False,
    admin: bool = False,
    all: bool = False,
) -> ACL:
    """A line of an ACL for those who have the credentials `digest`, `username:password` (`add_auth`).

    >>> make_digest_acl("bob", "secret", read=True, write=True).acl_list
    ['READ', 'WRITE']
    """
    if all:
        permissions = Permissions.ALL
    else:
        permissions = (
            Permissions.READ * read
            + Permissions.WRITE * write
            + Permissions.CREATE * create
            + Permissions.DELETE * delete
            + Permissions.ADMIN * admin
        )
    return ACL(permissions, Id("digest", make_digest_acl_credential(username, password)))
