"""Paths of nodes (kazoo.protocol.paths)."""

from __future__ import annotations


def normpath(path: str, trailing: bool = False) -> str:
    """A path without empty names. Raises `ValueError` if a name is `.` or `..`.

    If `trailing` is true, a slash at its end stays.

    >>> normpath("//a///b/")
    '/a/b'
    """
    names = [name for name in path.split("/") if name]
    if "." in names or ".." in names:
        raise ValueError("relative paths not allowed")
    joined = "/".join(names) + ("/" if trailing and path.endswith("/") else "")
    return "/" + joined if path.startswith("/") and joined != "/" else joined


def join(a: str, *p: str) -> str:
    """The parts with slashes between them. If a part begins with a slash, those before it are left out.

    >>> join("/a", "b", "c")
    '/a/b/c'
    """
    path = a
    for part in p:
        if part.startswith("/"):
            path = part
        elif not path or path.endswith("/"):
            path += part
        else:
            path += "/" + part
    return path


def isabs(s: str) -> bool:
    """Whether a path begins with a slash."""
    return s.startswith("/")


def basename(p: str) -> str:
    """The last name of a path."""
    return p.rpartition("/")[2]


def own_path(path: str) -> str:
    """The path of a node that a program means: kazoo adds a slash at the beginning if there is none."""
    return normpath("/" + path.lstrip("/"))
