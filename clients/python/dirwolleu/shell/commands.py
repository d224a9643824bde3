"""The commands that read or change nodes: each makes its calls, and gives the lines, or the bytes, to print."""

from __future__ import annotations

import argparse
import time
from collections.abc import Iterator
from typing import Callable, Union

from dirwolleu._paths import why_no_path
from dirwolleu.client import Client
from dirwolleu.exceptions import InvalidACLError, NoNodeError, ZookeeperError
from dirwolleu.security import ACL, Id
from dirwolleu.shell.faults import MORE, REFUSED, Ending, usage
from dirwolleu.shell.printing import (
    data_fields,
    hex_word,
    json_line,
    letters_of,
    name_line,
    perms_of,
    plain_data,
    quoted,
    quoted_data,
    stat_fields,
)

Printed = Iterator[Union[str, bytes]]


class Asking:
    """A client, and how long to wait for its answers, all of them together."""

    def __init__(self, client: Client, seconds: float) -> None:
        self.client = client
        self._until = time.monotonic() + seconds

    def left(self) -> float:
        """How many seconds are left."""
        return max(self._until - time.monotonic(), 0.001)


def get(asking: Asking, chosen: argparse.Namespace) -> Printed:
    data, stat = asking.client.get(chosen.path, timeout=asking.left())
    if chosen.json:
        yield json_line({**data_fields(data), **stat_fields(stat)})
    elif chosen.raw:
        yield data or b""
    elif chosen.hex:
        yield hex_word(data)
    elif data is not None:
        yield plain_data(data)


def _names(asking: Asking, path: str) -> list[str]:
    """The names below a node, each once, in the order of their bytes."""
    return sorted(set(asking.client.get_children(path, timeout=asking.left())), key=lambda name: name.encode(errors="surrogateescape"))


def ls(asking: Asking, chosen: argparse.Namespace) -> Printed:
    for name in _names(asking, chosen.path):
        yield json_line({"name": name}) if chosen.json else name_line(name)


def stat(asking: Asking, chosen: argparse.Namespace) -> Printed:
    found = asking.client.exists(chosen.path, timeout=asking.left())
    if found is None:
        raise NoNodeError()
    fields = stat_fields(found)
    yield from [json_line(fields)] if chosen.json else [f"{name} {value}" for name, value in fields.items()]


def _child(asking: Asking, path: str, name: str) -> str:
    """The path of a node below another one. Raises `Ending` if no path has such a name."""
    child = f"{path.rstrip('/')}/{name}"
    if "/" in name or why_no_path(child) or why_no_path(f"{asking.client.chroot.rstrip('/')}{child}"):
        raise Ending(REFUSED, f"refused: {path}: a node below it has a name that no path has")
    return child


def _below(asking: Asking, chosen: argparse.Namespace, depth: int, path: str) -> list[str]:
    """The paths of the nodes below a node, if it is walked into. The nodes at the greatest depth are not listed, unless one is the root."""
    is_gone_through = chosen.depth is None or depth < chosen.depth
    names = _names(asking, path) if depth == 0 or is_gone_through else []
    return [_child(asking, path, name) for name in names] if is_gone_through else []


def _walk(asking: Asking, chosen: argparse.Namespace) -> Iterator[str]:
    """The path of a node and of each one below it, each before those below it. A node that is gone when it is to be listed is left out."""
    left, count = [(0, chosen.path)], 0
    while left:
        if count == chosen.most:
            raise Ending(MORE, f"cut off: {chosen.path}: {chosen.most} nodes are printed, and there are more")
        depth, path = left.pop()
        try:
            below = _below(asking, chosen, depth, path)
        except NoNodeError:
            if depth == 0:
                raise
            continue
        except ZookeeperError as error:
            error.path = path
            raise
        yield path
        count += 1
        left += [(depth + 1, child) for child in reversed(below)]


def tree(asking: Asking, chosen: argparse.Namespace) -> Printed:
    if chosen.text:
        yield from _whole_tree(asking, chosen)
        return
    for path in _walk(asking, chosen):
        yield json_line({"path": path}) if chosen.json else name_line(path)


def _whole_tree(asking: Asking, chosen: argparse.Namespace) -> Iterator[str]:
    """All nodes with their data, of one moment."""
    with asking.client.tree(chosen.path, most=chosen.most) as whole:
        try:
            snapshot = whole.wait(asking.left())
        except ValueError as error:
            raise Ending(MORE, f"cut off: {chosen.path}: there are more than {chosen.most} nodes, and none is printed") from error
    top = chosen.path.rstrip("/").count("/")
    for path, node in snapshot.items():
        if chosen.depth is None or path.rstrip("/").count("/") - top <= chosen.depth:
            yield json_line({"path": path, **data_fields(node.data)}) if chosen.json else f"{name_line(path)} {quoted_data(node.data)}"


def set_value(asking: Asking, chosen: argparse.Namespace) -> Printed:
    asking.client.set(chosen.path, chosen.data, chosen.version, timeout=asking.left())
    yield from ()


def create(asking: Asking, chosen: argparse.Namespace) -> Printed:
    made = asking.client.create(
        chosen.path, chosen.data, sequence=chosen.sequential, makepath=chosen.makepath, timeout=asking.left()
    )
    yield json_line({"path": made}) if chosen.json else name_line(made)


def delete(asking: Asking, chosen: argparse.Namespace) -> Printed:
    asking.client.delete(chosen.path, chosen.version, timeout=asking.left())
    yield from ()


def deleteall(asking: Asking, chosen: argparse.Namespace) -> Printed:
    if asking.client.exists(chosen.path, timeout=asking.left()) is None:
        raise NoNodeError()
    asking.client.delete(chosen.path, recursive=True, timeout=asking.left())
    yield from ()


def sync(asking: Asking, chosen: argparse.Namespace) -> Printed:
    asking.client.sync(chosen.path, timeout=asking.left())
    yield from ()


def getacl(asking: Asking, chosen: argparse.Namespace) -> Printed:
    acls, _ = asking.client.get_acls(chosen.path, timeout=asking.left())
    for acl in acls:
        perms = letters_of(acl.perms)
        scheme, who = acl.id
        yield json_line({"scheme": scheme, "id": who, "perms": perms}) if chosen.json else name_line(f"{scheme}:{who}:{perms}")


def _acl(text: str) -> ACL:
    scheme, _, rest = text.partition(":")
    who, colon, letters = rest.rpartition(":")
    try:
        if scheme and colon and letters:
            return ACL(perms_of(letters), Id(scheme, who))
    except KeyError:
        pass
    raise usage(f"{quoted(text)} is no ACL: SCHEME:ID:PERMS, as world:anyone:cdrwa or digest:bob:HASH:r")


def read_acl(chosen: argparse.Namespace) -> None:
    """Reads the ACL of `setacl`, before a server is asked."""
    chosen.acls = [_acl(text) for text in chosen.acl.split(",")]


def setacl(asking: Asking, chosen: argparse.Namespace) -> Printed:
    try:
        asking.client.set_acls(chosen.path, chosen.acls, chosen.version, timeout=asking.left())
    except InvalidACLError as error:
        raise Ending(REFUSED, f"refused: {chosen.path}: the ACL is refused ({error.code})") from error
    yield from ()


RUNS: dict[str, Callable[[Asking, argparse.Namespace], Printed]] = {
    "get": get,
    "ls": ls,
    "stat": stat,
    "tree": tree,
    "set": set_value,
    "create": create,
    "delete": delete,
    "deleteall": deleteall,
    "sync": sync,
    "getacl": getacl,
    "setacl": setacl,
}
"""The function that runs a command, by its name."""
