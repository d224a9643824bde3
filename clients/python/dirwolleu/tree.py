"""All nodes at and below a path, of one moment."""

from __future__ import annotations

from collections.abc import Iterable, Iterator, Mapping
from typing import NamedTuple, Optional

from dirwolleu._paths import parent
from dirwolleu.types import DataStat

__all__ = ["TreeChange", "TreeNode", "TreeSnapshot"]


class TreeNode(NamedTuple):
    """A node of a tree."""

    path: str

    data: Optional[bytes]
    """The node's data, None if they are null."""

    stat: DataStat

    pzxid: int
    """The zxid of the last change of the names below it."""


class TreeChange(NamedTuple):
    """The paths by which one snapshot differs from an earlier one, each in the order of the tree that has it."""

    added: tuple[str, ...]
    removed: tuple[str, ...]
    changed: tuple[str, ...]
    """The paths of nodes that are in both, with other data or another stat. They include nodes that were deleted and made
    again."""

    def __bool__(self) -> bool:
        return bool(self.added or self.removed or self.changed)


class TreeSnapshot(Mapping[str, TreeNode]):
    """All nodes at and below a path, by their paths, as the servers' history has them at one zxid. It never changes.

    Each node is after its parent. None is left out: a path at or below the root that is not in it had no node at that zxid. The
    proved core says that; that this class shows it is tested.

        with client.tree("/config") as tree:
            snapshot = tree.wait(timeout=10)
        print(snapshot["/config"].data, snapshot.children("/config"))
    """

    __slots__ = ("_children", "_nodes", "root", "zxid")

    def __init__(self, root: str, zxid: int, nodes: Iterable[TreeNode]) -> None:
        self.root = root
        """The path of the first node."""
        self.zxid = zxid
        """The zxid at which the servers had just these nodes."""
        self._nodes = {node.path: node for node in nodes}
        self._children: Optional[dict[str, list[str]]] = None

    def __getitem__(self, path: str) -> TreeNode:
        return self._nodes[path]

    def __iter__(self) -> Iterator[str]:
        return iter(self._nodes)

    def __len__(self) -> int:
        return len(self._nodes)

    def __repr__(self) -> str:
        return f"<TreeSnapshot of {len(self)} nodes at and below {self.root} at zxid {self.zxid}>"

    def children(self, path: str) -> tuple[str, ...]:
        """The names below a node, in the order of their bytes. Raises `KeyError` if the node is not in the tree."""
        if path not in self._nodes:
            raise KeyError(path)
        if self._children is None:
            self._children = self._children_by_parent()
        return tuple(self._children.get(path, ()))

    def changed_since(self, earlier: Optional[Mapping[str, TreeNode]]) -> TreeChange:
        """The difference from an earlier snapshot: all of it is new if that is None."""
        old = {} if earlier is None else earlier
        return TreeChange(
            tuple(path for path in self if path not in old),
            tuple(path for path in old if path not in self._nodes),
            tuple(path for path, node in self._nodes.items() if path in old and old[path][1:3] != node[1:3]),
        )

    def _children_by_parent(self) -> dict[str, list[str]]:
        found: dict[str, list[str]] = {}
        for path in self._nodes:
            if path != self.root:
                found.setdefault(parent(path), []).append(path.rpartition("/")[2])
        return found
