"""The kept answers of a session, as a program sees them. No look-up asks a server."""

from __future__ import annotations

import struct
from typing import Callable, Optional

from dirwolleu import _library as library
from dirwolleu._handle import Found, KeptData, KeptNames, Lacking, SubtreeNode
from dirwolleu._library import Closed
from dirwolleu._session import Session
from dirwolleu.types import Kept, KeptChildren, Mark, Snapshot

RECIPES_BEFORE_FORGETTING = 1024
"""After this many nodes that recipes are done with, stale answers are forgotten."""


def _kept(path: str, found: KeptData, last_zxid: int) -> Kept:
    return Kept(path, Mark(found.mark), last_zxid, found.stat, found.data, found.kind == library.FULL)


def _kept_children(path: str, found: KeptNames, last_zxid: int) -> KeptChildren:
    return KeptChildren(path, Mark(found.mark), last_zxid, found.names, found.pzxid)


class CacheView:
    """The look-ups of a session, which another session may replace. Any thread may call them, and a signal handler."""

    _session: Session
    _saved_at_close: Optional[bytes] = None

    def __init__(self) -> None:
        self._used = 0

    def _look(self, look: Callable[[Session], Found]) -> Optional[Found]:
        """Looks in the session, and once more if it was closed meanwhile; None if the client is closed."""
        while self._saved_at_close is None:
            try:
                return look(self._session)
            except Closed:
                pass
        return None

    def saved(self) -> bytes:
        """The session, as the library saves it. It is a secret."""
        saved = self._look(lambda session: session.saved())
        return saved if saved is not None else self._saved_at_close or b""

    def session_id(self) -> int:
        """The number of the session, 0 if none has begun."""
        return int(struct.unpack(">q", self.saved()[:8])[0])

    def last_zxid(self) -> int:
        """The greatest zxid that was seen."""
        looked = self._look(lambda session: session.last_zxid())
        return looked if looked is not None else int(struct.unpack(">q", (self._saved_at_close or b"")[-8:])[0])

    def kept(self, path: str) -> Optional[Kept]:
        looked = self._look(lambda session: session.peek_data(path))
        if looked is None or looked[0].kind == library.NOTHING:
            return None
        return _kept(path, *looked)

    def kept_children(self, path: str) -> Optional[KeptChildren]:
        looked = self._look(lambda session: session.peek_children(path))
        if looked is None or looked[0].mark == 0:
            return None
        return _kept_children(path, *looked)

    def snapshot(self, nodes: tuple[str, ...], parents: tuple[str, ...]) -> Optional[Snapshot]:
        """The kept answers for nodes and for the names below parents, if the core shows that all are of one moment."""
        found, zxid = self._look(lambda session: session.snapshot(nodes, parents)) or (None, 0)
        if found is None:
            return None
        return Snapshot(
            zxid,
            {path: _kept(path, one, zxid) for path, one in zip(nodes, found.nodes)},
            {path: _kept_children(path, one, zxid) for path, one in zip(parents, found.children)},
        )

    def settled(self, path: str) -> Optional[Kept]:
        """The kept answer for a path, if it is good and whole: its data, or the absence of the node."""
        kept = self.kept(path)
        return kept if kept and kept.mark is Mark.GOOD and (kept.has_data or not kept.exists) else None

    def settled_children(self, path: str) -> Optional[KeptChildren]:
        """The kept answer for the children of a path, if it is good: their names, or the absence of the node."""
        children = self.kept_children(path)
        if children is not None and children.mark is Mark.GOOD:
            return children
        kept = self.kept(path)
        if kept is None or kept.mark is not Mark.GOOD or kept.exists:
            return None
        return KeptChildren(path, Mark.GOOD, kept.last_zxid, (), 0, exists=False)

    def overtaken(self, path: str) -> Optional[Kept]:
        """The kept answer for a node, if it is stale, as it was while it was good: at the zxid of the node's last change."""
        kept = self.kept(path)
        if kept is None or kept.mark is Mark.GOOD or not kept.has_data or kept.stat is None:
            return None
        return kept._replace(mark=Mark.GOOD, last_zxid=kept.stat.mzxid)

    def overtaken_children(self, path: str) -> Optional[KeptChildren]:
        """The same for the names of a node's children."""
        kept = self.kept_children(path)
        if kept is None or kept.mark is Mark.GOOD:
            return None
        return kept._replace(mark=Mark.GOOD, last_zxid=kept.pzxid)

    def lacking(self, path: str, most: int) -> list[Lacking]:
        """The reads, with a watch, that are missing before there is a subtree."""
        return self._look(lambda session: session.lacking(path, most)) or []

    def subtree(self, path: str, most: int) -> tuple[Optional[list[SubtreeNode]], int]:
        """All nodes at and below a path, and the zxid at which the servers have just these; None if that is not shown."""
        return self._look(lambda session: session.subtree(path, most)) or (None, 0)

    def forget_stale(self) -> None:
        self._look(Session.forget)

    def used(self) -> None:
        """Counts a node that a recipe is done with. From time to time it forgets the stale answers that these leave."""
        self._used += 1
        if self._used % RECIPES_BEFORE_FORGETTING == 0:
            self.forget_stale()
