"""The view of a tree, and when it looks at the tree. It has no socket and no thread.

The proved session decides which nodes are read, and reports when a look is worth it; the proved core judges whether all of the tree is
of one moment. This module keeps the newest snapshot, and the reason why there is no newer one.
"""

from __future__ import annotations

import logging
from typing import Callable, Optional, Protocol, Union

from dirwolleu._clock import moment
from dirwolleu._handle import Lacking, SubtreeNode
from dirwolleu._library import NotWhole, TooManyNodes
from dirwolleu._retry import is_passing
from dirwolleu._session import MemberAdded, MemberRemoved, TreeBounded, TreeComplete
from dirwolleu.exceptions import ConnectionClosedError, NoNodeError, ZookeeperError
from dirwolleu.tree import TreeNode, TreeSnapshot
from dirwolleu.types import Kept

logger = logging.getLogger("dirwolleu.tree")

SHARE = 10
"""A look at a whole tree takes at most this part of the time: after one that took long, the next one waits."""

TreeNews = Union[MemberAdded, MemberRemoved, TreeBounded, TreeComplete]

_ALL = 0
"""The ticket for what keeps all of a tree from being shown. Nothing is followed by it."""


class Host(Protocol):
    """The functions that a tree needs of its client."""

    def settled(self, path: str) -> Optional[Kept]: ...
    def lacking(self, path: str, most: int) -> list[Lacking]: ...
    def subtree(self, path: str, most: int) -> tuple[Optional[list[SubtreeNode]], int]: ...


class TreeView:
    """One tree. It has a ticket while the session follows it."""

    def __init__(self, host: Host, root: str, most: int, tell: Callable[[], None]) -> None:
        self.root, self.most = root, most
        self._host, self._tell = host, tell
        self._below = "/" if root == "/" else root + "/"
        self.ticket: Optional[int] = None
        self._paths: dict[int, str] = {}
        self._troubles: dict[int, Exception] = {}  # why the subject of a ticket can't be read, the newest last
        self._logged = set[str]()  # those that were logged since the tree was whole
        self._must_look = self._is_current = False
        self._look_at = 0
        self.latest: Optional[TreeSnapshot] = None
        self.trouble: Optional[Exception] = None
        """Why there is no newer snapshot, unless reads are only under way."""

    # Its events.

    def begin_again(self) -> None:
        """The session that followed it is gone, or had no memory to follow it."""
        self.ticket = self.trouble = None
        self._must_look = self._is_current = False
        self._paths.clear()
        self._troubles.clear()

    def end_current(self) -> None:
        """The newest snapshot is no longer current."""
        self._is_current = False

    def reported(self, path: str) -> None:
        """A good answer about a path has ended. Once it is good again, the session reports the tree complete."""
        if path == self.root or path.startswith(self._below):
            self._must_look = self._is_current = False

    def hear(self, news: TreeNews) -> None:
        """Takes the session's news of the tree."""
        if isinstance(news, MemberAdded):
            self._paths[news.ticket] = news.path
        elif isinstance(news, MemberRemoved):
            self._paths.pop(news.ticket, None)
            self._note(news.ticket, None)
        elif isinstance(news, TreeBounded):
            self._note(_ALL, self._too_many() if news.is_bounded else None)
        else:
            self._must_look = True

    def show(self, ticket: int) -> None:
        """The subject of a ticket, of this tree or of something else, is good."""
        self._note(ticket, self._absence() if ticket == self.ticket else None)

    def refuse(self, ticket: int, error: ZookeeperError) -> None:
        """A read of the subject of a ticket, of this tree or of something else, was refused."""
        path = self._paths.get(ticket)
        if path is not None:
            error.path = path
            self._note(ticket, error if _is_trouble(error) else None)

    # Its looks.

    def look(self, now: int) -> None:
        """Takes a snapshot, if that is worth it and the moment has come. The client is connected."""
        if not self._must_look or now < self._look_at:
            return
        began = moment()
        trouble: Optional[Exception] = None
        try:
            self._take()
        except NotWhole as error:
            trouble = error
        except TooManyNodes:
            trouble = self._too_many()
        self._must_look = False
        self._look_at = now + (1 + SHARE) * (moment() - began)
        self._note(_ALL, trouble)

    def is_current(self) -> bool:
        """Whether no report since the newest snapshot has ended it."""
        return self._is_current

    def deadline(self) -> Optional[int]:
        """The moment of the next look, if no report comes before."""
        return self._look_at if self._must_look else None

    def _take(self) -> None:
        """Takes a snapshot, if the core shows all of the tree. Raises an error if no read would help."""
        nodes, zxid = self._host.subtree(self.root, self.most)
        if nodes is None:
            self._host.lacking(self.root, self.most)
            return
        self.latest = TreeSnapshot(self.root, zxid, map(TreeNode._make, nodes))
        self._is_current, self.trouble = True, None
        self._logged.clear()
        self._tell()

    def _too_many(self) -> TooManyNodes:
        return TooManyNodes(f"more than {self.most} nodes at and below {self.root}; ask for more, or for a path below")

    def _absence(self) -> Optional[NoNodeError]:
        """The error that there is no root, if that is known."""
        kept = self._host.settled(self.root)
        if kept is None or kept.exists:
            return None
        error = NoNodeError()
        error.path = self.root
        return error

    def _note(self, ticket: int, trouble: Optional[Exception]) -> None:
        """Notes why the subject of a ticket can't be read, or that it can."""
        before = self._troubles.pop(ticket, None)
        if trouble is None and before is None:
            return
        if trouble is not None:
            self._troubles[ticket] = trouble
            self._log(str(trouble))
        self.trouble = next(reversed(self._troubles.values()), None)
        self._tell()

    def _log(self, words: str) -> None:
        """Logs why the tree is not whole: each reason once, until it is."""
        if words not in self._logged:
            self._logged.add(words)
            logger.warning("the tree at %s is not whole: %s", self.root, words)


def _is_trouble(error: ZookeeperError) -> bool:
    """Whether a refused read is more than one to make again: if a node was deleted meanwhile, its parent's names show that."""
    return not (isinstance(error, (NoNodeError, ConnectionClosedError)) or is_passing(error))
