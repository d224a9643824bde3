"""The subjects that the session keeps good for those who follow them: nodes, lists of children, and trees."""

from __future__ import annotations

import collections
import contextlib
from collections.abc import Iterator
from typing import Any, Callable

from dirwolleu import _library as library
from dirwolleu._dispatcher import Dispatcher
from dirwolleu._followed import Followed
from dirwolleu._library import NoMemory, Report
from dirwolleu._observing import holdings_of
from dirwolleu._requests import refusal_of
from dirwolleu._session import Refused, Session, Shown
from dirwolleu._tree_view import TreeNews, TreeView
from dirwolleu.exceptions import ConnectionClosedError, TooLargeError, TooManyWatchesError, ZookeeperError
from dirwolleu.types import EventType, State, WatchedEvent

# made by scripts/interface from include/interface.toml
_EVENTS = {
    library.NODE_CREATED: EventType.CREATED,
    library.NODE_DELETED: EventType.DELETED,
    library.DATA_CHANGED: EventType.CHANGED,
    library.CHILDREN_CHANGED: EventType.CHILD,
}
# end of what is made
_REFUSALS: dict[int, type[ZookeeperError]] = {
    library.READ_TOO_MANY_WATCHES: TooManyWatchesError,
    library.READ_TOO_LARGE: TooLargeError,
    library.READ_CLOSED: ConnectionClosedError,
}


def error_of_refusal(refusal: int, code: int) -> ZookeeperError:
    """Why a read or a contender was refused."""
    kind = _REFUSALS.get(refusal)
    return refusal_of(code) if kind is None else kind()


class Views(Dispatcher):
    """Follows subjects in the session, and wakes those who follow them."""

    def __init__(self, *words: Any) -> None:
        super().__init__(*words)
        self._wishes: collections.deque[tuple[Callable[[int, Any], None], Any]] = collections.deque()
        self._subjects: dict[int, Followed] = {}
        self._trees: list[TreeView] = []
        self._planted: dict[int, TreeView] = {}

    def take_handed(self, now: int) -> None:
        while self._wishes:
            wish, followed = self._wishes.popleft()
            wish(now, followed)
        super().take_handed(now)
        if self._trees:
            self._grow_trees(now)

    # Nodes and lists of children.

    @contextlib.contextmanager
    def following(self, path: str, side: int, wake: Callable[[], None]) -> Iterator[Followed]:
        """Keeps a side of a path good in the core until the context ends. `wake` is called when it is good, or a read
        is refused.
        """
        followed = Followed(path, side, wake)
        self._wishes.append((self._follow, followed))
        try:
            yield followed
        finally:
            self._wishes.append((self._unfollow, followed))

    def _follow(self, now: int, followed: Followed) -> None:
        ticket = next(self._tickets)
        self._subjects[ticket] = followed
        try:
            self._step(now, Session.follow, ticket, followed.path, followed.side)
        except Exception as error:  # any error concerns only this subject
            self._subjects.pop(ticket, None)
            followed.refuse(error)

    def _unfollow(self, now: int, followed: Followed) -> None:
        for ticket in [ticket for ticket, one in self._subjects.items() if one is followed]:
            del self._subjects[ticket]
            self._step(now, Session.unfollow, ticket)

    def _show(self, shown: Shown) -> None:
        followed = self._subjects.get(shown.ticket)
        if followed is not None:
            followed.show()
            return
        for tree in self._planted.values():
            tree.show(shown.ticket)

    def _refuse(self, refused: Refused) -> None:
        self._is_recast = True
        error = error_of_refusal(refused.refusal, refused.code)
        followed = self._subjects.get(refused.ticket)
        if followed is not None:
            error.path = followed.path
            followed.refuse(error)
            return
        for tree in self._planted.values():
            tree.refuse(refused.ticket, error)

    # Trees.

    def add_tree(self, tree: TreeView) -> None:
        """Follows a tree, from the next step on."""
        self._trees.append(tree)

    def remove_tree(self, tree: TreeView) -> None:
        with contextlib.suppress(ValueError):
            self._trees.remove(tree)
            self._wishes.append((self._uproot, tree))

    def has_tree(self, tree: TreeView) -> bool:
        return tree in self._trees

    def _grow_trees(self, now: int) -> None:
        """Follows the trees, and looks at them, if a server has accepted the session."""
        if self.state is State.CONNECTED and self.is_running:
            for tree in list(self._trees):
                if tree.ticket is None:
                    self._plant(now, tree)
                tree.look(now)

    def _plant(self, now: int, tree: TreeView) -> None:
        """Follows a tree in the core. If there is no memory for that, the next step tries again."""
        tree.ticket = ticket = next(self._tickets)
        self._planted[ticket] = tree
        try:
            self._step(now, Session.follow_tree, ticket, tree.root, tree.most)
        except NoMemory:
            del self._planted[ticket]
            tree.begin_again()

    def _uproot(self, now: int, tree: TreeView) -> None:
        if tree.ticket is not None and self._planted.pop(tree.ticket, None) is tree:
            self._step(now, Session.unfollow_tree, tree.ticket)

    def _tend_trees(self, now: int) -> None:
        """Makes the step in which the session tends its trees, if one is due already."""
        if self._saved_at_close is not None:
            return
        due = self._session.deadline()
        if due is not None and due <= now:
            self._step(now, Session.moment)

    def _hear_of_tree(self, news: TreeNews) -> None:
        tree = self._planted.get(news.tree)
        if tree is not None:
            tree.hear(news)

    # Reports, and holdings.

    def _report(self, report: Report) -> None:
        event = WatchedEvent(_EVENTS[report.event], self.state, report.path)
        for function in self._watchers.take(report.path, report.side):
            self._tell(function, event)
        for tree in list(self._trees):
            tree.reported(report.path)
        self._wake(report.path)

    def holdings(self) -> tuple[dict[str, int], int]:
        """How much is followed, by kind, and the bytes that are kept for it."""
        subjects, trees = list(self._subjects.values()), list(self._trees)
        return holdings_of(self, subjects, [tree.latest for tree in trees])
