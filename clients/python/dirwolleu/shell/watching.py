"""`watch`: a line whenever the kept answer for a node, or the state of a connection, differs from the last line about it."""

from __future__ import annotations

import argparse
import asyncio
import contextlib
import time
from collections.abc import Iterator
from typing import Any, Callable, NamedTuple, Optional, Union

from dirwolleu import _library as library
from dirwolleu import aio
from dirwolleu._tree_view import Host, TreeNews, TreeView
from dirwolleu._session import MemberAdded, MemberRemoved, TreeBounded
from dirwolleu.exceptions import ConnectionClosedError, TooLargeError, TooManyWatchesError, ZookeeperError
from dirwolleu.shell.connections import Connections, Said
from dirwolleu.shell.faults import NEVER_CONNECTED, Ending, of_call, values_of
from dirwolleu.shell.printing import data_fields, hex_word, json_line, quoted_data, stat_fields, word
from dirwolleu.types import Kept, KeptChildren, Mark

Write = Callable[[str], None]
Fields = dict[str, Any]

_STATES = {"connecting": "Connecting", "connected": "Connected", "expired": "Expired", "closed": "Closed"}
_UNREACHABLE = ("host unreachable", "network unreachable")
_CODES = {
    -4: "the server has lost its connection",
    -102: "the ACL does not admit it",
    -112: "the session is over",
    -118: "the session was taken up over another connection",
    -127: "the server throttles",
}
_OWN: dict[type[BaseException], tuple[str, str]] = {
    TooManyWatchesError: ("K5", "too many paths are watched"),
    TooLargeError: ("K6", "the answer is too long"),
}
_SIDES = {"data": library.DATA_SIDE, "names": library.CHILDREN_SIDE}


class Line(NamedTuple):
    """A line in both forms: its words, and its fields in JSON."""

    words: str
    kind: str
    fields: Fields


class Side(NamedTuple):
    """A watched side of a node: its data, or the names below it. The path is below the one after the hosts, which is printed too."""

    path: str
    side: str
    chroot: str

    def whole(self) -> str:
        return self.chroot + self.path if self.path != "/" else self.chroot or "/"

    def line(self, kind: str, words: str, last: int, **fields: Any) -> Line:
        path = self.whole()
        return Line(f"{word(path)} {words} last {last}", kind, {"path": path, "side": self.side, **fields, "last": last})

    def look(self, client: aio.Client, is_text: bool) -> Line:
        """The kept answer for it now."""
        node, last = client.kept(self.path), client.last_zxid
        if node is not None and not node.exists and node.mark is Mark.GOOD:
            return self.line("absent", "does not exist", last, mark="good")
        if self.side == "data":
            return self._none(last) if node is None else self._data(node, last, is_text)
        names = client.kept_children(self.path)
        return self._none(last) if names is None or not names.exists else self._names(names, last)

    def _none(self, last: int) -> Line:
        return self.line("none", f"{self.side} none", last)

    def _data(self, kept: Kept, last: int, is_text: bool) -> Line:
        mark = kept.mark.name.lower()
        if kept.stat is None:
            return self.line("absent", f"data absent {mark}", last, mark=mark)
        seven, fields = " ".join(map(str, kept.stat)), stat_fields(kept.stat)
        if not kept.has_data:
            return self.line("known", f"data known {seven} {mark}", last, **fields, mark=mark)
        shown = quoted_data(kept.data) if is_text else hex_word(kept.data)
        return self.line("data", f"data full {shown} {seven} {mark}", last, **data_fields(kept.data), **fields, mark=mark)

    def _names(self, kept: KeptChildren, last: int) -> Line:
        mark = kept.mark.name.lower()
        words = " ".join([f"names {len(kept.names)}", *map(word, kept.names), str(kept.pzxid), mark])
        return self.line("names", words, last, names=list(kept.names), pzxid=kept.pzxid, mark=mark)

    def refused(self, error: BaseException) -> Line:
        """The line that a read is refused: by a server, or by the client itself."""
        code, path = getattr(error, "code", None), self.whole()
        fault, why = _OWN.get(type(error), ("", _CODES.get(code or 0, "the server refuses it")))
        cause: Fields = {"fault": fault} if fault else {"code": code}
        fields = {"path": path, **cause, "reason": why}
        return Line(f"{word(path)} refused {fault or f'code {code}'} {why}", "refused", fields)


def _state_line(state: str, said: Said) -> Line:
    if said.kind != "connected":
        return Line(f"state {state}", "state", {"state": state})
    words = f"state {state} {said.address} session {said.session} timeout {said.timeout_ms}"
    fields = {"address": said.address, "session": said.session, "timeout": said.timeout_ms}
    return Line(words, "state", {"state": state, **fields})


def _connection_lines(said: Said) -> Iterator[Line]:
    """The lines of a report of the client on a connection."""
    if said.kind in _STATES:
        yield _state_line(_STATES[said.kind], said)
        if said.kind == "expired":
            yield Line("session new", "renewed", {})
        return
    why = "unreachable" if said.reason in _UNREACHABLE else said.reason
    fields = {"address": said.address, **({"fault": said.fault} if said.fault else {}), **({"reason": why} if why else {})}
    words = [said.kind, said.fault, *values_of(said.fault, why), said.address, why]
    yield Line(" ".join(filter(None, words)), said.kind, fields)
    if said.kind in ("ended", "drop"):
        yield _state_line("Idle", said)


class Watch:
    """Watches sides of nodes, and trees, with one client, and hands lines to whoever prints them."""

    def __init__(self, client: aio.Client, chosen: argparse.Namespace) -> None:
        self._client, self._chosen, self._engine = client, chosen, client._engine
        self._began = time.monotonic()
        self.lines: asyncio.Queue[Union[str, BaseException]] = asyncio.Queue()
        self.is_connected_once = self.is_ending = self._is_closed = False
        self._said = ""
        self._shown: dict[Side, Fields] = {}
        """The watched sides, and what was last printed of each."""
        self._refused: dict[Side, Line] = {}
        """The refusal that was last printed of a side that was not good since."""
        self._asked = [*(self.side(path, "data") for path in chosen.data), *(self.side(path, "names") for path in chosen.children)]
        self._bounded = 0

    def side(self, path: str, side: str) -> Side:
        return Side(path, side, self._chosen.chroot)

    def tell(self, line: Line) -> None:
        ms = int(1000 * (time.monotonic() - self._began))
        object_line = json_line({"kind": line.kind, "ms": ms, **line.fields})
        self.lines.put_nowait(object_line if self._chosen.json else f"{ms // 1000}.{ms % 1000:03} {line.words}")

    def hear(self, said: Said) -> None:
        """The client has reported on a connection."""
        before, self._said = self._said, said.kind
        if self.is_ending and (self._is_closed or not said.is_of_server) or before == "expired" and said.kind == "ended":
            return
        self._is_closed = said.kind == "closed"
        if before == "connecting" and said.kind == "dial":  # the last server took too long
            self.tell(_state_line("Idle", said))
        self.is_connected_once = self.is_connected_once or said.kind == "connected"
        for line in _connection_lines(said):
            self.tell(line)

    def look(self, *sides: Side) -> None:
        """Prints the kept answers of those of these sides that are watched, unless all but the last seen zxid is as before."""
        if self.is_ending and not self._is_closed and not self._engine.is_running:
            return  # the client has dropped its kept answers, and no server has ended the session
        for side in sides:
            line = side.look(self._client, self._chosen.text)
            kept = {**line.fields, "kind": line.kind, "last": 0}
            if self._shown.get(side, kept) != kept:
                self._shown[side] = kept
                self.tell(line)

    def look_at(self, path: str) -> None:
        self.look(*(self.side(path, side) for side in _SIDES))

    def look_at_all(self) -> None:
        """The state has changed."""
        self.look(*self._shown)
        if not self._engine.is_running and not self.is_ending:
            error = self._engine.why_over("the client has stopped")
            error.path = next((side.path for side in self._shown), "/")
            self.lines.put_nowait(error)

    def take_on(self, side: Side) -> None:
        self._shown.setdefault(side, {"path": side.whole(), "side": side.side, "kind": "none", "last": 0})

    def let_go(self, side: Side) -> None:
        """Prints the side once more, and then watches it no longer, unless the command line asks for it."""
        self.look(side)
        if side not in self._asked:
            self._shown.pop(side, None)

    def show(self, side: Side) -> None:
        """The kept answer of a side is good."""
        self._refused.pop(side, None)
        self.look(side)

    def refuse(self, side: Side, error: BaseException) -> None:
        """A read is refused, and made again. Each reason is printed once, except that the watch itself ends the session."""
        if isinstance(error, ConnectionClosedError):
            return
        line = side.refused(error)
        if self._refused.get(side) != line:
            self._refused[side] = line
            self.tell(line)

    def bound(self, is_bounded: bool) -> None:
        """A tree has come to have more nodes than its bound, or no longer has."""
        if is_bounded and not self._bounded:
            words = f"bound {self._chosen.most} a tree has more nodes: no more of it are watched"
            self.tell(Line(words, "bound", {"nodes": self._chosen.most}))
        self._bounded += 1 if is_bounded else -1

    def _follow(self, side: Side, held: contextlib.ExitStack) -> None:
        def woken() -> None:
            refused, followed.refused = followed.refused, None
            if refused is not None:
                self.refuse(side, refused)
            else:
                self.show(side)

        self.take_on(side)
        held.enter_context(self._engine.news(lambda: self.look(side), side.path))
        followed = held.enter_context(self._engine.following(side.path, _SIDES[side.side], woken))

    @contextlib.contextmanager
    def following(self) -> Iterator[None]:
        """Watches all that the command line asks for, until the context ends."""
        with contextlib.ExitStack() as held:
            for side in self._asked:
                self._follow(side, held)
            for root in self._chosen.tree:
                self._engine.add_tree(WatchedTree(self, self._engine, root, self._chosen.most))
            held.enter_context(self._engine.news(self.look_at_all))
            yield

    async def run(self) -> None:
        """Connects, for as long as that takes, and passes on the error that ends it."""
        try:
            await self._client.start(None)
        except Exception as error:
            self.lines.put_nowait(error)


class WatchedTree(TreeView):
    """A tree of a watch: it watches, node by node, what the session adds to the tree and removes from it."""

    def __init__(self, watch: Watch, host: Host, root: str, most: int) -> None:
        super().__init__(host, root, most, lambda: None)
        self._watch = watch
        self._sides: dict[int, Side] = {}

    def begin_again(self) -> None:
        super().begin_again()
        self._sides.clear()

    def reported(self, path: str) -> None:
        self._watch.look_at(path)

    def hear(self, news: TreeNews) -> None:
        if isinstance(news, MemberAdded):
            side = self._sides[news.ticket] = self._watch.side(news.path, "data" if news.side == library.DATA_SIDE else "names")
            self._watch.take_on(side)
        elif isinstance(news, MemberRemoved) and news.ticket in self._sides:
            self._watch.let_go(self._sides.pop(news.ticket))
        elif isinstance(news, TreeBounded):
            self._watch.bound(news.is_bounded)

    def show(self, ticket: int) -> None:
        if ticket in self._sides:
            self._watch.show(self._sides[ticket])

    def refuse(self, ticket: int, error: ZookeeperError) -> None:
        if ticket in self._sides:
            self._watch.refuse(self._sides[ticket], error)


async def _print(watch: Watch, until: Optional[float], write: Write) -> None:
    """Prints lines as they come, until the time is over."""
    while True:
        left = None if until is None else max(until - time.monotonic(), 0)
        try:
            line = await asyncio.wait_for(watch.lines.get(), left)
        except asyncio.TimeoutError:
            return
        if isinstance(line, BaseException):
            raise line
        write(line)


def _print_rest(watch: Watch, write: Write) -> None:
    while not watch.lines.empty():
        line = watch.lines.get_nowait()
        if isinstance(line, str):
            write(line)


async def run(client: aio.Client, chosen: argparse.Namespace, write: Write) -> None:
    """Watches until the time of the command line is over. Raises `Ending` if no server has ever accepted the session by then, or
    credentials are refused.
    """
    watch = Watch(client, chosen)
    until = None if chosen.duration is None else time.monotonic() + chosen.duration
    with Connections(chosen.hosts, watch.hear), watch.following():
        watching = asyncio.ensure_future(watch.run())
        try:
            await _print(watch, until, write)
        except ZookeeperError as error:
            raise of_call(error, error.path or "/", True) from error
        finally:
            watch.is_ending = True
            watching.cancel()
            await client.stop()
            await client.close()
        _print_rest(watch, write)
    if not watch.is_connected_once:
        raise Ending(NEVER_CONNECTED)
