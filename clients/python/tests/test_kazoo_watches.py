"""Tests of the watches of dirwolleu.kazoo, against the partner. The expected results are those of kazoo's documentation, or of kazoo 2.8.
"""

from __future__ import annotations

from typing import Any, Optional
from unittest import mock

from support import within
from test_kazoo import KazooCase

from dirwolleu.kazoo.client import WatchedEvent
from dirwolleu.kazoo.exceptions import KazooException
from dirwolleu.types import Kept, Mark


class WatchesTest(KazooCase):
    def setUp(self) -> None:
        super().setUp()
        self.zk = self.client()
        self.events: list[WatchedEvent] = []

    def is_watched(self, path: str) -> bool:
        """Whether a function waits for a watch of this path."""
        assert self.zk._session is not None
        return self.zk._session._engine._watchers.has(path)

    def test_watches_fire_once(self) -> None:
        self.zk.create("/a")
        self.zk.get("/a", self.events.append)
        self.zk.exists("/a", self.events.append)
        self.zk.get_children("/a", self.events.append)
        self.zk.set("/a", b"x")
        self.zk.create("/a/b")
        self.zk.set("/a", b"y")
        within(lambda: len(self.events) == 2)
        self.zk.exists("/none", self.events.append)
        self.zk.create("/none")
        within(lambda: len(self.events) == 3)
        self.assertEqual(
            self.events,
            [
                ("CHANGED", "CONNECTED", "/a"),
                ("CHILD", "CONNECTED", "/a"),
                ("CREATED", "CONNECTED", "/none"),
            ],
        )

    def test_a_watch_ends_with_its_connection(self) -> None:
        self.zk.create("/a")
        self.zk.get("/a", self.events.append)
        self.server.do("drop")
        within(lambda: self.events == [("NONE", "CONNECTING", None)])
        within(lambda: self.zk.connected)
        self.zk.set("/a", b"x")
        self.zk.get("/a", self.events.append)
        self.zk.set("/a", b"y")
        within(lambda: len(self.events) == 2)
        self.assertEqual(self.events[1:], [("CHANGED", "CONNECTED", "/a")])

    def test_a_watch_may_call_the_client(self) -> None:
        found: list[Any] = []
        self.zk.create("/a")
        self.zk.get("/a", lambda _: found.append(self.zk.get("/a")[0]))
        self.zk.set("/a", b"x")
        within(lambda: found == [b"x"])

    def test_data_watch(self) -> None:
        found: list[Any] = []
        watch = self.zk.DataWatch("/a")

        @watch
        def told(data: Any, stat: Any) -> Optional[bool]:
            found.append((data, None if stat is None else stat.version))
            return False if data == b"end" else None

        with self.assertRaises(KazooException):
            watch(told)
        self.zk.create("/a", b"0")
        within(lambda: len(found) == 2)
        self.zk.set("/a", b"1")
        within(lambda: len(found) == 3)
        self.server.do("down", "set /a 2", "up")
        within(lambda: len(found) == 4)
        self.server.do("expire")
        within(lambda: not self.zk.connected)
        within(lambda: self.is_watched("/a"))
        self.server.do("set /a 3")
        within(lambda: found[-1] == (b"3", 3))
        self.zk.set("/a", b"end")
        within(lambda: found[-1] == (b"end", 4))
        self.zk.set("/a", b"more")
        self.zk.sync("/")
        self.assertEqual(found, [(None, None), (b"0", 0), (b"1", 1), (b"2", 2), (b"3", 3), (b"end", 4)])

    def test_data_watch_with_the_event(self) -> None:
        found: list[Any] = []
        self.zk.create("/a")
        self.zk.DataWatch("/a", lambda data, stat, event: found.append(event))
        self.zk.delete("/a")
        within(lambda: found == [None, ("DELETED", "CONNECTED", "/a")])

    def test_a_function_that_fails(self) -> None:
        with self.assertRaises(ZeroDivisionError), self.assertLogs("dirwolleu.kazoo.recipe.watchers"):
            self.zk.DataWatch("/a", lambda data, stat: 1 // 0)

    def test_no_function_is_called_with_what_is_not_good(self) -> None:
        self.zk.create("/a", b"0")
        marks = iter([Mark.STALE, Mark.STALE, Mark.GOOD])
        kept = self.zk._kept

        def marked(path: str) -> Optional[Kept]:
            found = kept(path)
            mark = next(marks)
            return None if found is None else Kept(found.path, mark, found.last_zxid, found.stat, found.data, found.has_data)

        found: list[Any] = []
        with mock.patch.object(self.zk, "_kept", marked), mock.patch.object(self.zk, "get", wraps=self.zk.get) as get:
            self.zk.DataWatch("/a", lambda data, stat: found.append(data))
        self.assertEqual((found, get.call_count), ([b"0"], 3))

    def test_a_change_has_its_event(self) -> None:
        """A look as after a lost connection, whose answer has ended before it is looked at, leaves the change to its event."""
        found: list[Any] = []
        self.zk.create("/a", b"0")
        data, names = self.zk.DataWatch("/a"), self.zk.ChildrenWatch("/a", send_event=True)
        data(lambda data, stat, event: found.append((data, event and event.type)))
        names(lambda names, event: found.append((names, event and event.type)))
        for watch, name, change, is_stale in (
            (data, "get", "set /a 1", lambda: self.zk._kept("/a").mark is Mark.STALE),  # type: ignore[union-attr]
            (names, "get_children", "create /a/b", lambda: self.zk._kept_children("/a").mark is Mark.STALE),  # type: ignore[union-attr]
        ):
            read, changes = getattr(self.zk, name), iter([change])

            def overtaken(*words: Any, read: Any = read, changes: Any = changes, is_stale: Any = is_stale) -> Any:
                answer = read(*words)
                for change in changes:
                    self.server.do(change)
                    within(is_stale)
                return answer

            with mock.patch.object(self.zk, name, overtaken):
                watch._look(None)
        within(lambda: len(found) == 4)
        self.assertEqual(found, [(b"0", None), ([], None), (b"1", "CHANGED"), (["b"], "CHILD")])

    def test_children_watch(self) -> None:
        found: list[Any] = []
        self.zk.ensure_path("/a")
        self.zk.ChildrenWatch("/a", lambda names, event: found.append((sorted(names), event and event.type)), send_event=True)
        self.zk.create("/a/b")
        within(lambda: len(found) == 2)
        self.server.do("down", "create /a/c x", "up")
        within(lambda: len(found) == 3)
        self.server.do("down")
        within(lambda: not self.zk.connected)
        self.server.do("up")
        within(lambda: self.is_watched("/a"))
        self.zk.delete("/a/b")
        within(lambda: len(found) == 4)
        self.zk.delete("/a", recursive=True)
        within(lambda: not self.zk.state_listeners)
        self.assertEqual(found[:4], [([], None), (["b"], "CHILD"), (["b", "c"], None), (["c"], "CHILD")])
        self.zk.ChildrenWatch("/none", lambda names: found.append(names))
        self.assertEqual(self.zk.state_listeners, set())
