"""Tests of trees for what the partner does not do: it refuses no read, does not decide which answers come at once, and never runs out of
memory.
"""

from __future__ import annotations

import struct
import unittest
from typing import Any, Optional
from unittest import mock

from test_engine import Future
from support import buffer, text
from test_library import CONNECT_RESPONSE, STAT_BYTES, reply
from test_session import asked, names, read

from dirwolleu import NoAuthError, NoNodeError, TooManyWatchesError
from dirwolleu import _library as library
from dirwolleu import _records as records
from dirwolleu import _requests as requests
from dirwolleu import _tree_view as tree_view
from dirwolleu._engine import Engine
from dirwolleu._library import READ_TOO_MANY_WATCHES, Halted, NoMemory, NotWhole, TooManyNodes
from dirwolleu._session import Action, MemberAdded, Refused, Session
from dirwolleu._tree_view import SHARE, TreeView

CHANGED, CHILD = 3, 4


def notice(path: str, event: int = CHANGED) -> bytes:
    return reply(-1, -1, 0, struct.pack(">ii", event, 3) + text(path))


def data(xid: int, text: str = "one", zxid: int = 9) -> bytes:
    return reply(xid, zxid, 0, buffer(text.encode()) + STAT_BYTES)


def listed(xid: int, *children: str, zxid: int = 9) -> bytes:
    return reply(xid, zxid, 0, names(*children))


def list_of(xid: int, path: str) -> bytes:
    """A read of the names below a path."""
    return asked(xid, 12, path, b"\1").frame


class GrowingTest(unittest.TestCase):
    """The tree at /t, read over one connection by frames that are spelled here."""

    def setUp(self) -> None:
        patch = mock.patch.object(tree_view, "moment", lambda: 0)  # so that no look takes any time
        patch.start()
        self.addCleanup(patch.stop)
        self.engine = Engine(6.0, None, lambda function, argument: None)
        self.addCleanup(self.engine.close)
        self.engine.begin()
        self.engine.addresses(100, 0, 1)
        self.admit(100)

    def admit(self, now: int) -> None:
        """A connection that the session asked for is open, and a server accepts the session."""
        self.assertIsNotNone(self.engine.take_commands().dial)
        self.engine.opened(now)
        self.engine.received(now, CONNECT_RESPONSE)
        self.engine.take_commands()

    def planted(self, most: int = 9) -> TreeView:
        """The tree, once the session follows it."""
        tree = TreeView(self.engine, "/t", most, lambda: None)
        self.engine.add_tree(tree)
        self.engine.take_handed(200)
        self.engine.tick(200)
        return tree

    def ask(self, request: requests.Request[Any]) -> None:
        self.engine.ask(200, request, Future())
        self.engine.take_handed(200)

    def frames(self) -> bytes:
        return self.engine.take_commands().frames

    def come(self, *frames: bytes, now: int = 300) -> None:
        self.engine.received(now, b"".join(frames))

    def whole(self) -> TreeView:
        """The tree with one node below its root, once it was shown."""
        tree = self.planted()
        self.assertEqual(self.frames(), read(1, "/t", True).frame + list_of(2, "/t"))
        self.come(data(1), listed(2, "a"))
        self.assertEqual(self.frames(), read(3, "/t/a", True).frame + list_of(4, "/t/a"))
        self.come(data(3), listed(4))
        self.assertEqual((tree.is_current(), self.nodes(tree)), (True, {"/t": b"one", "/t/a": b"one"}))
        return tree

    def nodes(self, tree: TreeView) -> dict[str, Optional[bytes]]:
        return {path: node.data for path, node in (tree.latest or {}).items()}

    def test_a_report_ends_what_is_current_until_it_is_read_again(self) -> None:
        tree = self.whole()
        self.come(notice("/t/a"))
        self.assertEqual((tree.is_current(), self.frames()), (False, read(5, "/t/a", True).frame))
        self.come(notice("/other"), data(5, "two", 10))
        self.assertEqual((tree.is_current(), self.nodes(tree)["/t/a"]), (True, b"two"))

    def test_answers_that_come_at_once_are_one_step(self) -> None:
        """So a large tree is read in few steps: each goes over all of it."""
        for path in ("/a", "/b"):
            self.ask(requests.get(path, None))
        with mock.patch.object(Session, "received", autospec=True, side_effect=Session.received) as received:
            self.come(data(1), data(2))
            self.assertEqual(received.call_count, 1)
            tree = self.planted()
            self.come(data(3), listed(4, "a"))
            self.come(data(5), listed(6))
            self.come(notice("/t/a"), notice("/t", CHILD))
        self.assertEqual((received.call_count, tree.is_current(), len(self.nodes(tree))), (4, False, 2))

    def test_what_is_kept_already_is_not_read(self) -> None:
        self.ask(requests.get("/t", True))
        self.ask(requests.get_children("/t", True))
        self.come(data(1), listed(2))
        self.frames()
        tree = self.planted()
        self.assertEqual((tree.is_current(), self.nodes(tree), self.frames()), (True, {"/t": b"one"}, b""))

    def test_what_is_reported_and_read_again_at_once_is_looked_at(self) -> None:
        """By another read, of a node that was good before the tree was followed: so the session has no ticket for it."""
        for path in ("/t", "/t/a"):
            self.ask(requests.get(path, True))
            self.ask(requests.get_children(path, True))
        self.come(data(1), listed(2, "a"), data(3), listed(4))
        tree = self.planted()
        self.assertEqual((tree.is_current(), len(self.nodes(tree))), (True, 2))
        self.ask(requests.get("/t/a", True))
        self.come(notice("/t/a"), data(5, "two", 10))
        self.assertEqual((tree.is_current(), self.nodes(tree)["/t/a"]), (True, b"two"))

    def test_a_refused_read_is_told_with_its_path_until_it_is_not_refused(self) -> None:
        tree = self.planted()
        self.come(data(1), listed(2, "a", "b"))
        self.come(data(3), reply(4, 9, -102), listed(5), listed(6))
        self.assertEqual((type(tree.trouble), tree.latest), (NoAuthError, None))
        self.assertEqual(str(tree.trouble), "the node's ACL does not admit this client: /t/b")
        self.assertEqual(self.engine.deadline(), 1300)
        self.frames()
        self.engine.tick(1300)
        self.assertEqual(self.frames(), read(7, "/t/b", True).frame)
        self.come(data(7), now=1400)
        self.assertEqual((tree.trouble, len(self.nodes(tree))), (None, 3))

    def test_a_refused_node_that_goes_is_no_trouble_any_more(self) -> None:
        tree = self.planted()
        self.come(data(1), listed(2, "a"))
        self.come(reply(3, 9, -102), reply(4, 9, -102))
        self.assertIsNotNone(tree.trouble)
        self.engine.tick(1300)
        self.come(reply(5, 9, -101), reply(6, 9, -102), now=1400)
        self.come(reply(7, 9, -101), now=1400)  # to the question whether it is there
        self.assertEqual((tree.trouble, tree.latest), (None, None))

    def test_a_busy_server_is_no_trouble(self) -> None:
        tree = self.planted()
        self.come(reply(1, 9, -127))
        self.assertIsNone(tree.trouble)

    def test_a_read_that_is_refused_before_it_is_sent_is_told_with_its_path(self) -> None:
        """It is refused in the step in which the session adds the node."""
        tree, moment = self.planted(), Session.moment

        def refused(session: Session, now: int) -> list[Action]:
            actions = moment(session, now)
            tickets = [action.ticket for action in actions if isinstance(action, MemberAdded)]
            return [*actions, *(Refused(ticket, READ_TOO_MANY_WATCHES, 0) for ticket in tickets[:1])]

        with mock.patch.object(Session, "moment", autospec=True, side_effect=refused):
            self.come(data(1), listed(2, "a"))
        self.assertEqual((type(tree.trouble), getattr(tree.trouble, "path", None)), (TooManyWatchesError, "/t/a"))

    def test_a_node_that_went_meanwhile_is_no_trouble(self) -> None:
        tree = self.planted()
        self.come(data(1), listed(2, "a"))
        self.come(reply(3, 9, -101), reply(4, 9, -101))
        self.assertIsNone(tree.trouble)
        self.come(reply(5, 9, -101), reply(6, 9, -101), notice("/t", CHILD))
        self.come(listed(7))
        self.assertEqual((tree.trouble, self.nodes(tree)), (None, {"/t": b"one"}))

    def test_that_there_is_no_root_is_told_until_it_is_made(self) -> None:
        tree = self.planted()
        self.come(reply(1, 9, -101), reply(2, 9, -101))
        self.come(reply(3, 9, -101), reply(4, 9, -101))
        self.assertEqual((type(tree.trouble), str(tree.trouble)), (NoNodeError, "no node: /t"))
        self.come(notice("/t", 1))
        self.come(data(5))
        self.assertEqual((tree.trouble, tree.latest), (None, None))
        self.come(listed(6))
        self.assertEqual(self.nodes(tree), {"/t": b"one"})

    def test_more_nodes_than_wanted_are_told_until_there_are_fewer(self) -> None:
        words = "more than 1 nodes at and below /t; ask for more, or for a path below"
        with self.assertLogs("dirwolleu.tree", "WARNING") as told:
            tree = self.planted(1)
            self.come(data(1), listed(2, "a"))
            self.assertEqual((type(tree.trouble), str(tree.trouble), tree.latest), (TooManyNodes, words, None))
            self.come(notice("/t", CHILD))
            self.come(listed(3))
            self.assertEqual((tree.trouble, self.nodes(tree)), (None, {"/t": b"one"}))
            self.come(notice("/t", CHILD))
            self.come(listed(4, "a"))
            self.assertEqual(str(tree.trouble), words)
        self.assertEqual(told.output, 2 * [f"WARNING:dirwolleu.tree:the tree at /t is not whole: {words}"])

    def test_a_name_that_makes_no_path_is_told(self) -> None:
        tree = self.planted()
        self.come(data(1), listed(2, ".."))
        self.assertEqual((type(tree.trouble), tree.latest), (NotWhole, None))
        self.come(notice("/t", CHILD))
        self.come(listed(3))
        self.assertEqual((tree.trouble, self.nodes(tree)), (None, {"/t": b"one"}))

    def test_after_a_long_look_the_next_one_waits(self) -> None:
        clock = iter([0, 4, 4, 4])
        with mock.patch.object(tree_view, "moment", lambda: next(clock)):
            tree = self.whole()
            ends = 300 + (1 + SHARE) * 4
            self.come(notice("/t/a"))
            self.come(data(5, "two"), now=301)
            self.assertEqual((tree.is_current(), self.engine.deadline()), (False, ends))
            self.come(notice("/t/a"), now=302)
            self.come(data(6, "three"), now=303)
            self.engine.tick(ends)
        self.assertEqual((tree.is_current(), self.nodes(tree)["/t/a"]), (True, b"three"))

    def test_another_session_follows_it_after_a_want_of_memory(self) -> None:
        tree = self.whole()
        with mock.patch.object(Session, "received", side_effect=Halted):
            self.come(b"bytes", now=400)
        self.assertEqual((tree.is_current(), tree.ticket, len(self.nodes(tree))), (False, None, 2))
        self.engine.tick(400)
        self.assertIsNotNone(self.engine.take_commands().dial)
        self.engine.opened(600)
        self.engine.received(600, CONNECT_RESPONSE)
        self.assertTrue(self.frames().endswith(read(1, "/t", True).frame + list_of(2, "/t")))
        self.come(data(1, "new"), listed(2), now=700)
        self.assertEqual((tree.is_current(), self.nodes(tree)), (True, {"/t": b"new"}))

    def test_where_there_is_no_memory_to_follow_it_that_is_tried_again(self) -> None:
        with mock.patch.object(Session, "follow_tree", side_effect=NoMemory):
            tree = self.planted()
        self.assertEqual((tree.ticket, self.frames()), (None, b""))
        self.engine.take_handed(300)
        self.assertEqual(self.frames(), read(1, "/t", True).frame + list_of(2, "/t"))

    def test_one_that_is_closed_is_followed_no_more(self) -> None:
        tree = self.whole()
        self.engine.remove_tree(tree)
        self.engine.remove_tree(tree)
        self.engine.take_handed(300)
        self.come(notice("/t/a"))
        self.assertEqual((self.engine.has_tree(tree), self.frames(), self.engine._planted), (False, b"", {}))

    def test_a_client_that_begins_again_follows_it(self) -> None:
        tree = self.whole()
        self.engine.end()
        self.assertFalse(tree.is_current())
        self.engine.begin()
        self.engine.addresses(500, 0, 1)
        self.engine.take_handed(500)
        self.engine.take_commands()
        self.engine.opened(600)
        self.engine.received(600, CONNECT_RESPONSE)
        self.assertTrue(self.frames().endswith(read(1, "/t", True).frame + list_of(2, "/t")))

    def test_reads_of_a_large_tree_leave_room_for_calls(self) -> None:
        """A tree has 960 reads on their way. Beside them 64 calls have room; calls after those, raw ones too, wait until all else is read.
        """
        self.planted(2000)
        self.come(data(1), listed(2, *(f"n{number:03}" for number in range(512))))
        self.assertTrue(self.frames().endswith(list_of(962, "/t/n447")))
        for number in range(64):
            self.engine.ask(300, requests.get("/other", None), Future())
        call, synced = Future(), Future()
        self.engine.ask(300, requests.get("/other", None), call)
        self.engine.ask(300, records.sync("/"), synced)
        self.engine.take_handed(300)
        self.assertEqual(self.frames(), b"".join(read(963 + number, "/other").frame for number in range(64)))
        for number in range(64):
            self.come(data(3 + number))
            self.assertEqual(self.frames(), list_of(1027 + number, f"/t/n{448 + number}"))
        self.come(data(67))
        self.assertEqual(self.frames(), read(1091, "/other").frame)
        self.come(data(68))
        self.assertEqual(struct.unpack(">ii", self.frames()[4:12]), (1092, library.SYNC))
