"""Tests of a session of the library, by frames that are spelled here as zookeeper.jute has them."""

from __future__ import annotations

import platform
import resource
import struct
import unittest
from unittest import mock

from support import buffer, framed, text, texts
from test_library import CONNECT_REQUEST, CONNECT_RESPONSE, STAT, STAT_BYTES, reply

from dirwolleu import _library as library
from dirwolleu import _session as of_session
from dirwolleu._library import Answer, Drop, Halted, NoMemory, Report, Send, StateChange
from dirwolleu._root import Root
from dirwolleu._session import (
    NO_LIMIT, Action, Dial, MemberAdded, MemberRemoved, PlainAction, Refused, Session, Shown, TimedOut, TreeBounded, TreeComplete,
)  # fmt: skip

EXPIRED = framed(struct.pack(">iiq", 0, 0, 0) + buffer(bytes(16)) + b"\0")
CONNECTED = [StateChange(library.CONNECTED)]
FIRST = 2**63
"""The ticket of the first node of a tree that is not the data of its root."""


def asked(xid: int, kind: int, path: str, rest: bytes = b"") -> Send:
    return Send(framed(struct.pack(">ii", xid, kind) + text(path) + rest))


def read(xid: int, path: str, watch: bool = False) -> Send:
    return asked(xid, 4, path, bytes([watch]))


def names(*listed: str) -> bytes:
    return texts(*listed) + STAT_BYTES


class SessionTest(unittest.TestCase):
    def session(self, root: Root = Root()) -> Session:
        session = Session(6000, 1, root=root)
        self.addCleanup(session.close)
        return session

    def connected(self, root: Root = Root()) -> Session:
        session = self.session(root)
        session.addresses(100, 0, 1, True)
        session.opened(100)
        self.assertEqual(session.received(100, CONNECT_RESPONSE), CONNECTED)
        return session

    def test_it_asks_for_a_connection_and_gives_an_attempt_up(self) -> None:
        session = self.session()
        self.assertEqual(session.moment(100), [])  # there is no address
        self.assertEqual(session.addresses(100, 0, 1, True), [Dial(0, 2000)])
        self.assertEqual((session.deadline(), session.moment(2099), session.moment(2100)), (2100, [], [PlainAction.HANG_UP]))
        self.assertEqual(session.opened(2101), [PlainAction.HANG_UP])  # it is too late
        self.assertEqual(session.moment(2434), [Dial(0, 2000)])
        self.assertEqual(session.failed(2500), [])
        self.assertEqual(session.moment(2768), [Dial(0, 2000)])
        self.assertEqual(session.opened(2800), [Send(CONNECT_REQUEST), StateChange(library.CONNECTING)])
        self.assertEqual(session.received(2900, CONNECT_RESPONSE), CONNECTED)
        self.assertEqual((session.state(), session.timeout_ms(), session.heard_at()), (library.CONNECTED, 4000, 2900))

    def test_each_address_has_its_turn(self) -> None:
        session, places = self.session(), list[int]()
        session.addresses(0, 0, 3, True)
        for now in range(400, 100_000, 400):
            places += [action.place for action in session.failed(now) + session.moment(now) if isinstance(action, Dial)]
        self.assertEqual({len(set(places[begin : begin + 3])) for begin in range(0, len(places) - 2)}, {3})

    def test_a_step_says_more_than_there_was_room_for(self) -> None:
        for length in (10_000, 100_000, 200_000):  # the last two are not taken together with its other outputs
            session, data = self.connected(), bytes(length)
            session.get_data(100, 1, NO_LIMIT, "/a", False)
            session.get_children(100, 2, NO_LIMIT, "/a", False)
            came = reply(1, 5, body=buffer(data) + STAT_BYTES) + reply(2, 6, body=names("b", "ö" * 300)) + struct.pack(">i", -5)
            data_of, names_of, dropped, *_ = session.received(100, memoryview(bytearray(came)))
            self.assertEqual(data_of, Answer(1, library.REPLIED, library.DATA, 0, STAT, data, [], 5))
            self.assertEqual(names_of, Answer(2, library.REPLIED, library.NAMES, 0, STAT, None, ["b", "ö" * 300], 6))
            self.assertTrue(isinstance(dropped, Drop) and dropped.fault == "F1" and dropped.words)

    def test_a_long_answer_is_not_spelled_before_it_is_copied(self) -> None:
        session, data = self.connected(), bytes(100_000)
        session.get_data(100, 1, NO_LIMIT, "/a", False)
        came = reply(1, 5, body=buffer(data) + STAT_BYTES)
        with mock.patch.object(session, "_take_all", return_value=library.NO_MEMORY) as take_all:
            self.assertEqual(session.received(100, memoryview(bytearray(came[:70_000]))), [])
            self.assertEqual(session.received(100, came[70_000:]), [Answer(1, library.REPLIED, library.DATA, 0, STAT, data, [], 5)])
            take_all.assert_not_called()

    def test_without_memory_for_what_a_step_says_it_is_taken_in_parts(self) -> None:
        session = self.connected()
        with mock.patch.object(session, "_take_all", return_value=library.NO_MEMORY):
            self.assertEqual(session.get_data(100, 1, NO_LIMIT, "/a", False), [read(1, "/a")])
            self.assertEqual(session.get_children(100, 2, NO_LIMIT, "/a", False), [asked(2, 12, "/a", b"\0")])
            with mock.patch.object(session._calls, "names", return_value=library.NO_MEMORY), self.assertRaises(Halted):
                session.received(100, reply(1, 5, -101) + reply(2, 6, body=names("b")))
        self.assertEqual(session.moment(200), [])

    def test_calls_wait_and_are_answered(self) -> None:
        session = self.session()
        session.addresses(100, 0, 1, True)
        self.assertEqual(session.get_data(100, 7, NO_LIMIT, "/a", True), [])
        self.assertEqual(session.set_data(100, 8, 1000, "/a", None, -1), [])
        session.opened(100)
        change = asked(2, 5, "/a", struct.pack(">ii", -1, -1))
        self.assertEqual(session.received(100, CONNECT_RESPONSE), [*CONNECTED, read(1, "/a", True), change])
        answer = Answer(7, 0, library.DATA, 0, STAT, b"one", [], 9)
        self.assertEqual(session.received(200, reply(1, 9, 0, buffer(b"one") + STAT_BYTES)), [answer])
        self.assertEqual(session.moment(1000), [TimedOut(8, True)])
        notice = reply(-1, -1, 0, struct.pack(">ii", 3, 3) + buffer(b"/a"))
        self.assertEqual(session.received(1100, notice), [Report(library.DATA_CHANGED, library.DATA_SIDE, "/a")])

    def test_a_read_goes_on_over_a_cut_and_a_write_is_lost(self) -> None:
        session = self.connected()
        calls = [
            session.exists(200, 1, NO_LIMIT, "/a", False),
            session.create(200, 2, NO_LIMIT, "/a", b"", library.PERSISTENT),
            session.get_children(200, 3, 5000, "/a", False),
            session.delete(200, 4, NO_LIMIT, "/a", -1),
        ]
        self.assertEqual([len(actions) for actions in calls], [1, 1, 1, 1])
        lost = [Answer(ticket, library.LOST, 0, 0, None, None, []) for ticket in (2, 4)]
        self.assertEqual(session.cut(300), [*lost, StateChange(library.IDLE)])
        session.moment(1000)
        session.opened(1000)
        again = [asked(5, 3, "/a", b"\0"), asked(6, 12, "/a", b"\0")]
        self.assertEqual(session.received(1000, CONNECT_RESPONSE), [*CONNECTED, *again])
        session.cut(1100)
        self.assertEqual(session.moment(5000)[:1], [TimedOut(3, False)])

    def test_an_answer_that_is_too_long_is_asked_for_once(self) -> None:
        session, long = self.connected(), struct.pack(">i", 4_194_305)
        session.get_data(200, 1, NO_LIMIT, "/a", False)
        session.get_children(200, 2, NO_LIMIT, "/b", False)
        told, dropped, *more = session.received(300, long)
        self.assertEqual(told, Answer(1, library.TOO_LARGE, 0, 0, None, None, []))
        self.assertTrue(isinstance(dropped, Drop) and dropped.fault == "F2")
        self.assertEqual(more, [StateChange(library.IDLE), PlainAction.HANG_UP])
        session.moment(1000)
        session.opened(1000)
        self.assertEqual(session.received(1000, CONNECT_RESPONSE), [*CONNECTED, asked(3, 12, "/b", b"\0")])

    def test_a_write_whose_answer_is_too_long_is_lost(self) -> None:
        session = self.connected()
        session.create(200, 1, NO_LIMIT, "/a", b"", library.PERSISTENT)
        dropped, lost, *_ = session.received(300, struct.pack(">i", 4_194_305))
        self.assertTrue(isinstance(dropped, Drop) and dropped.fault == "F2")
        self.assertEqual(lost, Answer(1, library.LOST, 0, 0, None, None, []))

    def test_what_is_followed_waits_longer_where_its_answer_is_too_long_again(self) -> None:
        session, long = self.connected(), struct.pack(">i", 4_194_305)
        self.assertEqual(session.follow(200, 5, "/a", library.DATA_SIDE), [read(1, "/a", True)])
        for xid, now, refused, until in ((2, 300, [Refused(5, library.READ_TOO_LARGE, 0)], 1_300), (3, 1_300, [], 61_300)):
            told = [*session.received(now, long), *session.moment(now + 400)]
            self.assertIn(PlainAction.HANG_UP, told)
            self.assertEqual([one for one in told if isinstance(one, Refused)], refused)
            session.opened(now + 500)
            self.assertEqual(session.received(now + 500, CONNECT_RESPONSE), CONNECTED)  # it is not read over the next connection
            self.assertEqual(session.moment(now + 900), [])
            session.cut(until - 50)
            session.moment(until - 40)
            session.opened(until - 30)
            self.assertEqual(session.received(until - 20, CONNECT_RESPONSE), CONNECTED)
            self.assertEqual((session.moment(until - 1), session.moment(until)), ([], [read(xid, "/a", True)]))

    def test_another_session_begins_after_an_expiry(self) -> None:
        session = self.connected()
        session.get_data(200, 1, NO_LIMIT, "/a", False)
        session.received(300, reply(1, 9, -101))
        session.get_data(400, 2, NO_LIMIT, "/a", False)
        session.cut(500)
        session.moment(1000)
        session.opened(1000)
        told = session.received(1000, EXPIRED)
        answer = Answer(2, library.AFTER_EXPIRY, 0, 0, None, None, [])
        self.assertEqual(told, [StateChange(library.EXPIRED), PlainAction.HANG_UP, answer, PlainAction.RENEWED, Dial(0, 2000)])
        self.assertEqual((session.saved()[:8], session.last_zxid()), (bytes(8), 9))

    def test_what_is_followed_is_kept_good(self) -> None:
        session = self.connected()
        self.assertEqual(session.follow(200, 5, "/a", library.DATA_SIDE), [read(1, "/a", True)])
        self.assertEqual(session.received(300, reply(1, 9, 0, buffer(b"one") + STAT_BYTES)), [Shown(5)])
        self.assertEqual(session.peek_data("/a")[0].data, b"one")
        notice = reply(-1, -1, 0, struct.pack(">ii", 3, 3) + buffer(b"/a"))
        report = Report(library.DATA_CHANGED, library.DATA_SIDE, "/a")
        self.assertEqual(session.received(400, notice), [report, read(2, "/a", True)])
        self.assertEqual(session.received(500, reply(2, 9, -102)), [Refused(5, library.READ_CODE, -102)])
        self.assertEqual(session.deadline(), 1500)
        self.assertEqual(session.unfollow(600, 5), [])
        self.assertEqual(session.moment(1500), [])
        self.assertEqual(session.follow(1500, 6, "/b", library.CHILDREN_SIDE), [asked(3, 12, "/b", b"\1")])

    def test_a_tree_is_followed_as_its_names_come(self) -> None:
        session = self.connected(Root("/app"))
        tree = [MemberAdded(5, 5, library.DATA_SIDE, "/a"), MemberAdded(5, FIRST, library.CHILDREN_SIDE, "/a")]
        reads: list[Action] = [read(1, "/app/a", True), asked(2, 12, "/app/a", b"\1")]
        self.assertEqual(session.follow_tree(200, 5, "/a", 2), [*tree, *reads])
        self.assertEqual(session.received(300, reply(1, 9, 0, buffer(b"one") + STAT_BYTES)), [Shown(5)])
        reads = [read(3, "/app/a/b", True), asked(4, 12, "/app/a/b", b"\1")]
        below = [MemberAdded(5, FIRST + 1, library.DATA_SIDE, "/a/b"), MemberAdded(5, FIRST + 2, library.CHILDREN_SIDE, "/a/b")]
        self.assertEqual(session.received(400, reply(2, 9, 0, names("b"))), [Shown(FIRST)])
        self.assertEqual(session.deadline(), 400)
        self.assertEqual(session.moment(400), [*below, *reads])
        self.assertEqual(session.received(500, reply(3, 9, 0, buffer(b"two") + STAT_BYTES)), [Shown(FIRST + 1)])
        self.assertEqual(session.received(600, reply(4, 9, 0, names())), [Shown(FIRST + 2)])
        self.assertEqual(session.moment(600), [TreeComplete(5)])
        gone = [MemberRemoved(5, ticket) for ticket in (5, FIRST, FIRST + 1, FIRST + 2)]
        self.assertEqual(session.unfollow_tree(700, 5), gone)
        with self.assertRaises(ValueError):
            session.follow_tree(800, 6, "a", 2)

    def test_a_tree_of_more_nodes_than_its_bound_is_told(self) -> None:
        session = self.connected()
        session.follow_tree(200, 5, "/a", 1)
        session.received(300, reply(1, 9, 0, buffer(b"one") + STAT_BYTES))
        self.assertEqual(session.received(400, reply(2, 9, 0, names("b"))), [Shown(FIRST)])
        self.assertEqual(session.moment(400), [TreeBounded(5, True)])

    def test_a_connection_is_given_up(self) -> None:
        session = self.connected()
        told: list[Action] = session.received(200, struct.pack(">i", 5_000_000))
        self.assertIsInstance(told[0], Drop)
        self.assertEqual(told[1:], [StateChange(library.IDLE), PlainAction.HANG_UP])

    def test_a_session_is_closed(self) -> None:
        session = self.connected()
        self.assertEqual(session.close_session(200, 1, NO_LIMIT), [Send(framed(struct.pack(">ii", 1, -11)))])
        told = session.received(300, reply(1, 9))
        self.assertEqual(told[:2], [Answer(1, 0, library.DONE, 0, None, None, [], 9), StateChange(library.SESSION_CLOSED)])

    def test_a_session_is_put_away_and_taken_up(self) -> None:
        saved = self.connected().saved()
        other = Session(6000, 2, saved, addresses=1)
        self.addCleanup(other.close)
        self.assertEqual(other.moment(0), [Dial(0, 2000)])
        other.opened(0)
        self.assertEqual(other.saved(), saved)
        with self.assertRaises(ValueError):
            Session(6000, 2, b"short")
        with self.assertRaises(ValueError):
            Session(0, 2)

    def test_paths_are_below_the_root(self) -> None:
        session = self.connected(Root("/app"))
        self.assertEqual(session.get_data(200, 1, NO_LIMIT, "/a", False), [read(1, "/app/a")])
        self.assertEqual(session.follow(200, 2, "/", library.CHILDREN_SIDE), [asked(2, 12, "/app", b"\1")])
        with self.assertRaises(ValueError):
            session.create(200, 3, NO_LIMIT, "/", b"", library.SEQUENTIAL)
        for wrong in ("", "a", "/a/", "/a//b"):
            with self.assertRaises(ValueError):
                session.follow(200, 4, wrong, library.DATA_SIDE)

    def test_what_the_library_answers(self) -> None:
        session = self.session()
        session.close()
        with self.assertRaises(library.Closed):
            session.moment(0)
        self.assertIsNone(self.session().heard_at())
        with self.assertRaises(NoMemory):
            library.checked(library.NO_MEMORY)
        with self.assertRaises(library.UnknownNumber):
            session._read(of_session._fields_of_output(library._Output(kind=99)), b"")
        with self.assertRaises(library.UnknownNumber):
            session._read(of_session._fields_of_output(library._Output(kind=library.REFUSED, detail=99)), b"")


@unittest.skipUnless(platform.libc_ver()[0] == "glibc", "another C library keeps memory by rules of its own")
class MemoryTest(unittest.TestCase):
    def test_the_memory_of_long_answers_serves_the_next_ones(self) -> None:
        of_session.keep_what_is_let_go()
        faults = list[int]()
        for _ in range(5):
            answers = [bytes([number]) * 100_000 for number in range(20)]
            faults.append(resource.getrusage(resource.RUSAGE_SELF).ru_minflt)
            self.assertEqual(len(answers.pop()), 100_000)
            del answers
        self.assertLess(faults[-1] - faults[0], 100)  # if it goes back to the system they are 500 each time
