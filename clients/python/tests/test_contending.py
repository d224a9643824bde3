"""Tests of how an engine handles contenders, with no server: the bytes of one, and the moments, are those of the tests."""

from __future__ import annotations

import struct
import unittest
from typing import Any, Callable
from unittest import mock

from support import buffer
from test_library import CONNECT_RESPONSE, STAT_BYTES
from test_library import reply as answer_to

from dirwolleu import _library as library
from dirwolleu._contenders import Contender
from dirwolleu._engine import Engine
from dirwolleu._library import Halted, NoMemory
from dirwolleu._session import Session

NODE_DELETED = 2
"""The type of an event."""
OWNED = struct.pack(">qqqqiiiqiiq", 88, 88, 0, 0, 0, 0, 0, 0x1234, 0, 0, 88)
"""The Stat of a place of the session, which was made at 88."""


def names(*listed: str) -> bytes:
    return struct.pack(">i", len(listed)) + b"".join(buffer(name.encode()) for name in listed) + STAT_BYTES


class ContendingTest(unittest.TestCase):
    def setUp(self) -> None:
        self.told: list[Callable[[Any], object]] = []
        self.engine = Engine(6.0, None, lambda function, _: self.told.append(function))
        self.addCleanup(self.engine.close)
        self.engine.begin()
        self.engine.addresses(100, 0, 1)
        self.engine.opened(100)
        self.engine.received(100, CONNECT_RESPONSE)
        self.engine.take_commands()
        self.xid = 0

    def join(self, now: int, guid: str = "own", directory: str = "/l") -> Contender:
        contender = Contender(directory, library.KAZOO, guid, b"", on_lost=self.lost)
        self.engine.contend(contender)
        self.engine.take_handed(now)
        return contender

    def lost(self, _: object) -> None: ...

    def answer(self, now: int, body: bytes) -> bytes:
        """Answers the oldest call, at zxid 90, and returns the frames that follow from it."""
        self.xid += 1
        self.engine.take_commands()
        self.engine.received(now, answer_to(self.xid, 90, 0, body))
        return self.engine.take_commands().frames

    def enter(self, now: int, guid: str = "own", number: int = 2) -> str:
        """A place is made, and read. The names of the directory are asked then."""
        name = f"{guid}__lock__{number:010}"
        self.answer(now, buffer(f"/l/{name}".encode()))
        self.assertIn(b"/l", self.answer(now, buffer(b"") + OWNED))
        return name

    def wait_for(self, now: int, rival: str, own: str) -> None:
        """The rival is listed, and read with a watch."""
        self.assertIn(rival.encode(), self.answer(now, names(rival, own)))
        self.assertEqual(self.answer(now, buffer(b"") + STAT_BYTES), b"")

    def delete(self, now: int, path: str) -> None:
        """A watch reports that a node is gone."""
        self.engine.received(now, answer_to(-1, -1, 0, struct.pack(">ii", NODE_DELETED, 3) + buffer(path.encode())))

    def proved_at(self) -> Any:
        return self.engine.connection_stats.proved_at

    def test_who_takes_a_lock_has_heard_of_the_calls_for_it(self) -> None:
        contender, name = self.join(200), self.enter(300)
        self.assertIsNone(self.proved_at())
        self.answer(400, names(name))
        self.assertEqual((self.engine.held_by(contender), self.proved_at()), (88, 200))

    def test_a_lock_that_was_waited_for_is_proved_by_the_last_listing(self) -> None:
        contender, name = self.join(200), self.enter(300)
        self.wait_for(400, "a__lock__0000000001", name)
        self.assertEqual((contender.told, self.proved_at()), (library.CONTENDER_WAITS, None))
        self.delete(1000, "/l/a__lock__0000000001")
        self.answer(1200, names(name))
        self.assertEqual((self.engine.held_by(contender), self.proved_at()), (88, 1000))

    def test_nothing_is_proved_by_a_call_of_another_contender(self) -> None:
        """It may be sent after the one whose answer came."""
        contender, name = self.join(200), self.enter(300)
        self.wait_for(400, "a__lock__0000000001", name)
        self.join(500, "other")
        self.enter(600, "other", 3)
        self.delete(1000, "/l/a__lock__0000000001")
        self.answer(1200, names("a__lock__0000000001", name, "other__lock__0000000003"))
        self.answer(1200, names(name, "other__lock__0000000003"))
        self.assertEqual((self.engine.held_by(contender), self.proved_at()), (88, 500))

    def test_who_lacks_memory_to_join_again_joins_later(self) -> None:
        """Its place may be there, and has to go with it."""
        contender, name = self.join(200), self.enter(300)
        self.answer(400, names(name))
        with mock.patch.object(Session, "received", side_effect=Halted):
            self.engine.received(500, b"bytes")
        self.assertEqual((self.engine.held_by(contender), self.told), (None, [self.lost]))
        with mock.patch.object(Session, "contend", side_effect=NoMemory):
            self.engine.take_handed(500)
        self.assertEqual((contender.is_over, self.engine._contenders, self.engine.is_at_rest()), (False, {}, False))
        self.engine.take_handed(600)
        self.assertEqual((contender.is_over, list(self.engine._contenders.values())), (False, [contender]))

    def test_nobody_is_kept_who_is_over(self) -> None:
        contender, name = self.join(200), self.enter(300)
        self.wait_for(400, "a__lock__0000000001", name)
        self.engine.give_up(contender)
        self.engine.take_handed(500)
        self.answer(600, b"")
        self.assertEqual((contender.is_over, self.engine._contenders, self.engine._unasked), (True, {}, {}))
