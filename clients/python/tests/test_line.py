"""Tests of the line of requests that are handed over later."""

from __future__ import annotations

import unittest
from typing import Optional

import support  # noqa: F401  # for the place of the package

from dirwolleu import _requests as requests
from dirwolleu._asked import Asked
from dirwolleu._line import Line
from dirwolleu._waiting import Sleepers, Waiter


class LineTest(unittest.TestCase):
    def setUp(self) -> None:
        self.line = Line()

    def asked(self, until: int, ends_at: Optional[int] = None) -> Asked:
        asked = Asked(requests.get("/a", None), Waiter(Sleepers()), until, ends_at)
        self.line.add(asked)
        return asked

    def test_a_limit_of_its_own_ends_a_wait(self) -> None:
        later, sooner = self.asked(10, 300), self.asked(10, 200)
        for is_connected in (True, False):
            self.assertEqual((self.line.deadline(is_connected), self.line.late(199, is_connected)), (200, []))
        self.assertEqual(self.line.late(200, True), [sooner])
        self.assertEqual((self.line.deadline(True), self.line.late(300, False)), (300, [later]))

    def test_without_one_a_request_waits_for_a_server_so_long(self) -> None:
        first, _, other = self.asked(100), self.asked(110, 500), self.asked(120)
        self.assertEqual((self.line.deadline(True), self.line.deadline(False)), (500, 100))
        self.assertEqual((self.line.late(130, True), self.line.late(99, False)), ([], []))
        self.assertEqual(self.line.late(120, False), [first, other])
        for asked in (first, other):
            asked.give_up("no server")
        self.assertEqual((self.line.deadline(False), self.line.late(130, False)), (500, []))
        self.line.tidy()
        self.assertEqual(len(self.line), 2)  # up to the first that waits

    def test_what_the_core_has_or_was_answered_has_no_limit_here(self) -> None:
        handed, answered = self.asked(100, 200), self.asked(100, 300)
        self.line.waiting.clear()
        handed.is_handed = True
        answered.waiter.set_result(None)
        self.assertEqual(self.line.late(1000, False), [])
        self.assertIsNone(self.line.deadline(False))

    def test_all_are_told_once(self) -> None:
        asked = [self.asked(100), self.asked(100, 200)]
        self.assertEqual((self.line.clear(), self.line.clear()), (asked, []))
        self.assertEqual((len(self.line), self.line.deadline(False)), (0, None))
