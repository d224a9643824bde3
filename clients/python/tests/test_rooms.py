"""Tests of which bytes are handed in when they come, and where the others wait."""

from __future__ import annotations

import itertools
import random
import unittest
from unittest import mock

from support import framed

from dirwolleu._rooms import MOST_SPARE, SHORT, Inbox, Rooms

SMALL = 4 * SHORT
"""The size of the rooms of these tests."""


class RoomsTest(unittest.TestCase):
    def setUp(self) -> None:
        patch = mock.patch("dirwolleu._rooms.ROOM", SMALL)
        patch.start()
        self.addCleanup(patch.stop)
        self.rooms = Rooms()

    def bring(self, inbox: Inbox, data: bytes) -> bytes:
        """The bytes to hand in after a read that brings this."""
        inbox.room()[: len(data)] = data
        piece = inbox.take(len(data))
        self.assertIs(type(piece), bytes if len(piece) < SHORT else memoryview)
        return bytes(piece)


class InboxTest(RoomsTest):
    """The bytes that one connection hands in."""

    def pieces(self, *reads: bytes) -> list[bytes]:
        inbox = Inbox(self.rooms)
        return [self.bring(inbox, data) for data in reads] + [bytes(inbox.rest())]

    def test_a_long_frame_is_handed_in_once(self) -> None:
        frame = framed(bytes(SHORT))
        for cut in (4, 5, 100, len(frame) - 1):
            self.assertEqual(self.pieces(frame[:cut], frame[cut:]), [b"", frame, b""])
        self.assertEqual(self.pieces(frame[:100], frame[100:2000], frame[2000:]), [b"", b"", frame, b""])

    def test_what_is_before_a_long_frame_is_not_kept_and_what_is_after_it_is_handed_in_with_it(self) -> None:
        short, frame = framed(b"a", b"b"), framed(bytes(SHORT))
        self.assertEqual(self.pieces(short + frame[:100], frame[100:] + short), [short, frame + short, b""])
        self.assertEqual(self.pieces(frame + frame[:100], frame[100:] + frame[:9]), [frame, frame, frame[:9]])

    def test_a_short_frame_is_handed_in_as_it_comes(self) -> None:
        frame = framed(bytes(SHORT - 5))
        self.assertEqual(self.pieces(frame[:100], frame[100:], frame), [frame[:100], frame[100:], frame, b""])

    def test_a_length_may_come_in_pieces(self) -> None:
        """The bytes of it that came were handed in. The rest of the frame is handed in once, if it is long."""
        frame = framed(bytes(SHORT + 4))
        for cut in (1, 2, 3):
            self.assertEqual(self.pieces(frame[:cut], frame[cut:100], frame[100:] + frame), [frame[:cut], b"", frame[cut:] + frame, b""])
        for cuts in ((1, 2), (1, 3), (2, 3)):
            first, second = cuts
            self.assertEqual(
                self.pieces(frame + frame[:first], frame[first:second], frame[second:9], frame[9:]),
                [frame + frame[:first], frame[first:second], b"", frame[second:], b""],
            )

    def test_a_frame_that_has_no_room_is_handed_in_as_it_comes(self) -> None:
        """Until its rest has."""
        frame, inbox = framed(bytes(2 * SMALL)), Inbox(self.rooms)
        pieces = [self.bring(inbox, frame[at : at + SHORT]) for at in range(0, len(frame), SHORT)]
        self.assertEqual(list(map(len, pieces)), [SHORT] * 5 + [0] * 3 + [len(frame) - 5 * SHORT])
        self.assertEqual(b"".join(pieces), frame)
        short, last = framed(bytes(SMALL - 6000)), framed(bytes(5996))
        self.assertEqual(self.pieces(short + last[:1000], last[1000:]), [short + last[:1000], last[1000:], b""])

    def test_a_length_that_no_frame_may_have_is_handed_in_at_once(self) -> None:
        for length in (b"\xff\xff\xff\xff", b"\x80\0\0\0", (5_000_000).to_bytes(4, "big")):
            self.assertEqual(self.pieces(length, length), [length, length, b""])
        longest = (SMALL - 4).to_bytes(4, "big")
        self.assertEqual(self.pieces(longest), [b"", longest])
        self.assertEqual(self.pieces(bytes(100), bytes(3)), [bytes(100), bytes(3), b""])

    def test_nothing_is_lost_wherever_it_is_cut(self) -> None:
        """Several connections, whose reads take turns. No whole frame waits."""
        for seed in range(40):
            numbers = random.Random(seed)
            frames = [[numbers.choice((0, 5, 300, SHORT - 4, SHORT, SMALL - 4, 3 * SMALL)) for _ in range(20)] for _ in range(3)]
            streams = [framed(*map(numbers.randbytes, lengths)) for lengths in frames]
            ends = [[0, *itertools.accumulate(4 + length for length in lengths)] for lengths in frames]
            inboxes, given, most = [Inbox(self.rooms) for _ in streams], [b""] * len(streams), numbers.choice((700, SHORT, SMALL))
            came = [0] * len(streams)
            while came != list(map(len, streams)):
                one = numbers.randrange(len(streams))
                data = streams[one][came[one] :][: numbers.randint(1, most)][: len(inboxes[one].room())]
                if data:
                    given[one] += self.bring(inboxes[one], data)
                    came[one] += len(data)
                self.assertGreaterEqual(len(given[one]), max(end for end in ends[one] if end <= came[one]))
                self.assertEqual(inboxes[one].has_rest(), len(given[one]) < came[one])
            self.assertEqual(given, streams)


class SharingTest(RoomsTest):
    """Connections of one thread."""

    frame = framed(bytes(range(256)) * 20)

    def test_all_read_into_one_room(self) -> None:
        """Also one in which bytes have waited."""
        inboxes, frame, room = [Inbox(self.rooms) for _ in range(3)], self.frame, self.rooms.common
        for inbox in inboxes:
            self.assertEqual(self.bring(inbox, frame[:100]), b"")
            self.assertEqual(self.bring(inbox, frame[100:]), frame)
            self.assertIs(inbox.room(), room)

    def test_what_waits_is_not_read_over(self) -> None:
        """Few rooms are kept for later."""
        inboxes, frame = [Inbox(self.rooms) for _ in range(MOST_SPARE + 3)], self.frame
        for _ in range(3):
            for inbox in inboxes:
                self.assertEqual(self.bring(inbox, frame[:100]), b"")
            for inbox in inboxes:
                self.assertEqual(self.bring(inbox, frame[100:]), frame)
        self.assertEqual(len(self.rooms._spare), MOST_SPARE)

    def test_what_waits_may_be_handed_in_as_it_is(self) -> None:
        one, other, frame = Inbox(self.rooms), Inbox(self.rooms), self.frame
        self.bring(one, frame[:100])
        self.bring(other, frame[:200])
        self.assertEqual((one.rest(), other.rest(), one.rest()), (frame[:100], frame[:200], b""))
        self.assertEqual(self.bring(one, frame[100:5000]), b"")
        self.assertEqual(self.bring(one, frame[5000:]), frame[100:])
