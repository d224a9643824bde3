"""Tests of followers whose reads are refused, and of answers that are overtaken by a notice."""

from __future__ import annotations

import logging
import socket
import struct
import time
import unittest
from typing import Any, Optional
from unittest import mock

from both import AioCase, BothCase, Outcome, in_thread
from support import EXISTS, GET_DATA, STAT, WAIT, Asked, Peer, RawServer, data_reply, notice, reply, texts, within

from dirwolleu import Kept, Mark, NoAuthError

GET_CHILDREN_2 = 12
REFUSALS = {-4: 0.8, -127: 0.8, -112: 0.28, -118: 0.28, -1: 0.8, -99: 0.8, -101: 0.28}
"""How many seconds there are for each read at least: there is one in a second, with a code that ends the connection one on each, and
another one at once if there is no node and exists says that there is one."""


class Refusing:
    """A server that refuses to read a node's data, and says to `exists` that there is one."""

    def __init__(self, code: int) -> None:
        self.code = code
        self.reads: list[float] = []

    def serve(self, peer: Peer) -> None:
        for asked in peer.requests():
            peer.send(self.answer(asked))

    def pause(self, began: float) -> float:
        """The seconds for each of its reads since then, when there are three."""
        reads = within(lambda: self.reads[2:] and list(self.reads))
        return float((reads[-1] - began) / (len(reads) - 1))

    def answer(self, asked: Asked) -> bytes:
        if asked.kind == EXISTS:
            return reply(asked, STAT)
        if asked.kind != GET_DATA:
            return reply(asked)
        self.reads.append(time.monotonic())
        return reply(asked, code=self.code) if self.code else data_reply(asked, b"one")


def overtakes(peer: Peer) -> None:
    """Sends a notice with each answer to a read of data, and of names."""
    for asked in peer.requests():
        if asked.kind == GET_DATA:
            peer.send(data_reply(asked, b"one"), notice("/a"))
        elif asked.kind == GET_CHILDREN_2:
            peer.send(reply(asked, struct.pack(">ii", 1, 1) + b"b" + STAT, zxid=7), notice("/a", 4))
        else:
            peer.send(reply(asked))


EPOCH = 1 << 32
"""The zxids of one epoch."""


class Electing:
    """Servers that elect: at first they have `new`, and after an election what was there before it, with zxids of a later epoch.

    They report no change: what they have now was written before the client had seen `new`.
    """

    def __init__(self) -> None:
        self.data: Optional[bytes] = b"new"
        self.zxid, self.reads = EPOCH + 9, 0
        self._peer: Optional[Peer] = None

    def serve(self, peer: Peer) -> None:
        self._peer = peer
        for asked in peer.requests():
            peer.send(self.answer(asked))

    def answer(self, asked: Asked) -> bytes:
        if asked.kind not in (EXISTS, GET_DATA, GET_CHILDREN_2):
            return reply(asked, zxid=self.zxid)
        self.reads += 1
        if self.data is None:
            return reply(asked, code=-101, zxid=self.zxid)
        if asked.kind == GET_DATA:
            return data_reply(asked, self.data, zxid=self.zxid)
        return reply(asked, (texts() if asked.kind == GET_CHILDREN_2 else b"") + STAT, zxid=self.zxid)

    def leave(self, zxid: int, data: Optional[bytes]) -> None:
        """The connection is over. The next server has these data, or no node, and has seen this zxid."""
        self.data, self.zxid = data, zxid
        assert self._peer is not None
        self._peer.connection.shutdown(socket.SHUT_RDWR)


class FollowRules(BothCase):
    is_long = True

    def follow(self, server: RawServer, told: list[Kept]) -> Outcome:
        client = self.client(server.host, 30.0)

        def collect() -> None:
            for kept in client.follow("/a"):
                told.append(kept)

        return in_thread(collect)

    def test_each_follower_goes_on_and_reads_again(self) -> None:
        servers = [Refusing(code) for code in REFUSALS]
        told: list[list[Kept]] = [[] for _ in servers]
        began = time.monotonic()
        for server, found in zip(servers, told):
            self.follow(self.raw_server(server.serve), found)
        for server in servers:
            with self.subTest(code=server.code):
                self.assertGreater(server.pause(began), REFUSALS[server.code])
                server.code = 0
        within(lambda: all(found for found in told))
        self.assertEqual({found[0].data for found in told}, {b"one"})

    def test_a_code_that_is_not_known_is_told_once(self) -> None:
        server, told = Refusing(-99), list[Kept]()
        with self.assertLogs("dirwolleu", logging.WARNING) as logs:
            self.follow(self.raw_server(server.serve), told)
            within(lambda: len(server.reads) >= 2)
            server.code = 0
            within(lambda: told)
        self.assertEqual(logs.output, ["WARNING:dirwolleu:a read is refused, and asked again: the server answers -99: /a"])

    def test_another_refusal_is_raised(self) -> None:
        with self.raises(NoAuthError, -102):
            self.follow(self.raw_server(Refusing(-102).serve), []).result()

    def test_an_answer_that_a_notice_overtakes_is_told(self) -> None:
        told: list[Kept] = []
        self.follow(self.raw_server(overtakes), told)
        within(lambda: told)
        self.assertEqual((told[0].mark, told[0].data, told[0].last_zxid), (Mark.GOOD, b"one", 5))

    def test_what_an_election_takes_back_is_told_once(self) -> None:
        """The watch is set again, and no notice comes. Another server of the same epoch is believed without a read."""
        servers, told = Electing(), list[Kept]()
        server = self.raw_server(servers.serve)
        self.follow(server, told)
        within(lambda: told)
        servers.leave(EPOCH + 10, b"new")
        within(lambda: len(server.dials) == 2)
        time.sleep(0.5)
        self.assertEqual((servers.reads, len(told)), (1, 1))
        servers.leave(2 * EPOCH + 1, b"old")
        within(lambda: len(told) == 2)
        servers.leave(2 * EPOCH + 2, b"old")
        within(lambda: len(server.dials) == 4)
        time.sleep(0.5)
        self.assertEqual((servers.reads, [kept.data for kept in told]), (2, [b"new", b"old"]))
        servers.leave(3 * EPOCH + 1, None)
        within(lambda: len(told) == 3)
        self.assertEqual((servers.reads, told[2].exists), (4, False))  # reads the data, and then whether there is a node

    def test_names_that_a_notice_overtakes_are_told(self) -> None:
        """With the zxid of their last change, at which the servers had them."""
        client = self.client(self.raw_server(overtakes).host, 30.0)
        kept = next(client.follow_children("/a"))
        self.assertEqual((kept.mark, kept.names, kept.last_zxid), (Mark.GOOD, ("b",), 5))


class FollowTest(FollowRules):
    def test_a_watch_tells_once_too_and_reads_again(self) -> None:
        server, told = Refusing(-99), list[object]()
        client = self.client(self.raw_server(server.serve).host, 30.0)
        with self.assertLogs("dirwolleu", logging.WARNING) as logs, mock.patch("dirwolleu._following.BETWEEN_REFUSED_READS", 0.05):
            in_thread(lambda: client.DataWatch("/a", lambda data, _: told.append(data)))
            within(lambda: len(server.reads) >= 4)
            server.code = 0
            within(lambda: told)
        self.assertEqual((told, logs.output), ([b"one"], ["WARNING:dirwolleu:a read is refused, and asked again: the server answers -99: /a"]))


    def test_a_tree_has_what_an_election_left(self) -> None:
        servers = Electing()
        tree = self.client(self.raw_server(servers.serve).host, 30.0).tree("/a")
        self.assertEqual(tree.wait(WAIT)["/a"].data, b"new")
        servers.leave(2 * EPOCH + 1, b"old")
        within(lambda: tree.latest is not None and tree.latest["/a"].data == b"old")
        self.assertEqual(servers.reads, 4)  # of the data and of the names, twice


class AioFollowTest(AioCase, FollowRules): ...


def load_tests(loader: unittest.TestLoader, *_: Any) -> unittest.TestSuite:
    """The rules are no test by themselves."""
    return unittest.TestSuite(loader.loadTestsFromTestCase(one) for one in (FollowTest, AioFollowTest))
