"""Tests of the limits of frames, of both clients, at a server that spells frames of each length as zookeeper.jute has them."""

from __future__ import annotations

import contextlib
import unittest
from typing import Any, Callable

from both import AioCase, BothCase
from support import CLOSE_SESSION, GET_DATA, PING, STAT, WAIT, Asked, Peer, RawServer, data_reply, reply, within

from dirwolleu import TooLargeError
from dirwolleu.testing import Server

CREATE2 = 15
RAISED, HIGHEST = 5_000_000, 1_073_741_823
OF_ANSWER, OF_SET, OF_CREATE2 = 16 + 4 + len(STAT), 8 + 6 + 4 + 4, 8 + 6 + 4 + 27 + 4
"""How many bytes the payload of a frame has besides the data: of the answer to a get, and of a set and a create2 of /a."""
REFUSED = f"a limit of payloads is below that of every session, or above {HIGHEST} bytes"
TOO_LARGE = "the request or its answer is longer than the session allows: /a; send or read less, or raise longest_request or longest_answer"

Named = dict[str, Any]


class LimitRules(BothCase):
    """One client for threads, and the same of asyncio below."""

    def ends(self, peer: Peer) -> None:
        """Admits a session, and ends the connection."""
        peer.admit()

    def refuses(self, peer: Peer) -> None:
        """Says that the session has expired."""
        peer.take_connect()
        peer.refuse()
        peer.finish()

    def answers(self, size: int, asked: list[Asked]) -> Callable[[Peer], None]:
        """Admits a session, answers a get by a frame of this size, and changes of /a by a Stat."""

        def serve(peer: Peer) -> None:
            for one in peer.requests():
                if one.kind in (PING, CLOSE_SESSION):
                    peer.send(reply(one))
                elif one.kind == GET_DATA:
                    peer.send(data_reply(one, bytes(size - OF_ANSWER)))
                else:
                    asked.append(one)
                    peer.send(reply(one, (one.body[:6] if one.kind == CREATE2 else b"") + STAT))

        return serve

    def serve(self, *serves: Callable[[Peer], None]) -> RawServer:
        """A server whose connections are served so, one after the other, and all later ones as the last."""
        rest = list(serves)
        return self.raw_server(lambda peer: (rest.pop(0) if len(rest) > 1 else rest[0])(peer))

    def test_an_answer_is_as_long_as_it_may_be(self) -> None:
        """A longer one ends the connection, and the read fails by that. The next one is asked over the next connection."""
        raised: Named = {"longest_answer": RAISED}
        rows: list[tuple[Named, int, int]] = [
            (raised, RAISED, RAISED), (raised, RAISED + 1, 100), ({}, 4_194_304, 4_194_304), ({}, 4_194_305, 100),
        ]  # fmt: skip
        for named, size, taken in rows:
            with self.subTest(named=named, size=size):
                server = self.serve(self.answers(size, []), self.answers(100, []))
                client = self.client(server.host, **named)
                if taken < size:
                    with self.assertRaises(TooLargeError):
                        client.get("/a")
                self.assertEqual(len(client.get("/a", timeout=WAIT)[0]), taken - OF_ANSWER)
                self.assertEqual(len(server.dials), 1 if taken == size else 2)

    def test_a_request_is_as_long_as_it_may_be(self) -> None:
        rows: list[tuple[Named, int]] = [({"longest_request": RAISED}, RAISED), ({}, 1_048_575)]
        for named, longest in rows:
            asked = list[Asked]()
            client = self.client(self.serve(self.answers(100, asked)).host, **named)
            for call, others in ((client.set, OF_SET), (client.create2, OF_CREATE2)):
                call("/a", bytes(longest - others))
                self.assertEqual(8 + len(asked[-1].body), longest)
                with self.assertRaises(TooLargeError) as caught:
                    call("/a", bytes(longest - others + 1))
                self.assertEqual(str(caught.exception), TOO_LARGE)
            self.assertEqual(len(asked), 2)

    def test_limits_stand_in_a_session_that_begins_after_another(self) -> None:
        """After an expiry, and after the client is started again."""
        asked = list[Asked]()
        server = self.serve(self.ends, self.refuses, self.answers(RAISED, asked))
        client = self.client(server.host, longest_answer=RAISED, longest_request=RAISED)
        within(lambda: client.stats().expiries == 1 and client.connected)
        for dials in (3, 4):
            self.assertEqual(len(client.get("/a", timeout=WAIT)[0]), RAISED - OF_ANSWER)
            client.set("/a", bytes(RAISED - OF_SET), timeout=WAIT)
            self.assertEqual((len(server.dials), 8 + len(asked[-1].body)), (dials, RAISED))
            client.stop()
            client.start(WAIT)

    def test_a_node_of_three_megabytes(self) -> None:
        """The server in memory takes longer frames than others do by default."""
        stack = contextlib.ExitStack()
        self.addCleanup(stack.close)
        client = self.client(stack.enter_context(Server()).hosts, longest_request=4_194_304)
        client.create("/long", bytes(3_000_000), timeout=WAIT)
        self.assertEqual(client.get("/long", timeout=WAIT)[0], bytes(3_000_000))

    def test_limits_that_no_session_may_have_are_refused(self) -> None:
        rows: list[tuple[Named, type[Exception], str]] = [
            *(({name: limit}, ValueError, REFUSED) for name in ("longest_answer", "longest_request") for limit in (-1, 0, 1000, HIGHEST + 1)),
            ({"longest_answer": 4_194_303}, ValueError, REFUSED),
            ({"longest_request": 1_048_574}, ValueError, REFUSED),
            ({"longest_answer": 2**64 + 4_194_304}, ValueError, f"{2**64 + 4_194_304} does not fit into 64 bits"),
            ({"longest_request": 2e6}, TypeError, "longest_request is an int, and not float"),
        ]
        for named, kind, words in rows:
            with self.subTest(named=named), self.assertRaises(kind) as caught:
                self.made(lambda: self.module().Client("127.0.0.1:1", **named))
            self.assertEqual(str(caught.exception), words)
        for named in ({"longest_answer": 4_194_304, "longest_request": HIGHEST}, {"longest_answer": HIGHEST, "longest_request": 1_048_575}):
            self.made(lambda: self.module().Client("127.0.0.1:1", **named)).close()


class ThreadsTest(LimitRules):
    pass


class AioTest(AioCase, LimitRules):
    pass


def load_tests(loader: unittest.TestLoader, *_: Any) -> unittest.TestSuite:
    """The rules are no test by themselves."""
    return unittest.TestSuite(loader.loadTestsFromTestCase(one) for one in (ThreadsTest, AioTest))
