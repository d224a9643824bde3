"""A client at the server in memory within the test, which is proved to be one of the model.

Bytes come by single ones, and changes when the test says.
"""

from __future__ import annotations

import queue
from typing import Any

from support import WAIT, PartnerCase, Peer, framed

from dirwolleu import Client
from dirwolleu.testing import _library as library



class BenchTest(PartnerCase):
    def setUp(self) -> None:
        self.changes = list[tuple[int, bytes]]()
        """The changes of /a after each request: the number of the request, and the data."""

    def serve(self, peer: Peer) -> None:
        """Serves a connection by a server in memory. After a request the change with its number comes, if there is one."""
        bench = library.Bench(77)
        self.assertEqual(bench.change(1, library.MADE, "/a", b"one"), 0)
        bench.take(1)
        bench.connect(1)
        changes = dict(self.changes)
        for number in range(1000):
            payload = peer.take_payload()
            bench.hear(framed(payload))
            self.assertTrue(bench.process(1))
            if number in changes:
                self.assertEqual(bench.change(2, library.WRITTEN, "/a", changes[number]), 0)
                bench.take(1)
            for byte in bench.say():
                peer.send_bytes(bytes([byte]))

    def test_a_node_is_followed(self) -> None:
        told: queue.Queue[Any] = queue.Queue()
        self.changes = [(1, b"two")]
        client = Client(self.raw_server(self.serve).host, 60.0)
        self.addCleanup(client.close)
        client.start(WAIT)
        self.assertEqual(client.get("/a", watch=told.put)[0], b"one")
        told.get(timeout=WAIT)
        self.assertEqual(client.get("/a")[0], b"two")
        self.assertEqual(client.session_id, 77)

    def test_what_is_refused_says_why(self) -> None:
        bench = library.Bench(77)
        self.assertEqual(bench.change(1, library.MADE, "/a"), 0)
        self.assertEqual(bench.change(1, library.MADE, "/a"), library.NODE_EXISTS)
        self.assertEqual(bench.change(1, library.WRITTEN, "/b"), library.NO_NODE)
        self.assertEqual(bench.change(1, library.DELETED, "/"), library.BAD_ARGUMENTS)
        self.assertEqual(bench.change(1, library.MADE, "b"), library.NOT_PATH)
        with self.assertRaises(library.BenchError):
            bench.connect(9)
        other = library.Bench(78)
        self.assertEqual((other.learn(bench), other.learn(bench), other.zxid()), (True, False, 1))
