"""Tests of the examples `follow` and `asks` with servers that are behind, silent or away, and of the moment of a ping."""

import socket
import struct
import threading
import time

from follow import ASKS, Followed
from partner import GET_DATA, PING, STAT, buffer
from programs import BOUND, DATA, SLACK, Case

CHANGED = struct.pack(">iqi", -1, -1, 0) + struct.pack(">iii", 3, 3, 7) + b"/config"


def reply(xid, zxid, text):
    """The reply to a getData that is of this zxid."""
    return struct.pack(">iqi", xid, zxid, 0) + buffer(text) + STAT


class Servers(Followed):
    """Tests of servers, by the program that follows a node."""

    def test_server_that_is_behind(self):
        """An answer that is older than what was seen is not shown: the connection is given up, and another server is dialled."""
        seen, shown = [], threading.Semaphore(0)

        def serve(number, line):
            seen.append(line.admit(10_000).last_zxid)
            xid, _ = line.request()
            line.send(reply(xid, (9, 12)[number], (b"one", b"two")[number]))
            shown.acquire(timeout=BOUND)
            line.send(CHANGED)
            xid, _ = line.request()
            line.send(reply(xid, 8 if number == 0 else 13, b"old" if number == 0 else b"new"))
            line.serve({PING: line.answer})

        self.server(serve)
        self.expect('good "one"')
        shown.release()
        self.expect('stale "one"', 'good "two"')
        shown.release()
        self.expect('stale "two"', 'good "new"')
        self.assertEqual(seen, [0, 9])
        self.assertIn("zxid 9 was seen, and a reply to a watched read has zxid 8\n", self.said())

    def test_server_that_admits_nobody_who_is_ahead(self):
        """So real servers do that are behind: they close the connection. The program tells each server what it has seen."""
        seen = []

        def serve(number, line):
            if 0 < number < 4:
                seen.append(struct.unpack(">q", line.take_payload()[4:12])[0])
                return
            seen.append(line.admit(10_000).last_zxid)
            if number == 0:
                xid, _ = line.request()
                line.send(reply(xid, 9, b"one"))
            else:
                line.serve({GET_DATA: lambda xid: line.answer(xid, 0, DATA), PING: line.answer, 101: lambda xid: line.answer(xid)})

        server = self.server(serve)
        self.expect('good "one"')
        self.assertEqual(len(server.wait_for_dials(5)), 5)
        self.assertEqual(seen[:4], [0, 9, 9, 9])

    def test_server_that_never_answers(self):
        """A connection that nothing comes over is given up after two thirds of the timeout, which is 10 seconds."""
        begun = time.monotonic()
        self.server(lambda number, line: (line.take_payload(), time.sleep(BOUND)))
        self.addCleanup(self.followed.end)
        self.wait_for_words("nothing was heard for two thirds of the timeout\n")
        self.assertNotIn("an answer does not come", self.said())
        self.assertGreater(time.monotonic() - begun, 6.66)
        self.assertLess(time.monotonic() - begun, 6.7 + SLACK)

    def test_server_beside_one_that_never_answers(self):
        mute = self.server(lambda number, line: (line.take_payload(), time.sleep(BOUND)))
        self.followed.end()
        partner = self.partner()
        self.follow(f"{mute.host},{partner.host}")
        self.expect("good absent")

    def test_server_that_takes_no_connection(self):
        """An attempt is given up after a third of the timeout, which is 10 seconds."""
        with socket.socket() as full, socket.socket() as first, socket.socket() as second:
            full.bind(("127.0.0.1", 0))
            full.listen(0)
            for filler in (first, second):
                filler.setblocking(False)
                filler.connect_ex(full.getsockname())
            begun = time.monotonic()
            self.follow(f"127.0.0.1:{full.getsockname()[1]}")
            self.wait_for_words("connection timed out\n")
            self.assertGreater(time.monotonic() - begun, 3.33)
            self.assertLess(time.monotonic() - begun, 3.4 + SLACK)
            self.followed.end()  # before another test may get the port

    def test_server_that_stays_away(self):
        """It is dialled three times a second at most, and the pauses grow; once it is there it is found."""
        partner = self.partner()
        partner.do("down")
        begun = time.monotonic()
        self.follow(partner.host)
        while (attempts := self.said().count("connection refused")) < 6 and time.monotonic() < begun + BOUND:
            time.sleep(0.05)
        self.assertGreaterEqual(attempts, 6)
        self.assertLess(attempts, 3 * (time.monotonic() - begun) + 1)
        partner.do("up")
        self.expect("good absent")

    def test_first_ping(self):
        """It comes within a third of the timeout that the server has granted, and then each third."""
        pings, admitted = [], []

        def note(line, xid):
            pings.append(time.monotonic())
            line.answer(xid)

        def serve(_, line):
            line.admit(12_000)
            admitted.append(time.monotonic())
            line.serve({GET_DATA: lambda xid: line.answer(xid, 0, DATA), PING: lambda xid: note(line, xid)})

        self.server(serve)
        self.expect('good "one"')
        end = time.monotonic() + BOUND
        while len(pings) < 2 and time.monotonic() < end:
            time.sleep(0.02)
        moments = [admitted[0], *pings[:2]]  # a busy machine looks later
        self.assertEqual((len(moments), len(admitted)), (3, 1))
        for before, after in zip(moments, moments[1:]):
            self.assertLess(after - before, 4 + SLACK)


class Late(Case):
    """What a call says whose limit has come, of 9 seconds."""

    def says(self, serve, *words):
        server = self.server(serve)
        asked = self.run_of(ASKS, server.host, *words, stderr=-1)
        return server, asked.process.stderr.readline().removeprefix("session: ").removesuffix("\n")

    def test_server_that_never_answers(self):
        server, said = self.says(lambda number, line: (line.take_payload(), time.sleep(BOUND)), "/a")
        last = "connected, and it has not accepted the session"
        self.assertEqual(said, f"no server of {server.host} accepted the session in 9 s; last: {server.host}: {last}")

    def test_read_that_is_lost(self):
        """It is asked again on each connection, as long as the call waits."""
        xids = []

        def serve(number, line):
            line.admit(30_000)
            xids.append(line.request()[0])
            if number == 3:
                line.answer(xids[-1], -101)
                line.serve({PING: line.answer})

        _, said = self.says(serve, "/a")
        self.assertEqual(said, "no node: /a")
        self.assertEqual(len(xids), 4)

    def test_write_that_is_lost(self):
        """It is asked once."""
        kinds = []

        def serve(number, line):
            line.admit(30_000)
            kinds.append(line.request()[1])

        _, said = self.says(serve, "/a", "one")
        self.assertEqual(said, "the connection ended before the reply: /a; it may or may not have happened: read again")
        self.assertEqual(kinds[:1], [1])

    def test_answer_that_does_not_come(self):
        """The server grants a longer timeout than that for which the call waits."""

        def serve(_, line):
            line.admit(30_000)
            line.request()
            threading.Event().wait(BOUND)

        _, said = self.says(serve, "/a", "one")
        self.assertEqual(said, "no answer came in 9 s: /a; it may have happened, or may yet: read again")
