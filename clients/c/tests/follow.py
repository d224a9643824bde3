"""Tests of the example `follow`, over the server in memory and one that does what a test says; and of a program of session.h, for its errors."""

import signal
import struct
import subprocess
import threading
import time

from partner import GET_DATA, PING
from programs import BOUND, DATA, NOBODY, SLACK, Case, program

PROGRAM, ASKS, CLOSE_S = program("follow"), program("tests/asks"), 1.0


class Followed(Case):
    """A test with the program that follows a node."""

    def follow(self, servers, path="/config"):
        self.last_zxid = 0
        self.followed = self.saying(PROGRAM, servers, path)

    def begin(self, *options):
        """A server with a node, and the program that follows it."""
        partner = self.partner(*options)
        partner.do("create /config first")
        self.follow(partner.host)
        self.expect('good "first"')
        return partner

    def begin_and_change(self, *commands):
        """The same, and the node is changed while this is done."""
        partner = self.begin()
        partner.do(*commands)
        self.expect('stale "first"', 'good "second"')
        return partner

    def expect(self, *wanted):
        """The next lines are of these marks and data, and zxids do not go back."""
        for one in wanted:
            path, mark, zxid, *data = self.followed.line().split(" ", 3)
            self.assertEqual([path, " ".join([mark, *data])], ["/config", one])
            self.assertGreaterEqual(int(zxid), self.last_zxid)
            self.last_zxid = int(zxid)

    def expect_end(self, number, is_closed):
        """The program ends well at this signal, and says whether the server has closed the session, for whose word it waits a second."""
        begun = time.monotonic()
        self.followed.process.send_signal(number)
        self.assertEqual(self.followed.process.wait(BOUND), 0)
        is_late = time.monotonic() - begun >= CLOSE_S
        self.assertTrue(("the session is closed" in self.said()) == is_closed or is_closed and is_late)

    def server(self, serve):
        server = super().server(serve)
        self.follow(server.host)
        return server


class Follow(Followed):
    def test_changes(self):
        partner = self.begin_and_change("set /config second")
        partner.do("delete /config")
        self.expect('stale "second"', "good absent")
        partner.do("create /config a \"quoted\" word")
        self.expect("stale absent", 'good "a \\x22quoted\\x22 word"')
        self.expect_end(signal.SIGTERM, True)

    def test_lost_connection(self):
        self.begin_and_change("drop", "set /config second")
        self.expect_end(signal.SIGINT, True)

    def test_server_that_comes_back(self):
        self.begin_and_change("down", "set /config second", "up")

    def test_expired_session(self):
        partner = self.begin()
        partner.do("expire")
        self.expect("unknown", 'good "first"')
        partner.do("set /config second")
        self.expect('stale "first"', 'good "second"')

    def test_session_that_may_live(self):
        """While the session may live, the program dials again within a second."""

        def serve(number, line):
            if number == 0:
                line.admit(10_000)
                xid, _ = line.request()
                line.answer(xid, 0, DATA)

        dials = self.server(serve).wait_for_dials(9)
        self.assertEqual(len(dials), 9)
        self.assertLess(max(after - before for before, after in zip(dials, dials[1:])), 1 + SLACK)

    def test_admission_is_no_success(self):
        """A server that admits the session and goes is dialled three times a second at most."""
        begun = time.monotonic()
        dials = self.server(lambda number, line: line.admit(10_000)).wait_for_dials(7)
        self.assertEqual(len(dials), 7)
        self.assertGreater(dials[6] - begun, 2)

    def test_stopped_program(self):
        """A program that is stopped for more than two thirds of the timeout since it heard the server reads its socket first. Then it has as long for
        what it asks.
        """
        shown = threading.Event()

        def serve(_, line):
            line.admit(9_000)
            xid, _ = line.request()
            line.answer(xid, 0, DATA)
            line.serve_until(shown, {PING: line.answer})
            self.followed.process.send_signal(signal.SIGSTOP)
            line.serve_what_came({PING: line.answer})  # a ping without an answer would end the connection
            line.answer(-1, 0, struct.pack(">iii", 3, 3, 7) + b"/config")
            time.sleep(6.4)
            self.followed.process.send_signal(signal.SIGCONT)
            line.serve({GET_DATA: lambda xid: line.answer(xid, 0, DATA), PING: line.answer})

        server = self.server(serve)
        self.expect('good "one"')
        shown.set()
        self.expect('stale "one"', 'good "one"')
        self.assertEqual(len(server.dials), 1)

    def test_refused_reads(self):
        """The program goes on at each code, and reads once a second at most on a connection. It says each reason once."""
        codes, reads, answers = [-127, -4, -102, -102], [], []

        def read(line, xid):
            reads.append(time.monotonic())
            code = codes.pop() if codes else 0
            answers.append(time.monotonic())
            line.answer(xid, code, b"" if code else DATA)

        def serve(_, line):
            line.admit(10_000)
            line.serve({GET_DATA: lambda xid: read(line, xid), PING: line.answer})

        self.server(serve)
        self.expect('good "one"')
        self.assertGreater(min(after - before for before, after in zip(answers, reads[1:])), 0.95)
        self.assertEqual(self.said().count("does not admit this client: /config\n"), 1)

    def test_lost_session(self):
        """Where a server says that the session is not its own, another connection is made at once."""
        codes = [-118, -112]

        def read(line, xid):
            code = codes.pop() if codes else 0
            line.answer(xid, code, b"" if code else DATA)

        def serve(_, line):
            line.admit(10_000)
            line.serve({GET_DATA: lambda xid: read(line, xid), PING: line.answer})

        server = self.server(serve)
        self.expect('good "one"')
        self.assertEqual(len(server.dials), 3)
        self.assertLess(server.dials[2] - server.dials[0], 1 + SLACK)

    def test_server_that_dribbles(self):
        """A read and a ping that are not answered end the connection, whatever else comes."""

        def serve(number, line):
            line.admit(1_500)
            xid, _ = line.request()
            if number == 1:
                line.answer(xid, 0, DATA)
            line.dribble(struct.pack(">iiqiiii", 30, -1, -1, 0, 3, 3, 2) + b"/a")

        dials = self.server(serve).wait_for_dials(3)
        self.assertEqual(len(dials), 3)
        self.assertLess(dials[1] - dials[0], 1 + 0.4 + SLACK)
        self.assertLess(dials[2] - dials[1], 1.5 + 0.4 + SLACK)

    def test_server_that_dribbles_while_it_connects(self):
        """The admission of the session is waited for as long as two thirds of the timeout."""

        def serve(number, line):
            if number == 0:
                line.send_bytes(struct.pack(">i", 1 << 20))
                line.dribble(b"0")

        dials = self.server(serve).wait_for_dials(2)
        self.assertEqual(len(dials), 2)
        self.assertLess(dials[1] - dials[0], 6.7 + 0.2 + SLACK)

    def test_next_address(self):
        partner = self.partner()
        self.follow(f"{NOBODY},[::1]:1,{partner.host}")
        self.expect("good absent")

    def test_pieces(self):
        partner = self.begin("--piece", "1")
        partner.do("set /config second")
        self.expect('stale "first"', 'good "second"')

    def test_long_data(self):
        partner = self.begin()
        partner.do("set /config " + 200_000 * "x")
        self.expect('stale "first"', f'good "{200_000 * "x"}"')

    def test_hostile_server(self):
        partner = self.partner("--hostile", "7")
        self.follow(partner.host)
        self.wait_for_words(partner.host)
        with self.assertRaises(subprocess.TimeoutExpired):
            self.followed.process.wait(3)
        self.followed.process.send_signal(signal.SIGTERM)
        self.assertEqual(self.followed.process.wait(BOUND), 0)

    def test_no_server(self):
        self.follow(NOBODY)
        self.wait_for_words("connection refused\n")
        with self.assertRaises(subprocess.TimeoutExpired):
            self.followed.process.wait(1)
        self.expect_end(signal.SIGTERM, False)

    def test_mute_server(self):
        partner = self.begin()
        partner.do("mute")
        self.expect_end(signal.SIGTERM, False)

    def test_output_that_fails(self):
        partner = self.partner()
        with open("/dev/full", "w", encoding="ascii") as full:
            done = subprocess.run([PROGRAM, partner.host, "/config"], stdout=full, stderr=subprocess.PIPE, timeout=BOUND, check=False)
        self.assertEqual(done.returncode, 1)

    def test_words_that_are_refused(self):
        for status, *words in ((2,), (2, "127.0.0.1:", "/"), (2, "a:1,,b:2", "/"), (1, "127.0.0.1:1", "config")):
            done = subprocess.run([PROGRAM, *words], capture_output=True, timeout=BOUND, check=False)
            self.assertEqual((done.returncode, done.stdout), (status, b""), words)

    def test_words_of_a_path_that_is_none(self):
        done = subprocess.run([PROGRAM, "127.0.0.1:1", "/a//b"], capture_output=True, text=True, timeout=BOUND, check=False)
        self.assertEqual(done.stderr, "follow: /a//b is no path: an empty name\n")


class Asks(Case):
    """What session.h says of a call that fails."""

    def says(self, *words):
        done = subprocess.run([ASKS, *words], capture_output=True, text=True, timeout=BOUND, check=False)
        self.assertEqual(done.returncode, 1)
        return done.stderr.removeprefix("session: ").removesuffix("\n")

    def test_refusals(self):
        partner = self.partner()
        partner.do("create /a one")
        address = partner.host
        self.assertEqual(self.says(address, "/nope"), "no node: /nope")
        self.assertEqual(self.says(address, "/x/y", "one"), "no node: /x")
        self.assertEqual(self.says(address, "/a", "two"), "there is a node already: /a")
        for path, why in (
            ("", '"" is no path: it is empty'),
            ("a", "a is no path: no slash at its beginning"),
            ("/a//b", "/a//b is no path: an empty name"),
            ("/a/", "/a/ is no path: an empty name"),
            ("/a/../b", "/a/../b is no path: a name that is . or .."),
            ("/a\x7f", "/a\\x7f is no path: a character that paths do not have"),
            ("/a\nforged", "/a\\x0aforged is no path: a character that paths do not have"),
            ("/\udcff", "the path is no UTF-8: /\\xff"),
            ("/\N{LATIN SMALL LETTER A WITH DIAERESIS}\ue000", "/\N{LATIN SMALL LETTER A WITH DIAERESIS}\ue000 is no path"),
        ):
            self.assertEqual(self.says(address, path), why)

    def test_no_server(self):
        asking = subprocess.Popen([ASKS, NOBODY, "/a"], stderr=subprocess.PIPE, text=True)
        self.addCleanup(asking.stderr.close)
        self.addCleanup(asking.wait, BOUND)
        self.addCleanup(asking.kill)
        wanted = f"session: no server of {NOBODY} accepted the session in 9 s; last: {NOBODY}: connection refused\n"
        self.assertEqual(asking.stderr.readline(), wanted)
