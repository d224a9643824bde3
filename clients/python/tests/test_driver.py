"""Tests of how a client dials: hostile and slow servers, a process that is held up."""

from __future__ import annotations

import asyncio
import contextlib
import errno
import fcntl
import functools
import pathlib
import signal
import struct
import subprocess
import sys
import termios
import threading
import time
from typing import Any, Callable
from unittest import mock

from support import PASSWORD, PING, TIMEOUT, WAIT, Asked, Connected, PartnerCase, Peer, data_reply, framed, notice, reply, within

from dirwolleu import Client, ConnectionClosedError, ConnectionLoss, NotConnectedError, State, aio
from dirwolleu._driver import Driver
from dirwolleu._engine import Engine
from dirwolleu._hosts import Servers
from dirwolleu._sockets import Link

HELD_UP = pathlib.Path(__file__).resolve().parent / "held_up.py"


def closes(peer: Peer) -> None: ...


def admits(peer: Peer) -> None:
    peer.admit()


def grants_a_millisecond(peer: Peer) -> None:
    peer.admit(1)
    peer.take()


def answers_and_closes(peer: Peer) -> None:
    peer.admit()
    peer.send(data_reply(peer.take(), b"one"))


def says_too_much(peer: Peer) -> None:
    peer.admit()
    peer.take()
    peer.send_bytes(struct.pack(">i", 5_000_000))


def says_that_it_moved(peer: Peer) -> None:
    peer.admit()
    peer.send(reply(peer.take(), code=-118))
    peer.take()


def expires(peer: Peer) -> None:
    if peer.take_connect().session == 0:
        peer.send(struct.pack(">iiq", 0, 1000, 7) + PASSWORD + b"\0")
    else:
        peer.refuse()


def unread(client: aio.Client) -> int:
    """How many bytes the socket of a client has. Bytes that were sent come later if the system is busy."""
    driver: Any = client._driver
    connection = driver._link._transport.get_extra_info("socket")
    (count,) = struct.unpack("i", fcntl.ioctl(connection, termios.FIONREAD, bytes(4)))
    return int(count)


def before_it_tells(client: aio.Client, function: Callable[[], None]) -> None:
    """Calls a function once, in the turn of the loop in which its driver gives the moment, after that has read."""
    driver: Any = client._driver

    def late(*words: int) -> None:
        del driver._tick
        function()
        driver._tick(*words)

    driver._tick = late


class DialTest(PartnerCase):
    is_long = True

    def client(self, host: str, timeout: float, is_awaited: bool = True) -> Client:
        client = Client(host, timeout)
        self.addCleanup(client.close)
        if is_awaited:
            client.start(WAIT)
        else:
            threading.Thread(target=self.start, args=(client,), daemon=True).start()
        return client

    def start(self, client: Client) -> None:
        with contextlib.suppress(ConnectionClosedError, TimeoutError):
            client.start(WAIT)

    def test_a_server_that_comes_back_in_time_is_met_in_time(self) -> None:
        """How soon, `AwayTest` says."""
        partner = self.partner()
        client = self.client(partner.host, TIMEOUT)
        states: list[State] = []
        client.add_listener(states.append)
        partner.do("down")
        time.sleep(3.0)
        partner.do("up")
        within(lambda: client.connected)
        within(lambda: states == [State.SUSPENDED, State.CONNECTED])

    def test_no_server_is_dialled_more_than_three_times_a_second(self) -> None:
        kinds: list[Callable[[Peer], None]] = [
            closes, admits, grants_a_millisecond, answers_and_closes, says_too_much, says_that_it_moved, expires
        ]  # fmt: skip
        servers = [self.raw_server(kind) for kind in kinds]
        began = time.monotonic()
        for server in servers:
            client = self.client(server.host, 1.0, is_awaited=False)
            threading.Thread(target=self.follow, args=(client,), daemon=True).start()
        for kind, server in zip(kinds, servers):
            with self.subTest(kind.__name__):
                dials = within(lambda: server.dials[3:] and list(server.dials))
                self.assertGreater((dials[-1] - began) / (len(dials) - 1), 0.3)

    def follow(self, client: Client) -> None:
        within(lambda: client._engine.is_running)
        for _ in client.follow("/a"):
            pass

    def test_a_timeout_of_a_millisecond_does_not_lock_the_client_out(self) -> None:
        granted = iter((1, 1))

        def serve(peer: Peer) -> None:
            for asked in peer.requests(next(granted, None)):
                peer.send(reply(asked))

        client = self.client(self.raw_server(serve).host, 3.0, is_awaited=False)
        within(lambda: client.connected and client.session_timeout == 3.0)

    def test_the_last_zxid_is_kept_through_an_expiry(self) -> None:
        seen: list[Connected] = []

        def serve(peer: Peer) -> None:
            if len(seen) == 1:
                seen.append(peer.take_connect())
                return peer.refuse()
            seen.append(peer.admit())
            peer.send(data_reply(peer.take(), b"one", zxid=9))

        client = self.client(self.raw_server(serve).host, 60.0)  # so that no busy machine makes the client give an attempt up
        client.get("/a")
        within(lambda: len(seen) >= 3)
        self.assertEqual([(one.last_zxid, one.session) for one in seen[:3]], [(0, 0), (9, 7), (9, 0)])

    def is_left_while_connecting(self, does: Callable[[Peer], None]) -> None:
        """A server that does this to a connection, and admits no session, is left after two thirds of the timeout."""

        def serve(peer: Peer) -> None:
            peer.take_connect()
            does(peer)

        server = self.raw_server(serve)
        began = time.monotonic()
        self.client(server.host, 3.0, is_awaited=False)
        within(lambda: len(server.dials) > 1)
        self.assertGreater(server.dials[1] - began, 1.999)

    def test_a_server_that_says_nothing_is_left(self) -> None:
        self.is_left_while_connecting(lambda peer: time.sleep(9 * WAIT))

    def test_a_server_that_trickles_while_connecting_is_left(self) -> None:
        self.is_left_while_connecting(lambda peer: peer.trickle(struct.pack(">i", 1000) + bytes(996), 0.2))

    def test_a_server_that_trickles_an_answer_is_left(self) -> None:
        """When, `AwayTest` says."""

        def serve(peer: Peer) -> None:
            peer.admit()
            while (asked := peer.take()).kind == PING:  # a busy machine asks later than a ping is due
                peer.send(reply(asked))
            peer.trickle(struct.pack(">i", 1000) + bytes(996), 0.2)

        client = self.client(self.raw_server(serve).host, 3.0)
        began = time.monotonic()
        with self.raises(ConnectionLoss, -4):
            client.set("/a", b"x")
        self.assertLess(time.monotonic() - began, WAIT)

    def test_a_server_that_answers_no_ping_is_left(self) -> None:
        def serve(peer: Peer) -> None:
            peer.admit()
            while True:
                peer.send(notice("/elsewhere"))
                time.sleep(0.2)

        server = self.raw_server(serve)
        began = time.monotonic()
        self.client(server.host, 9.0)  # notices that come six seconds late are not enough for it: so a busy machine may be late
        within(lambda: len(server.dials) > 1)
        self.assertGreater(server.dials[1] - began, 8.999)

    def test_a_server_that_sends_no_connection_in_time_is_given_up(self) -> None:
        """An attempt has a third of the timeout, and a second at least. One that succeeds too late is closed."""
        made: list[Link] = []
        with mock.patch.object(Link, "_connect", lambda link, _: made.append(link)):
            client = Client("127.0.0.1:1", 1.0)
            self.addCleanup(client.close)
            threading.Thread(target=self.start, args=(client,), daemon=True).start()
            within(lambda: len(made) >= 2)
            with self.assertRaisesRegex(TimeoutError, "127.0.0.1:1: no connection in time"):
                client.start(0.1)
        self.assertTrue(made[0]._is_over)

    def test_answered_pings_keep_a_connection(self) -> None:
        pings = list[Asked]()

        def serve(peer: Peer) -> None:
            for ping in peer.requests():
                pings.append(ping)
                peer.send(reply(ping))

        server = self.raw_server(serve)
        self.client(server.host, 18.0)  # so that an answer may be six seconds late
        within(lambda: len(pings) >= 2)
        self.assertEqual(({ping.kind for ping in pings}, len(server.dials)), ({PING}, 1))

    def test_a_process_that_was_held_up_reads_what_its_socket_has(self) -> None:
        """A notice comes while it is held up, and it goes on when the server may no longer be silent, after 12 seconds of 18.

        What came may have come as it was stopped: so it may be held up for five seconds more.
        """
        pinged, stopped, told, resumed = threading.Event(), threading.Event(), threading.Event(), threading.Event()
        pings = list[Asked]()

        def serve(peer: Peer) -> None:
            peer.admit()
            peer.send(reply(peer.take()))
            pinged.set()
            stopped.wait(WAIT)
            peer.send(notice("/a"))
            told.set()
            while True:
                asked = peer.take()
                peer.send(reply(asked))
                pings.append(asked)
                resumed.set()

        server = self.raw_server(serve)
        child = subprocess.Popen([sys.executable, str(HELD_UP), server.host, "18"], stdout=subprocess.PIPE, text=True)
        self.addCleanup(child.communicate)
        self.addCleanup(child.kill)
        self.assertTrue(pinged.wait(WAIT))
        time.sleep(5.2)
        child.send_signal(signal.SIGSTOP)
        stopped.set()
        self.assertTrue(told.wait(WAIT))
        time.sleep(7.0)
        child.send_signal(signal.SIGCONT)
        self.assertTrue(resumed.wait(WAIT))
        self.assertEqual((len(server.dials), pings[0].kind), (1, PING))

    def test_a_loop_that_was_held_up_reads_all_that_its_socket_has(self) -> None:
        """The answer comes after more notices than are read at once, and would be too late if it were read later.

        The clock is the test's own: it goes on by 2.4 seconds, while the loop is held up for longer than its timer takes: at any time, or
        right before it gives the moment.
        """
        for is_before_it_tells in (False, True):
            with self.subTest(is_before_it_tells=is_before_it_tells):
                self.read_through_a_loop_that_is_held_up(is_before_it_tells)

    def read_through_a_loop_that_is_held_up(self, is_before_it_tells: bool) -> None:
        is_held_up, is_asked, sent = threading.Event(), threading.Event(), list[int]()
        clock = [1_000_000]

        def serve(peer: Peer) -> None:
            peer.admit()
            asked = peer.take()
            is_asked.set()
            is_held_up.wait(WAIT)
            frames = [*[notice("/elsewhere")] * 200, data_reply(asked, b"one")]
            peer.send(*frames)
            sent.append(sum(4 + len(frame) for frame in frames))
            time.sleep(9 * WAIT)

        def hold_up(client: aio.Client) -> None:
            is_held_up.set()
            time.sleep(0.5)
            clock[0] += 2400
            within(lambda: sent == [unread(client)])

        async def run() -> None:
            async with aio.Client(server.host, 3.0) as client:
                read = client.get_async("/a")
                while not is_asked.is_set():
                    await asyncio.sleep(0.01)
                connections = client.stats().connections  # a busy system may have taken too long for the first dial
                if is_before_it_tells:
                    before_it_tells(client, functools.partial(hold_up, client))
                else:
                    hold_up(client)
                self.assertEqual((await asyncio.wait_for(read, WAIT))[0], b"one")
                self.assertEqual(client.stats().connections, connections)

        server = self.raw_server(serve)
        with contextlib.ExitStack() as patches:
            patches.enter_context(mock.patch("dirwolleu._rooms.ROOM", 1024))
            for module in ("_driver", "aio"):
                patches.enter_context(mock.patch(f"dirwolleu.{module}.moment", lambda: clock[0]))
            asyncio.run(run())

    def test_a_long_answer_comes_in_pieces(self) -> None:
        """Notices and another answer are in the same pieces."""
        data = bytes(range(250)) * 400

        def serve(peer: Peer) -> None:
            peer.admit()
            answers = framed(notice("/a"), data_reply(peer.take(), data), notice("/b"), data_reply(peer.take(), data[1:]), notice("/c"))
            for begin in range(0, len(answers), 12_000):
                peer.send_bytes(answers[begin : begin + 12_000])
                time.sleep(0.005)
            time.sleep(9 * WAIT)

        async def read() -> None:
            async with aio.Client(server.host, 60.0) as client:
                found = await asyncio.wait_for(asyncio.gather(*[client.get_async("/a") for _ in range(2)]), WAIT)
                self.assertEqual([answer[0] for answer in found], [data, data[1:]])

        server = self.raw_server(serve)
        client = self.client(server.host, 60.0)
        answers = [client.get_async("/a") for _ in range(2)]
        self.assertEqual([answer.result(WAIT)[0] for answer in answers], [data, data[1:]])
        asyncio.run(read())

    def test_how_a_connection_has_ended_is_told(self) -> None:
        """Between two calls, or when the frame of a call meets its end."""

        def finishes(peer: Peer) -> None:
            answers_and_closes(peer)
            peer.finish()  # if a ping is not read, a close resets the connection

        def resets(peer: Peer) -> None:
            answers_and_closes(peer)
            peer.reset()

        for serve, words in ((finishes, "the server has closed it"), (resets, "reset by peer|[Bb]roken pipe")):
            with self.subTest(serve.__name__), self.assertLogs("dirwolleu.connection", "WARNING") as told:
                server = self.raw_server(serve)
                client = self.client(server.host, TIMEOUT)
                for _ in range(3):
                    self.assertEqual(client.get("/a")[0], b"one")
                within(lambda: len(told.output) >= 2)
                client.close()
                self.assertRegex(told.output[0], words)

    def test_a_call_may_come_before_the_loop_has_begun(self) -> None:
        engine = Engine(3.0, None, lambda function, argument: None)
        self.addCleanup(engine.close)
        Driver(Servers("127.0.0.1:1"), engine).act()

    def test_want_of_descriptors_is_told_as_that(self) -> None:
        want = OSError(errno.EMFILE, "Too many open files")
        with mock.patch.object(Link, "_connect", side_effect=want):
            client = Client("127.0.0.1:1", 1.0)
            self.addCleanup(client.close)
            with self.assertLogs("dirwolleu", "WARNING"):
                self.start_fails(client, "too many open files")
            threading.Thread(target=self.start, args=(client,), daemon=True).start()
            within(lambda: client._engine.is_running)
            with self.assertRaisesRegex(NotConnectedError, "too many open files"):
                client.get("/a")

    def test_want_of_descriptors_for_the_client_itself_is_raised_by_start(self) -> None:
        with mock.patch("dirwolleu._poll.Bell", side_effect=OSError(errno.EMFILE, "Too many open files")):
            client = Client("127.0.0.1:1", 1.0)
            self.addCleanup(client.close)
            with self.assertRaisesRegex(OSError, "Too many open files"):
                client.start()
        self.assertIs(client.state, State.LOST)
