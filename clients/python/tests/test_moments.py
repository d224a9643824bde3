"""Tests of the moments of a client: when it pings, when it leaves a server, and when it dials the next one. No time passes in them."""

from __future__ import annotations

import asyncio
from typing import Any, Optional

from unittest import mock

from support import EXISTS, GET_DATA, PING, STAT, WAIT, Asked, data_reply, framed, notice, reply, within
from untimed import Server, UntimedCase, blocking_clients_in

from dirwolleu import CallTimeoutError, Client, ConnectionLoss, Mark, NotConnectedError, State

HOUR = 3600.0
WITHIN = 0.01
"""Moments are milliseconds, and timers do what is due: it may be this much later, in seconds."""


def answers(asked: Asked) -> Optional[bytes]:
    return data_reply(asked, b"one") if asked.kind == GET_DATA else reply(asked, STAT if asked.kind == EXISTS else b"")


def says_nothing(_: Asked) -> None:
    return None


class PingTest(UntimedCase):
    def check(self, found: float, wanted: float) -> None:
        self.assertGreaterEqual(found, wanted - WITHIN)
        self.assertLessEqual(found, wanted + WITHIN)

    def check_an_hour(self, server: Server, began: float) -> None:
        """An hour without a call: the server hears a ping each third of the timeout, which is 30 seconds, on one connection."""
        came = list(server.came)
        self.assertEqual((len(self.loop.dials), {one.asked.kind for one in came}), (1, {PING}))
        moments = [began, *(one.at for one in came)]
        for moment, later in zip(moments, moments[1:]):
            self.check(later - moment, 10.0)
        self.assertGreaterEqual(len(came), 359)

    def test_an_idle_session_is_kept_up(self) -> None:
        """The session of the client for threads, whose loop is this one: nothing waits in it, and it is an hour later soon."""
        server, states = Server(self.loop, 1, answers), list[State]()
        client_moment = mock.patch("dirwolleu.client.moment", self.loop.moment)
        with client_moment, blocking_clients_in(self.loop):
            client = Client("127.0.0.1:1", 30.0)
            self.addCleanup(client.close)
            client.add_listener(states.append)
            client.start(6 * WAIT)
            within(lambda: self.loop.time() > self.loop.dials[0][0] + HOUR, 6 * WAIT)
            self.check_an_hour(server, self.loop.dials[0][0])
            self.assertEqual((client.state, states), (State.CONNECTED, [State.CONNECTED]))
            client.stop()

    def test_an_idle_session_is_kept_up_in_asyncio(self) -> None:
        async def run() -> None:
            server, states = Server(self.loop, 1, answers), list[State]()
            async with self.client(1, timeout=30.0) as client:
                client.add_listener(states.append)
                await asyncio.sleep(HOUR)
                self.assertEqual((client.state, states), (State.CONNECTED, []))
                self.check_an_hour(server, self.loop.dials[0][0])

        self.run_in_loop(run())

    def test_the_first_ping_comes_a_third_of_the_timeout_after_the_last_frame(self) -> None:
        """After the frame that asks for the session, and after each call."""
        for calls in ((), (0.5,), (0.5, 1.4)):
            with self.subTest(calls=calls):
                self.setUp()

                async def run(calls: Any = calls) -> None:
                    server = Server(self.loop, 1, answers)
                    async with self.client(1, timeout=3.0) as client:
                        began = self.loop.time()
                        for moment in calls:
                            await asyncio.sleep(began + moment - self.loop.time())
                            await client.exists("/a")
                        await self.until(lambda: server.came[-1:] and server.came[-1].asked.kind == PING, 5.0)
                        self.check(server.came[-1].at - began, (calls[-1] if calls else 0.0) + 1.0)
                        self.assertEqual(len(server.came), len(calls) + 1)

                self.run_in_loop(run())

    def test_a_server_that_grants_another_timeout_is_pinged_by_that(self) -> None:
        async def run() -> None:
            server = Server(self.loop, 1, answers)
            server.granted_ms = 9000
            async with self.client(1, timeout=3.0) as client:
                began = self.loop.time()
                self.assertEqual(client.session_timeout, 9.0)
                await asyncio.sleep(9.5)
                for came, moment in zip(server.came, (3.0, 6.0, 9.0)):
                    self.check(came.at - began, moment)
                self.assertEqual((len(server.came), client.connected), (3, True))
                self.check(client.age(), 0.5)  # the third ping was sent and answered at 9.0

        self.run_in_loop(run())


class AwayTest(UntimedCase):
    """Servers that accept and never answer, and servers that stay away."""

    def check(self, found: float, wanted: float, pause: float = 0.0) -> None:
        """It is this, or less by up to half of the pause, which is random."""
        self.assertGreaterEqual(found, wanted - pause / 2 - WITHIN)
        self.assertLessEqual(found, wanted + WITHIN)

    def test_one_that_accepts_no_session_is_left_at_two_thirds(self) -> None:
        """It takes the connection, and never answers the request for a session. The next one is dialled, again and again."""

        async def run() -> None:
            silent, good = Server(self.loop, 1, answers), Server(self.loop, 2, answers)
            silent.admits = False
            async with self.client(1, 2, timeout=6.0, is_awaited=False) as client:
                connected = await self.until(lambda: client.connected, 10.0)
                self.check(self.loop.dials[1][0] - self.loop.dials[0][0], 4.0)  # two thirds of 6 seconds: a pause counts from when it was dialled
                self.check(connected, self.loop.dials[1][0])
                self.assertEqual((len(silent.connects), len(good.connects), len(self.loop.dials)), (1, 1, 2))

        self.run_in_loop(run())

    def test_no_server_accepts_a_session(self) -> None:
        async def run() -> None:
            Server(self.loop, 1, answers).admits = False
            async with self.client(1, timeout=6.0, is_awaited=False) as client:
                await asyncio.sleep(5.0)
                began = self.loop.time()
                with self.assertRaisesRegex(NotConnectedError, "it has not accepted the session") as caught:
                    await client.get("/a")
                self.check(self.loop.time() - began, 6.0)
                self.assertFalse(caught.exception.may_have_happened)
                self.assertEqual((client.state, client.session_id), (State.LOST, 0))

        self.run_in_loop(run())

    def test_one_that_has_begun_a_long_frame_was_heard_then(self) -> None:
        """It sends no more, and the client waits for the rest until two thirds after that: once if the session got nothing meanwhile, and
        once beside a ping.
        """
        for moment in (0.5, 1.9):
            with self.subTest(moment=moment):
                self.setUp()

                async def run(moment: float = moment) -> None:
                    server, _ = Server(self.loop, 1, says_nothing), Server(self.loop, 2, answers)
                    async with self.client(1, 2, timeout=6.0):
                        await asyncio.sleep(moment)
                        server.write(framed(notice("/" + 8000 * "a"))[:5000])
                        left = await self.until(lambda: len(self.loop.dials) == 2, 10.0)
                        self.check(left - self.loop.dials[0][0], moment + 4.0)

                self.run_in_loop(run())

    def test_one_that_answers_no_call_is_left_at_two_thirds(self) -> None:
        """It accepts the session, and is silent then: the call is lost, and the session goes on at the next one."""

        async def run() -> None:
            Server(self.loop, 1, says_nothing)
            good = Server(self.loop, 2, answers)
            async with self.client(1, 2, timeout=6.0) as client:
                began = self.loop.time()
                with self.assertRaises(ConnectionLoss) as caught:
                    await client.set("/a", b"x")
                self.check(self.loop.time() - began, 4.0)
                self.assertTrue(caught.exception.may_have_happened)
                self.assertEqual(client.state, State.SUSPENDED)
                self.assertEqual((await client.get("/a"))[0], b"one")
                self.check(self.loop.time() - began, 4.0)
                self.assertEqual([connect.session for connect in good.connects], [7])

        self.run_in_loop(run())

    def test_one_that_trickles_an_answer_is_left_at_two_thirds(self) -> None:
        """Byte after byte comes of a frame that has no end in time. So it is with one that trickles while it accepts the session."""

        def trickle(server: Server, data: bytes) -> None:
            server.write(data[:1])
            self.loop.call_later(0.2, trickle, server, data[1:])

        for admits in (True, False):
            with self.subTest(admits=admits):
                self.setUp()

                async def run(admits: bool = admits) -> None:
                    server, _ = Server(self.loop, 1, says_nothing), Server(self.loop, 2, answers)
                    server.admits = admits
                    async with self.client(1, 2, timeout=6.0, is_awaited=admits) as client:
                        await asyncio.sleep(0.1)
                        began = self.loop.time() if admits else self.loop.dials[0][0]
                        self.loop.call_later(0.5, trickle, server, framed(bytes(1000)))
                        if admits:
                            with self.assertRaises(ConnectionLoss):
                                await client.set("/a", b"x")
                            self.check(self.loop.time() - began, 4.0)
                        await client.get("/a")
                        self.check(self.loop.dials[1][0] - began, 4.0)

                self.run_in_loop(run())

    def test_one_that_answers_pings_alone_is_left_at_two_thirds(self) -> None:
        """What it says meanwhile does not matter to the call that waits."""

        async def run() -> None:
            server = Server(self.loop, 1, lambda asked: reply(asked) if asked.kind == PING else None)
            async with self.client(1, timeout=6.0) as client:
                await asyncio.sleep(1.0)
                began = self.loop.time()
                calls = [client.set_async("/a", b"x"), client.set_async("/b", b"x")]
                for call in calls:
                    with self.assertRaises(ConnectionLoss):
                        await call
                self.check(self.loop.time() - began, 4.0)
                pings = [came.at for came in server.came if came.asked.kind == PING and came.at < began + 4.0 - WITHIN]
                self.assertEqual(len(pings), 1)
                self.check(pings[0] - began, 2.0)

        self.run_in_loop(run())

    def test_a_read_that_is_lost_is_asked_again_within_its_limit(self) -> None:
        """The next server is asked, in its place; and if that does not answer either, its limit ends it."""
        for says, limit in ((answers, None), (says_nothing, 5.0)):
            with self.subTest(limit=limit):
                self.setUp()

                async def run(says: Any = says, limit: Any = limit) -> None:
                    Server(self.loop, 1, says_nothing)
                    second = Server(self.loop, 2, says)
                    async with self.client(1, 2, timeout=6.0) as client:
                        began = self.loop.time()
                        reads = [asyncio.ensure_future(client.get(path, timeout=limit)) for path in ("/a", "/b")]
                        if limit is None:
                            self.assertEqual([(await read)[0] for read in reads], [b"one", b"one"])
                            self.check(self.loop.time() - began, 4.0)
                        else:
                            with self.assertRaises(CallTimeoutError) as caught:
                                await reads[0]
                            self.check(self.loop.time() - began, 5.0)
                            self.assertFalse(caught.exception.may_have_happened)
                        asked = [came.asked.body for came in second.came if came.asked.kind == GET_DATA]
                        self.assertEqual([body[4:6] for body in asked], [b"/a", b"/b"])
                        await asyncio.gather(*reads, return_exceptions=True)

                self.run_in_loop(run())

    def test_one_that_stays_away_is_dialled_with_pauses(self) -> None:
        """Each second at the latest, however long it stays away. It comes back, and nothing was lost."""
        for shape in ("refuses", "is away"):
            with self.subTest(shape):
                self.setUp()

                async def run(shape: str = shape) -> None:
                    made, states = await self.a_partner(), list[State]()
                    await made.obey("create /a one")
                    async with self.client(made.port, timeout=12.0) as client:
                        client.add_listener(states.append)
                        await client.get("/a", watch=True)
                        session, began = client.session_id, self.loop.time()
                        await made.obey("down")
                        if shape == "is away":
                            self.loop.away.add(made.port)
                        await self.until(lambda: states, 1.0)
                        with self.assertRaises(NotConnectedError):
                            await client.get("/a")
                        self.check(self.loop.time() - began, 12.0)
                        await asyncio.sleep(began + 120.0 - self.loop.time())
                        self.assertEqual((client.state, client.session_id), (State.SUSPENDED, session))
                        self.assertIs(client.kept("/a").mark, Mark.GOOD)
                        dials = [moment - began for moment, _ in self.loop.dials[1:]]
                        apart = [later - moment for moment, later in zip(dials, dials[1:])]
                        attempt = 4.0 if shape == "is away" else 0.0  # a third of the timeout
                        for pause in apart:
                            self.assertGreaterEqual(pause, 0.334 - WITHIN)
                            self.assertLessEqual(pause, attempt + 1.0 + WITHIN)
                        self.check(apart[-1], attempt + 1.0, 1.0)
                        self.loop.away.clear()
                        await made.obey("up")
                        back = await self.until(lambda: client.connected, 15.0)
                        self.assertLessEqual(back - began, 120.0 + attempt + 1.0 + WITHIN)
                        self.assertEqual((client.session_id, states), (session, [State.SUSPENDED, State.CONNECTED]))
                        self.assertEqual((await client.get("/a"))[0], b"one")

                self.run_in_loop(run())


class BehindTest(UntimedCase):
    """Servers that have seen less than the client has."""

    def test_one_that_closes_is_not_read_and_the_next_one_is(self) -> None:
        """The request for a session says what was seen, and a server that is behind ends the connection."""

        async def run() -> None:
            first, behind, caught_up = await self.a_partner(), await self.a_partner(), await self.a_partner()
            for made in (first, caught_up):
                for command in ("create /a one", "set /a two", "create /b"):
                    await made.obey(command)
            caught_up.sessions = first.sessions
            async with self.client(first.port, behind.port, caught_up.port, timeout=6.0) as client:
                await client.get("/a", watch=True)
                session = client.session_id
                await first.obey("down")
                for number in range(6):
                    await caught_up.obey(f"create /b/{number}")
                await self.until(lambda: client.connected and client.stats().connections == 2, 5.0)
                self.assertEqual([port for _, port in self.loop.dials], [first.port, behind.port, caught_up.port])
                self.assertEqual((client.session_id, behind.sessions), (session, {}))
                await self.until(lambda: client.last_zxid == 9, 1.0)  # by the answer that the watch is set again
                kept = client.kept("/a")
                self.assertEqual((kept.mark, kept.data, kept.last_zxid), (Mark.GOOD, b"two", 9))

        self.run_in_loop(run())

    def test_one_that_goes_on_serving_is_left_at_its_first_watched_answer(self) -> None:
        """It accepts the session although it is behind. Nobody keeps its answer to a read that leaves a watch."""

        async def run() -> None:
            def old(asked: Asked) -> bytes:
                return data_reply(asked, b"old", zxid=3) if asked.kind == GET_DATA else reply(asked, zxid=3)

            def new(asked: Asked) -> bytes:
                return data_reply(asked, b"new", zxid=9) if asked.kind == GET_DATA else reply(asked, zxid=9)

            Server(self.loop, 1, new)
            behind, good = Server(self.loop, 2, old), Server(self.loop, 3, new)
            async with self.client(1, 2, 3, timeout=6.0) as client:
                self.assertEqual((await client.get("/a", watch=True))[0], b"new")
                del self.loop.servers[1]
                client._driver._link.end("the test ends it")
                await self.until(lambda: client.stats().connections == 2, 5.0)
                self.assertEqual([connect.last_zxid for connect in behind.connects], [9])
                self.assertEqual((await client.get("/b", watch=True))[0], b"new")
                self.assertEqual([connect.last_zxid for connect in good.connects], [9])
                self.assertEqual((client.kept("/a").mark, client.kept("/a").data, client.last_zxid), (Mark.GOOD, b"new", 9))

        self.run_in_loop(run())

    def test_a_new_session_is_not_begun_behind_what_was_seen(self) -> None:
        """After an expiry too: a request for a new session says what the old one has seen."""

        async def run() -> None:
            first, late = await self.a_partner(), await self.a_partner()
            for command in ("create /a one", "set /a two", "set /a three"):
                await first.obey(command)
            async with self.client(first.port, timeout=6.0) as client:
                client.set_hosts(f"127.0.0.1:1,127.0.0.1:{first.port}")
                await client.get("/a")  # it has moved, if it does with a longer list
                client.set_hosts(f"127.0.0.1:{late.port},127.0.0.1:{first.port}")
                await first.obey("expire")
                await self.until(lambda: client.stats().expiries == 1 and client.connected, 30.0)
                self.assertEqual(late.sessions, {})
                self.assertEqual((await client.get("/a"))[0], b"three")

        self.run_in_loop(run())
