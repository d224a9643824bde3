"""Tests of the parts that only asyncio has: calls that are cancelled, coroutine functions as watches, and the end of the
loop.
"""

from __future__ import annotations

import asyncio
import signal
import subprocess
import sys
import time
import unittest
from typing import Any, Callable, Optional

from support import CLIENTS, TIMEOUT, WAIT, Partner, PartnerCase

from dirwolleu import EventType, State, WatchedEvent
from dirwolleu.aio import Client, Lock


async def within(condition: Callable[[], Any]) -> None:
    """Waits until the condition returns a value that counts as true."""

    async def poll() -> None:
        while not condition():
            await asyncio.sleep(0.005)

    await asyncio.wait_for(poll(), WAIT)


class AioTest(unittest.IsolatedAsyncioTestCase, PartnerCase):
    is_long = True

    async def asyncSetUp(self) -> None:
        asyncio.get_running_loop().slow_callback_duration = WAIT  # a partner that starts holds the loop up

    async def client(self, partner: Partner, timeout: float = TIMEOUT, saved: Optional[bytes] = None) -> Client:
        client = Client(partner.host, timeout, saved)
        self.addAsyncCleanup(client.close)
        self.addAsyncCleanup(client.stop)
        await client.start(WAIT)
        return client

    async def test_more_at_once_than_a_session_takes(self) -> None:
        partner = self.partner()
        partner.do("create /a one")
        client = await self.client(partner, timeout=600)  # so that no busy machine ends a call
        reads = await asyncio.wait_for(asyncio.gather(*(client.get("/a") for _ in range(1500))), 9 * WAIT)
        self.assertEqual({data for data, _ in reads}, {b"one"})

    async def test_watches_and_listeners_are_coroutine_functions(self) -> None:
        partner = self.partner()
        partner.do("create /a one")
        client = await self.client(partner)
        events: asyncio.Queue[WatchedEvent] = asyncio.Queue()
        states: asyncio.Queue[State] = asyncio.Queue()
        client.add_listener(states.put)
        await client.get("/a", watch=events.put_nowait)
        await client.get_children("/a", watch=events.put)
        partner.do("set /a two")
        self.assertEqual(await asyncio.wait_for(events.get(), WAIT), (EventType.CHANGED, State.CONNECTED, "/a"))
        partner.do("expire")
        self.assertEqual(await asyncio.wait_for(events.get(), WAIT), (EventType.NONE, State.LOST, "/a"))
        told = [await asyncio.wait_for(states.get(), WAIT) for _ in range(3)]
        self.assertEqual(told, [State.SUSPENDED, State.LOST, State.CONNECTED])

    async def test_a_call_that_is_cancelled_leaves_the_others(self) -> None:
        partner = self.partner()
        client = await self.client(partner)
        partner.do("mute")
        first, second = asyncio.ensure_future(client.get("/")), asyncio.ensure_future(client.get("/"))
        await asyncio.sleep(0)
        first.cancel()
        partner.do("unmute")
        self.assertEqual((await asyncio.wait_for(second, WAIT))[0], b"")

    async def test_a_call_that_is_cancelled_before_it_is_handed_over_is_not_sent(self) -> None:
        partner = self.partner()
        client = await self.client(partner, timeout=600)
        partner.do("mute")
        others = [client.exists_async("/") for _ in range(600)]
        call = asyncio.ensure_future(client.create("/a"))
        await asyncio.sleep(0.01)
        call.cancel()
        partner.do("unmute")
        await asyncio.wait_for(asyncio.gather(*others), WAIT)
        self.assertIsNone(await asyncio.wait_for(client.exists("/a"), WAIT))

    async def test_a_call_that_is_cancelled_and_waits_for_a_connection_is_asked_before_later_ones(self) -> None:
        partner = self.partner()
        client = await self.client(partner)
        partner.do("down")
        await within(lambda: client.state is State.SUSPENDED)
        call = asyncio.ensure_future(client.create("/a"))
        await asyncio.sleep(0.01)
        call.cancel()
        partner.do("up")
        self.assertIsNotNone(await asyncio.wait_for(client.exists("/a"), WAIT))

    async def test_a_wait_that_is_cancelled_as_news_come_ends(self) -> None:
        client = await self.client(self.partner())
        async with Lock(client, "/locks"):
            waits = asyncio.ensure_future(Lock(client, "/locks").acquire(3 * WAIT))
            while len(await client.get_children("/locks")) < 2:
                await asyncio.sleep(0.005)
            client._engine.tell_news()
            waits.cancel()
            with self.assertRaises(asyncio.CancelledError):
                await asyncio.wait_for(waits, WAIT)
            self.assertEqual(len(await client.get_children("/locks")), 1)


class EndOfLoopTest(PartnerCase):
    """The end of `asyncio.run`, after a Ctrl-C too: it cancels all tasks and waits for them."""

    def test_the_session_is_ended_though_all_tasks_are_cancelled(self) -> None:
        self.await_farewells()
        partner = self.partner()

        async def program() -> None:
            async with Client(partner.host, TIMEOUT) as client:
                await client.create("/a", ephemeral=True)
                ready.set_result(None)
                await asyncio.sleep(9 * WAIT)

        loop = asyncio.new_event_loop()
        self.addCleanup(loop.close)
        ready = loop.create_future()
        main = loop.create_task(program())
        loop.run_until_complete(ready)
        began = time.monotonic()
        for task in asyncio.all_tasks(loop):
            task.cancel()
        with self.assertRaises(asyncio.CancelledError):
            loop.run_until_complete(main)
        self.assertLess(time.monotonic() - began, WAIT)
        self.assertEqual(asyncio.run(self.names(partner.host)), [])

    async def names(self, host: str) -> list[str]:
        async with Client(host, TIMEOUT) as client:
            return await client.get_children("/")

    def test_the_session_is_ended_after_an_interrupt(self) -> None:
        partner = self.partner()
        program = (
            "import asyncio, sys; sys.path.insert(0, sys.argv[1]); import dirwolleu\n"
            "async def main():\n"
            "    dirwolleu.aio.LONGEST_FAREWELL = 60.0  # also on a busy machine\n"
            "    async with dirwolleu.aio.Client(sys.argv[2], 60.0) as client:\n"
            "        print(await client.create('/a', ephemeral=True), flush=True)\n"
            "        await asyncio.sleep(60)\n"
            "asyncio.run(main())\n"
        )
        command = [sys.executable, "-c", program, str(CLIENTS / "python"), partner.host]
        child = subprocess.Popen(command, stdout=subprocess.PIPE, stderr=subprocess.DEVNULL, text=True)
        self.addCleanup(child.kill)
        assert child.stdout is not None
        self.assertEqual(child.stdout.readline(), "/a\n")
        child.send_signal(signal.SIGINT)
        child.communicate(timeout=WAIT)
        self.assertEqual(asyncio.run(self.names(partner.host)), [])
