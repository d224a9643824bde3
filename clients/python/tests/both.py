"""Lets tests of both clients use one text: the client for asyncio as if it waited for its answers, beside the one that does."""

from __future__ import annotations

import asyncio
import inspect
import queue
import threading
from collections.abc import AsyncGenerator, Iterator
from typing import Any, Callable

from support import TIMEOUT, WAIT, PartnerCase

import dirwolleu
from dirwolleu import aio

LONGEST = 6 * WAIT


class Outcome(queue.Queue[Any]):
    """The result of a call in a thread, or its error."""

    def result(self, timeout: float = WAIT) -> Any:
        found = self.get(timeout=timeout)
        if isinstance(found, BaseException):
            raise found
        return found


def run_in_thread(call: Callable[[], Any], take: Callable[[Any], None]) -> None:
    """Makes a call in a thread of its own, which takes its result or its error."""

    def run() -> None:
        try:
            outcome = call()
        except BaseException as error:
            outcome = error
        take(outcome)

    threading.Thread(target=run, daemon=True).start()


def in_thread(call: Callable[[], Any]) -> Outcome:
    """The outcome of a call in a thread of its own."""
    outcome = Outcome()
    run_in_thread(call, outcome.put)
    return outcome


class Blocking:
    """An object of `dirwolleu.aio`, whose functions are called in its event loop and waited for."""

    def __init__(self, loop: asyncio.AbstractEventLoop, made: Any) -> None:
        self._loop, self._made = loop, made

    def __getattr__(self, name: str) -> Any:
        found = getattr(self._made, name)
        return (lambda *words, **named: self._call(found, *words, **named)) if callable(found) else found

    def __enter__(self) -> Any:
        return self._call(self._made.__aenter__)

    def __exit__(self, *of_error: Any) -> None:
        self._call(self._made.__aexit__, *of_error)

    def __call__(self, *words: Any) -> Any:
        return self._call(self._made, *words)

    def __len__(self) -> int:
        return int(self._call(self._made.size))

    def _call(self, function: Callable[..., Any], *words: Any, **named: Any) -> Any:
        async def run() -> Any:
            told = function(*words, **named)
            return await told if inspect.isawaitable(told) else told

        found = asyncio.run_coroutine_threadsafe(run(), self._loop).result(LONGEST)
        if inspect.isasyncgen(found):
            return self._items(found)
        return Blocking(self._loop, found) if isinstance(found, aio.Held) else found

    def _items(self, generator: AsyncGenerator[Any, None]) -> Iterator[Any]:
        """The items of an asynchronous generator, which are never None."""
        try:
            while (item := self._call(_next, generator)) is not None:
                yield item
        finally:
            self._call(generator.aclose)


async def _next(generator: AsyncGenerator[Any, None]) -> Any:
    async for item in generator:
        return item
    return None


class BothCase(PartnerCase):
    """A test of the client for threads. A class that also is an `AioCase` makes the same test of the one for asyncio."""

    def client(self, host: str, timeout: float = TIMEOUT, **named: Any) -> Any:
        """A client that is started, and is stopped at the end of the test."""
        client = self.new_client(host, timeout, **named)
        client.start(WAIT)
        return client

    def new_client(self, host: str, timeout: float = TIMEOUT, **named: Any) -> Any:
        """A client that is not started yet, and is stopped at the end of the test."""
        client = self.made(lambda: self.module().Client(host, timeout, **named))
        self.addCleanup(client.close)
        self.addCleanup(client.stop)
        return client

    def recipe(self, name: str, client: Any, *words: Any, **named: Any) -> Any:
        """A recipe of this name."""
        own = client._made if isinstance(client, Blocking) else client
        return self.made(lambda: getattr(self.module(), name)(own, *words, **named))

    def module(self) -> Any:
        return dirwolleu

    def made(self, make: Callable[[], Any]) -> Any:
        return make()


class TwoCase(BothCase):
    """A test of two clients, at the server that the class has and with a root of its own."""

    def setUp(self) -> None:
        super().setUp()
        self.server, self.root = self.shared_partner(), self.own_root()
        self.one, self.other = (self.client(self.server.host + self.root) for _ in range(2))
        self.one.ensure_path("/")


class AioCase(BothCase):
    """A test of the client for asyncio, whose event loop has a thread of its own."""

    def setUp(self) -> None:
        self.loop = asyncio.new_event_loop()
        thread = threading.Thread(target=self.loop.run_forever, daemon=True)
        thread.start()
        self.addCleanup(self.loop.close)
        self.addCleanup(thread.join, WAIT)
        self.addCleanup(self.loop.call_soon_threadsafe, self.loop.stop)
        super().setUp()

    def module(self) -> Any:
        return aio

    def made(self, make: Callable[[], Any]) -> Any:
        async def run() -> Any:
            return make()

        return Blocking(self.loop, asyncio.run_coroutine_threadsafe(run(), self.loop).result(LONGEST))
