"""The recipes of `dirwolleu.recipes` as coroutines. The proved core contends for locks; the rest is tested."""

from __future__ import annotations

import asyncio
import contextlib
from collections.abc import Awaitable, Coroutine
from contextlib import AbstractAsyncContextManager
from types import TracebackType
from typing import TYPE_CHECKING, Any, Callable, Optional, TypeVar, cast, overload

from dirwolleu import _locks as locks
from dirwolleu._barriers import BaseBarrier, BaseDoubleBarrier
from dirwolleu._calls import shown
from dirwolleu._counters import BaseCounter, Number
from dirwolleu._leases import BaseSemaphore
from dirwolleu._locks import READING, WRITING, BaseHeld, BaseLock, BaseTaker, Taken
from dirwolleu._plans import Acls
from dirwolleu._queues import BaseQueue
from dirwolleu._registrations import BaseRegistration
from dirwolleu._steps import Result, Steps

if TYPE_CHECKING:
    from typing_extensions import Concatenate, ParamSpec

    from dirwolleu.aio import Client

    Given = ParamSpec("Given")

__all__ = [
    "Barrier",
    "Counter",
    "DoubleBarrier",
    "Election",
    "Held",
    "Lock",
    "Queue",
    "ReadLock",
    "Registration",
    "Semaphore",
    "WriteLock",
]

Returned = TypeVar("Returned")


def _does(
    call: Callable[Concatenate[Any, Given], Steps[Result]]
) -> Callable[Concatenate[Any, Given], Coroutine[Any, Any, Result]]:
    """A coroutine function that makes the steps of a recipe."""

    async def does(recipe: Any, /, *given: Given.args, **named: Given.kwargs) -> Result:
        result: Result = await recipe._client._drive(call(recipe, *given, **named))
        return result

    return shown(does, call)


class Held(BaseHeld["Client"], AbstractAsyncContextManager["Held"]):
    """A lock or a lease that was taken, as `dirwolleu.Held` is.

        async with dirwolleu.aio.Lock(client, "/locks/job") as held:
            if await held.wait_lost(0.5):
                print("stop the work: another one may hold")
    """

    release = _does(BaseHeld._release)
    wait_lost = _does(BaseHeld._losing)

    async def __aexit__(
        self, kind: Optional[type[BaseException]], error: Optional[BaseException], trace: Optional[TracebackType]
    ) -> None:
        await self.release()


class _Taker(BaseTaker["Client", Held]):
    """A lock or a semaphore, which is released at the end of an `async with` block."""

    async def acquire(self, timeout: Optional[float] = None) -> Held:
        """Waits until the lock is held, as `dirwolleu.Lock.acquire` does.

        Raises `LockTimeout`. If it is cancelled, it leaves no contender.
        """
        return await self._client._drive(self._taking(timeout))

    def _held(self, taken: Taken) -> Held:
        return Held(self._client, taken, self._on_lost, self._keeps)

    async def __aenter__(self) -> Held:
        return self._enter(asyncio.current_task(), await self.acquire())

    async def __aexit__(
        self, kind: Optional[type[BaseException]], error: Optional[BaseException], trace: Optional[TracebackType]
    ) -> None:
        await self._exit(asyncio.current_task()).release()


class Lock(_Taker, BaseLock["Client", Held]):
    """An exclusive lock, as `dirwolleu.Lock` is. `on_lost` may be a coroutine function.

        async with dirwolleu.aio.Lock(client, "/locks/job", identifier="host-1") as held:
            held.check()
            print("holds with token", held.token)
    """

    contenders = _does(BaseLock._contenders)


class WriteLock(Lock):
    """The exclusive side of a lock that others share, as `dirwolleu.WriteLock` is."""

    _kind = WRITING


class ReadLock(Lock):
    """The shared side of a lock, as `dirwolleu.ReadLock` is."""

    _kind = READING


class Semaphore(_Taker, BaseSemaphore["Client", Held]):
    """A lock that `max_leases` hold at a time, as `dirwolleu.Semaphore` is.

        async with dirwolleu.aio.Semaphore(client, "/downloads", max_leases=3) as held:
            held.check()
    """

    lease_holders = _does(BaseSemaphore._lease_holders)


class Election:
    """One of the candidates at a path leads at a time, as in `dirwolleu.Election`."""

    def __init__(
        self,
        client: Client,
        path: str,
        identifier: str = "",
        *,
        names: str = locks.KAZOO,
        acl: Acls = None,
        on_lost: Optional[Callable[[Held], object]] = None,
        keeps_while_suspended: bool = False,
    ) -> None:
        self._lock = Lock(
            client, path, identifier, names=names, acl=acl, on_lost=on_lost, keeps_while_suspended=keeps_while_suspended
        )

    async def run(self, lead: Callable[[Held], Awaitable[Returned]]) -> Returned:
        """Waits until this candidate leads, awaits a function with the lock that it holds, and returns its result."""
        async with self._lock as held:
            return await lead(held)

    async def contenders(self) -> list[str]:
        """The identifiers of the candidates, the leader's first."""
        return await self._lock.contenders()

    async def leader(self) -> Optional[str]:
        """The identifier of the leader, or None if there is no candidate."""
        return next(iter(await self._lock.contenders(1)), None)


class Registration(BaseRegistration["Client"], AbstractAsyncContextManager["Registration"]):
    """An ephemeral node that is made again in each new session, as `dirwolleu.Registration` is.

        async with dirwolleu.aio.Registration(client, "/workers/host-1", b"10.0.0.1:80") as registration:
            await registration.wait(10.0)
    """

    def __init__(self, client: Client, path: str, value: bytes = b"") -> None:
        self._is_there = asyncio.Event()
        super().__init__(client, path, value, self._is_there)

    async def __aexit__(
        self, kind: Optional[type[BaseException]], error: Optional[BaseException], trace: Optional[TracebackType]
    ) -> None:
        await self.withdraw()

    async def wait(self, timeout: Optional[float] = None) -> bool:
        """Waits until the node is there, for at most this many seconds, and returns whether it is."""
        with contextlib.suppress(asyncio.TimeoutError):
            await asyncio.wait_for(self._is_there.wait(), timeout)
        return self._is_there.is_set()

    set = _does(BaseRegistration._set)
    withdraw = _does(BaseRegistration._withdraw)


class Barrier(BaseBarrier["Client"]):
    """Holds clients back while its node is there, as `dirwolleu.Barrier` does.

        barrier = dirwolleu.aio.Barrier(client, "/migration")
        is_open = await barrier.wait(10.0)
    """

    create = _does(BaseBarrier._create)
    remove = _does(BaseBarrier._remove)
    wait = _does(BaseBarrier._wait)


class DoubleBarrier(BaseDoubleBarrier["Client"]):
    """A barrier at which `num_clients` wait for one another, as `dirwolleu.DoubleBarrier` is."""

    enter = _does(BaseDoubleBarrier._enter)
    leave = _does(BaseDoubleBarrier._leave)


class Counter(BaseCounter["Client", Number]):
    """A number that is changed by compare and set, as `dirwolleu.Counter` is.

        number = await dirwolleu.aio.Counter(client, "/jobs").add(5)
    """

    @overload
    def __init__(self: Counter[int], client: Client, path: str) -> None: ...

    @overload
    def __init__(self, client: Client, path: str, default: Number) -> None: ...

    def __init__(self, client: Client, path: str, default: Any = 0) -> None:
        super().__init__(client, path, default)

    async def get(self) -> Number:
        """The number. Raises `ValueError` if the node has other data."""
        return await self._client._drive(self._getting())

    async def add(self, number: Number) -> Number:
        """Adds a number and returns the sum, as `add` of `dirwolleu.Counter` does."""
        return await self.change(lambda current: cast(Number, current + number))

    async def change(self, function: Callable[[Number], Number]) -> Number:
        """Sets the number to a function's result for it, and returns that. It may call the function more than once."""
        return await self._client._drive(self._changing(function))


class Queue(BaseQueue["Client"]):
    """A queue whose entries each go to one taker, as `dirwolleu.Queue` is.

        queue = dirwolleu.aio.Queue(client, "/jobs")
        await queue.put(b"one")
        data = await queue.get(10.0)
    """

    put = _does(BaseQueue._put)
    get = _does(BaseQueue._get)
    size = _does(BaseQueue._size)
