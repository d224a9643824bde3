"""The client for asyncio."""

from __future__ import annotations

import asyncio
import contextlib
import inspect
from collections.abc import AsyncGenerator, Awaitable, Coroutine
from types import TracebackType
from typing import TYPE_CHECKING, Any, Callable, Optional, TypeVar

from dirwolleu import _calls as calls
from dirwolleu import _following as following
from dirwolleu import _requests as requests
from dirwolleu import _steps as steps_of
from dirwolleu._aio_link import Loop
from dirwolleu._calls import Wanted
from dirwolleu._clock import moment
from dirwolleu._driver import Driver
from dirwolleu._engine import News as AnyNews
from dirwolleu._plans import Plan
from dirwolleu._requests import Request, Result
from dirwolleu._retry import Retry
from dirwolleu._shown import Shown
from dirwolleu._steps import Ask, Call, GetNews, Step, Steps, Wait
from dirwolleu._trees import MOST_NODES, AsyncTree
from dirwolleu._watches import ChildrenWatch, DataWatch
from dirwolleu.exceptions import ZookeeperError
from dirwolleu.transaction import AsyncTransaction
from dirwolleu.types import Kept, KeptChildren

from dirwolleu import _aio_recipes  # isort: skip
from dirwolleu._aio_recipes import *  # isort: skip  # noqa: F403

__all__ = ["ChildrenWatch", "Client", "DataWatch"]
__all__ += _aio_recipes.__all__

if TYPE_CHECKING:
    from typing_extensions import Concatenate, ParamSpec

    Given = ParamSpec("Given")

Returned = TypeVar("Returned")

LONGEST_FAREWELL = 2.0
"""How long `stop` waits for a server to end the session, in seconds."""


class _Waiter(asyncio.Future[Any]):
    """A future of the event loop that is a waiter too."""

    def begin(self) -> bool:
        return not self.done()


def _waits(
    call: Callable[Concatenate[Client, Given], Wanted[Result]]
) -> Callable[Concatenate[Client, Given], Coroutine[Any, Any, Result]]:
    """A coroutine function of a client that makes a call and waits for the answer."""

    async def waits(client: Client, /, *given: Given.args, **named: Given.kwargs) -> Result:
        wanted, timeout = call(client, *given, **named)
        return await (client._call(wanted, timeout) if isinstance(wanted, Request) else client._run(wanted, timeout))

    return calls.shown(waits, call, is_awaited=True)


def _sends(
    call: Callable[Concatenate[Client, Given], Wanted[Result]]
) -> Callable[Concatenate[Client, Given], asyncio.Future[Result]]:
    """A function of a client that makes a call at once and returns a future. One request needs no task."""

    def sends(client: Client, /, *given: Given.args, **named: Given.kwargs) -> asyncio.Future[Result]:
        wanted, timeout = call(client, *given, **named)
        return client._send(wanted, timeout) if isinstance(wanted, Request) else client._begin_plan(wanted, timeout)

    return calls.shown(sends, call, "_async")


class Client(Shown):
    """A client of ZooKeeper whose functions are coroutines. It belongs to the event loop in which it is started.

    It has the parameters and the errors of `dirwolleu.Client`. The event loop calls watches and listeners, which are functions or
    coroutine functions. A cancelled call may still happen at the server, within its bound, even if it waits for a
    connection. Cancelling all tasks of the loop, as `asyncio.run` does at its end, leaves the connection open, so that
    `stop` can still end the session.

    Each call has a second form whose name ends in `_async`. It hands the call in at once and returns an `asyncio.Future`.

        futures = [client.get_async(f"/config/{name}") for name in names]
        data = [(await future)[0] for future in futures]
    """

    def _prepare(self) -> None:
        self._driver: Optional[Driver] = None
        self._callbacks: set[asyncio.Future[Any]] = set()

    async def __aenter__(self) -> Client:
        await self.start()
        return self

    async def __aexit__(
        self,
        kind: Optional[type[BaseException]],
        error: Optional[BaseException],
        trace: Optional[TracebackType],
    ) -> None:
        await self.stop()
        await self.close()

    async def start(self, timeout: Optional[float] = 15.0) -> None:
        """Begins to connect, and waits until a server has accepted the session.

        Raises `TimeoutError`, and stops, if that takes longer than `timeout` seconds; None is no bound. Raises
        `AuthFailedError`, and stops, if the server refuses credentials.
        """
        if not self._engine.is_running:
            await self.stop()  # if the session has ended by itself, its driver is there still
        self._engine.begin()
        if self._driver is None:
            self._driver = Driver(self._servers, self._engine, self._tls, self._sasl)
            self._driver.start(Loop())
        try:
            await asyncio.wait_for(self._wait_until_connected(), timeout)
        except BaseException as error:
            trouble = self._engine.no_server(timeout)  # before the attempt that is under way is given up
            await self.stop()
            if not isinstance(error, asyncio.TimeoutError):
                raise
            raise TimeoutError(trouble) from None

    async def stop(self) -> None:
        """Ends the session, with its ephemeral nodes and its watches.

        `start` begins another session. If no server ends the session within a third of its timeout, and within 2 seconds,
        it lives on for its timeout.
        """
        if self._driver is None:
            return
        try:
            if self.connected:
                with contextlib.suppress(ZookeeperError, asyncio.TimeoutError):
                    farewell = min(self._engine.timeout() / 3, LONGEST_FAREWELL)
                    await asyncio.wait_for(self._send(requests.close_session()), farewell)
        finally:
            self._end_driver(self._engine.end)

    async def close(self) -> None:
        """Frees what the client holds; it can't be started again.

        If the client was not stopped, its session lives on for its timeout, and another client can take up `saved_session`.
        """
        for task in list(self._tasks):
            task.cancel()
        self._end_driver(self._engine.close)

    exists = _waits(calls.exists)
    get = _waits(calls.get)
    get_children = _waits(calls.get_children)
    create = _waits(calls.create)
    create2 = _waits(calls.create2)
    ensure_path = _waits(calls.ensure_path)
    set = _waits(calls.set)
    delete = _waits(calls.delete)
    sync = _waits(calls.sync)
    fresh = _waits(calls.fresh)
    get_ephemerals = _waits(calls.get_ephemerals)
    get_all_children_number = _waits(calls.get_all_children_number)
    who_am_i = _waits(calls.who_am_i)
    multi_read = _waits(calls.multi_read)
    get_acls = _waits(calls.get_acls)
    set_acls = _waits(calls.set_acls)
    add_auth = _waits(calls.add_auth)

    exists_async = _sends(calls.exists)
    get_async = _sends(calls.get)
    get_children_async = _sends(calls.get_children)
    create_async = _sends(calls.create)
    create2_async = _sends(calls.create2)
    ensure_path_async = _sends(calls.ensure_path)
    set_async = _sends(calls.set)
    delete_async = _sends(calls.delete)
    sync_async = _sends(calls.sync)
    fresh_async = _sends(calls.fresh)
    get_ephemerals_async = _sends(calls.get_ephemerals)
    get_all_children_number_async = _sends(calls.get_all_children_number)
    who_am_i_async = _sends(calls.who_am_i)
    multi_read_async = _sends(calls.multi_read)
    get_acls_async = _sends(calls.get_acls)
    set_acls_async = _sends(calls.set_acls)
    add_auth_async = _sends(calls.add_auth)

    def transaction(self) -> AsyncTransaction:
        """Begins several changes that happen together or not at all: see `AsyncTransaction`."""
        return AsyncTransaction(self._call)

    async def retry(
        self, function: Callable[..., Awaitable[Returned]], *arguments: Any, **keywords: Any
    ) -> Returned:
        """Awaits a coroutine function, and awaits it again while it raises an error after which that is safe.

        It follows the client's policy, or else `Retry()`.

            stat = await client.retry(client.exists, "/config")
        """
        attempts = (self._retry or Retry()).attempts()
        while True:
            try:
                return await function(*arguments, **keywords)
            except ZookeeperError as error:
                pause = attempts.after(error)
            await asyncio.sleep(pause)

    async def follow(self, path: str) -> AsyncGenerator[Kept, None]:
        """Yields a node's data, and yields again after each change, as `follow` of `dirwolleu.Client` does."""
        async for kept in self._follow(following.data_of(self._engine, path)):
            yield kept

    async def follow_children(self, path: str) -> AsyncGenerator[KeptChildren, None]:
        """Yields the names of a node's children, and yields again after each change, as `follow_children` of `dirwolleu.Client`
        does.
        """
        async for kept in self._follow(following.children_of(self._engine, path)):
            yield kept

    def tree(self, path: str, *, most: int = MOST_NODES) -> AsyncTree:
        """Reads all nodes at and below a path, and reads again those that change, as `tree` of `dirwolleu.Client` does."""
        tree = AsyncTree(self, path, most)
        self._act()
        return tree

    async def _follow(self, subject: following.Subject[following.Told]) -> AsyncGenerator[following.Told, None]:
        following.begun(self._engine)
        news = asyncio.Event()
        with following.Follower(self._engine, subject, news).listening() as next_one:
            self._act()
            while (kept := await self._drive(next_one(), news)) is not None:
                yield kept

    def _call(self, request: Request[Result], timeout: Optional[float] = None) -> Awaitable[Result]:
        if self._retry is None:
            return self._send(request, timeout)
        return self._drive(steps_of.by_policy(request, self._retry, steps_of.until_of(timeout)))

    async def _run(self, plan: Plan[Result], timeout: Optional[float] = None) -> Result:
        """Makes the requests of a plan, one after the other, within a number of seconds in all."""
        return await self._drive(steps_of.run(plan, self._retry, steps_of.until_of(timeout)))

    async def _drive(self, steps: Steps[Result], news: Optional[asyncio.Event] = None) -> Result:
        """Makes steps, one after the other. The steps handle the errors and cancellations that they raise."""
        news = news or asyncio.Event()
        try:
            step = next(steps)
            while True:
                try:
                    answer = await self._do(step, news)
                except BaseException as error:
                    step = steps.throw(error)
                else:
                    step = steps.send(answer)
        except StopIteration as end:
            result: Result = end.value
            return result

    async def _do(self, step: Step, news: asyncio.Event) -> Any:
        if isinstance(step, Wait):
            return await self._wait(news, step.seconds)
        if isinstance(step, GetNews):
            return news
        if isinstance(step, Call):
            told = step.function()
            return (await told) if inspect.isawaitable(told) else told
        return await (self._send(step.request, step.timeout) if isinstance(step, Ask) else self._send(step))

    async def _wait(self, news: asyncio.Event, seconds: Optional[float]) -> None:
        """Waits for news, for at most this many seconds. `asyncio.wait_for` of Python 3.11 and before forgets a cancellation that comes in
        one turn of the loop with the news, and so does not end the wait.
        """
        timer = None if seconds is None else asyncio.get_running_loop().call_later(seconds, news.set)
        try:
            await news.wait()
        finally:
            if timer is not None:
                timer.cancel()
        news.clear()

    def _send(self, request: Request[Any], timeout: Optional[float] = None) -> _Waiter:
        waiter = _Waiter(loop=asyncio.get_running_loop())
        self._engine.ask(moment(), request, waiter, timeout)
        self._act()
        return waiter

    def _act(self) -> None:
        if self._driver is not None:
            self._driver.act_soon()

    def _do_first(self, _: Callable[[AnyNews], Steps[Result]]) -> Optional[Result]:
        return None

    def _begin(
        self, begin: Callable[[AnyNews], Steps[Any]], end: Callable[[Any, Optional[BaseException]], object]
    ) -> None:
        """Lets a task of the event loop make steps, from the start of the client on."""

        async def run() -> None:
            news = asyncio.Event()
            try:
                result = await self._drive(begin(news), news)
            except Exception as error:
                end(None, error)
            else:
                end(result, None)

        self._keep(asyncio.ensure_future(run()))

    def _begin_plan(self, plan: Plan[Any], timeout: Optional[float] = None) -> asyncio.Future[Any]:
        task = asyncio.ensure_future(self._run(plan, timeout))
        self._keep(task)
        return task

    def _keep(self, task: asyncio.Future[Any]) -> None:
        """Holds a task until it is done, since the event loop does not."""
        self._tasks[task] = None
        task.add_done_callback(lambda done: self._tasks.pop(done, None))

    async def _wait_until_connected(self) -> None:
        news = asyncio.Event()
        with self._engine.news(news.set):
            while not self._engine.is_authenticated():
                if not self._engine.is_running:
                    raise self._engine.why_over("the client was stopped")
                await news.wait()
                news.clear()

    def _tell(self, function: Callable[[Any], object], argument: Any) -> None:
        asyncio.get_running_loop().call_soon(self._call_back, function, argument)

    def _call_back(self, function: Callable[[Any], object], argument: Any) -> None:
        told = function(argument)
        if inspect.isawaitable(told):
            callback = asyncio.ensure_future(told)
            self._callbacks.add(callback)
            callback.add_done_callback(self._end_callback)

    def _end_callback(self, callback: asyncio.Future[Any]) -> None:
        self._callbacks.discard(callback)
        error = None if callback.cancelled() else callback.exception()
        if error is not None:
            context = {"message": "a callback failed", "exception": error, "future": callback}
            asyncio.get_running_loop().call_exception_handler(context)

    def _end_driver(self, end: Callable[[], None]) -> None:
        driver, self._driver = self._driver, None
        if driver is not None:
            driver.stop(end)
        else:
            end()
