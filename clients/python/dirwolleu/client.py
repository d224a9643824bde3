"""The blocking client."""

from __future__ import annotations

import atexit
import concurrent.futures
import contextlib
import functools
import logging
import time
import weakref
from collections.abc import Generator
from types import TracebackType
from typing import TYPE_CHECKING, Any, Callable, Optional, TypeVar

from dirwolleu import _calls as calls
from dirwolleu import _ending as ending
from dirwolleu import _following as following
from dirwolleu import _requests as requests
from dirwolleu import _steps as steps_of
from dirwolleu._asked import Waiter as AnyWaiter
from dirwolleu._calls import Wanted
from dirwolleu._clock import moment
from dirwolleu._engine import News as AnyNews
from dirwolleu._plans import Plan
from dirwolleu._requests import Request, Result
from dirwolleu._retry import Retry
from dirwolleu._shown import Shown
from dirwolleu._steps import Ask, Call, GetNews, Step, Steps, Wait
from dirwolleu._tasks import Task
from dirwolleu._trees import MOST_NODES, Tree
from dirwolleu._waiting import Future, News, Sleepers, Waiter
from dirwolleu.exceptions import ConnectionClosedError, ZookeeperError
from dirwolleu.security import AuthFailedError
from dirwolleu.transaction import Transaction
from dirwolleu.types import Kept, KeptChildren, State

if TYPE_CHECKING:
    from typing_extensions import Concatenate, ParamSpec

    from dirwolleu._driver import Driver
    from dirwolleu._threads import Threads

    Given = ParamSpec("Given")

Returned = TypeVar("Returned")

logger = logging.getLogger("dirwolleu")

LONGEST_FAREWELL = 2.0
"""How long `stop` waits for a server to end the session, in seconds."""
LONGEST_LEAVING = 1.0
"""How long the end of the program waits for the thread of a client that was not stopped, in seconds."""


def _waits(call: Callable[Concatenate[Client, Given], Wanted[Result]]) -> Callable[Concatenate[Client, Given], Result]:
    """A function of a client that makes a call and waits for the answer."""

    def waits(client: Client, /, *given: Given.args, **named: Given.kwargs) -> Result:
        wanted, timeout = call(client, *given, **named)
        return client._call(wanted, timeout) if isinstance(wanted, Request) else client._run(wanted, timeout)

    return calls.shown(waits, call)


def _sends(
    call: Callable[Concatenate[Client, Given], Wanted[Result]]
) -> Callable[Concatenate[Client, Given], concurrent.futures.Future[Result]]:
    """A function of a client that makes a call and returns a future."""

    def sends(client: Client, /, *given: Given.args, **named: Given.kwargs) -> concurrent.futures.Future[Result]:
        wanted, timeout = call(client, *given, **named)
        return client._send(wanted, timeout) if isinstance(wanted, Request) else client._begin_plan(wanted, timeout)

    return calls.shown(sends, call, "_async")


class Client(Shown):
    """A client of ZooKeeper whose functions wait for their answers. Any thread may call them.

    `hosts` is a text like `host:port,host:port/root`. Each dial looks the name up again and goes to one of its
    addresses, in a random order of the hosts unless `randomize_hosts` is false. The default port is 2181, and an IPv6 address
    is in brackets. The root, also called a chroot, is the node that the program knows as `/`: all paths of calls, answers,
    events and kept answers are below it. `timeout` is the session's timeout in seconds that the client asks for; a server
    grants a value within its own bounds. `saved` takes up the session of another client, from its `saved_session`.

    `auth_data` are credentials, pairs of a scheme and its text. The client sends them first on each connection, with those of
    `add_auth`. If a server refuses one of them, the session is over: the state is `LOST`, nothing is kept, and the client
    dials no server until it is started again. With `sasl` the client logs in first: see `dirwolleu.sasl`. With `ssl` the
    connections use TLS: see `dirwolleu.tls_context`. With `retry`, a policy, the client asks a call again if that is safe.

    `longest_answer` and `longest_request` bound the bytes of a frame that comes and of one that is sent, after its length. The
    defaults are the least values, and the greatest is 1,073,741,823. A longer answer, such as the names of very many children,
    ends the connection, and its read raises `TooLargeError`; so does a longer request. Set `jute.maxbuffer` of the servers as high.

    The file `record` gets all that the session is given and sends, from the beginning; `zk_shell` replays it to show a fault. It
    has paths and data, but no password and no credential. If writing fails, the client logs that, and the session goes on.

    A call waits for a server and its answer for at most its own `timeout` in seconds, all tries together, or else the session's
    timeout. If its connection is lost, a read is asked again and a write is not. When the call returns or raises, the
    client has taken in all that came with the answer and queued the calls of its functions: `state` and the next call see that.

    Every call may raise:

    - `ConnectionLoss`: the connection ended before the reply to a write;
    - `NotConnectedError`, a `ConnectionLoss`: a call without a `timeout` could not be sent in time;
    - `CallTimeoutError`: no answer came in time;
    - `SessionExpiredError`;
    - `ConnectionClosedError`: the client is not started;
    - `AuthFailedError`: a server has refused a credential, and the client was not started again since;
    - `ValueError`: the path is invalid, or a version does not fit into 32 bits;
    - `TypeError`, at once: a value has another type;
    - another `ZookeeperError`: the server answered with an error.

    `may_have_happened` of an error says whether a change may have happened, or may still happen.

    Each call has a second form whose name ends in `_async`. It sends without waiting and returns a
    `concurrent.futures.Future`; it is never asked again.

        futures = [client.get_async(f"/config/{name}") for name in names]
        data = [future.result()[0] for future in futures]

        with dirwolleu.Client("zk1:2181,zk2:2181,zk3:2181/app", retry=dirwolleu.Retry()) as client:
            client.ensure_path("/config")
            data, stat = client.get("/config", timeout=2.0)
            client.set("/config", b"new", version=stat.version)

    Watches and listeners run one after the other in a thread of their own, and may call the client. So may a signal handler.
    If a handler's exception, such as KeyboardInterrupt, ends a call, the client stays as it is: the call may have happened, or
    may still happen within its bound. In a child that was forked after `start`, calls raise `ConnectionClosedError`, and
    `stop` and `close` do nothing.
    """

    def _prepare(self) -> None:
        """Makes the fields that hold the threads. A dict's functions are single steps of the interpreter: no lock is taken."""
        self._sleepers = Sleepers()
        self._running: dict[str, Optional[Threads]] = {}
        """The threads that were started last, and None once the client is closed. Later ones are in `later` of those."""
        self._past: Optional[Threads] = None
        """Threads that are over, and may still call a function."""

    def __enter__(self) -> Client:
        self.start()
        return self

    def __exit__(
        self,
        kind: Optional[type[BaseException]],
        error: Optional[BaseException],
        trace: Optional[TracebackType],
    ) -> None:
        self.stop()
        self.close()

    def start(self, timeout: Optional[float] = 15.0) -> None:
        """Begins to connect, and waits until a server has accepted the session.

        Raises `TimeoutError`, and stops, if that takes longer than `timeout` seconds; None is no bound. Raises
        `AuthFailedError`, and stops, if the server refuses credentials.
        """
        with ending.resting(timeout):
            self._start(timeout)

    def _start(self, timeout: Optional[float]) -> None:
        self._check_process()
        until = None if timeout is None else time.monotonic() + timeout
        threads: Optional[Threads] = None
        is_connected, trouble = False, ""
        try:
            threads = self._begin_threads(until)
            is_connected = threads is not None and self._wait(functools.partial(self._is_connected, threads), until)
            trouble = self._engine.no_server(timeout)  # before the attempt that is under way is given up
        except AuthFailedError:
            self._stop(threads)  # they end by themselves, and this waits for that
            raise
        finally:
            threads = threads or self._threads()
            if not is_connected and threads is not None and not threads.are_ending():
                self._stop(threads)
        if not is_connected:
            raise TimeoutError(trouble)

    def stop(self) -> None:
        """Ends the session, with its ephemeral nodes and its watches, and the threads of the client.

        `start` begins another session. If no server ends the session within a third of its timeout, and within 2 seconds,
        it lives on for its timeout. `stop` waits at most 5 seconds for a callback that runs.
        """
        if self._is_here():
            self._stop(self._threads() or self._past)

    def close(self) -> None:
        """Frees what the client holds; it can't be started again.

        If the client was not stopped, its session lives on for its timeout, and another client can take up `saved_session`.
        """
        if not self._is_here():
            return
        while (threads := self._threads() or self._running.setdefault("threads", None)) is not None:
            threads.stop(self._engine.close)
            if not threads.are_over():
                return  # the process is held up: they close it when they go on
        try:
            self._engine.close()
        finally:
            self._sleepers.wake()

    exists = _waits(calls.exists)
    get = _waits(calls.get)
    get_children = _waits(calls.get_children)
    create = _waits(calls.create)
    create2 = _waits(calls.create2)
    ensure_path = _waits(calls.ensure_path)
    set = _waits(calls.set)
    delete = _waits(calls.delete)
    sync = _waits(calls.sync)
    fresh = _waits(calls.fresh)
    get_ephemerals = _waits(calls.get_ephemerals)
    get_all_children_number = _waits(calls.get_all_children_number)
    who_am_i = _waits(calls.who_am_i)
    multi_read = _waits(calls.multi_read)
    get_acls = _waits(calls.get_acls)
    set_acls = _waits(calls.set_acls)
    add_auth = _waits(calls.add_auth)

    exists_async = _sends(calls.exists)
    get_async = _sends(calls.get)
    get_children_async = _sends(calls.get_children)
    create_async = _sends(calls.create)
    create2_async = _sends(calls.create2)
    ensure_path_async = _sends(calls.ensure_path)
    set_async = _sends(calls.set)
    delete_async = _sends(calls.delete)
    sync_async = _sends(calls.sync)
    fresh_async = _sends(calls.fresh)
    get_ephemerals_async = _sends(calls.get_ephemerals)
    get_all_children_number_async = _sends(calls.get_all_children_number)
    who_am_i_async = _sends(calls.who_am_i)
    multi_read_async = _sends(calls.multi_read)
    get_acls_async = _sends(calls.get_acls)
    set_acls_async = _sends(calls.set_acls)
    add_auth_async = _sends(calls.add_auth)

    def transaction(self) -> Transaction:
        """Begins several changes that happen together or not at all: see `Transaction`."""
        return Transaction(self._call)

    def retry(self, function: Callable[..., Returned], *arguments: Any, **keywords: Any) -> Returned:
        """Calls a function, and calls it again while it raises an error after which that is safe.

        It follows the client's policy, or else `Retry()`. The function has to be safe to repeat up to each of its writes.

            version = client.retry(client.exists, "/config").version
        """
        attempts = (self._retry or Retry()).attempts()
        while True:
            try:
                return function(*arguments, **keywords)
            except ZookeeperError as error:
                pause = attempts.after(error)
            time.sleep(pause)

    def follow(self, path: str) -> Generator[Kept, None, None]:
        """Yields a node's data, and yields again after each change, through reconnects and new sessions.

        Each answer was good when it came; if a notice ended it at once, it has the zxid of the node's last change. If the node
        changes several times in between, the last state is yielded. The absence of the node is yielded too. The core reads the
        node again after each change, and a second after a refusal. The generator ends when the client is stopped or
        closed, or when its credentials are refused. It raises the errors of `get` that do not come from the connection, the
        session or the load of a server, such as `NoAuthError`. A server's code without an error class here is logged at
        WARNING, and the node is read again.
        """
        return self._follow(following.data_of(self._engine, path))

    def follow_children(self, path: str) -> Generator[KeptChildren, None, None]:
        """Yields the names of a node's children, and yields again after each change, as `follow` does.

        If there is no node, `exists` is false and there are no names.

            for kept in client.follow_children("/config"):
                print(kept.names, "at zxid", kept.last_zxid)
                client.stop()
        """
        return self._follow(following.children_of(self._engine, path))

    def tree(self, path: str, *, most: int = MOST_NODES) -> Tree:
        """Reads all nodes at and below a path, at most `most` of them, and reads again those that change.

        Each of its snapshots is of one moment. Close the tree when you need it no longer.

            with client.tree("/config") as tree:
                snapshot = tree.wait(timeout=10)
                print(len(snapshot), "nodes at zxid", snapshot.zxid)
        """
        tree = Tree(self, path, most)
        self._act()
        return tree

    def _follow(self, subject: following.Subject[following.Told]) -> Generator[following.Told, None, None]:
        try:
            following.begun(self._engine)
        except ZookeeperError:
            ending.rest()
            raise
        news = News()
        with following.Follower(self._engine, subject, news).listening() as next_one:
            self._act()
            while (kept := self._drive(next_one(), news)) is not None:
                yield kept

    def _call(self, request: Request[Result], timeout: Optional[float] = None) -> Result:
        if self._retry is None:
            try:
                return self._ask(request, timeout=timeout)
            except ZookeeperError:
                ending.rest()
                raise
        result: Result = self._drive(steps_of.by_policy(request, self._retry, steps_of.until_of(timeout)))
        return result

    def _run(self, plan: Plan[Result], timeout: Optional[float] = None) -> Result:
        """Makes the requests of a plan, one after the other, within a number of seconds in all."""
        return self._drive(steps_of.run(plan, self._retry, steps_of.until_of(timeout)))

    def _drive(self, steps: Steps[Result], news: Optional[News] = None) -> Result:
        """Makes steps in this thread, one after the other. The steps handle the errors and interrupts that they raise."""
        self._check_process()
        try:
            return steps_of.drive(steps, functools.partial(self._do, news or News()))
        except KeyboardInterrupt as interrupt:
            raise interrupt.with_traceback(None)  # the place within a wait says nothing
        finally:
            ending.rest()

    def _do(self, news: News, step: Step) -> Any:
        if isinstance(step, Wait):
            return news.wait(step.seconds)
        if isinstance(step, (Call, GetNews)):
            return step.function() if isinstance(step, Call) else news
        return self._ask(step.request, timeout=step.timeout) if isinstance(step, Ask) else self._ask(step)

    def _ask(
        self, request: Request[Result], patience: Optional[float] = None, timeout: Optional[float] = None
    ) -> Result:
        waiter = Waiter(self._sleepers)
        try:
            self._engine.ask(moment(), request, waiter, timeout)  # it also checks the process
            self._act()
            result: Result = waiter.result(patience)
            return result
        except BaseException:
            waiter.cancel()
            raise

    def _send(self, request: Request[Any], timeout: Optional[float] = None) -> Future:
        future = Future(self._tell, self._sleepers)
        try:
            self._hand_in(request, future, timeout)
        except ZookeeperError:
            ending.rest()
            raise
        return future

    def _hand_in(self, request: Request[Any], waiter: AnyWaiter, timeout: Optional[float] = None) -> None:
        self._engine.ask(moment(), request, waiter, timeout)
        self._act()

    def _act(self) -> None:
        """Wakes the thread of the connection, which looks for work."""
        threads = self._running.get("threads")
        if threads is not None and not threads.loop.act():
            threads = self._threads()  # those have ended: there may be later ones
            if threads is not None:
                threads.loop.act()

    def _do_first(self, begin: Callable[[AnyNews], Steps[Result]]) -> Optional[Result]:
        if self._threads() is None:
            return None
        news = News()
        return self._drive(begin(news), news)

    def _begin(
        self, begin: Callable[[AnyNews], Steps[Any]], end: Callable[[Any, Optional[BaseException]], object]
    ) -> None:
        """Lets the thread of the callbacks make steps, from the start of the client on."""
        self._engine.check_process()
        tasks = self._tasks

        def ended(result: Any, error: Optional[BaseException]) -> None:
            tasks.pop(task, None)
            end(result, error)

        task = Task(self, begin, ended)
        tasks[task] = None
        if self._threads() is not None:
            task.start()

    def _begin_plan(self, plan: Plan[Any], timeout: Optional[float] = None) -> Future:
        """Lets the thread of the callbacks make the requests of a plan."""
        self._check_process()
        future = Future(self._tell)
        future.begin()

        def end(result: Any, error: Optional[BaseException]) -> None:
            if error is not None:
                future.set_exception(error)
            else:
                future.set_result(result)

        until = steps_of.until_of(timeout)
        Task(self, lambda _: steps_of.run(plan, None, until), end).start()
        return future

    def _later(self, seconds: float, function: Callable[[], object]) -> None:
        threads = self._threads()
        if threads is not None:
            threads.loop.later(seconds, function)

    def _is_connected(self, threads: Threads) -> bool:
        """Whether a server has accepted the session that these threads keep. Raises an error if none will."""
        if threads.are_over() or threads.have_begun and self._engine.refused:
            raise self._engine.why_over("the client was stopped")
        return threads.have_begun and self._engine.is_authenticated()

    def _wait(self, condition: Callable[[], bool], until: Optional[float]) -> bool:
        """Waits until a condition holds, at most up to a moment. The engine's news wake it."""
        news = News()
        with self._engine.news(news.set):
            while not condition():
                if not news.wait(None if until is None else until - time.monotonic()):
                    return False
        return True

    def _threads(self) -> Optional[Threads]:
        """The threads of the client, if it was started and they are not over."""
        while (threads := self._running.get("threads")) is not None and threads.are_over():
            self._past, self._running = threads, threads.later
        return threads

    def _is_here(self) -> bool:
        """Whether the client was not started in another process, of which this is a forked child."""
        threads = self._threads()
        return threads is None or threads.are_here()

    def _check_process(self) -> None:
        if not self._is_here():
            raise ConnectionClosedError("the client was started in another process, before a fork: make one here")

    def _call_back(self, function: Callable[[Any], object], argument: Any) -> None:
        function(argument)

    def _tell(self, function: Callable[[Any], object], argument: Any) -> bool:
        """Lets the thread of the callbacks, if there is one, call a function."""
        threads = self._threads()
        return threads is not None and threads.callbacks.tell(function, argument)

    def _leave(self) -> None:
        """Ends the threads and the connection, at the end of the program. The session goes on for its timeout."""
        threads = self._threads()
        if threads is not None and threads.are_here():
            threads.loop.stop(self._engine.leave, LONGEST_LEAVING)

    def _begin_threads(self, until: Optional[float] = None) -> Optional[Threads]:
        """The threads of the client, which it starts if there are none. If they are being stopped, it waits for that first, at most
        up to a moment; then there are none.
        """
        while True:
            threads = self._threads()
            if threads is None:
                started = self._start_threads()
                if started is not None:
                    return started
            elif not threads.are_ending():
                return threads
            elif not self._wait(threads.are_over, until):
                return None

    def _start_threads(self) -> Optional[Threads]:
        """Starts threads and returns them, or None if somebody else was first. A stop may come at any moment."""
        from dirwolleu._threads import Threads  # here, since not each program that imports the package starts a client

        made = Threads(self._driver(), self._engine, self._sleepers, self._begin_tasks)
        threads = self._running.setdefault("threads", made)
        if threads is made:
            _started[weakref.ref(self, _started.pop)] = None
            if ending.has_come():  # after the line above: if it comes later, it finds the client
                raise ConnectionClosedError("the program ends")
            made.start()
            return made
        made.stop(lambda: None)
        if threads is None:
            raise ConnectionClosedError("the client is closed")
        return None

    def _begin_tasks(self) -> None:
        for task in list(self._tasks):
            task.start()

    def _driver(self) -> Driver:
        """Keeps the client connected, once it is started."""
        from dirwolleu._driver import Driver

        return Driver(self._servers, self._engine, self._tls, self._sasl)

    def _stop(self, threads: Optional[Threads]) -> None:
        """Ends the session that these threads keep, and them. Another thread may call it too, while it runs."""
        if threads is None:
            return
        if self.state is State.CONNECTED and not threads.are_over():
            with contextlib.suppress(ZookeeperError, TimeoutError):
                self._ask(requests.close_session(), min(self._engine.timeout() / 3, LONGEST_FAREWELL))
        threads.stop(self._engine.end)


_started: dict[weakref.ref[Client], None] = {}
"""The clients that were started. Listing them is a single step of the interpreter, while threads may start others."""


@atexit.register
def _leave_all() -> None:
    ending.begin()
    for started in list(_started):
        client = started()
        if client is not None:
            client._leave()
