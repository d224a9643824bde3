"""Recipes over a client with threads: locks, a semaphore, an election, a registration, barriers, a counter, a queue.

The proved core contends for locks; the rest is tested. `dirwolleu.aio` has the same as coroutines.
"""

from __future__ import annotations

import threading
from contextlib import AbstractContextManager
from types import TracebackType
from typing import TYPE_CHECKING, Any, Callable, Optional, TypeVar, cast, overload

from dirwolleu import _ending as ending
from dirwolleu import _locks as locks
from dirwolleu._barriers import BaseBarrier, BaseDoubleBarrier
from dirwolleu._calls import shown
from dirwolleu._counters import BaseCounter, Number
from dirwolleu._leases import BaseSemaphore
from dirwolleu._locks import READING, WRITING, BaseHeld, BaseLock, BaseTaker, Taken
from dirwolleu._plans import Acls
from dirwolleu._queues import BaseQueue
from dirwolleu._registrations import BaseRegistration
from dirwolleu._steps import Result, Steps
from dirwolleu.client import Client

__all__ = [
    "Barrier",
    "Counter",
    "DoubleBarrier",
    "Election",
    "Held",
    "Lock",
    "Queue",
    "ReadLock",
    "Registration",
    "Semaphore",
    "WriteLock",
]

if TYPE_CHECKING:
    from typing_extensions import Concatenate, ParamSpec

    Given = ParamSpec("Given")

Returned = TypeVar("Returned")


def _does(call: Callable[Concatenate[Any, Given], Steps[Result]]) -> Callable[Concatenate[Any, Given], Result]:
    """A function that makes the steps of a recipe, and waits for their end."""

    def does(recipe: Any, /, *given: Given.args, **named: Given.kwargs) -> Result:
        result: Result = recipe._client._drive(call(recipe, *given, **named))
        return result

    return shown(does, call)


class Held(BaseHeld[Client], AbstractContextManager["Held"]):
    """A lock or a lease that was taken: see `Lock`.

        with dirwolleu.Lock(client, "/locks/job") as held:
            if held.wait_lost(0.5):  # or `on_lost` of the lock, which is called then
                print("stop the work: another one may hold")
    """

    release = _does(BaseHeld._release)
    wait_lost = _does(BaseHeld._losing)

    def __exit__(
        self, kind: Optional[type[BaseException]], error: Optional[BaseException], trace: Optional[TracebackType]
    ) -> None:
        self.release()


class _Taker(BaseTaker[Client, Held]):
    """A lock or a semaphore, which is released at the end of a `with` block."""

    def acquire(self, timeout: Optional[float] = None) -> Held:
        """Waits until the lock is held. It is not reentrant: a holder that takes it again waits for itself.

        Raises `LockTimeout` after `timeout` seconds, and leaves no contender then; a timeout of 0 tries once. It waits until no contender
        is left, for twice the timeout of the session at most, as when there is no connection; after that the core goes on to delete it. The
        wait survives lost connections, expired sessions and calls without an answer: it raises no `CallTimeoutError`. Raises
        `MixedNamesError` if others contend by other names; `ConnectionClosedError` when the client is stopped; another `ZookeeperError` if
        a server refuses to make or to show the nodes, and one that says so when their numbers at the path are used up.
        """
        return self._client._drive(self._taking(timeout))

    def _held(self, taken: Taken) -> Held:
        return Held(self._client, taken, self._on_lost, self._keeps)

    def __enter__(self) -> Held:
        return self._enter(threading.get_ident(), self.acquire())

    def __exit__(
        self, kind: Optional[type[BaseException]], error: Optional[BaseException], trace: Optional[TracebackType]
    ) -> None:
        self._exit(threading.get_ident()).release()


class Lock(_Taker, BaseLock[Client, Held]):
    """An exclusive lock: at each zxid, one contender at a path holds it at most. All contenders of a path use one kind of `names`: kazoo's
    or Curator's.

    The contenders are ephemeral nodes below the path, in the order of their numbers. The proved core contends: it makes the node, finds it
    again if an answer was lost, watches it and the last one before it, and deletes it when the lock is released or a wait ends. It says
    whether the node holds, and by which token: no other one was before it in a listing that was answered after it was made, and it is
    there, at the last seen zxid. After an expiry a wait goes on by another node. The proof holds if all contenders at the path are made as
    these are, and by fewer than 2,147,483,648 creates; the code here, which waits for the core's reports, is tested.

    With `names="kazoo"` kazoo's `Lock`, and those of Dirwolleu in C and Rust by these names, are in the same line; with `names="curator"`
    Curator's `InterProcessMutex` is. kazoo and Curator do not see each other's contenders: `acquire` raises `MixedNamesError` if the core
    finds one of other names before this one holds.

    The node, and those at the path and above it that are made, have this `acl`, a list of `security.ACL`; without one they are open to all.

    A program that was paused, or whose packets are late, can still believe that it holds when another one does. So work in small steps,
    `check` before each, and pass the `token` along. `on_lost` is called once, in the thread of the callbacks, when the lock is lost: with
    the connection, the session or the node. With `keeps_while_suspended` a lost connection alone does not end it, as long as the session
    goes on: it is held as of the last seen zxid, and `check(within)` says when that is too long ago. A lock that was lost once stays lost:
    release it. If the node is gone, or its data were set, the core does not take it again, and another one may hold.

        lock = dirwolleu.Lock(client, "/locks/job", identifier="host-1")
        with lock as held:
            for part in range(3):
                held.check()
                print(part, "with token", held.token)
    """

    contenders = _does(BaseLock._contenders)


class WriteLock(Lock):
    """The exclusive side of a lock that others share: it is held while no other one holds the lock, shared or not.

    With `names="kazoo"` it contends with kazoo's `WriteLock`, and with `names="curator"` with the `writeLock` of Curator's
    `InterProcessReadWriteLock`. All else is as for `Lock`.

        with dirwolleu.WriteLock(client, "/locks/table") as held:
            print("writes with token", held.token)
    """

    _kind = WRITING


class ReadLock(Lock):
    """The shared side of a lock: any number hold it at a time, while no `WriteLock` and no `Lock` at the path does.

    It waits only for those that came before it and do not share. With `names="kazoo"` it shares with kazoo's `ReadLock`, and with
    `names="curator"` with the `readLock` of Curator's `InterProcessReadWriteLock`. The tokens of those that hold it together have no order
    that says anything; a `WriteLock` that comes after them has a greater one.

        with dirwolleu.ReadLock(client, "/locks/table") as held:
            held.check()
    """

    _kind = READING


class Semaphore(_Taker, BaseSemaphore[Client, Held]):
    """A lock that `max_leases` hold at a time, at each zxid. It has no `names`: its nodes are its own, and it shares with those of
    Dirwolleu in C and Rust alone.

    Leases are ephemeral nodes below the path, in the order of their numbers, and the first `max_leases` of them hold: the
    proved core contends, as for `Lock`. The node of the path says how many they are, by a number below 0. Semaphores of kazoo,
    which count other nodes, have one above it: `acquire` raises `MixedNamesError` there, and at the nodes of Curator's
    `InterProcessSemaphoreV2`; and kazoo's raises `ValueError` here. That number is read and compared here, and is not proved.

    `acquire`, `check`, `acl`, `on_lost` and `keeps_while_suspended` are as for `Lock`; besides, `acquire` raises
    `ValueError` if the node says that there are more leases or fewer. The token of a lease is the zxid at which it was made; it is
    of no use to fence, since others hold beside it.

        semaphore = dirwolleu.Semaphore(client, "/downloads", max_leases=3)
        with semaphore as held:
            held.check()
    """

    lease_holders = _does(BaseSemaphore._lease_holders)


class Election:
    """One of the candidates at a path leads at a time: whoever holds the lock there.

    All candidates of a path use one kind of `names`. Its nodes are those of a `Lock`: with `names="kazoo"` it contends with
    kazoo's `Election`, and with `names="curator"` with Curator's `LeaderSelector`. Curator's `LeaderLatch` has names of its
    own: if `run` finds these, it raises `MixedNamesError`.

        election = dirwolleu.Election(client, "/leader", identifier="host-1")
        election.run(lambda held: print("leads with token", held.token))
    """

    def __init__(
        self,
        client: Client,
        path: str,
        identifier: str = "",
        *,
        names: str = locks.KAZOO,
        acl: Acls = None,
        on_lost: Optional[Callable[[Held], object]] = None,
        keeps_while_suspended: bool = False,
    ) -> None:
        self._lock = Lock(
            client, path, identifier, names=names, acl=acl, on_lost=on_lost, keeps_while_suspended=keeps_while_suspended
        )

    def run(self, lead: Callable[[Held], Returned]) -> Returned:
        """Waits until this candidate leads, calls a function with the lock that it holds, and returns its result. Before that it raises
        what `Lock.acquire` raises.

        Leadership ends with the function. The function has to `check`, and to return if the lock is lost.
        """
        with self._lock as held:
            return lead(held)

    def contenders(self) -> list[str]:
        """The identifiers of the candidates, the leader's first."""
        return self._lock.contenders()

    def leader(self) -> Optional[str]:
        """The identifier of the leader, or None if there is no candidate. The caller need not be one: it shows the nodes of a moment."""
        return next(iter(self._lock.contenders(1)), None)


class Registration(BaseRegistration[Client], AbstractContextManager["Registration"]):
    """An ephemeral node that is made again in each new session, until it is withdrawn.

    It waits until a node of an earlier session of this program is gone. If somebody deletes the node, it makes the node again, and if
    somebody sets other data, it sets its own again. The thread of the callbacks does that, and is not held up by it.

        with dirwolleu.Registration(client, "/workers/host-1", b"10.0.0.1:80") as registration:
            registration.wait(10.0)
            registration.set(b"10.0.0.1:81")
    """

    def __init__(self, client: Client, path: str, value: bytes = b"") -> None:
        self._is_there = threading.Event()
        super().__init__(client, path, value, self._is_there)

    def __exit__(
        self, kind: Optional[type[BaseException]], error: Optional[BaseException], trace: Optional[TracebackType]
    ) -> None:
        self.withdraw()

    def wait(self, timeout: Optional[float] = None) -> bool:
        """Waits until the node is there, for at most this many seconds, and returns whether it is."""
        self._client._engine.check_process()
        with ending.resting():
            return self._is_there.wait(timeout)

    set = _does(BaseRegistration._set)
    withdraw = _does(BaseRegistration._withdraw)


class Barrier(BaseBarrier[Client]):
    """Holds clients back while its node is there, as kazoo's `Barrier` does.

        barrier = dirwolleu.Barrier(client, "/migration")
        barrier.create()
        barrier.remove()
        is_open = barrier.wait(10.0)
    """

    create = _does(BaseBarrier._create)
    remove = _does(BaseBarrier._remove)
    wait = _does(BaseBarrier._wait)


class DoubleBarrier(BaseDoubleBarrier[Client]):
    """A barrier at which `num_clients` wait for one another, before and after their work, by kazoo's nodes.

        barrier = dirwolleu.DoubleBarrier(client, "/step", num_clients=1)
        if barrier.enter(60.0):
            print("all have come")
            barrier.leave(60.0)
    """

    enter = _does(BaseDoubleBarrier._enter)
    leave = _does(BaseDoubleBarrier._leave)


class Counter(BaseCounter[Client, Number]):
    """A number that is changed by compare and set, by the node of kazoo's `Counter`: an int or a float, as `default` is.

    Each change happens once, whoever else changes the number. If the answer to one was lost, the counter looks for the change: if it has
    not happened, it asks again; if it can't find out, it raises a `ConnectionLoss` that says that it may have happened.

        counter = dirwolleu.Counter(client, "/jobs", default=0)
        before = counter.get()
        print(counter.add(5), "is", counter.change(lambda number: number * 2) // 2)
    """

    @overload
    def __init__(self: Counter[int], client: Client, path: str) -> None: ...

    @overload
    def __init__(self, client: Client, path: str, default: Number) -> None: ...

    def __init__(self, client: Client, path: str, default: Any = 0) -> None:
        super().__init__(client, path, default)

    def get(self) -> Number:
        """The number. Raises `ValueError` if the node has other data."""
        return self._client._drive(self._getting())

    def add(self, number: Number) -> Number:
        """Adds a number and returns the sum. Raises `TypeError`, and changes nothing, if a counter of ints would have no int."""
        return self.change(lambda current: cast(Number, current + number))

    def change(self, function: Callable[[Number], Number]) -> Number:
        """Sets the number to what a function returns for it, and returns that.

        It calls the function again if another client was first. Raises `TypeError` as `add` does.
        """
        return self._client._drive(self._changing(function))


class Queue(BaseQueue[Client]):
    """A queue whose entries each go to one taker: by priority, 0 first, then in the order of making.

    An entry that was put is there once, even if an answer was lost. It is deleted before it is worked on: if its taker ends then, nobody
    works on it. For work that must not be lost, see the queue of docs/COOKBOOK.md, which deletes after the work. The nodes have the names
    of kazoo's `Queue`, with a tag more.

        queue = dirwolleu.Queue(client, "/jobs")
        queue.put(b"one")
        data = queue.get(10.0)
    """

    put = _does(BaseQueue._put)
    get = _does(BaseQueue._get)
    __len__ = _does(BaseQueue._size)
