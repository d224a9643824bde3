"""A set that is shared out among the members of a party (kazoo.recipe.partitioner)."""

from __future__ import annotations

import functools
import logging
import os
import socket
import time
from collections.abc import Iterable, Iterator
from typing import TYPE_CHECKING, Any, Callable, Optional

from dirwolleu.kazoo.exceptions import KazooException, LockTimeout
from dirwolleu.kazoo.protocol.paths import join
from dirwolleu.kazoo.protocol.states import KazooState
from dirwolleu.kazoo.recipe.watchers import PatientChildrenWatch

if TYPE_CHECKING:
    from dirwolleu.kazoo.client import KazooClient
    from dirwolleu.kazoo.handlers.threading import AsyncResult

log = logging.getLogger(__name__)

Share = Callable[[str, list[str], Iterable[Any]], list[Any]]


class PartitionState:
    """The state of a partitioner."""

    ALLOCATING = "ALLOCATING"
    """The members are not at rest, or the locks of this one's part are not all held."""
    ACQUIRED = "ACQUIRED"
    """This one's part is its own."""
    RELEASE = "RELEASE"
    """The members have changed: call `release_set`."""
    FAILURE = "FAILURE"
    """The session is over, or the party was left."""


class SetPartitioner:
    """Shares the members of a set out among those that take part, each of which holds a lock for each member of its part.

    The program has to look at `state` again and again: while it is acquired, the partitioner is the members of its part;
    if it is release, the program ends its work and calls `release_set`. `partition_func` takes the identifier, those of
    all that take part, and the set, and returns a part. The party has to be at rest for `time_boundary` seconds.
    `state_change_event` is set at each change of the state.

        shares = client.SetPartitioner("/shares", set=("a", "b", "c"))
        shares.wait_for_acquire()
        print(list(shares))
        shares.finish()
    """

    def __init__(
        self,
        client: KazooClient,
        path: str,
        set: Iterable[Any],
        partition_func: Optional[Share] = None,
        identifier: Optional[str] = None,
        time_boundary: float = 30,
        max_reaction_time: float = 1,
        state_change_event: Any = None,
    ) -> None:
        self.state_id = 0
        self.state = PartitionState.ALLOCATING
        self.state_change_event = state_change_event or client.handler.event_object()
        self._client, self._set = client, set
        self._share = partition_func or _round_robin
        self._identifier = identifier or f"{socket.getfqdn()}-{os.getpid()}"
        self._time_boundary, self._longest_wait = time_boundary, max_reaction_time
        self._part: list[Any] = []
        self._locks: list[Any] = []
        self._changes, self._is_settled = client.handler.rlock_object(), client.handler.event_object()
        self._lock_path, self._party_path = join(path, "locks"), join(path, "party")
        for folder in (self._lock_path, self._party_path):
            client.ensure_path(folder)
        self._party = client.ShallowParty(self._party_path, identifier=self._identifier)
        self._party.join()
        client.add_listener(self._told_state)
        self._begin()

    def __iter__(self) -> Iterator[Any]:
        """The members of this one's part, while it is acquired."""
        yield from self._part if self.acquired else ()

    @property
    def failed(self) -> bool:
        """Whether it no longer takes part."""
        return self.state == PartitionState.FAILURE

    @property
    def release(self) -> bool:
        """Whether to call `release_set`."""
        return self.state == PartitionState.RELEASE

    @property
    def allocating(self) -> bool:
        """Whether its part is not its own yet."""
        return self.state == PartitionState.ALLOCATING

    @property
    def acquired(self) -> bool:
        """Whether its part is its own."""
        return self.state == PartitionState.ACQUIRED

    def wait_for_acquire(self, timeout: float = 30) -> None:
        """Waits until it has its part, or no longer takes part, for at most this many seconds: `state` says which."""
        self._is_settled.wait(timeout)

    def release_set(self) -> None:
        """Releases the part, and shares out again."""
        self._part = []
        if not self._release_locks():
            self._fail_out()
            return
        with self._changes:
            if self.failed:
                return
            self._enter(PartitionState.ALLOCATING)
            self._is_settled.clear()
        self._begin()

    def finish(self) -> None:
        """Releases the part, and no longer takes part."""
        self._release_locks()
        self._fail_out()

    def _fail_out(self) -> None:
        with self._changes:
            self._enter(PartitionState.FAILURE)
        self._client.remove_listener(self._told_state)
        if self._party.participating:
            try:
                self._party.leave()
            except KazooException:
                pass  # it ends with the session
        self._is_settled.set()

    def _enter(self, state: str) -> None:
        self.state = state
        self.state_id += 1
        self.state_change_event.set()

    def _begin(self) -> None:
        """Waits for the party to be at rest, and then takes the part in a thread of its own."""
        watch = PatientChildrenWatch(self._client, self._party_path, self._time_boundary)
        watch.start().rawlink(functools.partial(self._at_rest, self.state_id))

    def _at_rest(self, state_id: int, result: AsyncResult) -> None:
        if not result.successful():
            log.error("the members of %s are not known: %s", self._party_path, result.exception)
            self._fail_out()
            return
        _, changed = result.get()
        changed.rawlink(functools.partial(self._told_change, state_id))
        self._client.handler.spawn(self._allocate, state_id, changed)

    def _told_change(self, state_id: int, _: object) -> None:
        """The members have changed: an acquired part is to be released. While it is allocated, `_allocate` looks."""
        with self._changes:
            if self.acquired and self.state_id == state_id + 1:
                self._enter(PartitionState.RELEASE)

    def _allocate(self, state_id: int, changed: AsyncResult) -> None:
        try:
            self._take_part(state_id, changed)
        except Exception:
            log.exception("the part of %s can't be taken", self._identifier)
            self._release_locks()
            self._fail_out()

    def _take_part(self, state_id: int, changed: AsyncResult) -> None:
        part = self._share(self._identifier, list(self._party), self._set)
        for member in part:
            lock = self._client.Lock(join(self._lock_path, str(member)))
            if not self._takes(lock, state_id, changed):
                return self._begin_again(state_id)
            self._locks.append(lock)
        with self._changes:
            if self._is_current(state_id) and not changed.ready():
                self._part = part
                self._enter(PartitionState.ACQUIRED)
                self._is_settled.set()
                return
        self._begin_again(state_id)

    def _takes(self, lock: Any, state_id: int, changed: AsyncResult) -> bool:
        """Whether a lock is held now. It does not wait for the lock if the members change meanwhile."""
        while self._is_current(state_id) and not changed.ready():
            try:
                if lock.acquire(timeout=self._longest_wait):
                    return True
            except LockTimeout:
                pass
        return False

    def _is_current(self, state_id: int) -> bool:
        return self.allocating and self.state_id == state_id

    def _begin_again(self, state_id: int) -> None:
        if not self._release_locks():
            self._fail_out()
        elif self._is_current(state_id):
            self._begin()

    def _release_locks(self) -> bool:
        """Releases all locks, and returns whether they are gone: it tries for the timeout of the session."""
        until = time.monotonic() + self._client._granted_timeout()
        while self._locks:
            try:
                self._locks[-1].release()
                self._locks.pop()
            except KazooException:
                if time.monotonic() > until:
                    return False
                self._client.handler.sleep_func(0.1)
        return True

    def _told_state(self, state: str) -> Optional[bool]:
        """A lost connection may lose the part; an expired session has lost it."""
        if self.failed:
            return True
        with self._changes:
            if state == KazooState.SUSPENDED and self.acquired:
                self._enter(PartitionState.RELEASE)
        if state == KazooState.LOST:
            self._client.handler.spawn(self._fail_out)
            return True
        return None


def _round_robin(identifier: str, members: Iterable[str], partitions: Iterable[Any]) -> list[Any]:
    """Each takes every n-th member of the set, from its own place on, if n take part."""
    ranked = sorted(members)
    return sorted(partitions)[ranked.index(identifier) :: len(ranked)]
