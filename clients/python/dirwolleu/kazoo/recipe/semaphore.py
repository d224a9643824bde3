"""A lock that several hold at a time (kazoo.recipe.lock)."""

from __future__ import annotations

import time
import uuid
from collections.abc import Iterator
from types import TracebackType
from typing import TYPE_CHECKING, Any, Optional

from dirwolleu.kazoo.exceptions import CancelledError, KazooException, LockTimeout, NodeExistsError, NoNodeError
from dirwolleu.kazoo.protocol.paths import join
from dirwolleu.kazoo.retry import ForceRetryError, KazooRetry, RetryFailedError

if TYPE_CHECKING:
    from dirwolleu.kazoo.client import KazooClient


class Semaphore:
    """A lock that `max_leases` hold at a time. All that use its path use the same number, which the node of the path has.

    Leases are ephemeral nodes below the path. Whoever takes one holds the lock beside it, and a transaction makes the lease only
    while the lock's node is there: so there are never more than `max_leases`, if all that take one do so.

        semaphore = client.Semaphore("/downloads", "host-1", max_leases=3)
        with semaphore:
            print(semaphore.lease_holders())
    """

    def __init__(self, client: KazooClient, path: str, identifier: Optional[str] = None, max_leases: int = 1) -> None:
        self.client, self.path, self.max_leases = client, path, max_leases
        self.data = str(identifier or "").encode()
        self.wake_event = client.handler.event_object()
        self.create_path = join(path, uuid.uuid4().hex)
        self.lock_path = f"{path}-__lock__"
        self.cancelled = False
        self._retry = KazooRetry(max_tries=None, sleep_func=client.handler.sleep_func)
        self._lock: Any = None
        self._is_held = self._may_be_there = False
        self._session: Optional[int] = None

    @property
    def is_acquired(self) -> bool:
        """Whether a lease was taken and not released, in this session: it is lost with the session that took it."""
        return self._is_held and self._session == self.client._session_number()

    def cancel(self) -> None:
        """Ends a wait for a lease with `CancelledError`."""
        self.cancelled = True
        self.wake_event.set()
        if self._lock is not None:
            self._lock.cancel()

    def acquire(self, blocking: bool = True, timeout: Optional[float] = None) -> bool:
        """Takes a lease, and returns whether it has: at once, if `blocking` is false.

        Raises `LockTimeout` if there is none after `timeout` seconds, and `ValueError` if the path's node says that there are
        more leases or fewer. A lease that another call has taken is kept.
        """
        if self.is_acquired:
            return True
        until = None if timeout is None else time.monotonic() + timeout
        retry = self._retry.copy()
        retry.deadline = timeout
        self.cancelled = False
        self.client.add_listener(self._told_state)
        try:
            self._is_held = retry(self._try, blocking, until)
        except RetryFailedError:
            raise LockTimeout(f"Failed to acquire semaphore on {self.path} in time") from None
        finally:
            self.client.remove_listener(self._told_state)
            self.cancelled = False
            if not self._is_held:
                self._clean_up()
        return self._is_held

    def _told_state(self, _: str) -> None:
        self.wake_event.set()  # the lock may be lost

    def _try(self, blocking: bool, until: Optional[float]) -> bool:
        self._agree()
        self._session = self.client._session_number()
        if self._has_lease():
            return True
        self._lock = self.client.Lock(self.lock_path, self.data.decode())
        if self.cancelled:
            raise CancelledError()
        left = None if until is None else max(until - time.monotonic(), 0)
        if not self._lock.acquire(blocking=blocking, timeout=left):
            return False
        try:
            return self._take(blocking, until)
        finally:
            self._lock.release()

    def _agree(self) -> None:
        """Makes sure that the node of the path says how many leases there are. One that says something else is left as it is."""
        while True:
            try:
                data, _ = self.client.get(self.path)
                break
            except NoNodeError:
                pass
            try:
                self.client.create(self.path, str(self.max_leases).encode(), makepath=True)
            except NodeExistsError:
                pass
        number = (data or b"").decode("utf-8", "replace")
        if number.removeprefix("-").isdecimal() and int(number) != self.max_leases:  # those of `dirwolleu.Semaphore` are below 0
            raise ValueError(f"{self.path} has {number} leases at most, and not {self.max_leases}")

    def _has_lease(self) -> bool:
        """Whether the lease of an earlier try, whose answer was lost, is there."""
        stat = self.client.exists(self.create_path) if self._may_be_there else None
        return stat is not None and stat.ephemeralOwner == self._session

    def _take(self, blocking: bool, until: Optional[float]) -> bool:
        """Waits for room, while the lock is held."""
        while True:
            self.wake_event.clear()
            names = self.client.get_children(self.path, lambda _: self.wake_event.set())
            if self.cancelled:
                raise CancelledError()
            if len(names) < self.max_leases:
                self._make()
                return True
            if not blocking:
                return False
            if not self.wake_event.wait(None if until is None else max(until - time.monotonic(), 0)):
                raise LockTimeout(f"Failed to acquire semaphore on {self.path} in time")
            if not self._lock.is_acquired:
                raise ForceRetryError()

    def _make(self) -> None:
        transaction = self.client.transaction()
        transaction.check(join(self.lock_path, self._lock.node), -1)
        transaction.create(self.create_path, self.data, ephemeral=True)
        self._may_be_there = True
        _, made = transaction.commit()
        if isinstance(made, Exception) and not self._has_lease():
            raise ForceRetryError()  # the lock is lost

    def _clean_up(self) -> None:
        """Deletes the nodes that a wait that has ended may have left."""
        self._lock = None
        try:
            if self._may_be_there:
                self.client.delete(self.create_path)
        except KazooException:
            pass  # there is none, or the session ends it

    def release(self) -> bool:
        """Releases the lease, and returns whether there was one."""
        return bool(self.client.retry(self._release))

    def _release(self) -> bool:
        if not self.is_acquired:
            return False
        try:
            self.client.delete(self.create_path)
        except NoNodeError:
            pass
        self._is_held = self._may_be_there = False
        return True

    def lease_holders(self) -> list[str]:
        """The identifiers of those that hold a lease, in no order."""
        return list(self._holders())

    def _holders(self) -> Iterator[str]:
        try:
            names = self.client.retry(self.client.get_children, self.path)
        except NoNodeError:
            return
        for name in names:
            try:
                data, _ = self.client.retry(self.client.get, join(self.path, name))
                yield (data or b"").decode()
            except NoNodeError:
                pass  # it was released

    def __enter__(self) -> Semaphore:
        self.acquire()
        return self

    def __exit__(
        self, kind: Optional[type[BaseException]], error: Optional[BaseException], trace: Optional[TracebackType]
    ) -> None:
        self.release()
