"""Queues: one whose entries are deleted as they are taken, and one whose entries are locked until they are done (kazoo.recipe.queue)."""

from __future__ import annotations

import time
import uuid
from typing import TYPE_CHECKING, Any, Optional

from dirwolleu import _queues as queues
from dirwolleu.kazoo._checks import check
from dirwolleu.kazoo.exceptions import NodeExistsError, NoNodeError
from dirwolleu.kazoo.protocol.paths import join, own_path

if TYPE_CHECKING:
    from dirwolleu.client import Client
    from dirwolleu.kazoo.client import KazooClient


def _check_priority(priority: int) -> None:
    check("priority", priority, int, "must be an int")
    if not 0 <= priority <= 999:
        raise ValueError("priority must be between 0 and 999")


class BaseQueue:
    """The base of both queues."""

    def __init__(self, client: KazooClient, path: str) -> None:
        self.client, self.path = client, path


class Queue(BaseQueue):
    """A queue whose entries each go to one taker: by priority, 0 first, then in the order of making.

    An entry that was put is there once, even if an answer was lost. It is deleted before it is worked on.
    """

    def __len__(self) -> int:
        """How many entries there are."""
        return int(self.client._drive(lambda session: self._of(session)._size()))

    def get(self) -> Optional[bytes]:
        """Takes the first entry out, and returns its data: None if there is none."""
        found: Optional[bytes] = self.client._drive(lambda session: self._of(session)._get(0))
        return found

    def put(self, value: bytes, priority: int = 100) -> None:
        """Adds an entry."""
        check("value", value, bytes, "must be a byte string")
        _check_priority(priority)
        self.client._drive(lambda session: self._of(session)._put(value, priority))

    def _of(self, session: Client) -> queues.BaseQueue[Client]:
        return queues.BaseQueue(session, own_path(self.path))


class LockingQueue(BaseQueue):
    """A queue whose entries are locked by an ephemeral node as they are taken, and deleted by `consume`: if the session of the taker
    ends before, another one takes the entry.
    """

    def __init__(self, client: KazooClient, path: str) -> None:
        super().__init__(client, path)
        self.id = uuid.uuid4().hex.encode()
        self.processing_element: Optional[tuple[str, bytes]] = None
        self._locks, self._entries = join(path, "taken"), join(path, "entries")

    def __len__(self) -> int:
        """How many entries there are, with those that are locked."""
        self._ensure_paths()
        _, stat = self.client.retry(self.client.get, self._entries)
        return int(stat.children_count)

    def put(self, value: bytes, priority: int = 100) -> None:
        """Adds an entry."""
        check("value", value, bytes, "must be a byte string")
        self.put_all([value], priority)

    def put_all(self, values: list[bytes], priority: int = 100) -> None:
        """Adds all of these entries, or none."""
        check("values", values, list, "must be a list of byte strings")
        _check_priority(priority)
        for value in values:
            check("value", value, bytes, "must be a byte string")
        self._ensure_paths()
        transaction = self.client.transaction()
        for value in values:
            transaction.create(join(self._entries, f"entry-{priority:03d}-"), value, sequence=True)
        self._commit(transaction)

    def get(self, timeout: Optional[float] = None) -> Optional[bytes]:
        """Locks the first entry that nobody has locked, and returns its data. It waits for one for at most this many seconds, and then
        returns None. Until that entry is consumed or released, it returns it again.
        """
        self._ensure_paths()
        until = None if timeout is None else time.monotonic() + timeout
        changed = self.client.handler.event_object()
        while self.processing_element is None:
            changed.clear()
            self._take_first(lambda _: changed.set())
            left = None if until is None else max(until - time.monotonic(), 0)
            if self.processing_element is None and not changed.wait(left):
                return None
        return self.processing_element[1]

    def holds_lock(self) -> bool:
        """Whether the entry that was taken is still locked by this client."""
        if self.processing_element is None:
            return False
        lock = join(self._locks, self.processing_element[0])
        try:
            self.client.sync(lock)
            data, _ = self.client.retry(self.client.get, lock)
        except NoNodeError:
            return False
        return bool(data == self.id)

    def consume(self) -> bool:
        """Deletes the entry that was taken, and returns whether it was still locked."""
        return self._end(self._entries, self._locks)

    def release(self) -> bool:
        """Leaves the entry that was taken to others, and returns whether it was still locked."""
        return self._end(self._locks)

    def _end(self, *folders: str) -> bool:
        if self.processing_element is None or not self.holds_lock():
            return False
        transaction = self.client.transaction()
        for folder in folders:
            transaction.delete(join(folder, self.processing_element[0]))
        self._commit(transaction)
        self.processing_element = None
        return True

    def _commit(self, transaction: Any) -> None:
        """Raises the first error: then nothing has happened."""
        for outcome in transaction.commit():
            if isinstance(outcome, Exception):
                raise outcome

    def _take_first(self, told: Any) -> None:
        locked = set(self.client.retry(self.client.get_children, self._locks, told))
        names = self.client.retry(self.client.get_children, self._entries, told)
        for name in sorted(set(names) - locked):
            if self._lock(name):
                return

    def _lock(self, name: str) -> bool:
        """Whether the entry was there, and nobody else had locked it."""
        lock = join(self._locks, name)
        try:
            self.client.create(lock, self.id, ephemeral=True)
        except NodeExistsError:
            return False
        try:
            data, _ = self.client.retry(self.client.get, join(self._entries, name))
        except NoNodeError:  # it was consumed meanwhile
            self.client.retry(self.client.delete, lock)
            return False
        self.processing_element = name, data or b""
        return True

    def _ensure_paths(self) -> None:
        for path in (self._locks, self._entries):
            self.client.ensure_path(path)
