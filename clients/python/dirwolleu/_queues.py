"""A queue, for both kinds of clients."""

from __future__ import annotations

import re
from typing import Generic, Optional

from dirwolleu import _plans as plans
from dirwolleu import _records as records
from dirwolleu import _requests as requests
from dirwolleu._engine import News
from dirwolleu._locks import BETWEEN_TRIES, AnyClient, names_of, patiently
from dirwolleu._plans import Plan
from dirwolleu._retry import is_lived_through
from dirwolleu._steps import Ask, GetNews, Steps, TimeIsOver, Wait, bounded, run, until_of
from dirwolleu.exceptions import BadVersionError, NoNodeError, ZookeeperError

_ENTRY = re.compile(r"entry-(\d{3})-(?:.*-)?(\d{10})$")
_MOST_PRIORITY = 999


def in_turn(names: list[str]) -> list[str]:
    """The names of entries in the order in which they are taken: by priority, and then in the order of their making.

    >>> in_turn(["entry-100-0000000003", "entry-001-tag-0000000007", "entry-100-tag-0000000001", "other"])
    ['entry-001-tag-0000000007', 'entry-100-tag-0000000001', 'entry-100-0000000003']
    """
    found = ((_ENTRY.match(name), name) for name in names)
    return [name for _, name in sorted(((int(match[1]), int(match[2])), name) for match, name in found if match)]


class BaseQueue(Generic[AnyClient]):
    """A queue, for both kinds of clients."""

    def __init__(self, client: AnyClient, path: str) -> None:
        self._client, self._path = client, path

    def _put(self, value: bytes, priority: int = 100) -> Steps[str]:
        """Adds an entry, and returns its path. A priority is 0 to 999."""
        if not 0 <= priority <= _MOST_PRIORITY:
            raise ValueError(f"a priority is 0 to {_MOST_PRIORITY}")
        tag = f"entry-{priority:03d}-{plans.new_tag().hex}-"
        while True:
            try:
                yield from plans.ensure_path(self._path, None)
                return str((yield requests.create(plans.child_of(self._path, tag), value, False, True)))
            except ZookeeperError as error:
                if not is_lived_through(error):
                    raise
                may_be_there = error.may_have_happened
            yield Wait(BETWEEN_TRIES)
            if may_be_there:  # it is looked for by its tag
                found: Optional[str] = yield from patiently(self._client._engine, lambda: self._find(tag))
                if found is not None:
                    return found

    def _find(self, tag: str) -> Plan[Optional[str]]:
        yield records.sync(self._path)
        names = yield from names_of(self._path)
        return next((plans.child_of(self._path, name) for name in names if name.startswith(tag)), None)

    def _get(self, timeout: Optional[float] = None) -> Steps[Optional[bytes]]:
        """Takes the first entry out, waits for one for at most this many seconds, and returns its data: None if none came. A
        timeout of 0 tries once.

        Once it has asked for the delete of an entry, it waits for the answer to that as any call does: so it may take longer than
        `timeout`. Raises `ConnectionLoss` or `CallTimeoutError`, with `may_have_happened`, if that answer does not come: the entry
        may be gone, the error's `entry` is its data, and `path` is its path. With asyncio the entry may be gone too if the call is
        cancelled.
        """
        news: News = yield GetNews()
        with self._client._engine.news(news.set):
            try:
                return (yield from bounded(self._take(news), until_of(timeout)))
            except TimeIsOver:
                return None

    def _take(self, news: News) -> Steps[bytes]:
        """Waits until there is an entry, deletes it, and returns its data."""
        while True:
            news.clear()
            try:
                names = yield requests.get_children(self._path, lambda _: news.set())
                for name in in_turn(names):
                    data = yield from self._claim(plans.child_of(self._path, name))
                    if data is not None:
                        self._client._engine.used()
                        return data
                yield Wait(None)
            except NoNodeError:
                yield from plans.ensure_path(self._path, None)
            except ZookeeperError as error:
                if not is_lived_through(error) or error.may_have_happened:
                    raise
                yield Wait(BETWEEN_TRIES)

    def _claim(self, path: str) -> Steps[Optional[bytes]]:
        """Deletes an entry, and returns its data: None if another one was faster. It waits for the answer to the delete as any call
        does, however little time is left: else the entry might be gone and nobody would know.
        """
        data = b""
        try:
            data, stat = yield requests.get(path, None)
            yield Ask(requests.delete(path, stat.version), None)
        except (NoNodeError, BadVersionError):
            return None
        except ZookeeperError as error:
            error.entry = data or b"" if error.may_have_happened else None
            raise
        return data or b""

    def _size(self) -> Steps[int]:
        """How many entries there are."""
        return run(self._count(), self._client._retry, None)

    def _count(self) -> Plan[int]:
        names = yield from names_of(self._path)
        return len(in_turn(names))
