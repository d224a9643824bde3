"""Leases: a holder keeps one for a time, also while it does not run (kazoo.recipe.lease)."""

from __future__ import annotations

import datetime
import json
import socket
from typing import TYPE_CHECKING, Any, Callable, Optional

from dirwolleu.kazoo.exceptions import BadVersionError, NodeExistsError, NoNodeError
from dirwolleu.kazoo.protocol.paths import join

if TYPE_CHECKING:
    from dirwolleu.kazoo.client import KazooClient
    from dirwolleu.kazoo.protocol.states import ZnodeStat

_MOMENT = "%Y-%m-%dT%H:%M:%S"


class NonBlockingLease:
    """A lease of one holder, for `duration` from now on. It is true if it was obtained: `identifier`, which is the name of the host
    if it is None, had it already, or nobody has it any more.

    It does not wait for a holder. The clocks of the hosts decide who has it: they have to agree. kazoo's leases are of the same
    nodes.

        if client.NonBlockingLease("/leases/report", datetime.timedelta(hours=1)):
            print("this host writes the report")
    """

    _version = 1
    """The form in which the holder is written. A lease in another form is not touched."""

    def __init__(
        self,
        client: KazooClient,
        path: str,
        duration: datetime.timedelta,
        identifier: Optional[str] = None,
        utcnow: Callable[[], datetime.datetime] = datetime.datetime.utcnow,
    ) -> None:
        self._client, self._path = client, join(path, "lease_holder")
        self._identifier, self._duration, self._utcnow = identifier or socket.gethostname(), duration, utcnow
        with client.Lock(path, self._identifier):
            self.obtained = self._obtain()

    def __bool__(self) -> bool:
        return self.obtained

    def _obtain(self) -> bool:
        """Whether the lease is this one's from now on. If this one has lost the lock meanwhile, its write is refused."""
        now = self._utcnow()
        try:
            data, stat = self._client.get(self._path)
        except NoNodeError:
            return self._write(now, None)
        return self._is_free(json.loads(data or b"{}"), now) and self._write(now, stat)

    def _is_free(self, found: dict[str, Any], now: datetime.datetime) -> bool:
        if found["version"] != self._version:
            return False
        return bool(found["holder"] == self._identifier or datetime.datetime.strptime(found["end"], _MOMENT) <= now)

    def _write(self, now: datetime.datetime, stat: Optional[ZnodeStat]) -> bool:
        end = (now + self._duration).strftime(_MOMENT)
        data = json.dumps({"version": self._version, "holder": self._identifier, "end": end}).encode()
        try:
            if stat is None:
                self._client.create(self._path, data)
            else:
                self._client.set(self._path, data, stat.version)
        except (NodeExistsError, NoNodeError, BadVersionError):
            return False
        return True


class MultiNonBlockingLease:
    """A lease that `count` hold at a time: it is true if one of as many leases below the path was obtained."""

    def __init__(
        self,
        client: KazooClient,
        count: int,
        path: str,
        duration: datetime.timedelta,
        identifier: Optional[str] = None,
        utcnow: Callable[[], datetime.datetime] = datetime.datetime.utcnow,
    ) -> None:
        places = (join(path, str(number)) for number in range(count))
        self.obtained = any(NonBlockingLease(client, place, duration, identifier, utcnow) for place in places)

    def __bool__(self) -> bool:
        return self.obtained
