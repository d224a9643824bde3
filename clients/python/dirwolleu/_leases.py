"""How both kinds of clients take a lease of a semaphore: by a contender of the core, once the node of the path says how many there are.

Only that number is read and compared here. It is below 0, since semaphores of kazoo, which count other nodes, have one above it: so neither
enters a path of the other.
"""

from __future__ import annotations

from typing import Any, Callable, Optional

from dirwolleu import _library as library
from dirwolleu import _plans as plans
from dirwolleu import _requests as requests
from dirwolleu._contenders import Contender
from dirwolleu._locks import BETWEEN_TRIES, LEASES, AnyClient, AnyHeld, BaseTaker, Taken, identifiers
from dirwolleu._plans import Acls, Plan
from dirwolleu._records import Mode
from dirwolleu._retry import is_lived_through
from dirwolleu._steps import Steps, Wait, bounded, run
from dirwolleu.exceptions import MixedNamesError, NodeExistsError, NoNodeError, ZookeeperError

_OF_CURATOR = "leases"
"""The node below which Curator's `InterProcessSemaphoreV2` has its leases."""


def _number_in(data: Optional[bytes]) -> Optional[int]:
    """The number in the node of a semaphore, or None: the node may be used for something else too."""
    try:
        return int(data or b"")
    except ValueError:
        return None


class BaseSemaphore(BaseTaker[AnyClient, AnyHeld]):
    """A semaphore, for both kinds of clients."""

    def __init__(
        self,
        client: AnyClient,
        path: str,
        identifier: str = "",
        max_leases: int = 1,
        *,
        acl: Acls = None,
        on_lost: Optional[Callable[[AnyHeld], object]] = None,
        keeps_while_suspended: bool = False,
    ) -> None:
        super().__init__(client, path, identifier, acl=acl, on_lost=on_lost, keeps_while_suspended=keeps_while_suspended)
        if max_leases < 1:
            raise ValueError("a semaphore has one lease at least")
        self._most = max_leases

    def _contender(self, on_lost: Callable[[Any], object]) -> Contender:
        return Contender(self._path, library.LEASES + self._most, plans.new_tag().hex, self._data, self._acl, on_lost)

    def _take(self, on_lost: Callable[[Any], object], until: Optional[float]) -> Steps[Taken]:
        yield from self._agree(until)
        return (yield from super()._take(on_lost, until))

    def _agree(self, until: Optional[float]) -> Steps[None]:
        """Makes sure that the node says how many leases there are, through any number of connections and sessions."""
        while True:
            try:
                yield from bounded(self._agreed(), until)
                return
            except ZookeeperError as error:
                if not is_lived_through(error):
                    raise
            yield from bounded(_pause(), until)

    def _agreed(self) -> Plan[None]:
        while True:
            try:
                data, _ = yield requests.get(self._path, None)
                of_curator = yield requests.exists(plans.child_of(self._path, _OF_CURATOR), None)
            except NoNodeError:
                yield from self._make_path()
            else:
                self._check(_number_in(data), of_curator is not None)
                return

    def _check(self, number: Optional[int], is_of_curator: bool) -> None:
        """Raises `MixedNamesError` at the node of another library's semaphore, and `ValueError` if it says another number."""
        if is_of_curator or number is not None and number > 0:
            whose = "Curator" if is_of_curator else "kazoo"
            error = MixedNamesError(f"the node is that of a semaphore of {whose}", "take another path")
            error.path = self._path
            raise error
        if number not in (None, -self._most):
            raise ValueError(f"{self._path} has {-(number or 0)} leases at most, and not {self._most}")

    def _make_path(self) -> Plan[None]:
        yield from plans.ensure_path(plans.parent_of(self._path), self._acl)
        try:
            yield plans.create_request(self._path, b"-%d" % self._most, self._acl, Mode())
        except NodeExistsError:
            pass

    def _lease_holders(self) -> Steps[list[str]]:
        """The identifiers of those that hold a lease, in the order of their nodes. It shows the nodes of a moment, and decides nothing."""
        return run(identifiers(self._client._engine, self._path, LEASES, self._most), self._client._retry, None)


def _pause() -> Steps[None]:
    yield Wait(BETWEEN_TRIES)
