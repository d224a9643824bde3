"""Barriers: one that holds clients back, and one at which they wait for one another (kazoo.recipe.barrier)."""

from __future__ import annotations

from typing import TYPE_CHECKING, Optional

from dirwolleu import _plans as plans
from dirwolleu._barriers import BaseBarrier, BaseDoubleBarrier
from dirwolleu.kazoo.exceptions import KazooException
from dirwolleu.kazoo.protocol.paths import join, own_path

if TYPE_CHECKING:
    from dirwolleu.client import Client
    from dirwolleu.kazoo.client import KazooClient


class Barrier:
    """Holds clients back while its node is there. It survives lost connections and expired sessions."""

    def __init__(self, client: KazooClient, path: str) -> None:
        self.client, self.path = client, path

    def create(self) -> None:
        """Puts the barrier up, if it is not up."""
        self.client._drive(lambda session: self._of(session)._create())

    def remove(self) -> bool:
        """Takes the barrier away, and returns whether there was one."""
        return bool(self.client._drive(lambda session: self._of(session)._remove()))

    def wait(self, timeout: Optional[float] = None) -> bool:
        """Waits until there is no barrier, for at most this many seconds, and returns whether it is gone."""
        return bool(self.client._drive(lambda session: self._of(session)._wait(timeout)))

    def _of(self, session: Client) -> BaseBarrier[Client]:
        return BaseBarrier(session, own_path(self.path))


class DoubleBarrier:
    """A barrier at which `num_clients` wait for one another, before and after their work."""

    def __init__(self, client: KazooClient, path: str, num_clients: int, identifier: Optional[str] = None) -> None:
        self.client, self.path, self.num_clients = client, path, num_clients
        self.participating = False
        self.node_name = plans.new_tag().hex
        self.create_path = join(path, self.node_name)
        self._identifier = identifier or ""

    def enter(self) -> None:
        """Waits until all have come. If that fails, this member does not take part, as `participating` shows."""
        try:
            self.participating = bool(self.client._drive(lambda session: self._of(session)._enter()))
        except KazooException:
            self.participating = False

    def leave(self) -> None:
        """Waits until all have left."""
        try:
            self.client._drive(lambda session: self._of(session)._leave())
        except KazooException:
            pass
        self.participating = False

    def _of(self, session: Client) -> BaseDoubleBarrier[Client]:
        return BaseDoubleBarrier(session, own_path(self.path), self.num_clients, self._identifier, self.node_name)
