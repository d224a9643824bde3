"""Parties: members that are seen while they live (kazoo.recipe.party)."""

from __future__ import annotations

import uuid
from collections.abc import Iterator
from typing import TYPE_CHECKING, Optional

from dirwolleu.kazoo.exceptions import NodeExistsError, NoNodeError
from dirwolleu.kazoo.protocol.paths import join

if TYPE_CHECKING:
    from dirwolleu.kazoo.client import KazooClient


class BaseParty:
    """A node, and an ephemeral one below it for each member."""

    node: str

    def __init__(self, client: KazooClient, path: str, identifier: Optional[str] = None) -> None:
        self.client, self.path = client, path
        self.data = str(identifier or "").encode()
        self.participating = False
        self._is_path_there = False

    @property
    def create_path(self) -> str:
        """The path of this member's node."""
        return join(self.path, self.node)

    def join(self) -> None:
        """Takes part. It may be called again."""
        self.client.retry(self._join)

    def _join(self) -> None:
        self._ensure_parent()
        try:
            self.client.create(self.create_path, self.data, ephemeral=True)
        except NodeExistsError:
            pass  # a lost answer
        self.participating = True

    def leave(self) -> bool:
        """No longer takes part, and returns whether it did."""
        self.participating = False
        return bool(self.client.retry(self._leave))

    def _leave(self) -> bool:
        try:
            self.client.delete(self.create_path)
        except NoNodeError:
            return False
        return True

    def __len__(self) -> int:
        """How many take part."""
        self._ensure_parent()
        return len(self._names())

    def _ensure_parent(self) -> None:
        if not self._is_path_there:
            self.client.ensure_path(self.path)
            self._is_path_there = True

    def _names(self) -> list[str]:
        names: list[str] = self.client.retry(self.client.get_children, self.path)
        return names


class Party(BaseParty):
    """Members whose identifiers are the data of their nodes."""

    _NODE_NAME = "__party__"

    def __init__(self, client: KazooClient, path: str, identifier: Optional[str] = None) -> None:
        super().__init__(client, path, identifier)
        self.node = uuid.uuid4().hex + self._NODE_NAME

    def __iter__(self) -> Iterator[str]:
        """The identifiers of the members."""
        self._ensure_parent()
        for name in self._names():
            try:
                data, _ = self.client.retry(self.client.get, join(self.path, name))
                yield (data or b"").decode()
            except NoNodeError:
                pass  # it has left

    def _names(self) -> list[str]:
        return [name for name in super()._names() if self._NODE_NAME in name]


class ShallowParty(BaseParty):
    """Members whose identifiers are part of the names of their nodes, so that one call brings all of them."""

    def __init__(self, client: KazooClient, path: str, identifier: Optional[str] = None) -> None:
        super().__init__(client, path, identifier)
        self.node = f"{uuid.uuid4().hex}-{identifier or ''}"

    def __iter__(self) -> Iterator[str]:
        """The identifiers of the members."""
        self._ensure_parent()
        for name in self._names():
            yield name.partition("-")[2]
