"""A number that is changed by compare and set (kazoo.recipe.counter)."""

from __future__ import annotations

import struct
from typing import TYPE_CHECKING, Any, Optional

from dirwolleu._counters import BaseCounter
from dirwolleu.kazoo.protocol.paths import own_path

if TYPE_CHECKING:
    from dirwolleu.client import Client
    from dirwolleu.kazoo.client import KazooClient


class _CuratorsCounter(BaseCounter["Client", int]):
    """A number as Curator's `SharedCount` has it."""

    def _number(self, data: Optional[bytes]) -> int:
        return int(struct.unpack(">i", data)[0]) if data else self._default

    def _spelled(self, number: int) -> bytes:
        return struct.pack(">i", number)


class Counter:
    """An int or a float, as `default` is. Each change happens once, whoever else changes the number: if its answer was lost, the
    counter looks for it. With `support_curator` it is an int of 32 bits in the form of Curator's `SharedCount`.

        counter = client.Counter("/jobs")
        counter += 2
        print(counter.pre_value, "was changed to", counter.post_value)
    """

    def __init__(self, client: KazooClient, path: str, default: Any = 0, support_curator: bool = False) -> None:
        if support_curator and not isinstance(default, int):
            raise TypeError("when support_curator is enabled the default type must be an int")
        self.client, self.path, self.default, self.support_curator = client, path, default, support_curator
        self.default_type = type(default)
        self.pre_value: Any = None
        self.post_value: Any = None

    @property
    def value(self) -> Any:
        """The number."""
        return self.client._drive(lambda session: self._of(session)._getting())

    def __add__(self, value: Any) -> Counter:
        """Adds to the number. Raises `TypeError` for a value of another type."""
        if not isinstance(value, self.default_type):
            raise TypeError("invalid type for value change")
        self.post_value = None
        self.post_value = self.client._drive(lambda session: self._of(session)._changing(lambda number: self._added(number, value)))
        return self

    def __sub__(self, value: Any) -> Counter:
        """Subtracts from the number."""
        return self.__add__(-value)

    def _added(self, number: Any, value: Any) -> Any:
        self.pre_value = number
        return number + value

    def _of(self, session: Client) -> BaseCounter[Client, Any]:
        kind: type[BaseCounter[Client, Any]] = _CuratorsCounter if self.support_curator else BaseCounter
        return kind(session, own_path(self.path), self.default)
