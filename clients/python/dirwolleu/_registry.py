"""The functions of the program that wait for watches."""

from __future__ import annotations

from collections.abc import Iterable
from typing import Callable, Union

from dirwolleu import _library as library
from dirwolleu._requests import Watcher
from dirwolleu.types import WatchedEvent

Function = Callable[[WatchedEvent], object]


class Watchers:
    """The functions that wait for watches, by side and path, each once: one by itself, and several as the keys of a dict. So a
    watched node takes little memory.
    """

    def __init__(self) -> None:
        self._by_side: dict[int, dict[str, Union[Function, dict[Function, None]]]] = {
            library.DATA_SIDE: {},
            library.CHILDREN_SIDE: {},
        }

    def add(self, watcher: Watcher) -> None:
        path, side, function = watcher
        found = self._by_side[side].setdefault(path, function)
        if isinstance(found, dict):
            found[function] = None
        elif found != function:
            self._by_side[side][path] = {found: None, function: None}

    def take(self, path: str, side: int) -> Iterable[Function]:
        """The functions that wait for a watch of this path, in the order in which they came. They wait no longer."""
        found = self._by_side[side].pop(path, None)
        return () if found is None else found if isinstance(found, dict) else (found,)

    def has(self, path: str) -> bool:
        """Whether a function waits for a watch of this path."""
        return any(path in of_side for of_side in self._by_side.values())

    def all(self) -> list[Watcher]:
        return [
            Watcher(path, side, function)
            for side, of_side in self._by_side.items()
            for path, found in of_side.items()
            for function in (found if isinstance(found, dict) else (found,))
        ]

    def clear(self) -> None:
        for of_side in self._by_side.values():
            of_side.clear()
