"""The listeners, which news of a path, or of the state alone, wakes."""

from __future__ import annotations

from collections.abc import Iterator
from typing import Callable, Optional

Wake = Callable[[], None]


class Listeners:
    """Listeners by path. Any thread may add and remove one, and none takes a lock: each line here is a single step of
    the interpreter, or harms nothing if another thread comes between.
    """

    def __init__(self) -> None:
        self._by_path: dict[Optional[str], dict[object, Wake]] = {}

    def add(self, path: Optional[str], key: object, wake: Wake) -> None:
        is_there = False
        while not is_there:  # another thread may just have removed the last one, with the whole path
            of_path = self._by_path.setdefault(path, {})
            of_path[key] = wake
            is_there = self._by_path.get(path) is of_path

    def remove(self, path: Optional[str], key: object) -> None:
        self._by_path.get(path, {}).pop(key, None)
        if self._by_path.get(path, {"": ""}):
            return
        for one, wake in list(self._by_path.pop(path, {}).items()):  # those that came meanwhile
            self.add(path, one, wake)
            wake()

    def of(self, path: str) -> list[Wake]:
        return list(self._by_path.get(path, {}).values())

    def all(self) -> Iterator[Wake]:
        for of_path in list(self._by_path.values()):
            yield from list(of_path.values())
