"""Contenders of several libraries for one lock, over a real server: contenders.py HOST:PORT LIBRARY=COMMAND.., where a library is one of
those below, and its command is that of a contender without the words that README.md says. Of two contenders the first holds, and the
second waits until it is let in; each ordered pair of libraries is tried, with each kind of lock. Those with the same names wait for each
other. Of those with other names the second, if it is one of ours, says so and gives up, and the first holds on.
"""

from __future__ import annotations

import concurrent.futures
import itertools
import pathlib
import queue
import shlex
import subprocess
import sys
import threading
import time
from collections.abc import Iterator
from types import TracebackType
from typing import Callable, NamedTuple, Optional

sys.path.insert(0, str(pathlib.Path(__file__).resolve().parents[1] / "python"))

import dirwolleu  # noqa: E402

NAMES = {
    "python": ("kazoo", "curator"),
    "c": ("kazoo", "curator"),
    "rust": ("kazoo", "curator"),
    "kazoo": ("kazoo",),
    "curator": ("curator",),
}
"""The names that the contenders of a library can have."""
OURS = ("python", "c", "rust")
"""The libraries whose contenders notice those with other names."""
KINDS = ("lock", "read", "write", "election")
PAIRS = (("lock", "lock"), ("write", "write"), ("write", "read"), ("read", "write"), ("read", "read"), ("election", "election"))
"""The kinds that contend with each other in all libraries: the first holds, the second comes after it."""
CALM = 1.0
"""How long a second contender is watched while it waits, in seconds."""
WAIT = 120.0
"""The longest wait for one thing, in seconds: a busy machine takes less."""
AT_ONCE = 6


class Fault(Exception):
    """Something is not as it should be."""


class Side(NamedTuple):
    """One of two contenders."""

    library: str
    kind: str
    names: str


class Contender:
    """A contender in a process of its own."""

    def __init__(self, command: list[str], hosts: str, path: str, side: Side) -> None:
        words = [*command, hosts, path, side.kind, side.names]
        self._process = subprocess.Popen(words, stdin=subprocess.PIPE, stdout=subprocess.PIPE, text=True)
        self._lines: queue.Queue[str] = queue.Queue()
        threading.Thread(target=self._read, daemon=True).start()
        self._library = side.library

    def _read(self) -> None:
        assert self._process.stdout is not None
        for line in self._process.stdout:
            self._lines.put(line.strip())
        self._lines.put("(the end)")

    def __enter__(self) -> Contender:
        return self

    def __exit__(
        self, kind: Optional[type[BaseException]], error: Optional[BaseException], trace: Optional[TracebackType]
    ) -> None:
        if self._process.stdin is not None and not self._process.stdin.closed:
            self._process.stdin.close()
        try:
            self._process.wait(WAIT)
        except subprocess.TimeoutExpired:
            self._process.kill()
            self._process.wait()

    def does(self, command: str, answer: str) -> None:
        assert self._process.stdin is not None
        self._process.stdin.write(f"{command}\n")
        self._process.stdin.flush()
        self.says(answer)

    def says(self, wanted: str) -> None:
        try:
            line = self._lines.get(timeout=WAIT)
        except queue.Empty:
            line = "(nothing)"
        if line != wanted:
            raise Fault(f"{self._library} says '{line}', and not '{wanted}'")

    def is_silent(self, seconds: float) -> None:
        try:
            line = self._lines.get(timeout=seconds)
        except queue.Empty:
            return
        raise Fault(f"{self._library} says '{line}'")

    def ends(self) -> None:
        self.says("(the end)")
        if self._process.wait(WAIT):
            raise Fault(f"{self._library} ends with {self._process.returncode}")


class Try:
    """Two contenders at a path of their own."""

    def __init__(self, matrix: Matrix, path: str, first: Side, second: Side) -> None:
        self._matrix, self._path, self._first, self._second = matrix, path, first, second

    def __str__(self) -> str:
        return f"{' '.join(self._first)}, then {' '.join(self._second)}"

    def _contender(self, side: Side) -> Contender:
        return Contender(self._matrix.commands[side.library], self._matrix.hosts, self._path, side)

    def _has_places(self, count: int) -> None:
        """Waits until there are this many places."""
        until = time.monotonic() + WAIT
        while len(self._matrix.places(self._path)) != count:
            if time.monotonic() > until:
                raise Fault(f"there are the places {self._matrix.places(self._path)}, and not {count}")
            time.sleep(0.05)

    def run(self) -> None:
        with self._contender(self._first) as first:
            first.says("held")
            with self._contender(self._second) as second:
                if self._first.names != self._second.names:
                    self._is_mixed(first, second)
                elif self._first.kind == self._second.kind == "read":
                    self._is_shared(first, second)
                else:
                    self._is_waited_for(first, second)
            self._has_places(0)

    def _is_mixed(self, first: Contender, second: Contender) -> None:
        second.says("mixed names")
        second.ends()
        self._has_places(1)
        first.is_silent(0)
        first.does("release", "released")

    def _is_shared(self, first: Contender, second: Contender) -> None:
        second.says("held")
        first.does("release", "released")
        second.does("release", "released")

    def _is_waited_for(self, first: Contender, second: Contender) -> None:
        self._has_places(2)
        second.is_silent(CALM)
        first.does("release", "released")
        second.says("held")
        self._has_places(1)
        second.does("release", "released")


class GivingUp(Try):
    """The second one gives up."""

    def __str__(self) -> str:
        return f"{super().__str__()}, which gives up"

    def _is_waited_for(self, first: Contender, second: Contender) -> None:
        self._has_places(2)
        second.does("give up", "given up")
        self._has_places(1)
        first.is_silent(0)
        first.does("release", "released")


class Matrix:
    """All that this script tries."""

    def __init__(self, hosts: str, commands: dict[str, list[str]]) -> None:
        self.hosts, self.commands = hosts, commands
        self._client = dirwolleu.Client(hosts, 30.0)
        self._client.start(WAIT)

    def places(self, path: str) -> list[str]:
        try:
            return self._client.get_children(path)
        except dirwolleu.NoNodeError:
            return []

    def _sides(self) -> Iterator[tuple[Side, Side]]:
        """Each ordered pair with the same names, and each with others whose second one is ours."""
        for first, second in itertools.product(self.commands, self.commands):
            for names, others in itertools.product(NAMES[first], NAMES[second]):
                if names == others:
                    yield from ((Side(first, kind, names), Side(second, other, others)) for kind, other in PAIRS)
                elif second in OURS:
                    yield from ((Side(first, kind, names), Side(second, kind, others)) for kind in KINDS)

    def _giving_up(self) -> Iterator[tuple[Side, Side]]:
        for library, kind in itertools.product(self.commands, ("lock", "write", "election")):
            for names in NAMES[library]:
                yield Side("python", kind, names), Side(library, kind, names)

    def tries(self) -> Iterator[Try]:
        numbers = itertools.count()
        makes: tuple[tuple[Callable[..., Try], Iterator[tuple[Side, Side]]], ...] = (Try, self._sides()), (GivingUp, self._giving_up())
        for make, sides in makes:
            yield from (make(self, f"/contenders-{next(numbers)}", *pair) for pair in sides)


def outcome(one: Try) -> str:
    """The fault of a try, or an empty text."""
    try:
        one.run()
    except Fault as fault:
        return f"{one}: {fault}"
    return ""


def main() -> None:
    hosts, *words = sys.argv[1:]
    commands = {library: shlex.split(command) for library, _, command in (word.partition("=") for word in words)}
    began = time.monotonic()
    with concurrent.futures.ThreadPoolExecutor(AT_ONCE) as pool:
        outcomes = list(pool.map(outcome, Matrix(hosts, commands).tries()))
    faults = [words for words in outcomes if words]
    print(*faults, sep="\n", end="\n" * bool(faults))
    left = ", ".join(sorted(NAMES.keys() - commands.keys())) or "none"
    print(f"{len(outcomes)} pairs, {len(faults)} at fault, in {time.monotonic() - began:.0f} seconds; libraries that are not there: {left}")
    sys.exit(1 if faults else 0)


if __name__ == "__main__":
    main()
