"""`python3 -m dirwolleu serve`: a server in memory, until it is interrupted. `run` is the command."""

from __future__ import annotations

import math
import sys
import threading
import time
from collections.abc import Iterable
from typing import Callable, NamedTuple, Optional

from dirwolleu.exceptions import ZookeeperError
from dirwolleu.testing import Server

LONGEST_WAIT = 1e6
"""The longest `wait` of a script, in seconds."""


class ScriptError(Exception):
    """A line of a script that can't be read or done: its place, and why."""


class Step(NamedTuple):
    """A line of a script."""

    place: str
    word: str
    do: Callable[[Server], object]


def _bare(function: Callable[[Server], object]) -> Callable[[str], Callable[[Server], object]]:
    """A reader of the rest of a line that has only one word."""

    def read(rest: str) -> Callable[[Server], object]:
        if rest:
            raise ValueError(f"nothing comes after this word, and not {rest}")
        return function

    return read


def _path_and_text(rest: str) -> tuple[str, bytes]:
    path, _, text = rest.partition(" ")
    if not path:
        raise ValueError("a path is wanted")
    return path, text.encode(errors="surrogateescape")


def _create(rest: str) -> Callable[[Server], object]:
    path, value = _path_and_text(rest)
    return lambda server: server.create(path, value)


def _set(rest: str) -> Callable[[Server], object]:
    path, value = _path_and_text(rest)
    return lambda server: server.set(path, value)


def _delete(rest: str) -> Callable[[Server], object]:
    path, value = _path_and_text(rest)
    if value:
        raise ValueError("one path is wanted")
    return lambda server: server.delete(path)


def _wait(rest: str) -> Callable[[Server], object]:
    try:
        seconds = float(rest)
    except ValueError:
        seconds = math.nan
    if not 0 <= seconds <= LONGEST_WAIT:
        raise ValueError(f"a number of seconds is wanted, and not {rest or 'nothing'}")
    return lambda _: time.sleep(seconds)


READS: dict[str, Callable[[str], Callable[[Server], object]]] = {
    "create": _create,
    "set": _set,
    "delete": _delete,
    "drop": _bare(Server.drop),
    "expire": _bare(Server.expire),
    "stop": _bare(Server.stop),
    "restart": _bare(Server.restart),
    "wait": _wait,
}
"""The readers of the rest of a line, by its first word. They raise `ValueError`."""


def step_in(place: str, line: str) -> Optional[Step]:
    """The step of a line, or None if it is empty or a comment. Raises `ScriptError`."""
    word, _, rest = line.strip().partition(" ")
    if not word or word.startswith("#"):
        return None
    if word not in READS:
        raise ScriptError(f"{place}: unknown command: {word}; there are {', '.join(READS)}")
    try:
        return Step(place, word, READS[word](rest.lstrip()))
    except ValueError as error:
        raise ScriptError(f"{place}: {word}: {error}") from None


def read_script(file: str) -> list[Step]:
    """The steps of a script. Raises `ScriptError`."""
    try:
        with open(file, encoding="utf-8", errors="surrogateescape") as lines:
            steps = [step_in(f"{file}:{number}", line) for number, line in enumerate(lines, 1)]
    except OSError as error:
        raise ScriptError(f"{file}: {error.strerror}") from error
    return [step for step in steps if step is not None]


def do_step(server: Server, step: Step) -> None:
    """Does a step. Raises `ScriptError` if it is refused."""
    try:
        step.do(server)
    except (ZookeeperError, ValueError) as error:
        raise ScriptError(f"{step.place}: {step.word}: {error}") from error


def obey(server: Server, lines: Iterable[str]) -> None:
    """Does lines as they come. It says on standard error what is wrong with one."""
    for number, line in enumerate(lines, 1):
        try:
            step = step_in(f"line {number}", line)
            if step is not None:
                do_step(server, step)
        except ScriptError as error:
            print(f"serve: {error}", file=sys.stderr, flush=True)


def run(port: int, script: Optional[str]) -> None:
    """Serves until it is interrupted. Raises `ScriptError`, and `OSError` if it can't listen at the port."""
    steps = [] if script is None or script == "-" else read_script(script)
    first = next((place for place, step in enumerate(steps) if step.word == "wait"), len(steps))
    server = Server(port)
    try:
        server.start()
    except OSError as error:
        raise OSError(f"{error.filename}: {error.strerror}; --port 0 takes a free port") from error
    with server:
        for step in steps[:first]:
            do_step(server, step)
        print(server.hosts, flush=True)
        for step in steps[first:]:
            do_step(server, step)
        if script == "-":
            obey(server, sys.stdin)
        threading.Event().wait()
