"""Checks that the values of a program have the right types, and fit.

A request checks its values when it is made, so that the thread that calls gets the error at once. The library decides which texts are
paths.
"""

from __future__ import annotations

import math
from typing import Any, Callable, Optional, TypeVar

Function = TypeVar("Function", bound=Callable[..., Any])


def checked_text(what: str, text: str) -> str:
    """A text. Raises `TypeError` if it is none."""
    if not isinstance(text, str):
        raise TypeError(f"{what} is a str, and not {type(text).__name__}")
    return text


def checked_path(path: str) -> str:
    """The path of a node, as a program has it. Raises `TypeError`."""
    return checked_text("a path", path)


def checked_function(what: str, function: Function) -> Function:
    """A function. Raises `TypeError` if it can't be called."""
    if not callable(function):
        raise TypeError(f"{what} is a function, and not {type(function).__name__}")
    return function


def checked_data(value: Optional[bytes]) -> Optional[bytes]:
    """The data of a node. Raises `TypeError`."""
    if value is not None and not isinstance(value, bytes):
        raise TypeError(f"data are bytes or None, and not {type(value).__name__}")
    return value


def checked_version(version: int) -> int:
    """The version of a node. Raises `TypeError` and `ValueError`."""
    return checked_int("a version", version)


def checked_number(what: str, number: float) -> float:
    """A finite number. Raises `TypeError` if it is no number, and `ValueError` if it is not finite."""
    if not isinstance(number, (int, float)):
        raise TypeError(f"{what} is a number, and not {type(number).__name__}")
    if not math.isfinite(number):
        raise ValueError(f"{what} is a number that is finite, and not {number}")
    return number


def checked_int(what: str, number: int, bits: int = 32) -> int:
    """A number that fits into these bits: a larger one would reach the library as another. Raises `TypeError` and `ValueError`."""
    if not isinstance(number, int):
        raise TypeError(f"{what} is an int, and not {type(number).__name__}")
    if not -(1 << bits - 1) <= number < 1 << bits - 1:
        raise ValueError(f"{number} does not fit into {bits} bits")
    return number
