"""Why a text is no path of a node, in words. The library decides whether it is one."""

from __future__ import annotations

import re
from typing import Optional

_LONGEST_PATH = 4096
_LONGEST_SHOWN = 256
"""How many characters of a path a message has at most."""

_BAD = re.compile("[\0-\x1f\x7f-\x9f\ud800-\uf8ff\ufff0-\U0010ffff]")


def why_no_path(text: str) -> Optional[str]:
    """The first reason why a text is no path, and None if this function sees none."""
    if not text:
        return "it is empty"
    if len(text.encode(errors="replace")) > _LONGEST_PATH:
        return f"more than {_LONGEST_PATH} bytes"
    if not text.startswith("/"):
        return "no slash at its beginning"
    if _BAD.search(text):
        return "a character that paths do not have"
    names = text[1:].split("/")
    if "" in names and text != "/":
        return "an empty name"
    return "a name that is . or .." if "." in names or ".." in names else None


def shown(path: str) -> str:
    """A path as messages have it: without control characters, and cut to a readable length."""
    text = "".join(one if one.isprintable() else ascii(one)[1:-1] for one in path[:_LONGEST_SHOWN])
    return f"{text}.." if len(path) > _LONGEST_SHOWN else text or '""'


def no_path(path: str, full: str = "") -> ValueError:
    """The error for a program's text that is no path, or whose path at the servers is none. If that of `/` is none, the root is at fault.
    """
    why = why_no_path(path) or (why_no_path(full) if full else None)
    named = full if path == "/" and full else path
    return ValueError(f"{shown(named)} is no path" + (f": {why}" if why else ""))


def parent(path: str) -> str:
    return path.rpartition("/")[0] or "/"
