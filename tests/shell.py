"""Runs the built zk_shell, and puts what it prints, tells and answers into one text."""

from __future__ import annotations

import os
import subprocess
from pathlib import Path
from subprocess import PIPE
from typing import Any, Callable, Mapping, Sequence

TOP = Path(__file__).resolve().parents[1]
PLACES = (TOP / "prebuilt" / "x86_64-linux" / "zk_shell", TOP / "crates" / "zk_shell" / "out" / "zk_shell")
BOUND = 900
"""Seconds by the clock after which a command that hangs is ended. `trials/test` bounds what computes, by processor time."""


def program() -> str | None:
    """The program: the one that DIRWOLLEU_ZK_SHELL names, else the prebuilt one, else the one that was just built; None if there is none."""
    named = os.environ.get("DIRWOLLEU_ZK_SHELL")
    return named or next((str(place) for place in PLACES if place.is_file()), None)


def outcome(
    words: Sequence[str | bytes],
    given: bytes | int = b"",
    before: Callable[[], None] | None = None,
    out: int = PIPE,
    beside: Mapping[str, str] | None = None,
) -> str:
    """Runs a command line over this standard input, bytes or a file, and answers `PRINTED|TOLD|STATUS`, of which nothing is printed that goes to
    a file. `before` is called in the process, whose environment has the variables of `beside` too."""
    command = program()
    if command is None:
        raise FileNotFoundError(f"there is no {PLACES[0]}: build zk_shell, or name it by DIRWOLLEU_ZK_SHELL")
    source: dict[str, Any] = {"stdin": given} if isinstance(given, int) else {"input": given}
    source["env"] = {**os.environ, **(beside or {})}
    done = subprocess.run([command, *words], stdout=out, stderr=PIPE, timeout=BOUND, preexec_fn=before, **source)
    return f"{(done.stdout or b'').decode()}|{done.stderr.decode()}|{done.returncode}"
