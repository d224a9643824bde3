"""Runs the built zk_shell with all that is outside it in memory, each part of which may fail: outside.c, loaded before the C library."""

from __future__ import annotations

import os
import shutil
import subprocess
import tempfile
from pathlib import Path
from typing import NamedTuple, Sequence

import machine  # noqa: F401
from shell import outcome
from tables import HERE

from dirwolleu.testing import _library as bench  # machine has put it on the path

BENCH = Path(bench._find())
COMPILER = os.environ.get("CC", "cc").split(" ")


def lacks_compiler() -> bool:
    return shutil.which(COMPILER[0]) is None


class Refused(NamedTuple):
    """How a run ended in which one request for memory was refused."""

    printed: str
    told: str
    status: int


class Outside:
    """A folder with the library, and with the files of the run."""

    def __init__(self) -> None:
        self._held = tempfile.TemporaryDirectory()
        self.folder = Path(self._held.name)
        self._library = self.folder / "outside.so"
        flags = ["-std=c11", "-O1", "-Wall", "-Wextra", "-Wpedantic", "-Werror", "-shared", "-fPIC", f"-Wl,-rpath,{BENCH.parent}"]
        sources = [str(HERE / f"{name}.c") for name in ("outside", "partners", "tree_server")]
        subprocess.run([*COMPILER, *flags, *sources, str(BENCH), "-o", str(self._library)], check=True)

    def close(self) -> None:
        self._held.cleanup()

    def _file(self, name: str, text: str) -> str:
        (self.folder / name).write_bytes(text.encode())
        return str(self.folder / name)

    def run(self, words: Sequence[str], script: str, table: str = "", **parts: int) -> str:
        """A command's `PRINTED|TOLD|STATUS` over this standard input and this table. A part is one of outside.c in small letters."""
        settings = {f"OUTSIDE_{name.upper()}": str(value) for name, value in parts.items()}
        return self._run(words, script, {"OUTSIDE_TABLE": self._file("table", table), **settings})

    def _run(self, words: Sequence[str], script: str, settings: dict[str, str]) -> str:
        with open(self._file("input", script), "rb") as given:
            return outcome(words, given.fileno(), beside={"LD_PRELOAD": str(self._library), **settings})

    def refusals(self, words: Sequence[str], script: str, table: str = "") -> tuple[str, list[Refused]]:
        """What `run` answers, and how the command ends where each request for memory is refused in turn."""
        reports = self._file("refused", "")
        whole = self._run(words, script, {"OUTSIDE_TABLE": self._file("table", table), "OUTSIDE_REFUSED": reports})
        return whole, reports_in(Path(reports).read_bytes())


def reports_in(data: bytes) -> list[Refused]:
    found, at = [], 0
    while at < len(data):
        end = data.index(b"\n", at)
        status, printed, told = map(int, data[at:end].split())
        first, second, at = end + 1, end + 1 + printed, end + 1 + printed + told
        found.append(Refused(data[first:second].decode(), data[second:at].decode(), status))
    return found
