"""What was proved, and what is made of it: the libraries that `rt ci` has proved, for other commands of the toolchain, and the checksums that the
prebuilt files and the packages are known by.

What `rt ci` leaves in crates/*/out has no note of the text that it was made from, and each other command would prove a library again that has
none. The notes are written here, by what texts and libraries hold and not by their times: of a library that is noted already, and of one that
`rt ci` keeps beside the kit, for whichever checkout on this machine has the same text over the same libraries.
"""

from __future__ import annotations

import hashlib
import importlib.machinery
import importlib.util
import os
import re
import shutil
import subprocess
import sys
from collections.abc import Iterable
from pathlib import Path
from types import ModuleType
from typing import Any

from repository import CRATES, TOP, crates_below

MEMORY = 3_700_000_000
PREBUILT = TOP / "prebuilt/x86_64-linux"
VERSION = (TOP / "VERSION").read_text(encoding="utf-8").strip()
# the crates whose code is in the packages: the C interface, and the program
LIBRARY, PROGRAM = "ffi_c", "zk_shell"


# What was proved


def lanes() -> int:
    """As many crates side by side as there are processors and, at 3.7 GB each, which is the most that one takes, memory; one at least."""
    free = re.search(r"MemAvailable:\s+(\d+)", Path("/proc/meminfo").read_text(encoding="utf-8"))
    return max(1, min(len(os.sched_getaffinity(0)), int(free[1]) * 1024 // MEMORY if free else 1))


def toolchain() -> ModuleType:
    """The toolchain's command, as a module that reads the crates of this repository as `rt ci` does."""
    command = shutil.which("rt")
    if command is None:
        sys.exit("there is no rt: the Rattle toolchain is not in the path")
    sys.dont_write_bytecode = True
    loader = importlib.machinery.SourceFileLoader("rt", os.path.realpath(command))
    spec = importlib.util.spec_from_loader("rt", loader)
    if spec is None:
        sys.exit(f"{command} cannot be read")
    module = importlib.util.module_from_spec(spec)
    loader.exec_module(module)
    module.rtlib.Crate = module.Crate
    module.Crate.allowed = module.handles_of(str(TOP))
    return module


def libraries_below(rt: ModuleType, *names: str) -> list[Any]:
    """The libraries of the repository below these crates, lowest first."""
    known: dict[str, Any] = {}
    crates = [rt.Crate(str(CRATES / name), str(TOP), known) for name in names]
    return list({it.name: it for crate in crates for it in crate.below()}.values())


def sum_of_texts(libraries: Iterable[Any]) -> str:
    """A checksum of all that these libraries are made from."""
    return sum_of(repr([it.stamp() for it in libraries]).encode())


def note(library: Any) -> None:
    """Notes beside a library the text that it was made from, which is the text that is there."""
    Path(library.folder, "out/rlib/stamp").write_text(library.stamp(), encoding="utf-8")


def take(rt: ModuleType, libraries: list[Any]) -> list[str]:
    """Takes those libraries that are proved, lowest first, and gives the names of the others, each with what is above it."""
    kept = rt.Kept(libraries)
    others: set[str] = set()
    for library in libraries:
        if any(it.name in others for it in library.deps):
            others.add(library.name)
            continue
        if not library.is_built():
            if not kept.give(library, False, kept.key(library)):
                others.add(library.name)
                continue
            note(library)
        kept.is_built(library)
    return [it.name for it in libraries if it.name in others]


# What is made of it


def sum_of(data: bytes) -> str:
    return hashlib.sha256(data).hexdigest()


def sum_of_sources(name: str) -> str:
    """A checksum of all that an archive is made from: the sources, specifications and proofs of its crate and of the crates below it."""
    summed = hashlib.sha256()
    for crate in sorted((name, *crates_below()[name])):
        for path in (path for part in ("src", "specs", "proofs") for path in sorted((CRATES / crate / part).glob("**/*")) if path.is_file()):
            summed.update(f"{path.relative_to(TOP).as_posix()}\0{sum_of(path.read_bytes())}\n".encode())
    return summed.hexdigest()


def said_by(*words: str) -> str:
    """The first line that a command prints, or none where the command is not there."""
    if not shutil.which(words[0]):
        return "none"
    return subprocess.run(words, capture_output=True, text=True, check=True).stdout.splitlines()[0].strip()
