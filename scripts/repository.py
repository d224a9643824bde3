"""The repository as git and crates.txt have it, and the base: the last commit on which the whole gate passed, which scripts/base.txt names; what
is of it, and what is said since."""

from __future__ import annotations

import io
import re
import subprocess
import sys
import tarfile
from functools import cache
from pathlib import Path

TOP = Path(__file__).resolve().parent.parent
CRATES = TOP / "crates"
BASE = TOP / "scripts/base.txt"
PASSED = "scripts/statements --passed COMMIT, where COMMIT is an ancestor of HEAD on which the whole gate passed"


# What is there


def git(*words: str) -> subprocess.CompletedProcess[str]:
    return subprocess.run(["git", *words], cwd=TOP, capture_output=True, text=True, errors="replace", check=False)


@cache
def tracked(*folders: str) -> list[str]:
    """The files that git has or would take from the work tree, of these folders or all."""
    names = git("ls-files", "-z", "--cached", "--others", "--exclude-standard", *folders).stdout.split("\0")
    return sorted({name for name in names if name and (TOP / name).is_file()})


def texts_of(*folders: str) -> dict[str, str]:
    """The texts of these folders as git has or would take them."""
    return {name: (TOP / name).read_text(encoding="utf-8", errors="replace") for name in tracked(*folders)}


@cache
def crates_listed() -> dict[str, list[str]]:
    """Each crate of crates.txt, lowest first, with all that are in its line."""
    lines = [line.split("#")[0] for line in (TOP / "crates.txt").read_text(encoding="utf-8").splitlines()]
    return {line.split(":")[0].split()[0]: line.split(":")[1].split() for line in lines if line.strip()}


@cache
def crates_below() -> dict[str, list[str]]:
    """Each crate with the repository's libraries below it, lowest first."""
    below: dict[str, list[str]] = {}
    for name, uses in crates_listed().items():
        found = {it for use in uses for it in (use, *below.get(use, []))}
        below[name] = [it for it in crates_listed() if it in found]
    return below


@cache
def static_libraries() -> frozenset[str]:
    """The crates whose functions C calls."""
    return frozenset(re.findall(r"^(\w+) staticlib\b", (TOP / "crates.txt").read_text(encoding="utf-8"), re.M))


# The base


def has_commit(commit: str) -> bool:
    return not git("cat-file", "-e", f"{commit}^{{commit}}").returncode


def is_ancestor(commit: str) -> bool:
    return not git("merge-base", "--is-ancestor", commit, "HEAD").returncode


@cache
def base() -> str:
    """The base. A shallow clone that has it not takes the rest of its history first, if its origin can be had."""
    lines = BASE.read_text(encoding="utf-8").splitlines() if BASE.is_file() else []
    named = [line for line in lines if line and not line.startswith("#")]
    if len(named) != 1 or not re.fullmatch(r"[0-9a-f]{40}", named[0]):
        sys.exit(f"base: scripts/base.txt names no commit: run {PASSED}")
    if git("rev-parse", "--is-inside-work-tree").stdout.strip() != "true":
        sys.exit("base: this is no clone, so nothing says what changed since the base: the gate runs in a clone by git")
    is_shallow = git("rev-parse", "--is-shallow-repository").stdout.strip() == "true"
    if is_shallow and not (has_commit(named[0]) and is_ancestor(named[0])):
        print("base: this clone is shallow, and takes the rest of its history: git fetch --unshallow", flush=True)
        git("fetch", "--quiet", "--unshallow")
    if not has_commit(named[0]):
        why = "this clone is shallow: run git fetch --unshallow" if is_shallow else f"fetch it, or run {PASSED}"
        sys.exit(f"base: the commit {named[0]}, which scripts/base.txt names, is not in this clone, so nothing says what changed since: {why}")
    if not is_ancestor(named[0]):
        sys.exit(f"base: the commit {named[0]}, which scripts/base.txt names, is no ancestor of HEAD: run {PASSED}")
    return named[0]


def write_base(commit: str) -> None:
    found = git("rev-parse", "--verify", f"{commit}^{{commit}}").stdout.strip()
    if not found or not is_ancestor(found):
        sys.exit(f"base: {commit} is no ancestor of HEAD")
    head = "# The last commit on which the whole gate passed: what changed since is what the gate looks at (scripts/statements --since).\n"
    BASE.write_text(f"{head}{found}\n", encoding="utf-8")


@cache
def messages() -> str:
    """What the commits since the base say, each with its first line."""
    return git("log", "--format=%B", f"{base()}..HEAD").stdout


def is_named(*names: str) -> bool:
    """Whether one of these names stands as a whole word in a commit's message since the base."""
    return any(name and re.search(rf"(?<![\w']){re.escape(name)}(?![\w'])", messages()) for name in names)


@cache
def texts_at(commit: str, *folders: str) -> dict[str, str]:
    """The texts of these folders as a commit has them; none where there is no such commit."""
    listed = git("ls-tree", "-r", "--name-only", commit, *folders).stdout
    run = subprocess.run(["git", "archive", commit, *folders], cwd=TOP, capture_output=True, check=False) if listed else None
    if not run or run.returncode:
        return {}
    with tarfile.open(fileobj=io.BytesIO(run.stdout)) as archive:
        read = {it.name: archive.extractfile(it) for it in archive if it.isfile()}
        return {name: part.read().decode("utf-8", "replace") for name, part in read.items() if part}
