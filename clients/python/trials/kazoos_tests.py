"""kazoos_tests.py [--over kazoo] [--list FILE] [TEST..]: kazoo's own tests, over dirwolleu.kazoo.

The tests are those that the package python3-kazoo of Debian installs, run by python3-pytest, each for at most 90 seconds;
the three servers are kazoo's harness's, of the package zookeeper. A TEST is a file, a class or a test of pytest, such as
`test_lock.py::KazooLockTests`. `--over kazoo` runs them over kazoo itself, to tell what is its own. `--list FILE` writes a
line for each test with its outcome. The last line tells how many passed; the status is 1 if fewer did than KAZOO.md says.
"""

from __future__ import annotations

import collections
import importlib.util
import os
import pathlib
import re
import signal
import socket
import sys
import types
from typing import Any

import pytest

FOLDER = pathlib.Path("/usr/lib/python3/dist-packages/kazoo")
TABLE = pathlib.Path(__file__).resolve().parents[1] / "KAZOO.md"
LONGEST = 90
JARS = "/usr/share/java/zookeeper.jar:/usr/share/java/slf4j-simple.jar"
SERVERS = "-Xmx128m -Djava.net.preferIPv4Stack=true -Dzookeeper.jmx.log4j.disable=true -Dzookeeper.admin.enableServer=false"


class TookTooLong(Exception):
    """A test has not ended in time."""


class Outcomes:
    """A plugin of pytest: ends each test that takes too long, and keeps the outcome of each."""

    def __init__(self) -> None:
        self.found: dict[str, str] = {}

    def pytest_runtest_logstart(self, nodeid: str) -> None:
        signal.alarm(LONGEST)

    def pytest_runtest_logreport(self, report: Any) -> None:
        name = re.sub(r".*tests/", "", report.nodeid)
        if report.when == "call" or report.outcome != "passed":
            before = self.found.get(name)
            self.found[name] = before if before not in (None, "passed") else report.outcome

    def pytest_runtest_logfinish(self, nodeid: str) -> None:
        signal.alarm(0)

    def pytest_collectreport(self, report: Any) -> None:
        if report.failed:
            self.found[f"{re.sub(r'.*tests/', '', report.nodeid)} can't be imported"] = "failed"


def module_of(name: str, path: pathlib.Path) -> types.ModuleType:
    """Imports a module of kazoo's package by its name, from its own file."""
    folders = [str(path.parent)] if path.name == "__init__.py" else None
    spec = importlib.util.spec_from_file_location(name, path, submodule_search_locations=folders)
    assert spec is not None and spec.loader is not None
    module = sys.modules[name] = importlib.util.module_from_spec(spec)
    parent, _, last = name.rpartition(".")
    setattr(sys.modules[parent], last, module)
    spec.loader.exec_module(module)
    return module


def use_dirwolleu() -> None:
    """Makes `import kazoo` give dirwolleu.kazoo, with kazoo's tests and its harness in it.

    One module of these imports three names of how kazoo spells frames, which the tests that use them can't do here.
    """
    sys.path.insert(0, str(pathlib.Path(__file__).resolve().parents[1]))
    importlib.import_module("dirwolleu.kazoo").install()
    for name in ("Connect", "int_struct", "write_string"):
        setattr(importlib.import_module("kazoo.protocol.serialization"), name, None)
    module_of("kazoo.python2atexit", FOLDER / "python2atexit.py")
    module_of("kazoo.testing", FOLDER / "testing" / "__init__.py")
    module_of("kazoo.tests", FOLDER / "tests" / "__init__.py")


def free_ports() -> int:
    """The first of thirty ports in a row at which nothing listens."""
    for first in range(21000, 30000, 50):
        taken = []
        try:
            for port in range(first, first + 30):
                taken.append(socket.create_server(("127.0.0.1", port)))
            return first
        except OSError:
            continue
        finally:
            for one in taken:
                one.close()
    sys.exit("there are no thirty free ports in a row")


def use_servers() -> None:
    os.environ.update(ZOOKEEPER_CLASSPATH=JARS, ZOOKEEPER_VERSION="3.8.0", JAVA_TOOL_OPTIONS=SERVERS)
    os.environ["ZOOKEEPER_PORT_OFFSET"] = str(free_ports())


def stop_servers() -> None:
    harness = sys.modules.get("kazoo.testing.harness")
    if harness is not None and harness.CLUSTER is not None:
        harness.CLUSTER.terminate()


def end_all(*_: object) -> None:
    stop_servers()
    os._exit(1)


def end_test(*_: object) -> None:
    raise TookTooLong(f"a test has not ended in {LONGEST} seconds")


def wanted_count() -> int:
    """How many tests pass by the table."""
    found = re.search(r"(\d+) of \d+ pass", TABLE.read_text()) if TABLE.exists() else None
    return int(found[1]) if found else 0


def main(words: list[str]) -> None:
    over_kazoo = words[:2] == ["--over", "kazoo"]
    words = words[2:] if over_kazoo else words
    listed = pathlib.Path(words[1]) if words[:1] == ["--list"] else None
    words = words[2:] if listed else words
    if any(word.startswith("-") for word in words):
        sys.exit(__doc__)
    if not over_kazoo:
        use_dirwolleu()
    use_servers()
    signal.signal(signal.SIGALRM, end_test)
    signal.signal(signal.SIGTERM, end_all)
    outcomes = Outcomes()
    tests = [str(FOLDER / "tests" / word) for word in words] or [str(FOLDER / "tests")]
    pytest.main(["-p", "no:cacheprovider", "-q", "--tb=short", "-rN", "--durations=12", "--continue-on-collection-errors", *tests], plugins=[outcomes])
    if listed is not None:
        listed.write_text("".join(f"{outcome} {name}\n" for name, outcome in sorted(outcomes.found.items())))
    counts = collections.Counter(outcomes.found.values())
    print(f"{counts['passed']} of {sum(counts.values())} passed, {counts['failed']} failed, {counts['skipped']} were skipped", flush=True)
    stop_servers()
    is_short = not words and not over_kazoo and counts["passed"] < wanted_count()
    os._exit(1 if is_short or not counts["passed"] else 0)  # it does not wait for threads of tests that have failed


main(sys.argv[1:])
