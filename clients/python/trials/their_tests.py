"""their_tests.py tooz|taskflow HOST:PORT [--over kazoo]: the tests of a program for ZooKeeper, over dirwolleu.kazoo.

The tests are those that the packages python3-tooz and python3-taskflow of Debian install. `--over kazoo` runs them over
kazoo itself, to tell what is its own. Each test is a line; the last line tells how many there were.
"""

from __future__ import annotations

import importlib
import os
import pathlib
import sys
import types
import unittest
from typing import Any
from unittest import mock

CLASSES = {
    "tooz": ["tooz.tests.test_coordination:TestAPI"],
    "taskflow": [
        "taskflow.tests.unit.jobs.test_zk_job:ZookeeperJobboardTest",
        "taskflow.tests.unit.persistence.test_zk_persistence:ZkPersistenceTest",
    ],
}


def use_dirwolleu() -> None:
    """Makes `import kazoo` give dirwolleu.kazoo. Their fake client, which is made of recipes of kazoo, is left out."""
    sys.path.insert(0, str(pathlib.Path(__file__).resolve().parents[1]))
    importlib.import_module("dirwolleu.kazoo").install()
    for name in ("zake", "zake.fake_client", "zake.utils"):
        sys.modules[name] = types.ModuleType(name)
    sys.modules["zake"].fake_client = mock.MagicMock()  # type: ignore[attr-defined]
    sys.modules["zake"].utils = mock.MagicMock()  # type: ignore[attr-defined]


def use_server(program: str, host: str) -> None:
    if program == "tooz":
        os.environ["TOOZ_TEST_URL"] = f"zookeeper://{host}?timeout=10"
    else:
        settings: Any = importlib.import_module("taskflow.tests.utils")
        settings.ZK_TEST_CONFIG["hosts"] = [host]
        settings.WAIT_TIMEOUT = 30


def tests_of(program: str) -> unittest.TestSuite:
    suite = unittest.TestSuite()
    for named in CLASSES[program]:
        module, _, kind = named.partition(":")
        suite.addTests(unittest.defaultTestLoader.loadTestsFromTestCase(getattr(importlib.import_module(module), kind)))
    return suite


def main(words: list[str]) -> None:
    if len(words) not in (2, 4) or words[0] not in CLASSES or words[2:3] not in ([], ["--over"]):
        sys.exit(__doc__)
    if words[2:] != ["--over", "kazoo"]:
        use_dirwolleu()
    use_server(words[0], words[1])
    outcome = unittest.TextTestRunner(sys.stdout, verbosity=2).run(tests_of(words[0]))
    sys.exit(0 if outcome.wasSuccessful() and outcome.testsRun > len(outcome.skipped) else 1)


main(sys.argv[1:])
