"""A fixture for pytest: each test that takes `zookeeper` has a `dirwolleu.testing.Server` of its own.

Put this line into conftest.py:

    pytest_plugins = ["dirwolleu.testing.fixtures"]
"""

from __future__ import annotations

import importlib
from collections.abc import Iterator

from dirwolleu.testing import Server


def _zookeeper() -> Iterator[Server]:
    """A ZooKeeper server in memory, for one test."""
    with Server() as server:
        yield server


zookeeper = importlib.import_module("pytest").fixture(_zookeeper, name="zookeeper")
