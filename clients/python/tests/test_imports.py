"""Tests of the modules that an import of the package loads."""

from __future__ import annotations

import os
import subprocess
import sys
import unittest

import support

from dirwolleu import _library

SLOW = (
    "asyncio", "ssl", "inspect", "dataclasses", "subprocess", "shutil", "hashlib", "pathlib", "platform", "ipaddress",
    "uuid", "urllib.parse",
)  # fmt: skip
"""Modules that are slow to load, and that few programs want before they start a client."""


class ImportTest(unittest.TestCase):
    def test_an_import_loads_nothing_that_is_slow(self) -> None:
        program = f"import sys; sys.path.insert(0, sys.argv[1]); import dirwolleu; print(*(one for one in {SLOW} if one in sys.modules))"
        environment = {**os.environ, "DIRWOLLEU_LIBRARY": _library._find()}
        command = [sys.executable, "-S", "-c", program, str(support.CLIENTS / "python")]
        done = subprocess.run(command, env=environment, stdout=subprocess.PIPE, text=True, check=True, timeout=60)
        self.assertEqual(done.stdout.split(), [])
