"""Tests of trials/test: its report on languages that can't be tried here."""

from __future__ import annotations

import os
import pathlib
import subprocess
import sys
import tempfile
import unittest

from support import CLIENTS, WAIT

SCRIPT = CLIENTS.parent / "trials" / "test"


class TrialsTest(unittest.TestCase):
    def setUp(self) -> None:
        folder = tempfile.TemporaryDirectory()
        self.addCleanup(folder.cleanup)
        self.tools = pathlib.Path(folder.name)

    def put(self, name: str, says: str = "") -> None:
        """Puts a tool into the path, which prints this."""
        tool = self.tools / name
        tool.write_text(f"#!/bin/sh\necho '{says}'\n")
        tool.chmod(0o755)

    def tried(self, *parts: str) -> tuple[int, str]:
        """The exit status and the last line of the script, if only these tools are in the path."""
        environment = {**os.environ, "PATH": str(self.tools), "CC": "cc"}
        done = subprocess.run([sys.executable, str(SCRIPT), *parts], env=environment, capture_output=True, text=True, timeout=6 * WAIT)
        return done.returncode, (done.stdout + done.stderr).splitlines()[-1]

    def test_what_is_missing_is_named(self) -> None:
        lines = "skipped: c (there is no cc, ld, ar, objcopy), rust (there is no cargo, rustc)"
        self.assertEqual(self.tried("c", "rust"), (1, lines))
        for name in ("cc", "ld", "ar", "objcopy"):
            self.put(name)
        self.assertEqual(self.tried("c"), (1, "skipped: c (there is no make)"))

    def test_a_cargo_that_is_too_old_is_told_from_one_that_is_not_there(self) -> None:
        for name in ("cc", "ld", "ar", "objcopy", "cargo"):
            self.put(name)
        self.put("rustc", "rustc 1.63.0 (4b91a6ea7 2022-08-08)")
        lines = "skipped: rust (Rust 1.63 is older than 1.70, which the crate wants; rustup and Debian's cargo-web are newer)"
        self.assertEqual(self.tried("rust"), (1, lines))

    def test_a_part_that_is_none_is_refused(self) -> None:
        self.assertEqual(self.tried("ruby"), (1, "test: no part: ruby"))
