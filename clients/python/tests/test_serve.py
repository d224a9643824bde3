"""Tests of `python3 -m dirwolleu serve`, as a shell and a machine that tests programs start it."""

from __future__ import annotations

import contextlib
import io
import os
import pathlib
import re
import signal
import subprocess
import sys
import tempfile
import time
import unittest
from typing import Any
from unittest import mock

from support import CLIENTS, TIMEOUT, WAIT

from dirwolleu import Client, Retry, serve
from dirwolleu.__main__ import main
from dirwolleu.shell.words import SERVE_EPILOG
from dirwolleu.testing import Server

ENVIRONMENT = {**os.environ, "PYTHONPATH": str(CLIENTS / "python")}


class ServeTest(unittest.TestCase):
    is_long = True

    def setUp(self) -> None:
        folder = tempfile.TemporaryDirectory()
        self.addCleanup(folder.cleanup)
        self.script = pathlib.Path(folder.name, "script")

    def begin(self, *words: str, given: int = subprocess.DEVNULL) -> subprocess.Popen[str]:
        command = [sys.executable, "-m", "dirwolleu", "serve", "--port", "0", *words]
        process = subprocess.Popen(
            command, stdin=given, stdout=subprocess.PIPE, stderr=subprocess.PIPE, text=True, env=ENVIRONMENT
        )
        self.addCleanup(self.end, process)
        return process

    def end(self, process: subprocess.Popen[str]) -> None:
        process.kill()
        process.communicate(timeout=WAIT)

    def address(self, process: subprocess.Popen[str]) -> str:
        assert process.stdout is not None
        address = process.stdout.readline().rstrip("\n")
        self.assertRegex(address, r"^127\.0\.0\.1:\d+$")
        return address

    def test_it_serves_without_standard_input_until_it_is_ended(self) -> None:
        process = self.begin()
        with Client(self.address(process), TIMEOUT) as client:
            client.create("/a", b"one")
            self.assertEqual(client.get("/a")[0], b"one")
        self.assertIsNone(process.poll())
        process.send_signal(signal.SIGINT)
        self.assertEqual(process.communicate(timeout=WAIT), ("", ""))
        self.assertEqual(process.returncode, 130)

    def test_it_serves_in_the_background_of_a_shell_with_no_standard_input_at_all(self) -> None:
        line = f"{sys.executable} -m dirwolleu serve --port 0 <&- & echo $!"
        shell = subprocess.Popen(["/bin/sh", "-c", line], stdout=subprocess.PIPE, text=True, env=ENVIRONMENT)
        assert shell.stdout is not None
        process = int(shell.stdout.readline())
        self.addCleanup(shell.stdout.close)
        self.addCleanup(os.kill, process, signal.SIGKILL)
        shell.wait(WAIT)
        with Client(self.address(shell), TIMEOUT) as client:
            self.assertEqual(client.get_children("/"), [])

    def test_the_lines_before_a_wait_are_done_first(self) -> None:
        self.script.write_text("# nodes\n\ncreate /a\n  create /a/b one  two\nwait 0.2\nset /a/b three\nexpire\ndelete /a/b\ndrop\n")
        process = self.begin("--script", str(self.script))
        with Client(self.address(process), TIMEOUT, retry=Retry(deadline=WAIT)) as client:
            values = list[Any]()
            for kept in client.follow("/a/b"):
                values.append(kept.data)
                if kept.data is None:
                    break
            self.assertEqual([value for value in (b"one  two", b"three", None) if value in values], values)
            self.assertTrue(client.retry(client.exists, "/a"))

    def test_a_server_stops_and_comes_again(self) -> None:
        self.script.write_text("create /a\nwait 0.1\nstop\nwait 0.1\nrestart\nset /a back\n")
        with Client(self.address(self.begin("--script", str(self.script))), TIMEOUT) as client:
            self.assertTrue(any(kept.data == b"back" for kept in client.follow("/a")))

    def test_lines_of_standard_input_are_done_as_they_come(self) -> None:
        process = self.begin("--script", "-", given=subprocess.PIPE)
        assert process.stdin is not None and process.stderr is not None
        with Client(self.address(process), TIMEOUT) as client:
            process.stdin.write("create /a one\nhelp\ncreate /a\nset /b\n")
            process.stdin.flush()
            said = [process.stderr.readline() for _ in range(3)]
            self.assertEqual(client.get("/a")[0], b"one")
            process.stdin.close()
            time.sleep(0.1)
            self.assertEqual(client.get("/a")[0], b"one")
        self.assertRegex(said[0], "^serve: line 2: unknown command: help; there are create, set, .*wait$")
        self.assertEqual(said[1:], ["serve: line 3: create: there is a node already: /a\n", "serve: line 4: set: no node: /b\n"])
        process.stdin = None

    def test_what_is_wrong_has_its_place(self) -> None:
        for text, status, wanted in [
            ("create /a\nfly\n", 1, r"script:2: unknown command: fly; there are create,"),
            ("create\n", 1, r"script:1: create: a path is wanted"),
            ("create /a/b\n", 1, r"script:1: create: no node: /a"),
            ("create a\n", 1, r"script:1: create: a is no path"),
            ("delete /a x\n", 1, r"script:1: delete: one path is wanted"),
            ("drop 1\n", 1, r"script:1: drop: nothing comes after this word, and not 1"),
            ("wait\n", 1, r"script:1: wait: a number of seconds is wanted, and not nothing"),
            ("wait nan\n", 1, r"script:1: wait: a number of seconds is wanted, and not nan"),
            (None, 1, r"script: No such file or directory"),
        ]:
            self.script.unlink(missing_ok=True)
            if text is not None:
                self.script.write_text(text)
            self.assertRegex(self.refused(status, "--port", "0", "--script", str(self.script)), f"^serve: .*{wanted}")

    def refused(self, status: int, *words: str) -> str:
        said, printed = io.StringIO(), io.StringIO()
        with contextlib.redirect_stderr(said), contextlib.redirect_stdout(printed):
            found = main(["serve", *words])
        self.assertEqual((found, printed.getvalue()), (status, ""), said.getvalue())
        return said.getvalue()

    def test_a_port_that_is_taken_is_named_with_what_to_do(self) -> None:
        with Server() as server:
            said = self.refused(1, "--port", str(server.port))
            self.assertEqual(said, f"serve: {server.hosts}: Address already in use; --port 0 takes a free port\n")
        self.assertIn('"65536" is no port: a number from 0 to 65535', self.refused(2, "--port", "65536"))

    def test_the_help_names_the_lines_that_there_are(self) -> None:
        self.assertEqual(re.findall(r"^  ([a-z]+)", SERVE_EPILOG, re.M), list(serve.READS))
        printed = io.StringIO()
        with mock.patch.dict(os.environ, {"COLUMNS": "80"}), contextlib.redirect_stdout(printed):
            self.assertEqual(main(["serve", "--help"]), 0)
        self.assertLessEqual(max(map(len, printed.getvalue().splitlines())), 80)
