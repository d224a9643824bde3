"""The lines of the README and the example, run against the partner."""

from __future__ import annotations

import contextlib
import io
import re
import signal
import subprocess
import sys
import threading
import unittest
from unittest import mock

from support import CLIENTS, WAIT, PartnerCase, within

import dirwolleu

README = CLIENTS / "python" / "README.md"
FOLLOW = CLIENTS / "python" / "examples" / "follow.py"


class ReadmeTest(PartnerCase):
    def test_the_lines_follow_a_node_through_a_restart(self) -> None:
        lines = re.findall(r"```python\n(.*?)```", README.read_text(), re.DOTALL)[0]
        partner, printed = self.partner(), io.StringIO()
        partner.do("create /config one")
        real, clients = dirwolleu.Client, list[dirwolleu.Client]()

        def client(hosts: str) -> dirwolleu.Client:
            self.assertEqual(hosts, "127.0.0.1:2181,127.0.0.1:2182")
            clients.append(made := real(partner.host))
            return made

        def run() -> None:
            with contextlib.redirect_stdout(printed):
                exec(compile(lines, str(README), "exec"), {"__name__": "__main__"})

        with mock.patch("dirwolleu.Client", client):
            thread = threading.Thread(target=run, daemon=True)
            thread.start()
            within(lambda: "one" in printed.getvalue())
            partner.do("down", "set /config two", "up")
            within(lambda: "two" in printed.getvalue())
            clients[0].stop()
            thread.join(WAIT)
        self.assertFalse(thread.is_alive())
        self.assertEqual(len(lines.splitlines()), 10)


class VersionTest(unittest.TestCase):
    def test_the_version_is_that_of_the_repository(self) -> None:
        version = (CLIENTS.parent / "VERSION").read_text().strip()
        self.assertIn(f'version = "{version}"', (CLIENTS / "python" / "pyproject.toml").read_text())


class ExampleTest(PartnerCase):
    def test_the_example_prints_each_change(self) -> None:
        partner = self.partner()
        partner.do("create /config one")
        command = [sys.executable, str(FOLLOW), partner.host, "/config"]
        process = subprocess.Popen(command, stdout=subprocess.PIPE, stderr=subprocess.DEVNULL, text=True)
        self.addCleanup(process.kill)
        assert process.stdout is not None
        self.assertEqual(process.stdout.readline(), "/config good 0x1 one\n")
        partner.do("down", "set /config two", "up")
        self.assertEqual(process.stdout.readline(), "/config good 0x2 two\n")
        partner.do("delete /config")
        self.assertEqual(process.stdout.readline(), "/config good 0x3 (no node)\n")
        process.send_signal(signal.SIGINT)
        self.assertEqual(process.communicate(timeout=WAIT)[0], "")
        self.assertEqual(process.returncode, 0)
