"""Tests of `python3 -m dirwolleu demo`: it prints what its clients answer, whichever history the seed chooses."""

from __future__ import annotations

import os
import re
import subprocess
import sys
import unittest
from typing import Any
from unittest import mock

from support import CLIENTS, WAIT

from dirwolleu import demo
from dirwolleu.client import Client


def shown(seed: int) -> list[str]:
    lines = list[str]()
    demo.run(seed, False, lines.append)
    return "\n".join(lines).splitlines()


class DemoTest(unittest.TestCase):
    is_long = True

    def test_each_seed_has_its_own_lines(self) -> None:
        histories = [shown(seed) for seed in range(4)]
        self.assertEqual(shown(3)[1:], histories[3][1:])
        for place, lines in enumerate(histories):
            self.assertNotIn(lines[3:], [other[3:] for other in histories[:place]])
            self.assertLessEqual(max(map(len, lines)), 80)
            self.assertRegex(lines[-2], r"^1[0-9] answers of a client, each compared")
            tokens = [int(number) for number in re.findall(r"holds with token (\d+)", "\n".join(lines))]
            self.assertEqual((len(tokens), tokens), (3, sorted(set(tokens))))
            zxids = [int(line[:5]) for line in lines if re.match(r" {3,4}\d", line)]
            self.assertEqual(zxids, sorted(zxids))

    def test_what_the_client_answers_wrongly_is_seen(self) -> None:
        real = Client.kept

        def wrong(client: Client, path: str, within: Any = None) -> Any:
            kept = real(client, path, within)
            return kept and kept._replace(data=b"made up")

        with mock.patch.object(Client, "kept", wrong):
            self.assertRaisesRegex(AssertionError, "at zxid [0-9]+ the client knew .*made up", shown, 1)

    def test_it_is_a_program(self) -> None:
        environment = {**os.environ, "PYTHONPATH": str(CLIENTS / "python")}
        command = [sys.executable, "-m", "dirwolleu", "demo", "--seed", "5"]
        done = subprocess.run(command, env=environment, stdin=subprocess.DEVNULL, capture_output=True, text=True, timeout=3 * WAIT)
        self.assertEqual((done.returncode, done.stderr), (0, ""))
        self.assertEqual(done.stdout.splitlines()[-1], "all are right.")
