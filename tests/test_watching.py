"""A watch of the built zk_shell over TCP and the clock of the system: data of many sizes in pieces, changes as they come, and the first ping."""

from __future__ import annotations

import contextlib
import itertools
import subprocess
import time
import unittest
from typing import Iterator

from served import Heard, World, world
from shell import outcome, program

from dirwolleu.testing import _library as bench  # served has put it on the path

NODE = "/a"
SIZES = (0, 63, 64, 1_000, 10_000, 65_443, 65_444, 65_445, 130_980, 1_000_000)
"""How many bytes the data have. The frame that brings them has 92 more, and a read has room for 65,536: 65,444 fill it."""
PIECES = (None, 65_535, 1_024)
"""How many bytes the server sends at a time: first all."""
CHANGES = ((0.0, b"one"), (0.1, b"two"), (0.4, b"three"))
"""When another session writes the node, in seconds after the beginning, at the earliest; and what."""
TIMEOUT_MS, PING_S = 3_000, 1.0
"""A client that sends nothing else sends a ping after a third of the timeout."""
PING = bytes.fromhex("00000008fffffffe0000000b")
WATCH_S = 600
"""How long a watch goes on, and how long an answer may take on a busy machine."""


def data_of(size: int) -> bytes:
    """This many bytes, of which none is like the one 65,536 before it."""
    return bytes(number % 251 for number in range(size))


@contextlib.contextmanager
def watch(served: World, *options: str) -> Iterator[Iterator[bytes]]:
    """A watch of the node, and the data of each line that shows them, in hex or as `\\e`."""
    command = [program() or "", "watch", f"127.0.0.1:{served.port}", "--data", NODE, "--for", str(WATCH_S), *options]
    with subprocess.Popen(command, stdout=subprocess.PIPE) as process:
        assert process.stdout
        try:
            words = (line.split(b" ") for line in process.stdout)
            yield (row[4] for row in words if row[2:4] == [b"data", b"full"] and row[-3] == b"good")
        finally:
            process.kill()


@unittest.skipIf(program() is None, "there is no zk_shell: rt ci builds it")
class WatchingTest(unittest.TestCase):
    is_long = True

    def _set_and_get(self, piece: int | None) -> None:
        """Each size is set and read by commands."""
        with world(piece=piece) as served:
            node = [f"127.0.0.1:{served.port}", NODE, "--wait", str(WATCH_S)]
            served.change(bench.MADE, NODE)
            for size in SIZES:
                row = f"{size} bytes in pieces of {piece}"
                self.assertEqual("||0", outcome(["set", *node, "--from", "-"], data_of(size)), row)
                shown = data_of(size).hex() or "\\e"
                self.assertEqual(f"{shown}\n||0", outcome(["get", *node, "--hex"]), row)

    def _follow(self, piece: int | None) -> None:
        """Another session sets each size, and each is shown and good."""
        with world(piece=piece) as served:
            served.change(bench.MADE, NODE, b"begin")
            with watch(served, "--timeout", str(1_000 * WATCH_S)) as shown:
                self.assertEqual(b"begin".hex().encode(), next(shown))
                for size in SIZES:
                    served.change(bench.WRITTEN, NODE, data_of(size))
                    self.assertEqual(data_of(size).hex().encode() or b"\\e", next(shown), f"{size} bytes in pieces of {piece}")

    def test_each_size_at_once(self) -> None:
        self._set_and_get(PIECES[0])
        self._follow(PIECES[0])

    def test_each_size_in_pieces_as_long_as_a_read(self) -> None:
        self._set_and_get(PIECES[1])
        self._follow(PIECES[1])

    def test_each_size_in_small_pieces(self) -> None:
        self._set_and_get(PIECES[2])
        self._follow(PIECES[2])

    def test_three_changes_and_a_ping_after_a_third_of_the_timeout(self) -> None:
        """The last request follows the last change, so the first ping after it comes no earlier than a third of the timeout after that."""
        with world() as served:
            begun = changed = time.monotonic()
            with watch(served, "--timeout", str(TIMEOUT_MS)) as shown:
                for number, (moment, data) in enumerate(CHANGES):
                    time.sleep(max(0.0, begun + moment - time.monotonic()))
                    changed = time.monotonic()
                    served.change(bench.WRITTEN if number else bench.MADE, NODE, data)
                    self.assertEqual(data.hex().encode(), next(shown))
                since_read = itertools.dropwhile(lambda heard: heard.data == PING, self._heard(served, changed))
                pings = (heard.moment for heard in since_read if heard.data == PING)
                self.assertLessEqual(changed + PING_S, next(pings))

    def _heard(self, served: World, since: float) -> Iterator[Heard]:
        for number in itertools.count():
            while len(served.heard) <= number:
                time.sleep(0.01)
            if served.heard[number].moment >= since:
                yield served.heard[number]
