"""What the tests of programs share: the server in memory, a server that does what a test says, and processes whose lines are waited for.

  programs.py OUT SERVER     runs the tests of follow.py, tree.py, servers.py, short.py and recipes.py side by side, with the programs that are in OUT
"""

import concurrent.futures
import importlib
import itertools
import pathlib
import queue
import select
import struct
import subprocess
import sys
import tempfile
import threading
import time
import unittest

sys.dont_write_bytecode = True

# Seconds that a line, or an end, is waited for; and that a busy machine may make something late.
BOUND, SLACK = 60, 20
AT_ONCE = 16
OUT, SERVER = sys.argv[1:3] if len(sys.argv) == 3 else sys.exit(__doc__)
sys.path.insert(0, str(pathlib.Path(SERVER).resolve().parent))

from partner import STAT, Partner, Peer, RawServer, begin_making  # noqa: E402


def program(name):
    """The path of a program that is to be tested."""
    return str(pathlib.Path(OUT) / name)


class Process:
    """A process whose lines of standard output are waited for, within a bound."""

    def __init__(self, *words, **streams):
        self.process = subprocess.Popen(words, stdout=subprocess.PIPE, text=True, bufsize=1, **streams)
        self._lines = queue.Queue()
        self._reader = threading.Thread(target=self._read, daemon=True)
        self._reader.start()

    def _read(self):
        for line in self.process.stdout:
            self._lines.put(line.rstrip("\n"))

    def line(self):
        return self._lines.get(timeout=BOUND)

    def end(self):
        """Ends the process, if it has not ended."""
        self.process.kill()
        self.process.wait(BOUND)
        self._reader.join(BOUND)
        for stream in (self.process.stdin, self.process.stdout, self.process.stderr):
            if stream is not None:
                stream.close()


class Line(Peer):
    """A connection to the program, whose requests are answered by their types."""

    def request(self):
        """The xid and the type of the next request."""
        return self.take()[:2]

    def answer(self, xid, code=0, body=b""):
        self.send(struct.pack(">iqi", xid, 5, code) + body)

    def serve(self, kinds):
        """Answers each request by what its type has."""
        while True:
            self.serve_one(kinds)

    def serve_one(self, kinds):
        xid, kind = self.request()
        kinds[kind](xid)

    def serve_until(self, event, kinds):
        """The same, until something has happened."""
        while not event.is_set():
            if select.select([self.connection], [], [], 0.01)[0]:
                self.serve_one(kinds)

    def serve_what_came(self, kinds):
        """The same, as long as there is one."""
        while select.select([self.connection], [], [], 0.5)[0]:
            self.serve_one(kinds)

    def dribble(self, data):
        while True:
            self.send_bytes(data)
            time.sleep(0.1)


class Server(RawServer):
    """A server that serves each connection by a function of its number and the connection."""

    def __init__(self, serve):
        numbers = itertools.count()
        super().__init__(lambda line: serve(next(numbers), line), Line)

    def wait_for_dials(self, count):
        """The moments of this many dials."""
        end = time.monotonic() + BOUND
        while len(self.dials) < count and time.monotonic() < end:
            time.sleep(0.05)
        return self.dials[:count]


# The reply to getData of a node that holds `one`.
DATA = struct.pack(">i", 3) + b"one" + STAT


# Where nobody listens: no system gives that port away. One that was free a moment ago, another test may have got.
NOBODY = "127.0.0.1:1"


class Case(unittest.TestCase):
    """A test that ends what it has begun."""

    def partner(self, *options):
        partner = Partner(*options)
        self.addCleanup(partner.stop)
        return partner

    def server(self, serve):
        server = Server(serve)
        self.addCleanup(server.stop)
        return server

    def run_of(self, *words, **streams):
        process = Process(*words, **streams)
        self.addCleanup(process.end)
        return process

    def saying(self, *words):
        """A program whose standard error is kept."""
        self.errors = tempfile.NamedTemporaryFile("w+", encoding="utf-8")
        self.addCleanup(self.errors.close)
        return self.run_of(*words, stderr=self.errors)

    def said(self):
        """What the program has said on standard error."""
        with open(self.errors.name, encoding="utf-8") as errors:
            return errors.read()

    def wait_for_words(self, words):
        """Waits until it has said this: so it has begun, and takes a signal."""
        end = time.monotonic() + BOUND
        while words not in (said := self.said()):
            self.assertLess(time.monotonic(), end, f"it does not say {words}: {said}")
            time.sleep(0.02)


def run_side_by_side():
    """Runs each test in a thread of its own, since most of their time is waits. Answers whether all have passed."""
    begin_making()
    loader = unittest.defaultTestLoader
    modules = [importlib.import_module(name) for name in ("follow", "tree", "servers", "short", "recipes")]
    tests = [test for module in modules for suite in loader.loadTestsFromModule(module) for test in suite]
    with concurrent.futures.ThreadPoolExecutor(AT_ONCE) as pool:
        results = list(pool.map(lambda test: test.run(), tests))
    faults = [fault for result in results for fault in result.failures + result.errors]
    for test, fault in faults:
        print(f"{test.id()}:\n{fault}", file=sys.stderr)
    print(f"programs: {len(tests)} tests, {len(faults)} failed")
    return tests and not faults


if __name__ == "__main__":
    sys.modules["programs"] = sys.modules["__main__"]
    sys.exit(0 if run_side_by_side() else 1)
