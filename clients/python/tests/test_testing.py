"""Tests of `dirwolleu.testing`: how a program's own tests use the server in memory."""

from __future__ import annotations

import asyncio
import contextlib
import os
import pathlib
import re
import socket
import subprocess
import sys
import tempfile
import textwrap
import threading
import unittest
from collections.abc import Iterator
from typing import Callable
from unittest import mock

from support import CLIENTS, TIMEOUT, WAIT, within

import dirwolleu
from dirwolleu import Client, State, aio, testing
from dirwolleu.testing import Server
from dirwolleu.testing._ensemble import Connection


class ServerTest(unittest.TestCase):
    is_long = True

    def setUp(self) -> None:
        stack = contextlib.ExitStack()
        self.addCleanup(stack.close)
        self.server = stack.enter_context(Server())

    @contextlib.contextmanager
    def client(self) -> Iterator[Client]:
        with Client(self.server.hosts, TIMEOUT, retry=dirwolleu.Retry(deadline=WAIT)) as client:
            yield client

    def mark(self, client: Client, path: str) -> dirwolleu.Mark:
        kept = client.kept(path)
        assert kept is not None
        return kept.mark

    def test_the_lines_of_its_page(self) -> None:
        assert testing.__doc__ is not None
        shown = re.findall(r"^    .*\n|^\n(?=    )", testing.__doc__, re.M)
        self.assertLess(len(shown), 15)
        exec(textwrap.dedent("".join(shown)), {})

    def test_it_is_there_once_the_package_is_imported(self) -> None:
        program = "import dirwolleu; print(dirwolleu.testing.Server.__name__)"
        environment = {**os.environ, "PYTHONPATH": str(CLIENTS / "python")}
        done = subprocess.run([sys.executable, "-c", program], env=environment, capture_output=True, text=True, timeout=3 * WAIT)
        self.assertEqual((done.stdout, done.stderr), ("Server\n", ""))

    def test_what_another_client_does(self) -> None:
        server = self.server
        with self.client() as client:
            follows = client.follow("/app/config")
            self.assertFalse(next(follows).exists)
            self.assertEqual(server.create("/app/config", b"one", makepath=True), 2)
            self.assertEqual(next(follows).data, b"one")
            self.assertEqual(server.set("/app/config", b"two"), server.zxid)
            kept = next(follows)
            self.assertEqual((kept.data, kept.last_zxid), (b"two", 3))
            self.assertEqual(server.delete("/app/config"), 4)
            self.assertFalse(next(follows).exists)

    def test_what_the_tree_does_not_admit(self) -> None:
        server = self.server
        server.create("/a")
        with self.client() as client:
            client.create("/e", ephemeral=True)
            server.create("/full")
            server.create("/full/one")
            changes: list[tuple[Callable[[], object], type[dirwolleu.ZookeeperError], str]] = [
                (lambda: server.create("/a"), dirwolleu.NodeExistsError, "/a"),
                (lambda: server.create("/b/c"), dirwolleu.NoNodeError, "/b"),
                (lambda: server.create("/e/c"), dirwolleu.NoChildrenForEphemeralsError, "/e"),
                (lambda: server.set("/b", b""), dirwolleu.NoNodeError, "/b"),
                (lambda: server.delete("/b"), dirwolleu.NoNodeError, "/b"),
                (lambda: server.delete("/full"), dirwolleu.NotEmptyError, "/full"),
            ]
            for change, kind, path in changes:
                with self.assertRaises(kind) as caught:
                    change()
                self.assertEqual(caught.exception.path, path)
        self.assertRaisesRegex(ValueError, "a is no path: no slash", server.create, "a")
        self.assertRaisesRegex(TypeError, "data are bytes", server.set, "/a", "text")
        self.assertRaisesRegex(TypeError, "a path is a str", server.set, b"/a", b"")

    def test_one_session_expires_and_the_others_stay(self) -> None:
        with self.client() as one, self.client() as other:
            states = list[State]()
            one.add_listener(states.append)
            one.create("/one", ephemeral=True)
            other.create("/other", ephemeral=True)
            number = one.session_id
            self.assertEqual(set(self.server.sessions), {number, other.session_id})
            self.server.expire(number)
            self.assertEqual(other.get_children("/"), ["other"])
            within(lambda: State.LOST in states and one.connected)
            self.assertNotEqual(one.session_id, number)
            self.assertRaisesRegex(LookupError, f"there is no session {number:#x}", self.server.expire, number)
            self.server.expire()
            within(lambda: other.connected and not other.exists("/other"))

    def test_one_connection_is_dropped(self) -> None:
        with self.client() as one, self.client() as other:
            one.create("/one", ephemeral=True)
            number, before = one.session_id, self.server.connections
            self.server.drop(number)
            within(lambda: self.server.connections == before + 1 and one.connected)
            self.assertEqual((one.session_id, other.get_children("/")), (number, ["one"]))
            self.server.drop()
            within(lambda: self.server.connections == before + 3)

    def test_a_server_lags_for_reads_alone(self) -> None:
        server = self.server
        server.create("/a", b"one")
        with self.client() as behind, self.client() as other:
            behind.get("/a", watch=True)
            with server.lag(behind.session_id):
                other.set("/a", b"two")
                server.create("/b")
                self.assertEqual(behind.get("/a")[0], b"one")
                self.assertIs(self.mark(behind, "/a"), dirwolleu.Mark.GOOD)
                self.assertIsNone(behind.exists("/b"))
                behind.sync("/a")
                self.assertIs(self.mark(behind, "/a"), dirwolleu.Mark.STALE)
                self.assertEqual(behind.get("/a")[0], b"two")
                server.set("/a", b"three")
                self.assertEqual(behind.get("/a")[0], b"two")
                behind.create("/c")
                self.assertEqual(behind.get("/a")[0], b"three")
                with behind.transaction() as transaction:
                    server.set("/a", b"four")
                    transaction.delete("/c")
                self.assertEqual(behind.get("/a")[0], b"four")
                behind.get("/b", watch=True)
                server.set("/b", b"late")
                self.assertEqual(behind.get("/b")[0], b"")
            within(lambda: self.mark(behind, "/b") is dirwolleu.Mark.STALE)

    def test_all_lag_and_connect_again(self) -> None:
        server = self.server
        server.create("/a", b"one")
        with self.client() as one, self.client() as other:
            with server.lag():
                server.set("/a", b"two")
                server.drop()
                self.assertEqual([client.retry(client.get, "/a")[0] for client in (one, other)], [b"one", b"one"])
                with self.client() as late:
                    self.assertEqual(late.get("/a")[0], b"two")
            self.assertEqual([client.get("/a")[0] for client in (one, other)], [b"two", b"two"])

    def test_it_stops_and_comes_again(self) -> None:
        with self.client() as client:
            client.create("/e", b"mine", ephemeral=True)
            number, port = client.session_id, self.server.port
            self.server.stop()
            self.assertRaises(ConnectionError, socket.create_connection, ("127.0.0.1", port), WAIT)
            self.server.set("/e", b"meanwhile")
            self.server.restart()
            self.assertEqual(client.retry(client.get, "/e")[0], b"meanwhile")
            self.server.restart()
            self.assertEqual(client.retry(client.get, "/e")[0], b"meanwhile")
            self.assertEqual((client.session_id, self.server.port), (number, port))

    def test_asyncio(self) -> None:
        async def main() -> None:
            async with Server() as server, aio.Client(server.hosts, TIMEOUT) as one, aio.Client(server.hosts, TIMEOUT) as other:
                await asyncio.gather(*(one.create(f"/n{number}") for number in range(20)))
                server.create("/a", b"one")
                follows = other.follow("/a")
                self.assertEqual((await follows.__anext__()).data, b"one")
                number = other.session_id
                server.expire(number)
                server.set("/a", b"two")
                self.assertEqual((await follows.__anext__()).data, b"two")
                self.assertNotEqual(other.session_id, number)

        asyncio.run(asyncio.wait_for(main(), 3 * WAIT))

    def test_servers_in_threads_share_nothing(self) -> None:
        failures = list[BaseException]()

        def run(number: int) -> None:
            try:
                with Server() as server, Client(server.hosts, TIMEOUT) as client:
                    for _ in range(100):
                        data = bytes([number]) * 200_000
                        client.create("/a", data)
                        assert client.get("/a")[0] == data, number
                        client.delete("/a")
            except BaseException as error:
                failures.append(error)

        threads = [threading.Thread(target=run, args=(number,)) for number in range(8)]
        for thread in threads:
            thread.start()
        for thread in threads:
            thread.join(3 * WAIT)
        self.assertEqual(failures, [])

    def test_a_server_that_is_not_running_says_so(self) -> None:
        server = Server()
        server.close()
        calls: list[Callable[[], object]] = [lambda: server.hosts, lambda: server.create("/a"), server.drop, server.restart]
        for call in calls:
            self.assertRaisesRegex(RuntimeError, "the server is not running: use it by `with`, or call start", call)
        self.assertRaisesRegex(RuntimeError, "running already", self.server.start)
        with self.assertRaises(OSError):
            Server(self.server.port).start()

    def test_a_forked_child_has_none(self) -> None:
        server = self.server
        child = os.fork()
        if child == 0:
            status = 1
            with contextlib.suppress(RuntimeError):
                server.drop()
                status = 2
            server.close()
            os._exit(0 if status == 1 else 2)
        self.assertEqual(os.waitstatus_to_exitcode(os.waitpid(child, 0)[1]), 0)
        self.assertEqual(server.sessions, ())

    def test_one_that_connects_as_the_server_goes_down_has_no_connection(self) -> None:
        """The loop makes a connection two turns after it has taken it, and may be asked to end all in between."""
        running = self.server._alive()

        def make() -> Connection:
            running.loop.call_soon(running.ensemble.go_down)
            return Connection(running.ensemble)

        with mock.patch.object(running.ensemble, "make_connection", make):
            self.server.restart()
            with socket.create_connection(("127.0.0.1", running.ensemble.port), WAIT) as connection, contextlib.suppress(ConnectionError):
                self.assertEqual(connection.recv(1), b"")
        self.assertEqual((self.server.connections, running.ensemble.connections), (1, {}))

    def test_nothing_is_left(self) -> None:
        def found() -> tuple[set[str], int]:
            return set(os.listdir("/proc/self/fd")), threading.active_count()

        before = found()
        for _ in range(3):
            with Server() as server, Client(server.hosts, TIMEOUT) as client:
                client.create("/a")
                server.restart()
        within(lambda: found() == before)


FIXTURE = '''
import dirwolleu

def test_one(zookeeper):
    zookeeper.create("/a", b"one")
    with dirwolleu.Client(zookeeper.hosts) as client:
        assert client.get("/a")[0] == b"one"

def test_another_has_its_own(zookeeper):
    assert zookeeper.zxid == 0
'''


class FixtureTest(unittest.TestCase):
    def test_it_gives_a_server_to_each_test(self) -> None:
        environment = {**os.environ, "PYTHONPATH": os.pathsep.join([str(CLIENTS / "python"), os.environ.get("PYTHONPATH", "")])}
        if subprocess.run([sys.executable, "-c", "import pytest"], env=environment, capture_output=True).returncode != 0:
            self.skipTest("there is no pytest")
        with tempfile.TemporaryDirectory() as folder:
            pathlib.Path(folder, "conftest.py").write_text('pytest_plugins = ["dirwolleu.testing.fixtures"]\n')
            pathlib.Path(folder, "test_it.py").write_text(FIXTURE)
            command = [sys.executable, "-m", "pytest", "-q", "-p", "no:cacheprovider", folder]
            done = subprocess.run(command, env=environment, capture_output=True, text=True, timeout=3 * WAIT)
        self.assertEqual(done.returncode, 0, done.stdout + done.stderr)
        self.assertIn("2 passed", done.stdout)
