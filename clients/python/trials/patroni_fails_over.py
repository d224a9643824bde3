"""patroni_fails_over.py [--rounds N] [--over kazoo]: patroni over dirwolleu.kazoo loses its leader again and again.

Two nodes of patroni with PostgreSQL 15, three servers of ZooKeeper, and a program that writes without end. Each round ends
the leader in one of four ways, in turn:

  killed            patroni and PostgreSQL of the leader are killed
  server killed     the same, and the ZooKeeper server that the other node talks to is killed right before
  server paused     the same, and that server is stopped in its tracks right before
  cut               the leader's way to all servers of ZooKeeper is cut

It passes where each round has a new holder of the leader's key in time, no moment had two nodes that take writes, and
each write that was answered is there at the end (patroni runs with synchronous_mode). It wants the packages zookeeper,
default-jre-headless, patroni, postgresql-15, python3-kazoo and python3-psycopg2. kazoo itself is the one that looks on;
with `--over kazoo` patroni runs over it too, to tell what is whose. Nodes run as the user postgres where this is run by
root. All that it starts is on 127.0.0.1, and ends with it.
"""

from __future__ import annotations

import argparse
import asyncio
import contextlib
import json
import logging
import os
import pathlib
import random
import shutil
import signal
import socket
import statistics
import subprocess
import sys
import tempfile
import threading
import time
from collections.abc import Iterator
from typing import Any, Callable, NamedTuple, Optional

import psycopg2  # type: ignore[import]
from kazoo.client import KazooClient  # type: ignore[import]
from kazoo.exceptions import KazooException, NoNodeError  # type: ignore[import]
from kazoo.handlers.threading import KazooTimeoutError  # type: ignore[import]

TTL, LOOP_WAIT, RETRY_TIMEOUT = 10, 2, 3
"""The ttl in patroni's configuration, in seconds."""
TICK, SYNC_LIMIT = 0.5, 20
"""The tick of the servers, by which the end of a session is rounded up, in seconds, and their `syncLimit` in ticks."""
LATEST_END = TTL + 2 * TICK + 1
"""When ZooKeeper has to have ended the session of the old leader at the latest, in seconds after it was hit: it counts the
ttl in whole ticks.

Servers of ZooKeeper that have lost their leader serve nobody until they have elected another one, and that one counts the
timeouts of all sessions from then on. So it is in seconds after they serve again, if that is later.
"""
LATEST_LOOK = LOOP_WAIT + 0.5 + 1
"""How much later the other node has to have the leader's key at the latest: patroni looks again half a second after
`loop_wait` if no watch has woken it.
"""
PATIENCE = 900.0
PORTS = (20000, 32000)
_given: set[int] = set()
BIN = pathlib.Path("/usr/lib/postgresql/15/bin")
JARS = "/usr/share/java/zookeeper.jar:/usr/share/java/slf4j-simple.jar"
TOP = pathlib.Path(__file__).resolve().parents[3]
KINDS = ("killed", "server killed", "server paused", "cut")


class TrialFailed(Exception):
    """An expected event has not come to pass."""


def say(*words: object) -> None:
    print(*words, flush=True)


def within(what: str, condition: Callable[[], Any], seconds: float = PATIENCE) -> Any:
    """Waits until a condition returns a value that counts as true, and returns it."""
    until = time.monotonic() + seconds
    while not (found := condition()):
        if time.monotonic() > until:
            raise TrialFailed(f"in {seconds:g} seconds it did not come to pass: {what}")
        time.sleep(0.05)
    return found


def free_ports(count: int) -> list[int]:
    """Ports at which nothing listens, and which the system gives to no connection while a node is down."""
    ports: list[int] = []
    while len(ports) < count:
        port = random.randrange(*PORTS)
        with contextlib.suppress(OSError), socket.create_server(("127.0.0.1", port)):
            ports += [port] if port not in _given else []
            _given.add(port)
    return ports


def children_of(pid: int) -> Iterator[int]:
    """The processes that a process has started, and those that these have started."""
    with contextlib.suppress(OSError):
        for task in pathlib.Path(f"/proc/{pid}/task").iterdir():
            for child in (task / "children").read_text().split():
                yield int(child)
                yield from children_of(int(child))


def signal_all(pids: list[int], number: int) -> None:
    for pid in pids:
        with contextlib.suppress(ProcessLookupError):
            os.kill(pid, number)


class Doors(threading.Thread):
    """For each node a way to each server, which can be cut."""

    def __init__(self, servers: list[int]) -> None:
        super().__init__(daemon=True)
        self._servers = servers
        self._loop = asyncio.new_event_loop()
        self.ports = [free_ports(len(servers)) for _ in range(2)]
        self._open: dict[tuple[int, int], asyncio.AbstractServer] = {}
        self._ways: set[tuple[int, int, asyncio.StreamWriter]] = set()
        self.start()
        for node in (0, 1):
            self.mend(node)

    def run(self) -> None:
        self._loop.run_forever()

    def server_of(self, node: int) -> Optional[int]:
        """The server that a node talks to."""
        return next((server for owner, server, _ in list(self._ways) if owner == node), None)

    def cut(self, node: int) -> None:
        self._do(self._cut(node))

    def mend(self, node: int) -> None:
        self._do(self._mend(node))

    def _do(self, work: Any) -> None:
        asyncio.run_coroutine_threadsafe(work, self._loop).result(PATIENCE)

    async def _mend(self, node: int) -> None:
        for server, port in enumerate(self.ports[node]):
            if (node, server) not in self._open:
                enter = self._way(node, server)
                self._open[node, server] = await asyncio.start_server(enter, "127.0.0.1", port)

    async def _cut(self, node: int) -> None:
        for key in [key for key in self._open if key[0] == node]:
            self._open.pop(key).close()
        for way in [way for way in self._ways if way[0] == node]:
            way[2].transport.abort()

    def _way(self, node: int, server: int) -> Callable[[asyncio.StreamReader, asyncio.StreamWriter], Any]:
        async def enter(reader: asyncio.StreamReader, writer: asyncio.StreamWriter) -> None:
            try:
                behind_reader, behind = await asyncio.open_connection("127.0.0.1", self._servers[server])
            except OSError:
                writer.close()
                return
            way = (node, server, writer)
            self._ways.add(way)
            await asyncio.wait(
                [asyncio.ensure_future(self._pass(reader, behind)), asyncio.ensure_future(self._pass(behind_reader, writer))],
                return_when=asyncio.FIRST_COMPLETED,
            )
            self._ways.discard(way)
            behind.transport.abort()
            writer.transport.abort()

        return enter

    async def _pass(self, reader: asyncio.StreamReader, writer: asyncio.StreamWriter) -> None:
        with contextlib.suppress(OSError):
            while data := await reader.read(65536):
                writer.write(data)
                await writer.drain()


class Server:
    """A server of ZooKeeper."""

    def __init__(self, folder: pathlib.Path, number: int, ports: list[list[int]]) -> None:
        self.port = ports[number][0]
        self._folder, self._name = folder, f"zookeeper-{number}"
        data = folder / self._name
        data.mkdir()
        (data / "myid").write_text(f"{number + 1}\n")
        lines = [f"server.{other + 1}=127.0.0.1:{peer}:{election}" for other, (_, peer, election) in enumerate(ports)]
        self._settings = folder / f"{self._name}.cfg"
        self._settings.write_text(
            f"tickTime={int(TICK * 1000)}\ninitLimit=40\nsyncLimit={SYNC_LIMIT}\ndataDir={data}\nclientPort={self.port}\n"
            "clientPortAddress=127.0.0.1\nadmin.enableServer=false\n4lw.commands.whitelist=srvr\n"
            "maxSessionTimeout=40000\n" + "\n".join(lines) + "\n"
        )
        self._process: Optional[subprocess.Popen[bytes]] = None
        self.start()

    def start(self) -> None:
        if self._process is None:
            words = ["java", "-Xmx128m", "-Djava.net.preferIPv4Stack=true", "-Dzookeeper.jmx.log4j.disable=true"]
            words += ["-Dzookeeper.forceSync=no", "-cp", JARS]
            words += ["org.apache.zookeeper.server.quorum.QuorumPeerMain", str(self._settings)]
            with open(self._folder / f"{self._name}.log", "ab") as out:
                self._process = subprocess.Popen(words, stdout=out, stderr=out)

    def serves(self, mode: bytes = b"") -> bool:
        """Whether it serves, in this mode if one is named."""
        with contextlib.suppress(OSError), socket.create_connection(("127.0.0.1", self.port), 1.0) as asked:
            asked.settimeout(1.0)
            asked.sendall(b"srvr")
            return b"Mode: " + mode in asked.recv(4096)
        return False

    def send(self, number: int) -> None:
        if self._process is not None:
            self._process.send_signal(number)

    def kill(self) -> None:
        if self._process is not None:
            self._process.kill()
            self._process.wait()
            self._process = None


class Node:
    """A patroni with its PostgreSQL."""

    def __init__(self, folder: pathlib.Path, number: int, zookeeper: list[int], program: list[str]) -> None:
        self.name = f"node{number}"
        self._folder, self._program = folder / self.name, program
        self._folder.mkdir()
        self._log = folder / f"{self.name}.log"
        self.port, api = free_ports(2)
        self._data = self._folder / "data"
        self._settings = self._folder / "patroni.json"
        self._settings.write_text(json.dumps(self._configured(zookeeper, api)))
        if os.getuid() == 0:
            for path in (self._folder, self._settings):
                shutil.chown(path, "postgres", "postgres")
        self._process: Optional[subprocess.Popen[bytes]] = None

    def _configured(self, zookeeper: list[int], api: int) -> dict[str, Any]:
        here = {"listen": f"127.0.0.1:{self.port}", "connect_address": f"127.0.0.1:{self.port}"}
        cluster = {
            "ttl": TTL,
            "loop_wait": LOOP_WAIT,
            "retry_timeout": RETRY_TIMEOUT,
            "synchronous_mode": True,
            "postgresql": {"use_pg_rewind": True, "parameters": {"wal_log_hints": "on", "max_connections": 40}},
        }
        users = {"username": "postgres", "password": "trial"}
        return {
            "scope": "trial",
            "name": self.name,
            "restapi": {"listen": f"127.0.0.1:{api}", "connect_address": f"127.0.0.1:{api}"},
            "zookeeper": {"hosts": [f"127.0.0.1:{port}" for port in zookeeper]},
            "bootstrap": {"dcs": cluster, "initdb": [{"encoding": "UTF8"}, "data-checksums"]},
            "postgresql": {
                **here,
                "data_dir": str(self._data),
                "bin_dir": str(BIN),
                "pgpass": str(self._folder / "pgpass"),
                "authentication": {"superuser": users, "replication": {"username": "copier", "password": "trial"}},
                "parameters": {"unix_socket_directories": str(self._folder), "shared_buffers": "16MB", "fsync": "off"},
                "pg_hba": ["local all all trust", "host all all 127.0.0.1/32 md5", "host replication all 127.0.0.1/32 md5"],
                "create_replica_methods": ["basebackup"],
                "basebackup": {"checkpoint": "fast"},
            },
        }

    def start(self) -> None:
        settings: dict[str, Any] = {"user": "postgres", "group": "postgres", "extra_groups": []} if os.getuid() == 0 else {}
        with open(self._log, "ab") as out:
            self._process = subprocess.Popen(
                [*self._program, str(self._settings)], stdout=out, stderr=out, cwd=self._folder, **settings
            )

    def kill(self) -> None:
        """Kills all of the node at once, as a lost machine does."""
        signal_all(self._pids(), signal.SIGKILL)
        if self._process is not None:
            self._process.wait()
            self._process = None
        within(f"{self.name} has no process", lambda: not self._pids(), 20.0)

    def _pids(self) -> list[int]:
        found = []
        if self._process is not None and self._process.poll() is None:
            found.append(self._process.pid)
        with contextlib.suppress(OSError, ValueError, IndexError):
            postmaster = int((self._data / "postmaster.pid").read_text().split()[0])
            if str(self._data).encode() in pathlib.Path(f"/proc/{postmaster}/cmdline").read_bytes():
                found.append(postmaster)
        return [*found, *(child for pid in found for child in children_of(pid))]

    def connect(self) -> Any:
        connection = psycopg2.connect(
            host="127.0.0.1", port=self.port, user="postgres", password="trial", dbname="postgres", connect_timeout=2
        )
        connection.autocommit = True
        return connection

    def takes_writes(self) -> bool:
        with contextlib.suppress(psycopg2.Error), contextlib.closing(self.connect()) as connection:
            return is_primary(connection)
        return False


def is_primary(connection: Any) -> bool:
    """Whether the node of a connection takes writes."""
    with connection.cursor() as cursor:
        cursor.execute("select pg_is_in_recovery()")
        return not cursor.fetchone()[0]


class Lookout(threading.Thread):
    """Looks whether two nodes take writes at one moment."""

    def __init__(self, nodes: list[Node]) -> None:
        super().__init__(daemon=True)
        self._nodes, self.is_over = nodes, threading.Event()
        self._connections: dict[str, Any] = {}
        self.looks, self.doubles = 0, list[float]()

    def run(self) -> None:
        while not self.is_over.wait(0.1):
            self.looks += 1
            if all(self._takes(node) for node in (*self._nodes, self._nodes[0])):  # the first one also after the second
                self.doubles.append(time.time())

    def _takes(self, node: Node) -> bool:
        try:
            connection = self._connections.get(node.name)
            if connection is None:
                connection = self._connections[node.name] = node.connect()
            return is_primary(connection)
        except psycopg2.Error:
            self._connections.pop(node.name, None)
            return False


class Service(threading.Thread):
    """Looks whether servers have a leader."""

    def __init__(self, servers: list[Server]) -> None:
        super().__init__(daemon=True)
        self._servers, self._is_over, self._last_lack = servers, threading.Event(), 0.0
        self.start()

    def run(self) -> None:
        while not self._is_over.wait(0.1):
            if not any(server.serves(b"leader") for server in self._servers):
                self._last_lack = time.monotonic()

    def end(self) -> float:
        """The last moment at which there was none."""
        self._is_over.set()
        self.join(PATIENCE)
        return self._last_lack


class Writer(threading.Thread):
    """Writes numbers, one after the other, at whichever node takes them, and remembers which were answered."""

    def __init__(self, nodes: list[Node]) -> None:
        super().__init__(daemon=True)
        self._nodes, self.is_over = nodes, threading.Event()
        self.answered: list[tuple[int, float]] = []
        self._next = 0

    def run(self) -> None:
        while not self.is_over.is_set():
            for node in self._nodes:
                if node.takes_writes():
                    with contextlib.suppress(psycopg2.Error), contextlib.closing(node.connect()) as connection:
                        self._write(connection)
            self.is_over.wait(0.1)

    def _write(self, connection: Any) -> None:
        with connection.cursor() as cursor:
            while not self.is_over.is_set():
                self._next += 1
                cursor.execute("insert into trial values (%s)", (self._next,))
                self.answered.append((self._next, time.monotonic()))
                self.is_over.wait(0.01)

    def has_written_since(self, moment: float) -> bool:
        return bool(self.answered) and self.answered[-1][1] > moment


class Found(NamedTuple):
    """The results of a round, in seconds from the end of the leader."""

    kind: str
    gone: float
    """When its key is gone: ZooKeeper has ended its session."""
    keyed: float
    """When its key has another holder."""
    answered: float
    """When a write is answered."""
    served: float
    """Since when there is a leader of the servers: 0 if there was one all the time."""

    def is_late(self) -> bool:
        return self.gone > self.served + LATEST_END or self.keyed > self.gone + LATEST_LOOK

    def __str__(self) -> str:
        led = f" (ZooKeeper serves after {self.served:.1f} s)" if self.served else ""
        late = ", LATE" if self.is_late() else ""
        ended = f"the old one is gone after {self.gone:.1f} s"
        return f"{self.kind}{led}: {ended}, a new leader after {self.keyed:.1f} s, a write after {self.answered:.1f} s{late}"


class Trial:
    """The servers, the nodes, and those that look on."""

    def __init__(self, folder: pathlib.Path, program: list[str], stack: contextlib.ExitStack) -> None:
        ports = [free_ports(3) for _ in range(3)]
        self.servers: list[Server] = []
        for number in range(3):
            self.servers.append(Server(folder, number, ports))
            stack.callback(self.servers[-1].kill)
        self.doors = Doors([server.port for server in self.servers])
        self.nodes = [Node(folder, number, self.doors.ports[number], program) for number in (0, 1)]
        for node in self.nodes:
            stack.callback(node.kill)
        within("three servers serve", lambda: all(server.serves() for server in self.servers))
        again = {"max_tries": -1, "max_delay": 0.5}  # else kazoo's pauses double without a bound
        self.eyes = [
            KazooClient(f"127.0.0.1:{server.port}", timeout=20, connection_retry=again) for server in self.servers
        ]
        for eye in self.eyes:
            stack.callback(eye.stop)
            eye.start(30)
        self.eye = 0
        self.lookout, self.writer = Lookout(self.nodes), Writer(self.nodes)

    def text_of(self, name: str) -> Optional[str]:
        """The data of a node of the cluster, as a server that is not hit has them: nothing if there is none.

        None if the server does not answer.
        """
        try:
            return str(self.eyes[self.eye].get_async(f"/service/trial/{name}").get(timeout=1.0)[0].decode())
        except NoNodeError:
            return ""
        except (KazooException, KazooTimeoutError):
            return None

    def leader(self) -> Optional[int]:
        name = self.text_of("leader")
        return next((number for number, node in enumerate(self.nodes) if node.name == name), None)

    def begin(self) -> None:
        self.nodes[0].start()
        within("the first node takes writes", lambda: self.nodes[0].takes_writes())
        with contextlib.closing(self.nodes[0].connect()) as connection, connection.cursor() as cursor:
            cursor.execute("create table trial (id bigint primary key)")
        self.nodes[1].start()
        self.lookout.start()
        self.writer.start()
        self.wait_until_whole()

    def is_whole(self) -> bool:
        """Whether the leader takes writes, and the other node has each of them."""
        leader = self.leader()
        if leader is None or not self.nodes[leader].takes_writes():
            return False
        other = self.nodes[1 - leader].name
        with contextlib.suppress(ValueError, psycopg2.Error):
            synchronous = json.loads(self.text_of("sync") or "{}").get("sync_standby")
            with contextlib.closing(self.nodes[leader].connect()) as connection, connection.cursor() as cursor:
                cursor.execute("select application_name from pg_stat_replication where sync_state = 'sync'")
                return bool(synchronous == other and (other,) in cursor.fetchall())
        return False

    def wait_until_whole(self) -> None:
        within("the leader has a synchronous standby", self.is_whole)
        now = time.monotonic()
        within("a write is answered", lambda: self.writer.has_written_since(now))

    def the_leader(self) -> int:
        within("there is a leader", lambda: self.leader() is not None)
        leader = self.leader()
        return self.the_leader() if leader is None else leader

    def the_server_of(self, node: int) -> int:
        within("the node has a server", lambda: self.doors.server_of(node) is not None)
        server = self.doors.server_of(node)
        return self.the_server_of(node) if server is None else server

    def fail_over(self, kind: str) -> Found:
        """Ends the leader, and checks that the other node takes its place."""
        leader = self.the_leader()
        other = 1 - leader
        hit = self.the_server_of(other)
        self.eye = (hit + 1) % len(self.servers)
        if kind == "server killed":
            self.servers[hit].kill()
        elif kind == "server paused":
            self.servers[hit].send(signal.SIGSTOP)
        begin = time.monotonic()
        if kind == "cut":
            self.doors.cut(leader)
        else:
            self.nodes[leader].kill()
        service = Service([server for number, server in enumerate(self.servers) if number != hit or "server" not in kind])
        within("the old leader is gone", lambda: self.text_of("leader") not in (None, self.nodes[leader].name))
        gone = time.monotonic() - begin
        within("the other node has the leader's key", lambda: self.leader() == other)
        keyed = time.monotonic() - begin
        served = max(service.end() - begin, 0)
        within("the other node takes writes", lambda: self.nodes[other].takes_writes())
        now = time.monotonic()
        within("a write is answered", lambda: self.writer.has_written_since(now))
        answered = time.monotonic() - begin
        self.mend(kind, leader, hit)
        return Found(kind, gone, keyed, answered, served)

    def mend(self, kind: str, leader: int, hit: int) -> None:
        if kind == "server killed":
            self.servers[hit].start()
        elif kind == "server paused":
            self.servers[hit].send(signal.SIGCONT)
        within("the servers serve", lambda: all(server.serves() for server in self.servers))
        if kind == "cut":
            self.doors.mend(leader)
        else:
            self.nodes[leader].start()
        self.wait_until_whole()

    def lost_writes(self) -> list[int]:
        """The writes that were answered and are not there."""
        self.writer.is_over.set()
        self.writer.join(PATIENCE)
        with contextlib.closing(self.nodes[self.the_leader()].connect()) as connection, connection.cursor() as cursor:
            cursor.execute("select id from trial")
            there = {row[0] for row in cursor.fetchall()}
        return [number for number, _ in self.writer.answered if number not in there]


def give_package(folder: pathlib.Path) -> None:
    """Puts the package and its library where the user postgres reads them."""
    package = folder / "package"
    shutil.copytree(TOP / "clients" / "python" / "dirwolleu", package / "dirwolleu")
    named = os.environ.get("DIRWOLLEU_LIBRARY")
    library = pathlib.Path(named) if named else TOP / "prebuilt" / "x86_64-linux" / "libdirwolleu.so"
    shutil.copy(library, package / "dirwolleu" / "libdirwolleu.so")
    os.environ.pop("DIRWOLLEU_LIBRARY", None)
    os.environ["PYTHONPATH"] = str(package)


def run(folder: pathlib.Path, rounds: int, program: list[str]) -> bool:
    """Whether all went well."""
    give_package(folder)
    stack = contextlib.ExitStack()
    try:
        trial = Trial(folder, program, stack)
        trial.begin()
        say("two nodes, three servers, and a program that writes")
        found = []
        for number in range(rounds):
            found.append(trial.fail_over(KINDS[number % len(KINDS)]))
            say(f"{number + 1:2}. {found[-1]}")
        lost = trial.lost_writes()
        trial.lookout.is_over.set()
        trial.lookout.join(PATIENCE)
        return tell(found, trial, lost)
    finally:
        stack.close()


def tell(found: list[Found], trial: Trial, lost: list[int]) -> bool:
    """Prints the results, and returns whether all went well."""
    since = [one.keyed - one.served for one in found]
    say(f"a new leader after {statistics.median(since):.1f} s in the middle, {max(since):.1f} s at most, with a ttl of {TTL} s,")
    say(f"counted from when the servers serve again in {sum(one.served > 0 for one in found)} rounds")
    say(f"{len(trial.writer.answered)} writes were answered, {len(lost)} of them are lost")
    say(f"of {trial.lookout.looks} looks, {len(trial.lookout.doubles)} found two nodes that take writes")
    late = [one for one in found if one.is_late()]
    if late:
        say(f"{len(late)} rounds were late")
    return not late and not lost and not trial.lookout.doubles


def main() -> None:
    parser = argparse.ArgumentParser(description=__doc__, formatter_class=argparse.RawDescriptionHelpFormatter)
    parser.add_argument("--rounds", type=int, default=20)
    parser.add_argument("--over", choices=["dirwolleu", "kazoo"], default="dirwolleu")
    parser.add_argument("--keep", metavar="FOLDER", help="where logs are put, which else are gone at the end")
    words = parser.parse_args()
    logging.getLogger("kazoo").setLevel(logging.CRITICAL)
    signal.signal(signal.SIGTERM, lambda *_: sys.exit(1))
    folder = pathlib.Path(tempfile.mkdtemp(prefix="patroni-trial-"))
    folder.chmod(0o755)
    passed = False
    try:
        beneath = ["-m", "dirwolleu.kazoo"] if words.over == "dirwolleu" else []
        passed = run(folder, words.rounds, [sys.executable, *beneath, "/usr/bin/patroni"])
    except TrialFailed as failure:
        say(f"failed: {failure}")
    finally:
        if words.keep:
            pathlib.Path(words.keep).mkdir(parents=True, exist_ok=True)
            for log in folder.glob("*.log"):
                shutil.copy(log, words.keep)
        shutil.rmtree(folder, ignore_errors=True)
    say("passed" if passed else "failed")
    sys.exit(0 if passed else 1)


if __name__ == "__main__":
    main()
