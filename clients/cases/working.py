"""Contenders that work through faults, at a real server: working.py MINUTES LOGS HOST:PORT LIBRARY=COMMAND.., where LOGS is the folder of the
server's transaction logs, and a library and its command are as of contenders.py. The server's ticks are short, so that a session of four seconds
expires soon after these.

Two of each library of ours, and one of each other one, contend at a path of their names, each through a way of its own, and write through a
fence while they hold. One after the other they are killed, stopped for 0.2 to 9 seconds, or cut at a request or at its answer. After each fault
one of them has to write, within the timeout and two seconds of calm. The server's logs are judged at the end: whoever said that it
held by a token at a zxid was first in line there, no write of an earlier holder comes after one of a later, and each place is gone that its
session has given up. Then fifty of each library of ours wait in line, and the requests of each hand-over are counted; ten of each other one.
"""

from __future__ import annotations

import collections
import concurrent.futures
import contextlib
import itertools
import pathlib
import random
import shlex
import signal
import socket
import struct
import subprocess
import sys
import threading
import time
from collections.abc import Iterator
from typing import NamedTuple, Optional

from contenders import NAMES, OURS, WAIT, Contender, Side

import dirwolleu

TOP = pathlib.Path(__file__).resolve().parents[2]
TIMEOUT = 4.0
"""The timeout of a session, in seconds."""
SOON = TIMEOUT + 2.0
"""How long nobody writes in the calm, at most."""
LINGERS = 2 * TIMEOUT
"""How long a place may be there at most once its session has another one, or has ended."""
MOST_REQUESTS = 12
CROWD, OTHERS, MOST_FRAMES = 50, 10, 4
STANDSTILL = 0.25
"""A thread that sleeps for a hundredth of a second is back by then, unless the whole machine stands still."""
PING, CLOSE = -2, -11
"""The xid of a ping, and the type of the request that closes a session."""


class Clock:
    """Seconds, without those in which the whole machine stood still: its host may take the processors away."""

    def __init__(self) -> None:
        self._lock, self._seen, self.stood_still = threading.Lock(), time.monotonic(), 0.0
        threading.Thread(target=self._run, daemon=True).start()

    def _run(self) -> None:
        while True:
            self.now()
            time.sleep(0.01)

    def now(self) -> float:
        with self._lock:
            now = time.monotonic()
            self.stood_still += now - self._seen if now - self._seen > STANDSTILL else 0.0
            self._seen = now
            return now - self.stood_still


clock = Clock()


class Way:
    """A relay between a contender and the server: it counts requests, and cuts the connection at one of them, or at the answer to it."""

    def __init__(self, port: int) -> None:
        self._port, self._listener = port, socket.create_server(("127.0.0.1", 0))
        self.host = f"127.0.0.1:{self._listener.getsockname()[1]}"
        self.requests, self._left, self._cuts_answer = 0, 0, False
        self.cut_at = list[float]()
        """The moments at which it has cut."""
        self._cut_xid: Optional[int] = None
        threading.Thread(target=self._accept, daemon=True).start()

    def cut(self, at: int, cuts_answer: bool) -> None:
        """Cuts at this request from now on, or at its answer."""
        self._cuts_answer, self._left = cuts_answer, at

    def _accept(self) -> None:
        while True:
            client, _ = self._listener.accept()
            server = socket.create_connection(("127.0.0.1", self._port))
            self._cut_xid = None
            for ends in ((client, server, True), (server, client, False)):
                threading.Thread(target=self._run, args=ends, daemon=True).start()

    def _run(self, source: socket.socket, target: socket.socket, asks: bool) -> None:
        with contextlib.suppress(OSError, struct.error), source.makefile("rb") as frames:
            frame = frames.read(4)
            frame += frames.read(*struct.unpack(">i", frame))  # the first one begins the session
            while True:
                target.sendall(frame)
                frame = frames.read(4)
                frame += frames.read(*struct.unpack(">i", frame))
                if not (self._passes_request(frame) if asks else self._passes_answer(frame)):
                    self.cut_at.append(clock.now())
                    break
        for one in (source, target):
            with contextlib.suppress(OSError):
                one.shutdown(socket.SHUT_RDWR)

    def _passes_request(self, frame: bytes) -> bool:
        xid, kind = struct.unpack_from(">ii", frame, 4)
        if xid == PING or kind == CLOSE:
            return True
        self.requests += 1
        self._left -= 1
        if self._left != 0:
            return True
        self._cut_xid = xid if self._cuts_answer else None
        return self._cuts_answer

    def _passes_answer(self, frame: bytes) -> bool:
        return bool(struct.unpack_from(">i", frame, 4)[0] != self._cut_xid)


class Claim(NamedTuple):
    """A contender has said that it held by a token at a zxid."""

    library: str
    token: int
    zxid: int


class Worker:
    """A contender that works, in a process that starts again if it is killed."""

    def __init__(self, library: str, command: list[str], port: int, path: str, names: str) -> None:
        self.library, self.way, self.claims = library, Way(port), list[Claim]()
        self.faults, self.wrote_at, self.refused, self._is_ending = list[str](), list[float](), 0, False
        self._words = [*command, self.way.host, path, "work", names]
        self.begin()

    def begin(self) -> None:
        self.process = subprocess.Popen(self._words, stdin=subprocess.PIPE, stdout=subprocess.PIPE, text=True)
        threading.Thread(target=self._read, args=(self.process,), daemon=True).start()

    def _read(self, process: subprocess.Popen[str]) -> None:
        assert process.stdout is not None
        for line in process.stdout:
            word, *numbers = line.split()
            if word == "holds":
                self.claims.append(Claim(self.library, *map(int, numbers)))
            elif word == "wrote":
                self.wrote_at.append(clock.now())
            elif word == "refused":
                self.refused += 1
            elif word not in ("released", "lost") and not self._is_ending:  # its session ends while it works
                self.faults.append(line.strip())
        if process.wait() not in (0, -signal.SIGKILL):
            self.faults.append(f"it has ended with {process.returncode}")

    def kill(self) -> None:
        self.process.kill()
        self.process.wait()
        self.begin()

    def stop(self, seconds: float) -> None:
        self.process.send_signal(signal.SIGSTOP)
        time.sleep(seconds)
        self.process.send_signal(signal.SIGCONT)

    def ask_to_end(self) -> None:
        assert self.process.stdin is not None
        self._is_ending = True
        self.process.stdin.close()

    def end(self) -> None:
        try:
            self.process.wait(3 * TIMEOUT)
        except subprocess.TimeoutExpired:
            self.faults.append("it does not end")
            self.process.kill()
            self.process.wait()


class Busy:
    """The workers at a path, and the faults that hit them."""

    def __init__(self, path: str, workers: list[Worker]) -> None:
        self.path, self.workers = path, workers
        self.struck = collections.Counter[str]()
        self._struck_at = [clock.now()]
        """When each fault began, and when it was over."""

    def _strike(self, worker: Worker) -> None:
        kind = random.choice(("kill", "stop", "stop", "cut", "cut", "cut"))
        self._struck_at.append(clock.now())
        if kind == "kill":
            worker.kill()
        elif kind == "stop":
            worker.stop(random.choice((0.2, 1.0, 3.0, 5.0, 9.0)))
        else:
            worker.way.cut(random.randint(1, MOST_REQUESTS), random.random() < 0.5)
        self._struck_at.append(clock.now())
        self.struck[kind] += kind != "cut"

    def go_through_faults(self, seconds: float) -> None:
        """Strikes, and waits until one writes, again and again."""
        end = clock.now() + seconds
        while clock.now() < end:
            self._strike(random.choice(self.workers))
            over = clock.now()
            while self._last_write() < over and clock.now() < over + 2 * SOON:
                time.sleep(0.01)
            time.sleep(random.random())
        self._struck_at.append(clock.now())

    def _last_write(self) -> float:
        return max((worker.wrote_at[-1] for worker in self.workers if worker.wrote_at), default=0.0)

    def longest_calm(self) -> float:
        """For how long nobody wrote and no fault began or was over, at most."""
        moments = [*self._struck_at, *(moment for worker in self.workers for moment in worker.wrote_at + worker.way.cut_at)]
        moments = sorted(moment for moment in moments if moment <= self._struck_at[-1])
        return max(later - earlier for earlier, later in zip(moments, moments[1:]))

    def judge(self, lines: list[str]) -> Iterator[str]:
        """The faults in what was seen, and in the lines of a history. It prints figures."""
        calm, line = self.longest_calm(), Line()
        self.struck["cut"] = sum(len(worker.way.cut_at) for worker in self.workers)
        yield from (f"{worker.library}: {fault}" for worker in self.workers for fault in worker.faults)
        if calm > SOON:
            yield f"nobody writes for {calm:.1f} s"
        yield from line.judge(self.path, lines, [claim for worker in self.workers for claim in worker.claims])
        print(f"{self.path}: {dict(self.struck)}; {line.hand_overs} hand-overs; nobody wrote for {calm:.1f} s at most")
        for library, workers in itertools.groupby(self.workers, lambda worker: worker.library):
            its = list(workers)
            claims, writes = sum(len(worker.claims) for worker in its), sum(len(worker.wrote_at) for worker in its)
            print(f"  {library}: {claims} claims, {writes} writes, {sum(worker.refused for worker in its)} refused")


# The server's logs.


class Place(NamedTuple):
    """A node that was made at a zxid and a moment, with its number, by a session, with data that name its owner."""

    token: int
    made_at: float
    number: int
    session: int
    library: str


def text_in(data: str) -> str:
    """The text of data as the logs have them, in hexadecimal digits."""
    try:
        return bytes.fromhex(data).decode(errors="replace")
    except ValueError:
        return ""  # there are none


class Line:
    """The places of a path through the history."""

    def __init__(self) -> None:
        self.places: dict[str, Place] = {}
        self.newest: dict[int, float] = {}
        """When a session made its last place."""
        self.first, self.hand_overs = 0, 0
        """The token of the first place, or 0, and how many tokens were the first."""

    def hear(self, zxid: int, moment: float, session: int, operation: str, name: str, data: str) -> Iterator[str]:
        if operation == "create":
            self.newest[session] = moment
            self.places[name] = Place(zxid, moment, int(name[-10:]), session, text_in(data))
        elif operation == "delete":
            gone = self.places.pop(name)
            since = self.newest[gone.session]
            if gone.library in OURS and since > gone.made_at and moment - since > LINGERS:
                yield f"{name} was there for {moment - since:.1f} s after its session had another place"
        before, self.first = self.first, min(((place.number, place.token) for place in self.places.values()), default=(0, 0))[1]
        self.hand_overs += self.first not in (0, before)

    def judge(self, path: str, lines: list[str], claims: list[Claim]) -> Iterator[str]:
        """The faults that the lines of a history show."""
        written, asked = 0, collections.deque(sorted(claims, key=lambda claim: claim.zxid))
        for words in (text.split() for text in lines):
            if words[0] in ("torn", "gap", "unknown"):
                yield f"the logs are not whole: {words}"
                continue
            zxid, moment, session = int(words[0]), int(words[1]) / 1000, int(words[2])
            operation, at, data = (*words[3:], "", "")[:3]  # a session is opened and closed at no path
            while asked and asked[0].zxid < zxid:
                yield from self._judge_claim(asked.popleft())
            if at.startswith(f"{path}/"):
                yield from self.hear(zxid, moment, session, operation, at[len(path) + 1 :], data)
            elif at == f"{path}-fence" and operation == "set":
                token = int(bytes.fromhex(data))
                if token < written:
                    yield f"a write of {token} at {zxid} after one of {written}"
                written = token
        yield from itertools.chain.from_iterable(map(self._judge_claim, asked))
        yield from (f"{name} is left" for name in self.places)

    def _judge_claim(self, claim: Claim) -> Iterator[str]:
        if claim.token != self.first:
            yield f"{claim} was not first: {self.first} was"


def history(logs: str) -> list[str]:
    files = sorted(map(str, pathlib.Path(logs).glob("version-2/log.*")), key=lambda name: int(name.rpartition(".")[2], 16))
    shell = TOP / "prebuilt/x86_64-linux/zk_shell"
    return subprocess.run([shell, "history", "--log", *files], capture_output=True, text=True, check=True).stdout.splitlines()


# Many in line.


def hand_over(client: dirwolleu.Client, port: int, library: str, command: list[str]) -> float:
    """Makes many wait in line, and releases one after the other. Returns the requests of each hand-over."""
    path, names = f"/crowd-{library}", NAMES[library][0]
    ways = [Way(port) for _ in range(CROWD if library in OURS else OTHERS)]
    client.create(path)
    with contextlib.ExitStack() as ends:
        crowd = list[Contender]()
        for way in ways:
            crowd.append(ends.enter_context(Contender(command, way.host, path, Side(library, "lock", names))))
            until = time.monotonic() + WAIT
            while len(client.get_children(path)) < len(crowd) and time.monotonic() < until:
                time.sleep(0.01)
        time.sleep(1.0)
        before = sum(way.requests for way in ways)
        for one in crowd:
            one.says("held")
            one.does("release", "released")
    return (sum(way.requests for way in ways) - before) / len(ways)


def those_at(names: str, port: int, commands: dict[str, list[str]]) -> Busy:
    """The workers that contend by these names, at a path of theirs."""
    path = f"/busy-{names}"
    who = [library for library in commands if names in NAMES[library] for _ in range(2 if library in OURS else 1)]
    return Busy(path, [Worker(library, commands[library], port, path, names) for library in who])


def work(port: int, commands: dict[str, list[str]], seconds: float) -> list[Busy]:
    """All contenders work, and end."""
    found = [those_at(names, port, commands) for names in ("kazoo", "curator")]
    with concurrent.futures.ThreadPoolExecutor() as pool:
        for done in [pool.submit(busy.go_through_faults, seconds) for busy in found]:
            done.result()
    for busy in found:
        for worker in busy.workers:
            worker.ask_to_end()
    for worker in itertools.chain.from_iterable(busy.workers for busy in found):
        worker.end()
    time.sleep(LINGERS)
    return found


def main() -> None:
    minutes, logs, host, *words = sys.argv[1:]
    commands = {library: shlex.split(command) for library, _, command in (word.partition("=") for word in words)}
    port, faults = int(host.rpartition(":")[2]), list[str]()
    with dirwolleu.Client(host) as client:
        for names in ("kazoo", "curator"):
            client.create(f"/busy-{names}-fence", b"0")
        found = work(port, commands, 60 * float(minutes))
        for library, command in commands.items():
            frames = hand_over(client, port, library, command)
            print(f"{library}: {frames:.2f} requests a hand-over")
            if library in OURS and frames > MOST_FRAMES:
                faults.append(f"{library}: too many requests a hand-over")
    lines = history(logs)
    for busy in found:
        faults += busy.judge(lines)
    print(*faults, sep="\n", end="\n" * bool(faults))
    print(f"{len(lines)} lines of logs; the machine stood still for {clock.stood_still:.1f} s; {len(faults)} at fault")
    sys.exit(1 if faults else 0)


if __name__ == "__main__":
    main()
