"""`python3 -m dirwolleu demo`: clients live through a history that a seed chooses, and show what they know. `run` is the command.

Each change by others is noted with its zxid. Each answer is compared with these.
"""

from __future__ import annotations

import contextlib
import queue
import random
import threading
import time
from collections.abc import Iterator
from typing import Callable, Optional

from dirwolleu.client import Client
from dirwolleu.exceptions import LockLostError
from dirwolleu.recipes import Held, Lock
from dirwolleu.testing import Server
from dirwolleu.tree import TreeSnapshot
from dirwolleu.types import Kept, Mark, State

Write = Callable[[str], None]

VALUES = "amber azure coral ivory jade lilac olive pearl ruby sand teal umber".split()
NAMES = "ada bob cleo dan eve fay gus hal ida jon kim lou".split()
CONFIG, FLEET, JOB = "/config", "/fleet", "/job"
PACE = 1.2
"""How many seconds pass after each line, at a pace to read along."""
TIMEOUT = 30.0
"""The timeout of a session, in seconds: long, so that no busy machine ends a connection."""
WAIT = 60.0
"""The longest wait for one thing, in seconds: a busy machine takes less."""

HEAD = """\
ZooKeeper in memory at {hosts}. History {seed}: --seed {seed} shows it again.

 zxid  what a client knew at this zxid, which is ZooKeeper's number of a change
      > what others did\
"""
TAIL = """
{count} answers of a client, each compared with what ZooKeeper held at its zxid:
all are right.\
"""


def quoted(data: Optional[bytes]) -> str:
    return f'"{(data or b"").decode()}"'


class History:
    """What others changed, by its zxid."""

    def __init__(self) -> None:
        self._changes: list[tuple[int, str, Optional[bytes]]] = []

    def note(self, zxid: int, path: str, data: Optional[bytes]) -> None:
        """A node has these data from this zxid on, or is gone."""
        self._changes.append((zxid, path, data))

    def nodes(self, zxid: int) -> dict[str, bytes]:
        """All nodes at this zxid."""
        latest = {path: data for at, path, data in self._changes if at <= zxid}
        return {path: data for path, data in latest.items() if data is not None}


class Stage:
    """The place of the history: the server, the changes of others there, and the lines that are printed."""

    def __init__(self, server: Server, source: random.Random, write: Write, pause: float) -> None:
        self.server, self.source = server, source
        self.compared = 0
        self._history = History()
        self._write, self._pause = write, pause

    def title(self, text: str) -> None:
        self._write("")
        self._write(text)

    def others(self, text: str) -> None:
        self._line(f"      > {text}")

    def client(self, zxid: int, text: str) -> None:
        self._line(f"{zxid:>5}  {text}")

    def remark(self, text: str) -> None:
        self._line(f"{'':>5}  {text}")

    def _line(self, text: str) -> None:
        self._write(text)
        time.sleep(self._pause)

    def value(self, other_than: Optional[bytes] = None) -> bytes:
        return self.source.choice([one for one in VALUES if one.encode() != other_than]).encode()

    def set(self, path: str, data: bytes) -> int:
        """Others make a node or write it. Returns the zxid of that."""
        is_there = path in self._history.nodes(self.server.zxid)
        zxid = self.server.set(path, data) if is_there else self.server.create(path, data)
        self._history.note(zxid, path, data)
        self.others(f"{'set' if is_there else 'create'} {path} {data.decode()}".rstrip())
        return zxid

    def delete(self, path: str) -> int:
        zxid = self.server.delete(path)
        self._history.note(zxid, path, None)
        self.others(f"delete {path}")
        return zxid

    def compare(self, zxid: int, paths: str, known: dict[str, bytes]) -> None:
        """Raises `AssertionError` if the servers did not hold this at and below this path, at this zxid."""
        held = {path: data for path, data in self._history.nodes(zxid).items() if f"{path}/".startswith(f"{paths}/")}
        if known != held:
            raise AssertionError(f"at zxid {zxid} the client knew {known}, and ZooKeeper held {held}")
        self.compared += 1


class Follower:
    """A client that follows a node and a tree."""

    def __init__(self, stage: Stage, client: Client) -> None:
        self.stage, self.client = stage, client
        self.states: queue.Queue[State] = queue.Queue()
        client.add_listener(self.states.put)
        self._answers = client.follow(CONFIG)
        self._snapshots: Iterator[TreeSnapshot] = iter(())
        self._before: Optional[TreeSnapshot] = None

    def follow_tree(self, stack: contextlib.ExitStack) -> None:
        self._snapshots = stack.enter_context(self.client.tree(FLEET)).snapshots()

    def tell(self, kept: Kept, remark: str = "") -> Kept:
        """Prints what the client knew of the node."""
        self.stage.compare(kept.last_zxid, CONFIG, {CONFIG: kept.data or b""} if kept.exists else {})
        what = f"{CONFIG} is {quoted(kept.data)}" if kept.exists else f"there is no {CONFIG}"
        self.stage.client(kept.last_zxid, f"{what}{remark}")
        return kept

    def node(self, zxid: int) -> Kept:
        """Prints what the client knew of the node, as soon as that has this zxid or a later one."""
        return self.tell(next(kept for kept in self._answers if kept.last_zxid >= zxid))

    def known(self, remark: str = "") -> Kept:
        """Prints what the client knows of the node now, without a request."""
        kept = self.client.kept(CONFIG)
        assert kept is not None and kept.mark is Mark.GOOD
        return self.tell(kept, remark)

    def tree(self, zxid: int) -> TreeSnapshot:
        """Prints what the client knew of the tree, as soon as that has this zxid or a later one."""
        snapshot = next(one for one in self._snapshots if one.zxid >= zxid)
        self.stage.compare(snapshot.zxid, FLEET, {path: node.data or b"" for path, node in snapshot.items()})
        change = snapshot.changed_since(self._before)
        signs = {"+": change.added, "-": change.removed, "*": change.changed}
        names = [f"{sign}{path.rpartition('/')[2]}" for sign, paths in signs.items() for path in paths]
        self.stage.client(snapshot.zxid, f"{FLEET}: {len(snapshot)} nodes, all of one moment; {' '.join(names)}")
        self._before = snapshot
        return snapshot

    def wait(self, state: State) -> None:
        """Waits until the client has come to this state."""
        while self.states.get(timeout=WAIT) is not state:
            pass


def show_node(stage: Stage, follower: Follower) -> None:
    stage.title("A client follows a node, which others make and change")
    follower.node(0)
    kept = follower.node(stage.set(CONFIG, stage.value()))
    for _ in range(stage.source.randint(1, 2)):
        kept = follower.node(stage.set(CONFIG, stage.value(kept.data)))
    if stage.source.random() < 0.5:
        follower.node(stage.delete(CONFIG))
        follower.node(stage.set(CONFIG, stage.value(kept.data)))


def show_mark(stage: Stage, follower: Follower) -> None:
    stage.title("What it knows is good: it was so at this zxid, and nothing ended it since")
    kept = follower.known(", good: it asked nobody")
    with stage.server.lag(follower.client.session_id):
        stage.others("the client's server lags: it learns no more")
        zxid = stage.set(CONFIG, stage.value(kept.data))
        follower.known(f", good: others are at {zxid}, and this held at {kept.last_zxid}")
    stage.others("the client's server learns of it")
    follower.node(zxid)


def change_fleet(stage: Stage, names: list[str]) -> int:
    """Others change nodes of the tree, some of which have these names. Returns the last zxid."""
    zxid = 0
    for name in stage.source.sample(NAMES, stage.source.randint(2, 3)):
        path = f"{FLEET}/{name}"
        if name in names and stage.source.random() < 0.7:
            zxid = stage.delete(path)
        else:
            zxid = stage.set(path, stage.value())
    return zxid


def show_tree(stage: Stage, follower: Follower, stack: contextlib.ExitStack) -> list[str]:
    stage.title("It follows a tree: + is new, - is gone, * has another value")
    stage.set(FLEET, b"")
    follower.follow_tree(stack)
    names: list[str] = []
    for _ in range(2):
        snapshot = follower.tree(change_fleet(stage, names))
        names = list(snapshot.children(FLEET))
    return names


def show_cut(stage: Stage, follower: Follower, names: list[str]) -> None:
    stage.title("The connection is cut, and others go on")
    stage.others("the server stops")
    stage.server.stop()
    follower.wait(State.SUSPENDED)
    kept = follower.known(", good: nobody told it otherwise")
    zxid, tree_zxid = stage.set(CONFIG, stage.value(kept.data)), change_fleet(stage, names)
    stage.others("the server is there again")
    stage.server.restart()
    follower.wait(State.CONNECTED)
    follower.node(zxid)
    follower.tree(tree_zxid)
    stage.remark(f"the session is {follower.client.session_id:#x}, as before")


def show_expiry(stage: Stage, follower: Follower) -> None:
    stage.title("The session expires")
    number, kept = follower.client.session_id, follower.client.kept(CONFIG)
    stage.others(f"session {number:#x} expires")
    stage.server.expire(number)
    zxid = stage.set(CONFIG, stage.value(kept.data if kept else None))
    follower.wait(State.LOST)
    follower.wait(State.CONNECTED)
    follower.node(zxid)
    stage.remark(f"the session is {follower.client.session_id:#x} now: the client began it by itself")


class Contender:
    """A client that takes the lock in a thread of its own."""

    def __init__(self, name: str, client: Client) -> None:
        self.name, self.client = name, client
        self.lock = Lock(client, JOB, identifier=name)
        self._taken: queue.Queue[Held] = queue.Queue()
        threading.Thread(target=lambda: self._taken.put(self.lock.acquire(WAIT)), daemon=True).start()

    def held(self) -> Held:
        """Waits until the lock is taken."""
        return self._taken.get(timeout=WAIT)


def contenders(stage: Stage, stack: contextlib.ExitStack) -> Iterator[Contender]:
    """Contenders that come one after the other."""
    names = stage.source.sample(NAMES, 3)
    for place, name in enumerate(names):
        one = Contender(name, stack.enter_context(Client(stage.server.hosts, TIMEOUT)))
        until = time.monotonic() + WAIT
        while one.lock.contenders() != names[: place + 1] and time.monotonic() < until:
            time.sleep(0.01)
        yield one


def hand_over(stage: Stage, one: Contender, held: Held) -> None:
    """The holder lets go, or its session expires."""
    if stage.source.random() < 0.5:
        held.release()
        stage.remark(f"{one.name} lets go")
        return
    stage.others(f"the session of {one.name} expires")
    stage.server.expire(one.client.session_id)
    until = time.monotonic() + WAIT
    while held.is_held and time.monotonic() < until:
        time.sleep(0.01)
    try:
        held.check()
    except LockLostError as error:
        stage.remark(f"{one.name} is told: {str(error).rpartition(': ')[2]}, so the lock is lost")


def show_lock(stage: Stage) -> None:
    stage.title(f"Three clients want the lock {JOB}; a later holder has a greater token")
    token = 0
    with contextlib.ExitStack() as stack:
        waiting = list(contenders(stage, stack))
        while waiting:
            one = waiting.pop(0)
            held = one.held()
            if held.token <= token:
                raise AssertionError(f"the token {held.token} is not greater than {token}")
            token = held.token
            others = one.lock.contenders()[1:]
            waits = f"; {' and '.join(others)} wait{'s' if len(others) == 1 else ''}" if others else ""
            stage.client(one.client.last_zxid, f"{one.name} holds with token {token}{waits}")
            if waiting:
                hand_over(stage, one, held)


def run(seed: Optional[int], is_slow: bool, write: Write) -> None:
    """Shows a history. Raises `AssertionError` if a client was wrong."""
    seed = random.SystemRandom().randrange(1000) if seed is None else seed
    with Server() as server:
        write(HEAD.format(hosts=server.hosts, seed=seed))
        stage = Stage(server, random.Random(seed), write, PACE if is_slow else 0.0)
        with contextlib.ExitStack() as stack:
            follower = Follower(stage, stack.enter_context(Client(server.hosts, TIMEOUT)))
            show_node(stage, follower)
            show_mark(stage, follower)
            names = show_tree(stage, follower, stack)
            show_cut(stage, follower, names)
            show_expiry(stage, follower)
        show_lock(stage)
    write(TAIL.format(count=stage.compared))
