"""beside_kazoo.py HOST:PORT: the same calls by kazoo and by dirwolleu.kazoo, at a real server, with the same outcome.

It wants the package python3-kazoo. Each step is done by a client of either, below a root of its own. Outcomes are values
and names of errors, without what no two nodes share: zxids and times.
"""

from __future__ import annotations

import logging
import pathlib
import sys
import threading
import time
from collections.abc import Callable
from typing import Any, NamedTuple

sys.path.insert(0, str(pathlib.Path(__file__).resolve().parents[1]))

import kazoo.client  # type: ignore[import]  # noqa: E402
import kazoo.recipe.lock  # type: ignore[import]  # noqa: E402
import kazoo.retry  # type: ignore[import]  # noqa: E402
import kazoo.security  # type: ignore[import]  # noqa: E402

import dirwolleu.kazoo.client  # noqa: E402
import dirwolleu.kazoo.retry  # noqa: E402
import dirwolleu.kazoo.security  # noqa: E402

WAIT = 20.0


class Side(NamedTuple):
    """One of the two, with its client."""

    modules: Any
    zk: Any
    other: Any
    """A second client."""
    host: str


Step = Callable[[Side], Any]


def plain(value: Any) -> Any:
    """A value without what no two nodes share."""
    if hasattr(value, "czxid"):
        return ("stat", value.version, value.cversion, value.aversion, bool(value.ephemeralOwner), value.dataLength, value.numChildren)
    if isinstance(value, Exception):
        return type(value).__name__
    if isinstance(value, tuple):
        return (*map(plain, value),) if not hasattr(value, "state") else ("event", *value)
    return [plain(one) for one in value] if isinstance(value, list) else value


def outcome(call: Callable[[], Any]) -> Any:
    try:
        return plain(call())
    except Exception as error:
        return f"raises {type(error).__name__}"


def within(condition: Callable[[], Any]) -> Any:
    until = time.monotonic() + WAIT
    while not (found := condition()) and time.monotonic() < until:
        time.sleep(0.01)
    return found


def transaction(side: Side, *operations: tuple[Any, ...]) -> Any:
    asked = side.zk.transaction()
    for name, *words in operations:
        getattr(asked, name)(*words)
    return asked.commit()


def events(side: Side) -> Any:
    told: list[Any] = []
    side.zk.ensure_path("/events/a")
    side.zk.get("/events/a", told.append)
    side.zk.get_children("/events", told.append)
    side.zk.exists("/events/b", told.append)
    side.other.set("/events/a", b"x")
    side.other.set("/events/a", b"y")
    within(lambda: len(told) == 1)
    side.other.create("/events/b")
    within(lambda: len(told) == 3)
    side.zk.get_children("/events/a", told.append)
    side.zk.get("/events/a", told.append)
    side.other.delete("/events/a")
    within(lambda: len(told) == 5)
    return sorted(map(plain, told))


def watches(side: Side) -> Any:
    data: list[Any] = []
    names: list[Any] = []
    side.zk.ensure_path("/watches")
    side.zk.DataWatch("/watches/a", lambda value, stat: data.append((value, stat)))
    side.zk.ChildrenWatch("/watches", lambda found: names.append(sorted(found)))
    for number, change in enumerate(("create", "set", "set", "delete")):
        words = (f"{number}".encode(),) if change != "delete" else ()
        getattr(side.other, change)("/watches/a", *words)
        within(lambda: len(data) == number + 2)
    within(lambda: len(names) == 3)
    return data, names


def locks(side: Side) -> Any:
    found: list[Any] = []
    one, two = side.zk.Lock("/lock", "one"), side.other.Lock("/lock", "two")
    found += [one.acquire(), one.is_acquired, two.acquire(blocking=False), outcome(lambda: two.acquire(timeout=0.2))]
    thread = threading.Thread(target=lambda: found.append(two.acquire()))
    thread.start()
    within(lambda: len(one.contenders()) == 2)
    found += [one.contenders(), one.release(), one.release()]
    thread.join(WAIT)
    found += [two.contenders(), two.release(), two.is_acquired, two.node]
    readers = [side.zk.ReadLock("/rw"), side.other.ReadLock("/rw")]
    writer = side.zk.WriteLock("/rw")
    found += [*(reader.acquire() for reader in readers), writer.acquire(blocking=False), *(reader.release() for reader in readers)]
    return [*found, writer.acquire(timeout=1), writer.release()]


def parties(side: Side) -> Any:
    party, other = side.zk.Party("/party", "one"), side.other.Party("/party", "two")
    party.join()
    other.join()
    found = [sorted(party), len(party), party.leave(), party.leave(), list(other)]
    return [*found, side.zk.Election("/election", "one").run(lambda: found.append("led")), *found]


def states(side: Side) -> Any:
    told: list[str] = []
    client = side.modules.client.KazooClient(side.host)
    client.add_listener(lambda state: told.append(state))
    found = [client.state, client.client_state, client.connected, client.client_id, outcome(lambda: client.get("/"))]
    client.start()
    within(lambda: told)
    found += [client.state, client.client_state, client.connected, len(client.client_id[1])]
    client.restart()
    client.stop()
    client.close()
    within(lambda: len(told) == 4)
    return [*found, told, client.state, client.client_state, outcome(lambda: client.get("/"))]


STEPS: dict[str, Step] = {
    "create": lambda s: s.zk.create("/a", b"one"),
    "create again": lambda s: s.zk.create("/a"),
    "create without a parent": lambda s: s.zk.create("/none/a"),
    "makepath": lambda s: s.zk.create("/p/q/r", b"x", makepath=True),
    "include_data": lambda s: s.zk.create("/p/s", b"xy", include_data=True),
    "sequence": lambda s: [s.zk.create("/p/n-", sequence=True), s.zk.create("/p/n-", sequence=True)],
    "ephemeral": lambda s: s.zk.create("/p/e", ephemeral=True, include_data=True),
    "below an ephemeral node": lambda s: s.zk.create("/p/e/f"),
    "null data": lambda s: [s.zk.create("/null", None), s.zk.get("/null")],
    "get": lambda s: s.zk.get("/a"),
    "get without a slash": lambda s: s.zk.get("a"),
    "get with many": lambda s: s.zk.get("//p//q/"),
    "get of none": lambda s: s.zk.get("/none"),
    "relative": lambda s: s.zk.get("/a/../b"),
    "no path": lambda s: s.zk.create("/a\x00"),
    "exists": lambda s: [s.zk.exists("/a"), s.zk.exists("/none")],
    "children": lambda s: [sorted(s.zk.get_children("/p")), s.zk.get_children("/a", include_data=True)],
    "children of none": lambda s: s.zk.get_children("/none"),
    "set": lambda s: [s.zk.set("/a", b"two"), s.zk.set("/a", b"three", version=1)],
    "set of another version": lambda s: s.zk.set("/a", b"", version=9),
    "set of none": lambda s: s.zk.set("/none", b""),
    "delete": lambda s: [s.zk.create("/d"), s.zk.delete("/d")],
    "delete of none": lambda s: s.zk.delete("/none"),
    "delete of another version": lambda s: s.zk.delete("/a", version=9),
    "delete of a parent": lambda s: s.zk.delete("/p"),
    "recursive": lambda s: [bool(s.zk.delete("/p/q", recursive=True)) or True, s.zk.exists("/p/q")],
    "recursive of none": lambda s: s.zk.delete("/none", recursive=True),
    "ensure_path": lambda s: [bool(s.zk.ensure_path("/e/f")), s.zk.ensure_path("/e/f"), s.zk.exists("/e/f")],
    "sync": lambda s: s.zk.sync("/a"),
    "open ACL": lambda s: s.zk.get_acls("/a"),
    "ACL": lambda s: [
        s.zk.add_auth("digest", "bob:secret"),
        s.zk.create("/bobs", b"", acl=s.modules.security.CREATOR_ALL_ACL),
        s.zk.get_acls("/bobs")[0][0].id,
        outcome(lambda: s.other.get("/bobs")),
        s.zk.set_acls("/bobs", [s.modules.security.make_acl("world", "anyone", read=True)]),
        s.other.get("/bobs"),
        s.zk.get_acls("/bobs")[0][0].acl_list,
    ],
    "ACL that is none": lambda s: s.zk.create("/c", acl=[s.modules.security.make_acl("none", "x", all=True)]),
    "transaction": lambda s: transaction(
        s, ("create", "/t", b"1"), ("set_data", "/t", b"2"), ("check", "/t", 1), ("create", "/t-", b"", None, True, True), ("delete", "/t")
    ),
    "refused transaction": lambda s: transaction(s, ("create", "/t", b"1"), ("check", "/a", 99), ("delete", "/a")),
    "transaction without a node": lambda s: transaction(s, ("delete", "/none"),),
    "transaction twice": lambda s: (lambda asked: [asked.create("/tt"), asked.commit(), outcome(asked.commit)])(s.zk.transaction()),
    "async": lambda s: [
        s.zk.get_async("/a").get(timeout=WAIT),
        s.zk.get_async("/a").get(True, WAIT),
        s.zk.exists_async("/none").get(),
        s.zk.create_async("/g/h", makepath=True).get(),
        s.zk.delete_async("/g/h").get(),
        s.zk.set_async("/g", b"x").get(),
        bool(s.zk.ensure_path_async("/g/i").get()),
    ],
    "async that fails": lambda s: (lambda r: [r.wait(WAIT), r.ready(), r.successful(), r.value, r.exception])(s.zk.get_async("/none")),
    "retry": lambda s: [s.zk.retry(s.zk.exists, "/a"), outcome(lambda: s.zk.retry(s.zk.get, "/none"))],
    "types": lambda s: [
        outcome(lambda: s.zk.create(b"/a")),
        outcome(lambda: s.zk.create("/z", "text")),
        outcome(lambda: s.zk.create("/z", ephemeral="x")),
        outcome(lambda: s.zk.create("/z", acl="x")),
        outcome(lambda: s.zk.get("/a", 7)),
        outcome(lambda: s.zk.set("/a", "x")),
        outcome(lambda: s.zk.delete("/a", "1")),
        outcome(lambda: s.zk.delete("/a", recursive=1)),
        outcome(lambda: s.zk.add_listener(7)),
        outcome(lambda: s.zk.set_hosts("127.0.0.1:1/other")),
    ],
    "chroot": lambda s: [s.zk.unchroot(s.zk.chroot + "/a"), s.zk.unchroot(s.zk.chroot)],
    "command": lambda s: outcome(lambda: s.zk.command(b"srvr").split("\n")[0][:24]),
    "events": events,
    "watches": watches,
    "locks": locks,
    "parties": parties,
    "states": states,
}


def begin(modules: Any, host: str, root: str) -> Side:
    first = modules.client.KazooClient(host)
    first.start()
    first.ensure_path(root)
    first.stop()
    clients = [modules.client.KazooClient(host + root, timeout=10.0) for _ in range(2)]
    for client in clients:
        client.start()
    return Side(modules, clients[0], clients[1], host)


def main(words: list[str]) -> None:
    if len(words) != 1:
        sys.exit(__doc__)
    logging.getLogger("kazoo").setLevel(logging.CRITICAL)
    root = f"/beside-{time.time_ns()}"
    sides = [begin(kazoo, words[0], f"{root}/one"), begin(dirwolleu.kazoo, words[0], f"{root}/two")]
    different = 0
    for name, step in STEPS.items():
        theirs, ours = (outcome(lambda: step(side)) for side in sides)
        if theirs != ours:
            different += 1
            print(f"{name}:\n  kazoo: {theirs}\n  here:  {ours}")
    print(f"{len(STEPS) - different} of {len(STEPS)} steps have the same outcome")
    for side in sides:
        for client in (side.zk, side.other):
            client.stop()
            client.close()
    sys.exit(1 if different else 0)


if __name__ == "__main__":
    main(sys.argv[1:])
