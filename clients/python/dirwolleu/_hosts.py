"""Which servers a client dials: the hosts of a connection string, and the next address."""

from __future__ import annotations

import random
from typing import TYPE_CHECKING, Callable, NamedTuple, Optional

from dirwolleu._checks import checked_text
from dirwolleu._root import Root

if TYPE_CHECKING:
    from dirwolleu._lookups import LookUp

DEFAULT_PORT = 2181

Server = tuple[str, int]
"""The name or the address of a host, and a port."""


class Hosts(NamedTuple):
    """The parts of a connection string."""

    text: str
    servers: tuple[Server, ...]
    root: Root


class Place(NamedTuple):
    """An address to dial, and the name that it was looked up for."""

    name: str
    address: str
    port: int

    def __str__(self) -> str:
        shown = f"[{self.name}]" if ":" in self.name else self.name
        found = "" if self.name == self.address else f" ({self.address})"
        return f"{shown}:{self.port}{found}"


def hosts_of(text: str) -> Hosts:
    """Reads a text like `host:port,host:port/root`. Raises `ValueError` and `TypeError` if it is none.

    A port that is left out is 2181. An IPv6 address is in brackets. The root is that of all hosts.
    """
    servers, slash, path = checked_text("a text of hosts", text).partition("/")
    root = Root(slash + path if path else "")
    return Hosts(text, tuple(_server(server.strip()) for server in servers.split(",")), root)


def _server(text: str) -> Server:
    host, colon, port = text.rpartition(":")
    if not colon or text.endswith("]"):
        host, port = text, str(DEFAULT_PORT)
    host = host[1:-1] if host.startswith("[") and host.endswith("]") else host
    if not host or not port.isdecimal() or not 0 < int(port) < 65536:
        raise ValueError(f"{text!r} is no address: host:port is wanted")
    host.encode("idna")  # a ValueError if it is no name
    return host, int(port)


Found = Callable[[Optional[Place], Optional[OSError]], object]
"""A function that gets an address, or the error for which there is none."""


class _Round:
    """A list of servers in the order of its places, and the addresses that were dialled, until all of a name were.

    The library names places of the list, and goes through all of them in an order of its own, which is random. If that is not wanted,
    each new place gets the next server, in the order in which the servers are named.
    """

    def __init__(self, servers: tuple[Server, ...], is_by_chance: bool) -> None:
        self._servers, self._is_by_chance = servers, is_by_chance
        self._places: dict[int, Server] = {}
        self._dialled: set[Place] = set()

    def server_at(self, place: int) -> Server:
        if self._is_by_chance:
            return self._servers[place % len(self._servers)]
        return self._places.setdefault(place, self._servers[len(self._places) % len(self._servers)])

    def choose(self, places: list[Place]) -> Place:
        """One of the addresses of a name: one that was not dialled yet, as long as there is one."""
        fresh = [place for place in places if place not in self._dialled]
        if not fresh:
            self._dialled.difference_update(places)
            fresh = places
        chosen = random.choice(fresh) if self._is_by_chance else fresh[0]
        self._dialled.add(chosen)
        return chosen


class Servers:
    """The servers of a client. Any thread may replace them."""

    def __init__(self, hosts: str, is_by_chance: bool = True) -> None:
        self.hosts = hosts_of(hosts)
        self._is_by_chance = is_by_chance
        self._round = _Round(self.hosts.servers, is_by_chance)
        self._listed: tuple[Server, ...] = ()
        self._dialled: Optional[Server] = None
        self._lookups: dict[Server, LookUp] = {}

    def replace(self, hosts: str) -> None:
        """Sets the servers for the next `arrange`. Raises `ValueError` if the root is another one."""
        new = hosts_of(hosts)
        if new.root != self.hosts.root:
            raise ValueError(f"the root of a client stays {self.hosts.root.path or '/'}")
        self.hosts = new

    def arrange(self, servers: tuple[Server, ...]) -> tuple[int, int, bool]:
        """Gives these servers the places of a list: first those that had one before. Returns how many they are, how many had none, and
        whether the server that was dialled last is one of them.
        """
        before, self._listed = self._listed, servers
        kept = tuple(server for server in servers if server in before)
        added = tuple(server for server in servers if server not in before)
        self._round = _Round(kept + added if self._is_by_chance else servers, self._is_by_chance)
        return len(kept), len(added), self._dialled is None or self._dialled in servers

    def find(self, place: int, soon: Callable[[Callable[[], object]], object], tell: Found) -> None:
        """Finds an address of the server at a place of the list, and calls `tell` with it, or with the error for which there is none. A
        name is looked up each time, in another thread, which calls by `soon`.
        """
        current = self._round
        host, port = self._dialled = current.server_at(place)

        def choose(addresses: list[str], error: Optional[OSError]) -> None:
            tell(current.choose([Place(host, address, port) for address in addresses]) if addresses else None, error)

        address = _address_of(host)
        if address is not None:
            return choose([address], None)
        self._look_up(host, port).then(lambda *found: soon(lambda: choose(*found)))

    def _look_up(self, host: str, port: int) -> LookUp:
        """The look-up of a host. One that is under way already is shared, so that there is one at most."""
        from dirwolleu._lookups import LookUp

        found = self._lookups.get((host, port))
        if found is None or found.is_done():
            found = self._lookups[host, port] = LookUp(host, port)
        return found


def _address_of(host: str) -> Optional[str]:
    """The host, if it is an address; None if it is a name."""
    import socket  # here, since only a client that is started dials

    for family in (socket.AF_INET, socket.AF_INET6):
        try:
            return socket.inet_ntop(family, socket.inet_pton(family, host))
        except OSError:
            pass
    return None
