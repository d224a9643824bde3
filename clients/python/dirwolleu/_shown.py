"""The base of both clients, and the look-ups that ask no server."""

from __future__ import annotations

import math
import sys
from collections.abc import Iterable
from typing import TYPE_CHECKING, Any, Callable, Optional, TypeVar, Union

from dirwolleu import _watches as watches
from dirwolleu._checks import checked_function, checked_int, checked_text
from dirwolleu._clock import moment
from dirwolleu._credentials import Credential
from dirwolleu._engine import Engine, Listener, News
from dirwolleu._hosts import Servers
from dirwolleu._recording import Path
from dirwolleu._retry import Retry
from dirwolleu._session import LONGEST_ANSWER, LONGEST_REQUEST, Limits
from dirwolleu._steps import Result, Steps
from dirwolleu.metrics import Observation
from dirwolleu.types import Kept, KeptChildren, Mark, Snapshot, State, Stats

if TYPE_CHECKING:
    import ssl as _ssl

    from dirwolleu.sasl import Sasl

AuthData = Iterable[tuple[str, Union[str, bytes]]]
AnyKept = TypeVar("AnyKept", bound=Union[Kept, KeptChildren])


def credential_of(scheme: str, credential: Union[str, bytes]) -> Credential:
    """A credential. Raises a `TypeError` that does not show the secret."""
    spelled = credential.encode() if isinstance(credential, str) else credential
    if not isinstance(spelled, bytes):
        raise TypeError(f"a credential is a str or bytes, and not {type(credential).__name__}")
    return Credential(checked_text("a scheme", scheme), spelled)


def _credentials_of(auth_data: AuthData) -> list[Credential]:
    pairs = list(auth_data)
    if not all(isinstance(pair, (tuple, list)) and len(pair) == 2 for pair in pairs):
        raise TypeError("auth_data are pairs, each of a scheme and its credential")
    return [credential_of(*pair) for pair in pairs]


def _named(one: object) -> str:
    return f"{type(one).__module__.removesuffix('.client')}.{type(one).__name__}"


class Shown:
    """The part of a client that shows its session and its kept answers."""

    def __init__(
        self,
        hosts: str,
        timeout: float = 10.0,
        saved: Optional[bytes] = None,
        *,
        auth_data: AuthData = (),
        ssl: Optional[_ssl.SSLContext] = None,
        sasl: Optional[Sasl] = None,
        retry: Optional[Retry] = None,
        randomize_hosts: bool = True,
        longest_answer: int = LONGEST_ANSWER,
        longest_request: int = LONGEST_REQUEST,
        record: Optional[Path] = None,
    ) -> None:
        limits = Limits(longest_answer, longest_request)
        if saved is not None and not isinstance(saved, bytes):
            raise TypeError(f"a saved session is bytes, and not {type(saved).__name__}")
        for name, limit in limits._asdict().items():
            checked_int(name, limit, 64)
        self._servers = Servers(hosts, randomize_hosts)
        self._engine = Engine(timeout, saved, self._tell, self._servers.hosts.root, _credentials_of(auth_data), limits)
        if record is not None:
            self._engine.record(record, saved)
        if retry is not None and not isinstance(retry, Retry):
            raise TypeError(f"a policy is a Retry, and not {type(retry).__name__}")
        self._retry, self._tls, self._sasl = retry, ssl, sasl
        self._tasks: dict[Any, None] = {}
        """Work that nobody waits for, until it is done."""
        self._prepare()

    def _prepare(self) -> None:
        """Makes the state that only this kind of client has."""
        raise NotImplementedError

    def __repr__(self) -> str:
        """Its hosts, state and session; no secret."""
        return f"<{_named(self)} of {self._servers.hosts.text}: {self.state.value}, session {self.session_id:#x}>"

    def __reduce__(self) -> str:
        raise TypeError(f"a {_named(self)} has a connection of its own: it can be neither copied nor pickled")

    if not TYPE_CHECKING:

        def __getattr__(self, name: str) -> Any:
            """Says where a recipe is that kazoo's client has as an attribute."""
            package, is_recipe = _named(self).rpartition(".")[0], name in sys.modules["dirwolleu.recipes"].__all__
            hint = f": {package}.{name}(client, ..) makes one" if is_recipe else ""
            raise AttributeError(f"a {_named(self)} has no {name}{hint}")

    def _tell(self, function: Callable[[Any], object], argument: Any) -> object:
        """Lets a function of the program be called later, not within this call."""
        raise NotImplementedError

    def _call_back(self, function: Callable[[Any], object], argument: Any) -> None:
        """Calls a function of the program in the thread or loop of the callbacks."""
        raise NotImplementedError

    def _act(self) -> None:
        """Wakes the connection, which sends what was asked."""
        raise NotImplementedError

    def _begin(
        self, begin: Callable[[News], Steps[Any]], end: Callable[[Any, Optional[BaseException]], object]
    ) -> None:
        """Starts steps that nobody waits for. `begin` makes them from the news that they wait for."""
        raise NotImplementedError

    def _do_first(self, begin: Callable[[News], Steps[Result]]) -> Optional[Result]:
        """Does steps before it returns, if the client waits for its answers and is started."""
        raise NotImplementedError

    @property
    def chroot(self) -> str:
        """The servers' node that the program knows as `/`; empty for the servers' own root."""
        return self._servers.hosts.root.path

    def set_hosts(self, hosts: str) -> None:
        """Goes on with these servers. The session moves to another server, as after a lost connection, if its own is not in the list;
        if the list has grown, it moves with the probability that balances the load, as in ZooKeeper's own clients.

        Raises `ValueError` if the text is no list of hosts, or has another root than before.

            client.set_hosts("new-1:2181,new-2:2181")
        """
        self._servers.replace(hosts)
        self._act()

    @property
    def state(self) -> State:
        """The state of the client's session and connection."""
        return self._engine.state

    @property
    def connected(self) -> bool:
        """Whether a server has accepted the session."""
        return self.state is State.CONNECTED

    @property
    def session_id(self) -> int:
        """The number of the session, or 0 before the first one. It is the owner of the client's ephemeral nodes."""
        return self._engine.session_id()

    @property
    def last_zxid(self) -> int:
        """The greatest zxid that the client has seen."""
        return self._engine.last_zxid()

    @property
    def session_timeout(self) -> float:
        """The timeout of the session in seconds: the one that a server granted last, or else the one that the client asks for."""
        return self._engine.timeout()

    @property
    def saved_session(self) -> Optional[bytes]:
        """The bytes by which another client, maybe of another process, takes the session up, or None before the first session. They
        are a secret.

        Only one client at a time may have a session: close this one first.
        """
        return self._engine.saved() if self.session_id else None

    def add_listener(self, listener: Listener) -> None:
        """Calls the listener with each new state."""
        self._engine.add_listener(checked_function("a listener", listener))

    def remove_listener(self, listener: Listener) -> None:
        """Stops calling the listener. Raises `ValueError` if it was not added."""
        self._engine.remove_listener(listener)

    def observe(self, function: Callable[[Observation], object]) -> None:
        """Calls a function with each `CallEvent`, `ConnectionEvent` and `Transfer` from now on: see `dirwolleu.metrics`.

        The function runs within the client's own steps, in their order, and other clients wait for these steps. So it has to be
        quick, and must not call a function of any client that waits.
        """
        self._engine.observe(checked_function("what observes", function))

    def stats(self) -> Stats:
        """The client's counters since it was made: dials, connections, calls, the time that answers take.

            stats = client.stats()
            print(stats.connections - 1, "reconnects,", stats.waiting, "calls wait")
        """
        return self._engine.stats()

    def age(self) -> float:
        """The greatest age of kept answers, in seconds; infinity if no server has answered yet.

        It is the time since the newest answered ping or call was handed in: by then, the server had reported all that it knew of the
        watched nodes. The server itself may be behind the others. On systems whose clock shows it, as Linux's does, the age includes
        the time for which the machine was suspended; so does `within` of other calls.
        """
        proved_at = self._engine.connection_stats.proved_at
        return math.inf if proved_at is None else max(moment() - proved_at, 0) / 1000

    def kept(self, path: str, within: Optional[float] = None) -> Optional[Kept]:
        """The kept answer for a node that `get`, `exists` or `follow` read with a watch, or None. It asks no server.

        With `within`, in seconds, it returns only a good answer of at most this age: one that the client's server held that
        long ago, or later. An idle client hears its server every third of the timeout.

            kept = client.kept("/config", within=5.0)
            data = kept.data if kept is not None else client.get("/config", watch=True)[0]
        """
        return self._within(within, lambda: self._engine.kept(path))

    def kept_children(self, path: str, within: Optional[float] = None) -> Optional[KeptChildren]:
        """The kept names of the children of a node that `get_children` read with a watch, or None. It asks no server.

        `within` works as in `kept`.
        """
        return self._within(within, lambda: self._engine.kept_children(path))

    def _within(self, within: Optional[float], look: Callable[[], Optional[AnyKept]]) -> Optional[AnyKept]:
        self._engine.check_process()
        age = self.age()  # before the look-up: an answer that is good later was good by then
        kept = look()
        if within is None or kept is None:
            return kept
        return kept if kept.mark is Mark.GOOD and age <= within else None

    def snapshot(self, nodes: Iterable[str] = (), parents: Iterable[str] = ()) -> Optional[Snapshot]:
        """The kept answers for several nodes, and for the names below several parents, of one moment. It asks no server.

        The proved core makes it: all of it is the servers' history at its zxid, whatever notices came between the reads. It
        is None if some of it is not kept, or not good: read that with a watch. `exists` keeps the absence of a node.

            found = client.snapshot(nodes=["/host", "/port"], parents=["/workers"])
            if found is not None:
                print(found.nodes["/host"].data, found.children["/workers"].names, "at zxid", found.zxid)
        """
        self._engine.check_process()
        return self._engine.snapshot(tuple(nodes), tuple(parents))

    def forget_stale(self) -> None:
        """Forgets all stale kept answers. Until then, each answer that was read with a watch takes memory."""
        self._engine.forget_stale()

    def DataWatch(self, path: str, function: Optional[Callable[..., object]] = None) -> watches.DataWatch:
        """Calls a function with a node's data after each change, as in kazoo: see `dirwolleu.DataWatch`."""
        return watches.DataWatch(self, path, function)

    def ChildrenWatch(self, path: str, function: Optional[Callable[..., object]] = None) -> watches.ChildrenWatch:
        """Calls a function with the names of a node's children after each change, as in kazoo: see `dirwolleu.ChildrenWatch`."""
        return watches.ChildrenWatch(self, path, function)
