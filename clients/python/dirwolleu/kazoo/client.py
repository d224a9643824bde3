"""`KazooClient`, over a client of dirwolleu (kazoo.client)."""

from __future__ import annotations

import functools
import logging
import re
import socket
import ssl
import threading
import warnings
from collections.abc import Iterable, Sequence
from typing import Any, Callable, Optional, Union

from dirwolleu import _ending as ending
from dirwolleu import _plans as plans
from dirwolleu import _records as records
from dirwolleu import _requests as requests
from dirwolleu import exceptions as own
from dirwolleu._credentials import Credential, CredentialCall
from dirwolleu._hosts import Hosts, Servers
from dirwolleu._plans import Plan
from dirwolleu._records import Mode
from dirwolleu._requests import Request
from dirwolleu._root import Root
from dirwolleu._shown import credential_of
from dirwolleu._steps import Steps
from dirwolleu.kazoo import _forms as forms
from dirwolleu.kazoo._aside import RECONFIG, all_of, asked_aside
from dirwolleu.kazoo._asking import Ask, Connection, Kinds, Run, once_of, protected
from dirwolleu.kazoo._checks import Acls, check, check_acls, check_flags, check_watch, checked_path, own_acls, own_key
from dirwolleu.kazoo._session import PASSWORD_LENGTH, Identity, Session, Told
from dirwolleu.kazoo._transaction import TransactionRequest
from dirwolleu.kazoo.exceptions import (
    AuthFailedError, ConfigurationError, ConnectionClosedError, ConnectionLoss, KazooException, SessionExpiredError, error_of,
)  # fmt: skip
from dirwolleu.kazoo.handlers.threading import AsyncResult, SequentialThreadingHandler
from dirwolleu.kazoo.handlers.utils import create_tcp_connection
from dirwolleu.kazoo.protocol.connection import _CONNECTION_DROP, _SESSION_EXPIRED, _end_elsewhere
from dirwolleu.kazoo.protocol.paths import own_path
from dirwolleu.kazoo.protocol.states import Callback, EventType, KazooState, KeeperState, WatchedEvent, ZnodeStat
from dirwolleu.kazoo.recipe.barrier import Barrier, DoubleBarrier
from dirwolleu.kazoo.recipe.counter import Counter
from dirwolleu.kazoo.recipe.election import Election
from dirwolleu.kazoo.recipe.lease import MultiNonBlockingLease, NonBlockingLease
from dirwolleu.kazoo.recipe.lock import Lock, ReadLock, Semaphore, WriteLock
from dirwolleu.kazoo.recipe.partitioner import SetPartitioner
from dirwolleu.kazoo.recipe.party import Party, ShallowParty
from dirwolleu.kazoo.recipe.queue import LockingQueue, Queue
from dirwolleu.kazoo.recipe.watchers import ChildrenWatch, DataWatch
from dirwolleu.kazoo.retry import KazooRetry
from dirwolleu.kazoo.security import ACL, OPEN_ACL_UNSAFE
from dirwolleu.tls import tls_context
from dirwolleu.types import Kept, KeptChildren, State
from dirwolleu.types import WatchedEvent as OwnEvent

__all__ = [
    "ACL",
    "AsyncResult",
    "Barrier",
    "Callback",
    "ChildrenWatch",
    "Counter",
    "DataWatch",
    "DoubleBarrier",
    "Election",
    "EventType",
    "KazooClient",
    "KazooRetry",
    "KazooState",
    "KeeperState",
    "Lock",
    "LockingQueue",
    "MultiNonBlockingLease",
    "NonBlockingLease",
    "OPEN_ACL_UNSAFE",
    "Party",
    "Queue",
    "ReadLock",
    "Semaphore",
    "SequentialThreadingHandler",
    "SetPartitioner",
    "ShallowParty",
    "TransactionRequest",
    "WatchedEvent",
    "WriteLock",
    "ZnodeStat",
]

log = logging.getLogger(__name__)

Watch = Optional[Callable[[WatchedEvent], object]]
Listener = Callable[[str], object]
Form = Callable[[Any], Any]

_VERSION = re.compile(r"zookeeper[. ]version[=:]\s*(\d+(?:\.\d+)+)", re.IGNORECASE)
_REFUSED = "not in the whitelist"


class KazooClient:
    """A client of ZooKeeper with kazoo's names, errors and behaviour, over the proved core of dirwolleu.

    The keywords are as in kazoo's documentation. It refuses by name those that it does not support: `read_only`, and
    mechanisms of `sasl_options` other than DIGEST-MD5. `README.md` of the package says how it differs.

        from dirwolleu.kazoo.client import KazooClient

        zk = KazooClient(hosts="zk1:2181,zk2:2181/app", timeout=10.0)
        zk.start()
        zk.ensure_path("/config")
        data, stat = zk.get("/config")
        zk.stop()
        zk.close()
    """

    def __init__(
        self,
        hosts: forms.HostList = "127.0.0.1:2181",
        timeout: float = 10.0,
        client_id: Optional[tuple[int, bytes]] = None,
        handler: Optional[SequentialThreadingHandler] = None,
        default_acl: Acls = None,
        auth_data: Optional[Iterable[tuple[str, str]]] = None,
        sasl_options: Optional[dict[str, Any]] = None,
        read_only: Optional[bool] = None,
        randomize_hosts: bool = True,
        connection_retry: Union[KazooRetry, dict[str, Any], None] = None,
        command_retry: Union[KazooRetry, dict[str, Any], None] = None,
        logger: Optional[Any] = None,
        keyfile: Optional[str] = None,
        keyfile_password: Optional[str] = None,
        certfile: Optional[str] = None,
        ca: Optional[str] = None,
        use_ssl: bool = False,
        verify_certs: bool = True,
        **kwargs: Any,
    ) -> None:
        old = forms.old_policy(kwargs)
        forms.refuse(read_only, handler, kwargs)
        self.logger = logger or log
        self.handler = SequentialThreadingHandler() if handler is None else handler
        self.default_acl, self.auth_data, self.read_only = default_acl, set(auth_data or ()), read_only
        self.sasl_options, self._sasl = sasl_options, forms.sasl(sasl_options, self.auth_data)
        self.use_ssl, self.verify_certs, self.ca = use_ssl, verify_certs, ca
        self.certfile, self.keyfile, self.keyfile_password = certfile, keyfile, keyfile_password
        self._found: Optional[Hosts] = None
        self.randomize_hosts = randomize_hosts
        self.set_hosts(hosts)
        self._session_timeout = int(timeout * 1000)
        self._identity = None if client_id is None else Identity(client_id[0], client_id[1])
        self._conn_retry = forms.policy("connection_retry", connection_retry or old, self.handler)
        self._retry = forms.policy("command_retry", command_retry or old, self.handler)
        self._begin_states()
        self._begin_recipes()

    def _begin_states(self) -> None:
        self._state, self.state = KeeperState.CLOSED, KazooState.LOST
        self.state_listeners: set[Listener] = set()
        self._live, self._stopped = self.handler.event_object(), self.handler.event_object()
        self._decided = self.handler.event_object()
        """Set once a server has accepted the session that was begun last, or the search for one is over."""
        self._stopped.set()
        self._session: Optional[Session] = None
        self._change = self.handler.rlock_object()
        self._connection = Connection(self)

    def _begin_recipes(self) -> None:
        self.Barrier = functools.partial(Barrier, self)
        self.ChildrenWatch = functools.partial(ChildrenWatch, self)
        self.Counter = functools.partial(Counter, self)
        self.DataWatch = functools.partial(DataWatch, self)
        self.DoubleBarrier = functools.partial(DoubleBarrier, self)
        self.Election = functools.partial(Election, self)
        self.Lock = functools.partial(Lock, self)
        self.LockingQueue = functools.partial(LockingQueue, self)
        self.MultiNonBlockingLease = functools.partial(MultiNonBlockingLease, self)
        self.NonBlockingLease = functools.partial(NonBlockingLease, self)
        self.Party = functools.partial(Party, self)
        self.Queue = functools.partial(Queue, self)
        self.ReadLock = functools.partial(ReadLock, self)
        self.Semaphore = functools.partial(Semaphore, self)
        self.SetPartitioner = functools.partial(SetPartitioner, self)
        self.ShallowParty = functools.partial(ShallowParty, self)
        self.WriteLock = functools.partial(WriteLock, self)

    # Its state.

    @property
    def client_state(self) -> str:
        """The state of the session: one of `KeeperState`."""
        return self._state

    @property
    def connected(self) -> bool:
        """Whether a server has accepted the session."""
        return self._live.is_set()

    @property
    def client_id(self) -> Optional[tuple[int, bytes]]:
        """The number and the password of the session while it is connected, else None."""
        session = self._session
        if session is None or not self.connected:
            return None
        identity = session.identity()
        return identity.number, identity.password

    @property
    def last_zxid(self) -> int:
        """The greatest zxid that the client has seen."""
        return 0 if self._session is None else self._session.last_zxid

    @property
    def hosts(self) -> list[tuple[str, int]]:
        """The hosts that are dialled, with their ports."""
        return [] if self._found is None else list(self._found.servers)

    @property
    def chroot(self) -> str:
        """The node of the servers that the program knows as `/`: empty if that is the servers' own.

        It can be set while the client is not started. Raises `ConfigurationError` if it is.
        """
        return "" if self._found is None else self._found.root.path

    @chroot.setter
    def chroot(self, path: str) -> None:
        if not self._stopped.is_set():
            raise ConfigurationError("Changing chroot at runtime is not currently supported")
        assert self._found is not None
        servers = self._found.text.partition("/")[0]
        self._found = forms.hosts(servers + own_path(path))

    def set_hosts(self, hosts: forms.HostList, randomize_hosts: Optional[bool] = None) -> None:
        """Goes on with these hosts. The session moves to another one if `Client.set_hosts` does.

        Raises `ConfigurationError` if the chroot is another one than before.
        """
        found = forms.hosts(hosts)
        if self._found is not None and found.root != self._found.root:
            raise ConfigurationError("Changing chroot at runtime is not currently supported")
        if randomize_hosts is not None:
            self.randomize_hosts = randomize_hosts
        self._found = found
        session: Optional[Session] = self.__dict__.get("_session")
        if session is not None:
            session.set_hosts(found.text)

    def add_listener(self, listener: Listener) -> None:
        """Calls a function with each new `KazooState`, in a thread of its own. After it returns True it is not called any more."""
        if not callable(listener):
            raise ConfigurationError("listener must be callable")
        self.state_listeners.add(listener)

    def remove_listener(self, listener: Listener) -> None:
        """Stops calling the function."""
        self.state_listeners.discard(listener)

    def unchroot(self, path: str) -> str:
        """The path without the chroot."""
        return Root(self.chroot).own(path)

    # Its life.

    def start(self, timeout: Optional[float] = 15) -> None:
        """Begins to connect, and waits until a server has accepted the session.

        Raises the handler's `timeout_exception` after this many seconds, and `AuthFailedError` if the server refuses the credentials;
        then it is stopped.
        """
        with ending.resting(timeout):
            self.start_async()
            self._decided.wait(timeout)
        if not self.connected:
            session, is_refused = self._session, self._state == KeeperState.AUTH_FAILED
            words = "" if session is None else session.no_server(timeout)
            self.stop()
            self.close()
            if is_refused:
                raise AuthFailedError(words)
            raise self.handler.timeout_exception(f"Connection time-out: {words}")
        if self.chroot and not self.exists("/"):
            warnings.warn("No chroot path exists, the chroot path should be created before normal use.")

    def start_async(self) -> threading.Event:
        """Begins to connect, and returns an event that is set while a server has accepted the session."""
        with ending.resting(), self._change:
            session = self._session
            if session is not None and session.is_running():
                return self._live
            self._end_session()
            self._stopped.clear()
            self._decided.clear()
            self.handler.start()
            self._state = KeeperState.CONNECTING
            self._session = self._new_session()
            self._session.begin()
        return self._live

    def stop(self) -> None:
        """Ends the session, with its ephemeral nodes and its watches. It may be called again, and started again."""
        if self._stopped.is_set():
            return
        self._stopped.set()
        with self._change:
            self._end_session()
            self._identity, self._state = None, KeeperState.CLOSED

    def restart(self) -> None:
        """Ends the session and begins another one, at no server that is behind what the client has seen."""
        last_zxid = self.last_zxid
        self.stop()
        self._identity = Identity(0, bytes(PASSWORD_LENGTH), last_zxid)
        self.start()

    def close(self) -> None:
        """Frees what a stopped client holds. It can be started again."""
        if not self._stopped.is_set():
            raise KazooException("Cannot close connection until it is stopped")
        with self._change:
            self._end_session()

    def _new_session(self) -> Session:
        assert self._found is not None
        timeout = self._session_timeout / 1000
        servers = Servers(self._found.text, self.randomize_hosts)
        return Session(self, servers, timeout, self._identity, self._credentials(), self._tls(), self._sasl)

    def _credentials(self) -> list[Credential]:
        return [credential_of(scheme, text) for scheme, text in self.auth_data if scheme != "sasl"]

    def _tls(self) -> Optional[ssl.SSLContext]:
        if not self.use_ssl:
            return None
        return tls_context(
            ca=self.ca,
            certfile=self.certfile,
            keyfile=own_key(self.certfile, self.keyfile),
            keyfile_password=self.keyfile_password,
            verify_certs=self.verify_certs,
            check_hostname=False,  # as kazoo
        )

    def _end_session(self) -> None:
        session = self._session
        if session is not None:
            self.handler._elsewhere(session.stop)
            session.close()
            self._session = None
        self.handler.stop()

    # The engine calls these, within its steps: nothing here waits.

    def _told_state(self, state: State) -> None:
        if state is State.CONNECTED:
            self._use_read_timeout()
            self._state = KeeperState.CONNECTED
            self.logger.info("Zookeeper connection established, state: %s", self._state)
            self._make_state_change(KazooState.CONNECTED)
            self.handler._soon(self._set_live)
        elif state is State.SUSPENDED:
            self._state = KeeperState.CONNECTING
            self.logger.info("Zookeeper connection lost")
            self.handler._soon(self._end_live)
            self._make_state_change(KazooState.SUSPENDED)
            self._end_watches()
        else:
            self._told_loss()

    def _set_live(self) -> None:
        self._live.set()
        self._decided.set()

    def _end_live(self) -> None:
        self._live.clear()
        self._decided.clear()

    def _told_loss(self) -> None:
        """The session is over. A new one begins, unless the client was stopped or its credentials were refused."""
        self._state = self._state_of_loss()
        self.logger.info("Zookeeper session closed, state: %s", self._state)
        self.handler._soon(self._end_live)
        self._make_state_change(KazooState.LOST)
        if self._state == KeeperState.EXPIRED_SESSION:
            self._state = KeeperState.CONNECTING

    def _state_of_loss(self) -> str:
        """The state of the session that is over now."""
        if self._state == KeeperState.AUTH_FAILED:
            return self._state
        goes_on = self._session is not None and self._session.is_running()
        return KeeperState.EXPIRED_SESSION if goes_on else KeeperState.CLOSED

    def _told_refusal(self) -> None:
        """The server refuses the credentials. The session is over."""
        self._state = KeeperState.AUTH_FAILED
        self.logger.warning("AUTH_FAILED closing: the server does not take the credentials")

    def _told_end(self) -> None:
        """The policy for connections is used up."""
        self._state = KeeperState.CLOSED
        self._told_over()
        self.logger.warning("Failed connecting to Zookeeper within the connection retry policy.")

    def _told_over(self) -> None:
        """The search for a server is over."""
        self.handler._soon(self._decided.set)

    def _told_watch(self, function: Callable[[Any], object], event: OwnEvent) -> None:
        """A watch has fired, or its session is over."""
        if event.type.value != EventType.NONE:
            if not self._stopped.is_set():
                self._dispatch(function, WatchedEvent(event.type.value, self._state, event.path))
            return
        self._dispatch(function, WatchedEvent(EventType.NONE, self._state_of_loss(), None))

    def _end_watches(self) -> None:
        """Tells each function that waits for a watch that the connection is over. As in kazoo, it is not called any more."""
        session = self._session
        told = WatchedEvent(EventType.NONE, self._state, None)
        for watcher in () if session is None else session.drop_watchers():
            if isinstance(watcher.function, Told):
                self._dispatch(watcher.function.function, told)

    def _dispatch(self, function: Callable[[Any], object], event: WatchedEvent) -> None:
        self.handler.dispatch_callback(Callback("watch", function, (event,)))

    def _make_state_change(self, state: str) -> None:
        if state == self.state:
            return
        self.state = state
        if state == KazooState.CONNECTED:
            self.handler._soon(self._set_live)  # before a listener hears of it, in a thread of its own
        session = self._session
        if session is not None:
            self.handler._tell_listeners(session, self._tell_listeners, (state, list(self.state_listeners)))

    def _tell_listeners(self, told: tuple[str, list[Listener]]) -> None:
        state, listeners = told
        for listener in listeners:
            try:
                if listener in self.state_listeners and listener(state) is True:
                    self.remove_listener(listener)
            except Exception:
                self.logger.exception("Error in connection state listener")

    def _use_read_timeout(self) -> None:
        try:
            timeout = self._connection._read_timeout()
        except Exception:
            self.logger.exception("the program's function for a connection has failed")
            timeout = None
        if self._session is not None:
            self._session.use_read_timeout(timeout)

    def _granted_timeout(self) -> float:
        """The timeout of the session in seconds."""
        return self._session_timeout / 1000 if self._session is None else self._session.session_timeout

    def _drop_connection(self, why: str) -> None:
        if self._session is not None:
            self._session.drop_connection(why)

    def _peer(self) -> tuple[str, int]:
        place = None if self._session is None else self._session.place()
        if place is None:
            raise ConnectionLoss("No connection to server")
        return place.address, place.port

    def _session_number(self) -> int:
        """The number of the session, 0 if there is none."""
        return 0 if self._session is None else self._session.session_id

    def _kept(self, path: str) -> Optional[Kept]:
        """The kept answer for a node."""
        return None if self._session is None else self._session.kept(own_path(path))

    def _kept_children(self, path: str) -> Optional[KeptChildren]:
        """The kept answer for the children of a node."""
        return None if self._session is None else self._session.kept_children(own_path(path))

    # Calls.

    def _call(self, request: Any, async_object: AsyncResult) -> Optional[bool]:
        """Sends a request, and sets the async result to its answer. Each call goes through here.

        If the session is over, it sets the result to the error, and returns False.
        """
        if not isinstance(request, Ask):
            self._break(request)
            return None
        error: Optional[KazooException] = None
        if self._state == KeeperState.AUTH_FAILED:
            error = AuthFailedError("the server does not take the credentials")
        elif self._state == KeeperState.CLOSED or self._session is None:
            error = ConnectionClosedError("Connection has been closed")
        elif self._state == KeeperState.EXPIRED_SESSION:
            error = SessionExpiredError()
        try:
            if error is None and self._session is not None:
                self._session.send(request, async_object)
                return None
        except own.ZookeeperError as over:
            async_object.set_exception(error_of(over))
            return False
        async_object.set_exception(error or ConnectionClosedError("Connection has been closed"))
        return False

    def _break(self, marker: object) -> None:
        """Does what kazoo's harness for tests asks for: ends the connection, or the session."""
        identity = self.client_id
        if marker is _SESSION_EXPIRED and identity is not None:
            _end_elsewhere(self._peer(), *identity)
        elif marker is _CONNECTION_DROP:
            self._drop_connection("the program wants it lost")

    def _send(self, request: Request[Any], form: Form = forms.as_it_is, once: Kinds = ()) -> AsyncResult:
        outcome = self.handler.async_result()
        self._call(Ask(request, form, once), outcome)
        return outcome

    def _run(self, plan: Plan[Any], form: Form = forms.as_it_is, once: Kinds = ()) -> AsyncResult:
        return Run(self, plan, form, once).begin()

    def _drive(self, steps_of: Callable[[Session], Steps[Any]]) -> Any:
        """Makes steps of a recipe of dirwolleu in this thread. Raises kazoo's errors."""
        session = self._session
        if session is None:
            raise ConnectionClosedError("Connection has been closed")
        try:
            steps = steps_of(session)
            return self.handler._elsewhere(functools.partial(session._drive, steps))
        except own.ZookeeperError as error:
            raise error_of(error) from error

    def _told(self, watch: Watch) -> Optional[Told]:
        check_watch(watch)
        return Told(self, watch) if watch else None

    def retry(self, func: Callable[..., Any], *args: Any, **kwargs: Any) -> Any:
        """Calls a function by the policy `command_retry`: see `KazooRetry`."""
        return self._retry.copy()(func, *args, **kwargs)

    def exists(self, path: str, watch: Watch = None) -> Optional[ZnodeStat]:
        """The metadata of a node, or None if there is none."""
        found: Optional[ZnodeStat] = self.exists_async(path, watch).get()
        return found

    def exists_async(self, path: str, watch: Watch = None) -> AsyncResult:
        """`exists`, which does not wait."""
        return self._send(requests.exists(checked_path(path), self._told(watch)), forms.stat)

    def get(self, path: str, watch: Watch = None) -> tuple[Optional[bytes], ZnodeStat]:
        """The data of a node, and its metadata. Raises `NoNodeError`."""
        found: tuple[Optional[bytes], ZnodeStat] = self.get_async(path, watch).get()
        return found

    def get_async(self, path: str, watch: Watch = None) -> AsyncResult:
        """`get`, which does not wait."""
        return self._send(requests.get(checked_path(path), self._told(watch)), forms.data)

    def get_children(self, path: str, watch: Watch = None, include_data: bool = False) -> Any:
        """The names of a node's children; with `include_data` also the node's metadata. Raises `NoNodeError`."""
        return self.get_children_async(path, watch, include_data).get()

    def get_children_async(self, path: str, watch: Watch = None, include_data: bool = False) -> AsyncResult:
        """`get_children`, which does not wait."""
        check_flags(include_data=include_data)
        request: Request[Any] = requests.get_children(checked_path(path), self._told(watch))
        if include_data:
            request = forms.Children(request.call, request.path, request.words, request.is_repeatable, request.watcher)
        return self._send(request)

    def create(
        self,
        path: str,
        value: Optional[bytes] = b"",
        acl: Acls = None,
        ephemeral: bool = False,
        sequence: bool = False,
        makepath: bool = False,
        include_data: bool = False,
        protect: bool = False,
    ) -> Any:
        """Makes a node, and returns its path; with `include_data` also its `ZnodeStat`.

        With `protect`, which kazoo does not have, its name begins with a tag, and it is looked for if the answer is lost. Raises
        `NodeExistsError`, `NoNodeError`, `NoChildrenForEphemeralsError`, `InvalidACLError`.
        """
        return self.create_async(path, value, acl, ephemeral, sequence, makepath, include_data, protect).get()

    def create_async(
        self,
        path: str,
        value: Optional[bytes] = b"",
        acl: Acls = None,
        ephemeral: bool = False,
        sequence: bool = False,
        makepath: bool = False,
        include_data: bool = False,
        protect: bool = False,
    ) -> AsyncResult:
        """`create`, which does not wait."""
        acl = acl or self.default_acl
        if acl:
            check_acls(acl)
        if value is not None:
            check("value", value, bytes, "must be a byte string")
        check_flags(ephemeral=ephemeral, sequence=sequence, makepath=makepath, include_data=include_data)
        found, spelled, mode = own_acls(acl), checked_path(path), Mode(ephemeral, sequence)
        if sequence and path.endswith("/") and spelled != "/":
            spelled += "/"
        form, once = forms.created if include_data else forms.as_it_is, once_of(ephemeral, sequence)
        if protect:
            return self._protected(spelled, makepath, include_data, lambda tagged: plans.create_request(tagged, value, found, mode))
        words = spelled, value, found, mode
        request: Request[Any] = plans.create_request(*words)
        if include_data:
            request = records.create2(*words)
        return self._run(plans.create(request, spelled, found), form, once) if makepath else self._send(request, form, once)

    def _protected(self, path: str, makepath: bool, include_data: bool, request_of: Callable[[str], Request[str]]) -> AsyncResult:
        if makepath or include_data:
            raise ConfigurationError("protect goes with neither makepath nor include_data")
        return self._run(protected(path, request_of))

    def ensure_path(self, path: str, acl: Acls = None) -> bool:
        """Makes a node and the missing ones above it."""
        return bool(self.ensure_path_async(path, acl).get())

    def ensure_path_async(self, path: str, acl: Acls = None) -> AsyncResult:
        """`ensure_path`, which does not wait."""
        return self._run(plans.ensure_path(checked_path(path), own_acls(acl or self.default_acl)), forms.true)

    def set(self, path: str, value: Optional[bytes], version: int = -1) -> ZnodeStat:
        """Sets the data of a node of this version; -1 is any. Raises `NoNodeError` and `BadVersionError`."""
        found: ZnodeStat = self.set_async(path, value, version).get()
        return found

    def set_async(self, path: str, value: Optional[bytes], version: int = -1) -> AsyncResult:
        """`set`, which does not wait."""
        if value is not None:
            check("value", value, bytes, "must be a byte string")
        check("version", version, int, "int")
        return self._send(requests.set(checked_path(path), value, version), forms.stat)

    def delete(self, path: str, version: int = -1, recursive: bool = False) -> bool:
        """Deletes a node of this version (-1: any); with `recursive` of any version, with all below it.

        Raises `NoNodeError`, `BadVersionError`, `NotEmptyError`; with `recursive` it is no error if there is none.
        """
        check_flags(recursive=recursive)
        if recursive:
            return bool(self._run(plans.delete_all(checked_path(path), -1), forms.true).get())
        return bool(self.delete_async(path, version).get())

    def delete_async(self, path: str, version: int = -1) -> AsyncResult:
        """`delete` of one node, which does not wait."""
        check("version", version, int, "int")
        return self._send(requests.delete(checked_path(path), version), forms.true)

    def sync(self, path: str) -> str:
        """Lets the server take in all that was done before it answers."""
        return str(self.sync_async(path).get())

    def sync_async(self, path: str) -> AsyncResult:
        """`sync`, which does not wait."""
        return self._send(records.sync(checked_path(path)))

    def get_acls(self, path: str) -> tuple[list[ACL], ZnodeStat]:
        """The ACL of a node, and its metadata. Raises `NoNodeError`."""
        found: tuple[list[ACL], ZnodeStat] = self.get_acls_async(path).get()
        return found

    def get_acls_async(self, path: str) -> AsyncResult:
        """`get_acls`, which does not wait."""
        return self._send(records.get_acls(checked_path(path)), forms.acls)

    def set_acls(self, path: str, acls: Sequence[ACL], version: int = -1) -> ZnodeStat:
        """Sets the ACL of a node whose `aversion` is this one; -1 is any.

        Raises `NoNodeError`, `BadVersionError`, `InvalidACLError`.
        """
        found: ZnodeStat = self.set_acls_async(path, acls, version).get()
        return found

    def set_acls_async(self, path: str, acls: Sequence[ACL], version: int = -1) -> AsyncResult:
        """`set_acls`, which does not wait."""
        check_acls(acls)
        check("version", version, int, "int")
        return self._send(records.set_acls(checked_path(path), acls, version), forms.stat)

    def add_auth(self, scheme: str, credential: str) -> bool:
        """Identifies the session by a credential, now and on each later connection.

        Raises `AuthFailedError` if the server refuses it; then the session is over, as in kazoo.
        """
        return bool(self.add_auth_async(scheme, credential).get())

    def add_auth_async(self, scheme: str, credential: str) -> AsyncResult:
        """`add_auth`, which does not wait."""
        check("scheme", scheme, str, "string")
        check("credential", credential, str, "string")
        known = credential_of(scheme, credential)
        self.auth_data.add((scheme, credential))
        return self._send(CredentialCall(known), forms.true)

    def transaction(self) -> TransactionRequest:
        """Several changes that happen together or not at all."""
        return TransactionRequest(self)

    def reconfig(
        self, joining: Optional[str], leaving: Optional[str], new_members: Optional[str], from_config: int = -1
    ) -> tuple[bytes, ZnodeStat]:
        """Changes the set of servers, by `joining` and `leaving`, or all by `new_members`, and returns what `/zookeeper/config` has
        then.

        It is asked over a session of its own, with the client's credentials. Raises `NoAuthError`, `BadArgumentsError`,
        `BadVersionError` if the configuration is not the one of `from_config`, and `ConnectionLoss`: then it may have happened.
        """
        found: tuple[bytes, ZnodeStat] = self.reconfig_async(joining, leaving, new_members, from_config).get()
        return found

    def reconfig_async(
        self, joining: Optional[str], leaving: Optional[str], new_members: Optional[str], from_config: int = -1
    ) -> AsyncResult:
        """`reconfig`, which does not wait."""
        for name, text in (("joining", joining), ("leaving", leaving), ("new_members", new_members)):
            check(name, text, (str, type(None)), "string")
        check("from_config", from_config, int, "int")
        body = forms.reconfig(joining, leaving, new_members, from_config)
        return self.handler._begin_elsewhere(functools.partial(self._reconfigured, body))

    def _reconfigured(self, body: bytes) -> tuple[bytes, ZnodeStat]:
        if not self.connected:
            raise ConnectionLoss("No connection to server")
        reader = asked_aside(self._connect_to_peer(functools.partial(create_tcp_connection, socket)), self._credentials(), RECONFIG, body)
        return reader.buffer() or b"", ZnodeStat(*reader.stat())

    def command(self, cmd: bytes = b"ruok") -> str:
        """The answer of the connection's server to a word such as `srvr`, over a connection of its own.

        Raises `ConnectionLoss` if there is no connection, and `OSError`.
        """
        if not self.connected:
            raise ConnectionLoss("No connection to server")
        with self._connect_to_peer(self.handler.create_connection) as connection:
            connection.sendall(cmd)
            return all_of(connection.recv).decode("utf-8", "replace")

    def _connect_to_peer(self, connect: Callable[..., socket.socket]) -> socket.socket:
        """Another connection to the server of the session's connection."""
        return connect(
            address=self._peer(),
            timeout=self._session_timeout / 1000,
            use_ssl=self.use_ssl,
            ca=self.ca,
            certfile=self.certfile,
            keyfile=self.keyfile,
            keyfile_password=self.keyfile_password,
            verify_certs=self.verify_certs,
        )

    def server_version(self, retries: int = 3) -> tuple[int, ...]:
        """The version of the server, such as (3, 8, 0).

        It asks by `envi` as kazoo does, and if the server does not answer that one by `srvr`, which a server answers if its settings
        name no words. Raises `KazooException` if neither shows the version in this many tries and one.
        """
        for _ in range(1 + max(0, retries)):
            words = self.command(b"envi")
            found = _VERSION.search(self.command(b"srvr") if _REFUSED in words else words)
            if found is not None:
                return tuple(int(number) for number in found[1].split("."))
        raise KazooException(f"Unable to fetch useable server version after trying {1 + max(0, retries)} times")
