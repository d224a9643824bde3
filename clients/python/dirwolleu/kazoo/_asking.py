"""The requests of a `KazooClient`, step by step, and the names that programs use of its `_connection`."""

from __future__ import annotations

from typing import TYPE_CHECKING, Any, Callable, NamedTuple, Optional

from dirwolleu import _plans as plans
from dirwolleu import _records as records
from dirwolleu import _requests as requests
from dirwolleu import exceptions as own
from dirwolleu._plans import Plan
from dirwolleu._requests import Request
from dirwolleu.kazoo._forms import as_it_is
from dirwolleu.kazoo.exceptions import ConnectionLoss, OperationTimeoutError, ZookeeperError, error_of
from dirwolleu.kazoo.handlers.threading import AsyncResult

if TYPE_CHECKING:
    from dirwolleu.kazoo.client import KazooClient


Kinds = tuple[type[ZookeeperError], ...]


class Ask(NamedTuple):
    """A request, and the form that kazoo gives to its result."""

    request: Request[Any]
    form: Callable[[Any], Any]
    once: Kinds = ()
    """The errors after which a policy must not ask it again, if it may have happened."""


def once_of(ephemeral: bool, sequence: bool) -> Kinds:
    """The errors after which a create makes two nodes if it is asked again. The ephemeral ones of a session end with it."""
    if not sequence:
        return ()
    return (ConnectionLoss, OperationTimeoutError) if ephemeral else (ZookeeperError,)


def told(error: BaseException, once: Kinds) -> BaseException:
    """The error of kazoo for a caller."""
    found = error_of(error)
    if isinstance(found, once) and isinstance(found, ZookeeperError):
        found.is_final = bool(getattr(error, "may_have_happened", False))
    return found


def protected(path: str, request_of: Callable[[str], Request[str]]) -> Plan[str]:
    """Makes a node whose name begins with a tag, as Curator's `withProtection`, so that it is found again if the answer was
    lost.
    """
    parent, _, name = path.rpartition("/")
    tag = f"_c_{plans.new_tag()}-"
    request = request_of(f"{parent}/{tag}{name}")
    while True:
        try:
            made: str = yield request
            return made
        except own.ZookeeperError as error:
            if not error.may_have_happened or isinstance(error, own.SessionExpiredError):
                raise
        yield records.sync(parent or "/")
        names: list[str] = yield requests.get_children(parent or "/", None)
        for found in names:
            if found.startswith(tag):
                return f"{parent}/{found}"


class Run:
    """A plan of several requests, which it makes one after the other. It waits for nothing."""

    def __init__(self, client: KazooClient, plan: Plan[Any], form: Callable[[Any], Any], once: Kinds = ()) -> None:
        self._client, self._plan, self._form, self._once = client, plan, form, once
        self._outcome = client.handler.async_result()

    def begin(self) -> AsyncResult:
        self._go_on(lambda: next(self._plan))
        return self._outcome

    def _go_on(self, advance: Callable[[], Request[Any]]) -> None:
        try:
            request = advance()
        except StopIteration as end:
            self._outcome.set(self._form(end.value))
            return
        except Exception as error:
            self._outcome.set_exception(told(error, self._once))
            return
        step = self._client.handler.async_result()
        step.relay(self._told)
        self._client._call(Ask(request, as_it_is), step)

    def _told(self, step: AsyncResult) -> None:
        error = step.exception
        if error is None:
            self._go_on(lambda: self._plan.send(step.value))
        else:
            cause = error.__cause__ if isinstance(error.__cause__, own.ZookeeperError) else error
            self._go_on(lambda: self._plan.throw(cause))


class Connection:
    """The names that programs use of kazoo's `client._connection`."""

    def __init__(self, client: KazooClient) -> None:
        self._client = client

    def _connect(self, host: str, hostip: str, port: int) -> tuple[float, float]:
        """It is called for each connection whose session a server has accepted.

        Returns the read timeout and the connect timeout in milliseconds. A program may replace it by a function that returns a
        smaller read timeout: then the client leaves a server that is silent for so long.
        """
        timeout = self._client._granted_timeout() * 1000
        return timeout * 2 / 3, timeout / max(len(self._client.hosts), 1)

    @property
    def _socket(self) -> Connection:
        return self

    def close(self) -> None:
        """Closes the connection to the server. The session goes on over the next one."""
        self._client._drop_connection("the program has closed it")

    def shutdown(self, how: int) -> None:
        """`close`, in both directions."""
        self.close()

    def getpeername(self) -> tuple[str, int]:
        """The address of the server."""
        return self._client._peer()

    def _read_timeout(self) -> Optional[int]:
        """The read timeout in milliseconds if the program wants a smaller one than kazoo's own, else None."""
        address, port = self._client._peer()
        own_timeout = self._client._granted_timeout() * 1000 * 2 / 3
        wanted, _ = self._connect(address, address, port)
        return int(wanted) if wanted < own_timeout else None
