"""A counter by kazoo's node, for both kinds of clients."""

from __future__ import annotations

from typing import Any, Callable, Generic, Optional, TypeVar

from dirwolleu import _plans as plans
from dirwolleu import _records as records
from dirwolleu import _requests as requests
from dirwolleu._locks import BETWEEN_TRIES, AnyClient, patiently
from dirwolleu._plans import Plan
from dirwolleu._retry import is_lived_through
from dirwolleu._steps import Steps, Wait
from dirwolleu.exceptions import BadVersionError, NoNodeError, ZookeeperError

Number = TypeVar("Number", bound=float)


class BaseCounter(Generic[AnyClient, Number]):
    """A number that is changed by compare and set, for both kinds of clients."""

    def __init__(self, client: AnyClient, path: str, default: Any) -> None:
        self._client, self._path = client, path
        self._default: Number = default

    def _getting(self) -> Steps[Number]:
        found = yield from patiently(self._client._engine, self._read)
        return found[0]

    def _read(self) -> Plan[tuple[Number, int]]:
        """The number, and the version of the node. It makes the node if there is none."""
        while True:
            try:
                data, stat = yield requests.get(self._path, None)
                return self._number(data), stat.version
            except NoNodeError:
                yield from plans.ensure_path(self._path, None)

    def _number(self, data: Optional[bytes]) -> Number:
        """The number in the node's data. Raises `ValueError` if they are none."""
        return type(self._default)(data.decode()) if data else self._default

    def _spelled(self, number: Number) -> bytes:
        """The data of the node."""
        return repr(number).encode()

    def _changing(self, change: Callable[[Number], Number]) -> Steps[Number]:
        """Changes the number, and tries again if another client was first."""
        while True:
            number, version = yield from patiently(self._client._engine, self._read)
            changed = self._own(change(number))
            if (yield from self._is_set(self._spelled(changed), version)):
                return changed

    def _own(self, number: Any) -> Number:
        """The number as the node has it. Raises `TypeError` if it has another type; only an int passes as a float."""
        kind = type(self._default)
        if not isinstance(number, (kind, int) if kind is float else kind):
            raise TypeError(f"the counter {self._path} is of {kind.__name__}, and {number!r} is none")
        return kind(number)

    def _is_set(self, spelled: bytes, version: int) -> Steps[bool]:
        """Sets the data of this version. Returns whether it did, or raises an error that says that this is unknown."""
        try:
            yield requests.set(self._path, spelled, version)
            return True
        except (BadVersionError, NoNodeError):
            return False
        except ZookeeperError as error:
            if not is_lived_through(error):
                raise
            lost = error
        yield Wait(BETWEEN_TRIES)
        if lost.may_have_happened:
            is_open = yield from patiently(self._client._engine, lambda: self._is_open(spelled, version))
            if is_open:
                raise lost
        return False

    def _is_open(self, spelled: bytes, version: int) -> Plan[bool]:
        """Whether a set whose answer was lost may have happened. It can't happen any more after a `sync`."""
        yield records.sync(self._path)
        try:
            data, stat = yield requests.get(self._path, None)
        except NoNodeError:
            return True
        return stat.version != version and not (stat.version == version + 1 and data != spelled)
