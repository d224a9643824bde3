"""The barrier of `fresh`."""

from __future__ import annotations

from dirwolleu import _records as records
from dirwolleu._engine import Engine
from dirwolleu._plans import Plan
from dirwolleu.exceptions import TransactionFailedError
from dirwolleu.transaction import Transaction


def freshening(engine: Engine, quorum: bool) -> Plan[int]:
    """Asks for the barrier, and returns the zxid that was seen with its answer, or a later one.

    The zxid of the barrier's answer is not before that of any write which was answered when the barrier was asked for:
    the server had these by then. Each later connection is to a server that has seen it.
    """
    yield from _ordered() if quorum else _synced()
    return engine.last_zxid()


def _synced() -> Plan[None]:
    yield records.sync("/")


def _ordered() -> Plan[None]:
    """A transaction that changes nothing. If it is refused, as when the root is missing, it was ordered too."""
    transaction = Transaction(lambda *_: [])
    transaction.check("/", -1)
    request = transaction.request()
    request.is_repeatable = True
    try:
        yield request
    except TransactionFailedError:
        pass
