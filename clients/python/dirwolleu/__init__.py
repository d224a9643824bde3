"""A client of Apache ZooKeeper that knows which of its answers are still good.

`dirwolleu.Client` waits for its answers, and `dirwolleu.aio.Client` is for asyncio. Both use the proved machine of the Dirwolleu library,
which keeps the answers to reads with a watch, and marks each of them good or stale. Good: ZooKeeper held this at this zxid, and no report
to the client has ended it.
"""

import logging
from typing import TYPE_CHECKING, Any

from dirwolleu import security
from dirwolleu._library import VERSION as _VERSION
from dirwolleu._library import version_text as _version_text
from dirwolleu._records import Created
from dirwolleu._retry import Retry
from dirwolleu._trees import AsyncTree, Tree
from dirwolleu._watches import ChildrenWatch, DataWatch
from dirwolleu.client import Client
from dirwolleu.exceptions import *  # noqa: F403
from dirwolleu.exceptions import __all__ as _exceptions
from dirwolleu.multi_read import *  # noqa: F403
from dirwolleu.multi_read import __all__ as _multi_read
from dirwolleu.recipes import *  # noqa: F403
from dirwolleu.recipes import __all__ as _recipes
from dirwolleu.security import AuthFailedError
from dirwolleu.tls import tls_context
from dirwolleu.transaction import AsyncTransaction, Transaction
from dirwolleu.tree import *  # noqa: F403
from dirwolleu.tree import __all__ as _tree
from dirwolleu.types import *  # noqa: F403
from dirwolleu.types import __all__ as _types

if TYPE_CHECKING:
    from dirwolleu import aio, testing

__all__ = [
    "AsyncTransaction",
    "AsyncTree",
    "AuthFailedError",
    "ChildrenWatch",
    "Client",
    "Created",
    "DataWatch",
    "Retry",
    "Transaction",
    "Tree",
    "aio",
    "security",
    "testing",
    "tls_context",
    *_exceptions,
    *_multi_read,
    *_recipes,
    *_tree,
    *_types,
]

__version__ = _version_text(_VERSION)

logging.getLogger("dirwolleu.connection").addHandler(logging.NullHandler())  # exceptions of callbacks are logged all the same


def __getattr__(name: str) -> Any:
    """Imports `dirwolleu.aio` and `dirwolleu.testing` at their first use, since asyncio takes longer to load than the rest of the package.
    """
    if name not in ("aio", "testing"):
        raise AttributeError(f"module {__name__!r} has no attribute {name!r}")
    import importlib

    return importlib.import_module(f"dirwolleu.{name}")


def __dir__() -> list[str]:
    return __all__
