"""kazoo's names over the client of dirwolleu, as far as patroni, tooz and taskflow use them, for programs that stay as they
are.

`install()` makes `import kazoo` give this package, and `python3 -m dirwolleu.kazoo PROGRAM ARGS..` runs a program so.
"""

from __future__ import annotations

import importlib
import pkgutil
import sys

from dirwolleu.kazoo.version import __version__

__all__ = ["__version__", "install"]


_BY_NEED = {f"{__name__}.handlers.gevent", f"{__name__}.handlers.eventlet"}
"""The modules that want another package: they are found below this one when they are imported."""


def install() -> None:
    """Makes `import kazoo` and its modules give this package, in this process, from now on.

    Call it before anything imports kazoo: it raises `ImportError` if that has happened. Modules of kazoo that are not here
    can't be imported any more, so that nothing is half the one and half the other. It may be called again.

        import dirwolleu.kazoo

        dirwolleu.kazoo.install()
        from kazoo.client import KazooClient
    """
    package = sys.modules[__name__]
    if sys.modules.get("kazoo", package) is not package:
        raise ImportError("kazoo was imported before dirwolleu.kazoo.install() was called")
    sys.modules["kazoo"] = package
    for module in pkgutil.walk_packages(package.__path__, f"{__name__}."):
        if module.name.rpartition(".")[2].startswith("_") or module.name in _BY_NEED:
            continue
        short = module.name.partition(".")[2]
        sys.modules[short] = importlib.import_module(module.name)
