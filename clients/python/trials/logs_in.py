"""logs_in.py HOST:PORT: a log-in by SASL at a real server that demands one of `app` with the password `secret`."""

from __future__ import annotations

import pathlib
import sys
from typing import Optional

sys.path.insert(0, str(pathlib.Path(__file__).resolve().parents[1]))

import dirwolleu  # noqa: E402
from dirwolleu.exceptions import ZookeeperError  # noqa: E402
from dirwolleu.sasl import Sasl, digest_md5  # noqa: E402
from dirwolleu.security import ACL, AuthFailedError, Id, Permissions  # noqa: E402


def work(hosts: str) -> None:
    """A node that only `app` may read, over two connections."""
    app = Id("sasl", "app")
    with dirwolleu.Client(hosts, sasl=digest_md5("app", "secret")) as client:
        client.create("/app", b"one", acl=[ACL(Permissions.ALL, app)])
        assert app in client.who_am_i(), client.who_am_i()
        threads = client._threads()
        assert threads is not None
        threads.loop.soon(lambda: client._engine.drop(0, "it is tried what comes of that"))
        threads.loop.act()
        assert client.get("/app", timeout=30)[0] == b"one"
        assert client.stats().connections == 2, client.stats()
        client.delete("/app")


def is_refused(hosts: str, kind: type[ZookeeperError], sasl: Optional[Sasl]) -> None:
    client = dirwolleu.Client(hosts, sasl=sasl)
    try:
        client.start(30)
        client.exists("/")
    except kind as error:
        print(f"{type(error).__name__}: {error}")
    else:
        sys.exit(f"no {kind.__name__}")
    finally:
        client.stop()
        client.close()


def main(hosts: str) -> None:
    work(hosts)
    is_refused(hosts, AuthFailedError, digest_md5("app", "wrong"))
    is_refused(hosts, ZookeeperError, None)
    print("passed")


if len(sys.argv) != 2:
    sys.exit(__doc__)
main(sys.argv[1])
