"""The parts that the tests share: partners and servers that a test writes itself, which are those of ../../bench/partner.py, and waits that
have a bound.
"""

from __future__ import annotations

import pathlib
import re
import signal
import sys
import time
import unittest
from typing import Any, Callable, Optional
from unittest import mock

CLIENTS = pathlib.Path(__file__).resolve().parents[2]
sys.path[:0] = [str(CLIENTS / "python"), str(CLIENTS / "bench")]

import partner  # noqa: E402
from partner import *  # noqa: E402, F403
from partner import WAIT, Partner, Peer, RawServer  # noqa: E402

import dirwolleu  # noqa: E402
from dirwolleu._clock import moment  # noqa: E402

__all__ = ["CLIENTS", "LIMIT", "TIMEOUT", "ClientCase", "PartnerCase", "let_pass", "passed_in_child", "within"]
__all__ += partner.__all__

partner.begin_making()  # before trials/test forks a process for each class: so all share it

if signal.getsignal(signal.SIGINT) is signal.SIG_IGN:  # as in the background of a shell script: tests interrupt programs
    signal.signal(signal.SIGINT, signal.default_int_handler)

TIMEOUT = 60.0
"""The timeout of a session, in seconds, if a test does not wait for its end: so no machine that holds its server up ends a call."""

LIMIT = TIMEOUT / 2
"""The limit of a call that is sent and has no answer, in seconds: longer than any machine takes to send it, and than a server may be
silent."""


def let_pass(client: dirwolleu.Client, seconds: float) -> None:
    """Gives the session of a client the moment that comes this number of seconds later, for which nobody waits."""
    threads = client._threads()
    assert threads is not None
    threads.loop.soon(lambda: client._engine.tick(moment() + round(1000 * seconds)))


def within(condition: Callable[[], Any], seconds: float = WAIT) -> Any:
    """Waits until the condition returns a value that counts as true, and returns it."""
    until = time.monotonic() + seconds
    while not (answer := condition()):
        if time.monotonic() > until:
            raise AssertionError("this has not come to pass in time")
        time.sleep(0.005)
    return answer


def passed_in_child(calls: list[Callable[[], object]]) -> int:
    """How many of these calls of a forked child do not raise the error about the fork."""
    passed = 0
    for call in calls:
        try:
            call()
            passed += 1
        except (dirwolleu.ConnectionClosedError, dirwolleu.LockLostError) as error:
            passed += "fork" not in str(error)
    return passed


class PartnerCase(unittest.TestCase):
    """A test that has partners."""

    is_long = False
    """Whether the tests of the class take long: then each of them has a process, if these are run side by side."""

    _shared: Partner

    def partner(self, *options: str) -> Partner:
        partner = Partner(*options)
        self.addCleanup(partner.stop)
        return partner

    def shared_partner(self) -> Partner:
        """One partner of all tests of the class, each of which has to keep to a root of its own, `own_root`."""
        kind = type(self)
        if "_shared" not in vars(kind):
            kind._shared = Partner()
            kind.addClassCleanup(kind._shared.stop)
        return kind._shared

    def own_root(self) -> str:
        return f"/{self._testMethodName}"

    def raw_server(self, serve: Callable[[Peer], None]) -> RawServer:
        server = RawServer(serve)
        self.addCleanup(server.stop)
        return server

    def start_fails(self, client: Any, pattern: str) -> None:
        """Starting the client fails and says why. A busy machine takes longer to find out, so there are three attempts."""
        for seconds in (0.5, 4.0, WAIT):
            with self.assertRaises(TimeoutError) as caught:
                client.start(seconds)
            if re.search(pattern, str(caught.exception)):
                return
        self.assertRegex(str(caught.exception), pattern)

    def await_farewells(self) -> None:
        """From now on, a client that is stopped waits longer than two seconds for the end of its session: a busy machine takes longer."""
        for module in ("client", "aio"):
            patch = mock.patch(f"dirwolleu.{module}.LONGEST_FAREWELL", WAIT)
            patch.start()
            self.addCleanup(patch.stop)

    def raises(self, kind: type[BaseException], code: Optional[int]) -> Any:
        """Like assertRaises, but the class and the code have to be exactly these."""
        test = self

        class Raises:
            def __enter__(self) -> None: ...

            def __exit__(self, found: Any, error: Any, _: Any) -> bool:
                test.assertIs(found, kind)
                test.assertEqual(getattr(error, "code", None), code)
                return True

        return Raises()


class ClientCase(PartnerCase):
    def client(self, host: str, timeout: float = TIMEOUT, **named: Any) -> dirwolleu.Client:
        """A client that is started, and is stopped at the end of the test."""
        client = dirwolleu.Client(host, timeout, **named)
        self.addCleanup(client.close)
        self.addCleanup(client.stop)
        client.start(WAIT)
        return client
