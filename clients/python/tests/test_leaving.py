"""Tests of each way out of a lock whose request or answer is lost with its connection: nobody's place stays, and the next one takes the lock."""

from __future__ import annotations

import asyncio
import contextlib
import itertools
import math
import socket
import struct
import threading
import time
import unittest
from collections.abc import Iterator
from typing import Any, Callable, Optional
from unittest import mock

from both import AioCase, Blocking, BothCase
from support import WAIT, Listener, within

from dirwolleu import ConnectionLoss, LockTimeout, MixedNamesError, aio
from dirwolleu._steps import left_of

CREATE, DELETE, GET_DATA, GET_CHILDREN_2, NONE = 1, 2, 4, 12, -1
"""Types of requests, and one that no request has."""
OUTAGE = 0.5
"""For how long there is no server after a cut, if there is an outage, in seconds."""


class Relay(Listener):
    """A relay between a client and a server: it cuts the connection at a request or at its answer, or keeps a request back, once."""

    def __init__(self, port: int) -> None:
        self._server = port
        self.kind, self.at, self.outage, self.cuts = NONE, "", 0.0, 0
        self.kinds = list[int]()
        """The types of the requests that came since a cut was asked for."""
        self._xid: Optional[int] = None
        self._opens_at = 0.0
        self.hear: Callable[[bytes], object] = lambda _: None
        """A function that is called with each request, before it passes."""
        super().__init__()

    def cut(self, kind: int, at: str, outage: float) -> None:
        """Cuts at the next request of this type, or at the answer to it; then there is no server for that long, or until `open`. With
        `nothing` that request has no answer, and the connection stays.
        """
        self.kind, self.at, self.outage, self.cuts, self.kinds = kind, at, outage, 0, []

    def open(self) -> None:
        """Ends an outage, which lasts until now."""
        assert self._opens_at > time.monotonic()
        self._opens_at = 0.0

    def _take(self, connection: socket.socket) -> None:
        if time.monotonic() < self._opens_at:
            connection.close()
            return
        server = socket.create_connection(("127.0.0.1", self._server))
        for ends, passes in (((connection, server), self._passes_request), ((server, connection), self._passes_answer)):
            threading.Thread(target=self._run, args=(*ends, passes), daemon=True).start()

    def _run(self, source: socket.socket, target: socket.socket, passes: Callable[[bytes], Optional[bool]]) -> None:
        """Passes frames on until one does not pass, or an end is closed. One of which neither is said is left out."""
        with contextlib.suppress(OSError, struct.error), source.makefile("rb") as frames:
            while True:
                head = frames.read(4)
                frame = frames.read(*struct.unpack(">i", head))
                does_pass = passes(frame)
                if does_pass is False:
                    break
                if does_pass:
                    target.sendall(head + frame)
        with contextlib.suppress(OSError):
            target.shutdown(socket.SHUT_RDWR)
        source.close()

    def _passes_request(self, frame: bytes) -> Optional[bool]:
        self.hear(frame)
        xid, kind = struct.unpack_from(">ii", frame)
        self.kinds.append(kind)
        if kind != self.kind:
            return True
        self._xid = xid
        if self.at == "answer":
            return True
        self._cut()
        return None if self.at == "nothing" else False

    def _passes_answer(self, frame: bytes) -> bool:
        (xid,) = struct.unpack_from(">i", frame)
        return xid != self._xid or not self._cut()

    def _cut(self) -> bool:
        self._opens_at = time.monotonic() + self.outage
        self.kind, self._xid, self.cuts = NONE, None, self.cuts + 1
        return True


T = 3.0
"""The timeout of a session that has no server for longer than its recipes wait, in seconds."""


class LeavingRules(BothCase):
    is_long = True

    def setUp(self) -> None:
        super().setUp()
        self.server, self.root = self.shared_partner(), self.own_root()
        self.relay = Relay(int(self.server.host.rpartition(":")[2]))
        self.addCleanup(self.relay.stop)
        self.one, self.other = self.client(self.relay.host + self.root), self.client(self.server.host + self.root)
        self.other.ensure_path("/locks")

    def each_cut(self, kind: int, *outages: float) -> Any:
        """Each cut at requests of a type."""
        for at, outage in itertools.product(("request", "answer"), outages or (0.0, OUTAGE)):
            with self.subTest(at=at, outage=outage):
                yield lambda at=at, outage=outage: self.relay.cut(kind, at, outage)
                self.assertEqual(self.relay.cuts, 1)
                self.is_free()

    def is_free(self) -> None:
        """Nobody's place is left, and the next one takes the lock."""
        within(lambda: not self.other.get_children("/locks"))
        self.recipe("Lock", self.other, "/locks").acquire(WAIT).release()

    @contextlib.contextmanager
    def times_out(self, kind: int) -> Iterator[None]:
        """A wait for a lock that ends by its time: not before the request to be cut has come, or for a delete the create before it. A busy
        machine sends it later than that.
        """
        relay = self.relay

        def left(until: Optional[float]) -> Optional[float]:
            left = left_of(until)
            has_come = relay.cuts or kind == DELETE and CREATE in relay.kinds
            return left if left is None or has_come or left < -WAIT else max(left, 0.01)

        with mock.patch("dirwolleu._locks.left_of", left), self.assertRaises(LockTimeout):
            yield

    def lock(self, name: str = "Lock", **named: Any) -> Any:
        return self.recipe(name, self.one, "/locks", **named)

    def test_a_release(self) -> None:
        for cut in self.each_cut(DELETE):
            held = self.lock().acquire(WAIT)
            cut()
            held.release()

    def test_the_end_of_a_block(self) -> None:
        for cut in self.each_cut(DELETE):
            with self.lock("WriteLock", names="curator"):
                cut()

    def test_the_end_of_a_leadership(self) -> None:
        for cut in self.each_cut(DELETE):

            async def lead(_: Any, cut: Any = cut) -> None:
                cut()

            election = self.lock("Election")
            election.run(lead) if self.module() is aio else election.run(lambda _, cut=cut: cut())

    def test_the_end_of_a_lease(self) -> None:
        for cut in self.each_cut(DELETE):
            held = self.lock("Semaphore").acquire(WAIT)
            cut()
            held.release()

    def test_a_wait_that_is_given_up(self) -> None:
        for cut in self.each_cut(DELETE):
            with self.recipe("Lock", self.other, "/locks"):
                cut()
                with self.times_out(DELETE):
                    self.lock("ReadLock").acquire(0.3)
                self.assertEqual(len(self.other.get_children("/locks")), 1)

    def test_a_create_whose_answer_is_lost_and_that_is_given_up(self) -> None:
        for cut in self.each_cut(CREATE):
            with self.recipe("Lock", self.other, "/locks"):
                cut()
                with self.times_out(CREATE):
                    self.lock().acquire(0.3)
                self.assertEqual(len(self.other.get_children("/locks")), 1)

    def test_a_create_whose_answer_is_lost_and_that_holds(self) -> None:
        for cut in self.each_cut(CREATE):
            cut()
            held = self.lock().acquire(WAIT)
            self.assertEqual(len(self.other.get_children("/locks")), 1)
            held.release()

    def test_requests_without_an_answer_are_lived_through(self) -> None:
        """The session leaves the connection, and the core asks again over the next one."""
        self.one = self.client(self.relay.host + self.root, 2 * T)
        for kind in (CREATE, GET_DATA, GET_CHILDREN_2, DELETE):
            with self.subTest(kind):
                self.relay.cut(kind, "nothing", 0.0)
                held = self.lock(keeps_while_suspended=True).acquire(WAIT)
                self.assertEqual(len(self.other.get_children("/locks")), 1)
                with contextlib.suppress(ConnectionLoss):  # on a busy machine: it is deleted later
                    held.release()
                self.is_free()
                self.assertEqual(self.relay.cuts, 1)

    def test_a_wait_that_ends_by_requests_without_an_answer_leaves_no_contender(self) -> None:
        self.one = self.client(self.relay.host + self.root, T)
        with self.recipe("Lock", self.other, "/locks"):
            for kind in (CREATE, GET_CHILDREN_2, DELETE):
                self.relay.cut(kind, "nothing", 0.0)
                with self.times_out(kind):
                    self.lock().acquire(0.3)
                within(lambda: len(self.other.get_children("/locks")) == 1)
                self.assertEqual(self.relay.cuts, 1)

    def test_a_rival_that_goes_between_the_listing_and_the_watch(self) -> None:
        rival, gone = f"{self.root}/locks/b5a4__lock__0000000000", list[bytes]()
        self.server.do(f"create {rival}")

        def hear(frame: bytes) -> None:
            if rival.encode() in frame and not gone:
                gone.append(frame)
                self.server.do(f"delete {rival}")

        self.relay.hear = hear
        held = self.lock().acquire(WAIT)
        held.check()
        self.assertEqual(len(gone), 1)
        held.release()

    def test_an_outage_that_is_longer_than_a_release_waits(self) -> None:
        """The session lives on, and its client deletes the place when it has a server again."""
        self.one = self.client(self.relay.host + self.root, T)
        held = self.lock(keeps_while_suspended=True).acquire(WAIT)
        self.relay.cut(DELETE, "request", math.inf)
        with self.assertRaises(ConnectionLoss):
            held.release()
        self.assertEqual(len(self.other.get_children("/locks")), 1)
        self.relay.open()
        self.is_free()

    def test_an_outage_that_is_longer_than_a_wait_looks_for_its_place(self) -> None:
        self.one = self.client(self.relay.host + self.root, T)
        with self.recipe("Lock", self.other, "/locks"):
            self.relay.cut(CREATE, "answer", math.inf)
            with self.times_out(CREATE):
                self.lock().acquire(0.5)
            self.assertEqual(len(self.other.get_children("/locks")), 2)
            self.relay.open()
            within(lambda: len(self.other.get_children("/locks")) == 1)
        self.is_free()

    def test_a_place_beside_other_names(self) -> None:
        for cut in self.each_cut(DELETE):
            with self.recipe("Lock", self.other, "/locks", names="curator"):
                cut()
                with self.assertRaises(MixedNamesError):
                    self.lock().acquire(WAIT)
                self.assertEqual(len(self.other.get_children("/locks")), 1)


class ThreadsTest(LeavingRules):
    pass


class AioTest(AioCase, LeavingRules):
    def test_a_task_that_is_cancelled(self) -> None:
        for cut in self.each_cut(DELETE):
            with self.recipe("Lock", self.other, "/locks"):
                cut()
                asyncio.run_coroutine_threadsafe(self.cancelled(self.lock()), self.loop).result(3 * WAIT)
                self.assertEqual(len(self.other.get_children("/locks")), 1)

    async def cancelled(self, lock: Blocking) -> None:
        taking = asyncio.ensure_future(lock._made.acquire())
        while len(await self.other._made.get_children("/locks")) < 2:
            await asyncio.sleep(0.005)
        taking.cancel()
        with contextlib.suppress(asyncio.CancelledError):
            await taking


def load_tests(loader: unittest.TestLoader, *_: Any) -> unittest.TestSuite:
    """The rules are no test by themselves."""
    return unittest.TestSuite(loader.loadTestsFromTestCase(one) for one in (ThreadsTest, AioTest))
