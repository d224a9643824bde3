"""Tests of requests that the core carries without reading them, with frames as ZooKeeper 3.8.0 has answered them, and as zookeeper.jute spells
them; and of credentials.
"""

from __future__ import annotations

import concurrent.futures
import contextlib
import queue
import struct
import threading
import time
import unittest
from typing import Any, Callable

from both import AioCase, BothCase, in_thread
from support import EXISTS, GET_DATA, PING, SET_WATCHES, STAT, TIMEOUT, WAIT, Asked, PartnerCase, Peer, data_reply, notice, reply, text, within

from dirwolleu import (
    AuthFailedError,
    BadVersionError,
    CallTimeoutError,
    Client,
    ConnectionClosedError,
    ConnectionLoss,
    Mark,
    NoAuthError,
    NoNodeError,
    NodeExistsError,
    NotConnectedError,
    Read,
    State,
    TooLargeError,
    TransactionFailedError,
    UnimplementedError,
    WatchedEvent,
    security,
)
from dirwolleu._records import RawRequest
from dirwolleu._session import Session
from dirwolleu.types import Stat

GET_ACL, SET_ACL, SYNC, MULTI, CREATE2, CONTAINER, TTL, MULTI_READ, AUTH = 6, 7, 9, 14, 15, 19, 21, 22, 100
GET_EPHEMERALS, COUNT, WHO_AM_I = 103, 104, 107


def header(kind: int, is_last: bool = False, code: int = -1) -> bytes:
    return struct.pack(">ib", kind, is_last) + struct.pack(">i", code)


END = header(-1, True)
REFUSED = "the server refuses the credentials of the scheme digest"
OPEN_ACL = struct.pack(">ii", 1, 31) + text("world") + text("anyone")
NONE = struct.pack(">i", 0)
"""An empty vector, a count or a text."""
BODIES = {
    SYNC: text("/a"), GET_ACL: OPEN_ACL + STAT, MULTI_READ: header(4, code=0) + text("one") + STAT + END, GET_EPHEMERALS: NONE, COUNT: NONE,
    WHO_AM_I: NONE,
}  # fmt: skip
"""The body of the answer to each call that changes nothing."""


def raw(body: bytes) -> RawRequest[bytes]:
    """A request with this body, whose result is the body of its answer."""
    return RawRequest(SYNC, None, lambda _: body, lambda reader, _: reader._payload, is_repeatable=True)


class RawCase(PartnerCase):
    def client(self, host: str, timeout: float = TIMEOUT, auth_data: Any = ()) -> Client:
        client = Client(host, timeout, auth_data=auth_data)
        self.addCleanup(client.close)
        client.start(WAIT)
        return client

    def serve(self, answer: Callable[[Peer, Asked], None]) -> str:
        """A server that answers each request by a function."""

        def serve(peer: Peer) -> None:
            for asked in peer.requests():
                answer(peer, asked)

        return self.raw_server(serve).host

    def answering(self, body: bytes = b"", code: int = 0) -> tuple[str, list[Asked]]:
        """A server that answers each request alike, and the requests that it gets."""
        asked: list[Asked] = []

        def answer(peer: Peer, one: Asked) -> None:
            asked.append(one)
            peer.send(reply(one, body, code))

        return self.serve(answer), asked


class SpellingTest(RawCase):
    def test_sync(self) -> None:
        host, asked = self.answering(text("/app/a"))
        self.assertEqual(self.client(host + "/app").sync("/a"), "/a")
        self.assertEqual(asked[0], (1, SYNC, text("/app/a")))

    def test_get_acls(self) -> None:
        body = struct.pack(">ii", 1, 31) + text("digest") + text("bob:x") + STAT
        host, asked = self.answering(body)
        acls, stat = self.client(host).get_acls("/a")
        self.assertEqual(acls, [security.ACL(31, security.Id("digest", "bob:x"))])
        self.assertEqual(stat, Stat._make(struct.unpack(">qqqqiiiqiiq", STAT)))
        self.assertEqual(asked[0], (1, GET_ACL, text("/a")))

    def test_set_acls(self) -> None:
        host, asked = self.answering(STAT)
        self.client(host).set_acls("/a", security.OPEN_ACL_UNSAFE, 7)
        self.assertEqual(asked[0], (1, SET_ACL, text("/a") + OPEN_ACL + struct.pack(">i", 7)))

    def test_create_with_an_acl_and_create2(self) -> None:
        acl = struct.pack(">ii", 1, 31) + text("auth") + text("")
        host, asked = self.answering(text("/app/a"))
        client = self.client(host + "/app")
        self.assertEqual(client.create("/a", b"x", acl=security.CREATOR_ALL_ACL, ephemeral=True), "/a")
        self.assertEqual(asked[0], (1, CREATE2, text("/app/a") + text("x") + acl + struct.pack(">i", 1)))
        host, asked = self.answering(text("/a0000000000") + STAT)
        created = self.client(host).create2("/a", None, sequence=True)
        self.assertEqual((created.path, created.stat.czxid), ("/a0000000000", 5))
        null = struct.pack(">i", -1)
        self.assertEqual(asked[0], (1, CREATE2, text("/a") + null + OPEN_ACL + struct.pack(">i", 2)))

    def test_a_container_and_a_node_with_a_ttl(self) -> None:
        """By records of their own, with the modes that they have there."""
        body, null = text("/app/a") + STAT, struct.pack(">i", -1)
        host, asked = self.answering(body)
        client = self.client(host + "/app")
        self.assertEqual(client.create("/a", None, container=True), "/a")
        self.assertEqual(client.create("/a", None, ttl=1.5, acl=security.OPEN_ACL_UNSAFE), "/a")
        self.assertEqual(client.create_async("/a", None, ttl=0.001, sequence=True).result(WAIT), "/a")
        spelled = text("/app/a") + null + OPEN_ACL
        self.assertEqual(asked[0], (1, CONTAINER, spelled + struct.pack(">i", 4)))
        self.assertEqual(asked[1], (2, TTL, spelled + struct.pack(">iq", 5, 1500)))
        self.assertEqual(asked[2], (3, TTL, spelled + struct.pack(">iq", 6, 1)))

    def test_what_no_node_is_made_as(self) -> None:
        host, asked = self.answering()
        client = self.client(host)
        container, limits = "a container is neither ephemeral nor sequential", "a TTL is 0.001 to 1099511627.775 seconds, and not"
        for words, named in (
            (container, {"container": True, "ephemeral": True}),
            (container, {"container": True, "sequence": True}),
            ("a node with a TTL is neither ephemeral nor a container", {"ttl": 1, "ephemeral": True}),
            ("a node with a TTL is neither ephemeral nor a container", {"ttl": 1, "container": True}),
            (f"{limits} 0", {"ttl": 0}),
            (f"{limits} 1099511628", {"ttl": 1_099_511_628}),
            ("a TTL is a number that is finite, and not inf", {"ttl": float("inf")}),
        ):
            with self.subTest(named), self.assertRaises(ValueError) as caught:
                client.create("/a", **named)  # type: ignore[arg-type]
            self.assertEqual(str(caught.exception), words)
        with self.assertRaisesRegex(TypeError, "^a TTL is a number, and not str$"):
            client.create("/a", ttl="1")  # type: ignore[arg-type]
        self.assertEqual(asked, [])

    def test_a_sequential_node_without_a_name(self) -> None:
        """Its digits come after the slash. A node of that path is its parent, whatever is refused."""
        for root, path, full, named in (
            ("", "/folder/", "/folder/", "/folder"), ("/app", "/folder/", "/app/folder/", "/folder"), ("/app", "/", "/app/", "/"), ("", "/", "/", "/"),
        ):  # fmt: skip
            host, asked = self.answering(text(full + "0000000007") + STAT)
            client, spelled = self.client(host + root), text(full) + text("x") + OPEN_ACL
            with self.subTest(full):
                self.assertEqual(client.create(path, b"x", sequence=True), path + "0000000007")
                self.assertEqual(client.create2(path, b"x", sequence=True, ephemeral=True).path, path + "0000000007")
                self.assertEqual(asked[0], (1, CREATE2, spelled + struct.pack(">i", 2)))
                self.assertEqual(asked[1], (2, CREATE2, spelled + struct.pack(">i", 3)))
            client = self.client(self.answering(code=-101)[0] + root)
            with self.subTest(full), self.assertRaises(NoNodeError) as caught:
                client.create(path, sequence=True)
            self.assertEqual(caught.exception.path, named)
        for path in ("/folder//", "//", "folder/", "/folder/../"):
            with self.subTest(path), self.raises(ValueError, None):
                client.create(path, sequence=True)
        with self.raises(ValueError, None):
            client.create("/folder/")

    def test_several_reads_at_once(self) -> None:
        """Each has its result, or its own error."""
        names = header(8, code=0) + struct.pack(">i", 2) + text("a") + text("b")
        refused = header(-1, code=-101) + struct.pack(">i", -101)
        body = header(4, code=0) + text("one") + STAT + names + refused + header(4, code=0) + struct.pack(">i", -1) + STAT + END
        host, asked = self.answering(body)
        reads = [Read.data("/a"), Read.children("/"), Read.data("/none"), Read.data("/null")]
        found = self.client(host + "/app").multi_read(reads)
        stat = Stat._make(struct.unpack(">qqqqiiiqiiq", STAT))
        self.assertEqual((found[:2], found[3]), ([(b"one", stat), ["a", "b"]], (None, stat)))
        error = found[2]
        assert isinstance(error, NoNodeError)
        self.assertEqual(error.path, "/none")
        spelled = [header(4) + text("/app/a"), header(8) + text("/app"), header(4) + text("/app/none"), header(4) + text("/app/null")]
        self.assertEqual(asked[0], (1, MULTI_READ, b"\0".join(spelled) + b"\0" + END))
        host, asked = self.answering(END)
        self.assertEqual((self.client(host).multi_read([]), asked[0]), ([], (1, MULTI_READ, END)))
        with self.assertRaisesRegex(TypeError, "^a read is a dirwolleu.Read, and not str$"):
            self.client(host).multi_read(["/a"])  # type: ignore[list-item]

    def test_ephemerals_counts_and_who_the_client_is(self) -> None:
        paths = [text(path) for path in ("/app", "/app/a", "/apple", "/other")]
        host, asked = self.answering(struct.pack(">i", 4) + b"".join(paths))
        self.assertEqual(self.client(host + "/app").get_ephemerals("/a"), ["/", "/a"])
        self.assertEqual(self.client(host).get_ephemerals(), ["/app", "/app/a", "/apple", "/other"])
        self.assertEqual([one[1:] for one in asked], [(GET_EPHEMERALS, text("/app/a")), (GET_EPHEMERALS, text("/"))])
        host, asked = self.answering(struct.pack(">i", 19))
        self.assertEqual((self.client(host).get_all_children_number("/a"), asked[0]), (19, (1, COUNT, text("/a"))))
        ids = struct.pack(">i", 2) + text("digest") + text("bob") + text("ip") + text("127.0.0.1")
        host, asked = self.answering(ids)
        wanted = [security.Id("digest", "bob"), security.Id("ip", "127.0.0.1")]
        self.assertEqual((self.client(host).who_am_i(), asked[0]), (wanted, (1, WHO_AM_I, b"")))

    def test_a_transaction(self) -> None:
        body = header(1, code=0) + text("/app/a") + header(5, code=0) + STAT + header(13, code=0) + header(2, code=0)
        body += END
        host, asked = self.answering(body)
        client = self.client(host + "/app")
        with client.transaction() as transaction:
            transaction.create("/a", b"x")
            transaction.set_data("/b", b"y", 3)
            transaction.check("/c", 4)
            transaction.delete("/d")
        self.assertEqual(transaction.results, ["/a", Stat._make(struct.unpack(">qqqqiiiqiiq", STAT)), True, True])
        spelled = (
            header(1) + text("/app/a") + text("x") + OPEN_ACL + struct.pack(">i", 0)
            + header(5) + text("/app/b") + text("y") + struct.pack(">i", 3)
            + header(13) + text("/app/c") + struct.pack(">i", 4)
            + header(2) + text("/app/d") + struct.pack(">i", -1) + END
        )  # fmt: skip
        self.assertEqual(asked[0], (1, MULTI, spelled))

    def test_a_transaction_that_is_refused(self) -> None:
        codes = (0, -103, -2)
        body = b"".join(header(-1, code=code) + struct.pack(">i", code) for code in codes) + END
        host, _ = self.answering(body)
        transaction = self.client(host).transaction()
        for path in ("/a", "/b", "/c"):
            transaction.check(path, 1)
        with self.assertRaises(TransactionFailedError) as caught:
            transaction.commit()
        self.assertEqual((caught.exception.index, caught.exception.code), (1, -103))
        self.assertIsInstance(caught.exception.error, BadVersionError)
        self.assertEqual(transaction.results, [])

    def test_what_a_server_refuses(self) -> None:
        for code, kind in ((-110, NodeExistsError), (-102, NoAuthError), (-6, UnimplementedError)):
            host, _ = self.answering(code=code)
            with self.raises(kind, code):
                self.client(host).create2("/a")

    def test_what_is_not_sent(self) -> None:
        host, asked = self.answering()
        for root in ("", "/app"):
            client = self.client(host + root)
            for path in ("a", "", "/a/", "//a", "/a/../b", "/\0"):
                with self.subTest(root=root, path=path), self.raises(ValueError, None):
                    client.sync(path)
                transaction = client.transaction()
                transaction.check("/b", 1)
                transaction.delete(path)
                with self.subTest(root=root, path=path), self.raises(ValueError, None):
                    transaction.commit()
        with self.raises(TooLargeError, None):
            client.create2("/a", bytes(1_048_576))
        with self.raises(TypeError, None):
            client.create2("/a", "text")  # type: ignore[arg-type]
        self.assertEqual([one for one in asked if one.kind != PING], [])

    def test_bodies_of_each_size(self) -> None:
        """A request has 1,048,575 bytes at most, 8 of them its header. An answer may have none after its own."""
        host, asked = self.answering()
        client = self.client(host)
        for size in (0, 1, 1_048_567):
            self.assertEqual(client._call(raw(bytes(size))), b"")
            self.assertEqual(len(asked[-1].body), size)
        with self.raises(TooLargeError, None):
            client._call(raw(bytes(1_048_568)))
        self.assertEqual([one.kind for one in asked], 3 * [SYNC])
        for size in (0, 1, 4_194_304 - 16):
            host, _ = self.answering(bytes(size))
            self.assertEqual(len(self.client(host)._call(raw(b""))), size)

    def test_nothing_that_moves_watches_or_ends_the_session_goes_through(self) -> None:
        """The library takes eleven operations by their numbers."""
        session, taken = Session(6000, 1), list[int]()
        for number in range(-20, 200):
            with contextlib.suppress(ValueError):
                session.raw(1, 1000 + number, 2**63, number, (), lambda _: b"")
                taken.append(number)
        self.assertEqual(
            taken,
            [GET_ACL, SET_ACL, SYNC, MULTI, CREATE2, CONTAINER, TTL, MULTI_READ, GET_EPHEMERALS, COUNT, WHO_AM_I],
        )


class OrderTest(RawCase):
    is_long = True

    def test_replies_come_in_the_order_of_both(self) -> None:
        def answer(peer: Peer, asked: Asked) -> None:
            data = struct.pack(">i", asked.xid)
            peer.send(data_reply(asked, data) if asked.kind == GET_DATA else reply(asked, text(str(asked.xid))))

        client, ended = self.client(self.serve(answer)), list[int]()
        futures: list[Any] = []
        for number in range(400):
            future: Any = client.get_async("/a") if number % 3 else client.sync_async("/a")
            future.add_done_callback(lambda _, number=number: ended.append(number))
            futures.append(future)
        concurrent.futures.wait(futures, WAIT)
        within(lambda: len(ended) == 400)
        self.assertEqual(ended, list(range(400)))
        self.assertEqual([int(future.result()) for future in futures[::3]], list(range(1, 401, 3)))

    def test_more_at_once_than_the_core_takes(self) -> None:
        host, asked = self.answering(text("/"))
        client = self.client(host, 60.0)
        futures = [client.sync_async("/") for _ in range(2500)]
        self.assertEqual(len(concurrent.futures.wait(futures, 3 * WAIT).done), 2500)
        self.assertEqual([one.xid for one in asked if one.kind != PING], list(range(1, 2501)))

    def test_what_a_raw_write_ended_is_stale_when_its_caller_goes_on(self) -> None:
        def answer(peer: Peer, asked: Asked) -> None:
            if asked.kind == GET_DATA:
                peer.send(data_reply(asked, b"one"))
            else:
                peer.send(notice("/a"), reply(asked, header(5, code=0) + STAT + END, zxid=6))

        client, events = self.client(self.serve(answer)), queue.Queue[WatchedEvent]()
        client.get("/a", watch=events.put)
        with client.transaction() as transaction:
            transaction.set_data("/a", b"two")
        kept = client.kept("/a")
        assert kept is not None
        self.assertEqual((kept.mark, kept.last_zxid, client.last_zxid), (Mark.STALE, 6, 6))
        self.assertEqual(events.get(timeout=WAIT).path, "/a")

    def test_what_a_cut_has_lost_is_asked_again_if_it_changes_nothing(self) -> None:
        """All other calls raise an error that says that it may have happened."""
        asked, may_end = queue.Queue[Asked](), threading.Event()
        self.addCleanup(may_end.set)

        def serve(peer: Peer) -> None:
            peer.admit()
            if may_end.is_set():
                while True:
                    one = peer.take()
                    asked.put(one)
                    peer.send(reply(one, BODIES[one.kind]))
            for _ in range(12):
                asked.put(peer.take())
            may_end.wait(WAIT)

        client = self.client(self.raw_server(serve).host)
        futures = [*self.reads(client), *self.changes(client)]
        kinds = [asked.get(timeout=WAIT).kind for _ in futures]
        may_end.set()
        for future in futures[:6]:
            self.assertIsNone(future.exception(WAIT))
        for future in futures[6:]:
            self.assertIsInstance(future.exception(WAIT), ConnectionLoss)
            self.assertTrue(future.exception().may_have_happened)
        self.assertEqual(kinds, [SYNC, GET_ACL, MULTI_READ, GET_EPHEMERALS, COUNT, WHO_AM_I, SET_ACL, CREATE2, CREATE2, CONTAINER, TTL, MULTI])
        self.assertEqual([asked.get(timeout=WAIT).kind for _ in range(6)], kinds[:6])

    def reads(self, client: Client) -> list[Any]:
        reads = [client.sync_async("/a"), client.get_acls_async("/a"), client.multi_read_async([Read.data("/a")])]
        return [*reads, client.get_ephemerals_async(), client.get_all_children_number_async("/"), client.who_am_i_async()]

    def changes(self, client: Client) -> list[Any]:
        transaction = client.transaction()
        transaction.check("/a", 1)
        return [
            client.set_acls_async("/a", security.OPEN_ACL_UNSAFE),
            client.create2_async("/a"),
            client.create_async("/a", acl=security.OPEN_ACL_UNSAFE),
            client.create_async("/a", container=True),
            client.create_async("/a", ttl=1.5),
            client._send(transaction.request()),
        ]

    def test_an_answer_of_another_xid_ends_the_connection(self) -> None:
        def answer(peer: Peer, asked: Asked) -> None:
            peer.send(struct.pack(">iqi", -1007, 5, 0) + text("/"))

        client = self.client(self.serve(answer))
        with self.raises(ConnectionLoss, -4):
            client.create2("/")

    def test_an_answer_that_does_not_read_ends_the_connection(self) -> None:
        for body in (b"", b"\0\0\0\5ab", struct.pack(">i", -1), struct.pack(">i", 2) + b"\xff\xfe"):
            host, _ = self.answering(body)
            client = self.client(host)
            with self.subTest(body=body), self.raises(ConnectionLoss, -4):
                client.sync("/")
            within(lambda: client.stats().connections == 2)

    def test_a_silent_server_is_left_for_the_sake_of_a_raw_call(self) -> None:
        def answer(peer: Peer, asked: Asked) -> None:
            if asked.kind != CREATE2:
                peer.send(reply(asked))

        client = self.client(self.serve(answer), 3.0)
        with self.raises(ConnectionLoss, -4):
            client.create2("/a")

    def test_what_is_asked_before_and_after_a_raw_call_keeps_its_place(self) -> None:
        """Also while no server has accepted the session."""
        came = list[int]()

        def serve(peer: Peer) -> None:
            for asked in peer.requests():
                came.append(asked.kind)
                peer.send(reply(asked, text("/") if asked.kind == SYNC else STAT))

        client = Client(self.raw_server(serve).host)
        self.addCleanup(client.close)
        client._engine.begin()
        calls: list[Any] = [client.exists_async("/a"), client.sync_async("/"), client.exists_async("/b"), client.sync_async("/")]
        client._begin_threads()
        for call in calls:
            call.result(WAIT)
        self.assertEqual(came, [EXISTS, SYNC, EXISTS, SYNC])

    def test_raw_calls_without_a_connection_are_not_sent(self) -> None:
        partner = self.partner()
        client = self.client(partner.host, 1.0)
        partner.do("down")
        within(lambda: client.state is State.SUSPENDED)
        for timeout, kind in ((None, NotConnectedError), (0.3, CallTimeoutError)):
            with self.assertRaises(kind) as caught:
                client.create2("/a", timeout=timeout)
            self.assertFalse(caught.exception.may_have_happened)

    def test_a_server_that_is_behind_what_a_raw_call_has_seen_takes_no_call(self) -> None:
        """It ends the connection, as ZooKeeper does: so its older data are not shown."""
        seen: list[int] = []

        def serve(peer: Peer) -> None:
            asked = peer.take_connect()
            seen.append(asked.last_zxid)
            if len(seen) == 2:
                return  # the zxid of this one is 5
            peer.send(struct.pack(">iiq", 0, asked.timeout_ms, asked.session or 7) + struct.pack(">i", 16) + bytes(16) + b"\0")
            data, zxid = (b"old", 5) if len(seen) == 1 else (b"new", 77)
            while True:
                one = peer.take()
                if one.kind == GET_DATA:
                    peer.send(data_reply(one, data, zxid=zxid))
                elif one.kind == MULTI:
                    peer.send(notice("/a"), reply(one, header(5, code=0) + STAT + END, zxid=77))
                    return

        client = self.client(self.raw_server(serve).host)
        self.assertEqual(client.get("/a", watch=True)[0], b"old")
        with client.transaction() as transaction:
            transaction.set_data("/a", b"new")
        self.assertEqual(client.get("/a", watch=True)[0], b"new")
        self.assertEqual((seen, client.kept("/a").mark), ([0, 77, 77], Mark.GOOD))  # type: ignore[union-attr]

    def test_what_a_raw_call_has_seen_binds_the_next_server(self) -> None:
        seen: list[int] = []

        def serve(peer: Peer) -> None:
            seen.append(peer.admit().last_zxid)
            if len(seen) == 1:
                peer.send(reply(peer.take(), text("/"), zxid=77))
                return
            peer.take()

        client = self.client(self.raw_server(serve).host)
        client.sync("/")
        within(lambda: len(seen) == 2)
        self.assertEqual(seen, [0, 77])
        saved = client.saved_session
        assert saved is not None
        self.assertEqual(struct.unpack(">q", saved[-8:])[0], 77)


class AuthTest(RawCase):
    def server(self, refuses: bool = False) -> tuple[str, list[list[Asked]]]:
        """A server that answers credentials and reads, and ends the first connection after a read."""
        connections: list[list[Asked]] = []

        def serve(peer: Peer) -> None:
            asked: list[Asked] = []
            connections.append(asked)
            peer.admit()
            while True:
                asked.append(peer.take())
                if asked[-1].kind == AUTH and refuses:
                    return peer.send(struct.pack(">iqi", -4, 0, -115))
                if asked[-1].kind == GET_DATA:
                    peer.send(data_reply(asked[-1], b"one"))
                    if len(connections) == 1:
                        return
                else:
                    peer.send(reply(asked[-1]))

        return self.raw_server(serve).host, connections

    def test_credentials_come_before_anything_else_on_each_connection(self) -> None:
        host, connections = self.server()
        client = self.client(host, auth_data=[("digest", "bob:secret"), ("x509", b"\1")])
        client.get("/a", watch=True)
        within(lambda: len(connections) == 2 and len(connections[1]) == 3)
        bob = Asked(-4, AUTH, struct.pack(">i", 0) + text("digest") + text("bob:secret"))
        x509 = Asked(-4, AUTH, struct.pack(">i", 0) + text("x509") + struct.pack(">i", 1) + b"\1")
        self.assertEqual(connections[0][:2], [bob, x509])
        self.assertEqual(connections[1][:2], [bob, x509])
        self.assertEqual(connections[1][2].kind, SET_WATCHES)

    def test_credentials_that_are_added_are_sent_on_later_connections(self) -> None:
        host, connections = self.server()
        client = self.client(host)
        client.add_auth("digest", "bob:secret")
        client.get("/a", watch=True)
        within(lambda: len(connections) == 2 and len(connections[1]) == 2)
        self.assertEqual([one.kind for one in connections[1]], [AUTH, SET_WATCHES])

    def test_credentials_that_are_refused(self) -> None:
        host, connections = self.server(refuses=True)
        client = Client(host, 6.0, auth_data=[("none", "x")])
        self.addCleanup(client.close)
        with self.assertLogs("dirwolleu", "ERROR"), self.raises(AuthFailedError, -115):
            client.start(WAIT)
        client = self.client(host)
        calls: list[Callable[[], Any]] = [lambda: client.add_auth("none", "x"), lambda: client.get("/a")]
        for call in calls:
            with self.raises(AuthFailedError, -115):
                call()
        client.start(WAIT)
        self.assertEqual((client.state, connections[-1]), (State.CONNECTED, []))

    def test_a_credential_has_a_bound(self) -> None:
        """With its scheme 1,048,555 bytes, so that its frame has 1,048,575 after its length."""
        host, connections = self.server()
        longest = "x" * (1_048_555 - len("digest"))
        client = self.client(host, auth_data=[("digest", longest)])
        self.assertEqual(len(connections[0][0].body), 1_048_575 - 8)
        calls: list[Callable[[], Any]] = [
            lambda: Client(host, auth_data=[("digest", longest + "x")]), lambda: client.add_auth("digest", longest + "x"),
        ]  # fmt: skip
        for call in calls:
            with self.raises(TooLargeError, None):
                call()
        self.assertEqual(client.get("/a")[0], b"one")


class RefusedTest(BothCase):
    """A server that refuses the credentials of a client, from some moment on."""

    is_long = True

    def setUp(self) -> None:
        super().setUp()
        self.refuses, self.admits = set[str](), threading.Event()
        self.admits.set()
        self.came: list[list[Asked]] = []
        """The bytes that came over each connection whose session was accepted."""
        self.server = self.raw_server(self.serve)

    def serve(self, peer: Peer) -> None:
        """Refuses credentials of some schemes, with more in the same piece. At a read of `/cut` the first connection ends."""
        self.admits.wait(WAIT)
        peer.admit()
        asked: list[Asked] = []
        self.came.append(asked)
        while True:
            one = peer.take()
            asked.append(one)
            scheme = one.body[8 : 8 + int.from_bytes(one.body[4:8], "big")].decode() if one.kind == AUTH else ""
            if scheme in self.refuses:
                peer.send(struct.pack(">iqi", -4, 0, -115), notice("/a"))
                return peer.finish()
            if one.kind == GET_DATA and b"/cut" in one.body and len(self.came) == 1:
                return
            peer.send(data_reply(one, b"one") if one.kind == GET_DATA else reply(one))

    def introduced(self) -> Any:
        """A client that has credentials, which the server has accepted, and a good answer."""
        client = self.client(self.server.host, auth_data=[("x509", b"1"), ("digest", "bob:secret")])
        client.get("/a", watch=True)
        self.assertIs(client.kept("/a").mark, Mark.GOOD)
        return client

    def refuse_at_next(self, client: Any) -> None:
        """Ends the connection, and refuses credentials on the next one."""
        self.refuses.add("digest")
        with self.assertLogs("dirwolleu.connection", "ERROR"), self.assertRaises(AuthFailedError) as caught:
            client.get("/cut")
        self.assertEqual(str(caught.exception), f"{REFUSED}: /cut")
        self.assertEqual((client.state, len(self.came), len(self.server.dials)), (State.LOST, 2, 2))

    def check_over(self, client: Any) -> None:
        """The client has ended by itself, and calls say why."""
        within(lambda: self.has_ended(client))
        dials, attempts = len(self.server.dials), client.stats().dials
        client.set_hosts(self.server.host)
        calls: list[Callable[[], Any]] = [lambda: client.get("/a"), lambda: client.sync("/"), lambda: client.get_async("/a")]
        calls.append(lambda: self.followed(client))
        for call in calls:
            with self.raises(AuthFailedError, -115):
                call()
        time.sleep(1.2)
        self.assertEqual((len(self.server.dials), client.stats().dials, client.stats().waiting), (dials, attempts, 0))
        self.assertEqual((client.state, client.kept("/a"), client.saved_session), (State.LOST, None, None))

    def has_ended(self, client: Any) -> bool:
        """Whether no thread of the client runs."""
        past = client._past if client._threads() is None else None
        return past is not None and past.are_over() and not past.callbacks.is_alive()

    def followed(self, client: Any) -> list[bytes]:
        """The answers of a node that is followed, up to the end."""
        return [kept.data for kept in client.follow("/a")]

    def wait_for_tree(self, client: Any) -> None:
        client.tree("/cut").wait()

    def test_at_a_reconnect(self) -> None:
        client, states = self.introduced(), queue.Queue[State]()
        client.add_listener(states.put)
        follows = in_thread(lambda: self.followed(client))
        within(lambda: client._engine._subjects)
        self.refuse_at_next(client)
        self.assertEqual([states.get(timeout=WAIT) for _ in range(3)], [State.SUSPENDED, State.CONNECTED, State.LOST])
        self.assertEqual(follows.get(timeout=WAIT), [b"one"])
        self.check_over(client)
        with self.assertLogs("dirwolleu.connection", "ERROR"), self.raises(AuthFailedError, -115):
            client.start(WAIT)
        self.check_over(client)
        self.refuses.clear()
        client.start(WAIT)
        self.assertEqual((client.get("/a")[0], self.came[-1][:2]), (b"one", self.came[0][:2]))
        client.stop()
        with self.raises(ConnectionClosedError, None):
            client.get("/a")

    def test_what_waits(self) -> None:
        client = self.introduced()
        self.admits.clear()
        self.refuses.add("digest")
        reads = [in_thread(lambda: client.get("/cut")), in_thread(lambda: self.wait_for_tree(client))]
        within(lambda: client.state is State.SUSPENDED)
        changes = [in_thread(call) for call in (lambda: client.set("/b", b"x"), lambda: client.create2("/b"))]
        within(lambda: client.stats().waiting >= 3)
        with self.assertLogs("dirwolleu.connection", "ERROR"):
            self.admits.set()
            for call, is_change in zip([*reads, *changes], (False, False, True, True)):
                error = call.get(timeout=WAIT)
                self.assertIs(type(error), AuthFailedError)
                self.assertEqual(error.may_have_happened, is_change)

    def test_at_the_start(self) -> None:
        self.refuses.add("digest")
        client = self.made(lambda: self.module().Client(self.server.host, TIMEOUT, auth_data=[("digest", "bob:secret")]))
        self.addCleanup(client.close)
        for _ in range(2):
            with self.assertLogs("dirwolleu.connection", "ERROR"), self.assertRaises(AuthFailedError) as caught:
                client.start(WAIT)
            self.assertEqual(str(caught.exception), REFUSED)
            self.assertTrue(self.has_ended(client))
        self.check_over(client)

    def test_what_is_added_and_refused_ends_the_session_and_is_forgotten(self) -> None:
        client, states = self.introduced(), list[State]()
        client.add_listener(states.append)
        self.refuses.add("none")
        with self.assertLogs("dirwolleu.connection", "ERROR"), self.raises(AuthFailedError, -115):
            client.add_auth("none", "x")
        within(lambda: states == [State.LOST])
        self.check_over(client)
        client.start(WAIT)
        self.assertEqual(client.get("/a")[0], b"one")
        self.assertEqual([one.kind for one in self.came[1]], [AUTH, AUTH, GET_DATA])

    def test_what_is_added_twice_is_given_once(self) -> None:
        client = self.introduced()
        for _ in range(3):
            client.add_auth("digest", "bob:secret")
            client.add_auth("digest", "eve:secret")
        client.get("/cut")
        self.assertEqual([one.kind for one in self.came[0] if one.kind == AUTH], 3 * [AUTH])
        self.assertEqual([one.kind for one in self.came[1]], [*3 * [AUTH], SET_WATCHES, GET_DATA])

    def test_what_is_added_waits_for_a_connection(self) -> None:
        client = self.introduced()
        self.admits.clear()
        cut = in_thread(lambda: client.get("/cut"))
        within(lambda: client.state is State.SUSPENDED)
        adds = in_thread(lambda: client.add_auth("digest", "eve:secret"))
        within(lambda: client.stats().waiting >= 2 and not client._engine._handed)  # the loop has taken them
        self.assertTrue(adds.empty())
        self.admits.set()
        self.assertIsNone(adds.get(timeout=WAIT))
        self.assertEqual(cut.get(timeout=WAIT)[0], b"one")
        self.assertEqual([one.kind for one in self.came[1]][:3], 3 * [AUTH])

    def test_what_was_added_counts(self) -> None:
        client = self.client(self.server.host)
        client.add_auth("digest", "bob:secret")
        self.refuse_at_next(client)
        self.check_over(client)

    def test_a_watch_goes_on_where_the_client_is_started_again(self) -> None:
        client, told = self.introduced(), queue.Queue[Any]()
        self.refuses.add("digest")
        with self.assertLogs("dirwolleu.connection", "ERROR"):
            client.DataWatch("/cut", lambda data, _: told.put(data))
            within(lambda: client.state is State.LOST)
        within(lambda: self.has_ended(client))
        self.refuses.clear()
        client.start(WAIT)
        self.assertEqual(told.get(timeout=WAIT), b"one")


class AioRefusedTest(AioCase, RefusedTest):
    def has_ended(self, client: Any) -> bool:
        """Whether the client has no connection, no attempt and no timer."""
        driver = client._driver
        return driver is None or (driver._link, driver._timer) == (None, None)

    def followed(self, client: Any) -> list[bytes]:
        async def follow() -> list[bytes]:
            return [kept.data async for kept in client._made.follow("/a")]

        followed: list[bytes] = client._call(follow)
        return followed

    def wait_for_tree(self, client: Any) -> None:
        client._call(client.tree("/cut").wait)


class SecurityTest(unittest.TestCase):
    def test_a_digest_is_what_zookeeper_makes_of_it(self) -> None:
        # from the documentation of ZooKeeper's DigestAuthenticationProvider: super:test
        self.assertEqual(security.make_digest_acl_credential("super", "test"), "super:D/InIHSb7yEEbrWz8b9l71RjZJU=")

    def test_names_of_permissions(self) -> None:
        self.assertEqual(security.make_digest_acl("bob", "x", all=True).acl_list, ["ALL"])
        self.assertEqual(security.make_digest_acl("bob", "x", create=True, admin=True).acl_list, ["CREATE", "ADMIN"])
