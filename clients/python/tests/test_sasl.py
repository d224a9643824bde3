"""Tests of the log-in by SASL, against a server that a test writes. It computes as RFC 2831 says."""

from __future__ import annotations

import asyncio
import hashlib
import struct
from typing import Any, Callable, Optional

from support import PASSWORD, TIMEOUT, WAIT, Asked, PartnerCase, Peer, buffer, framed, reply

import dirwolleu
from dirwolleu import aio
from dirwolleu._login import Failed, Login
from dirwolleu.kazoo.client import KazooClient
from dirwolleu.kazoo.exceptions import AuthFailedError as KazoosAuthFailedError
from dirwolleu.sasl import _DigestMd5, digest_md5
from dirwolleu.security import AuthFailedError

LOG_IN, EXISTS, AUTH = 102, 3, 100
CHALLENGE = b'realm="zk-sasl-md5",nonce="OA6MG9tEQGm2hh",qop="auth",charset=utf-8,algorithm=md5-sess'


def token_of(asked: Asked) -> bytes:
    return asked.body[4:]


def tokened(asked: Asked, token: bytes, code: int = 0) -> bytes:
    return reply(asked, buffer(token), code, zxid=0)


def proof(response: bytes, username: str, password: str, act: str) -> str:
    """The proof of RFC 2831 for the parts of a response."""
    parts = {name: text.strip('"') for name, _, text in (part.partition("=") for part in response.decode().split(","))}

    def digest(text: bytes) -> bytes:
        return hashlib.md5(text).digest()

    first = digest(f"{username}:{parts['realm']}:{password}".encode()) + f":{parts['nonce']}:{parts['cnonce']}".encode()
    second = f"{act}:{parts['digest-uri']}".encode()
    middle = f"{parts['nonce']}:{parts['nc']}:{parts['cnonce']}:{parts['qop']}"
    return digest(f"{digest(first).hex()}:{middle}:{digest(second).hex()}".encode()).hex()


class Server:
    """A server's work on each connection: it demands a log-in as `app`, and then answers all requests."""

    def __init__(self, password: str = "secret", code: int = 0, is_false: bool = False) -> None:
        self.password, self.code, self.is_false = password, code, is_false
        self.asked: list[tuple[int, int]] = []
        self.logged_in = 0

    def __call__(self, peer: Peer) -> None:
        peer.admit()
        begun = self._take(peer)
        assert token_of(begun) == b"", token_of(begun)
        peer.send(tokened(begun, CHALLENGE))
        answered = self._take(peer)
        response = token_of(answered)
        is_right = f"response={proof(response, 'app', self.password, 'AUTHENTICATE')}".encode() in response.split(b",")
        if self.code or not is_right:
            peer.send(tokened(answered, b"", self.code or -115))
            return peer.finish()
        shown = "0" * 32 if self.is_false else proof(response, "app", self.password, "")
        self.logged_in += 1
        peer.send(tokened(answered, f"rspauth={shown}".encode()))
        while True:
            asked = self._take(peer)
            peer.send(reply(asked, code=-101 if asked.kind == EXISTS else 0))

    def _take(self, peer: Peer) -> Asked:
        asked = peer.take()
        self.asked.append((asked.kind, asked.xid))
        return asked


class SaslTest(PartnerCase):
    def test_the_example_of_the_rfc(self) -> None:
        one = _DigestMd5("chris", "secret", "imap/elwood.innosoft.com")
        parts = "elwood.innosoft.com", "OA6MG9tEQGm2hh", "OA6MHXh6VqTrRk"
        self.assertEqual(one.digest(*parts, "AUTHENTICATE:imap/elwood.innosoft.com"), "d388dad90d4bbd760a152321f2143af7")
        self.assertEqual(one.digest(*parts, ":imap/elwood.innosoft.com"), "ea40f60335c427b5527b84dbabcdfffd")

    def client(self, server: Callable[[Peer], None], password: str = "secret", **named: Any) -> dirwolleu.Client:
        client = dirwolleu.Client(self.raw_server(server).host, TIMEOUT, sasl=digest_md5("app", password), **named)
        self.addCleanup(client.close)
        self.addCleanup(client.stop)
        return client

    def test_nothing_is_asked_before_the_log_in_is_over(self) -> None:
        server = Server()
        client = self.client(server, auth_data=[("digest", "bob:x")])
        client.start(WAIT)
        self.assertIsNone(client.exists("/a"))
        kinds = [kind for kind, _ in server.asked]
        self.assertEqual((kinds[:4], server.logged_in), ([LOG_IN, LOG_IN, AUTH, EXISTS], 1))
        self.assertTrue(all(xid < -1000 for _, xid in server.asked[:2]))

    def test_each_connection_logs_in(self) -> None:
        server = Server()
        client = self.client(server)
        client.start(WAIT)
        client.exists("/a")
        client._threads().loop.soon(lambda: client._engine.drop(0, "the test"))  # type: ignore[union-attr]
        client._act()
        client.exists("/a", timeout=WAIT)
        self.assertEqual(server.logged_in, 2)

    def test_who_is_not_taken(self) -> None:
        for server, password, words in (
            (Server(), "wrong", "the server answers -115"),
            (Server(code=-124), "secret", "the server answers -124"),
            (Server(is_false=True), "secret", "the server does not show that it knows the password"),
        ):
            client = self.client(server, password)
            with self.subTest(words), self.assertRaisesRegex(AuthFailedError, f"the log-in by SASL has failed: {words}"):
                client.start(WAIT)
            self.assertEqual([kind for kind, _ in server.asked], [LOG_IN, LOG_IN])
            with self.assertRaises(AuthFailedError) as caught:
                client.create("/a")
            self.assertFalse(caught.exception.may_have_happened)

    def test_a_step_that_fails(self) -> None:
        def step(_: bytes) -> Optional[bytes]:
            raise RuntimeError("no ticket")

        def serve(peer: Peer) -> None:
            peer.admit()

        client = dirwolleu.Client(self.raw_server(serve).host, TIMEOUT, sasl=lambda: step)
        self.addCleanup(client.close)
        with self.assertRaisesRegex(AuthFailedError, "has failed: no ticket"):
            client.start(WAIT)

    def test_what_is_no_refusal_is_tried_again(self) -> None:
        def answers_late(peer: Peer) -> None:
            peer.admit()
            peer.send(tokened(peer.take(), b"", -4))
            peer.finish()

        def garbles(peer: Peer) -> None:
            peer.admit()
            peer.send(reply(peer.take(), b"\0\0\0\7x"))
            peer.finish()

        def sends_no_frame(peer: Peer) -> None:
            peer.admit()
            peer.take()
            peer.send_bytes(b"\xff" * 8)
            peer.finish()

        firsts: list[Callable[[Peer], None]] = [answers_late, garbles, sends_no_frame]
        for first in firsts:
            served, server = list[Peer](), Server()

            def serve(peer: Peer) -> None:
                served.append(peer)
                if len(served) == 1:
                    return first(peer)
                server(peer)

            with self.subTest(first.__name__):
                client = self.client(serve)
                client.start(WAIT)
                self.assertEqual((len(served), server.logged_in), (2, 1))
                client.stop()

    def test_pieces_of_any_length(self) -> None:
        sends: list[bytes] = []
        login = Login(digest_md5("app", "secret"))
        connected = struct.pack(">iiiq", 36, 0, 6000, 7) + PASSWORD
        challenge = struct.pack(">iqi", -1001, 0, 0) + buffer(CHALLENGE)
        for byte in connected + framed(challenge):
            frames, passed = login.take(bytes([byte]))
            self.assertIsNone(passed)
            sends.append(frames)
        written = b"".join(sends)
        self.assertEqual(struct.unpack(">iiii", written[:16]), (12, -1001, LOG_IN, 0))
        self.assertEqual(struct.unpack(">ii", written[20:28]), (-1002, LOG_IN))

    def test_what_does_not_read_ends_the_log_in(self) -> None:
        connected = struct.pack(">iiiq", 36, 0, 6000, 7) + PASSWORD
        for came, words in (
            (b"\xff" * 8, "the server sends what is no frame"),
            (framed(struct.pack(">iqi", -1001, 0, 0) + b"\0\0\0\7x"), "the server's answer does not read"),
        ):
            login = Login(digest_md5("app", "secret"))
            login.take(connected)
            with self.subTest(words), self.assertRaisesRegex(Failed, words):
                login.take(came)

    def test_a_session_that_is_over_needs_no_log_in(self) -> None:
        connections = []
        server = Server()

        def serve(peer: Peer) -> None:
            connections.append(peer)
            if len(connections) == 1:
                peer.take_connect()
                peer.refuse()
                return peer.finish()
            server(peer)

        saved = struct.pack(">qi", 5, len(PASSWORD) - 4) + PASSWORD[4:] + struct.pack(">q", 0)
        client = self.client(serve, saved=saved)
        client.start(WAIT)
        self.assertEqual((len(connections), server.logged_in), (2, 1))

    def test_programs_for_kazoo(self) -> None:
        options = {"mechanism": "DIGEST-MD5", "username": "app", "password": "secret"}
        server = Server()
        zk = KazooClient(self.raw_server(server).host, TIMEOUT, sasl_options=options)
        zk.start(WAIT)
        self.assertIsNone(zk.exists("/a"))
        zk.stop()
        self.assertEqual([kind for kind, _ in server.asked][:3], [LOG_IN, LOG_IN, EXISTS])
        server = Server()
        with self.assertWarnsRegex(DeprecationWarning, "sasl_options"):
            zk = KazooClient(self.raw_server(server).host, TIMEOUT, auth_data=[("sasl", "app:secret")])
        zk.start(WAIT)
        zk.stop()
        self.assertEqual([kind for kind, _ in server.asked][:2], [LOG_IN, LOG_IN])
        zk = KazooClient(self.raw_server(Server()).host, TIMEOUT, sasl_options={**options, "password": "wrong"})
        with self.assertRaisesRegex(KazoosAuthFailedError, "the log-in by SASL has failed"):
            zk.start(WAIT)

    def test_asyncio(self) -> None:
        server = Server()

        async def run() -> None:
            async with aio.Client(self.raw_server(server).host, TIMEOUT, sasl=digest_md5("app", "secret")) as client:
                self.assertIsNone(await client.exists("/a"))

        asyncio.run(run())
        self.assertEqual(server.logged_in, 1)
