"""Tests of the server in memory at a socket, by frames that are spelled here, as zookeeper.jute has them."""

from __future__ import annotations

import socket
import struct
import time
import unittest
from typing import Optional

import server  # noqa: F401  it finds the package
from partner import WAIT, Partner, Peer, framed, text

from dirwolleu.testing import _raw as raw
from dirwolleu.testing._library import Bench

PASSWORD_OF_NONE = struct.pack(">i", 16) + bytes(16)
OPEN_ACL = struct.pack(">ii", 1, 31) + struct.pack(">i", 5) + b"world" + struct.pack(">i", 6) + b"anyone"


class Caller(Peer):
    """A connection of a client."""

    def __init__(self, port: int) -> None:
        super().__init__(socket.create_connection(("127.0.0.1", port), timeout=WAIT))

    def heard(self) -> Optional[bytes]:
        """The next payload, or None if the connection is over."""
        try:
            return self.take_payload()
        except ConnectionError:
            return None

    def connect(self, last_zxid: int = 0, session: int = 0, password: bytes = PASSWORD_OF_NONE) -> Optional[bytes]:
        self.send(struct.pack(">iqiq", 0, last_zxid, 6000, session) + password + b"\0")
        return self.heard()

    def ask(self, xid: int, kind: int, body: bytes = b"") -> Optional[bytes]:
        self.send(struct.pack(">ii", xid, kind) + body)
        return self.heard()


def header(payload: Optional[bytes]) -> tuple[int, int, int]:
    """xid, zxid and error of a reply."""
    assert payload is not None
    xid, zxid, code = struct.unpack(">iqi", payload[:16])
    return xid, zxid, code


class RawTest(unittest.TestCase):
    def test_what_is_answered_here_is_nothing_that_the_proved_server_does(self) -> None:
        connect = struct.pack(">iqiq", 0, 0, 6000, 0) + PASSWORD_OF_NONE + b"\0"
        for kind in raw.ANSWERS:
            bench = Bench(1)
            bench.connect(1)
            for payload in (connect, struct.pack(">ii", 1, kind) + text("/") + bytes(64)):
                self.assertTrue(bench.is_open)
                bench.hear(framed(payload))
                self.assertTrue(bench.process(1))
                said = bench.say()
            self.assertEqual((said, bench.is_open), (b"", False), kind)


class ServerTest(unittest.TestCase):
    def start(self, *options: str) -> None:
        partner = Partner(*options)
        self.addCleanup(partner.stop)
        self.port, self.command = partner.port, partner.ask

    def peer(self) -> Caller:
        peer = Caller(self.port)
        self.addCleanup(peer.connection.close)
        return peer

    def connected(self) -> Caller:
        peer = self.peer()
        self.assertIsNotNone(peer.connect())
        return peer

    def test_a_session_is_granted_taken_up_and_refused(self) -> None:
        self.start()
        first = self.peer().connect()
        assert first is not None
        _, timeout, session = struct.unpack(">iiq", first[:16])
        self.assertEqual(timeout, 6000)
        self.assertNotEqual(session, 0)
        self.assertEqual(self.peer().connect(session=session, password=first[16:36]), first)
        refused = struct.pack(">iiq", 0, 0, 0) + PASSWORD_OF_NONE
        self.assertEqual(self.peer().connect(session=session), refused)
        self.assertEqual(self.peer().connect(session=session + 1, password=first[16:36]), refused)

    def test_a_client_that_is_ahead_is_not_admitted(self) -> None:
        self.start()
        self.assertIsNone(self.peer().connect(last_zxid=1))

    def test_a_notice_comes_before_the_reply(self) -> None:
        self.start()
        peer = self.connected()
        create = text("/a") + struct.pack(">i", 1) + b"x" + OPEN_ACL + struct.pack(">i", 0)
        self.assertEqual(peer.ask(1, 1, create), struct.pack(">iqi", 1, 1, 0) + text("/a"))
        self.assertEqual(header(peer.ask(2, 4, text("/a") + b"\1")), (2, 1, 0))
        notice = struct.pack(">iqiii", -1, -1, 0, 3, 3) + text("/a")
        self.assertEqual(peer.ask(3, 5, text("/a") + struct.pack(">ii", -1, -1)), notice)
        self.assertEqual(header(peer.heard()), (3, 2, 0))
        self.assertEqual(header(peer.ask(4, 5, text("/a") + struct.pack(">ii", -1, 7))), (4, 2, -103))

    def test_each_refusal_has_its_code(self) -> None:
        self.start()
        self.assertEqual(self.command("create /a x"), "done")
        self.assertEqual(self.command("create /a/b"), "done")
        self.assertEqual(self.command("create /a x"), "refused: -110")
        self.assertEqual(self.command("create /c/d x"), "refused: -101")
        self.assertEqual(self.command("delete /a"), "refused: -111")
        self.assertEqual(self.command("set /c x"), "refused: -101")
        self.assertEqual(self.command("create a x"), "refused: -5")
        self.assertEqual(self.command("create / x"), "refused: -110")
        self.assertEqual(self.command("delete /"), "refused: -8")
        self.assertEqual(self.command("fly"), "unknown: fly")

    def test_what_is_answered_nowhere_ends_the_connection(self) -> None:
        self.start()
        peer = self.connected()
        self.assertIsNone(peer.ask(1, 77))

    def test_a_transaction_happens_as_a_whole_or_not_at_all(self) -> None:
        self.start()
        self.assertEqual(self.command("create /a x"), "done")
        peer = self.connected()
        self.assertEqual(header(peer.ask(1, 4, text("/a") + b"\1")), (1, 1, 0))
        any_version, end = struct.pack(">i", -1), struct.pack(">i?i", -1, True, -1)
        create = struct.pack(">i?i", 1, False, -1) + text("/b") + text("y") + OPEN_ACL + struct.pack(">i", 0)
        delete = struct.pack(">i?i", 2, False, -1) + text("/a") + any_version
        refused = struct.pack(">i?i", 13, False, -1) + text("/none") + any_version
        codes = (0, 0, -101)
        said = b"".join(struct.pack(">i?ii", -1, False, code, code) for code in codes) + end
        self.assertEqual(peer.ask(-1001, 14, create + delete + refused + end), struct.pack(">iqi", -1001, 1, 0) + said)
        notice = struct.pack(">iqiii", -1, -1, 0, 2, 3) + text("/a")
        self.assertEqual(peer.ask(-1002, 14, create + delete + end), notice)
        done = struct.pack(">i?i", 1, False, 0) + text("/b") + struct.pack(">i?i", 2, False, 0) + end
        self.assertEqual(peer.heard(), struct.pack(">iqi", -1002, 3, 0) + done)

    def test_acls_sync_and_credentials(self) -> None:
        self.start()
        self.assertEqual(self.command("create /a x"), "done")
        peer = self.connected()
        self.assertEqual((peer.ask(1, 6, text("/a")) or b"")[16:].startswith(OPEN_ACL), True)
        acl = struct.pack(">ii", 1, 1) + text("auth") + text("")
        self.assertEqual(header(peer.ask(2, 7, text("/a") + acl + struct.pack(">i", 0))), (2, 1, 0))
        self.assertEqual(header(peer.ask(3, 7, text("/a") + acl + struct.pack(">i", 0))), (3, 1, -103))
        self.assertEqual((peer.ask(4, 6, text("/a")) or b"")[16:].startswith(acl), True)
        self.assertEqual(peer.ask(5, 9, text("/a")), struct.pack(">iqi", 5, 1, 0) + text("/a"))
        self.assertEqual(header(peer.ask(-4, 100, struct.pack(">i", 0) + text("digest") + text("a:b"))), (-4, 1, 0))
        self.assertEqual(header(peer.ask(-4, 100, struct.pack(">i", 0) + text("none") + text("x"))), (-4, 1, -115))
        self.assertIsNone(peer.heard())

    def test_credentials_may_come_with_the_request_to_connect(self) -> None:
        """In one piece, before a server has answered that: ZooKeeper answers them in this order."""
        self.start()
        connect = struct.pack(">iqiq", 0, 0, 6000, 0) + PASSWORD_OF_NONE + b"\0"
        for scheme, code in (("digest", 0), ("none", -115)):
            peer, auth = self.peer(), struct.pack(">iii", -4, 100, 0) + text(scheme) + text("a:b")
            peer.connection.sendall(framed(connect, auth))
            self.assertEqual((peer.heard() or b"")[4:8], struct.pack(">i", 6000))
            self.assertEqual(header(peer.heard()), (-4, 0, code))
            if code:
                self.assertIsNone(peer.heard())
            else:
                ids = struct.pack(">i", 2) + text("digest") + text("a") + text("ip") + text("127.0.0.1")
                self.assertEqual((peer.ask(1, 107) or b"")[16:], ids)

    def test_several_reads_and_counts(self) -> None:
        """As a server of version 3.8.0 answers them."""
        self.start()
        for path in ("/a", "/a/b", "/a/b/c"):
            self.assertEqual(self.command(f"create {path} x"), "done")
        peer = self.connected()
        parts = [struct.pack(">i?i", kind, False, -1) + text(path) + b"\0" for kind, path in ((8, "/a"), (4, "/none"), (8, "/none"))]
        end, refused = struct.pack(">i?i", -1, True, -1), struct.pack(">i?ii", -1, False, -101, -101)
        names = struct.pack(">i?ii", 8, False, 0, 1) + text("b")
        self.assertEqual(peer.ask(1, 22, b"".join(parts) + end), struct.pack(">iqi", 1, 3, 0) + names + refused + refused + end)
        self.assertEqual((peer.ask(2, 22, end) or b"")[16:], end)
        data = peer.ask(3, 22, struct.pack(">i?i", 4, False, -1) + text("/a") + b"\0" + end) or b""
        self.assertEqual((data[16:30], data[98:]), (struct.pack(">i?i", 4, False, 0) + text("x"), end))
        self.assertEqual([(peer.ask(4, 104, text(path)) or b"")[16:] for path in ("/", "/a/b")], [struct.pack(">i", 3), struct.pack(">i", 1)])
        self.assertEqual(header(peer.ask(5, 104, text("/none"))), (5, 3, -101))

    def test_nodes_of_other_kinds(self) -> None:
        self.start()
        self.assertEqual(self.command("create /a x"), "done")
        peer, body = self.connected(), struct.pack(">i", -1) + OPEN_ACL
        for xid, (kind, path, flags, made) in enumerate(
            (
                (15, "/a/", struct.pack(">i", 3), "/a/0000000000"),
                (15, "/a/n", struct.pack(">i", 2), "/a/n0000000001"),
                (21, "/a/", struct.pack(">iq", 6, 1), "/a/0000000002"),
                (21, "/ttl", struct.pack(">iq", 5, 1), "/ttl"),
                (19, "/box", struct.pack(">i", 4), "/box"),
            )
        ):
            answer = peer.ask(xid + 1, kind, text(path) + body + flags) or b""
            self.assertEqual((header(answer)[2], answer[16 : 20 + len(made)], len(answer)), (0, text(made), 88 + len(made)))
        self.assertEqual((peer.ask(9, 103, text("/a")) or b"")[16:], struct.pack(">i", 1) + text("/a/0000000000"))
        self.assertEqual((peer.ask(10, 103, text("/b")) or b"")[16:], struct.pack(">i", 0))

    def test_a_sequential_ephemeral_node_goes_with_its_session(self) -> None:
        self.start()
        peer, other = self.connected(), self.connected()
        create = text("/n-") + struct.pack(">i", -1) + OPEN_ACL + struct.pack(">i", 3)
        self.assertEqual((peer.ask(1, 1, create) or b"")[16:], text("/n-0000000000"))
        self.assertEqual((peer.ask(2, 1, create) or b"")[16:], text("/n-0000000001"))
        self.assertEqual(header(other.ask(1, 12, text("/") + b"\1"))[2], 0)
        self.assertEqual(header(peer.ask(3, -11)), (3, 4, 0))
        self.assertIsNone(peer.heard())
        self.assertEqual((other.heard() or b"")[16:24], struct.pack(">ii", 4, 3))
        self.assertEqual((other.ask(2, 8, text("/") + b"\0") or b"")[16:], struct.pack(">i", 0))

    def test_watches_are_set_again(self) -> None:
        self.start()
        for path in ("/changed", "/same", "/gone"):
            self.command(f"create {path} x")
        for line in ("set /changed y", "delete /gone", "create /same/child"):
            self.command(line)
        peer = self.connected()
        three, one = struct.pack(">i", 3) + text("/changed") + text("/same") + text("/gone"), struct.pack(">i", 1)
        peer.send(struct.pack(">iiq", -8, 101, 3) + three + one + text("/same") + one + text("/same"))
        events = [(peer.heard() or b"")[16:] for _ in range(4)]
        told = [struct.pack(">ii", kind, 3) + text(path) for kind, path in
                ((3, "/changed"), (2, "/gone"), (1, "/same"), (4, "/same"))]  # fmt: skip
        self.assertEqual(events, told)
        self.assertEqual(header(peer.heard()), (-8, 6, 0))
        self.command("set /same z")
        self.assertEqual((peer.heard() or b"")[16:], struct.pack(">ii", 3, 3) + text("/same"))

    def test_drop_down_up_and_expire(self) -> None:
        self.start()
        peer = self.peer()
        first = peer.connect() or b""
        session, password = struct.unpack(">q", first[8:16])[0], first[16:36]
        self.assertEqual(self.command("drop"), "done")
        self.assertIsNone(peer.heard())
        self.assertEqual(self.command("down"), "done")
        with self.assertRaises(ConnectionError):
            self.peer()
        self.assertEqual(self.command("up"), "done")
        self.assertEqual(self.peer().connect(session=session, password=password), first)
        self.assertEqual(self.command("expire"), "done")
        self.assertEqual((self.peer().connect(session=session, password=password) or b"")[8:16], bytes(8))

    def test_what_came_while_mute_is_answered_behind_it(self) -> None:
        self.start()
        peer = self.connected()
        self.command("mute")
        peer.send(struct.pack(">ii", -2, 11))
        peer.connection.settimeout(0.1)
        with self.assertRaises(socket.timeout):
            peer.heard()
        peer.connection.settimeout(WAIT)
        self.command("unmute")
        self.assertEqual(header(peer.heard()), (-2, 0, 0))

    def test_a_connection_is_cut_after_so_many_bytes_that_were_sent(self) -> None:
        self.start()
        peer, other = self.connected(), self.connected()
        self.assertEqual(self.command("cut sent 25"), "done")
        self.assertEqual(header(other.ask(-2, 11)), (-2, 0, 0))  # 20 bytes
        peer.send(struct.pack(">ii", -2, 11))
        self.assertEqual(peer.take_bytes(5), struct.pack(">i", 16) + b"\xff")
        with self.assertRaises(ConnectionError):
            peer.take_bytes(1)
        self.assertEqual((self.command("spare"), self.command("connections")), ("done", "2"))
        self.assertEqual(header(other.ask(-2, 11)), (-2, 0, 0))

    def test_a_connection_is_cut_after_so_many_bytes_that_were_heard(self) -> None:
        self.start()
        peer = self.connected()
        self.assertEqual(self.command("cut heard 23"), "done")
        self.assertEqual(header(peer.ask(-2, 11)), (-2, 0, 0))  # 12 bytes
        self.assertIsNone(peer.ask(-2, 11))
        self.assertEqual((self.command("spare"), self.command("cut heard 0"), self.command("spare")), ("done", "done", "spared"))
        self.assertIsNotNone(self.peer().connect())

    def test_bytes_are_sent_by_pace(self) -> None:
        self.start()
        self.assertEqual(self.command("pace 7"), "done")
        peer = self.connected()
        self.assertEqual(header(peer.ask(-2, 11)), (-2, 0, 0))
        begun = time.monotonic()
        self.assertIsNotNone(peer.ask(1, 12, text("/") + b"\0"))  # 92 bytes, so 14 pieces
        self.assertGreater(time.monotonic() - begun, 0.013)
        self.assertEqual((header(peer.ask(2, -11)), peer.heard()), ((2, 0, 0), None))  # the reply, and then the end
        self.assertEqual([self.command(line) for line in ("pace 0", "pace", "cut sent", "cut both 1")],
                         ["done", "unknown: pace", "unknown: cut sent", "unknown: cut both 1"])  # fmt: skip

    def test_pieces_and_hostility(self) -> None:
        self.start("--piece", "1", "--hostile", "7")
        peer = self.connected()
        peer.send(struct.pack(">ii", -2, 11))
        peer.take_bytes(1)


if __name__ == "__main__":
    unittest.main()
