"""Tests of dirwolleu.kazoo, against the partner. The expected results are those of kazoo's documentation, or of kazoo 2.8."""

from __future__ import annotations

import contextlib
import doctest
import inspect
import logging
import os
import queue
import resource
import socket
import struct
import subprocess
import sys
import tempfile
import threading
import time
from collections.abc import Callable
from typing import Any, Optional
from unittest import mock

from support import CLIENTS, GET_DATA, TIMEOUT, WAIT, Partner, PartnerCase, Peer, data_reply, reply, within

from dirwolleu.kazoo import client, exceptions, security
from dirwolleu.kazoo import retry as retries
from dirwolleu.kazoo._asking import Ask
from dirwolleu.kazoo.client import KazooClient, KazooState, KeeperState, WatchedEvent
from dirwolleu.kazoo.exceptions import (
    BadArgumentsError,
    BadVersionError,
    ConfigurationError,
    ConnectionClosedError,
    ConnectionLoss,
    KazooException,
    NoAuthError,
    NodeExistsError,
    NoNodeError,
    NotEmptyError,
    ReconfigInProcessError,
    RolledBackError,
    RuntimeInconsistency,
    SessionExpiredError,
)
from dirwolleu.kazoo.handlers import threading as threads
from dirwolleu.kazoo.handlers import utils
from dirwolleu.kazoo.handlers.threading import AsyncResult, KazooTimeoutError, SequentialThreadingHandler
from dirwolleu.kazoo.hosts import collect_hosts
from dirwolleu.kazoo.protocol import paths, serialization, states
from dirwolleu.kazoo.protocol.connection import _CONNECTION_DROP, _SESSION_EXPIRED
from dirwolleu.kazoo.recipe import election, lock, party, watchers
from dirwolleu.kazoo.recipe.watchers import DataWatch
from dirwolleu.kazoo.retry import ForceRetryError, InterruptedError, KazooRetry, RetryFailedError
from dirwolleu.kazoo.security import CREATOR_ALL_ACL, OPEN_ACL_UNSAFE, make_acl, make_digest_acl


class KazooCase(PartnerCase):
    def setUp(self) -> None:
        self.server: Partner = self.partner()

    def client(self, root: str = "", kind: type[KazooClient] = KazooClient, **named: Any) -> KazooClient:
        client = self.unstarted(root, kind, **named)
        client.start(WAIT)
        return client

    def unstarted(self, root: str = "", kind: type[KazooClient] = KazooClient, **named: Any) -> KazooClient:
        words: dict[str, Any] = {"timeout": TIMEOUT, **named}
        client = kind(self.server.host + root, **words)
        self.addCleanup(client.close)
        self.addCleanup(client.stop)
        return client


class CallsTest(KazooCase):
    def test_nodes(self) -> None:
        zk = self.client()
        self.assertEqual(zk.create("/a/b", b"one", makepath=True), "/a/b")
        data, stat = zk.get("/a/b")
        self.assertEqual((data, stat.version, stat.dataLength, stat.owner_session_id), (b"one", 0, 3, None))
        self.assertEqual(zk.exists("/a/b"), stat)
        self.assertIsNone(zk.exists("/none"))
        self.assertEqual(zk.set("/a/b", b"two", version=0).version, 1)
        names, of_parent = zk.get_children("/a", include_data=True)
        self.assertEqual((names, of_parent, zk.get_children("a")), (["b"], zk.exists("/a"), ["b"]))
        path, made = zk.create("/a/c-", None, sequence=True, ephemeral=True, include_data=True)
        self.assertEqual(path, "/a/c-0000000001")
        assert zk.client_id is not None
        self.assertEqual((made.ephemeralOwner, made.owner_session_id), 2 * (zk.client_id[0],))
        self.assertTrue(zk.delete("/a/b"))
        self.assertTrue(zk.ensure_path("/a/d/e"))
        self.assertTrue(zk.ensure_path("/a/d/e"))
        self.assertTrue(zk.delete("/a", recursive=True))
        self.assertTrue(zk.delete("/a", recursive=True))
        self.assertEqual(zk.sync("/"), "/")

    def test_errors(self) -> None:
        zk = self.client()
        zk.ensure_path("/a/b")
        calls: list[tuple[Callable[[], object], type[KazooException], int]] = [
            (lambda: zk.get("/none"), NoNodeError, -101),
            (lambda: zk.create("/none/b"), NoNodeError, -101),
            (lambda: zk.create("/a"), NodeExistsError, -110),
            (lambda: zk.set("/a", b"", 7), BadVersionError, -103),
            (lambda: zk.delete("/a"), NotEmptyError, -111),
            (lambda: zk.get("/a\ue000"), BadArgumentsError, -8),
        ]
        for call, kind, code in calls:
            with self.raises(kind, code):
                call()
        self.assertTrue(issubclass(ConnectionClosedError, SessionExpiredError))
        with self.assertRaisesRegex(NoNodeError, "^no node: /none$") as caught:
            zk.get("/none")
        self.assertIsInstance(caught.exception, KazooException)

    def test_values_of_wrong_types(self) -> None:
        zk = self.client()
        bad: Any = 7
        calls: list[Callable[[], object]] = [
            lambda: zk.get(bad),
            lambda: zk.create("/a", bad),
            lambda: zk.create("/a", acl=OPEN_ACL_UNSAFE[0]),  # type: ignore[arg-type]
            lambda: zk.create("/a", ephemeral=bad),
            lambda: zk.set("/a", b"", "1"),  # type: ignore[arg-type]
            lambda: zk.get("/a", bad),
            lambda: zk.add_auth("digest", bad),
        ]
        for call in calls:
            with self.assertRaises(TypeError):
                call()
        with self.assertRaisesRegex(ValueError, "relative"):
            zk.get("/a/../b")

    def test_a_sequential_node_without_a_name(self) -> None:
        zk = self.client("/app")
        zk.ensure_path("/folder")
        self.assertEqual(zk.create("/folder/", b"x", sequence=True), "/folder/0000000000")
        path, made = zk.create("folder/", sequence=True, ephemeral=True, include_data=True)
        self.assertEqual((path, made.ephemeralOwner), ("/folder/0000000001", zk.client_id[0] if zk.client_id else None))
        self.assertEqual(zk.create("/new/box/", sequence=True, makepath=True), "/new/box/0000000000")
        self.assertEqual(zk.create("/", sequence=True), "/0000000002")
        with self.assertRaises(NoNodeError):
            zk.create("/none/", sequence=True)

    def test_acls(self) -> None:
        zk = self.client(default_acl=[make_digest_acl("bob", "secret", all=True)], auth_data=[("digest", "bob:secret")])
        zk.create("/one/two", b"", makepath=True)
        for path in ("/one", "/one/two"):
            acls, stat = zk.get_acls(path)
            self.assertEqual((acls, stat), ([make_digest_acl("bob", "secret", all=True)], zk.exists(path)))
        self.assertEqual(zk.set_acls("/one", [make_acl("x509", "CN=a", read=True, write=True)], 0).aversion, 1)
        self.assertTrue(zk.add_auth("digest", "eve:x"))
        self.assertIn(("digest", "eve:x"), zk.auth_data)
        zk.create("/open", b"", acl=OPEN_ACL_UNSAFE)
        self.assertEqual(zk.get_acls("/open")[0], OPEN_ACL_UNSAFE)
        zk.create("/eves", b"", acl=CREATOR_ALL_ACL)

    def test_transactions(self) -> None:
        self.client().ensure_path("/app")
        zk = self.client("/app")
        with zk.transaction() as done:
            done.create("/a", b"1")
            done.set_data("/a", b"2", 0)
            done.check("/a", 1)
            done.create("/b-", ephemeral=True, sequence=True)
            done.delete("/a", 1)
        self.assertEqual(zk.get_children("/"), ["b-0000000001"])
        again = zk.transaction()
        again.create("/a")
        self.assertEqual([again.operations[0].path, again.commit()], ["/a", ["/a"]])
        with self.assertRaises(ValueError):
            again.commit()
        with self.assertRaises(ValueError):
            again.delete("/a")
        refused = zk.transaction()
        refused.create("/c")
        refused.check("/a", 7)
        refused.delete("/a")
        kinds = [type(result) for result in refused.commit()]
        self.assertEqual(kinds, [RolledBackError, BadVersionError, RuntimeInconsistency])
        self.assertIsNone(zk.exists("/c"))

    def test_async_results(self) -> None:
        zk = self.client()
        told: list[Any] = []
        result = zk.create_async("/a/b", b"x", makepath=True)
        result.rawlink(told.append)
        self.assertEqual(result.get(timeout=WAIT), "/a/b")
        self.assertEqual((result.ready(), result.successful(), result.value, result.exception), (True, True, "/a/b", None))
        within(lambda: told == [result])
        names: list[str] = []
        result.rawlink(lambda _: names.append(threading.current_thread().name))
        within(lambda: names == ["kazoo-completions"])
        failed = zk.get_async("/none")
        self.assertTrue(failed.wait(WAIT))
        self.assertEqual((failed.successful(), type(failed.exception)), (False, NoNodeError))
        with self.assertRaises(NoNodeError):
            failed.get_nowait()
        self.server.do("mute")
        with self.assertRaises(KazooTimeoutError):
            zk.get_async("/a").get(timeout=0.05)
        with self.assertRaises(KazooTimeoutError):
            zk.get_async("/a").get_nowait()
        self.server.do("unmute")

    def test_a_chroot_and_hosts(self) -> None:
        with self.assertWarnsRegex(UserWarning, "No chroot path exists"):
            zk = self.client("/app/")
        zk.ensure_path("/")
        zk.create("/a")
        self.assertEqual((zk.chroot, zk.unchroot("/app/a"), zk.get_children("/")), ("/app", "/a", ["a"]))
        self.assertEqual(self.client().get_children("/app"), ["a"])
        with self.assertRaises(ConfigurationError):
            zk.set_hosts("127.0.0.1:1")
        zk.set_hosts(["127.0.0.1:1", "[::1]", "/app"])
        self.assertEqual(zk.hosts, [("127.0.0.1", 1), ("::1", 2181)])


class StatesTest(KazooCase):
    is_long = True

    def test_states_and_listeners(self) -> None:
        zk = self.unstarted()
        states: list[str] = []
        once: list[str] = []
        zk.add_listener(states.append)

        def told_once(state: str) -> bool:
            once.append(state)
            return True

        zk.add_listener(told_once)
        zk.add_listener(mock.Mock(side_effect=[KeyError, True]))
        self.assertEqual((zk.state, zk.client_state, zk.connected, zk.client_id), ("LOST", "CLOSED", False, None))
        with self.assertLogs("dirwolleu.kazoo.client", logging.ERROR):
            zk.start(WAIT)
            within(lambda: states)
        self.assertEqual((zk.state, zk.client_state, zk.connected), (KazooState.CONNECTED, KeeperState.CONNECTED, True))
        self.server.do("drop")
        within(lambda: len(states) == 3)
        self.server.do("expire")
        within(lambda: len(states) == 6)
        zk.stop()
        self.assertEqual(
            states, ["CONNECTED", "SUSPENDED", "CONNECTED", "SUSPENDED", "LOST", "CONNECTED", "LOST"]
        )
        self.assertEqual((once, zk.client_state), (["CONNECTED"], "CLOSED"))
        with self.assertRaises(ConfigurationError):
            zk.add_listener(None)  # type: ignore[arg-type]

    def test_a_client_that_is_not_started(self) -> None:
        zk = self.unstarted()
        for _ in range(2):
            with self.assertRaises(ConnectionClosedError):
                zk.get("/")
            zk.stop()
            zk.close()
            zk.start(WAIT)
            self.assertEqual(zk.get_children("/"), [])
            with self.assertRaises(KazooException):
                zk.close()
            zk.stop()
            zk.close()

    def test_no_server(self) -> None:
        zk = KazooClient("127.0.0.1:1", timeout=1.0)
        begin = time.monotonic()
        with self.assertRaisesRegex(KazooTimeoutError, "connection refused"):
            zk.start(10.0)  # also on a busy machine that time is enough for an attempt
        self.assertLess(time.monotonic() - begin, WAIT)
        with self.assertRaises(ConnectionClosedError):
            zk.get("/")

    def test_a_server_that_accepts_no_session_is_left(self) -> None:
        def serve(peer: Peer) -> None:
            peer.take_payload()
            time.sleep(9 * WAIT)

        silent = self.raw_server(serve)
        zk = KazooClient([silent.host, self.server.host], timeout=3.0, randomize_hosts=False)
        self.addCleanup(zk.stop)
        begin = time.monotonic()
        zk.start(WAIT)
        self.assertTrue(1.999 < time.monotonic() - begin < WAIT)

    def test_old_names_of_errors(self) -> None:
        self.assertIs(exceptions.NoNodeException, exceptions.EXCEPTIONS[-101])
        self.assertIs(exceptions.ConnectionLossException, exceptions.EXCEPTIONS[-4])
        with self.assertRaises(RuntimeError):
            exceptions.EXCEPTIONS[666]

    def test_hosts_of_a_text_and_of_a_list(self) -> None:
        wanted = [("10.0.0.1", 2181), ("fe80::1", 2182)]
        self.assertEqual(collect_hosts("10.0.0.1, [fe80::1]:2182"), (wanted, None))
        self.assertEqual(collect_hosts("10.0.0.1,[fe80::1]:2182/app"), (wanted, "/app"))
        self.assertEqual(collect_hosts(["10.0.0.1", "[fe80::1]:2182", "/app"]), (wanted, "/app"))
        self.assertEqual(collect_hosts(["10.0.0.1:2181", "[fe80::1]:2182"]), (wanted, None))
        with self.assertRaises(ValueError):
            collect_hosts("10.0.0.1,:2181")

    def test_start_async(self) -> None:
        zk = self.unstarted()
        event = zk.start_async()
        self.assertTrue(event.wait(WAIT))
        self.assertIs(zk.start_async(), event)

    def test_calls_in_flight(self) -> None:
        zk = self.client()
        self.server.do("mute")
        lost = zk.set_async("/", b"x")
        within(lambda: zk._session is not None and zk._session.stats().in_flight)
        self.server.do("drop")
        with self.assertRaises(ConnectionLoss):
            lost.get(timeout=WAIT)
        within(lambda: not zk.connected)
        waits = zk.get_async("/")  # as in kazoo, a call waits for the next connection
        self.assertFalse(waits.wait(0.05))
        self.server.do("unmute")
        self.assertEqual(waits.get(timeout=WAIT)[1], zk.exists("/"))

    def test_a_session_that_is_taken_up(self) -> None:
        zk = self.client()
        zk.create("/mine", ephemeral=True)
        identity = zk.client_id
        assert zk._session is not None
        zk._session.close()  # without an end of the session
        other = self.client(client_id=identity)
        self.assertEqual(other.client_id, identity)
        self.assertIsNotNone(other.exists("/mine"))

    def test_restart_with_another_timeout(self) -> None:
        self.await_farewells()
        zk = self.client()
        zk.create("/mine", ephemeral=True)
        first, zxid = zk.client_id, zk.last_zxid
        zk._session_timeout = 8000  # as patroni sets it
        zk.restart()
        self.assertNotEqual(zk.client_id, first)
        self.assertGreaterEqual(zk.last_zxid, zxid)
        self.assertEqual((zk._granted_timeout(), zk.exists("/mine")), (8.0, None))

    def test_refused_credentials(self) -> None:
        zk, events = self.client(), queue.Queue[WatchedEvent]()
        zk.exists("/a", events.put)
        with self.assertRaises(exceptions.AuthFailedError):
            zk.add_auth("none", "x")
        within(lambda: zk.client_state == KeeperState.AUTH_FAILED and zk.state == KazooState.LOST)
        self.assertEqual(events.get(timeout=WAIT), (states.EventType.NONE, KeeperState.AUTH_FAILED, None))
        with self.assertRaises(exceptions.AuthFailedError):
            zk.get("/")
        refused = self.unstarted(auth_data=[("none", "x")])
        with contextlib.suppress(exceptions.AuthFailedError):
            refused.start(WAIT)  # the session is accepted first, as in kazoo
        within(lambda: refused.client_state in (KeeperState.AUTH_FAILED, KeeperState.CLOSED))

    def test_credentials_that_are_refused_at_a_reconnect(self) -> None:
        refuses, told, at_error = threading.Event(), queue.Queue[str](), list[str]()

        def serve(peer: Peer) -> None:
            for asked in peer.requests():
                if asked.kind == 100 and refuses.is_set():
                    peer.send(struct.pack(">iqi", -4, 0, -115))
                    return peer.finish()
                if b"/cut" in asked.body:
                    return
                peer.send(data_reply(asked, b"one") if asked.kind == GET_DATA else reply(asked))

        server = self.raw_server(serve)
        zk = self.unstarted(auth_data=[("digest", "bob:secret")])
        zk.set_hosts(server.host)
        zk.start(WAIT)
        self.assertEqual(zk.get("/a")[0], b"one")  # after the answer to the credentials, for which `start` does not wait
        zk.add_listener(told.put)
        refuses.set()
        waits = zk.get_async("/cut")
        waits.relay(lambda _: at_error.append(zk.client_state))
        gets: list[Callable[[], Any]] = [waits.get, lambda: zk.get("/a")]
        for get in gets:
            with self.raises(exceptions.AuthFailedError, -115):
                get()
        self.assertEqual((at_error, zk.client_state), ([KeeperState.AUTH_FAILED], KeeperState.AUTH_FAILED))
        self.assertEqual([told.get(timeout=WAIT) for _ in range(3)], [KazooState.SUSPENDED, KazooState.CONNECTED, KazooState.LOST])
        time.sleep(1.2)
        self.assertEqual(len(server.dials), 2)
        refuses.clear()
        zk.start(WAIT)
        self.assertEqual(zk.get("/a")[0], b"one")

    def test_a_policy_for_connections_that_is_used_up(self) -> None:
        zk = self.client(connection_retry={"max_tries": 2, "delay": 0.01})
        self.server.do("down")
        within(lambda: zk.client_state == KeeperState.CLOSED)
        with self.assertRaises(ConnectionClosedError):
            zk.get("/")
        self.server.do("up")
        zk.start(WAIT)
        self.assertEqual(zk.get_children("/"), [])


class KeywordsTest(KazooCase):
    is_long = True

    def test_what_is_not_done_is_named(self) -> None:
        keywords: list[tuple[type[Exception], dict[str, Any]]] = [
            (ConfigurationError, {"sasl_options": {"mechanism": "GSSAPI"}}),
            (ConfigurationError, {"read_only": True}),
            (ConfigurationError, {"sasl_options": {"mechanism": "DIGEST-MD5", "username": "a"}}),
            (ConfigurationError, {"handler": SequentialThreadingHandler}),
            (ConfigurationError, {"connection_retry": 7}),
            (ConfigurationError, {"command_retry": KazooRetry(sleep_func=lambda _: None)}),
            (TypeError, {"retry_sometimes": 3}),
        ]
        for kind, named in keywords:
            with self.subTest(named), self.assertRaisesRegex(kind, next(iter(named))):
                self.unstarted(**named)
        zk = self.client(read_only=False)
        with self.assertRaisesRegex(TypeError, "ignore_missing_node"):
            DataWatch(zk, "/", ignore_missing_node=True)

    def test_old_keywords_of_a_policy(self) -> None:
        zk = self.unstarted(max_retries=3, retry_delay=0.5)
        for policy in (zk._retry, zk._conn_retry):
            self.assertEqual((policy.max_tries, policy.delay, policy.sleep_func), (3, 0.5, zk.handler.sleep_func))
        self.assertEqual(self.unstarted(max_retries=3, command_retry={"max_tries": 5})._retry.max_tries, 5)

    def test_a_chroot_that_is_set(self) -> None:
        zk = self.unstarted()
        zk.chroot = "app"
        self.assertEqual((zk.chroot, zk.unchroot("/app/b"), zk.unchroot("/app"), zk.unchroot("/b")), ("/app", "/b", "/", "/b"))
        with self.assertWarnsRegex(UserWarning, "chroot"):
            zk.start(WAIT)
        with self.assertRaisesRegex(ConfigurationError, "chroot"):
            zk.chroot = ""

    def test_reconfig_is_asked_over_a_session_of_its_own(self) -> None:
        asked: list[Any] = []
        stat = struct.pack(">qqqqiiiqiiq", 1, 2, 3, 4, 5, 6, 7, 8, 9, 10, 11)

        def serve(peer: Peer) -> None:
            for one in peer.requests():
                asked.append((one.kind, one.body))
                code = {100: 0, -11: 0, 3: -101}.get(one.kind, outcome[0])
                body = struct.pack(">i", 3) + b"new" + stat if one.kind == 16 and not code else b""
                peer.send(reply(one, body, code))

        outcome = [0]
        zk = KazooClient(self.raw_server(serve).host, TIMEOUT, auth_data=[("digest", "super:x")])
        self.addCleanup(zk.stop)
        zk.start(WAIT)
        self.assertEqual(zk.reconfig("server.4=a:1:2;3", None, None, 256), (b"new", states.ZnodeStat(*range(1, 12))))
        joining = struct.pack(">i", 16) + b"server.4=a:1:2;3"
        request = (16, joining + struct.pack(">iiq", -1, -1, 256))
        within(lambda: asked[-1][0] == -11)
        self.assertEqual(asked[-3:-1], [(100, struct.pack(">ii", 0, 6) + b"digest" + struct.pack(">i", 7) + b"super:x"), request])
        for outcome[0], kind in ((-102, NoAuthError), (-8, BadArgumentsError), (-103, BadVersionError), (-14, ReconfigInProcessError)):
            with self.assertRaises(kind):
                zk.reconfig(None, "4", None)
        bad: Any = 7
        with self.assertRaises(TypeError):
            zk.reconfig(bad, None, None)
        zk.stop()
        with self.assertRaises(ConnectionLoss):
            zk.reconfig(None, "4", None)

    def test_what_harnesses_ask_for(self) -> None:
        zk = self.client()
        told: list[str] = []
        zk.add_listener(told.append)
        zk._call(_CONNECTION_DROP, None)  # type: ignore[arg-type]
        within(lambda: told == ["SUSPENDED", "CONNECTED"])

    def test_a_harness_ends_a_session_at_its_server(self) -> None:
        taken = []

        def serve(peer: Peer) -> None:
            connected = peer.admit()
            one = peer.take()
            taken.append((connected.session, one.xid, one.kind))
            peer.finish()

        zk = KazooClient(self.raw_server(serve).host, TIMEOUT)
        self.addCleanup(zk.stop)
        zk.start(WAIT)
        zk._call(_SESSION_EXPIRED, None)  # type: ignore[arg-type]
        within(lambda: (7, 0, -11) in taken)

    def test_tls_by_files(self) -> None:
        with mock.patch("dirwolleu.kazoo.client.tls_context") as context:
            zk = KazooClient(use_ssl=True, ca="ca", certfile="c", keyfile="k", keyfile_password="p", verify_certs=False)
            self.assertIs(zk._tls(), context.return_value)
        context.assert_called_once_with(
            ca="ca", certfile="c", keyfile="k", keyfile_password="p", verify_certs=False, check_hostname=False
        )

    def test_each_dial_goes_through_the_handler(self) -> None:
        class Handler(SequentialThreadingHandler):
            asked: list[Any] = []

            def create_connection(self, *args: Any, **kwargs: Any) -> Any:
                self.asked.append((args, kwargs))
                return super().create_connection(*args, **kwargs)

        zk = self.client(handler=Handler(), timeout=70.0)
        port = int(self.server.host.rpartition(":")[2])
        self.assertEqual(Handler.asked, [((), {"address": ("127.0.0.1", port), "timeout": 70.0})])
        self.server.do("drop")
        within(lambda: len(Handler.asked) == 2 and zk.connected)

    def test_the_version_of_a_server(self) -> None:
        answers = {b"envi": b"not in the whitelist", b"srvr": b"Zookeeper version: 3.8.0-1--1, built on x\nMode: standalone\n"}

        def serve(peer: Peer) -> None:
            word = peer.take_bytes(4)
            if word in answers:
                peer.send_bytes(answers[word])
                return
            peer.take_bytes(int.from_bytes(word, "big"))
            peer.send(bytes(4) + (60_000).to_bytes(4, "big") + (7).to_bytes(8, "big") + (16).to_bytes(4, "big") + bytes(17))
            peer.take()

        server = self.raw_server(serve)
        zk = KazooClient(server.host, timeout=TIMEOUT)  # the server ends the connection at the first ping
        self.addCleanup(zk.stop)
        zk.start(WAIT)
        self.assertEqual(zk.server_version(), (3, 8, 0))
        answers[b"envi"] = b"Environment:\nzookeeper.version=3.4.13-2, built on x\n"
        self.assertEqual(zk.server_version(), (3, 4, 13))
        answers.update({b"envi": b"", b"srvr": b""})
        with self.assertRaises(KazooException):
            zk.server_version(retries=0)


class HandlersTest(PartnerCase):
    """The parts of handlers that programs use."""

    def test_more_descriptors_than_select_takes(self) -> None:
        handler = SequentialThreadingHandler()
        reads, writes = handler.create_socket_pair()
        self.addCleanup(reads.close)
        self.addCleanup(writes.close)
        self.assertEqual(handler.select([reads], [writes], [], 0), ([], [writes], []))
        writes.sendall(b"x")
        self.assertEqual(handler.select([reads.fileno()], [], [], WAIT), ([reads.fileno()], [], []))
        limits = resource.getrlimit(resource.RLIMIT_NOFILE)
        high = 1500
        if limits[1] != resource.RLIM_INFINITY and limits[1] <= high:
            self.skipTest("a process may have no descriptor above 1,024")
        resource.setrlimit(resource.RLIMIT_NOFILE, (max(limits[0], high + 1), limits[1]))
        self.addCleanup(resource.setrlimit, resource.RLIMIT_NOFILE, limits)
        os.dup2(reads.fileno(), high)
        self.addCleanup(os.close, high)
        self.assertEqual(handler.select([high], [], [], WAIT), ([high], [], []))

    def test_connections(self) -> None:
        listener = socket.create_server(("127.0.0.1", 0))
        self.addCleanup(listener.close)
        with utils.create_tcp_connection(socket, listener.getsockname(), WAIT) as connection:
            self.assertTrue(connection.getsockopt(socket.IPPROTO_TCP, socket.TCP_NODELAY))
        for timeout in (0, -1):
            with self.assertRaisesRegex(OSError, f"within {timeout} seconds"):
                utils.create_tcp_connection(socket, listener.getsockname(), timeout)

    def test_results_of_functions(self) -> None:
        handler = SequentialThreadingHandler()
        returned, raised = handler.async_result(), handler.async_result()
        self.assertEqual(utils.wrap(returned)(len)("seventh"), 7)
        self.assertEqual(returned.get(), 7)
        self.assertIsNone(utils.wrap(raised)(lambda: 1 // 0)())
        self.assertRaises(ZeroDivisionError, raised.get)


class InternalsTest(KazooCase):
    """The internals that patroni uses."""

    is_long = True

    def test_a_client_that_does_not_queue(self) -> None:
        class Impatient(KazooClient):
            def _call(self, request: Ask, async_object: AsyncResult) -> Optional[bool]:
                if self._state == KeeperState.CONNECTING:
                    async_object.set_exception(SessionExpiredError())
                    return False
                return super()._call(request, async_object)

        zk = self.client(kind=Impatient)
        self.server.do("down")
        within(lambda: not zk.connected)
        calls: list[Callable[[], object]] = [
            lambda: zk.get("/"),
            lambda: zk.create("/a/b", makepath=True),
            lambda: zk.ensure_path("/a"),
            lambda: zk.transaction().commit(),
        ]
        for call in calls:
            with self.assertRaises(SessionExpiredError):
                call()
        self.server.do("up")
        self.assertEqual(zk.retry(zk.get_children, "/"), [])

    def test_a_smaller_read_timeout(self) -> None:
        zk = self.unstarted(timeout=30.0)
        connect = zk._connection._connect
        connection: Any = zk._connection
        connection._connect = lambda *words: (12_000, connect(*words)[1])  # as patroni does
        zk.start(WAIT)
        time.sleep(3.4)
        assert zk._session is not None
        self.assertEqual((zk.connected, zk._session.stats().connections), (True, 1))
        self.server.do("mute")
        begin = time.monotonic()
        within(lambda: not zk.connected)
        self.assertLess(time.monotonic() - begin, WAIT)
        self.server.do("unmute")
        within(lambda: zk.connected)

    def test_the_socket(self) -> None:
        zk = self.client()
        self.assertEqual(zk._connection._socket.getpeername()[1], int(self.server.host.rpartition(":")[2]))
        identity, states = zk.client_id, list[str]()
        zk.add_listener(states.append)
        zk._connection._socket.close()
        within(lambda: states == ["SUSPENDED", "CONNECTED"])
        self.assertEqual(zk.client_id, identity)

    def test_the_deadline_of_the_retry(self) -> None:
        zk = self.client(command_retry=KazooRetry(max_tries=-1, deadline=30.0, max_delay=1))
        zk._retry.deadline = 0.2
        with self.assertRaises(RetryFailedError):
            zk.retry(mock.Mock(side_effect=ConnectionLoss))


class LostCreatesTest(PartnerCase):
    """The answer to each create is lost, once it has happened."""

    def setUp(self) -> None:
        self.made: list[str] = []

        def serve(peer: Peer) -> None:
            for one in peer.requests():
                if one.kind in (1, 15):
                    length = int.from_bytes(one.body[:4], "big")
                    self.made.append(f"{one.body[4:4 + length].decode()}{len(self.made):010}")
                    return
                names = b"".join(struct.pack(">i", len(name) - 1) + name[1:].encode() for name in self.made)
                bodies = {9: one.body, 12: struct.pack(">i", len(self.made)) + names + bytes(68)}
                peer.send(reply(one, bodies.get(one.kind, b"")))

        self.zk = KazooClient(self.raw_server(serve).host, TIMEOUT)
        self.addCleanup(self.zk.stop)
        self.zk.start(WAIT)

    def test_a_policy_makes_one_sequential_node_and_not_two(self) -> None:
        keywords: list[dict[str, bool]] = [{}, {"ephemeral": True}, {"makepath": True}, {"include_data": True}]
        for named in keywords:
            self.made.clear()
            with self.subTest(named), self.assertRaises(ConnectionLoss):
                self.zk.retry(self.zk.create, "/a-", sequence=True, **named)
            self.assertEqual(self.made, ["/a-0000000000"])

    def test_a_node_with_a_tag_is_found_again(self) -> None:
        made = self.zk.create("/a-", b"", sequence=True, protect=True)
        self.assertEqual([made], self.made)
        self.assertRegex(made, r"^/_c_[0-9a-f-]{36}-a-0000000000$")
        with self.assertRaises(ConfigurationError):
            self.zk.create("/b/a-", makepath=True, protect=True)


class RetryTest(KazooCase):
    def setUp(self) -> None: ...

    def test_what_is_called_again(self) -> None:
        for error, tries in (
            (ConnectionLoss, 3),
            (exceptions.OperationTimeoutError, 3),
            (ForceRetryError, 3),
            (SessionExpiredError, 3),
            (ConnectionClosedError, 1),
            (NoNodeError, 1),
        ):
            with self.subTest(error.__name__):
                function = mock.Mock(side_effect=[error, error, "done"])
                retry = KazooRetry(max_tries=2, delay=0.001)
                if tries == 3:
                    self.assertEqual(retry(function, 1, two=2), "done")
                else:
                    self.assertRaises(error, retry, function)
                self.assertEqual(function.call_count, tries)

    def test_where_it_ends(self) -> None:
        for tries, retry in (
            (2, KazooRetry(max_tries=1, delay=0.001)),
            (1, KazooRetry(max_tries=0)),
            (1, KazooRetry(max_tries=-1, deadline=0)),
        ):
            function = mock.Mock(side_effect=ConnectionLoss)
            with self.assertRaises(RetryFailedError):
                retry(function)
            self.assertEqual(function.call_count, tries)
        self.assertRaises(SessionExpiredError, KazooRetry(ignore_expire=False), mock.Mock(side_effect=SessionExpiredError))
        self.assertRaises(InterruptedError, KazooRetry(interrupt=lambda: True), mock.Mock(side_effect=ConnectionLoss))

    def test_pauses(self) -> None:
        slept: list[float] = []
        retry = KazooRetry(max_tries=4, delay=1, max_jitter=0, max_delay=3, sleep_func=slept.append)
        for _ in range(2):
            with self.assertRaises(RetryFailedError):
                retry.copy()(mock.Mock(side_effect=ConnectionLoss))
        self.assertEqual(slept, 2 * [1, 2, 3, 3])

    def test_paths(self) -> None:
        self.assertEqual(paths.join("/a", "b", "/c", "d"), "/c/d")
        self.assertEqual([paths.normpath(path) for path in ("//a//b/", "/", "", "a/")], ["/a/b", "/", "", "a"])
        self.assertEqual((paths.basename("/a/b"), paths.isabs("a"), paths.own_path("a")), ("b", False, "/a"))
        self.assertRaises(ValueError, paths.normpath, "/a/./b")


class DocsTest(KazooCase):
    def setUp(self) -> None: ...

    def test_prompts(self) -> None:
        for module in (paths, security):
            outcome = doctest.testmod(module)
            self.assertEqual((outcome.failed, outcome.attempted > 0), (0, True))

    def test_each_public_name_says_what_it_is(self) -> None:
        for module in (client, exceptions, election, lock, party, watchers, threads, retries, states, serialization):
            for name, found in vars(module).items():
                if inspect.isclass(found) and found.__module__ == module.__name__ and not name.startswith("_"):
                    parts = [part for own, part in vars(found).items() if inspect.isfunction(part) and own[0] != "_"]
                    self.assertTrue(all(part.__doc__ for part in [found, *parts]), name)


class InstallTest(KazooCase):
    def setUp(self) -> None: ...

    def run_program(self, lines: str, *words: str) -> str:
        with tempfile.NamedTemporaryFile("w", suffix=".py") as program:
            program.write(lines)
            program.flush()
            command = [sys.executable, *(words or ("-m", "dirwolleu.kazoo")), program.name, "word"]
            done = subprocess.run(command, cwd=CLIENTS / "python", capture_output=True, text=True, timeout=6 * WAIT)
        self.assertEqual(done.stderr, "")
        return done.stdout

    def test_a_program_runs_unchanged(self) -> None:
        lines = (
            "import sys, kazoo.client, kazoo.recipe.lock\nfrom kazoo.protocol import paths\n"
            "try:\n    import kazoo.interfaces\nexcept ImportError as error:\n    print(error)\n"
            "print(__name__, sys.argv[1:], kazoo.client.KazooClient.__module__, paths.join('a', 'b'))\n"
        )
        printed = self.run_program(lines)
        absent = "No module named 'kazoo.interfaces'"
        self.assertEqual(printed, f"{absent}\n__main__ ['word'] dirwolleu.kazoo.client a/b\n")

    def test_after_an_import_of_kazoo(self) -> None:
        lines = (
            "import sys, types\nsys.path.insert(0, '.')\nimport dirwolleu.kazoo\nsys.modules['kazoo'] = types.ModuleType('kazoo')\n"
            "try:\n    dirwolleu.kazoo.install()\nexcept ImportError as error:\n    print(error)\n"
        )
        self.assertEqual(
            self.run_program(lines, "-B"), "kazoo was imported before dirwolleu.kazoo.install() was called\n"
        )
