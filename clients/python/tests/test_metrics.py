"""Tests of what a client reports to its observers, and of the page for Prometheus."""

from __future__ import annotations

import asyncio
import re
import signal
import subprocess
import sys
import urllib.request
from typing import Any

from both import in_thread
from support import CLIENTS, LIMIT, TIMEOUT, WAIT, PartnerCase, Peer, let_pass, reply, within

import dirwolleu
from dirwolleu import aio
from dirwolleu.exceptions import CallTimeoutError, NoNodeError
from dirwolleu.metrics import CallEvent, ConnectionEvent, Metrics, Observation, Transfer

SAMPLE = re.compile(r"dirwolleu_[a-z_]+(?:\{[a-z]+=\"[^\"]*\"(?:,[a-z]+=\"[^\"]*\")*\})? (?:[0-9.e+-]+)")


def samples(page: str) -> dict[str, float]:
    """The samples of a page, each line of which has to be one as the format 0.0.4 of Prometheus says, of a series that has its type."""
    found: dict[str, float] = {}
    types: dict[str, str] = {}
    for line in page.splitlines():
        if line.startswith("# TYPE "):
            _, _, name, kind = line.split()
            types[name] = kind
        elif not line.startswith("# HELP "):
            assert SAMPLE.fullmatch(line), line
            name, _, number = line.rpartition(" ")
            series = name.partition("{")[0]
            of = re.sub("_(bucket|sum|count)$", "", series)
            assert series in types or types.get(of) == "histogram", line
            found[name] = float(number)
    return found


def observed(client: dirwolleu.Client, kind: type) -> list[Any]:
    """The reports of a client of this kind from now on."""
    told: list[Any] = []

    def take(one: Observation) -> None:
        if isinstance(one, kind):
            told.append(one)

    client.observe(take)
    return told


class MetricsTest(PartnerCase):
    def client(self, host: str, **named: Any) -> dirwolleu.Client:
        client = dirwolleu.Client(host, TIMEOUT, **named)
        self.addCleanup(client.close)
        self.addCleanup(client.stop)
        return client

    def test_calls_and_bytes(self) -> None:
        client, told = self.client(self.partner().host), list[Any]()
        client.observe(told.append)
        client.start(WAIT)
        client.create("/a", b"one")
        client.get("/a")
        client.get_children("/")
        client.sync("/a")
        client.get_acls("/a")
        with client.transaction() as transaction:
            transaction.set_data("/a", b"two")
        with self.assertRaises(NoNodeError):
            client.delete("/none")
        with self.assertRaises(dirwolleu.exceptions.TooLargeError):
            client.set("/a", bytes(1_100_000))
        calls = [one for one in told if isinstance(one, CallEvent)]
        self.assertEqual(
            [(one.kind, one.outcome, one.path, one.code) for one in calls],
            [
                ("create", "ok", "/a", 0),
                ("get", "ok", "/a", 0),
                ("children", "ok", "/", 0),
                ("sync", "ok", "/a", 0),
                ("acl", "ok", "/a", 0),
                ("transaction", "ok", "/a", 0),
                ("delete", "refused", "/none", -101),
                ("set", "not_asked", "/a", 0),
            ],
        )
        self.assertTrue(all(0 < one.seconds < WAIT for one in calls))
        self.assertEqual(calls[-1].zxid, client.last_zxid)
        self.assertEqual({one.direction for one in told if isinstance(one, Transfer) and one.size > 0}, {"in", "out"})

    def test_connections(self) -> None:
        partner = self.partner()
        client = self.client(partner.host)
        told = observed(client, ConnectionEvent)
        client.start(WAIT)
        first = client.session_id
        partner.do("drop")
        within(lambda: len(told) == 3)
        partner.do("expire")
        within(lambda: len(told) >= 6 and client.connected)
        session = client.session_id
        client.stop()
        found = [(one.kind, one.reason, one.session_id) for one in told if one.kind != "failed"]
        self.assertEqual(found[:3], [("connected", "", first), ("over", "ended", first), ("connected", "", first)])
        self.assertIn(("expired", "", first), found)
        self.assertEqual(found[-2:], [("connected", "", session), ("over", "closed", session)])
        self.assertTrue(told[0].server.startswith("127.0.0.1:"))

    def ended(self, serve: Any, **named: Any) -> str:
        """Why the first connection to a server is over."""
        client = self.client(self.raw_server(serve).host, **named)
        told = observed(client, ConnectionEvent)
        in_thread(lambda: client.start(WAIT))
        return str(within(lambda: [one.reason for one in told if one.kind == "over"])[0])

    def test_why_a_connection_is_over(self) -> None:
        def garbles(peer: Peer) -> None:
            peer.admit()
            peer.send_bytes(b"\xff" * 8)
            peer.finish()

        def refuses(peer: Peer) -> None:
            peer.admit()
            peer.send(reply(peer.take(), code=-115))
            peer.finish()

        def is_gone(peer: Peer) -> None:
            peer.admit()

        self.assertEqual(self.ended(garbles), "unreadable")
        self.assertEqual(self.ended(refuses, auth_data=[("digest", "a:b")]), "credentials_refused")
        self.assertEqual(self.ended(is_gone), "ended")

    def test_calls_without_an_answer(self) -> None:
        def serve(peer: Peer) -> None:
            peer.admit()
            while True:
                peer.take()

        server = self.raw_server(serve)
        client = self.client(server.host)
        told = observed(client, CallEvent)
        client.start(WAIT)
        call = in_thread(lambda: client.get("/", timeout=LIMIT))
        within(lambda: client.stats().in_flight)
        let_pass(client, LIMIT)
        with self.assertRaises(CallTimeoutError) as caught:
            call.result()
        self.assertTrue(caught.exception.was_sent)
        client.stop()
        self.assertIn(("get", "late"), [(one.kind, one.outcome) for one in told])

    def test_the_page(self) -> None:
        partner = self.partner()
        client = self.client(partner.host)
        metrics = Metrics(client)
        self.assertNotIn("dirwolleu_age_seconds ", metrics.text())
        client.start(WAIT)
        client.create("/ab", b"12345")
        follower = client.follow("/ab")
        self.assertEqual(next(follower).data, b"12345")
        children = client.follow_children("/")
        next(children)
        with client.tree("/ab") as tree:
            tree.wait(WAIT)
            found = samples(metrics.text())
        self.assertEqual(found["dirwolleu_connections_total"], 1)
        self.assertEqual(found["dirwolleu_sessions_lost_total"], 0)
        self.assertEqual(found['dirwolleu_calls_total{kind="create",outcome="ok"}'], 1)
        self.assertEqual([found[f'dirwolleu_followed{{kind="{kind}"}}'] for kind in ("node", "children", "tree")], [1, 1, 1])
        names = sum(len(name) for name in client.get_children("/"))
        self.assertEqual(found["dirwolleu_kept_bytes"], len("/ab12345") + len("/") + names + len("/ab12345"))
        self.assertGreaterEqual(found["dirwolleu_age_seconds"], 0)
        self.assertGreater(found['dirwolleu_bytes_total{direction="in"}'], 0)
        bucket = 'dirwolleu_call_seconds_bucket{kind="create",le='
        counts = [count for name, count in found.items() if name.startswith(bucket)]
        self.assertEqual((counts, len(counts), counts[-1]), (sorted(counts), 14, 1))
        self.assertEqual(found['dirwolleu_call_seconds_count{kind="create"}'], 1)
        self.assertGreater(found['dirwolleu_call_seconds_sum{kind="create"}'], 0)

    def test_a_page_is_scraped(self) -> None:
        partner = self.partner()
        command = [sys.executable, str(CLIENTS / "python/examples/metrics.py"), partner.host, "/"]
        with subprocess.Popen(command, stdout=subprocess.PIPE, text=True) as program:
            try:
                assert program.stdout is not None
                address, told = program.stdout.readline().strip(), program.stdout.readline()
                self.assertEqual(told, "/ \n")
                with urllib.request.urlopen(address, timeout=WAIT) as page:
                    self.assertEqual(page.headers.get_content_type(), "text/plain")
                    found = samples(page.read().decode())
            finally:
                program.send_signal(signal.SIGINT)
        self.assertEqual((found["dirwolleu_connections_total"], found['dirwolleu_followed{kind="node"}']), (1, 1))

    def test_asyncio(self) -> None:
        async def run(host: str) -> str:
            client = aio.Client(host, TIMEOUT)
            metrics = Metrics(client)
            async with client:
                await client.exists("/a")
                return metrics.text()

        self.assertEqual(samples(asyncio.run(run(self.partner().host)))['dirwolleu_calls_total{kind="exists",outcome="ok"}'], 1)

    def test_an_observer_that_fails_harms_nobody(self) -> None:
        client, told = self.client(self.partner().host), list[Any]()
        client.observe(lambda _: 1 // 0)
        client.observe(told.append)
        with self.assertLogs("dirwolleu", "ERROR"):
            client.start(WAIT)
            self.assertIsNone(client.exists("/a"))
            client.stop()
        self.assertIn("exists", [one.kind for one in told if isinstance(one, CallEvent)])

    def test_fields_of_the_log(self) -> None:
        client = self.client(self.partner().host)
        with self.assertLogs("dirwolleu.connection", "INFO") as logs:
            client.start(WAIT)
            client.stop()
        record: Any = next(one for one in logs.records if one.getMessage().startswith("connected to"))
        self.assertRegex(record.session_id, "^0x[0-9a-f]+$")
        self.assertEqual((record.server, record.zxid >= 0), (f"127.0.0.1:{client._servers.hosts.servers[0][1]}", True))
