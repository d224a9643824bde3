"""Tests of connection strings: their parts, which address is dialled, and the root that all paths go through."""

from __future__ import annotations

import asyncio
import contextlib
import queue
import socket
import threading
import time
from collections.abc import Sequence
from typing import Any, Callable, Optional
from unittest import mock

from support import TIMEOUT, WAIT, ClientCase, Partner, PartnerCase, Peer, within
from test_library import CONNECT_RESPONSE

from dirwolleu import Client, EventType, Mark, NoNodeError, State, WatchedEvent
from dirwolleu._aio_link import address_at
from dirwolleu._hosts import Place, Servers, hosts_of
from dirwolleu._session import Dial, PlainAction, Session
from dirwolleu.testing import Server

WRONG = (
    "", "a:", "a:x", "a:0", ":1", "a..b:1", "a:1,,b:2", "a:1/a/", "a:1//a", "a:1/../a", "a:1/.", "a:1/a,b:1/b/",
)  # fmt: skip


def found(*addresses: str) -> Any:
    """The result of `getaddrinfo` for a name of these addresses."""
    return [(socket.AF_INET, socket.SOCK_STREAM, 6, "", (address, 2181)) for address in addresses]


class HostsTest(PartnerCase):
    def test_a_text_is_servers_and_a_root(self) -> None:
        hosts = hosts_of("a:1, b,[::1]:3,[::1]")
        self.assertEqual(hosts.servers, (("a", 1), ("b", 2181), ("::1", 3), ("::1", 2181)))
        self.assertEqual(hosts.root.path, "")
        self.assertEqual(hosts_of("a:1,b:2/app/x").root.path, "/app/x")
        self.assertEqual(hosts_of("[::1]/app").root.path, "/app")

    def test_what_is_no_text_of_hosts(self) -> None:
        for wrong in WRONG:
            with self.subTest(wrong), self.assertRaises(ValueError):
                Client(wrong)

    def dialled(self, servers: Servers, count: int, order: Sequence[int] = (0,)) -> list[Place]:
        """The addresses of this many dials, if the library goes through the list in this order."""

        async def dial() -> list[Place]:
            return [await address_at(servers, order[number % len(order)]) for number in range(count)]

        return asyncio.run(dial())

    def test_each_server_has_its_turn(self) -> None:
        dialled = self.dialled(Servers("10.0.0.1:1,10.0.0.2:2,10.0.0.3:3"), 6, (2, 0, 1))
        self.assertEqual([place.port for place in dialled], [3, 1, 2, 3, 1, 2])

    def test_a_place_of_a_longer_list_is_one_of_this(self) -> None:
        servers = Servers("10.0.0.1:1,10.0.0.2:2,10.0.0.3:3")
        servers.replace("10.0.0.4:4")
        servers.arrange(servers.hosts.servers)
        self.assertEqual([place.port for place in self.dialled(servers, 1, (2,))], [4])

    def test_servers_that_were_listed_before_have_the_first_places(self) -> None:
        servers = Servers("10.0.0.1:1,10.0.0.2:2")
        self.assertEqual(servers.arrange(servers.hosts.servers), (0, 2, True))  # nothing was dialled yet
        self.dialled(servers, 1, (1,))
        servers.replace("10.0.0.4:4,10.0.0.2:2,10.0.0.3:3,10.0.0.1:1")
        self.assertEqual(servers.arrange(servers.hosts.servers), (2, 2, True))
        self.assertEqual([place.port for place in self.dialled(servers, 4, (0, 1, 2, 3))], [2, 1, 4, 3])
        servers.replace("10.0.0.2:3,10.0.0.1:1")  # the last one that was dialled is 10.0.0.3:3
        self.assertEqual(servers.arrange(servers.hosts.servers), (1, 1, False))
        self.assertEqual([place.port for place in self.dialled(servers, 2, (0, 1))], [1, 3])

    def moved(self, before: str, after: str) -> list[Optional[int]]:
        """Of sessions by 200 seeds, connected to servers of the one list: the port that each moves to with the other list, or None."""
        found = list[Optional[int]]()
        for seed in range(200):
            servers, session = Servers(before), Session(6000, seed)
            self.addCleanup(session.close)
            dialled = next(action for action in session.addresses(0, *servers.arrange(servers.hosts.servers)) if isinstance(action, Dial))
            self.dialled(servers, 1, (dialled.place,))
            session.opened(0)
            session.received(0, CONNECT_RESPONSE)
            servers.replace(after)
            told = session.addresses(400, *servers.arrange(servers.hosts.servers)) + session.moment(800)
            places = [action.place for action in told if isinstance(action, Dial)]
            self.assertEqual(PlainAction.HANG_UP in told, len(places) == 1)
            found.append(self.dialled(servers, 1, places)[0].port if places else None)
        return found

    def test_as_many_sessions_move_as_a_list_has_grown(self) -> None:
        three, four = "10.0.0.1:1,10.0.0.2:2,10.0.0.3:3", "10.0.0.1:1,10.0.0.4:4,10.0.0.2:2,10.0.0.3:3"
        self.assertEqual(self.moved(three, three), [None] * 200)
        self.assertEqual(self.moved(four, "10.0.0.3:3,10.0.0.4:4,10.0.0.2:2,10.0.0.1:1"), [None] * 200)
        grown = self.moved(three, four)  # StaticHostProvider: one stays with the chance 3 / 4, and goes to a new server else
        self.assertTrue(30 <= grown.count(4) <= 70, grown.count(4))
        self.assertEqual(grown.count(4) + grown.count(None), 200)
        less = self.moved(three, "10.0.0.1:1,10.0.0.2:2")  # those of the server that has left, a third of all, move
        self.assertTrue(40 <= 200 - less.count(None) <= 95, less)
        self.assertTrue(10 <= less.count(1) and 10 <= less.count(2), less)

    def test_the_order_is_that_of_the_text_where_it_is_not_left_to_chance(self) -> None:
        servers = Servers("10.0.0.1:1,10.0.0.2:2", is_by_chance=False)
        for order in ((0, 1), (1, 0)):
            self.assertEqual([place.port for place in self.dialled(servers, 4, order)], [1, 2, 1, 2])
            servers.arrange(servers.hosts.servers)

    def test_a_name_is_looked_up_at_each_dial_and_each_address_has_its_turn(self) -> None:
        with mock.patch("socket.getaddrinfo", return_value=found("10.0.0.1", "10.0.0.2")) as look_up:
            dialled = self.dialled(Servers("name:7"), 4)
            self.assertEqual(look_up.call_count, 4)
        self.assertEqual({place.address for place in dialled[:2]}, {"10.0.0.1", "10.0.0.2"})
        self.assertEqual({place.address for place in dialled[2:]}, {"10.0.0.1", "10.0.0.2"})
        self.assertIn(str(dialled[0]), ("name:7 (10.0.0.1)", "name:7 (10.0.0.2)"))

    def test_look_ups_that_are_late_are_one(self) -> None:
        may_end = threading.Event()
        self.addCleanup(may_end.set)

        def look_up(*_: Any, **__: Any) -> Any:
            may_end.wait(WAIT)
            return found("10.0.0.1")

        async def dial(servers: Servers) -> Place:
            for _ in range(3):
                with self.assertRaises(asyncio.TimeoutError):
                    await asyncio.wait_for(address_at(servers, 0), 0.02)
            may_end.set()
            return await address_at(servers, 0)

        with mock.patch("socket.getaddrinfo", side_effect=look_up) as looked_up:
            self.assertEqual(asyncio.run(dial(Servers("name:7"))).address, "10.0.0.1")
        self.assertLessEqual(looked_up.call_count, 2)

    def test_a_name_that_is_not_found_is_told(self) -> None:
        with mock.patch("socket.getaddrinfo", side_effect=socket.gaierror(-2, "Name or service not known")):
            client = Client("nowhere.example:2181", 30.0)
            self.addCleanup(client.close)
            self.start_fails(client, "nowhere.example: Name or service not known")


class NamesTest(ClientCase):
    def test_a_name_that_has_a_new_address_is_followed_there(self) -> None:
        partner = self.partner()
        with mock.patch("socket.getaddrinfo", return_value=found("127.0.0.9")) as look_up:
            client = Client(f"name:{partner.port}", TIMEOUT)
            self.addCleanup(client.close)
            begun = threading.Thread(target=lambda: client.start(WAIT), daemon=True)
            begun.start()
            within(lambda: client._engine.trouble)
            look_up.return_value = found("127.0.0.1")
            begun.join(WAIT)
            self.assertTrue(client.connected)
            client.stop()

    def test_a_look_up_that_hangs_holds_no_stop(self) -> None:
        may_end = threading.Event()
        self.addCleanup(may_end.set)
        with mock.patch("socket.getaddrinfo", side_effect=lambda *_, **__: may_end.wait(9 * WAIT) and []):
            client = Client("name:1", 1.0)
            began = time.monotonic()
            with self.assertRaises(TimeoutError):
                client.start(0.3)
            client.close()
        self.assertLess(time.monotonic() - began, WAIT)

    def test_hosts_can_be_replaced_at_any_time(self) -> None:
        first, second = self.partner(), self.partner()
        second.do("create /a second", "create /b", "create /c")
        client = self.client(first.host)
        client.set_hosts(first.host)
        self.assertTrue(client.connected)
        client.set_hosts(second.host)
        within(lambda: client.connected and client._engine.place == second.host)
        self.assertEqual(client.get("/a")[0], b"second")
        with self.assertRaises(ValueError):
            client.set_hosts(second.host + "/program")
        with self.assertRaises(ValueError):
            client.set_hosts("")

    def test_a_session_whose_server_leaves_the_list_goes_on_at_another_one(self) -> None:
        with Server() as server:
            listed = [f"127.0.0.{number}:{server.port}" for number in (1, 2, 3)]
            running = server._alive()
            for name in ("127.0.0.2", "127.0.0.3"):
                listens = running.loop.create_server(running.ensemble.make_connection, name, server.port, reuse_address=True)
                asyncio.run_coroutine_threadsafe(listens, running.loop).result()
            client, others = self.client(",".join(listed)), listed
            client.create("/a", b"0", ephemeral=True)
            number, came, shown = client.session_id, server.connections, queue.Queue[Optional[bytes]]()

            def follow() -> None:
                for kept in client.follow("/a"):
                    shown.put(kept.data)

            threading.Thread(target=follow, daemon=True).start()
            self.assertEqual(shown.get(timeout=WAIT), b"0")
            for change in (1, 2, 3):  # to one of two, to the one that is left, and to one of two that were listed before
                others = [one for one in (others if change == 2 else listed) if one != client._engine.place]
                reads = [client.get_async("/a") for _ in range(100)]
                client.set_hosts(",".join(others))
                self.assertEqual({read.result(WAIT)[0] for read in reads}, {b"%d" % (change - 1)})
                within(lambda: client.connected and client._engine.place in others)
                server.set("/a", b"%d" % change)
                while shown.get(timeout=WAIT) != b"%d" % change:
                    pass
                self.assertEqual((client.session_id, server.connections - came), (number, change))
            self.assertEqual(server.sessions, (number,))
            client.stop()

    def test_an_address_of_ipv6(self) -> None:
        class Peer6:
            def __init__(self) -> None:
                self.listener = socket.create_server(("::1", 0), family=socket.AF_INET6)

            def serve(self) -> None:
                with self.listener.accept()[0] as connection, contextlib.suppress(OSError):
                    peer = Peer(connection)
                    peer.admit()
                    peer.take()

        try:
            server = Peer6()
        except OSError:
            self.skipTest("there is no IPv6")
        self.addCleanup(server.listener.close)
        threading.Thread(target=server.serve, daemon=True).start()
        client = Client(f"[::1]:{server.listener.getsockname()[1]}")
        self.addCleanup(client.close)
        client.start(WAIT)


class RootTest(PartnerCase):
    def setUp(self) -> None:
        self.other: Partner = self.partner()
        self.other.do("create /app", "create /app/x one", "create /elsewhere")
        self.client = Client(self.other.host + "/app", TIMEOUT)
        self.addCleanup(self.client.close)
        self.addCleanup(self.client.stop)
        self.client.start(WAIT)

    def test_calls_and_answers_are_below_the_root(self) -> None:
        client = self.client
        self.assertEqual(client.chroot, "/app")
        self.assertEqual(client.get("/x")[0], b"one")
        self.assertEqual(client.get_children("/"), ["x"])
        self.assertEqual(client.create("/y", b""), "/y")
        self.assertEqual(client.create("/y/n-", b"", sequence=True), "/y/n-0000000000")
        client.set("/y", b"two")
        self.assertIsNone(client.exists("/elsewhere"))
        client.delete("/x")
        with self.raises(NoNodeError, -101):
            client.get("/app")

    def test_no_path_leads_out_of_the_root(self) -> None:
        for path in ("", "x", "/../elsewhere", "/x/", "//x", "/x/../.."):
            client = self.client
            calls: list[Callable[[str], object]] = [client.get, client.exists, client.delete, client.kept]
            for call in calls:
                with self.subTest(path=path), self.assertRaises(ValueError):
                    call(path)
        self.assertEqual(self.client.create("/", b"", sequence=True), "/0000000001")

    def test_events_and_kept_answers_are_below_the_root(self) -> None:
        client, events = self.client, queue.Queue[WatchedEvent]()
        client.get("/x", watch=events.put)
        client.get_children("/", watch=events.put)
        kept, children = client.kept("/x"), client.kept_children("/")
        assert kept is not None and children is not None
        self.assertEqual((kept.path, kept.mark, kept.data), ("/x", Mark.GOOD, b"one"))
        self.assertEqual((children.path, children.names), ("/", ("x",)))
        self.other.do("set /app/x two")
        self.assertEqual(events.get(timeout=WAIT), (EventType.CHANGED, State.CONNECTED, "/x"))
        self.other.do("create /app/y")
        self.assertEqual(events.get(timeout=WAIT), (EventType.CHILD, State.CONNECTED, "/"))
        follower = client.follow("/x")
        self.assertEqual(next(follower).data, b"two")
        follower.close()

    def test_watches_are_set_again_below_the_root(self) -> None:
        client, events = self.client, queue.Queue[WatchedEvent]()
        client.get("/x", watch=events.put)
        client.exists("/z", watch=events.put)
        self.other.do("down", "set /app/x two", "create /app/z", "up")
        told = {events.get(timeout=WAIT), events.get(timeout=WAIT)}
        expected = {(EventType.CHANGED, "/x"), (EventType.CREATED, "/z")}
        self.assertEqual({(event.type, event.path) for event in told}, expected)
