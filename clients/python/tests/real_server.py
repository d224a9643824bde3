"""real_server.py HOST:PORT: the answers of a real server to the client's calls, those that are raw and its locks.

`scripts/clients` runs it with a server. If the package kazoo is there, and if DIRWOLLEU_CURATOR names the jars of Curator, their
locks contend with those of the client.
"""

from __future__ import annotations

import asyncio
import functools
import importlib
import os
import pathlib
import queue
import subprocess
import sys
import threading
import time
import unittest
from collections.abc import Sequence
from typing import Any, Callable, Optional

sys.path.insert(0, str(pathlib.Path(__file__).resolve().parents[1]))

import dirwolleu  # noqa: E402
from dirwolleu import (  # noqa: E402
    AuthFailedError,
    BadVersionError,
    Barrier,
    Client,
    Counter,
    DoubleBarrier,
    InvalidACLError,
    Lock,
    Mark,
    MixedNamesError,
    NoAuthError,
    NoChildrenForEphemeralsError,
    NoNodeError,
    Read,
    ReadLock,
    Registration,
    Semaphore,
    TransactionFailedError,
    UnimplementedError,
    WriteLock,
    aio,
    security,
)

HOST = "127.0.0.1:2181"
WAIT = 30.0
ROUNDS = 10
SNAPSHOTS = int(os.environ.get("DIRWOLLEU_SNAPSHOTS", "500"))
"""How many transactions are written beside snapshots."""
CURATOR = os.environ.get("DIRWOLLEU_CURATOR", "")
"""The jars of Curator, with those that it needs. Without them its locks are left out."""
TOKENS: list[int] = []


def kazoo_or_none() -> Optional[Any]:
    try:
        importlib.import_module("kazoo.client")
        return importlib.import_module("kazoo")
    except ImportError:
        return None


KAZOO = kazoo_or_none()


def in_threads(works: Sequence[Callable[[], object]]) -> list[Optional[BaseException]]:
    """Lets a thread of its own do each work, and returns what each has raised, or that it has not ended."""
    errors: list[Optional[BaseException]] = [AssertionError(f"{work} has not ended") for work in works]

    def run(number: int, work: Callable[[], object]) -> None:
        try:
            work()
            errors[number] = None
        except BaseException as error:
            errors[number] = error

    threads = [threading.Thread(target=run, args=one, daemon=True) for one in enumerate(works)]
    for thread in threads:
        thread.start()
    until = time.monotonic() + 6 * WAIT
    for thread in threads:
        thread.join(max(until - time.monotonic(), 0))
    return errors


def within(condition: Callable[[], Any]) -> None:
    until = time.monotonic() + WAIT
    while not condition():
        if time.monotonic() > until:
            raise AssertionError("this has not come to pass in time")


class RealServerTest(unittest.TestCase):
    def setUp(self) -> None:
        self.root = f"/{self.id().rpartition('.')[2]}-{time.time_ns()}"
        self.one, self.other = self.client(), self.client()
        self.one.ensure_path("/")

    def client(self, **named: Any) -> Client:
        client = Client(HOST + self.root, 6.0, **named)
        self.addCleanup(client.close)
        self.addCleanup(client.stop)
        client.start(WAIT)
        return client

    def test_paths(self) -> None:
        self.assertEqual(self.one.create("/a/b/c-", b"x", sequence=True, makepath=True), "/a/b/c-0000000000")
        self.one.ensure_path("/a/b/d")
        created = self.one.create2("/a/e", None)
        self.assertEqual((created.path, self.one.get("/a/e")), ("/a/e", (None, created.stat)))
        self.one.delete("/a", recursive=True)
        self.assertEqual(self.one.get_children("/"), [])

    def test_a_transaction(self) -> None:
        self.one.create("/a", b"one")
        self.one.get("/a", watch=True)
        with self.one.transaction() as transaction:
            transaction.check("/a", 0)
            transaction.set_data("/a", b"two", 0)
            transaction.create("/b-", b"", sequence=True)
            transaction.create("/c")
            transaction.delete("/c")
        kept = self.one.kept("/a")
        assert kept is not None
        self.assertIs(kept.mark, Mark.STALE)
        _, stat, path, _, _ = transaction.results
        self.assertEqual(stat, self.one.exists("/a"))
        self.assertIn(str(path)[1:], self.one.get_children("/"))

    def test_a_transaction_that_is_refused(self) -> None:
        self.one.create("/a", b"one")
        for path, version, kind in (("/a", 1, BadVersionError), ("/none", -1, NoNodeError)):
            refused = self.one.transaction()
            refused.create("/d")
            refused.check(path, version)
            refused.delete("/a")
            with self.assertRaises(TransactionFailedError) as caught:
                refused.commit()
            self.assertEqual((caught.exception.index, type(caught.exception.error)), (1, kind))
        self.assertEqual(self.one.get_children("/"), ["a"])

    def test_sync_and_acls(self) -> None:
        self.other.create("/a", b"x")
        self.assertEqual(self.one.sync("/a"), "/a")
        acls, stat = self.one.get_acls("/a")
        self.assertEqual((tuple(acls), stat), (security.OPEN_ACL_UNSAFE, self.one.exists("/a")))
        self.one.add_auth("digest", "bob:secret")
        self.one.create("/bobs", b"s", acl=security.CREATOR_ALL_ACL)
        bob = security.make_digest_acl("bob", "secret", all=True)
        self.assertEqual(self.one.get_acls("/bobs")[0], [bob])
        with self.assertRaises(NoAuthError):
            self.other.get("/bobs")
        self.assertEqual(self.client(auth_data=[("digest", "bob:secret")]).get("/bobs")[0], b"s")
        self.one.set_acls("/bobs", [bob, *security.READ_ACL_UNSAFE], 0)
        self.assertEqual(self.other.get("/bobs")[0], b"s")
        with self.assertRaises(BadVersionError):
            self.one.set_acls("/bobs", [bob], 0)
        with self.assertRaises(InvalidACLError):
            self.other.create("/c", acl=[security.ACL(31, security.Id("none", "x"))])

    def test_nodes_of_other_kinds(self) -> None:
        """A TTL needs an option of the server: zookeeper.extendedTypesEnabled."""
        self.assertEqual(self.one.create("/box", b"x", container=True), "/box")
        self.assertEqual(self.one.create("/box/", b"x", sequence=True), "/box/0000000000")
        self.assertEqual(self.one.create2("/box/", None, sequence=True, ephemeral=True).path, "/box/0000000001")
        self.assertEqual(self.one.create("/new/folder/", sequence=True, makepath=True), "/new/folder/0000000000")
        self.assertRegex(self.one.create("/", sequence=True), r"^/\d{10}$")
        try:
            self.assertRegex(self.one.create("/brief-", b"x", ttl=100.0, sequence=True), r"^/brief-\d{10}$")
            self.assertEqual(self.one.create("/brief", b"x", ttl=0.001, acl=security.OPEN_ACL_UNSAFE), "/brief")
        except UnimplementedError:
            pass
        for path, kind in (("/none/", NoNodeError), ("/box/0000000001/", NoChildrenForEphemeralsError)):
            with self.assertRaises(kind) as caught:
                self.one.create(path, sequence=True)
            self.assertEqual(caught.exception.path, path[:-1])

    def test_several_reads_and_who_the_client_is(self) -> None:
        self.one.create("/a", b"x")
        self.one.create("/a/b", None, ephemeral=True)
        self.other.create("/a/c", ephemeral=True)
        reads = [Read.data("/a"), Read.children("/a"), Read.data("/none"), Read.data("/a/b")]
        found: list[Any] = self.one.multi_read(reads)
        (data, stat), names, error, null = found
        self.assertEqual((data, stat, sorted(names)), (b"x", self.one.exists("/a"), ["b", "c"]))
        assert isinstance(error, NoNodeError)
        self.assertEqual((error.path, null[0]), ("/none", None))
        self.assertEqual(self.one.multi_read([]), [])
        self.assertIsNone(self.one.kept("/a"))
        self.assertEqual((self.one.get_ephemerals(), self.other.get_ephemerals("/a")), (["/a/b"], ["/a/c"]))
        self.assertEqual((self.one.get_ephemerals("/a/b"), self.one.get_ephemerals("/b")), (["/a/b"], []))
        self.assertEqual([self.one.get_all_children_number(path) for path in ("/", "/a", "/a/b")], [3, 2, 0])
        with self.assertRaises(NoNodeError):
            self.one.get_all_children_number("/none")
        self.one.add_auth("digest", "bob:secret")
        self.assertEqual(sorted(self.one.who_am_i()), [security.Id("digest", "bob"), security.Id("ip", "127.0.0.1")])

    def test_credentials_that_are_refused(self) -> None:
        with self.assertRaises(AuthFailedError):
            self.one.add_auth("none", "x")
        self.one.start(WAIT)
        self.assertEqual(self.one.get_children("/"), [])
        client = Client(HOST, 6.0, auth_data=[("none", "x")])
        self.addCleanup(client.close)
        with self.assertRaises(AuthFailedError):
            client.start(WAIT)

    def test_many_calls_of_both(self) -> None:
        self.one.create("/a", b"one")
        futures: list[Any] = []
        for _ in range(1500):
            futures += [self.one.sync_async("/a"), self.one.get_async("/a")]
        self.assertEqual({future.result(WAIT) for future in futures[::2]}, {"/a"})
        self.assertEqual({future.result(WAIT)[0] for future in futures[1::2]}, {b"one"})

    def test_a_registration_and_the_end_of_a_session(self) -> None:
        with Registration(self.one, "/workers/one", b"x") as registration:
            self.assertTrue(registration.wait(WAIT))
            self.assertEqual(self.other.get("/workers/one")[0], b"x")
        self.assertIsNone(self.other.exists("/workers/one"))

    def test_twenty_contenders_of_three_clients(self) -> None:
        """Each holder makes one node and deletes it again, which fails if two hold at once.

        All contenders of a path use one kind of names: so those of kazoo have Curator's here.
        """
        self.contend("lock", "", {"extra_lock_patterns": ["-lock-"]}, "curator", 6)
        tokens = TOKENS[:]
        self.assertEqual((len(tokens), tokens), (len(set(tokens)), sorted(tokens)))

    def test_readers_and_writers_of_three_clients(self) -> None:
        self.contend("readwrite", "", {}, "curator", 6)

    def test_contenders_with_the_names_of_kazoo(self) -> None:
        self.contend("lock", "Lock", {}, "kazoo", 0)
        self.contend("readwrite", "WriteLock", {}, "kazoo", 0)

    def contend(self, kind: str, kazoos: str, named: dict[str, Any], names: str, curators: int) -> None:
        """Contenders of each kind of client on one lock; those that share do every second time."""
        TOKENS.clear()
        path = f"/{kind}-{names}"
        shares = kind == "readwrite"
        works: list[Callable[[], None]] = []
        clients = self.client(), self.client(), self.one, self.other
        works += [functools.partial(self.contend_in_thread, one, path, names, shares) for one in clients]
        works += [functools.partial(self.contend_in_asyncio, path, names, shares)]
        if KAZOO is not None and not (shares and curators):
            # kazoo's ReadLock also waits for writers that came after it, which wait for it: it is left out
            works += [functools.partial(self.contend_as_kazoo, path, kazoos, named, False) for _ in range(6)]
        if curators and CURATOR:
            works.append(functools.partial(self.contend_as_curator, path, kind, curators))
        self.assertEqual([error for error in in_threads(works) if error is not None], [])

    def hold(self, client: Client, held: dirwolleu.Held, reads: bool) -> None:
        if reads:
            self.assertIsNone(client.exists("/judge"))
        else:
            client.create("/judge")
            TOKENS.append(held.token)
        time.sleep(0.002)
        held.check()
        if not reads:
            client.delete("/judge")

    def contend_in_thread(self, client: Client, path: str, names: str, shares: bool) -> None:
        for number in range(ROUNDS):
            reads = shares and number % 2 == 1
            kind = (ReadLock if reads else WriteLock) if shares else Lock
            with kind(client, path, names=names) as held:
                self.hold(client, held, reads)

    def contend_in_asyncio(self, path: str, names: str, shares: bool) -> None:
        async def contend() -> None:
            async with aio.Client(HOST + self.root, 10.0) as client:
                for number in range(ROUNDS):
                    reads = shares and number % 2 == 1
                    kind = (aio.ReadLock if reads else aio.WriteLock) if shares else aio.Lock
                    async with kind(client, path, names=names) as held:
                        if reads:
                            self.assertIsNone(await client.exists("/judge"))
                        else:
                            await client.create("/judge")
                            TOKENS.append(held.token)
                        await asyncio.sleep(0.002)
                        held.check()
                        if not reads:
                            await client.delete("/judge")

        async def run() -> None:
            await asyncio.gather(*(contend() for _ in range(4)))

        asyncio.run(run())

    def contend_as_kazoo(self, path: str, kind: str, named: dict[str, Any], shares: bool) -> None:
        assert KAZOO is not None
        client = KAZOO.client.KazooClient(HOST + self.root)
        client.start()
        try:
            for number in range(ROUNDS):
                reads = shares and number % 2 == 1
                lock = client.ReadLock(path) if reads else getattr(client, kind or "Lock")(path, **named)
                if not kind:
                    lock.prefix = lock.prefix.replace("__lock__", "-lock-")
                    lock.create_path = f"{path}/{lock.prefix}"
                with lock:
                    if reads:
                        self.assertIsNone(client.exists("/judge"))
                    else:
                        client.create("/judge")
                        TOKENS.append(client.get(f"{path}/{lock.node}")[1].czxid)
                    time.sleep(0.002)
                    if not reads:
                        client.delete("/judge")
        finally:
            client.stop()
            client.close()

    def contend_as_curator(self, path: str, kind: str, count: int) -> None:
        source = pathlib.Path(__file__).parent / "CuratorContenders.java"
        words = ["java", "-cp", CURATOR, str(source), HOST + self.root, path, "/judge", str(count), str(ROUNDS), kind]
        done = subprocess.run(words, capture_output=True, text=True, timeout=6 * WAIT, check=False)
        self.assertEqual((done.returncode, done.stdout), (0, "done\n"), done.stderr[-2000:])

    def test_leases(self) -> None:
        """Whoever has a lease makes a node beside those of the others: never a fourth one."""
        self.one.ensure_path("/judge-of-leases")

        def work() -> None:
            client = self.client()
            for _ in range(ROUNDS):
                with Semaphore(client, "/leases", max_leases=3) as held:
                    made = client.create("/judge-of-leases/n-", ephemeral=True, sequence=True)
                    self.assertLessEqual(len(client.get_children("/judge-of-leases")), 3)
                    held.check()
                    client.delete(made)

        self.assertEqual([error for error in in_threads(6 * [work]) if error is not None], [])

    @unittest.skipIf(KAZOO is None, "there is no kazoo")
    def test_no_semaphore_is_beside_one_of_kazoo(self) -> None:
        assert KAZOO is not None
        client = KAZOO.client.KazooClient(HOST + self.root)
        client.start()
        try:
            with Semaphore(self.one, "/ours", max_leases=3):
                with self.assertRaises(ValueError):
                    client.Semaphore("/ours", max_leases=3).acquire()
            with client.Semaphore("/kazoos", max_leases=3):
                with self.assertRaises(MixedNamesError):
                    Semaphore(self.one, "/kazoos", max_leases=3).acquire(WAIT)
        finally:
            client.stop()
            client.close()

    def test_a_counter_and_a_barrier_beside_those_of_kazoo(self) -> None:
        if KAZOO is None:
            self.skipTest("there is no kazoo")
        client = KAZOO.client.KazooClient(HOST + self.root)
        client.start()
        self.addCleanup(client.close)
        self.addCleanup(client.stop)
        counter = client.Counter("/count")
        counter += 2
        self.assertEqual(Counter(self.one, "/count").add(3), 5)
        self.assertEqual(counter.value, 5)
        barrier = client.DoubleBarrier("/step", 2)
        own = DoubleBarrier(self.one, "/step", 2)
        self.assertEqual(in_threads([barrier.enter, lambda: self.assertTrue(own.enter(WAIT))]), [None, None])
        self.assertEqual(in_threads([barrier.leave, lambda: self.assertTrue(own.leave(WAIT))]), [None, None])
        client.Barrier("/closed").create()
        self.assertFalse(Barrier(self.one, "/closed").wait(0.05))
        client.Barrier("/closed").remove()
        self.assertTrue(Barrier(self.one, "/closed").wait(WAIT))

    def test_what_is_good_is_fresh(self) -> None:
        """After `fresh`, the core knows what another session has written before."""
        self.one.create("/a", b"0")
        for number in range(20):
            self.one.get("/a", watch=True)
            written = self.other.set("/a", b"%d" % number)
            self.assertGreaterEqual(self.one.fresh(quorum=number % 2 == 1), written.mzxid)
            kept = self.one.kept("/a")
            assert kept is not None
            self.assertGreaterEqual(kept.last_zxid, written.mzxid)
            self.assertIs(kept.mark, Mark.STALE)

    def test_snapshots_beside_a_writer_of_three_nodes(self) -> None:
        """Each transaction gives all three the same number: no snapshot has two."""
        paths, shown, is_over = ("/a", "/b", "/c"), list[int](), threading.Event()
        for path in paths:
            self.one.create(path, b"0")

        def write() -> None:
            for number in range(1, SNAPSHOTS):
                with self.other.transaction() as transaction:
                    for path in paths:
                        transaction.set_data(path, b"%d" % number)
            is_over.set()

        def look() -> None:
            while not is_over.is_set():
                for read in [self.one.get_async(path, watch=True) for path in paths]:
                    read.result(WAIT)
                while (found := self.one.snapshot(paths)) is not None and not is_over.is_set():
                    (data,) = {one.data for one in found.nodes.values()}
                    if not shown or shown[-1] != int(data or b""):
                        shown.append(int(data or b""))

        self.assertEqual(in_threads([write, look]), [None, None])
        self.assertEqual(shown, sorted(set(shown)))
        self.assertGreater(len(shown), SNAPSHOTS // 20)

    def test_watches(self) -> None:
        told: queue.Queue[Any] = queue.Queue()
        self.one.DataWatch("/a", lambda data, stat: told.put(data))
        self.one.ChildrenWatch("/a", told.put)
        self.assertEqual({repr(told.get(timeout=WAIT)) for _ in range(2)}, {"None", "[]"})
        self.other.create("/a", b"x")
        within(lambda: told.get(timeout=WAIT) == b"x")
        self.other.create("/a/b", b"")
        within(lambda: told.get(timeout=WAIT) == ["b"])

    def test_a_lock_whose_session_a_server_ends(self) -> None:
        held = Lock(self.one, "/lock").acquire(WAIT)
        thief = Client(HOST, 6.0, saved=self.one.saved_session)
        self.addCleanup(thief.close)
        thief.start(WAIT)  # takes the session over
        thief.stop()  # and ends it
        later = Lock(self.other, "/lock").acquire(WAIT)
        with self.assertRaises(dirwolleu.LockLostError):
            held.check()
        self.assertGreater(later.token, held.token)
        stat = self.other.exists(later.path)
        assert stat is not None
        self.assertEqual((stat.czxid, stat.ephemeral_owner), (later.token, self.other.session_id))
        later.release()
        held.release()


if __name__ == "__main__":
    HOST = sys.argv.pop(1)
    unittest.main()
