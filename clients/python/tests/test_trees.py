"""Tests of trees: snapshots of one moment, which follow what changes."""

from __future__ import annotations

import asyncio
import threading
from typing import Callable, Optional

from support import TIMEOUT, WAIT, PartnerCase, within

import dirwolleu
from dirwolleu import NoNodeError, TreeSnapshot
from dirwolleu.aio import Client as AioClient
from dirwolleu.exceptions import CallTimeoutError

MADE = ("create /t root", "create /t/a 1", "create /t/a/deep 2", "create /t/b -", "create /other 3")


class SnapshotTest(PartnerCase):
    """The contents of a snapshot, over the server in memory."""

    def setUp(self) -> None:
        self.server = self.partner()
        self.server.do(*MADE)
        self.client = dirwolleu.Client(self.server.host, TIMEOUT)
        self.addCleanup(self.client.stop)
        self.client.start(WAIT)
        self.tree = self.client.tree("/t")

    def grown(self, is_wanted: Callable[[TreeSnapshot], bool]) -> TreeSnapshot:
        """The first newest snapshot that meets a condition."""

        def found() -> Optional[TreeSnapshot]:
            latest = self.tree.latest
            return latest if latest is not None and is_wanted(latest) else None

        snapshot: TreeSnapshot = within(found)
        return snapshot

    def test_all_nodes_are_there_and_no_other(self) -> None:
        snapshot = self.tree.wait(WAIT)
        self.assertEqual(sorted(snapshot), ["/t", "/t/a", "/t/a/deep", "/t/b"])
        self.assertEqual(list(snapshot)[0], "/t")
        self.assertEqual((snapshot["/t/a"].data, snapshot["/t/a/deep"].data), (b"1", b"2"))
        self.assertEqual(snapshot.children("/t"), ("a", "b"))
        self.assertEqual(snapshot.children("/t/b"), ())
        self.assertNotIn("/other", snapshot)
        with self.assertRaises(KeyError):
            snapshot.children("/t/none")
        self.assertIs(self.tree.current, snapshot)

    def test_changes_are_followed(self) -> None:
        first = self.tree.wait(WAIT)
        self.server.do("set /t/a 9", "delete /t/a/deep", "create /t/b/new 7", "create /t/c 8")
        last = self.grown(lambda one: "/t/c" in one and "/t/b/new" in one and one["/t/a"].data == b"9" and "/t/a/deep" not in one)
        change = last.changed_since(first)
        self.assertEqual(sorted(change.added), ["/t/b/new", "/t/c"])
        self.assertEqual(change.removed, ("/t/a/deep",))
        self.assertEqual(change.changed, ("/t/a",))
        self.assertGreater(last.zxid, first.zxid)
        self.assertEqual(sorted(first), ["/t", "/t/a", "/t/a/deep", "/t/b"])  # a snapshot never changes

    def test_a_node_that_was_made_again_is_another_one(self) -> None:
        first = self.tree.wait(WAIT)
        self.server.do("delete /t/b", "create /t/b -")
        last = self.grown(lambda one: one["/t/b"].stat.czxid != first["/t/b"].stat.czxid if "/t/b" in one else False)
        self.assertIn("/t/b", last.changed_since(first).changed)

    def test_it_goes_on_after_a_lost_connection(self) -> None:
        self.tree.wait(WAIT)
        self.server.do("drop", "set /t/a 5")
        self.grown(lambda one: one["/t/a"].data == b"5")

    def test_it_goes_on_in_a_new_session(self) -> None:
        self.tree.wait(WAIT)
        self.server.do("expire", "create /t/d 6")
        self.grown(lambda one: "/t/d" in one)
        self.assertEqual(self.client.stats().expiries, 1)

    def test_a_root_that_is_not_there_is_told_and_its_making_heard(self) -> None:
        tree = self.client.tree("/later")
        with self.assertRaises(NoNodeError) as told:
            tree.wait(WAIT)
        self.assertEqual(told.exception.path, "/later")
        self.server.do("create /later 1", "create /later/one 2")
        within(lambda: tree.latest is not None and "/later/one" in tree.latest)
        self.assertIsNone(tree.trouble)

    def test_a_root_that_was_deleted_is_told(self) -> None:
        tree = self.client.tree("/other")
        tree.wait(WAIT)
        self.server.do("delete /other")
        within(lambda: isinstance(tree.trouble, NoNodeError))
        self.assertIsNone(tree.current)
        self.server.do("create /other 4")
        within(lambda: tree.current is not None and tree.current["/other"].data == b"4")

    def test_more_nodes_than_wanted_are_told(self) -> None:
        """The log has it once until the tree is whole again, however many nodes come meanwhile."""
        with self.assertLogs("dirwolleu.tree", "WARNING") as told:
            tree = self.client.tree("/t", most=3)
            with self.assertRaisesRegex(ValueError, "^more than 3 nodes at and below /t; "):
                tree.wait(WAIT)
            for name in "cde":
                self.server.do(f"create /t/{name} -")
                within(lambda: len(self.client.get_children("/t")) > 2 and tree.trouble)
            self.server.do("delete /t/b", "delete /t/c", "delete /t/d", "delete /t/e")
            self.assertEqual(len(within(lambda: tree.current)), 3)
        self.assertEqual(len(told.output), 1)

    def test_each_new_snapshot_is_given(self) -> None:
        given = []
        for snapshot in self.tree.snapshots():
            given.append(snapshot)
            if len(snapshot) == 6:
                break
            self.server.do(f"create /t/n{len(snapshot)} -")
        self.assertEqual([len(one) for one in given], [4, 5, 6])

    def test_it_ends_with_its_client(self) -> None:
        snapshots = self.tree.snapshots()
        next(snapshots)
        self.client.stop()
        self.assertRaises(StopIteration, next, snapshots)

    def test_no_answer_in_time_is_told(self) -> None:
        client = dirwolleu.Client(self.server.host, TIMEOUT)
        self.addCleanup(client.close)
        client.start(WAIT)
        self.server.do("drop")
        with self.assertRaises(CallTimeoutError):
            client.tree("/t").wait(0.0)

    def test_wrong_words_are_refused(self) -> None:
        self.assertRaises(ValueError, self.client.tree, "t")
        self.assertRaises(ValueError, self.client.tree, "/t", most=0)

    def test_a_tree_below_a_chroot(self) -> None:
        with dirwolleu.Client(f"{self.server.host}/t", TIMEOUT) as client, client.tree("/") as tree:
            self.assertEqual(sorted(tree.wait(WAIT)), ["/", "/a", "/a/deep", "/b"])


class MomentTest(PartnerCase):
    """Several nodes of one moment."""

    def test_all_is_good_or_there_is_none(self) -> None:
        server = self.partner()
        server.do(*MADE)
        with dirwolleu.Client(server.host, TIMEOUT) as client:
            self.assertIsNone(client.snapshot(nodes=["/t/a"]))
            client.get("/t/a", watch=True)
            client.exists("/none", watch=True)
            client.get_children("/t", watch=True)
            found = client.snapshot(nodes=["/t/a", "/none"], parents=["/t"])
            assert found is not None
            self.assertEqual((found.nodes["/t/a"].data, found.nodes["/none"].exists), (b"1", False))
            self.assertEqual((found.children["/t"].names, found.zxid), (("a", "b"), client.last_zxid))
            server.do("set /t/a 2")
            within(lambda: client.snapshot(nodes=["/t/a"]) is None)
            self.assertIsNotNone(client.snapshot(nodes=["/none"], parents=["/t"]))
            self.assertEqual(client.snapshot(), dirwolleu.Snapshot(client.last_zxid, {}, {}))
            with self.assertRaisesRegex(ValueError, "^t is no path"):
                client.snapshot(nodes=["/none", "t"], parents=["/t"])
        self.assertIsNone(client.snapshot(nodes=["/none"]))

    def test_what_each_path_has(self) -> None:
        """The same as a look-up of that path alone has."""
        server = self.partner()
        server.do(*MADE)
        with dirwolleu.Client(f"{server.host}/t", TIMEOUT) as client:
            client.get("/a", watch=True)
            client.exists("/b", watch=True)
            client.exists("/none", watch=True)
            for parent in ("/", "/a"):
                client.get_children(parent, watch=True)
            client.create("/ö", None)
            client.get("/ö", watch=True)
            client.get_children("/", watch=True)
            found = client.snapshot((path for path in ("/ö", "/b", "/none", "/a")), iter(["/a", "/"]))
            assert found is not None
            self.assertEqual(dict(found.nodes), {path: client.kept(path) for path in ("/ö", "/b", "/none", "/a")})
            self.assertEqual(dict(found.children), {path: client.kept_children(path) for path in ("/a", "/")})
            self.assertEqual([one.has_data for one in found.nodes.values()], [True, False, False, True])
            self.assertEqual(found.children["/"].names, ("a", "b", "ö"))

    def test_a_transaction_is_in_it_whole_or_not_at_all(self) -> None:
        server, paths = self.partner(), ["/a", "/b", "/c"]
        server.do(*(f"create {path} 0" for path in paths))
        shown = list[int]()
        with dirwolleu.Client(server.host, TIMEOUT) as client, dirwolleu.Client(server.host, TIMEOUT) as writer:
            for number in range(30):
                transaction = writer.transaction()
                for path in paths:
                    transaction.set_data(path, b"%d" % number)
                for read in [client.get_async(path, watch=True) for path in paths]:
                    read.result(WAIT)
                written = threading.Thread(target=transaction.commit)
                written.start()
                while written.is_alive():
                    found = client.snapshot(paths)
                    if found is not None:
                        (data,) = {one.data for one in found.nodes.values()}
                        shown.append(int(data or b""))
                written.join()
        self.assertEqual(shown, sorted(shown))
        self.assertGreater(len(shown), 10)


class AsyncTest(PartnerCase):
    def test_each_new_snapshot_is_given(self) -> None:
        server = self.partner()
        server.do(*MADE)

        async def follow() -> list[int]:
            given = []
            async with AioClient(server.host, TIMEOUT) as client, client.tree("/t") as tree:
                await tree.wait(WAIT)
                async for snapshot in tree.snapshots():
                    given.append(len(snapshot))
                    if len(snapshot) == 5:
                        break
                    await client.create("/t/new")
            return given

        self.assertEqual(asyncio.run(follow()), [4, 5])
