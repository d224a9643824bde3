"""Tests of values that no call accepts: the thread that calls gets the error at once, and the client goes on."""

from __future__ import annotations

import functools
import math
import unittest
from typing import Any, Callable

from both import AioCase, BothCase
from support import WAIT

from dirwolleu import BadVersionError

Row = tuple[Callable[[], Any], str]

NO_PATHS = (None, b"/x", 5)
OF_A_PATH = (
    "get", "exists", "get_children", "create", "create2", "delete", "ensure_path", "sync", "get_acls", "kept", "kept_children",
    "tree", "DataWatch", "get_async", "exists_async", "get_children_async", "create_async", "create2_async", "delete_async",
    "ensure_path_async", "sync_async", "get_acls_async",
)  # fmt: skip
"""The functions of a client that can be called with a path alone."""
WITH_VERSIONS: tuple[tuple[str, tuple[Any, ...]], ...] = (
    ("set", (b"x",)), ("delete", ()), ("set_acls", ([],)), ("set_async", (b"x",)), ("delete_async", ()), ("set_acls_async", ([],)),
)  # fmt: skip
"""The functions of a client that take a version last, with the arguments before that."""
RECIPES = ("Lock", "ReadLock", "Semaphore", "Election", "Registration")


class CheckRules(BothCase):
    """One client for threads, and the same of asyncio below."""

    def setUp(self) -> None:
        super().setUp()
        self.one = self.client(self.partner().host)

    def make(self, *words: Any, **named: Any) -> Callable[[], Any]:
        """The function that makes a client."""
        return lambda: self.made(lambda: self.module().Client(*words, **named))

    def refused(self, kind: type[BaseException], *rows: Row) -> None:
        """Each call raises an error of exactly this class and these words, and the client answers the next call."""
        for call, words in rows:
            with self.subTest(words=words):
                with self.assertRaises(kind) as caught:
                    call()
                self.assertEqual((type(caught.exception), str(caught.exception)), (kind, words))
        self.assertIsNone(self.one.exists("/none", timeout=WAIT))
        self.assertEqual((self.one.stats().waiting, self.one.stats().in_flight), (0, 0))

    def test_a_path_is_a_str(self) -> None:
        for path in NO_PATHS:
            words, transaction = f"a path is a str, and not {type(path).__name__}", self.one.transaction()
            calls = [*(getattr(self.one, name) for name in OF_A_PATH), transaction.create, transaction.delete]
            self.refused(TypeError, *((functools.partial(call, path), words) for call in calls))
            recipes = (functools.partial(self.recipe, name, self.one, path) for name in RECIPES)
            self.refused(TypeError, *((call, words) for call in recipes))
            self.refused(
                TypeError,
                (lambda: self.one.set(path, b""), words),
                (lambda: self.one.set_acls(path, []), words),
                (lambda: self.one.delete(path, recursive=True), words),
                (lambda: self.one.delete_async(path, recursive=True), words),
                (lambda: self.one.snapshot(["/a", path]), words),
                (lambda: transaction.check(path, 1), words),
                (lambda: transaction.set_data(path, b""), words),
                (lambda: self.recipe("Barrier", self.one, path).wait(), words),
                (lambda: self.recipe("DoubleBarrier", self.one, path, 2), words),
                (lambda: self.recipe("Counter", self.one, path).get(), words),
                (lambda: self.recipe("Queue", self.one, path).get(), words),
            )

    def refused_version(self, kind: type[BaseException], version: Any, words: str) -> None:
        """Each call that takes a version refuses this one."""
        transaction = self.one.transaction()
        calls = [functools.partial(getattr(self.one, name), "/v", *before) for name, before in WITH_VERSIONS]
        calls += [functools.partial(transaction.check, "/v"), functools.partial(transaction.delete, "/v")]
        calls += [functools.partial(transaction.set_data, "/v", b""), functools.partial(self.one.delete, "/v", recursive=True)]
        self.refused(kind, *((functools.partial(call, version), words) for call in calls))

    def test_a_version_is_an_int(self) -> None:
        for version in ("1", 1.0, None):
            self.refused_version(TypeError, version, f"a version is an int, and not {type(version).__name__}")

    def test_a_version_fits_into_32_bits(self) -> None:
        """Else another number would be sent: for 2^32 0, which is the node's version, and for 2^32 - 1 any."""
        self.one.create("/v", b"one")
        for version in (2**31, 2**32, 2**32 - 1, 2**33 + 2, -(2**31) - 1):
            self.refused_version(ValueError, version, f"{version} does not fit into 32 bits")
        for version in (2**31 - 1, -(2**31)):
            with self.raises(BadVersionError, -103):
                self.one.set("/v", b"two", version)
        self.assertEqual(self.one.get("/v")[0], b"one")

    def test_the_bound_of_a_tree_is_an_int(self) -> None:
        for most, kind, words in (
            (2.5, TypeError, "the bound of a tree is an int, and not float"),
            (0, ValueError, "a tree has one node at least"),
            (2**64 + 3, ValueError, f"{2**64 + 3} does not fit into 64 bits"),
        ):
            self.refused(kind, (functools.partial(self.one.tree, "/", most=most), words))

    def test_a_timeout_is_a_number_of_seconds(self) -> None:
        words = "a timeout is 0.001 to 2147483.647 seconds"
        for timeout in (math.inf, math.nan, -math.inf, 0, 0.0001, 2147483.648):
            self.refused(ValueError, (self.make("a", timeout), words))
        self.assertIsNone(self.one.exists("/none", timeout=math.inf))

    def test_data_are_bytes_or_none(self) -> None:
        words = "data are bytes or None, and not str"
        calls = (self.one.set, self.one.set_async, self.one.create, self.one.create_async, self.one.create2, self.one.transaction().set_data)
        self.refused(TypeError, *((functools.partial(call, "/a", "text"), words) for call in calls))
        registration = self.recipe("Registration", self.one, "/workers/one", b"first")
        self.assertTrue(registration.wait(WAIT))
        self.refused(
            TypeError,
            (lambda: self.recipe("Registration", self.one, "/workers/other", "text"), words),
            (lambda: registration.set("text"), words),
            (lambda: self.recipe("Queue", self.one, "/queue").put("text"), words),
        )
        registration.set(b"second")
        self.assertEqual(self.one.get("/workers/one")[0], b"second")


    def test_what_a_client_is_made_of(self) -> None:
        pairs = "auth_data are pairs, each of a scheme and its credential"
        self.refused(
            TypeError,
            (self.make(None), "a text of hosts is a str, and not NoneType"),
            (self.make(["a:1"]), "a text of hosts is a str, and not list"),
            (lambda: self.one.set_hosts(None), "a text of hosts is a str, and not NoneType"),
            (self.make("a", saved="xx"), "a saved session is bytes, and not str"),
            (self.make("a", retry=3), "a policy is a Retry, and not int"),
            (self.make("a", auth_data=["digest"]), pairs),
            (self.make("a", auth_data=["ab"]), pairs),
            (self.make("a", auth_data=[("digest",)]), pairs),
            (self.make("a", auth_data=[("digest", 5)]), "a credential is a str or bytes, and not int"),
            (self.make("a", auth_data=[(None, "bob:secret")]), "a scheme is a str, and not NoneType"),
            (lambda: self.one.add_auth("digest", None), "a credential is a str or bytes, and not NoneType"),
            (lambda: self.one.add_auth_async(b"digest", "bob:secret"), "a scheme is a str, and not bytes"),
        )

    def test_what_is_called_is_a_function(self) -> None:
        reads = (self.one.get, self.one.exists, self.one.get_children, self.one.get_async)
        self.refused(
            TypeError,
            (lambda: self.one.add_listener(5), "a listener is a function, and not int"),
            (lambda: self.one.DataWatch("/", 5), "what a watch calls is a function, and not int"),
            (lambda: self.one.ChildrenWatch("/", "x"), "what a watch calls is a function, and not str"),
            *((functools.partial(read, "/", watch=5), "a watch that is no bool is a function, and not int") for read in reads),
        )

    def test_an_identifier_is_a_str(self) -> None:
        rows: tuple[tuple[str, tuple[Any, ...]], ...] = (*((name, ()) for name in RECIPES[:4]), ("DoubleBarrier", (2,)))
        told = "an identifier is a str, and not bytes"
        self.refused(TypeError, *((functools.partial(self.recipe, name, self.one, "/l", *words, identifier=b"x"), told) for name, words in rows))


class ThreadsTest(CheckRules):
    def test_what_is_followed_is_a_path(self) -> None:
        self.refused(
            TypeError,
            (lambda: self.one.follow(None), "a path is a str, and not NoneType"),
            (lambda: self.one.follow_children(b"/a"), "a path is a str, and not bytes"),
        )


class AioTest(AioCase, CheckRules):
    def test_what_is_followed_is_a_path(self) -> None:
        self.refused(
            TypeError,
            (lambda: self.one._call(self.one._made.follow(None).__anext__), "a path is a str, and not NoneType"),
            (lambda: self.one._call(self.one._made.follow_children(b"/a").__anext__), "a path is a str, and not bytes"),
        )


def load_tests(loader: unittest.TestLoader, *_: Any) -> unittest.TestSuite:
    """The rules are no test by themselves."""
    return unittest.TestSuite(loader.loadTestsFromTestCase(one) for one in (ThreadsTest, AioTest))
