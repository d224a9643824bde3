"""Tests of how the objects of both clients show themselves, and of their messages for names that they do not have."""

from __future__ import annotations

import copy
import pickle
import signal
import subprocess
import sys
import unittest
from typing import Any, Callable

from both import AioCase, BothCase
from support import CLIENTS, WAIT, Partner, PartnerCase, within

import dirwolleu
from dirwolleu import Client, NoNodeError, aio, security
from dirwolleu._session import Session
from dirwolleu._shown import credential_of


class ShownRules(BothCase):
    name = "dirwolleu.Client"

    def setUp(self) -> None:
        super().setUp()
        self.server = self.shared_partner()
        self.one = self.client(self.server.host)

    def own(self, one: Any) -> Any:
        return getattr(one, "_made", one)

    def test_what_is_shown(self) -> None:
        session = f"{self.one.session_id:#x}"
        self.assertEqual(repr(self.own(self.one)), f"<{self.name} of {self.server.host}: CONNECTED, session {session}>")
        lock = self.recipe("Lock", self.one, "/shown")
        self.assertEqual(repr(self.own(lock)), "<Lock at /shown>")
        held = lock.acquire(WAIT)
        self.assertEqual(repr(self.own(held)), f"<Held {held.path}, token {held.token}>")
        held.release()
        self.assertEqual(repr(self.own(held)), f"<Held {held.path}, token {held.token}, not held>")
        registration = self.recipe("Registration", self.one, "/registered")
        within(lambda: repr(self.own(registration)) == "<Registration of /registered, registered>")
        registration.withdraw()

    def test_what_is_elsewhere_than_in_kazoo_is_named(self) -> None:
        package = self.name.rpartition(".")[0]
        with self.assertRaisesRegex(AttributeError, rf"^a {self.name} has no Lock: {package}\.Lock\(client, \.\.\) makes one$"):
            getattr(self.own(self.one), "Lock")
        with self.assertRaisesRegex(AttributeError, rf"^a {self.name} has no nothing$"):
            getattr(self.own(self.one), "nothing")
        lock = self.own(self.recipe("Lock", self.one, "/shown"))
        for name in ("release", "is_acquired", "token"):
            with self.assertRaisesRegex(AttributeError, f"^a Lock has no {name}: what acquire\\(\\) returns has is_held and release\\(\\)$"):
                getattr(lock, name)

    def test_a_client_is_not_copied(self) -> None:
        makes: tuple[Callable[[Any], Any], ...] = copy.copy, copy.deepcopy, pickle.dumps
        for make in makes:
            with self.assertRaisesRegex(TypeError, f"^a {self.name} has a connection of its own"):
                make(self.own(self.one))

    def test_what_is_no_acl_is_told(self) -> None:
        for wrong in ("x", [1], [None], [("world", "anyone")], [security.ACL(31, None)]):  # type: ignore[arg-type]
            with self.assertRaisesRegex(TypeError, "security.ACL"):
                self.one.set_acls("/", wrong)
            with self.assertRaisesRegex(TypeError, "security.ACL"):
                self.one.create("/a", acl=wrong)
        self.assertTrue(self.one.connected)

    def test_a_root_that_is_not_there_is_named(self) -> None:
        client = self.client(f"{self.server.host}/not/there")
        calls: list[Callable[[], Any]] = [lambda: client.get("/"), lambda: client.get_children("/"), lambda: client.create("/a")]
        calls.append(lambda: client.get_acls("/"))
        for call in calls:
            with self.assertRaises(NoNodeError) as caught:
                call()
            self.assertEqual(str(caught.exception), "no node: /; that is the root of this client, /not/there")
        with self.assertRaises(NoNodeError) as caught:
            client.get("/a")
        self.assertEqual(str(caught.exception), "no node: /a")


class ThreadsTest(ShownRules):
    pass


class AioTest(AioCase, ShownRules):
    name = "dirwolleu.aio.Client"


class SecretTest(unittest.TestCase):
    def test_a_credential_is_not_shown(self) -> None:
        for client in (Client("127.0.0.1:1", auth_data=[("digest", "bob:secret")]), aio.Client("127.0.0.1:1", auth_data=[("digest", b"bob:secret")])):
            self.assertNotIn("secret", repr(vars(client._engine._credentials)))
            self.assertNotIn("secret", repr(client))
        credential = credential_of("digest", "bob:secret")
        self.assertEqual((repr(credential), credential.credential), ("Credential(scheme='digest', credential=..)", b"bob:secret"))

    def test_the_version(self) -> None:
        self.assertEqual(dirwolleu.__version__, (CLIENTS.parent / "VERSION").read_text().strip())


class InterruptTest(PartnerCase):
    def test_an_interrupt_of_a_wait_shows_little_of_ours(self) -> None:
        program = (
            "import dirwolleu, sys\n"
            "with dirwolleu.Client(sys.argv[1]) as client:\n"
            "    for kept in client.follow('/config'):\n"
            "        print(kept.exists, flush=True)\n"
        )
        partner: Partner = self.partner()
        command = [sys.executable, "-c", program, partner.host]
        process = subprocess.Popen(command, cwd=CLIENTS / "python", stdout=subprocess.PIPE, stderr=subprocess.PIPE, text=True)
        assert process.stdout is not None
        self.assertEqual(process.stdout.readline(), "False\n")
        process.send_signal(signal.SIGINT)
        _, said = process.communicate(timeout=3 * WAIT)
        self.assertTrue(said.endswith("KeyboardInterrupt\n"), said)
        self.assertLessEqual(said.count('File "'), 3, said)


class DeletedTest(unittest.TestCase):
    def test_what_was_not_made_is_freed_without_a_word(self) -> None:
        Session.__new__(Session).__del__()


def load_tests(loader: unittest.TestLoader, *_: Any) -> unittest.TestSuite:
    """The rules are no test by themselves."""
    kinds = ThreadsTest, AioTest, SecretTest, InterruptTest, DeletedTest
    return unittest.TestSuite(loader.loadTestsFromTestCase(one) for one in kinds)
