"""Tests of the texts of errors: the reason, the path as the program named it, and what to do."""

from __future__ import annotations

import contextlib
import functools
import pickle
import socket
from typing import Callable

import support
from both import in_thread
from support import LIMIT, TIMEOUT, WAIT, Partner, PartnerCase, let_pass

from dirwolleu import Client, ConnectionLoss, NoNodeError, NotConnectedError, SessionExpiredError, State, aio
from dirwolleu.exceptions import error_of
from dirwolleu.security import OPEN_ACL_UNSAFE
from dirwolleu.transaction import Transaction


class MessageCase(PartnerCase):
    def said(self, call: Callable[[], object]) -> str:
        """The text of a call's error."""
        try:
            call()
        except Exception as error:
            return str(error)
        raise AssertionError("there is no error")

    def client(self, partner: Partner) -> Client:
        client = Client(partner.host, TIMEOUT)
        self.addCleanup(client.close)
        client.start(WAIT)
        return client


class RefusalTest(MessageCase):
    is_long = True

    def test_a_refused_call_has_its_path_and_reason(self) -> None:
        partner = self.partner()
        partner.do("create /a one", "create /a/b two")
        client = self.client(partner)
        client.create("/e", ephemeral=True)
        for call, wanted in (
            (lambda: client.get("/nope"), "no node: /nope"),
            (lambda: client.create("/x/y/z"), "no node: /x/y"),
            (lambda: client.create("/e/f"), "an ephemeral node has no children: /e"),
            (lambda: client.create("/a"), "there is a node already: /a"),
            (lambda: client.set("/a", b"", 7), "the node has another version: /a; read it again"),
            (lambda: client.delete("/a"), "the node has children: /a; delete them first"),
            (lambda: client.set("/a", bytes(1 << 20)), "the request or its answer is longer than the session allows: /a; send or read less, or raise longest_request or longest_answer"),
        ):
            self.assertEqual(self.said(call), wanted)

    def test_a_refused_transaction_has_the_path_of_its_operation(self) -> None:
        partner = self.partner()
        partner.do("create /a one")
        client = self.client(partner)

        def commit(change: Callable[[Transaction], None]) -> str:
            transaction = client.transaction()
            transaction.check("/a", 0)
            change(transaction)
            return self.said(transaction.commit)

        begin = "operation 1 was refused, and nothing has happened: "
        for change, wanted in (
            (lambda one: one.delete("/nope"), f"{begin}no node: /nope"),
            (lambda one: one.create("/x/y"), f"{begin}no node: /x"),
            (lambda one: one.set_data("/a", b"", 7), f"{begin}the node has another version: /a; read it again"),
            (lambda one: one.delete("/a//b"), "/a//b is no path: an empty name"),
        ):
            self.assertEqual(commit(change), wanted)

    def test_what_is_asked_raw_has_its_path_too(self) -> None:
        partner = self.partner()
        client = self.client(partner)
        for call, wanted in (
            (lambda: client.get_acls("/nope"), "no node: /nope"),
            (lambda: client.create("/x/y", acl=OPEN_ACL_UNSAFE), "no node: /x"),
            (lambda: client.sync("/a/"), "/a/ is no path: an empty name"),
        ):
            self.assertEqual(self.said(call), wanted)

    def test_a_limit_of_the_caller_has_the_path(self) -> None:
        partner = self.partner()
        client = self.client(partner)
        partner.do("mute")
        message = in_thread(lambda: self.said(lambda: client.get("/a", timeout=LIMIT)))
        support.within(lambda: client.stats().in_flight)
        let_pass(client, LIMIT)
        self.assertEqual(message.result(), "no answer has come in time: /a; it may still happen")

    def test_a_text_that_is_no_path_says_why(self) -> None:
        client = self.client(self.partner())
        long = "/" + 4096 * "x"
        for path, wanted in (
            ("", '"" is no path: it is empty'),
            ("a", "a is no path: no slash at its beginning"),
            ("/a//b", "/a//b is no path: an empty name"),
            ("/a/", "/a/ is no path: an empty name"),
            ("/a/../b", "/a/../b is no path: a name that is . or .."),
            ("/a\0", "/a\\x00 is no path: a character that paths do not have"),
            ("/a\ud800", "/a\\ud800 is no path: a character that paths do not have"),
            (long, f"{long[:256]}.. is no path: more than 4096 bytes"),
        ):
            self.assertEqual(self.said(lambda path=path: client.get(path)), wanted)  # type: ignore[misc]
            self.assertEqual(self.said(lambda path=path: client.kept(path)), wanted)  # type: ignore[misc]
        self.assertIsNone(client.kept("/"))

    def test_below_a_root_the_path_is_that_of_the_program(self) -> None:
        partner = self.partner()
        partner.do("create /app x")
        client = Client(f"{partner.host}/app", TIMEOUT)
        self.addCleanup(client.close)
        client.start(WAIT)
        almost = "/" + 4094 * "x"
        for call, wanted in (
            (lambda: client.get("/nope"), "no node: /nope"),
            (lambda: client.create("/x/y"), "no node: /x"),
            (lambda: client.get("/a//b"), "/a//b is no path: an empty name"),
            (lambda: client.kept("/a//b"), "/a//b is no path: an empty name"),
            (lambda: client.kept_children("a"), "a is no path: no slash at its beginning"),
            (lambda: client.sync("/\ud800"), "/\\ud800 is no path: a character that paths do not have"),
            (lambda: client.get(almost), f"{almost[:256]}.. is no path: more than 4096 bytes"),
        ):
            self.assertEqual(self.said(call), wanted)
        with self.assertRaises(NoNodeError) as raised:
            client.get("/nope")
        self.assertEqual(raised.exception.path, "/nope")

    def test_a_root_that_is_no_path_is_named(self) -> None:
        for root, wanted in (
            ("/a//b", "/a//b is no path: an empty name"),
            ("/a/", "/a/ is no path: an empty name"),
            ("/a\udc80", "/a\\udc80 is no path: a character that paths do not have"),
            ("/a/..", "/a/.. is no path: a name that is . or .."),
            ("/" + 4096 * "x", f"/{255 * 'x'}.. is no path: more than 4096 bytes"),
        ):
            for kind in (Client, aio.Client):
                self.assertEqual(self.said(lambda kind=kind, root=root: kind(f"127.0.0.1:1{root}")), wanted)  # type: ignore[misc]

    def start_says(self, client: Client, begin: str, end: str, is_whole: bool = True) -> None:
        """A start says this with its own seconds between the two, as soon as that is known: on a busy machine it gets longer."""
        for seconds in (1.5, 6.0, WAIT):
            message, wanted = self.said(functools.partial(client.start, seconds)), f"{begin}{seconds:g}{end}"
            if message == wanted or (message.startswith(wanted) and not is_whole):
                return
        self.assertEqual(message, wanted)

    def test_where_no_server_is_there_the_last_attempt_is_told(self) -> None:
        host = "127.0.0.1:1"  # no system gives this port away, so no other test listens there
        client = Client(host, timeout=0.5)
        self.addCleanup(client.close)
        self.start_says(client, f"no server of {host} accepted the session in ", f" s; last: {host}: connection refused")

    def test_a_server_that_says_nothing_is_told(self) -> None:
        with socket.create_server(("127.0.0.1", 0)) as silent:
            host = f"127.0.0.1:{silent.getsockname()[1]}"
            client = Client(host, timeout=10.0)
            self.addCleanup(client.close)
            last = "connected, and it has not accepted the session"
            self.start_says(client, f"no server of {host} accepted the session in ", f" s; last: {host}: {last}")

    def test_a_name_without_an_address_is_told(self) -> None:
        client = Client("nowhere.invalid:2181", timeout=0.5)
        self.addCleanup(client.close)
        begin = "no server of nowhere.invalid:2181 accepted the session in "
        self.start_says(client, begin, " s; last: nowhere.invalid: ", is_whole=False)

    def test_a_call_that_finds_no_server_says_so_too(self) -> None:
        partner = self.partner()
        client = Client(partner.host, timeout=3.0)
        self.addCleanup(client.close)
        client.start(WAIT)
        partner.do("mute")
        with contextlib.suppress(ConnectionLoss):
            client.get("/a")
        support.within(lambda: client.state is not State.CONNECTED)
        with self.assertRaises(NotConnectedError) as raised:
            client.get("/a")
        begin = f"no server of {partner.host} accepted the session in 3 s; last: {partner.host}: "
        self.assertTrue(str(raised.exception).startswith(begin), str(raised.exception))

    def test_errors_go_through_pickle(self) -> None:
        for error in (error_of(-101), error_of(-999), SessionExpiredError(), ConnectionLoss("the client was interrupted")):
            error.path = "/a"
            again = pickle.loads(pickle.dumps(error))
            self.assertEqual((type(again), str(again), again.code, again.path), (type(error), str(error), error.code, "/a"))

    def test_a_number_without_a_class_has_words_too(self) -> None:
        for code, words in ((-999, "the server answers -999"), (-127, "the server has too much to do; call again later")):
            self.assertEqual((str(error_of(code)), error_of(code).code), (words, code))
