"""Tests of the engine for what the partner does not do: running out of memory, and answers that end a session."""

from __future__ import annotations

import concurrent.futures
import contextlib
import struct
from typing import Any, Callable, Optional
from unittest import mock

import support
from support import buffer, framed
from test_library import CONNECT_RESPONSE, STAT, STAT_BYTES, reply

from dirwolleu import (
    AuthFailedError,
    CallTimeoutError,
    ConnectionClosedError,
    ConnectionLoss,
    EventType,
    Mark,
    NoAuthError,
    NotConnectedError,
    SessionMovedError,
    State,
    TooManyWatchesError,
    ZookeeperError,
)
from dirwolleu import _records as records
from dirwolleu import _requests as requests
from dirwolleu._asked import Asked
from dirwolleu._connection_stats import Pings, is_ping
from dirwolleu._credentials import Credential, CredentialCall
from dirwolleu._engine import MOST_HANDED, Engine
from dirwolleu._library import DATA_SIDE, SYNC, Answer, Halted, NoMemory
from dirwolleu._records import Mode
from dirwolleu._requests import Request
from dirwolleu._root import Root
from dirwolleu._session import Session
from dirwolleu.exceptions import error_of
from dirwolleu.multi_read import Read, multi_read
from dirwolleu.security import OPEN_ACL_UNSAFE
from dirwolleu.transaction import Transaction


NOTICE = framed(support.notice("/elsewhere"))
REFUSAL = reply(-4, 0, -115)


MADE = buffer(b"/a") + STAT_BYTES
END = struct.pack(">i?i", -1, True, -1)


def transaction() -> Request[Any]:
    made = Transaction(lambda *_: [])
    made.check("/a", 1)
    return made.request()


RAW_CALLS: list[tuple[Callable[[], Request[Any]], bytes]] = [
    (lambda: records.get_acls("/a"), struct.pack(">ii", 1, 31) + buffer(b"world") + buffer(b"anyone") + STAT_BYTES),
    (lambda: records.set_acls("/a", OPEN_ACL_UNSAFE, 1), STAT_BYTES),
    (lambda: records.sync("/a"), buffer(b"/a")),
    (transaction, struct.pack(">i?i", 13, False, 0) + END),
    (lambda: records.create2("/a", b"", None, Mode()), MADE),
    (lambda: records.create("/a", b"", None, Mode(container=True)), MADE),
    (lambda: records.create("/a", b"", None, Mode(ttl_ms=1)), MADE),
    (lambda: multi_read([Read.data("/a")]), struct.pack(">i?i", 4, False, 0) + buffer(b"one") + STAT_BYTES + END),
    (lambda: records.get_ephemerals("/"), struct.pack(">i", 1) + buffer(b"/a")),
    (lambda: records.get_all_children_number("/"), struct.pack(">i", 7)),
    (lambda: records.who_am_i(), struct.pack(">i", 1) + buffer(b"ip") + buffer(b"127.0.0.1")),
]
"""A call of each operation that the core does not read, and the body of an answer."""


class Future(concurrent.futures.Future[Any]):
    """A waiter for an answer here."""

    def begin(self) -> bool:
        return not self.done()


class EngineTest(support.PartnerCase):
    def setUp(self) -> None:
        self.told: list[tuple[Callable[[Any], object], Any]] = []
        self.engine = Engine(6.0, None, lambda function, argument: self.told.append((function, argument)))
        self.addCleanup(self.engine.close)
        self.engine.begin()
        self.engine.addresses(100, 0, 1)
        self.admit(100)

    def admit(self, now: int, granted_ms: int = 4000) -> None:
        """A connection that the session asked for is open, and a server accepts the session."""
        dial = self.engine.take_commands().dial
        assert dial is not None
        self.assertEqual(dial.place, 0)
        self.engine.opened(now)
        self.engine.take_commands()
        self.engine.received(now, CONNECT_RESPONSE[:8] + struct.pack(">i", granted_ms) + CONNECT_RESPONSE[12:])
        self.engine.take_commands()

    def ask(self, request: Request[Any], timeout: Optional[float] = None, now: int = 200) -> Future:
        waiter: Future = Future()
        self.engine.ask(now, request, waiter, timeout)
        self.engine.take_handed(now)
        return waiter

    def test_want_of_memory_within_a_step_leaves_the_session(self) -> None:
        def watch(_: object) -> None: ...

        read = self.ask(requests.get("/a", watch))
        self.engine.received(300, reply(1, 9, 0, buffer(b"one") + STAT_BYTES))
        self.assertEqual(read.result(0), (b"one", STAT))
        lost, session = self.ask(requests.get("/b", None)), self.engine.session_id()
        with mock.patch.object(Session, "received", side_effect=Halted):
            self.engine.received(400, b"bytes")
        with self.raises(ConnectionLoss, -4):
            lost.result(0)
        self.assertEqual((self.engine.session_id(), self.engine.last_zxid()), (session, 9))
        self.assertEqual((self.engine.state, self.engine.take_commands().hangs_up), (State.SUSPENDED, True))
        self.assertIsNone(self.engine.kept("/a"))
        self.assertEqual(self.told, [(watch, (EventType.NONE, State.SUSPENDED, "/a"))])
        self.assertEqual(self.engine.deadline(), 0)
        self.engine.tick(500)
        self.admit(600)
        self.assertEqual((self.engine.session_id(), self.engine.state), (session, State.CONNECTED))

    def test_what_is_followed_is_followed_after_a_want_of_memory(self) -> None:
        woken = list[None]()
        with self.engine.following("/f", DATA_SIDE, lambda: woken.append(None)) as followed:
            self.engine.take_handed(200)
            with mock.patch.object(Session, "received", side_effect=Halted):
                self.engine.received(400, b"bytes")
            self.engine.take_handed(400)
            self.engine.tick(400)
            self.admit(600)
            self.engine.received(700, reply(1, 9, 0, buffer(b"one") + STAT_BYTES))
            kept = self.engine.settled("/f")
            assert kept is not None
            self.assertEqual((kept.data, len(woken), followed.refused), (b"one", 1, None))
        self.engine.take_handed(800)
        self.assertEqual(self.engine._subjects, {})

    def test_bytes_for_which_there_was_no_memory_are_handed_in_again(self) -> None:
        read, received = self.ask(requests.get("/a", None)), Session.received
        with mock.patch.object(Session, "received", autospec=True, side_effect=[NoMemory, mock.DEFAULT]) as tried:
            tried.return_value = received(self.engine._session, 300, reply(1, 9, 0, buffer(b"one") + STAT_BYTES))
            self.engine.received(300, reply(1, 9, 0, buffer(b"one") + STAT_BYTES))
        self.assertEqual((read.result(0), tried.call_count), ((b"one", STAT), 2))
        with mock.patch.object(Session, "received", side_effect=NoMemory):
            self.engine.received(400, reply(-1, 9))
        self.assertEqual((self.engine.state, self.engine.take_commands().hangs_up), (State.SUSPENDED, True))

    def test_a_cut_leaves_reads_and_not_writes(self) -> None:
        calls = [self.ask(requests.get("/a", None)), self.ask(requests.set("/a", b"x", -1))]
        self.engine.cut(300)
        self.assertEqual([call.done() for call in calls], [False, True])
        with self.assertRaises(ConnectionLoss) as caught:
            calls[1].result(0)
        self.assertTrue(caught.exception.may_have_happened)
        self.engine.tick(1000)
        self.admit(1000)
        self.engine.received(1100, reply(3, 9, 0, buffer(b"one") + STAT_BYTES))  # the next xid
        self.assertEqual(calls[0].result(0), (b"one", STAT))

    def test_what_is_closed_is_dialled_no_more(self) -> None:
        closed = self.ask(requests.close_session())
        self.engine.received(300, reply(1, 9))
        self.assertIsNone(closed.result(0))
        self.assertEqual(self.engine.take_commands(), (True, None, b""))
        self.assertEqual((self.engine.is_running, self.engine.session_id(), self.engine.last_zxid()), (False, 0, 9))
        self.engine.tick(10_000)
        self.assertEqual(self.engine.take_commands(), (False, None, b""))
        self.engine.begin()
        self.engine.addresses(20_000, 0, 1)
        self.engine.take_commands()
        self.engine.opened(20_000)
        self.assertEqual(struct.unpack(">iiqiq", self.engine.take_commands().frames[:28])[2:], (9, 6000, 0))

    def introduce(self, now: int) -> None:
        """The next connection introduces itself by two credentials."""
        for credential in (Credential("digest", b"bob:secret"), Credential("x509", b"1")):
            self.ask(CredentialCall(credential), now=now)
        self.engine.received(now, reply(-4, 0) + reply(-4, 0))
        self.engine.cut(now)
        self.engine.tick(now + 1000)
        self.admit(now + 1000)

    def test_credentials_that_are_refused_end_the_session(self) -> None:
        def watch(_: object) -> None: ...

        def listen(_: object) -> None: ...

        read = self.ask(requests.get("/a", watch))
        self.engine.received(300, reply(1, 9, 0, buffer(b"one") + STAT_BYTES))
        self.assertEqual(read.result(0), (b"one", STAT))
        self.engine.add_listener(listen)
        self.introduce(400)
        self.told.clear()
        self.engine.received(1500, reply(-4, 0))
        self.assertEqual((self.engine.state, self.engine.is_running, self.engine.is_authenticated()), (State.CONNECTED, True, False))
        with self.assertLogs("dirwolleu.connection", "ERROR") as logged:
            self.engine.received(1600, REFUSAL + framed(support.notice("/a")) + REFUSAL)
        self.assertEqual([one.getMessage() for one in logged.records], ["the server refuses the credentials of the scheme x509"])
        self.assertEqual((self.engine.state, self.engine.is_running, self.engine.session_id()), (State.LOST, False, 0))
        self.assertEqual(self.told, [(watch, (EventType.CHANGED, State.CONNECTED, "/a")), (listen, State.LOST)])  # what came with it comes first
        self.assertIsNone(self.engine.kept("/a"))
        self.assertEqual(self.engine.take_commands(), (True, None, b""))
        for now in (2000, 10_000):
            self.engine.tick(now)
            self.assertEqual(self.engine.take_commands(), (False, None, b""))

    def test_what_waits_where_credentials_are_refused(self) -> None:
        """A change that was sent after them may have happened."""
        self.introduce(200)
        change = requests.set("/a", b"x", -1)
        asked: list[Request[Any]] = [requests.get("/a", None), change, records.create2("/b", None, None, Mode())]
        sent = [self.ask(request, now=1300) for request in asked]
        self.engine._line.add(Asked(change, waits := Future(), 9000))
        self.engine._handed.append(Asked(change, handed := Future(), 9000))
        with self.assertLogs("dirwolleu.connection", "ERROR"):
            self.engine.received(1400, REFUSAL)
        for call, may_have_happened in zip([*sent, waits, handed], (False, True, True, False, False)):
            error = call.exception(0)
            assert isinstance(error, AuthFailedError)
            self.assertEqual((error.code, error.may_have_happened), (-115, may_have_happened))
            self.assertTrue(str(error).startswith("the server refuses the credentials of the scheme digest: /"))
        with self.raises(AuthFailedError, -115):
            self.ask(requests.get("/a", None))
        self.engine.end()
        with self.raises(AuthFailedError, -115):
            self.ask(records.sync("/"))
        self.engine.begin()
        self.engine.addresses(2000, 0, 1)
        self.admit(2000)
        self.engine.received(2100, reply(-4, 0) + reply(-4, 0))
        self.assertTrue(self.engine.is_authenticated())

    def test_an_attempt_that_is_given_up_is_hung_up(self) -> None:
        self.engine.cut(300)
        self.engine.tick(1000)
        self.assertEqual(self.engine.take_commands().dial, (0, 1333))  # a third of the timeout, which is four seconds
        self.engine.tick(2332)
        self.assertFalse(self.engine.take_commands().hangs_up)
        self.engine.tick(2333)
        self.assertEqual(self.engine.take_commands()[:2], (True, None))

    def test_the_core_has_few_calls_at_once(self) -> None:
        calls = [self.ask(requests.get("/a", None)) for _ in range(MOST_HANDED + 1)]
        self.assertEqual((len(self.engine._sent), self.engine.stats().waiting), (MOST_HANDED, 1))
        self.assertTrue(calls[-1].cancel())
        self.engine.received(300, reply(1, 9, 0, buffer(b"one") + STAT_BYTES))
        self.assertEqual((len(self.engine._sent), self.engine.stats().waiting), (MOST_HANDED - 1, 0))

    def test_all_wait_for_a_server_so_long(self) -> None:
        self.engine.cut(300)
        calls = [self.ask(requests.set("/a", b"x", -1)) for _ in range(MOST_HANDED + 1)]
        for now, count in ((6199, 0), (6200, MOST_HANDED + 1)):
            self.engine.tick(now)
            self.engine.take_handed(now)
            self.assertEqual(sum(call.done() for call in calls), count)
        for call in (calls[0], calls[-1]):
            self.assertIsInstance(call.exception(0), NotConnectedError)

    def test_what_was_asked_before_a_server_came_waits_for_it_no_longer(self) -> None:
        self.engine.cut(300)
        calls = [self.ask(requests.set("/a", b"x", -1)) for _ in range(MOST_HANDED + 1)]
        self.engine.ask(300, requests.get("/b", None), (later := Future()))
        self.engine.tick(6200)
        self.engine.take_handed(6200)
        self.engine.tick(6299)
        self.assertEqual((all(call.done() for call in calls), later.done()), (True, False))
        self.engine.tick(6300)
        self.assertTrue(later.done())

    def test_a_limit_ends_a_call(self) -> None:
        """Its own, or the timeout that was asked for. A server has granted a longer one, so no answer is late yet."""
        self.engine.cut(300)
        self.engine.tick(1000)
        self.admit(1000, 40_000)
        limits = {2.0: CallTimeoutError, None: CallTimeoutError}
        calls = [self.ask(requests.set("/a", b"x", -1), limit, 1000) for limit in limits]
        self.engine.take_commands()
        for now in sorted({*range(1100, 7200, 100), 2999, 6999}):
            self.engine.tick(now)
            self.assertEqual(sum(call.done() for call in calls), (now >= 3000) + (now >= 7000))
        for call in calls:
            with self.assertRaises(CallTimeoutError) as caught:
                call.result(0)
            self.assertTrue(caught.exception.may_have_happened)

    def wait(self, begins: int, ends: int) -> None:
        """Notices come each tenth of a second, pings are answered, and the connection is left at the second moment and at none before."""
        for now in sorted({*range(begins, ends, 100), ends - 1, ends}):
            self.assertLessEqual(self.engine.deadline() or 0, ends)
            self.engine.received(now, NOTICE)
            self.engine.tick(now)
            commands = self.engine.take_commands()
            self.assertEqual(commands.hangs_up, now == ends)
            if is_ping(commands.frames):
                self.engine.received(now, reply(-2, 9))

    def test_a_call_waits_for_two_thirds_of_the_timeout(self) -> None:
        call = self.ask(requests.set("/a", b"x", -1))
        self.engine.take_commands()
        self.wait(300, 2867)  # two thirds of four seconds, rounded up
        with self.raises(ConnectionLoss, -4):
            call.result(0)

    def test_a_ping_waits_for_two_thirds_of_the_timeout(self) -> None:
        """Notices are no answers to it, and neither are those to a call."""
        self.engine.tick(1533)
        self.assertTrue(is_ping(self.engine.take_commands().frames))
        call = self.ask(requests.get("/a", None), now=1600)
        self.engine.take_commands()
        self.engine.received(1700, reply(1, 9, 0, buffer(b"one") + STAT_BYTES))
        self.assertTrue(call.done())
        for now in (*range(1800, 4199, 100), 4199, 4200):
            self.engine.received(now, NOTICE)
            self.engine.tick(now)
            self.assertEqual(self.engine.take_commands().hangs_up, now == 4200)

    def test_a_raw_call_waits_for_two_thirds_of_the_timeout(self) -> None:
        call = self.ask(records.create2("/a", b"x", None, Mode()))
        self.engine.take_commands()
        self.wait(300, 2867)
        with self.raises(ConnectionLoss, -4):
            call.result(0)

    def test_raw_answers_that_are_cut_at_each_byte(self) -> None:
        """They are read when they are whole. If the connection ends before, a call that changes nothing is asked again."""
        for asks, body in RAW_CALLS:
            whole = reply(1, 9, 0, body)
            wanted = self.answered(asks, whole)
            for end in range(len(whole) + 1):
                with self.subTest(asks=asks, end=end):
                    self.assertEqual(self.answered(asks, whole[:end], whole[end:]), wanted)
                    self.check_cut(asks, whole, end, wanted)

    def answered(self, asks: Callable[[], Request[Any]], *pieces: bytes) -> Any:
        """The result of a call whose answer comes in these pieces."""
        self.doCleanups()
        self.setUp()
        call = self.ask(asks())
        for piece in pieces:
            self.assertFalse(call.done() and piece)
            self.engine.received(300, piece)
        return call.result(0)

    def check_cut(self, asks: Callable[[], Request[Any]], whole: bytes, end: int, wanted: Any) -> None:
        """The connection ends after this many bytes of the answer."""
        self.doCleanups()
        self.setUp()
        request = asks()
        call = self.ask(request)
        self.engine.received(300, whole[:end])
        self.engine.cut(400)
        if request.is_repeatable and end < len(whole):
            self.assertFalse(call.done())
            self.engine.tick(1400)
            self.admit(1400)
            self.engine.received(1500, whole[:7] + b"\2" + whole[8:])
        if request.is_repeatable or end == len(whole):
            return self.assertEqual(call.result(0), wanted)
        with self.assertRaises(ConnectionLoss) as caught:
            call.result(0)
        self.assertTrue(caught.exception.may_have_happened)

    def test_the_oldest_call_that_waits_counts(self) -> None:
        calls = [self.ask(requests.get("/a", None))]
        self.engine.take_commands()
        calls.append(self.ask(requests.get("/b", None), now=1000))
        self.engine.take_commands()
        self.engine.received(1500, reply(1, 9, 0, buffer(b"one") + STAT_BYTES))
        self.wait(1600, 3667)
        self.assertEqual([call.done() for call in calls], [True, False])  # a read is asked again

    def test_an_admission_waits_for_two_thirds_of_the_timeout_that_was_granted_last(self) -> None:
        self.engine.cut(300)
        self.engine.tick(1000)
        self.assertIsNotNone(self.engine.take_commands().dial)
        self.engine.opened(1000)
        self.engine.take_commands()
        came = iter(struct.pack(">i", 1000) + bytes(996))
        for now in (*range(1100, 3667, 100), 3666, 3667):
            self.engine.received(now, bytes([next(came)]))
            self.engine.tick(now)
            self.assertEqual(self.engine.take_commands().hangs_up, now == 3667)

    def test_an_answer_that_came_while_nobody_looked_is_in_time(self) -> None:
        """A notice is before it in the stream, and the engine gets it when something was due already."""
        call = self.ask(requests.get("/a", None))
        self.engine.tick(1533)
        self.engine.received(1600, reply(-2, 9))
        self.assertEqual(self.engine.deadline(), 2867)  # two thirds of four seconds after the call
        self.assertEqual([self.engine.in_time(now) for now in (2866, 2867, 2900)], [2866] * 3)
        self.engine.received(self.engine.in_time(2900), NOTICE + reply(1, 9, 0, buffer(b"one") + STAT_BYTES))
        self.engine.tick(2900)
        self.assertEqual((call.done(), self.engine.take_commands().hangs_up), (True, False))

    def test_why_a_connection_is_left_is_told(self) -> None:
        """A read of the session's own that a server answers which no longer has the session, and a call that is not answered."""
        with self.engine.following("/a", DATA_SIDE, lambda: None):
            self.engine.take_handed(200)
            with self.assertLogs("dirwolleu.connection", "WARNING") as told:
                self.engine.received(300, reply(1, 9, -118))
        self.assertEqual(len(told.output), 1)
        self.assertIn("the server has said that the session is over or elsewhere", told.output[0])
        self.engine.tick(1300)
        self.admit(1300)
        self.ask(requests.set("/a", b"x", -1), now=1400)
        with self.assertLogs("dirwolleu.connection", "WARNING") as told:
            self.engine.received(2500, NOTICE)
            self.engine.tick(4067)  # two thirds of four seconds after the call
        self.assertEqual(len(told.output), 1)
        self.assertIn("an answer has taken more than two thirds of the timeout", told.output[0])

    def test_no_memory_for_a_call_is_told_to_its_caller(self) -> None:
        with mock.patch.object(Session, "get_data", side_effect=NoMemory):
            refused = self.ask(requests.get("/a", None))
        with self.raises(NoMemory, None):
            refused.result(0)
        self.assertIs(self.engine.state, State.CONNECTED)

    def test_whatever_fails_at_a_call_is_told_to_its_caller_alone(self) -> None:
        def fail(_: object) -> bytes:
            raise error

        lived = self.ask(requests.get("/a", None))
        for error in (TypeError("wrong"), AttributeError("none"), OverflowError("much"), RuntimeError("other")):
            with mock.patch.object(Session, "get_data", side_effect=error):
                failed = [self.ask(requests.get("/b", None))]
            failed.append(self.ask(records.RawRequest(SYNC, "/b", fail, lambda *_: None)))
            for call in failed:
                with self.raises(type(error), None):
                    call.result(0)
        self.assertEqual((len(self.engine._sent), self.engine.state), (1, State.CONNECTED))
        self.engine.received(300, reply(1, 9, 0, buffer(b"one") + STAT_BYTES))
        self.assertEqual(lived.result(0), (b"one", STAT))

    def test_what_is_asked_of_a_client_that_does_not_run_is_kept_nowhere(self) -> None:
        """Also if it ends while it is asked: then the request is in, and the end leaves it or it is taken back."""
        running = mock.PropertyMock(side_effect=[True, False])
        for ends_within in (False, True):
            self.engine.end()
            self.assertEqual(self.engine.stats().waiting, 0)
            waiter: Future = Future()
            with contextlib.ExitStack() as stack:
                if ends_within:
                    stack.enter_context(mock.patch.object(Engine, "is_running", running, create=True))
                with self.raises(ConnectionClosedError, None):
                    self.engine.ask(200, requests.get("/a", None), waiter)
            self.assertEqual((self.engine.stats().waiting, waiter.cancelled()), (0, True))

    def test_a_session_that_has_moved_leaves_the_connection(self) -> None:
        moved = self.ask(requests.get("/a", None))
        self.engine.received(300, reply(1, 9, -118))
        with self.raises(SessionMovedError, -118):
            moved.result(0)
        self.assertTrue(self.engine.take_commands().hangs_up)

    def test_what_was_to_be_written_goes_with_its_connection(self) -> None:
        self.ask(requests.get("/a", None))
        self.engine.cut(300)
        self.engine.tick(1000)
        self.engine.opened(1000)
        frames = self.engine.take_commands().frames
        self.assertEqual(struct.unpack(">iiqi", frames[:20]), (45, 0, 0, 6000))
        self.assertEqual(len(frames), 49)

    def test_an_answer_that_nobody_waits_for_is_left(self) -> None:
        given_up = self.ask(requests.get("/a", True))
        self.assertTrue(given_up.cancel())
        self.engine.received(300, reply(1, 9, 0, buffer(b"one") + STAT_BYTES))
        kept = self.engine.kept("/a")
        assert kept is not None
        self.assertEqual((kept.mark, kept.data, kept.last_zxid), (Mark.GOOD, b"one", 9))

    def test_a_request_that_is_given_up_before_it_is_sent_is_not_sent(self) -> None:
        waiter: Future = Future()
        self.engine.ask(200, requests.get("/a", None), waiter)
        waiter.cancel()
        self.engine.take_handed(200)
        self.assertEqual(self.engine.take_commands().frames, b"")

    def test_answers_to_pings_are_found_however_they_come(self) -> None:
        answers = [
            CONNECT_RESPONSE, reply(1, 9, 0, buffer(b"one") + STAT_BYTES), reply(-2, 9), reply(-1, -1, 0, b"short"), reply(-4, 0), reply(-2, 9),
        ]  # fmt: skip
        whole = b"".join(answers)
        for size in range(1, 60):
            pings, found = Pings(), list[int]()
            for sent_at in (100, 200, 300):
                pings.sent(sent_at)
            for begin in range(0, len(whole), size):
                found += pings.answered_by(whole[begin : begin + size])
            self.assertEqual((found, bool(pings)), ([100, 200], True))
        self.assertEqual(list(Pings().answered_by(whole)), [])

    def test_an_interrupt_within_a_step_leaves_the_session(self) -> None:
        lost, session = self.ask(requests.get("/b", None)), self.engine.session_id()
        with mock.patch.object(Session, "received", side_effect=KeyboardInterrupt):
            with self.assertRaises(KeyboardInterrupt):
                self.engine.received(400, b"bytes")
        with self.raises(ConnectionLoss, -4):
            lost.result(0)
        self.assertEqual((self.engine.session_id(), self.engine.take_commands().hangs_up), (session, True))

    def test_each_code_has_its_error(self) -> None:
        for kind in ZookeeperError.__subclasses__():
            if kind.code is not None:
                self.assertIs(type(error_of(kind.code)), kind)
        self.assertIs(type(error_of(-102)), NoAuthError)
        other = error_of(-125)
        self.assertEqual((type(other), other.code, ZookeeperError.code), (ZookeeperError, -125, None))

    def test_each_lack_of_a_reply_has_its_error(self) -> None:
        request = requests.get("/a", None)
        for lack, kind in {1: ConnectionLoss, 3: ConnectionClosedError, 5: TooManyWatchesError}.items():
            with self.assertRaises(kind):
                request.result(Answer(1, lack, 0, 0, None, None, []), Root())

    def test_a_client_that_is_closed_takes_no_call(self) -> None:
        waits = self.ask(requests.get("/a", None))
        self.engine.close()
        with self.raises(ConnectionClosedError, None):
            waits.result(0)
        with self.raises(ConnectionClosedError, None):
            self.ask(requests.get("/a", None))
        self.assertEqual((self.engine.session_id(), self.engine.timeout()), (0x1234, 6.0))
        self.assertIsNone(self.engine.deadline())
        self.assertIsNone(self.engine.kept("/a") or self.engine.kept_children("/a"))
        self.engine.cut(300)
        self.engine.forget_stale()
        self.engine.close()
