"""Tests of the session, by frames that are spelled here as zookeeper.jute has them, and of its layouts by the header."""

from __future__ import annotations

import ctypes
import gc
import itertools
import os
import pathlib
import shutil
import struct
import subprocess
import sys
import tempfile
import threading
import time
import unittest
from unittest import mock

import support
from support import buffer, framed, texts

from dirwolleu import _handle as handle
from dirwolleu import _jute as jute
from dirwolleu import _library as library
from dirwolleu import _session as of_session
from dirwolleu._library import Answer, Drop, Report, Send, StateChange
from dirwolleu._root import Root
from dirwolleu._session import NO_LIMIT, Contends, Dial, PlainAction, Session
from dirwolleu.security import ACL, ANYONE_ID_UNSAFE, Id, Permissions
from dirwolleu.types import DataStat, Stat

HEADER = support.CLIENTS.parent / "include" / "dirwolleu.h"
STRUCTS = {
    "dw_session": library._Handle,
    "dw_stat": library._Stat,
    "dw_output": library._Output,
    "dw_data_stat": library._DataStat,
    "dw_kept_data": library._KeptData,
    "dw_kept_names": library._KeptNames,
}

LONGEST_READING = 10.0
"""How long names are read again and again, in seconds of a processor."""

PASSWORD = bytes(range(16))
STAT = Stat(2, 5, 1000, 2000, 3, 4, 0, 0, 5, 1, 6)
STAT_BYTES = struct.pack(">qqqqiiiqiiq", *STAT)


def reply(xid: int, zxid: int, code: int = 0, body: bytes = b"") -> bytes:
    return framed(struct.pack(">iqi", xid, zxid, code) + body)


CONNECT_RESPONSE = framed(struct.pack(">iiq", 0, 4000, 0x1234) + buffer(PASSWORD) + b"\0")
CONNECT_REQUEST = framed(struct.pack(">iqiq", 0, 0, 6000, 0) + buffer(bytes(16)) + b"\0")


def connected(root: Root = Root()) -> Session:
    session = Session(6000, 1, root=root, addresses=1)
    session.moment(100)
    session.opened(100)
    session.received(100, CONNECT_RESPONSE)
    return session


def sent(actions: list[of_session.Action]) -> bytes:
    """The one frame to send, and nothing else."""
    (action,) = actions
    assert isinstance(action, Send), action
    return action.frame


# The unions of the header, by one of their fields.
IN_C = {"detail": "outcome", "result": "reply"}


class LayoutTest(unittest.TestCase):
    def test_structs_are_those_of_the_header(self) -> None:
        compiler = shutil.which("cc")
        if compiler is None:
            self.skipTest("there is no C compiler")
        wanted = [
            (ctypes.sizeof(kind), *(getattr(kind, field[0]).offset for field in kind._fields_))
            for kind in STRUCTS.values()
        ]
        with tempfile.TemporaryDirectory() as folder:
            source, program = pathlib.Path(folder, "layout.c"), pathlib.Path(folder, "layout")
            lines = [
                f"P(sizeof({name})); "
                f"{' '.join(f'P(offsetof({name}, {IN_C.get(field[0], field[0])}));' for field in kind._fields_)} E;"
                for name, kind in STRUCTS.items()
            ]
            source.write_text(
                '#include <stdio.h>\n#define P(n) printf("%zu ", (size_t)(n))\n#define E putchar(10)\n'
                f'#include "{HEADER}"\nint main(void) {{ {" ".join(lines)} return 0; }}\n'
            )
            subprocess.run([compiler, str(source), "-o", str(program)], check=True, timeout=support.WAIT)
            printed = subprocess.run([str(program)], check=True, timeout=support.WAIT, capture_output=True, text=True)
        self.assertEqual([tuple(map(int, line.split())) for line in printed.stdout.splitlines()], wanted)


class NumberTest(unittest.TestCase):
    def test_a_number_that_nobody_knows_says_so(self) -> None:
        wanted = "the library gives the {} 99, which this package does not know: take both of one version"
        for field, what in (("kind", "output"), ("detail", "state")):
            session = Session(6000, 1)
            output = library._Output(kind=library.STATE)
            setattr(output, field, 99)
            with self.assertRaises(library.UnknownNumber) as raised:
                session._read(of_session._fields_of_output(output), b"")
            self.assertEqual(str(raised.exception), wanted.format(what))
        with self.assertRaises(library.UnknownNumber):
            library.checked(-99)

    def test_the_version_is_compared(self) -> None:
        with mock.patch.object(library, "VERSION", 1002003):
            with self.assertRaisesRegex(ImportError, r"is of version 0\.3\.0, and this package of 1\.2\.3: install both of one version"):
                library._load(library._find())

    def test_a_library_of_another_version_is_told_as_that(self) -> None:
        with mock.patch.dict(library._FUNCTIONS, {"dw_of_tomorrow": (None, ())}):
            with self.assertRaisesRegex(ImportError, "of another version than this package: it has no dw_of_tomorrow"):
                library._load(library._find())


class FindTest(unittest.TestCase):
    def test_the_environment_names_the_library(self) -> None:
        with mock.patch.dict(os.environ, {"DIRWOLLEU_LIBRARY": "/a/library.so"}):
            self.assertEqual(library._find(), "/a/library.so")

    def test_the_places_are_looked_at_in_order(self) -> None:
        own = str(support.CLIENTS / "python" / "dirwolleu" / "libdirwolleu.so")
        built = str(support.CLIENTS / "out" / "libdirwolleu.so")
        prebuilt = str(support.CLIENTS.parent / "prebuilt" / "x86_64-linux" / "libdirwolleu.so")
        with mock.patch.dict(os.environ, {"DIRWOLLEU_LIBRARY": ""}), mock.patch("ctypes.util.find_library") as find:
            find.return_value = "libdirwolleu.so.0"
            for missing, wanted in [((), own), ((own,), built), ((own, built), prebuilt), ((own, built, prebuilt), find.return_value)]:
                with mock.patch("os.path.exists", lambda place, missing=missing: place not in missing):
                    self.assertEqual(library._find(), wanted)
            find.return_value = None
            with mock.patch("os.path.exists", return_value=False):
                self.assertRaises(ImportError, library._find)


class MachineTest(unittest.TestCase):
    def test_a_session_begins(self) -> None:
        session = Session(6000, 1, addresses=1)
        self.assertEqual(session.state(), library.IDLE)
        self.assertEqual(session.moment(100), [Dial(0, 2000)])
        self.assertEqual(session.opened(100), [Send(CONNECT_REQUEST), StateChange(library.CONNECTING)])
        self.assertEqual(session.deadline(), 4100)
        self.assertEqual(session.received(200, CONNECT_RESPONSE), [StateChange(library.CONNECTED)])
        self.assertEqual((session.state(), session.timeout_ms(), session.last_zxid()), (library.CONNECTED, 4000, 0))
        self.assertEqual(session.saved(), struct.pack(">q", 0x1234) + buffer(PASSWORD) + struct.pack(">q", 0))

    def test_a_read_is_kept_until_it_is_reported(self) -> None:
        session = connected()
        request = struct.pack(">ii", 1, 4) + buffer(b"/a") + b"\1"
        self.assertEqual(session.get_data(200, 7, NO_LIMIT, "/a", True), [Send(framed(request))])
        answer = Answer(7, 0, library.DATA, 0, STAT, b"hello", [], 9)
        self.assertEqual(session.received(300, reply(1, 9, 0, buffer(b"hello") + STAT_BYTES)), [answer])
        stat = DataStat(2, 5, 1000, 2000, 3, 0, 5)
        self.assertEqual(session.peek_data("/a"), ((library.FULL, 1, stat, b"hello"), 9))
        notice = reply(-1, -1, 0, struct.pack(">ii", 3, 3) + buffer(b"/a"))
        self.assertEqual(session.received(400, notice), [Report(library.DATA_CHANGED, library.DATA_SIDE, "/a")])
        self.assertEqual(session.peek_data("/a")[0].mark, 2)
        session.forget()
        self.assertEqual(session.peek_data("/a"), ((library.NOTHING, 0, None, None), 9))

    def test_bytes_may_come_one_at_a_time(self) -> None:
        session = connected()
        session.get_children(200, 8, NO_LIMIT, "/", True)
        names = struct.pack(">i", 2) + buffer("ö".encode()) + buffer(b"a")
        came = reply(1, 9, 0, names + STAT_BYTES)
        outputs = [output for byte in came for output in session.received(300, bytes([byte]))]
        self.assertEqual(outputs, [Answer(8, 0, library.NAMES, 0, STAT, None, ["ö", "a"], 9)])
        self.assertEqual(session.peek_children("/"), ((1, ("a", "ö"), STAT.pzxid), 9))

    def test_null_data_are_not_empty_data(self) -> None:
        session = connected()
        create = struct.pack(">ii", 1, 1) + buffer(b"/a") + struct.pack(">i", -1)
        sent = session.create(200, 1, NO_LIMIT, "/a", None, library.EPHEMERAL)
        self.assertTrue(isinstance(sent[0], Send) and sent[0].frame[4:].startswith(create))
        set_data = struct.pack(">ii", 2, 5) + buffer(b"/a") + buffer(b"") + struct.pack(">i", 4)
        self.assertEqual(session.set_data(200, 2, NO_LIMIT, "/a", b"", 4), [Send(framed(set_data))])
        created = session.received(300, reply(1, 9, 0, buffer(b"/a")))
        self.assertEqual(created, [Answer(1, 0, library.CREATED, 0, None, b"/a", [], 9)])
        session.received(300, reply(2, 10, -103))
        session.get_data(400, 3, NO_LIMIT, "/a", True)
        answer = session.received(500, reply(3, 11, 0, struct.pack(">i", -1) + STAT_BYTES))
        self.assertEqual(answer, [Answer(3, 0, library.DATA, 0, STAT, None, [], 11)])
        self.assertIsNone(session.peek_data("/a")[0].data)

    def test_what_is_longer_than_the_room_comes_whole(self) -> None:
        session, data, name = connected(), bytes(100_000), "n" * 5000
        session.get_data(200, 1, NO_LIMIT, "/a", True)
        answer = session.received(300, reply(1, 9, 0, buffer(data) + STAT_BYTES))
        self.assertEqual(answer, [Answer(1, 0, library.DATA, 0, STAT, data, [], 9)])
        self.assertEqual(session.peek_data("/a")[0].data, data)
        other = connected()
        other.get_children(200, 1, NO_LIMIT, "/a", True)
        listed = other.received(300, reply(1, 9, 0, struct.pack(">i", 1) + buffer(name.encode()) + STAT_BYTES))
        self.assertEqual(listed, [Answer(1, 0, library.NAMES, 0, STAT, None, [name], 9)])
        self.assertEqual(other.peek_children("/a")[0].names, (name,))

    def test_names_of_each_length_are_kept_in_byte_order(self) -> None:
        session, names = connected(), ["b", "n" * 300, "", "ö", *map(str, range(2000))]
        session.get_children(200, 1, NO_LIMIT, "/a", True)
        spelled = texts(*names)
        session.received(300, reply(1, 9, 0, spelled + STAT_BYTES))
        self.assertEqual(session.peek_children("/a"), ((1, tuple(sorted(names)), STAT.pzxid), 9))
        self.assertEqual(session.peek_children("/b"), ((0, (), 0), 9))

    def test_other_threads_have_turns_while_many_names_are_read(self) -> None:
        """Though nothing makes the one that reads release the interpreter."""
        spelled, turns, is_over = b"".join(buffer(b"%d" % number) for number in range(100_000)), [0], threading.Event()

        def turn() -> None:
            while not is_over.is_set():
                turns[0] += 1
                time.sleep(0)

        self.addCleanup(sys.setswitchinterval, sys.getswitchinterval())
        sys.setswitchinterval(600)
        threading.Thread(target=turn, daemon=True).start()
        before, until = turns[0], time.process_time() + LONGEST_READING
        while turns[0] == before and time.process_time() < until:  # on a busy machine the other thread comes too late for its turn
            self.assertEqual(handle.texts_in(spelled)[99_999], "99999")
        is_over.set()
        self.assertGreater(turns[0], before)

    def test_many_texts_are_those_that_were_spelled(self) -> None:
        digits = [f"{number:010}" for number in range(3000)]
        for names in (
            digits,
            [*digits, "longer than these"],
            [*digits, "shorter"],
            [*digits, "a\0\0\0\nb", "eleven char"],
            [*digits, "\0\0\0\n" + digits[0][4:]],
            ["ö" + name[1:] for name in digits],
            [""] * 3000,
            ["n" * 261] * 300,
        ):
            self.assertEqual(handle.texts_in(texts(*names)[4:]), names)

    def test_a_subtree_is_told_once_nothing_is_lacking(self) -> None:
        session, data_of = connected(), library.DATA_SIDE
        self.assertEqual(session.lacking("/a", 9), [("/a", data_of), ("/a", library.CHILDREN_SIDE)])
        self.assertEqual(session.subtree("/a", 9), (None, 0))
        session.get_data(200, 1, NO_LIMIT, "/a", True)
        session.get_children(200, 2, NO_LIMIT, "/a", True)
        session.received(300, reply(1, 9, 0, buffer(b"hello") + STAT_BYTES))
        session.received(300, reply(2, 9, 0, struct.pack(">i", 1) + buffer("ö".encode()) + STAT_BYTES))
        self.assertEqual(session.lacking("/a", 9), [("/a/ö", data_of), ("/a/ö", library.CHILDREN_SIDE)])
        session.get_data(400, 3, NO_LIMIT, "/a/ö", True)
        session.get_children(400, 4, NO_LIMIT, "/a/ö", True)
        session.received(500, reply(3, 9, 0, struct.pack(">i", -1) + STAT_BYTES))
        session.received(500, reply(4, 9, 0, struct.pack(">i", 0) + STAT_BYTES))
        self.assertEqual(session.lacking("/a", 9), [])
        stat = DataStat(2, 5, 1000, 2000, 3, 0, 5)
        nodes = [handle.SubtreeNode("/a", b"hello", stat, 6), handle.SubtreeNode("/a/ö", None, stat, 6)]
        self.assertEqual(session.subtree("/a", 2), (nodes, 9))
        with self.assertRaises(library.TooManyNodes):
            session.subtree("/a", 1)
        with self.assertRaises(ValueError):
            session.subtree("a", 1)

    def test_a_snapshot_is_of_several_paths_that_are_all_good(self) -> None:
        session, paths = connected(), ["/none", "/ö", "/known"]
        self.assertEqual(session.snapshot(paths, ["/ö"]), (None, 0))
        session.exists(200, 1, NO_LIMIT, "/none", True)
        session.get_data(200, 2, NO_LIMIT, "/ö", True)
        session.exists(200, 3, NO_LIMIT, "/known", True)
        session.get_children(200, 4, NO_LIMIT, "/ö", True)
        session.received(300, reply(1, 8, -101))
        session.received(300, reply(2, 9, 0, buffer(b"hello") + STAT_BYTES))
        session.received(300, reply(3, 9, 0, STAT_BYTES))
        names = struct.pack(">i", 2) + buffer(b"c") + buffer("ä".encode())
        session.received(300, reply(4, 9, 0, names + STAT_BYTES))
        stat = DataStat(2, 5, 1000, 2000, 3, 0, 5)
        nodes = [
            handle.KeptData(library.ABSENT, library.GOOD, None, None),
            handle.KeptData(library.FULL, library.GOOD, stat, b"hello"),
            handle.KeptData(library.KNOWN, library.GOOD, stat, None),
        ]
        children = [handle.KeptNames(library.GOOD, ("c", "ä"), 6)]
        self.assertEqual(session.snapshot(paths, ["/ö"]), ((nodes, children), 9))
        self.assertEqual(session.snapshot([], []), (([], []), 9))
        with self.assertRaisesRegex(ValueError, "^b is no path"):
            session.snapshot(["/ö", "b"], ["/ö"])
        session.received(400, framed(struct.pack(">iqiii", -1, -1, 0, 3, 3) + buffer("/ö".encode())))
        self.assertEqual(session.snapshot(paths, ["/ö"]), (None, 9))
        self.assertEqual(session.snapshot(["/none"], ["/ö"]), ((nodes[:1], children), 9))

    def test_a_snapshot_below_a_root_is_of_its_paths(self) -> None:
        session = connected(Root("/app"))
        session.exists(200, 1, NO_LIMIT, "/a", True)
        session.received(300, reply(1, 9, 0, STAT_BYTES))
        found, last_zxid = session.snapshot(["/a"], [])
        self.assertTrue(found and found.nodes[0].kind == library.KNOWN and last_zxid == 9)

    def test_who_holds_by_the_first_name_of_a_prefix_has_a_token(self) -> None:
        session, own = connected(), "/l/lock-0000000007"
        session.get_data(200, 1, NO_LIMIT, own, True)
        owned = struct.pack(">qqqqiiiqiiq", *Stat(88, 89, 0, 0, 1, 0, 0, 0x1234, 0, 0, 88))
        session.received(300, reply(1, 90, 0, buffer(b"") + owned))
        self.assertIsNone(session.holder("/l", "lock-", own))
        session.get_children(400, 2, NO_LIMIT, "/l", True)
        names = b"".join(map(buffer, (b"lock-0000000007", b"lock-0000000008", b"a")))
        session.received(500, reply(2, 90, 0, struct.pack(">i", 3) + names + STAT_BYTES))
        self.assertEqual(session.holder("/l", "lock-", own), 88)
        self.assertIsNone(session.holder("/l", "", own))
        self.assertIsNone(session.holder("/", "lock-", own))
        for directory, path, none in (("l", own, "l"), ("/l", "lock-", "lock-")):
            with self.assertRaisesRegex(ValueError, f"^{none} is no path"):
                session.holder(directory, "lock-", path)

    def test_who_stands_first_has_a_token_and_others_wait(self) -> None:
        session, own, other = connected(), "x-lock-0000000007", "a-lock-0000000008"
        session.get_data(200, 1, NO_LIMIT, f"/l/{own}", True)
        owned = struct.pack(">qqqqiiiqiiq", *Stat(88, 88, 0, 0, 0, 0, 0, 0x1234, 0, 0, 88))
        session.received(300, reply(1, 90, 0, buffer(b"") + owned))
        names, markers = [other, own, "y-0000000001"], ["lock-", "lock-"]
        self.assertEqual(session.standing("/l", own, names, 90, markers), (88, None))
        self.assertEqual(session.standing("/l", own, names, 87, markers), (None, None))
        self.assertEqual(session.standing("/l", other, names, 90, markers), (None, own))
        with self.assertRaises(ValueError):
            session.standing("/l", own, names, 90, [])
        with self.assertRaises(ValueError):
            session.standing("/l", "a/b", names, 90, markers)

    def test_a_contender_below_a_root_joins_and_is_given_up(self) -> None:
        session, own = connected(Root("/app")), b"/app/l/ab__lock__0000000003"
        create = sent(session.contend(200, 7, "/l", library.KAZOO, "ab", b"me", b"", False))
        self.assertIn(buffer(own[:-10]) + buffer(b"me"), create)
        self.assertIsNone(session.place(7) or session.held(7))
        session.received(300, reply(1, 90, 0, buffer(own)))
        self.assertEqual((session.place(7), session.held(7), session.held(8)), ("/l/ab__lock__0000000003", None, None))
        self.assertEqual(session.give_up(400, 7), [])  # it has asked for its node
        delete = sent(session.received(500, reply(2, 90, -101)))
        self.assertIn(buffer(own), delete)
        self.assertEqual(session.received(600, reply(3, 91)), [Contends(7, library.CONTENDER_GIVEN_UP)])
        self.assertIsNone(session.place(7))
        self.assertEqual(session.give_up(700, 7), [])
        for directory, guid in (("l", "ab"), ("/l", "a/b"), ("/l", "a" * 1_048_576)):
            with self.assertRaises(ValueError):
                session.contend(800, 9, directory, library.KAZOO, guid, b"", b"", False)

    def test_a_contender_that_may_be_there_is_looked_for(self) -> None:
        session = connected()
        fence = sent(session.contend(200, 7, "/l", library.CURATOR_LOCK, "ab", b"", b"", True))
        self.assertIn(buffer(b"/l"), fence)
        listing = sent(session.received(300, reply(1, 90, -110)))
        self.assertIn(buffer(b"/l"), listing)
        name = b"_c_ab-lock-0000000003"
        session.received(400, reply(2, 90, 0, struct.pack(">i", 1) + buffer(name) + STAT_BYTES))
        self.assertEqual(session.place(7), f"/l/{name.decode()}")

    def test_what_a_contender_makes_has_its_acl(self) -> None:
        session, own = connected(), b"/l/ab__lock__0000000003"
        acl = jute.acls([ACL(Permissions.ALL, Id("auth", "")), ACL(Permissions.READ, ANYONE_ID_UNSAFE)])
        made = struct.pack(">i", library.CREATE2) + buffer(own[:-10]) + buffer(b"me") + acl + struct.pack(">i", 3)
        below = struct.pack(">i", library.CREATE2) + buffer(b"/l") + struct.pack(">i", -1) + acl + struct.pack(">i", 0)
        create = sent(session.contend(200, 7, "/l", library.KAZOO, "ab", b"me", acl, False))
        self.assertEqual(create[8:], made)
        self.assertEqual(sent(session.received(300, reply(1, 90, -101)))[8:], below)
        self.assertEqual(sent(session.received(400, reply(2, 91, 0, buffer(b"/l") + STAT_BYTES)))[8:], made)
        listing = sent(session.received(500, reply(3, 92, 0, buffer(own) + STAT_BYTES)))
        self.assertIn(buffer(b"/l"), listing)
        session.received(600, reply(4, 92, 0, struct.pack(">i", 1) + buffer(own[3:]) + STAT_BYTES))
        self.assertEqual(session.place(7), own.decode())
        for bad in (b"\0\0\0\0", acl[:-1], acl + b"\0"):
            with self.assertRaisesRegex(ValueError, "^the bytes spell no ACL of one entry or more$"):
                session.contend(700, 9, "/l", library.KAZOO, "cd", b"", bad, False)

    def test_a_bad_frame_ends_the_connection(self) -> None:
        session = connected()
        session.delete(200, 1, NO_LIMIT, "/a", -1)
        dropped, *others = session.received(300, struct.pack(">i", -5))
        self.assertTrue(isinstance(dropped, Drop) and dropped.fault == "F1" and dropped.words)
        self.assertEqual(others, [Answer(1, 1, 0, 0, None, None, []), StateChange(library.IDLE), PlainAction.HANG_UP])

    def test_a_session_is_put_away_and_taken_up(self) -> None:
        saved = connected().saved()
        session = Session(6000, 1, saved, addresses=1)
        session.moment(100)
        request = struct.pack(">iqiq", 0, 0, 6000, 0x1234) + buffer(PASSWORD) + b"\0"
        self.assertIn(Send(framed(request)), session.opened(100))
        self.assertEqual(Session(6000, 1, saved, addresses=1).saved(), saved)

    def test_what_is_wrong_is_said(self) -> None:
        session = connected()
        for path in ("", "a", "/a/", "/a//b", "/a/../b", "/\0"):
            with self.assertRaises(ValueError):
                session.get_data(200, 1, NO_LIMIT, path, False)
        with self.assertRaises(ValueError):
            session.peek_data("no path")
        with self.assertRaises(ValueError):
            session.create(200, 1, NO_LIMIT, "/a", b"", 4)
        with self.assertRaises(ValueError):
            Session(0, 1)
        with self.assertRaises(ValueError):
            Session(6000, 1, b"short")

    def test_a_look_up_is_of_one_moment_though_steps_go_on(self) -> None:
        session, is_over, looks = connected(), threading.Event(), [0]
        session.get_data(200, 1, NO_LIMIT, "/a", True)
        session.received(300, reply(1, 9, 0, buffer(b"9") + STAT_BYTES))

        def step() -> None:
            """Goes on until there were looks too: on a busy machine the other thread comes later."""
            for xid in itertools.count(2):
                session.get_data(300, xid, NO_LIMIT, "/a", True)
                session.received(300, reply(xid, 8 + xid, 0, buffer(b"%d" % (8 + xid)) + STAT_BYTES))
                if xid >= 3000 and looks[0] > 10 or is_over.is_set():
                    return is_over.set()

        self.addCleanup(is_over.set)
        threading.Thread(target=step, daemon=True).start()
        while not is_over.is_set():
            kept, last_zxid = session.peek_data("/a")
            self.assertEqual(kept.data, b"%d" % last_zxid)
            looks[0] += 1

    def test_a_closed_machine_says_so(self) -> None:
        session = connected()
        session.close()
        session.close()
        for use in (lambda: session.moment(300), lambda: session.peek_data("/a"), session.saved, session.deadline):
            with self.assertRaises(RuntimeError):
                use()
        del session
        gc.collect()
