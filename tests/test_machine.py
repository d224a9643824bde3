"""A session of the C library against the proved server in memory, by the rows of machine/: each number and text that a program gets.

Steps have the names of include/dirwolleu.h. The wanted lines follow from the header and zookeeper.jute; a field that a kind does not name is 0.
"""

from __future__ import annotations

import os
import struct
import subprocess
import tempfile
import unittest
from ctypes import byref, c_int64, create_string_buffer
from pathlib import Path
from typing import Any, Callable

from machine import LONGEST_FRAME, MOST_NUMBER, Handle, Server, number_of, spelled_lines, text_line, word_of
from outside import COMPILER, lacks_compiler
from shell import TOP
from tables import HERE, Row, bytes_of, cases_of

from dirwolleu import _library as declared  # machine has put it on the path
from dirwolleu.testing import _library as bench

ARCHIVE = Path(os.environ.get("DIRWOLLEU_ARCHIVE", TOP / "prebuilt/x86_64-linux/libffi_c.a"))
TIMEOUT_MS = 9_000
APART_MS = 100
"""From one step to the next where rows have no moment: no ping is due in the session."""
LONGEST_PIECE = 64
WHOLE = 1 << 16
MOST_TURNS = 1_000
"""More turns than a step has."""
NO_LIMIT = 2**64 - 1
MARKERS = b"\0\0\0\x05lock-\0\0\0\x05lock-"


def data_of(word: str) -> tuple[bytes, bool]:
    """Data, and whether they are null, which is `-`."""
    return (b"", True) if word == "-" else (bytes_of(word), False)


def said_number(name: str, result: int) -> list[str]:
    return [f"{name} {result}"] if result else []


def copied_lines(name: str, copied: tuple[int, int, bytes]) -> list[str]:
    """The number of bytes that a look-up wrote and those that fitted, or its result."""
    result, count, written = copied
    return said_number(name, result) if result else [f"{name} {count} {list(written)}"]


class KeptPlay:
    """A session with its server. A step is a row; calls leave a watch, wait without a limit, and have the moment as their ticket."""

    def __init__(self, piece: int) -> None:
        self._piece, self._now = piece, 0
        self._session, self._server = Handle(), Server()
        self._session.call("open", TIMEOUT_MS, 1, 1)
        self._session.call("moment", 0)

    def play(self, words: list[str]) -> list[str]:
        """Makes a step, and answers its lines."""
        self._now += APART_MS
        name, rest = words[0], words[1:]
        look_up: Callable[..., list[str]] | None = getattr(self, f"_{name}", None)
        if look_up:
            return look_up(*rest)
        return said_number("event", self._step(name, rest)) + self._settle()

    def _step(self, name: str, rest: list[str]) -> int:
        session, now = self._session, self._now
        if name == "opened":
            self._server.connect(1)
        elif name == "expire":
            self._server.expire(True)
            return session.call("moment", now)
        elif name == "resume":
            _, _, saved = session.counted("saved")
            resumed = session.call("resume", TIMEOUT_MS, 1, 1, saved)
            return resumed or session.call("moment", now)
        elif name == "forget":
            return session.call(name)
        if name in ("exists", "get_data", "get_children"):
            return session.call(name, now, now, NO_LIMIT, bytes_of(rest[0]), True)
        if name in ("create", "set_data"):
            return session.call(name, now, now, NO_LIMIT, bytes_of(rest[0]), *data_of(rest[1]), int(rest[2]))
        if name == "delete":
            return session.call(name, now, now, NO_LIMIT, bytes_of(rest[0]), int(rest[1]))
        return session.call(name, now, now, NO_LIMIT) if name == "close" else session.call(name, now)

    def _settle(self) -> list[str]:
        """Goes on until the server has nothing to say. Its bytes come in pieces."""
        lines: list[str] = []
        for _ in range(MOST_TURNS):
            lines += self._pass_on()
            piece = self._server.piece(self._piece)
            if not piece:
                break
            lines += said_number("bytes", self._session.call("bytes", self._now, piece))
        return lines

    def _pass_on(self) -> list[str]:
        """Hands the frames to the server, and answers the lines of what else is said, but for connections."""
        lines: list[str] = []
        frames = b""
        for output in self._session.outputs():
            if output.kind == declared.SEND:
                frames += self._session.text(output.length)[1]
            elif output.kind not in (declared.DIAL, declared.HANG_UP):
                lines += self._output_lines(output)
        self._server.answer(frames)
        return lines

    def _output_lines(self, output: declared._Output) -> list[str]:
        lines = [
            f"{output.kind} {output.detail} {output.result} {output.code} ticket {number_of(output.ticket)} zxid {output.zxid}"
            f" null {word_of(output.is_null)} stat {word_of(output.has_stat)} version {output.stat.version} pzxid {output.stat.pzxid}"
        ]
        if output.length:
            lines.append(text_line(self._session.text()[1]))
        lines += [text_line(self._session.name(index)) for index in range(output.names)]
        return lines + spelled_lines(self._session.counted("names")[2])

    def _peek(self, path: str) -> list[str]:
        """What is kept of a path: its data, the number of names, and the names."""
        spelled, lines = bytes_of(path), []
        data, names = declared._KeptData(), declared._KeptNames()
        room = create_string_buffer(WHOLE)
        if self._session.call("peek_data", spelled, byref(data), room, WHOLE) == declared.OK:
            lines.append(f"data {data.kind} {data.mark} null {word_of(data.is_null)}")
            lines += [text_line(room.raw[: data.length])] if data.length else []
        if self._session.call("peek_children", spelled, byref(names)) == declared.OK:
            lines.append(f"names {names.mark} {names.count} pzxid {names.pzxid}")
        return lines + spelled_lines(self._session.counted("peek_names", spelled)[2])

    def _subtree(self, path: str, most: str) -> list[str]:
        """The nodes at and below a path, if they are at most this many, and the reads that `lacking` names."""
        words = (bytes_of(path), int(most))
        nodes, lacking = self._session.counted("subtree", *words), self._session.counted("lacking", *words)
        return copied_lines("nodes", nodes) + copied_lines("lacking", lacking)

    def _snapshot(self, nodes: str, parents: str) -> list[str]:
        """What is kept of these nodes, and of the names below these parents: paths, each after its length."""
        return copied_lines("shown", self._session.counted("snapshot", bytes_of(nodes), bytes_of(parents)))

    def _standing(self, name: str, listed: str, *names: str) -> list[str]:
        """Whether the session comes first in `/l` by its node of this name, by these names that were listed at a zxid."""
        spelled = b"".join(struct.pack(">i", len(other)) + other.encode() for other in names)
        token = c_int64()
        words = (b"/l", name.encode(), spelled, int(listed), MARKERS, byref(token))
        result, _, before = self._session.counted("standing", *words)
        said = {declared.OK: [f"first {token.value}"], declared.WAITS: [text_line(before)], declared.NONE: ["unsure"]}
        return said.get(result, said_number("standing", result))

    def _holder(self, directory: str, prefix: str, path: str) -> list[str]:
        """Whether the session holds by its node of this path, of the names in a directory that begin with a prefix."""
        result, token = self._session.token("holder", bytes_of(directory), bytes_of(prefix), bytes_of(path))
        said = {declared.OK: [f"holds {token}"], declared.NONE: ["holds not"]}
        return said.get(result, said_number("holder", result))


class SessionPlay:
    """A dw_session. A row begins with the moment of its step, which is its ticket too."""

    def __init__(self) -> None:
        self._session = Handle()
        self._session.call("open", TIMEOUT_MS, 1, 1)

    def play(self, words: list[str]) -> list[str]:
        if words == ["deadline"]:
            due = self._session.deadline()
            return ["nothing is due" if due is None else f"due at {due}"]
        now, name, *rest = words
        return [f"at {now}: {self._step(int(now), name, rest)}"] + self._turn(int(now), name)

    def _turn(self, now: int, name: str) -> list[str]:
        """The outputs of the step, and what follows."""
        raise NotImplementedError

    def _step(self, now: int, name: str, rest: list[str]) -> int:
        session = self._session
        if name == "bytes":
            return session.call(name, now, bytes_of(rest[0]))
        if name == "raw":
            body = b"\0" * int(rest[1][2:]) if rest[1].startswith("0*") else bytes_of(rest[1])
            return session.call(name, now, now, NO_LIMIT, int(rest[0]), body)
        if name == "get_data":
            until = NO_LIMIT if rest[1] == "-" else int(rest[1])
            return session.call(name, now, now, until, bytes_of(rest[0]), False)
        if name == "create":
            return session.call(name, now, now, NO_LIMIT, bytes_of(rest[0]), *data_of(rest[1]), int(rest[2]))
        if name == "follow_tree":
            return session.call(name, now, now, bytes_of(rest[0]), int(rest[1]))
        if name == "follow_data":
            return session.call(name, now, now, bytes_of(rest[0]))
        if name in ("unfollow", "unfollow_tree"):
            return session.call(name, now, int(rest[0]))
        return session.call(name, now, now, NO_LIMIT) if name == "close" else session.call(name, now)

    @staticmethod
    def line_of(output: declared._Output, length: int) -> str:
        return (
            f"{output.kind} {output.detail} {output.result} {output.code} number {number_of(output.ticket)}"
            f" place {min(output.names, MOST_NUMBER)} sent {word_of(output.is_null)} length {length}"
        )


class ServedPlay(SessionPlay):
    """A session with the server in memory, which answers a `get_data`, and what is sent at `bytes`, only at the next step of another kind."""

    def __init__(self) -> None:
        super().__init__()
        self._server = Server()

    def _step(self, now: int, name: str, rest: list[str]) -> int:
        if name == "opened":
            self._server.connect(1)
        elif name in ("expire", "admit"):
            self._server.expire(name == "expire")
            name = "moment"
        return super()._step(now, name, rest)

    def _turn(self, now: int, name: str) -> list[str]:
        lines = self._pass_on()
        if name in ("get_data", "bytes"):
            return lines
        for _ in range(MOST_TURNS):
            heard = self._hear(now)
            if not heard:
                break
            lines += heard + self._pass_on()
        return lines

    def _pass_on(self) -> list[str]:
        lines = []
        for output in self._session.outputs():
            length, text = self._session.text()
            if output.kind == declared.SEND:
                self._server.hear(text)
                self._server.process(0)
            else:
                lines.append(self.line_of(output, length))
        return lines

    def _hear(self, now: int) -> list[str]:
        """Hands in the bytes of the server, or else makes a step if one is due."""
        came = self._server.say()
        if came:
            return [f"bytes: {self._session.call('bytes', now, came)}"]
        due = self._session.deadline()
        return [f"due: {self._session.call('moment', now)}"] if due is not None and due <= now else []


class SpelledPlay(SessionPlay):
    """A session whose server's bytes are in the rows. Of each text the first 32 bytes are compared."""

    def _turn(self, now: int, name: str) -> list[str]:
        lines = []
        for output in self._session.outputs():
            length, text = self._session.text(LONGEST_FRAME)
            lines += [self.line_of(output, length)] + spelled_lines(text[:32])
        return lines


class ServerPlay:
    """A server in memory. Each step is answered by what is sent then."""

    CHANGES = {"made": bench.MADE, "written": bench.WRITTEN}

    def __init__(self) -> None:
        self._server, self._now = Server(), 0

    def play(self, words: list[str]) -> list[str]:
        self._step(*words)
        said = self._server.say()
        return [said.hex()] if said else []

    def _step(self, name: str, *rest: str) -> None:
        server = self._server
        if name in self.CHANGES:
            data = bytes.fromhex(rest[1].strip("'"))
            server.change(self._now, self.CHANGES[name], rest[0], data, *map(int, rest[2:]))
        elif name == "send":
            payload = bytes.fromhex(rest[0])
            for piece in (struct.pack(">i", len(payload)), payload):
                server.hear(piece)
                server.process(self._now)
        elif name == "now":
            self._now = int(rest[0])
        elif name == "expire":
            server.expire(True)
        else:
            getattr(server, name)(*map(int, rest))


class MachineTest(unittest.TestCase):
    def _rows(self, table: str, rows: list[Row], play: KeptPlay | SessionPlay | ServerPlay, beside: str = "") -> None:
        for row in rows:
            self.assertEqual(row.wanted, play.play(row.words), f"{table}:{row.line}: {' '.join(row.words)}{beside}")

    def test_what_is_kept(self) -> None:
        """Each session whole, and then with the server's bytes in pieces of each length up to 64: the same is told."""
        for case in cases_of("machine/kept.txt"):
            for piece in (WHOLE, *range(1, LONGEST_PIECE + 1)):
                self._rows("machine/kept.txt", case.rows, KeptPlay(piece), f", in pieces of {piece}")

    def test_sessions(self) -> None:
        for case in cases_of("machine/sessions.txt"):
            self._rows("machine/sessions.txt", case.rows, ServedPlay())

    def test_servers(self) -> None:
        for case in cases_of("machine/served.txt"):
            self._rows("machine/served.txt", case.rows, ServerPlay())

    def test_requests_that_callers_spell(self) -> None:
        for case in cases_of("machine/raw_requests.txt"):
            self._rows("machine/raw_requests.txt", case.rows, SpelledPlay())


class CountsTest(unittest.TestCase):
    """How often steps request memory: counts.c over the static library, whose heap is the test's."""

    @unittest.skipIf(lacks_compiler(), "there is no C compiler")
    def test_a_notice_costs_its_report(self) -> None:
        sources = [HERE / "counts.c", TOP / "clients/c/tests/refusing_heap.c", ARCHIVE]
        with tempfile.TemporaryDirectory() as folder:
            flags = ["-std=c11", "-Wall", "-Wextra", "-Wpedantic", "-Werror", f"-I{TOP}/include", f"-I{TOP}/clients/c"]
            subprocess.run([*COMPILER, *flags, *map(str, sources), "-o", f"{folder}/counts"], check=True)
            subprocess.run([f"{folder}/counts"], check=True)


class SpelledTest(unittest.TestCase):
    """The server in memory ends the connection at a request that it does not read, and sends nothing."""

    NUMBERS = (6, 7, 9, 14, 15, 19, 21, 22, 103, 104, 107)
    """The type of each operation that only a caller spells."""

    def test_a_server_in_memory_ends_at_a_spelled_call(self) -> None:
        for number in self.NUMBERS:
            with self.subTest(number=number):
                session, server = Handle(), Server()
                server.connect(1)
                session.call("open", TIMEOUT_MS, 1, 1)
                for step in ("moment", "opened"):
                    self.assertEqual(session.call(step, 0), declared.OK)
                frames = self._frames(session)
                server.answer(frames)
                self.assertEqual(session.call("bytes", 0, server.say()), declared.OK)
                self.assertEqual(session.call("raw", 0, 1, NO_LIMIT, number, b"\0\0\0\1/"), declared.OK)
                server.answer(self._frames(session))
                self.assertEqual((b"", False), (server.say(), server.is_open))

    def _frames(self, session: Handle) -> bytes:
        return b"".join(session.text()[1] for output in session.outputs() if output.kind == declared.SEND)


class PiecesTest(unittest.TestCase):
    """A session with memory goes on, whatever the sizes of the pieces in which bytes come. No clause says that it does not halt."""

    NOW = 100
    BESIDE = 92
    """The bytes of a reply to getData, with its length, beside those of the data."""
    SIZES = (*range(1, 1_200), *range(1_200, 66_000, 113), 20_001, 59_999, 65_535, 65_536, 65_537)

    def setUp(self) -> None:
        self.session, self.xid = Handle(), 0
        self.session.call("open", TIMEOUT_MS, 1, 1)
        accepted = struct.pack(">iiiqi16s?", 37, 0, TIMEOUT_MS, 1, 16, b"", False)
        steps: list[list[Any]] = [["moment"], ["opened"], ["bytes", accepted]]
        self.assertEqual([self.session.call(name, self.NOW, *rest) for name, *rest in steps], [declared.OK] * 3)

    def _answer(self, length: int, *cuts: int) -> list[int]:
        """Asks, and hands in a reply with so many bytes of data, cut at these places. The lengths of the answers that are told."""
        self.xid += 1
        self.assertEqual(self.session.call("get_data", self.NOW, self.xid, NO_LIMIT, b"/a", False), declared.OK)
        reply = struct.pack(">iqii", self.xid, self.xid, 0, length) + b"d" * length + bytes(68)
        frame, told = struct.pack(">i", len(reply)) + reply, []
        for begin, end in zip((0, *cuts), (*cuts, len(frame))):
            self.assertEqual(self.session.call("bytes", self.NOW, frame[begin:end]), declared.OK, (length, begin, end))
            told += [output.length for output in self.session.outputs() if output.kind == declared.ANSWER]
        return told

    def test_a_frame_of_each_size_that_comes_whole(self) -> None:
        for size in filter(lambda size: size >= self.BESIDE, self.SIZES):
            self.assertEqual(self._answer(size - self.BESIDE), [size - self.BESIDE])

    def test_a_frame_that_is_held_at_each_size(self) -> None:
        for size in self.SIZES:
            self.assertEqual(self._answer(size, size), [size])


class TurnTest(unittest.TestCase):
    """A node that is followed is read before any call that is asked later, however many calls a program keeps on their way."""

    NOW, NODE = 100, 1
    """The moment of each step, and the ticket of the node."""
    ROWS = ((0, 1), (959, 960), (960, 961), (961, 962), (1_023, 1_024), (1_024, 1_025), (2_000, 1_025))
    """So many calls are kept, and with which reply the node is shown: where its read finds a place at once, that after theirs; else, as 1,024
    requests may be on their way, that after the other 1,023, since it goes with the first reply."""

    def setUp(self) -> None:
        self.session, self.asked = Handle(), self.NODE
        self.session.call("open", TIMEOUT_MS, 1, 1)
        accepted = struct.pack(">iiiqi16s?", 37, 0, TIMEOUT_MS, 1, 16, b"", False)
        steps: list[list[Any]] = [["moment"], ["opened"], ["bytes", accepted]]
        for name, *rest in steps:
            self._step(name, *rest)

    def _step(self, name: str, *rest: Any) -> tuple[int, bool]:
        """How many calls were answered, and whether the node was shown."""
        self.assertEqual(self.session.call(name, self.NOW, *rest), declared.OK)
        outputs = list(self.session.outputs())
        return sum(output.kind == declared.ANSWER for output in outputs), any(output.kind == declared.SHOWN for output in outputs)

    def _ask(self, calls: int) -> None:
        for _ in range(calls):
            self.asked += 1
            self._step("get_data", self.asked, NO_LIMIT, b"/a", False)

    def _shown_with(self, calls: int, most: int) -> int | None:
        """Keeps so many calls on their way, follows a node, and answers the oldest request, one at a time: with which reply the node is shown."""
        self._ask(calls)
        self._step("follow_data", self.NODE, b"/b")
        for xid in range(1, most + 1):
            reply = struct.pack(">iqii", xid, 1, 0, 0) + bytes(68)
            answered, is_shown = self._step("bytes", struct.pack(">i", len(reply)) + reply)
            if is_shown:
                return xid
            self._ask(answered)
        return None

    def test_a_node_beside_calls(self) -> None:
        for calls, wanted in self.ROWS:
            with self.subTest(calls=calls):
                self.setUp()
                self.assertEqual(self._shown_with(calls, 3_000), wanted)
