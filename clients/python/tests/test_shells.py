"""`zk_shell` and `python3 -m dirwolleu` side by side over one server in memory: the same words give the same status, output and sentences.

The program is the one of `prebuilt/`, or the one that DIRWOLLEU_SHELL names.
"""

from __future__ import annotations

import contextlib
import functools
import io
import os
import re
import socket
import struct
import subprocess
import sys
import threading
import unittest
from concurrent.futures import ThreadPoolExecutor
from typing import Callable, Optional
from unittest.mock import patch

from support import CLIENTS, CLOSE_SESSION, STAT, WAIT, Asked, Peer, RawServer, data_reply, framed, notice, reply

from dirwolleu.__main__ import main
from dirwolleu.shell.words import COMMANDS, PROGRAM
from dirwolleu.testing import Server

SHELL = os.environ.get("DIRWOLLEU_SHELL") or str(CLIENTS.parent / "prebuilt/x86_64-linux/zk_shell")
MANUAL = CLIENTS.parent / "docs/zk_shell.1"
ENVIRONMENT = {**os.environ, "PYTHONPATH": str(CLIENTS / "python")}
ONLY_HERE = {"auth", "ca", "cert", "key", "makepath", "text"}
"""The options that `zk_shell` does not have: TLS, credentials, nodes above a node that is made, and `tree` with data."""
BOTH = ("get", "ls", "stat", "tree", "set", "create", "delete", "watch")

CHANGES: list[list[str]] = [
    ["create", "/a", "é x"], ["create", "/a/null", "--null"], ["create", "/a/bytes", "--hex", "ff00"], ["create", "/a/empty", ""],
    ["create", "/a/marked", "hex:1", "--json"], ["create", "/a/s-", "x", "--sequential"], ["create", "/a/é z", "a\tb\nc"],
    ["create", "/a/esc", "--hex", "1b5b326a"], ["create", "/a/-1", "--", "-x"], ["create", "/", "x"], ["create", "/a", "x"],
    ["create", "/x/y", "z"], ["create", "/a/none"], ["create", "/a/none", "x", "--null"], ["create", "/a/none", "zz", "--hex"],
    ["create", "/a/none", "--hex", "abc"], ["create", "/a/hexed", "", "--hex"], ["create", "/a/none", "--from", "/none"], ["create", "/a/none", "x", "--from", "/none"],
    ["set", "/a", "y", "--version", "0"], ["set", "/a", "z", "--version", "0"], ["set", "/a/null", "w", "--version", "x"],
    ["set", "/none", "w"], ["set", "/a/bytes", "--hex", "\\e"], ["set", "/a/bytes", "--hex", "\\0"], ["set", "/a/bytes"],
    ["set", "/a", "caf\udce9 'x'"], ["create", "/\udcff", "x"], ["create", "/a/\u202ex", "\u2067y"], ["create", "/a/\u200e", "\u2028z", "--json"],
    ["set", "--version=1", "/a", "é x"], ["delete", "/a"], ["delete", "/none"], ["delete", "/a/empty", "--version", "3"], ["delete", "/a/empty"],
]  # fmt: skip
"""Both make each of these, each at a server of its own."""
PATHS = ("/", "/a", "/none", "/a/null", "/a/bytes", "/a/é z", "/a/\u202ex", "/a/\u200e")
DATA = ("/a", "/a/esc", "/a/marked", "/a/null", "/a/bytes", "/a/-1", "/a/\u202ex")
EACH = [[command, path] for command in ("get", "ls", "stat", "tree") for path in PATHS]
READS: list[list[str]] = [
    *EACH, *([*words, "--json"] for words in EACH), *(["get", path, how] for path in DATA for how in ("--hex", "--raw", "--json")),
    ["get", "/a", "--json", "--raw"], ["get", "--hex", "/a", "--raw"], ["tree", "/", "--most", "3"], ["tree", "/", "--most", "3", "--json"],
    ["tree", "/", "--depth", "0"], ["tree", "/", "--depth", "1"], ["tree", "/a", "--depth", "x"], ["tree", "/a", "--most", "0"],
    ["get", "a"], ["get", "/a/"], ["get", "/a//b"], ["get", "/a/../b"], ["get", "/\x01"], ["get", "/" + "a" * 4096], ["get", ""], ["get", "/a", "--wait", "0"],
    ["get", "/a", "--wait", "x"], ["get", "/a", "--wait", "4294968"], ["get", "/a/esc"], ["get", "/a/marked"], ["get", "/a/-1"],
    ["get", "\u202ea"], ["get", "/a\u200b\u0301'\"\\\t/"], ["tree", "/a", "--depth", "\x7f"], ["set", "/a", "\u2028", "--hex"],
]  # fmt: skip
LINES: list[list[str]] = [
    ["nonsense"], ["get", "/a", "--nope"], ["get", "/a", "x"], ["get"], ["get", "/a", "--wait"], ["watch", "--for", "0"], ["get", "/a", "--json=1"],
    ["get", "/a", "--wait", "-1"], ["watch", "--for", "-1"], ["watch", "--for=-1"], ["delete", "/a", "--version=-1"], ["delete", "/a", "--version", "-1"],
    *(["get", "/a", *words] for words in (["--json", "--json"], ["--wait", "1", "--wait=1"], ["--wait", "1.5"], ["--wait", "01"], ["--wait="], ["--help=1"],
                                          ["--nope=1"], ["-xy"], ["---"], ["--version", "-1"])),
    *(["set", "/a", *words] for words in (["--from", "a", "--from", "b"], ["--null", "x"], ["0", "--hex"], ["x", "--version", "-1", "--nope"])),
    ["get", "/a", "--wai", "3"], ["create", "/a", "-x"], ["watch", "--data", "a"], ["watch", "--timeout", "0"], ["watch", "--most", "x"],
]  # fmt: skip
"""Command lines that are refused. The reader of each says more below the first line."""
BARE: list[list[str]] = [
    ["--", "get", "/a"], ["--", "help"], ["--", "--"], ["--", "--json"], ["--", ""], ["--json", "get", "/a"], ["-x"], ["--nope"], ["-"], ["g"], [""],
    ["help", "get", "x"], ["help", "nope"], ["help", "-h"], ["help", "--help"], ["help", "--", "get"], ["help", "help"], ["help", "help", "x"],
    ["--help=1"], ["--version="], ["-hx"], ["-Vh"], ["--help", "--nope"],
    *(["get", *words] for words in (["-hx"], ["--nope", "-h"], ["-h", "--nope"], ["/a", "b", "c", "--help"], ["--json", "--json", "--help"], ["--wait", "--help"],
                                    ["--wait", "x", "--help"], ["--", "--help"], ["--", "-x", "/a"], ["--", "--", "/a"], ["--wait", "-x"], ["--wait", "--", "/a"],
                                    ["--wait", "1", "--wait", "2", "--json"], ["--wait", "1", "--wait", "2", "--nope"], ["--wait", "1", "--wait", "2", "/a", "b", "c"],
                                    ["/a", ""], ["", "/a"], ["h:1", ""], ["h:1"], ["h:1", "/a", "--", "x"], ["--json=a\nb"])),
    ["set"], ["set", "h:1", "/a", "x", "y"], ["set", "/a", "--from"], ["create", "--", "/a", "-x", "y"], ["watch", "--", "--data"], ["watch", "--data", "-x"],
    ["watch", "x", "y"], ["watch", "/a"], ["watch", ""], ["watch", "--data="], ["watch", "h:x", "--for", "x", "--timeout", "y"], ["watch", "h:x", "--most", "x"],
    ["watch", "h:1", "--data", "a", "--most", "x"], ["watch", "--children", "b", "--data", "a", "--tree", "c"], ["tree", "h:x", "a", "--most", "x", "--depth", "y"],
    *(["set", *words, "--version", "x"] for words in (["h:x", "a"], ["/a"], ["a", "zz", "--hex"], ["/a", "zz", "--hex"], ["/a", "--null"], ["/a", "x", "--wait", "y"])),
]  # fmt: skip
"""Lines without servers that are refused, or ask for help: the words before a command, and which of several faults is reported."""


def header(xid: int, zxid: int = 5) -> bytes:
    return struct.pack(">iqi", xid, zxid, 0)


FAULTS_OF_REPLIES: list[tuple[str, Callable[[Asked], bytes]]] = [
    ("C1", lambda asked: framed(bytes(15))), ("C3 1 77", lambda asked: framed(header(77))), ("C4 J1 at 16", lambda asked: framed(reply(asked))),
    ("C2 77", lambda asked: framed(data_reply(asked, b"x"), data_reply(asked._replace(xid=2), b"y"), header(77))),
    ("C4 J2 at 16", lambda asked: framed(reply(asked, struct.pack(">i", -2)))),
]  # fmt: skip
FAULTS: list[tuple[str, Callable[[Asked], bytes]]] = [
    ("C5 J1 at 24", lambda asked: framed(notice("/a")[:24])),
    ("C5 J4 at 28", lambda asked: framed(notice("/a")[:-1] + b"\xff")), ("F1", lambda asked: b"\xff" * 4), ("F2", lambda asked: b"\x7f" * 4),
    ("D2 5 4", lambda asked: framed(data_reply(asked, b"x"), data_reply(asked._replace(xid=2), b"y", zxid=4))), ("D1", lambda asked: b""),
]  # fmt: skip
"""The answer to the first of two reads, and the fault that it is, with its values."""


def with_hosts(hosts: str, words: list[str]) -> list[str]:
    """Words with the servers, that wait as long as a busy machine takes unless they say how long."""
    waits = words[:1] and words[0] in BOTH[:-1] and hosts and "--wait" not in words and "--wai" not in words
    return [*words[:1], *(["--wait", "60"] if waits else []), *([hosts] if words and hosts else []), *words[1:]]


def masked(text: str) -> str:
    """Without the moments, which differ between two servers."""
    return re.sub(r'\b(ctime"?[ :]|mtime"?[ :])\d+', r"\1T", text)


NO_HOSTS = ("a..b:1", ".a:1", ".:1", "a" * 64 + ":1", "x." + "a" * 64, ".".join(["a" * 63] * 3 + ["a" * 62]), "a b:1", " a:1", "a:1 ", "a\tb:1", "*:1", "a'b:1",
            "a:01", "a:0", "a:65536", "a:", ":1", "", "a,", "[]:1", "[a:1", "a]:1", "a[b:1", "a]b", "::1", "[::1]x", "[::1]:", "[[::1]]:1", "a:1:2",
            "ex\u00e4.invalid:1", "\u202ea:1", "a\u3002b:1", "a:\u0661")  # fmt: skip
"""Words that are no servers: both refuse them, and dial none."""
HOSTS = ("a.invalid:1", ".".join(["a" * 63] * 3 + ["a" * 61]), "a" * 63 + ".invalid.", "a_-b.invalid:65535", "[no.invalid]:1", "no.invalid:1,no.invalid:2")
"""Words that are servers, and that nobody has."""


def closes(peer: Peer) -> None: ...


def says(message: bytes, peer: Peer) -> None:
    """A server that answers the first request so, and then ends the connection."""
    peer.take_connect()
    peer.send_bytes(message)
    peer.finish()


def refuses(peer: Peer) -> None:
    peer.take_connect()
    peer.refuse()
    peer.finish()


def is_silent(timeout_ms: Optional[int], peer: Peer) -> None:
    """A server that accepts the session, by this timeout or the one that is asked for, and answers no call."""
    peer.admit(timeout_ms)
    while True:
        peer.take()


def cuts(peer: Peer) -> None:
    """A server that ends the connection at each call."""
    peer.admit()
    peer.take()


def answers(answer: Callable[[Asked], bytes], peer: Peer) -> None:
    """A server that answers each call so, and ends the session when it is asked to."""
    peer.admit()
    while (asked := peer.take()).kind != CLOSE_SESSION:
        peer.send(answer(asked))
    peer.send(reply(asked))
    peer.finish()


def listing(names: list[bytes], asked: Asked) -> bytes:
    """The names below /a, and none below another node."""
    found = names if asked.body[4:6] == b"/a" and asked.body[:4] == b"\0\0\0\2" else []
    return reply(asked, struct.pack(">i", len(found)) + framed(*found) + STAT)


Serve = Callable[[Peer], None]
UNACCEPTED = "not connected: /a: no server has answered in time\nHOST: connected, but no session was accepted\n"
LATE = "no answer: /a: its time is over"
LOST = "no answer: /a: the connection was lost: the call may or may not have happened\n"
EXPIRED = "no answer: /a: the session has expired\n"
GET, SET, LS, TREE = ["get", "/a"], ["set", "/a", "x"], ["ls", "/a"], ["tree", "/a"]
CODES = {-4: "the server has lost its connection", -6: "the server does not know the request", -8: "the path, the flags or the data are refused",
         -102: "the ACL does not admit it", -103: "the node has another version", -108: "the parent is ephemeral", -110: "the node is there",
         -111: "the node has children", -112: "the session is over", -114: "the open ACL is refused", -115: "the server refuses it",
         -118: "the session was taken up over another connection", -999: "the server refuses it", 1: "the server refuses it"}  # fmt: skip
NAMES = [b"b", b" ", b"\\", "\u00e9".encode(), b"a\tb", "\u202ex".encode(), b"b"]
UNACCEPTING: list[Serve] = [closes, functools.partial(says, b"\xff" * 4), functools.partial(says, b"\0\0\0\x25\0")]
LONG_ENOUGH = "10"
"""For how many seconds a command waits that has no other end: also a busy machine has dialled by then, and has got an answer."""
End = tuple[Serve, list[str], int, str, str]
"""The behaviour of a server, a command, and its end in both: the status, the output, and the message."""
ENDS_OF_READS: list[End] = [(functools.partial(is_silent, 30_000), words, 8, "", f"{LATE}\n") for words in (GET, LS, TREE, ["stat", "/a"])]
ENDS_OF_CHANGES: list[End] = [(functools.partial(is_silent, 30_000), words, 8, "", f"{LATE}, and it may or may not have happened\n")
                              for words in (SET, ["create", "/a", ""], ["delete", "/a"])]  # fmt: skip
ENDS_OF_CONNECTIONS: list[End] = [
    (functools.partial(is_silent, None), GET, 8, "", f"{LATE}\n"), (functools.partial(is_silent, None), SET, 8, "", LOST),
    (cuts, GET, 8, "", f"{LATE}\n"), (cuts, SET, 8, "", LOST),
]  # fmt: skip
ENDS_WITH_AN_ANSWER: list[End] = [
    *((functools.partial(answers, functools.partial(reply, code=code)), words, 6, "", f"refused: /a: {why} ({code})\n")
      for code, why in CODES.items() for words in (GET, SET)),
    *((functools.partial(answers, functools.partial(reply, code=-101)), words, 5, "", "no node: /a\n") for words in (GET, SET, TREE)),
    (functools.partial(answers, functools.partial(listing, NAMES)), LS, 0, " \n\\\na\\x09b\nb\n\u00e9\n\\xe2\\x80\\xaex\n", ""),
]  # fmt: skip


def ends_without_a_session(words: list[str]) -> list[End]:
    return [*((serve, words, 7, "", UNACCEPTED) for serve in UNACCEPTING), (refuses, words, 8, "", EXPIRED)]


FORMS: list[list[str]] = [[], ["--text"], ["--json"]]


def plain(line: str) -> str:
    """A line of a watch without its moment and its session."""
    return re.sub(r'^\d+\.\d+ |,"ms":\d+', "", re.sub(r'session"?[ :]\d+', "session S", line.rstrip("\n")))


class Watched:
    """A watch that runs, and the lines that it has printed."""

    def __init__(self, program: list[str], hosts: str, words: list[str]) -> None:
        self._process = subprocess.Popen([*program, "watch", hosts, *words], stdout=subprocess.PIPE, text=True, env=ENVIRONMENT)
        self.lines, self.stale = list[str](), list[str]()
        self._news = threading.Condition()
        self._reader = threading.Thread(target=self._read)

    def __enter__(self) -> Watched:
        self._reader.start()
        return self

    def __exit__(self, *_: object) -> None:
        self._process.kill()
        self._reader.join(WAIT)
        self._process.communicate()

    def _read(self) -> None:
        assert self._process.stdout is not None
        for line in self._process.stdout:
            with self._news:
                (self.stale if re.search(r"\bstale\b", line) else self.lines).append(plain(line))
                self._news.notify()

    def wait(self, count: int) -> None:
        """Waits until it has printed this number of lines, not counting stale ones."""
        with self._news:
            if not self._news.wait_for(lambda: len(self.lines) >= count, WAIT):
                raise AssertionError(f"not {count} lines but {self.lines}")


@unittest.skipUnless(os.access(SHELL, os.X_OK), "there is no zk_shell")
class ShellsTest(unittest.TestCase):
    is_long = True

    def run_zk(self, hosts: str, words: list[str]) -> tuple[int, str, str]:
        done = subprocess.run([SHELL, *with_hosts(hosts, words)], stdin=subprocess.DEVNULL, capture_output=True, timeout=3 * WAIT)
        return done.returncode, masked(done.stdout.decode()), done.stderr.decode()

    def run_python(self, hosts: str, words: list[str]) -> tuple[int, str, str]:
        """In this process, whose start takes no time."""
        spelled, said = io.BytesIO(), io.StringIO()
        printed = io.TextIOWrapper(spelled, encoding="utf-8")
        with contextlib.redirect_stdout(printed), contextlib.redirect_stderr(said):
            status = main(with_hosts(hosts, words))
        printed.flush()
        return status, masked(spelled.getvalue().decode()), said.getvalue()

    def run_both(self, hosts: str, words: list[str]) -> tuple[tuple[int, str, str], tuple[int, str, str]]:
        """Of `zk_shell` and of Python, side by side."""
        with ThreadPoolExecutor(1) as pool:
            zk = pool.submit(self.run_zk, hosts, words)
            python = self.run_python(hosts, words)
        return zk.result(), python

    def test_changes(self) -> None:
        with Server() as one, Server() as other:
            for words in CHANGES:
                self.assertEqual(self.run_zk(one.hosts, words), self.run_python(other.hosts, words), words)
            self.assertEqual(self.run_zk(one.hosts, ["tree", "/", "--json"]), self.run_python(other.hosts, ["tree", "/", "--json"]))

    def test_reads(self) -> None:
        with Server() as server:
            for words in CHANGES:
                self.run_python(server.hosts, words)
            for words in READS:
                self.assertEqual(self.run_zk(server.hosts, words), self.run_python(server.hosts, words), words)

    def test_servers(self) -> None:
        """Chroots, several hosts, and those that are none or away."""
        with Server() as server:
            server.create("/a", b"one")
            server.create("/a/b", b"two")
            for hosts, *words in (
                (f"{server.hosts}/a", "get", "/b"), (f"{server.hosts}/a", "get", "/"), (f"{server.hosts}/a", "create", "/c", "x"),
                (f"{server.hosts}/a", "tree", "/"), (f"{server.hosts}/none", "get", "/b"), (f"{server.hosts}/", "get", "/a"),
                (f"127.0.0.1:1,{server.hosts}", "get", "/a"), ("a:x", "get", "/a"),
                ("127.0.0.1:99999", "get", "/a"), (f"{server.hosts}//a", "get", "/a"), (f"{server.hosts},", "get", "/a"),
                (f"{server.hosts}/a", "delete", "/c"),
            ):  # fmt: skip
                zk = self.run_zk(hosts, words)
                if words[0] == "create":
                    server.delete("/a/c")
                if words[0] == "delete":
                    server.create("/a/c")
                self.assertEqual(zk, self.run_python(hosts, words), (hosts, words))
        for hosts in ("127.0.0.1:1", "host.invalid:1"):
            zk, python = self.run_both(hosts, ["get", "/a", "--wait", LONG_ENOUGH])
            self.assertEqual(zk, python, hosts)

    def test_servers_of_the_environment(self) -> None:
        """A command whose words name no servers uses them."""
        with Server() as server:
            server.create("/a", b"one")
            server.create("/a/b", b"two")
            for hosts in (server.hosts, f"{server.hosts}/a", "", "a:x", "\udcff"):
                wait = "60" if hosts else "1"
                for words in (["get", "/b", "--wait", wait], ["tree", "--depth", "0", "/", "--json", f"--wait={wait}"], ["ls", "--wait", wait, "--", "/"],
                              ["get", "a"], ["get"], ["get", server.hosts, "/a"], ["set", "/none/c", "--from", "-", "--wait", wait]):  # fmt: skip
                    with patch.dict(os.environ, DIRWOLLEU_HOSTS=hosts):
                        (*zk, zk_said), (*python, said) = self.run_both("", words)
                    self.assertEqual((zk, zk_said.split("\n\nUsage")[0]), (python, said.split("\n\nFor")[0]), (hosts, words))

    def test_a_server_that_accepts_no_session(self) -> None:
        with socket.create_server(("127.0.0.1", 0)) as listener:
            hosts, words = f"127.0.0.1:{listener.getsockname()[1]}", ["get", "/a", "--wait", LONG_ENOUGH]
            zk, python = self.run_both(hosts, words)
            self.assertEqual(zk, python)
            self.assertIn("connected, but no session was accepted", zk[2])

    def test_answers_that_tell_of_a_session(self) -> None:
        """Codes of a server that the client may find by itself too; and a server that accepts no session that it is asked for."""

        def answer(code: int, peer: Peer) -> None:
            peer.admit()
            while (asked := peer.take()).kind != CLOSE_SESSION:
                peer.send(reply(asked, code=code))

        def refuse(peer: Peer) -> None:
            peer.take_connect()
            peer.refuse()

        serves: list[Callable[[Peer], None]] = [*(functools.partial(answer, code) for code in (-4, -112, -118)), refuse]
        for serve, status in zip(serves, (6, 6, 6, 8)):
            ends = []
            for run in (self.run_zk, self.run_python):
                server = RawServer(serve)
                self.addCleanup(server.stop)
                ends.append(run(server.host, ["get", "/a", "--wait", LONG_ENOUGH]))
            self.assertEqual(ends[0], ends[1])
            self.assertEqual(ends[0][0], status)

    def ends_of(self, serve: Serve, words: list[str]) -> list[tuple[int, str, str]]:
        """How both end, each with a server of its own, side by side."""
        servers = [RawServer(serve), RawServer(serve)]
        for server in servers:
            self.addCleanup(server.stop)
        with ThreadPoolExecutor(1) as pool:
            zk = pool.submit(self.run_zk, servers[0].host, words)
            ends = self.run_python(servers[1].host, words), zk.result()
        return [(status, out.replace(server.host, "HOST"), said.replace(server.host, "HOST")) for (status, out, said), server in zip(reversed(ends), servers)]

    def check_ends(self, ends: list[End]) -> None:
        for serve, words, *due in ends:
            with self.subTest(serve=serve, words=words):
                for seconds in ("3", "10", "40"):  # a busy machine sends a call later
                    zk, python = self.ends_of(serve, [*words, "--wait", seconds])
                    early = "not connected|was not sent" if LATE in str(due) else f"not connected|was not sent|{LATE}"
                    if UNACCEPTED in due or not re.search(early, zk[2] + python[2]):
                        break
                self.assertEqual(zk, python)
                self.assertEqual(list(zk), due)

    def test_ends_of_reads_without_a_session(self) -> None:
        self.check_ends([*ends_without_a_session(GET), (refuses, TREE, 8, "", EXPIRED)])

    def test_ends_of_changes_without_a_session(self) -> None:
        self.check_ends(ends_without_a_session(SET))

    def test_ends_of_reads_without_an_answer(self) -> None:
        self.check_ends(ENDS_OF_READS)

    def test_ends_of_changes_without_an_answer(self) -> None:
        self.check_ends(ENDS_OF_CHANGES)

    def test_ends_with_the_connection(self) -> None:
        self.check_ends(ENDS_OF_CONNECTIONS)

    def test_ends_with_an_answer(self) -> None:
        self.check_ends(ENDS_WITH_AN_ANSWER)

    def test_names_that_no_path_has(self) -> None:
        """A tree is refused if one is below it; a list has it; and a name that comes twice is one."""
        for name in (b"", b".", b"..", b"b/c", b"a\tb", "\uffff".encode(), b"n" * 4094):
            serve: Serve = functools.partial(answers, functools.partial(listing, [b"b", name, b"b"]))
            zk, python = self.ends_of(serve, [*LS, "--json"])
            self.assertEqual(zk, python, name)
            for words in (TREE, [*TREE, "--json"], [*TREE, "--depth", "0"]):
                zk, python = self.ends_of(serve, words)
                self.assertEqual(zk, python, name)
                said = "" if "--depth" in words else "refused: /a: a node below it has a name that no path has\n"
                self.assertEqual((zk[0], zk[2]), (6 if said else 0, said))

    def test_trees_that_are_not_listed_to_their_end(self) -> None:
        """The nodes at the greatest depth, and those after the last that is printed, are not asked for."""

        def answer(asked: Asked) -> bytes:
            return listing([b"b", b"c"], asked) if b"/b" not in asked.body else reply(asked, code=-102)

        serve: Serve = functools.partial(answers, answer)
        ends: list[tuple[list[str], int]] = [(["--depth", "1"], 0), (["--most", "1"], 11), ([], 6)]
        for words, status in ends:
            zk, python = self.ends_of(serve, [*TREE, *words])
            self.assertEqual(zk, python)
            self.assertEqual(zk[0], status)

    def test_a_server_that_is_silent_leaves_time_for_another(self) -> None:
        def serve(peer: Peer) -> None:
            peer.take_connect()
            peer.take()

        silent = RawServer(serve)
        self.addCleanup(silent.stop)
        with Server() as server:
            server.create("/a", b"one")
            for _ in range(2):
                for seconds in ("6", "24", "60"):  # a busy machine takes longer
                    ends = self.run_both(f"{silent.host},{server.hosts}", ["get", "/a", "--wait", seconds])
                    if all(status == 0 for status, _, _ in ends):
                        break
                self.assertEqual(ends, ((0, "one\n", ""), (0, "one\n", "")))

    def test_hosts(self) -> None:
        """A host whose name cannot be one is refused, and none is dialled; any other is."""
        for host in (*NO_HOSTS, *(f"{host},127.0.0.1:1" for host in NO_HOSTS), *HOSTS):
            for seconds in ("1", "10", "40"):
                zk, python = self.run_both("", ["get", host, "/a", "--wait", seconds])
                if host not in HOSTS or all(said.count("not found") > host.count(",") for _, _, said in (zk, python)):
                    break
            lines, others = (sorted(said.splitlines()) for _, _, said in (zk, python))  # the servers are dialled in a random order
            self.assertEqual((zk[:2], lines), (python[:2], others), host)
            self.assertEqual(zk[0], 7 if host in HOSTS else 2)
            self.assertIn("host not found" if host in HOSTS else " is no server: HOST:PORT", zk[2])

    def test_lines_that_ask_for_nothing(self) -> None:
        for words in LINES:
            zk, python = self.run_zk("127.0.0.1:1", words), self.run_python("127.0.0.1:1", words)
            self.assertEqual((zk[:2], zk[2].partition("\n")[0]), (python[:2], python[2].partition("\n")[0]), words)
        for words in BARE:
            zk, python = self.run_zk("", words), self.run_python("", words)
            self.assertEqual((zk[0], zk[2].partition("\n")[0]), (python[0], python[2].partition("\n")[0]), words)
            self.assertEqual(bool(zk[1]), bool(python[1]), words)

    def test_no_command(self) -> None:
        """The whole refusal is the same, except for the name of the program and those of its commands."""
        no_words: list[str] = []
        for words in (no_words, ["--"]):
            zk, python = self.run_zk("", words), self.run_python("", words)
            own = re.sub(r"subcommands: .*]", "subcommands: ]", python[2].replace(PROGRAM, "zk_shell"))
            self.assertEqual((*zk[:2], re.sub(r"subcommands: .*]", "subcommands: ]", zk[2])), (*python[:2], own), words)
            self.assertEqual(python[:2], (2, ""))
            self.assertIn(f"'{PROGRAM}' requires a subcommand but one was not provided\n  [subcommands: {', '.join(COMMANDS)}, help]", python[2])

    def test_output_that_fails(self) -> None:
        with Server() as server:
            for words in (["get", "/"], ["tree", "/"], ["create", "/x", "a", "--sequential"], ["watch", "--data", "/"]):
                ends = []
                for program in ([SHELL], [sys.executable, "-m", "dirwolleu"]):
                    with open("/dev/full", "wb") as full:
                        command = [*program, words[0], server.hosts, *words[1:]]
                        done = subprocess.run(command, stdout=full, stderr=subprocess.PIPE, text=True, env=ENVIRONMENT, timeout=3 * WAIT)
                    ends.append((done.returncode, done.stderr))
                self.assertEqual(ends[0], ends[1], words)

    def test_options_have_the_same_names(self) -> None:
        for command in BOTH:
            _, printed, _ = self.run_zk("", [command, "--help"])
            theirs = set(re.findall(r"^      --([a-z]+)", printed, re.M))
            ours = set(re.findall(r"^ +--([a-z]+)", self.run_python("", [command, "--help"])[1], re.M))
            self.assertLessEqual(theirs, ours, command)
            self.assertLessEqual(ours - theirs, ONLY_HERE, command)
            self.assertIn(command, COMMANDS)

    def test_watches_print_the_same_lines(self) -> None:
        for form in FORMS:
            with Server() as server:
                for path, data in (("/a", b"one"), ("/a/b", b"\xff"), ("/a/b/c", "é z".encode())):
                    server.create(path, data)
                changes: list[tuple[Callable[[], object], int]] = [
                    (lambda: server.zxid, 11), (lambda: server.set("/a", b"two\tx"), 12), (lambda: server.create("/later", b""), 13),
                    (lambda: server.create("/a/b/d", b"5"), 16), (lambda: server.set("/a/b/c", b""), 17),
                    (lambda: server.delete("/a/b/d"), 20), (lambda: server.delete("/later"), 21), (server.expire, 46),
                ]  # fmt: skip
                subjects = ["--data", "/a", "--children", "/a", "--children", "/none", "--data", "/later", "--tree", "/a/b"]
                self._watch_both(server.hosts, [*subjects, *form], changes, 8)

    def test_watches_of_trees_that_reach_their_bound_below_a_chroot(self) -> None:
        for form in FORMS:
            with Server() as server:
                for path in ("/a", "/a/b", "/a/b/c"):
                    server.create(path, b"")
                changes: list[tuple[Callable[[], object], int]] = [
                    (lambda: server.zxid, 11), (lambda: server.create("/a/d", b""), 13), (lambda: server.create("/a/e", b""), 15),
                    (lambda: server.delete("/a/d"), 17), (lambda: server.create("/a/x", b""), 22), (server.drop, 27),
                ]  # fmt: skip
                subjects = ["--tree", "/", "--data", "/b", "--tree", "/x", "--most", "3"]
                self._watch_both(f"{server.hosts}/a", [*subjects, *form], changes, 5)

    def _watch_both(self, hosts: str, words: list[str], changes: list[tuple[Callable[[], object], int]], stale: int) -> None:
        """Makes changes, and waits after each until both have printed this number of lines, not counting stale ones."""
        with Watched([SHELL], hosts, words) as zk, Watched([sys.executable, "-m", "dirwolleu"], hosts, words) as python:
            for change, count in changes:
                change()
                for one in (zk, python):
                    one.wait(count)
        self.assertEqual(sorted(zk.lines), sorted(python.lines))
        self.assertEqual(sorted(zk.stale), sorted(python.stale))
        self.assertEqual(len(zk.stale), stale)

    def test_the_end_of_a_watch(self) -> None:
        with Server() as server:
            for seconds in ("2", "10", "40"):  # a busy machine takes longer
                words = ["watch", "--data", "/", "--children", "/none", "--for", seconds]
                ends = self.run_both(server.hosts, words)
                if all("/none does not exist" in printed for _, printed, _ in ends):
                    break
        self.assertEqual([(status, said) for status, _, said in ends], [(0, ""), (0, "")])
        lines = [[plain(line) for line in printed.splitlines()] for _, printed, _ in ends]
        self.assertEqual(lines[0], lines[1])
        self.assertEqual(lines[0][-3:], ["state Closed", "/ data none last 0", "/none names none last 0"])

    def test_a_watch_whose_end_the_server_does_not_answer(self) -> None:
        """It does not print that a read is refused then, since the session is being closed. It does print an end of the connection."""

        def serve(is_left: bool, peer: Peer) -> None:
            peer.admit()
            while (asked := peer.take()).kind != CLOSE_SESSION or is_left:
                if asked.kind != CLOSE_SESSION:
                    peer.send(reply(asked, code=-102))

        for is_left, last in ((True, "/a refused code -102 the ACL does not admit it"), (False, "state Idle")):
            for seconds in ("2", "10", "40"):
                zk, python = self.ends_of(functools.partial(serve, is_left), ["watch", "--data", "/a", "--for", seconds])
                lines = [[plain(line) for line in out.splitlines()] for _, out, _ in (zk, python)]
                if all("refused" in str(those) for those in lines):
                    break
            self.assertEqual(*lines)
            self.assertEqual(lines[0][-1], last)

    def test_a_watch_that_never_connects(self) -> None:
        self._never_connect("127.0.0.1:1", "failed")

    def test_a_host_that_is_not_found(self) -> None:
        """It is dialled, and reported."""
        self._never_connect("nowhere.invalid", "dial nowhere.invalid")
        self.assertEqual(*self.run_both("nowhere.invalid", ["get", "/a", "--wait", "2"]))

    def test_a_watch_of_a_server_that_ends_the_connection(self) -> None:
        def serve() -> None:
            with contextlib.suppress(OSError):
                while True:
                    connection, _ = listener.accept()
                    with connection:
                        connection.recv(100)
                        connection.sendall(b"\xff" * says)

        for says, line in ((0, "ended"), (4, "drop F1")):
            with socket.create_server(("127.0.0.1", 0)) as listener:
                thread = threading.Thread(target=serve)
                thread.start()
                self._never_connect(f"127.0.0.1:{listener.getsockname()[1]}", line)
                listener.shutdown(socket.SHUT_RDWR)
                thread.join(WAIT)

    def test_a_watch_whose_read_is_refused(self) -> None:
        def serve(peer: Peer) -> None:
            peer.admit()
            while True:
                peer.send(reply(peer.take(), code=-102))

        for form in FORMS:
            for seconds in ("2", "10", "40"):
                found = self.ends_of(serve, ["watch", "--data", "/a", "--for", seconds, *form])
                ends = [(status, [plain(line) for line in printed.splitlines()], said) for status, printed, said in found]
                if all("refused" in str(lines) for _, lines, _ in ends):
                    break
            self.assertEqual(ends[0], ends[1])
            self.assertEqual(str(ends[0]).count("refused"), 1)

    def test_a_watch_whose_connection_is_given_up_for_a_reply(self) -> None:
        self._given_up(FAULTS_OF_REPLIES)

    def test_a_watch_whose_connection_is_given_up(self) -> None:
        self._given_up(FAULTS)

    def _given_up(self, faults: list[tuple[str, Callable[[Asked], bytes]]]) -> None:
        """It prints the code of the fault, its values, and its meaning."""

        def serve(message: Callable[[Asked], bytes], peer: Peer) -> None:
            peer.admit()
            peer.send_bytes(message(peer.take()))
            while True:
                peer.take()

        for fault, message in faults:
            timeout = "9000" if fault == "D1" else "30000"
            for seconds in ("1", "10", "40"):
                words = ["watch", "--data", "/a", "--data", "/b", "--for", seconds, "--timeout", timeout]
                ends = self.ends_of(functools.partial(serve, message), words)
                zk, python = ([plain(line) for line in printed.splitlines() if " drop " in line] for _, printed, _ in ends)
                if zk and python:
                    break
            self.assertEqual(zk[0], python[0])
            self.assertIn(f"drop {fault} HOST ", zk[0])

    def _never_connect(self, hosts: str, line: str) -> None:
        """Both print the same lines, among them one that begins so."""
        for seconds in ("1", "10", "40"):
            ends = self.run_both(hosts, ["watch", "--data", "/a", "--for", seconds])
            if all(line in printed for _, printed, _ in ends):
                break
        self.assertEqual([(status, said) for status, _, said in ends], [(9, ""), (9, "")])
        kinds = [set(re.sub(r"(?m)^\d+\.\d+ ", "", printed).splitlines()) for _, printed, _ in ends]
        self.assertEqual(kinds[0], kinds[1])
        self.assertIn(line, "\n".join(kinds[0]))

    def test_the_manual_has_each_word_of_help(self) -> None:
        manual = MANUAL.read_text(encoding="utf-8").replace("\\-", "-")
        _, printed, _ = self.run_zk("", ["--help"])
        for command in re.findall(r"^  (\w+) ", printed.split("Commands:")[1].split("  help ")[0], re.M):
            self.assertRegex(manual, rf"(?m)^\.Cm .*\b{command}\b", command)
            _, printed, _ = self.run_zk("", [command, "--help"])
            for option in re.findall(r"^      --([a-z]+)", printed, re.M):
                self.assertIn(f"-{option}", manual, (command, option))
