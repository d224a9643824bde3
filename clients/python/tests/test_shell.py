"""Tests of `python3 -m dirwolleu` against the partner."""

from __future__ import annotations

import contextlib
import io
import json
import os
import re
import signal
import subprocess
import sys
import unittest
from typing import Any, Union
from unittest import mock

from support import CLIENTS, WAIT, Asked, Partner, PartnerCase, Peer, RawServer, data_reply, reply

import dirwolleu
from dirwolleu.__main__ import main
from dirwolleu.shell.faults import of_call
from dirwolleu.shell.words import COMMANDS, general_help


def patient(words: tuple[str, ...]) -> list[str]:
    """Words that wait for answers as long as a busy machine takes, unless they say how long."""
    waits = bool(words) and words[0] in COMMANDS and "wait" in COMMANDS[words[0]].options and "--wait" not in words
    return [*words[:1], *(["--wait", str(int(WAIT))] if waits else []), *words[1:]]


class ShellTest(PartnerCase):
    is_long = True

    def begin(self, partner: Union[Partner, RawServer], *words: str) -> subprocess.Popen[str]:
        environment = {**os.environ, "PYTHONPATH": str(CLIENTS / "python"), "DIRWOLLEU_HOSTS": partner.host}
        command = [sys.executable, "-m", "dirwolleu", *patient(words)]
        return subprocess.Popen(command, stdout=subprocess.PIPE, stderr=subprocess.PIPE, text=True, env=environment)

    def run_words(self, partner: Partner, *words: str) -> tuple[int, str, str]:
        """The exit status of a command, its output, and its standard error. It runs in this process."""
        printed, said = io.StringIO(), io.StringIO()
        with contextlib.redirect_stdout(printed), contextlib.redirect_stderr(said):
            with mock.patch.dict(os.environ, {"DIRWOLLEU_HOSTS": partner.host}):
                status = main(patient(words))
        return status, printed.getvalue(), said.getvalue()

    def printed(self, partner: Partner, *words: str) -> str:
        status, printed, said = self.run_words(partner, *words)
        self.assertEqual((status, said), (0, ""))
        return printed

    def test_the_session_of_the_help(self) -> None:
        partner = self.partner()
        for shown in re.findall(r"^  \$ python3 -m dirwolleu (.*)\n((?:  [^$\n].*\n)*)", general_help(), re.M):
            words, expected = shown[0].split(), re.sub("^  ", "", shown[1], flags=re.M)
            if words[0] != "watch":
                printed = self.printed(partner, *words)
                self.assertTrue(printed == expected or "..." in expected, (words, printed, expected))

    def test_the_module_is_a_program(self) -> None:
        process = self.begin(self.partner(), "--help")
        printed, _ = process.communicate(timeout=3 * WAIT)
        self.assertIn("--makepath /app/config one", printed)
        self.assertEqual(process.returncode, 0)

    def test_each_command(self) -> None:
        partner = self.partner()
        partner.do("create /a one", "create /a/b", "create /a/c three")
        self.assertEqual(self.printed(partner, "ls", "/a"), "b\nc\n")
        self.assertEqual(self.printed(partner, "get", "/a"), "one\n")
        self.assertEqual(self.printed(partner, "set", "/a", "two"), "")
        self.assertEqual(self.printed(partner, "tree", "/a"), "/a\n/a/b\n/a/c\n")
        self.assertEqual(self.printed(partner, "tree", "/a", "--text"), '/a "two"\n/a/b ""\n/a/c "three"\n')
        self.assertEqual(self.printed(partner, "create", "/a/n-", "", "--sequential"), "/a/n-0000000002\n")
        self.assertRegex(self.printed(partner, "stat", "/a"), r"(?m)^version 1$")
        self.assertEqual(self.printed(partner, "deleteall", "/a"), "")
        self.assertEqual(self.printed(partner, "create", partner.host + "/x", "/", "--null"), "/\n")
        self.assertEqual(self.printed(partner, "ls", "/"), "x\n")

    def test_json(self) -> None:
        partner = self.partner()
        partner.do("create /a one", "create /a/b")

        def told(*words: str) -> list[Any]:
            return [json.loads(line) for line in self.printed(partner, *words, "--json").splitlines()]

        self.assertEqual(told("ls", "/a"), [{"name": "b"}])
        self.assertEqual(told("get", "/a")[0]["data"], "one")
        self.assertEqual(told("stat", "/a")[0]["numChildren"], 1)
        self.assertEqual(told("tree", "/a"), [{"path": "/a"}, {"path": "/a/b"}])
        self.assertEqual(told("tree", "/a", "--text"), [{"path": "/a", "data": "one"}, {"path": "/a/b", "data": ""}])
        self.assertEqual(told("create", "/a/c", "x"), [{"path": "/a/c"}])

    def test_exit_statuses(self) -> None:
        partner = self.partner()
        for words, due in (
            (("get", "/none"), 5), (("stat", "/none"), 5), (("create", "/", "x"), 6), (("set", "/", "x", "--version", "7"), 6),
            (("deleteall", "/none"), 5), (("getacl", "/none"), 5), (("setacl", "/none", "world:anyone:r"), 5), (("sync", "/none"), 0),
        ):  # fmt: skip
            status, printed, said = self.run_words(partner, *words)
            self.assertEqual((status, printed, said.count("\n")), (due, "", 1 if due else 0), words)
        for wrong in (
            ("nonsense", "/"), ("get",), ("get", "no-path"), ("get", "a:x", "/"), ("set", "/"), ("get", "/", "--nope"), ("get", "/", "x"),
            ("set", "/", "x", "--version", "4294967296"), ("setacl", "/", "world:anyone:x"), ("setacl", "/"), (), ("get", "/", "--wait"),
        ):  # fmt: skip
            status, printed, said = self.run_words(partner, *wrong)
            self.assertEqual((status, printed, said[:7]), (2, "", "error: "), wrong)
        for wrong, due, begins in (
            (("--ca", "/none"), 10, "unread: /none: No such file or directory"), (("--ca", __file__), 10, f"unread: {__file__}: "),
            (("--key", "/none"), 2, "error: the key /none wants its certificate"), (("--cert", "/none"), 10, "unread: /none: No such file or directory"),
        ):  # fmt: skip
            status, printed, said = self.run_words(partner, "get", "/", *wrong)
            self.assertEqual((status, printed, said[: len(begins)], said.count("\n")), (due, "", begins, 1))
        status, printed, said = self.run_words(partner, "set", "/", "--from", "/none")
        self.assertEqual((status, printed, said), (10, "", "unread: /none: there is no such file\n"))
        partner.do("down")
        status, printed, said = self.run_words(partner, "get", "/", "--wait", "3")
        self.assertEqual((status, printed), (7, ""))
        self.assertEqual(said, f"not connected: /: no server has answered in time\n{partner.host}: connection refused\n")

    def test_what_is_refused_and_what_has_no_answer(self) -> None:
        for error, status, told in (
            (dirwolleu.NoAuthError(), 6, "refused: /a: the ACL does not admit it (-102)"),
            (dirwolleu.TooLargeError(), 6, "refused: /a: the payload has more than 1,048,575 bytes"),
            (dirwolleu.ConnectionLoss(), 8, "no answer: /a: the connection was lost: the call may or may not have happened"),
            (dirwolleu.SessionExpiredError(), 8, "no answer: /a: the session has expired"),
            (dirwolleu.CallTimeoutError(), 8, "no answer: /a: its time is over, and it was not sent"),
            (dirwolleu.NotConnectedError(), 8, "no answer: /a: its time is over, and it was not sent"),
            (dirwolleu.AuthFailedError(), 6, "refused: /a: the server refuses it (-115)"),
        ):
            ending = of_call(error, "/a", False)
            self.assertEqual((ending.status, ending.told), (status, told), error)
        late = dirwolleu.CallTimeoutError()
        self.assertEqual(of_call(late, "/a", True).told, "no answer: /a: its time is over")
        late.may_have_happened = True
        self.assertEqual(of_call(late, "/a", False).told, "no answer: /a: its time is over, and it may or may not have happened")

    def test_access_control(self) -> None:
        partner = self.partner()
        self.printed(partner, "create", "/a", "one")
        self.assertEqual(self.printed(partner, "getacl", "/a"), "world:anyone:cdrwa\n")
        self.assertEqual(self.printed(partner, "setacl", "/a", "world:anyone:r,digest:bob:AbC=:cdrwa", "--version", "0"), "")
        self.assertEqual(self.printed(partner, "getacl", "/a"), "world:anyone:r\ndigest:bob:AbC=:cdrwa\n")
        told = [json.loads(line) for line in self.printed(partner, "getacl", "/a", "--json").splitlines()]
        self.assertEqual(told[1], {"scheme": "digest", "id": "bob:AbC=", "perms": "cdrwa"})
        status, _, said = self.run_words(partner, "setacl", "/a", "world:anyone:r", "--version", "0")
        self.assertEqual((status, said), (6, "refused: /a: the node has another version (-103)\n"))

    def test_help_is_80_columns_wide(self) -> None:
        partner = self.partner()
        for name in ("", *COMMANDS):
            printed = self.printed(partner, *filter(None, [name]), "--help")
            self.assertLessEqual(max(map(len, printed.splitlines())), 80, printed)
            self.assertEqual(printed, self.printed(partner, "help", *filter(None, [name])))
        self.assertEqual(self.printed(partner, "--version"), f"dirwolleu {dirwolleu.__version__}\n")

    def test_data_of_any_bytes(self) -> None:
        partner = self.partner()
        environment = {**os.environ, "PYTHONPATH": str(CLIENTS / "python"), "DIRWOLLEU_HOSTS": partner.host}
        data = bytes(range(256))

        def piped(*words: str, given: bytes = b"") -> bytes:
            command = [sys.executable, "-m", "dirwolleu", *patient(words)]
            return subprocess.run(command, input=given, stdout=subprocess.PIPE, env=environment, check=True, timeout=3 * WAIT).stdout

        self.assertEqual(piped("create", "/a", "--from", "-", given=data), b"/a\n")
        self.assertEqual(piped("get", "/a", "--raw"), data)
        self.assertEqual(json.loads(self.printed(partner, "get", "/a", "--json"))["hex"], data.hex())

    @unittest.skipUnless(os.path.exists("/dev/full"), "there is no /dev/full")
    def test_what_cannot_be_written_is_told(self) -> None:
        partner = self.partner()
        environment = {**os.environ, "PYTHONPATH": str(CLIENTS / "python"), "DIRWOLLEU_HOSTS": partner.host}
        unwritten = "error: standard output: no storage space\n"
        for words, said in (
            (("create", "/x", "a"), unwritten), (("get", "/x"), unwritten), (("get", "/x", "--raw"), unwritten),
            (("tree", "/"), unwritten), (("stat", "/x", "--json"), unwritten),
            (("watch", "--data", "/x"), unwritten),
        ):  # fmt: skip
            command = [sys.executable, "-m", "dirwolleu", *patient(words)]
            with open("/dev/full", "wb") as full:
                done = subprocess.run(command, stdout=full, stderr=subprocess.PIPE, text=True, env=environment, timeout=3 * WAIT)
            self.assertEqual((done.returncode, done.stderr), (4, said))
        self.assertEqual(self.printed(partner, "get", "/x"), "a\n")

    @unittest.skipUnless(os.path.exists("/dev/full"), "there is no /dev/full")
    def test_what_is_left_to_write_at_the_end_is_no_other_fault(self) -> None:
        """The interpreter tries once more at its end, and ends with 120 if that fails."""
        program = "import sys; sys.stdout = open(1, 'w', closefd=False); from dirwolleu.__main__ import main; sys.exit(main(['stat', '/', '--wait', '60']))"
        environment = {**os.environ, "PYTHONPATH": str(CLIENTS / "python"), "DIRWOLLEU_HOSTS": self.partner().host}
        with open("/dev/full", "wb") as full:
            done = subprocess.run(
                [sys.executable, "-c", program], stdout=full, stderr=subprocess.PIPE, text=True, env=environment, timeout=3 * WAIT
            )
        self.assertEqual((done.returncode, done.stderr), (4, "error: standard output: no storage space\n"))

    def test_what_drives_a_terminal_is_not_shown_as_it_is(self) -> None:
        """Data are in hex then, and names as a word, with their bytes. `zk_shell` does so too, except for characters that change
        directions.
        """
        partner = self.partner()
        client = dirwolleu.Client(partner.host, 60.0)
        self.addCleanup(client.close)
        self.addCleanup(client.stop)
        client.start(WAIT)
        drives = "\x1b]0;owned\x07", "\x1b[2J", "\x7f", "\x9b", "\u202eabc", "\u2066é", "RED\r"
        client.create("/esc", b"\tA\nB\xc3\xa9")
        client.create("/esc/a\u202eb\u200f")
        self.assertEqual(self.printed(partner, "get", "/esc"), "\tA\nBé\n")
        self.assertEqual(self.printed(partner, "tree", "/esc", "--text"), '/esc "\\tA\\nBé"\n/esc/a\\xe2\\x80\\xaeb\\xe2\\x80\\x8f ""\n')
        self.assertEqual(self.printed(partner, "ls", "/esc"), "a\\xe2\\x80\\xaeb\\xe2\\x80\\x8f\n")
        self.assertEqual(json.loads(self.printed(partner, "ls", "/esc", "--json")), {"name": "a\u202eb\u200f"})
        process = self.begin(partner, "watch", "--data", "/esc", "--children", "/esc")
        self.read_until(process, r"^\d+\.\d+ /esc names 1 a\\xe2\\x80\\xaeb\\xe2\\x80\\x8f \d+ good last \d+$")
        for data in (*(text.encode() for text in drives), b"zxid 99  good  forged\xff", b"hex:00"):
            client.set("/esc", data)
            self.assertEqual(self.printed(partner, "get", "/esc"), f"hex:{data.hex()}\n")
            shown = '"hex:00"' if data == b"hex:00" else data.hex()
            self.assertEqual(self.printed(partner, "tree", "/esc", "--text").splitlines()[0], f"/esc {shown}")
            self.read_until(process, rf"^\d+\.\d+ /esc data full {data.hex()} .* good last \d+$")
        process.send_signal(signal.SIGINT)
        process.communicate(timeout=3 * WAIT)

    def test_whoever_reads_no_more_ends_it_quietly(self) -> None:
        partner = self.partner()
        process = self.begin(partner, "watch", "--children", "/")
        assert process.stdout is not None and process.stderr is not None
        self.read_until(process, r"^\d+\.\d+ / names 0 0 good last 0$")
        process.stdout.close()
        partner.do("create /a")
        self.assertEqual(process.wait(3 * WAIT), 4)
        self.assertEqual(process.stderr.read(), "")
        process.stderr.close()

    def test_a_watch_whose_credentials_are_refused_ends(self) -> None:
        """The first connection accepts them, and ends once the node is read."""
        taken = list[Asked]()

        def serve(peer: Peer) -> None:
            peer.admit()
            credentials, is_first = peer.take(), not taken
            taken.append(credentials)
            peer.send(reply(credentials, code=0 if is_first else -115))
            if is_first:
                peer.send(data_reply(peer.take(), b"one"))
            else:
                peer.finish()

        process = self.begin(self.raw_server(serve), "watch", "--data", "/a", "--text", "--auth", "digest:bob:secret")
        try:
            printed, said = process.communicate(timeout=WAIT)
        finally:
            process.kill()
        self.assertRegex(printed, r'(?m)^\d+\.\d+ /a data full "one" .* good last 5$')
        self.assertIn(" state Idle\n", printed)
        self.assertEqual(said, "refused: /a: the server refuses the credentials of the scheme digest (-115)\n")
        self.assertEqual(process.returncode, 6)

    def test_a_node_is_watched_until_it_is_interrupted(self) -> None:
        partner = self.partner()
        partner.do("create /a one")
        process = self.begin(partner, "watch", "--data", "/a", "--text")
        assert process.stdout is not None
        self.read_until(process, r'^\d+\.\d+ /a data full "one" .* good last \d+$')
        partner.do("set /a two")
        self.read_until(process, r'^\d+\.\d+ /a data full "two" .* good last \d+$')
        partner.do("down", "delete /a", "up")
        lines = self.read_until(process, r"^\d+\.\d+ /a does not exist last \d+$")
        self.assertIn(" state Idle\n", "".join(lines))
        process.send_signal(signal.SIGINT)
        _, said = process.communicate(timeout=3 * WAIT)
        self.assertEqual(said, "")
        self.assertEqual(process.returncode, 130)

    def read_until(self, process: subprocess.Popen[str], wanted: str) -> list[str]:
        """The lines that a command prints, up to the first that meets a condition."""
        assert process.stdout is not None
        lines = [process.stdout.readline()]
        while lines[-1] and not re.search(wanted, lines[-1]):
            lines.append(process.stdout.readline())
        self.assertRegex(lines[-1], wanted)
        return lines
