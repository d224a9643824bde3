#!/usr/bin/env python3
"""Tries the records of sessions in each language, with programs that obey commands: recording.py LANGUAGE:COMMAND.., as `run` has them.

The server is this test, and its expected records were written by hand, by zookeeper.jute and the lines of `zk_shell replay`. They are the
same in each language, except moments, and the places at which the bytes that come are cut.
"""

from __future__ import annotations

import pathlib
import shlex
import stat
import struct
import subprocess
import sys
import tempfile
import threading
from typing import Callable

HERE = pathlib.Path(__file__).resolve().parent
sys.path.insert(0, str(HERE.parent / "python" / "tests"))

from support import WAIT, Peer, RawServer, data_reply, framed, notice, reply, text  # noqa: E402

SHELL = HERE.parents[1] / "prebuilt/x86_64-linux/zk_shell"
PASSWORD, SECRET = b"sixteen-bytes-pw", b"anna:secret"
ADMISSION = struct.pack(">iiqi", 0, 10000, 7, len(PASSWORD)) + PASSWORD + b"\0"

STAT_HEX = "00000000000000050000000000000005" + 16 * "00" + 12 * "00" + 8 * "00" + "00000003" + "00000000" + "0000000000000005"
ASKED = "> 0000002d" "00000000" "%s" "00002710" "%s" "00000010" + 16 * "00" + "00"
ADMITTED = "00000025" "00000000" "00002710" "0000000000000007" "00000010" + 16 * "00" + "00"
INTRODUCED = "> 00000025" "fffffffc" "00000064" + 29 * "00"
TAKEN = "00000010" "fffffffc" "0000000000000005" "00000000"
ACL = "00000001" "0000001f" "00000005" + b"world".hex() + "00000006" + b"anyone".hex()


PATH, WORD, SPELLED = "/a\\b", "/a\\x5cb", "00000004" "2f615c62"

CHANGED = "00000020" "ffffffff" "ffffffffffffffff" "00000000" "00000003" "00000003" + SPELLED


def read_of(xid: int) -> list[str]:
    return [f"call {xid} getdata {WORD} 1", f"> 00000011{xid:08x}00000004{SPELLED}01"]


def data_of(xid: int, data: bytes) -> str:
    return f"bytes 0000005b{xid:08x}000000000000000500000000" "00000003" + data.hex() + STAT_HEX


RECORD = [
    "timeout 10000",
    "opened",
    ASKED % (8 * "00", 8 * "00"),
    "bytes " + ADMITTED,
    f"call 1 create {WORD} 6f6e65 0",
    "> 00000036" "00000001" "00000001" + SPELLED + "00000003" "6f6e65" + ACL + "00000000",
    "bytes 00000018" "00000001" "0000000000000005" "00000000" + SPELLED,
    INTRODUCED,
    "bytes " + TAKEN,
    *read_of(2),
    data_of(2, b"one") + CHANGED,
    *read_of(3),
    data_of(3, b"two"),
    "cut",
    "opened",
    ASKED % ("0000000000000005", "0000000000000007"),
    INTRODUCED,
    "bytes " + ADMITTED + TAKEN,
    "> 00000024" "fffffff8" "00000065" "0000000000000005" "00000001" + SPELLED + "00000000" "00000000",
    "bytes 00000010" "fffffff8" "0000000000000005" "00000000" + CHANGED,
    *read_of(4),
    data_of(4, b"end"),
    f"call 5 setdata {WORD} 7468726565 -1",
    "> 0000001d" "00000005" "00000005" + SPELLED + "00000005" "7468726565" "ffffffff",
    "bytes 00000010" "00000005" "0000000000000005" "ffffff99",
    "call 6 close",
    "> 00000008" "00000006" "fffffff5",
    "bytes 00000010" "00000006" "0000000000000005" "00000000",
    "cut",
]

STAT_WORDS = "5 5 0 0 0 0 0 0 3 0 5"
REPLAYED = [
    f"answer 1 5 created {WORD}",
    f"answer 2 5 data 6f6e65 {STAT_WORDS}",
    f"report data DataChanged {WORD}",
    f"answer 3 5 data 74776f {STAT_WORDS}",
    f"report data DataChanged {WORD}",
    f"answer 4 5 data 656e64 {STAT_WORDS}",
    "answer 5 5 code -103",
    "data full 656e64 5 5 0 0 0 0 3 good",
    "answer 6 5 done",
]
"""The lines that a replay prints besides the frames that are sent and the states, with a look-up before the close."""

SHOWN = [
    "> 0 length 45 connect protocolVersion 0 lastZxidSeen 0 timeOut 10000 sessionId 0 readOnly 0",
    "< 0 length 37 connected protocolVersion 0 timeOut 10000 sessionId 7 readOnly 0",
    f"< 41 length 24 xid 1 type 1 create zxid 5 err 0 Ok path {WORD}",
    "> 107 length 37 xid -4 type 100 auth",
]
"""Some of the lines that a show prints of its first connection."""


def same(what: str, found: object, wanted: object) -> None:
    if found != wanted:
        sys.exit(f"{what}: it is\n{found}\nand is to be\n{wanted}")


class Server:
    """The server of the session: two connections, of which the first ends after the second read."""

    def __init__(self) -> None:
        self.changed, self.cut = threading.Event(), threading.Event()
        self.connects: list[bytes] = []
        self.raw = RawServer(self.serve)

    def serve(self, peer: Peer) -> None:
        self.connects.append(peer.take_payload())
        (self.go_on_first if len(self.connects) == 1 else self.go_on_second)(peer)

    def take_credential(self, peer: Peer) -> bytes:
        """The answer to a credential."""
        same("the credential", peer.take().body, struct.pack(">i", 0) + framed(b"digest", SECRET))
        return struct.pack(">iqi", -4, 5, 0)

    def go_on_first(self, peer: Peer) -> None:
        peer.send(ADMISSION)
        create = peer.take()
        peer.send(reply(create, text(PATH)))
        peer.send(self.take_credential(peer))
        peer.send(data_reply(peer.take(), b"one"))
        self.changed.wait(WAIT)
        peer.send(notice(PATH))
        peer.send(data_reply(peer.take(), b"two"))
        self.cut.wait(WAIT)

    def go_on_second(self, peer: Peer) -> None:
        peer.send(ADMISSION, self.take_credential(peer))
        peer.send(reply(peer.take()), notice(PATH))
        peer.send(data_reply(peer.take(), b"end"))
        for code in (-103, 0):
            peer.send(reply(peer.take(), code=code))
        peer.finish()


class Program:
    """A program that gets commands by lines, answers by lines, and writes a record."""

    def __init__(self, command: list[str], hosts: str, record: str) -> None:
        words = [*command, hosts, "0", record]
        self.process = subprocess.Popen(words, text=True, stdin=subprocess.PIPE, stdout=subprocess.PIPE, stderr=subprocess.PIPE)

    def do(self, command: str, wanted: str = "") -> None:
        assert self.process.stdin and self.process.stdout
        self.process.stdin.write(f"{command}\n")
        self.process.stdin.flush()
        if wanted:
            same(command, self.process.stdout.readline().rstrip("\n"), wanted)

    def end(self) -> str:
        """Its standard error."""
        return self.process.communicate(timeout=WAIT)[1]


def shell(command: list[str], lines: list[str]) -> list[str]:
    """The output of `zk_shell` for lines."""
    told = subprocess.run([SHELL, *command], input="".join(f"{line}\n" for line in lines), capture_output=True, text=True, timeout=WAIT)
    same(f"{command} says", told.stderr, "")
    same(f"{command} ends with", told.returncode, 0)
    return told.stdout.splitlines()


def without_moments(lines: list[str]) -> list[str]:
    """The lines of a record except its moments. Bytes that came are joined, wherever they were cut."""
    kept: list[str] = []
    moments = [int(line.split()[1]) for line in lines if line.startswith("now ")]
    same("the moments", moments, sorted({0, *moments}))
    for line in lines:
        if line.startswith("bytes ") and kept and kept[-1].startswith("bytes "):
            kept[-1] += line.removeprefix("bytes ")
        elif not line.startswith(("now ", "#")):
            kept.append(line)
    return kept


def begun(command: list[str], record: str) -> tuple[Server, Program]:
    """A session that writes a record, and has written, sent a credential, and shown what it follows."""
    server = Server()
    program = Program(command, server.raw.host, record)
    program.do(f"create {PATH} one", PATH)
    program.do(f"auth digest {SECRET.decode()}", "done")
    program.do(f"follow {PATH}")
    program.do("next", "data one")
    return server, program


def try_a_run(command: list[str], record: pathlib.Path) -> None:
    """A session that writes, follows, is cut and is closed: its record by hand, no secret in it, and the output when it is replayed."""
    server, program = begun(command, str(record))
    server.changed.set()
    program.do("next", "data two")
    server.cut.set()
    program.do("next", "data end")
    program.do(f"set {PATH} three -1", f"the node has another version: {PATH}; read it again")
    program.do("close", "closed")
    same("standard error", program.end(), "")
    server.raw.stop()
    same("the password of the second connection", PASSWORD in server.connects[1], True)
    same("the mode of the file", stat.S_IMODE(record.stat().st_mode), 0o600)
    text = record.read_text(encoding="ascii")
    for secret in (PASSWORD, SECRET):
        same(f"the record has {secret!r}", secret.hex() in text or secret.decode() in text, False)
    lines = text.splitlines()
    same("the record", without_moments(lines), RECORD)
    try_shell(lines)


def try_shell(lines: list[str]) -> None:
    """Replays a record of the run above, and shows its frames."""
    close = lines.index("call 6 close")
    replayed = shell(["replay"], [*lines[:close], f"peek data {WORD}", *lines[close:]])
    sent = [line.replace("> ", "send ") for line in lines if line.startswith("> ") and "fffffffc00000064" not in line]
    same("what is sent again", [line for line in replayed if line.startswith("send ")], sent)
    same("what is said again", [line for line in replayed if not line.startswith(("send ", "state "))], REPLAYED)
    shown = shell(["show", "--stream"], lines)
    same("what is shown", [line for line in SHOWN if line not in shown], [])
    same("faults that are shown", [line for line in shown if "fault" in line or "left" in line], [])


def try_a_full_disk(command: list[str]) -> None:
    """A record that cannot be written ends, with one message, and the session goes on."""
    server, program = begun(command, "/dev/full")
    program.process.kill()
    told = program.end().splitlines()
    server.raw.stop()
    same("what is told of a full disk", [line.startswith("the record ends: No space left on device") for line in told], [True])


def try_a_kill(command: list[str], record: pathlib.Path) -> None:
    """The record of a program that is killed has all that came before."""
    server, program = begun(command, str(record))
    wanted = [*RECORD[: RECORD.index(read_of(3)[0]) - 1], data_of(2, b"one")]
    for _ in range(int(WAIT / 0.01)):
        if without_moments(record.read_text(encoding="ascii").splitlines()) == wanted:
            break
        threading.Event().wait(0.01)
    program.process.kill()
    program.end()
    server.raw.stop()
    same("the record after a kill", without_moments(record.read_text(encoding="ascii").splitlines()), wanted)


def try_no_file(command: list[str], record: pathlib.Path) -> None:
    """A session whose record cannot be made is not opened."""
    program = Program(command, "127.0.0.1:1", str(record / "none" / "file"))
    said = program.end()
    same("a record that cannot be made ends it with 0", program.process.returncode == 0, False)
    same(f"what is said of it, {said!r}", "no such file or directory" in said.lower(), True)


def main() -> None:
    tries: list[Callable[[list[str], pathlib.Path], None]] = [try_a_run, lambda command, _: try_a_full_disk(command), try_a_kill]
    commands = [shlex.split(word.split(":", 1)[1]) for word in sys.argv[1:]]
    with tempfile.TemporaryDirectory() as folder:
        for command in commands:
            for one in tries:
                one(command, pathlib.Path(folder, "record"))
            try_no_file(command, pathlib.Path(folder))
    print(f"recording: {len(commands)} languages passed")


main()
