"""The built zk_shell by the rows of shell/: each line that a command prints and tells, and its status. The commands of nodes are those of
`python3 -m dirwolleu` too.
"""

from __future__ import annotations

import ctypes
import os
import re
import socket
import tempfile
import time
import unittest
from typing import Callable, Iterator, NamedTuple
from unittest.mock import patch

from python_shell import outcome_of_python
from served import World, world
from shell import TOP, outcome, program
from tables import HERE, Row, cases_of, repeated

ADDRESS = "127.0.0.1:2181"
"""The address in rows, for that of the server."""
HEAD = 45
"""The most bytes of a line in a case `heads`."""
DROP_CAPABILITY, OVERRIDES, SEARCHES = 24, 1, 2
LATEST_MS = 20_000
"""How much later than in the row a line may come: a busy machine takes long."""


class Case(NamedTuple):
    """A row of shell/commands.txt: its place, kind, numbers, command line, script, and expected text."""

    place: str
    kind: str
    numbers: list[int]
    words: list[str]
    script: str
    wanted: str


def cases(kind: str) -> Iterator[Case]:
    """The rows of a kind."""
    for case in cases_of("shell/commands.txt"):
        for row in case.rows:
            if row.kind[0] == kind:
                yield Case(f"commands.txt:{row.line}: {case.name}", *row.kind, row.script, "\n".join(row.wanted) + "\n")


def whole(case: Case) -> str:
    return outcome(case.words, case.script.encode())


def heads(case: Case) -> str:
    """The printed lines after the first few, each cut to 45 bytes."""
    return "".join(f"{line[:HEAD]}\n" for line in whole(case).split("\n")[case.numbers[0] :])


def ends(case: Case) -> str:
    """That many bytes of the beginning, and that many of the end."""
    printed, (first, last) = whole(case), case.numbers
    return f"{printed[:first]}\n{printed[-last:]}\n"


def addresses(case: Case) -> str:
    """For each line, whether `live` accepts it as an address. Nothing is dialled, since the script, which `live` reads next, can't be read."""
    unread = os.open(HERE, os.O_RDONLY)
    try:
        statuses = [(outcome(["live", word], unread)[-1], word) for word in case.script.split("\n")]
    finally:
        os.close(unread)
    return "".join(f"{'true' if status == '4' else 'false'} {word}\n" for status, word in statuses)


def refuse_reads() -> None:
    """Called before a command, so that even root can't read a file without permissions."""
    library = ctypes.CDLL(None)
    for capability in (OVERRIDES, SEARCHES):
        library.prctl(DROP_CAPABILITY, capability, 0, 0, 0)


def make_files(lines: list[str]) -> bytes:
    """Makes the files of lines `file NAME HEX` here, and answers the one that is named `-`: standard input."""
    given = b""
    for line in lines:
        name, _, digits = line.removeprefix("file ").partition(" ")
        data = bytes.fromhex(repeated(digits))
        if name == "-":
            given = data
        elif name == "broken":
            os.mkdir(name)  # it is opened, and each read fails
        else:
            with open(os.open(name, os.O_CREAT | os.O_WRONLY, 0 if name == "denied" else 0o600), "wb") as file:
                file.write(data)
    return given


def asked(served: World, line: str, given: bytes, is_python: bool) -> str:
    """What a command line prints, tells and answers, with ADDRESS for the server's. This process may read each file."""
    here = f"127.0.0.1:{served.port}"
    line = line.replace("[::1],zk2:2182/", f"{ADDRESS},{ADDRESS}/").replace(" zk1/", f" {ADDRESS}/")
    words = [re.sub(r"(127\.0\.0\.\d|localhost):2181", rf"\1:{served.port}", word) for word in line.split(" ")[1:]]
    is_here = is_python and "denied" not in words
    return (outcome_of_python(words, given) if is_here else outcome(words, given, refuse_reads)).replace(here, ADDRESS)


def asks(case: Case, is_python: bool = False) -> str:
    """Runs command lines against one server. `file NAME HEX` makes a file, of which `denied` can't be opened, `broken` can't be read, and `-` is
    standard input; `part` cuts the server off, and `join` lets it be dialled again; `hosts SERVERS` sets the servers of the environment."""
    printed, lines = "", case.script.splitlines()
    before = os.getcwd()
    with world() as served, tempfile.TemporaryDirectory() as folder, patch.dict(os.environ):
        os.chdir(folder)
        try:
            given = make_files([line for line in lines if line.startswith("file ")])
            for line in (line for line in lines if not line.startswith("file ")):
                if line in ("part", "join"):
                    getattr(served, line)()
                elif line.startswith("hosts "):
                    os.environ["DIRWOLLEU_HOSTS"] = line.removeprefix("hosts ").replace(ADDRESS, f"127.0.0.1:{served.port}")
                else:
                    printed += asked(served, line, given, is_python) + "\n"
        finally:
            os.chdir(before)
    return printed


def name_is_dialled() -> bool:
    with world() as served:
        return outcome(["create", f"localhost:{served.port}", "/a", "one"]).endswith("|0")


def six_is_dialled() -> bool:
    """Whether IPv6 is, if this machine has it."""
    try:
        with world("::1") as served:
            return outcome(["create", f"[::1]:{served.port}", "/a", "one"]).endswith("|0")
    except OSError:
        return True


def read_ends() -> bool:
    """Whether a command ends in time at a server that accepts the connection and says nothing."""
    with socket.create_server(("127.0.0.1", 0)) as silent:
        begun = time.monotonic()
        printed = outcome(["get", f"127.0.0.1:{silent.getsockname()[1]}", "/a", "--wait", "1"])
        return printed.endswith("|7") and 1 <= time.monotonic() - begun < LATEST_MS / 1000


def loopback(_: Case) -> str:
    """Over TCP: an answer, a server that is silent, a host by its name, IPv6, and a host that is none."""
    with world() as served:
        came = outcome(["create", f"127.0.0.1:{served.port}", "/a", "one"])[1]
    missing = "host not found" in outcome(["get", "missing.invalid:2181", "/a", "--wait", "2"])
    return (
        f"{came} came, {'a' if read_ends() else 'no'} read ends in time, {'a' if name_is_dialled() else 'no'} name is dialled,"
        f" {'IPv6' if six_is_dialled() else 'no IPv6'} is dialled, {'a' if missing else 'no'} missing host is told\n"
    )


STREAM = f"0000002d{'0' * 24}00007530{'0' * 16}00000010{'0' * 34}0000000f0000000100000004000000022f610000000008fffffffe0000000b00"
"""What a client sends: connect, a getData and a ping, and the first byte of another frame."""
SHOWN = """\
> 0 length 45 connect protocolVersion 0 lastZxidSeen 0 timeOut 30000 sessionId 0 readOnly 0
> 49 length 15 xid 1 type 4 getData path /a watch 0
> 68 length 8 xid -2 type 11 ping
> 80 left 1 bytes
||0"""

FAILING: list[tuple[str, list[str | bytes]]] = [
    ("|error: word 3 is not UTF-8: /a\\xff\\n\n|2", ["get", "127.0.0.1:1", b"/a\xff\n"]),
    ("|not connected: /a: no server has answered in time\n127.0.0.1:1: connection refused\n|7", ["get", "127.0.0.1:1", "/a", "--wait", "1"]),
    ("|error: standard output: no storage space\n|4", ["watch", "127.0.0.1:1", "--data", "/a", "--for", "60"]),
    ("|error: standard output: no storage space\n|4", ["get", "--help"]),
    ("|error: standard input: a read failed\n|4", ["history"]),
]
"""What a command tells and answers whose words, connections or streams fail: standard input is a folder, and standard output is full."""

MOMENT = re.compile(r'(?m)^(\d+)\.(\d{3})(?= )|(?<="ms":)(\d+)')


def moments_in(text: str) -> list[int]:
    """The moments of printed lines, in milliseconds."""
    return [int("".join(filter(None, found.groups()))) for found in MOMENT.finditer(text)]


def without_moments(text: str) -> str:
    return MOMENT.sub("-", text)


def settled(text: str) -> str:
    """Drops the repeated lines of an address that refuses connections, and a last dial that has not ended: how many there are depends on the load of
    the machine."""
    lines = text.split("\n")
    plain = [without_moments(line) for line in lines]
    again = {at for at in range(2, len(lines)) if plain[at] == plain[at - 2] and any("failed" in line for line in plain[at - 1 : at + 1])}
    return "\n".join(line for at, line in enumerate(lines) if at not in again)


@unittest.skipIf(program() is None, "there is no zk_shell: rt ci builds it")
class ShellTest(unittest.TestCase):
    is_long = True

    def _is(self, place: str, wanted: str, got: str) -> None:
        wanted, got = settled(wanted), settled(got)
        self.assertEqual(without_moments(wanted), without_moments(got), place)
        for due, came in zip(moments_in(wanted), moments_in(got)):
            self.assertTrue(due <= came + 1 and came < due + LATEST_MS, f"{place}: {came} milliseconds, and {due} are wanted")

    def _table(self, table: str) -> None:
        for case in cases_of(table):
            for row in case.rows:
                with self.subTest(case.name):
                    self._compare(f"{table}:{row.line}: {case.name}", row)

    def _compare(self, place: str, row: Row) -> None:
        got, wanted = outcome(row.words, row.script.encode()), row.printed
        if wanted.startswith("..\n"):
            wanted = wanted[3:]
            got = got[-len(wanted) :]
        self.assertEqual(wanted, got, place)

    def test_values(self) -> None:
        self._table("shell/values.txt")

    def test_protocol(self) -> None:
        self._table("shell/protocol.txt")

    def test_a_stream_is_cut_at_each_byte(self) -> None:
        for cut in range(2, len(STREAM), 2):
            pieces = f"> {STREAM[:cut]}\n> {STREAM[cut:]}\n".encode()
            self.assertEqual(SHOWN, outcome(["show", "--stream"], pieces), f"cut after {cut // 2} bytes")

    def _kind(self, does: Callable[[Case], str]) -> None:
        for case in cases(does.__name__):
            with self.subTest(case.place):
                self._is(case.place, case.wanted, does(case))

    def test_heads(self) -> None:
        self._kind(heads)

    def test_ends(self) -> None:
        self._kind(ends)

    def test_addresses(self) -> None:
        self._kind(addresses)

    def test_asks(self) -> None:
        self._kind(asks)

    def test_commands_of_python_by_the_same_rows(self) -> None:
        for case in cases("asks"):
            with self.subTest(case.place):
                self._is(case.place, case.wanted, asks(case, True))

    def test_loopback(self) -> None:
        self._kind(loopback)

    def test_examples(self) -> None:
        for name in ("history", "replay", "rehearse"):
            script, printed = ((TOP / f"examples/{name}.{part}").read_bytes() for part in ("script", "printed"))
            self.assertEqual(f"{printed.decode()}||0", outcome([name], script), name)

    def test_the_live_example(self) -> None:
        script, printed = ((TOP / f"examples/live.{part}").read_bytes() for part in ("script", "printed"))
        with world() as served:
            self.assertEqual(f"{printed.decode()}||0", outcome(["live", f"127.0.0.1:{served.port}"], script))

    def test_what_fails_is_told(self) -> None:
        unread, full = os.open(HERE, os.O_RDONLY), os.open("/dev/full", os.O_WRONLY)
        for wanted, words in FAILING:
            self.assertEqual(wanted, outcome(words, unread, out=full), words)
        os.close(unread)
        os.close(full)
