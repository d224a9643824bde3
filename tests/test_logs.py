"""The built zk_shell over transaction logs: logs/log.1 and logs/log.11 are what a ZooKeeper 3.8.0 wrote, and logs/printed is what they say, by a
decoder that shares no code with zk_shell. The first has paths in its closes, the second none.
"""

from __future__ import annotations

import json
import os
import struct
import tempfile
import unittest
import zlib

from shell import outcome, program
from tables import HERE

FIRST, SECOND = ((HERE / "logs" / name).read_bytes() for name in ("log.1", "log.11"))
PRINTED = (HERE / "logs/printed").read_text(encoding="utf-8").splitlines(keepends=True)
RECORDS = {13: 975, 14: 1142, 15: 1278, 16: 1390, 20: 195, 22: 402}
"""The place of the record of a zxid in its log."""
END, LATER_END = 1478, 459
"""The place after the last record of each log."""
Files = dict[str, bytes]


def lines(first: int, last: int, more: int = 0) -> str:
    """What is printed of these zxids, if they are so many more."""
    printed = [line.split(" ", 1) for line in PRINTED]
    return "".join(f"{int(zxid) + more} {rest}" for zxid, rest in printed if first <= int(zxid) <= last)


def put(log: bytes, place: int, part: bytes) -> bytes:
    return log[:place] + part + log[place + len(part) :]


def with_unknown(log: bytes) -> bytes:
    """The second log with a record more, of an unknown operation, with its right checksum."""
    return log[:LATER_END] + record(struct.pack(">qiqqi", 0, 0, 23, 0, 77)) + log[LATER_END:]


def record(entry: bytes) -> bytes:
    return struct.pack(">qi", zlib.adler32(entry), len(entry)) + entry + b"B"


def entry_at(log: bytes, place: int) -> bytes:
    (length,) = struct.unpack_from(">i", log, place + 8)
    return log[place + 12 : place + 12 + length]


def with_digest(log: bytes, zxid: int, version: int = 2) -> bytes:
    """The log with another digest in the record of a zxid, and its right checksum."""
    entry = entry_at(log, RECORDS[zxid])
    return put(log, RECORDS[zxid], record(entry[:-12] + struct.pack(">i", version) + entry[-8:-1] + bytes([entry[-1] ^ 1])))


def departs(name: str, place: int, zxid: int) -> str:
    """What is told of a wrong digest, and the exit status."""
    return f"|{name}: byte {place}: zxid {zxid} has the digest of another tree: transactions before it are missing, or were taken back\n|1"


def without_digest(log: bytes, zxid: int) -> bytes:
    place = RECORDS[zxid]
    entry = entry_at(log, place)
    return log[:place] + record(entry[:-12]) + log[place + 13 + len(entry) :]


def with_error(log: bytes, zxid: int) -> bytes:
    """The log with a transaction that changes nothing in place of that of a zxid, as if another one had been taken back."""
    place = RECORDS[zxid]
    entry = entry_at(log, place)
    return log[:place] + record(entry[:28] + struct.pack(">ii", -1, -101)) + log[place + 13 + len(entry) :]


CREATE = struct.pack(">i2s", 2, b"/z") + bytes(4) + struct.pack(">i", 0) + b"\0" + struct.pack(">i", 9)
WRITE = struct.pack(">i1s", 1, b"/") + bytes(4) + struct.pack(">i", 1)
PARTS = struct.pack(">i", 2) + b"".join(struct.pack(">ii", kind, len(part)) + part for kind, part in ((1, CREATE), (5, WRITE)))
"""The fields of a create of a node at the root, of a write of the root, and of a multi of both."""


def with_more(log: bytes, bodies: list[tuple[int, bytes]]) -> bytes:
    """The first log with these operations more, each with a digest of no tree."""
    more = [struct.pack(">qiqqi", 7, 1, 17 + i, 8, kind) + body + struct.pack(">iq", 2, 3) for i, (kind, body) in enumerate(bodies)]
    return log[:END] + b"".join(map(record, more))


def place_after(bodies: list[tuple[int, bytes]]) -> int:
    """The place after these operations, which come after the first log."""
    return END + sum(13 + 32 + len(body) + 12 for _, body in bodies)


def with_plain(log: bytes, zxid: int, bodies: list[tuple[int, bytes]], session: int = 7) -> bytes:
    """The log, without its zeros, with these operations more, from a zxid on, without digests."""
    return log + b"".join(record(struct.pack(">qiqqi", session, 1, zxid + i, 8, kind) + body) for i, (kind, body) in enumerate(bodies))


def alone(kind: int, body: bytes, session: int = 7) -> bytes:
    """The first log with an operation more, without a digest."""
    return with_plain(FIRST[:END], 17, [(kind, body)], session)


Z = struct.pack(">i2s", 2, b"/z")
MAKE = (1, CREATE)
MAKE_OWN = (1, CREATE[:14] + b"\1" + CREATE[15:])
SET, DELETE = (5, Z + bytes(4) + struct.pack(">i", 1)), (2, Z)
CLOSE, CLOSE_NONE = (-11, struct.pack(">i", 1) + Z), (-11, bytes(4))
"""The path /z; its create, one that is the session's, its set and its delete; closes that tell it, and that tell no path."""


def later(path: str, bodies: list[tuple[int, bytes]], wanted: str, fault: str = "", at: int = 0) -> tuple[Files, str, str]:
    """The second log alone, which begins later, with these operations more: what is told of a path, and of a fault in the last of them."""
    whole, before = (with_plain(SECOND[:LATER_END], 23, some) for some in (bodies, bodies[:-1]))
    told = f"|b: byte {len(before)}: {fault}\n|1" if fault else "||0"
    words, begin = (f" --at {at}", "") if at else ("", f"unknown {path}\nunchecked b 16\n")
    return {"b": whole}, f"--log b --path {path}{words}", f"{begin}{wanted}{told}"


RULED_OUT = "the tree as it stands does not admit a change"
"""What is told of an operation that what is known rules out."""
QUIET = [(5, WRITE), *1000 * [(-10, struct.pack(">i", 9))]]
"""A write of the root, and as many transactions after it as are not compared."""
QUIET_LINES = "17 8 7 set / \\e 1\n" + "".join(f"{zxid} 8 7 open 9\n" for zxid in range(18, 1018))
MADE = [(5, WRITE), *((1, struct.pack(">i5s", 5, b"/z%03d" % i) + CREATE[6:]) for i in range(200))]
"""A write of the root, and creates of 200 nodes: the tree has 208 then."""
MADE_LINES = "17 8 7 set / \\e 1\n" + "".join(f"{18 + i} 8 7 create /z{i:03} \\e 0\n" for i in range(200))
CLOSES = (217 * 64) // (208 - 64)
"""How often all nodes may be gone over."""


def in_next_epoch(log: bytes, before: int) -> bytes:
    """The log with its zxids in the next epoch, from 1 on: they were one more than this number before."""
    place, moved = 16, log[:16]
    while entry := entry_at(log, place):
        place += 13 + len(entry)
        (zxid,) = struct.unpack_from(">q", entry, 12)
        moved += record(put(entry, 12, struct.pack(">q", zxid - before + 2**32)))
    return moved + log[place:]


ROWS: list[tuple[str, Files, str, str]] = [
    ("both, in the order of their zxids", {"b": SECOND, "a": FIRST}, "--log b a", f"{lines(1, 22)}||0"),
    ("each by its own --log", {"b": SECOND, "a": FIRST}, "--log b --log a", f"{lines(1, 22)}||0"),
    ("one transaction", {"a": FIRST}, "--log a --at 13", f"{lines(13, 13)}||0"),
    (
        "a path",
        {"a": FIRST},
        "--log a --path /a",
        "4 1795889114434 72058146216280065 create /a 78 0\n6 1795889114460 72058146216280065 set /a 79 1\n||0",
    ),
    ("a path at a zxid", {"a": FIRST}, "--log a --path /a --at 5", "4 1795889114434 72058146216280065 create /a 78 0\n||0"),
    ("a path that is deleted", {"a": FIRST}, "--log a --path /b --at 15", "13 1795889114479 72058146216280065 delete /b\n||0"),
    ("a path before its creation", {"a": FIRST}, "--log a --path /b --at 4", "absent /b\n||0"),
    ("a path that never was", {"a": FIRST}, "--log a --path /x --at 16", "absent /x\n||0"),
    (
        "an ephemeral node whose close tells its paths",
        {"a": FIRST},
        "--log a --path /a/e",
        "9 1795889114466 72058146216280065 create /a/e 71 72058146216280065\n16 1795889114495 72058146216280065 delete /a/e\n||0",
    ),
    (
        "an ephemeral node whose close tells none",
        {"b": SECOND, "a": FIRST},
        "--log a b --path /e1",
        "20 1795889146666 72058148326866945 create /e1 78 72058148326866945\n22 1795889146684 72058148326866945 delete /e1\n||0",
    ),
    ("logs that do not begin with the first transaction", {"b": SECOND}, "--log b --path /a", "unknown /a\nunchecked b 16\n||0"),
    ("a path of them at a zxid", {"b": SECOND}, "--log b --path /a --at 20", "unknown /a\n||0"),
    ("a path that servers begin with", {"a": FIRST}, "--log a --path /zookeeper --at 16", "unknown /zookeeper\n||0"),
    (
        "a gap",
        {"a": FIRST[: RECORDS[15]], "b": SECOND},
        "--log a b --path /a",
        "4 1795889114434 72058146216280065 create /a 78 0\n6 1795889114460 72058146216280065 set /a 79 1\ngap 15 16\n||0",
    ),
    ("a path after a gap", {"a": FIRST[: RECORDS[15]], "b": SECOND}, "--log a b --path /a --at 20", "unknown /a\n||0"),
    ("another digest", {"a": with_digest(FIRST, 13)}, "--log a", f"{lines(1, 12)}digest a 975\n{lines(13, 16)}{departs('a', 975, 13)}"),
    (
        "the first of two",
        {"a": with_digest(with_digest(FIRST, 13), 16)},
        "--log a",
        f"{lines(1, 12)}digest a 975\n{lines(13, 16)}{departs('a', 975, 13)}",
    ),
    ("a digest of another version", {"a": with_digest(FIRST, 13, 3)}, "--log a", f"{lines(1, 12)}unchecked a 975\n{lines(13, 16)}||0"),
    ("no digest", {"a": without_digest(FIRST, 13)}, "--log a", f"{lines(1, 12)}unchecked a 975\n{lines(13, 16)}||0"),
    (
        "a multi that writes the root, whose digest servers get wrong",
        {"a": with_more(FIRST, [(14, PARTS)])},
        "--log a",
        f"{lines(1, 16)}17 8 7 create /z \\e 0\n17 8 7 set / \\e 1\n||0",
    ),
    (
        "a child of the root, made while a write of the root is on its way",
        {"a": with_more(FIRST, [(5, WRITE), (1, CREATE)])},
        "--log a",
        f"{lines(1, 16)}17 8 7 set / \\e 1\n18 8 7 create /z \\e 0\n||0",
    ),
    (
        "the last digest that is not compared after a write of the root",
        {"a": with_more(FIRST, QUIET)},
        "--log a",
        f"{lines(1, 16)}{QUIET_LINES}||0",
    ),
    (
        "the next one",
        {"a": with_more(FIRST, [*QUIET, QUIET[1]])},
        "--log a",
        f"{lines(1, 16)}{QUIET_LINES}digest a {place_after(QUIET)}\n1018 8 7 open 9\n{departs('a', place_after(QUIET), 1018)}",
    ),
    (
        "closes that tell no paths, each of which goes over all nodes",
        {"a": with_more(FIRST, [*MADE, *(CLOSES + 1) * [(-11, b"")]])},
        "--log a",
        f"{lines(1, 16)}{MADE_LINES}" + "".join(f"{218 + i} 8 7 close\n" for i in range(CLOSES))
        + f"unchecked a {place_after([*MADE, *CLOSES * [(-11, b'')]])}\n{218 + CLOSES} 8 7 close\n||0",
    ),
    ("a digest in logs that begin later", {"b": with_digest(SECOND, 20)}, "--log b", f"unchecked b 16\n{lines(17, 22)}||0"),
    (
        "the digest after a close that tells no paths",
        {"a": FIRST, "b": with_digest(SECOND, 22)},
        "--log a b",
        f"{lines(1, 21)}digest b 402\n{lines(22, 22)}{departs('b', 402, 22)}",
    ),
    (
        "another transaction in place of one",
        {"a": with_error(FIRST, 13)},
        "--log a",
        f"{lines(1, 12)}13 1795889114479 72058146216280065 error -101\ndigest a 1024\n{lines(14, 16)}{departs('a', 1024, 14)}",
    ),
    ("a path that it may have changed", {"a": with_error(FIRST, 13)}, "--log a --path /b --at 16", f"unknown /b\n{departs('a', 1024, 14)}"),
    (
        "the end of an epoch is missing",
        {"a": FIRST[: RECORDS[15]], "b": in_next_epoch(SECOND, 16)},
        "--log a b",
        f"{lines(1, 14)}digest b 16\n{lines(17, 22, 2**32 - 16)}{departs('b', 16, 2**32 + 1)}",
    ),
    (
        "an ephemeral node in logs that begin later",
        {"b": SECOND},
        "--log b --path /e1",
        "unknown /e1\nunchecked b 16\n20 1795889146666 72058148326866945 create /e1 78 72058148326866945\n"
        "22 1795889146684 72058148326866945 delete /e1\n||0",
    ),
    ("one that its session's close leaves out", *later("/z", [MAKE_OWN, CLOSE_NONE], "23 8 7 create /z \\e 7\n24 8 7 delete /z\n")),
    ("the close of another session", *later("/z", [MAKE, CLOSE_NONE], "23 8 7 create /z \\e 0\n")),
    ("a close that tells a path of which nothing is known", *later("/z", [CLOSE], "23 8 7 delete /z\n")),
    ("a close that tells what is deleted already", *later("/z", [MAKE_OWN, DELETE, CLOSE], "23 8 7 create /z \\e 7\n24 8 7 delete /z\n")),
    (
        "a creation of a node that is there",
        *later("/z", [MAKE, MAKE], "23 8 7 create /z \\e 0\nunknown /z\n24 8 7 create /z \\e 0\n", RULED_OUT),
    ),
    ("what is there then", *later("/z", [MAKE, MAKE], "24 8 7 create /z \\e 0\n", RULED_OUT, 24)),
    ("what was there before", *later("/z", [MAKE, MAKE], "23 8 7 create /z \\e 0\n", at=23)),
    ("a write of a node that is not there", *later("/z", [DELETE, SET], "23 8 7 delete /z\nunknown /z\n24 8 7 set /z \\e 1\n", RULED_OUT)),
    ("a delete of one", *later("/z", [DELETE, DELETE], "23 8 7 delete /z\nunknown /z\n24 8 7 delete /z\n", RULED_OUT)),
    (
        "what comes after it",
        {"b": with_plain(SECOND[:LATER_END], 23, [DELETE, DELETE, MAKE_OWN, CLOSE_NONE])},
        "--log b --path /z",
        "unknown /z\nunchecked b 16\n23 8 7 delete /z\nunknown /z\n24 8 7 delete /z\n25 8 7 create /z \\e 7\n26 8 7 delete /z\n"
        f"|b: byte {LATER_END + 13 + 32 + len(Z)}: {RULED_OUT}\n|1",
    ),
    (
        "a part that cannot be read",
        {"a": alone(14, struct.pack(">iii", 1, 77, 0))},
        "--log a",
        f"|a: byte {END}: a part of a multi: unknown type 77\n|1",
    ),
    ("what another path held there", *later("/y", [MAKE, MAKE], "")),
    ("a text that is no path", *later("/z", [(2, b"\0\0\0\1z")], "unknown /z\n", "a path: the path does not begin with a slash")),
    ("no zeros", {"a": FIRST[:END]}, "--log a", f"{lines(1, 16)}||0"),
    ("a header alone", {"a": FIRST[:16]}, "--log a", "||0"),
    ("a header and zeros", {"a": FIRST[:16] + bytes(64)}, "--log a", "||0"),
    ("a record that the end cuts off", {"a": FIRST[: END - 1]}, "--log a", f"{lines(1, 15)}torn a 1390\n||0"),
    ("a record's first bytes", {"a": FIRST[: RECORDS[16] + 5]}, "--log a", f"{lines(1, 15)}torn a 1390\n||0"),
    ("a record that zeros cut off", {"a": put(FIRST, END - 20, bytes(20))}, "--log a", f"{lines(1, 15)}torn a 1390\n||0"),
    ("a record with its checksum alone", {"a": put(FIRST, RECORDS[16] + 8, bytes(80))}, "--log a", f"{lines(1, 15)}torn a 1390\n||0"),
    ("another checksum", {"a": put(FIRST, RECORDS[13], b"\1")}, "--log a", "|a: byte 975: a record with another checksum\n|1"),
    ("another byte of an entry", {"a": put(FIRST, RECORDS[13] + 40, b"\1")}, "--log a", "|a: byte 975: a record with another checksum\n|1"),
    ("the last record, with another checksum", {"a": put(FIRST, END - 9, b"\1")}, "--log a", "|a: byte 1390: a record with another checksum\n|1"),
    ("no B in the middle", {"a": put(FIRST, RECORDS[15] - 1, b"\0")}, "--log a", "|a: byte 1142: a record whose end is no B\n|1"),
    ("a length below 0", {"a": put(FIRST, RECORDS[13] + 8, b"\x80")}, "--log a", "|a: byte 975: a record of no length\n|1"),
    ("a length of 0", {"a": put(FIRST, RECORDS[13] + 8, bytes(4))}, "--log a", "|a: byte 975: a record of no length\n|1"),
    ("an operation that is none", {"b": with_unknown(SECOND)}, "--log b", "|b: byte 459: an entry: unknown type 77\n|1"),
    ("a log twice", {"a": FIRST, "b": FIRST}, "--log a b", "|a: its zxids are not above those of the other logs\n|1"),
    ("another magic", {"a": put(FIRST, 0, b"z")}, "--log a", "|a: byte 0: no log: it does not begin with ZKLG\n|1"),
    ("another version", {"a": put(FIRST, 7, b"\3")}, "--log a", "|a: byte 4: version 3 of the format is unknown\n|1"),
    ("an empty file", {"a": b""}, "--log a", "|a: byte 0: no log: a value at byte 0 is cut off\n|1"),
    ("no file", {}, "--log a", "|a: entity not found\n|10"),
]
"""A case: files, the words after `history`, and what is printed, told and answered."""

OBJECTS = [
    {"zxid": 4, "time": 1795889114434, "session": 72058146216280065, "operation": "create", "path": "/a", "data": "x", "owner": 0},
    {"zxid": 6, "time": 1795889114460, "session": 72058146216280065, "operation": "set", "path": "/a", "data": "y", "version": 1},
]
"""The objects of /a in the first log."""

REFUSED = [("--log", "--log names no file"), ("--log a --at x", "--at wants a zxid"), ("--log a --path", "an option has no value")]
REFUSED += [("--log a --x", "a word is unexpected"), ("--json b --log a", "a word is unexpected")]
REFUSED += [(f"--log a --script {word}", "--script takes no --path and no --json") for word in ("--json", "--path /a")]
"""Words, and why they are refused."""


FIRST_NODES = "".join(f"node {path} \\e 0\n" for path in ("/zookeeper", "/zookeeper/quota", "/zookeeper/config"))
CHANGES = {"create": 4, "container": 3, "ttl": 3, "set": 3, "delete": 2}
"""How many words of what is printed of a change are in its line of a script."""


def script(last: int) -> str:
    """The script of both logs up to a zxid. The close of 22 tells no paths: that it deletes /e1 is by the server's digest."""
    told, before = FIRST_NODES, ""
    for line in [*PRINTED, "22 - - delete /e1"]:
        zxid, time, _, *words = line.split()
        if int(zxid) > last:
            break
        told += f"tx {zxid} {time}\n" if zxid != before else ""
        before = zxid
        if words[0] in CHANGES:
            made = words[0] in ("container", "ttl")
            told += " ".join([*(["create"] if made else words[:1]), *words[1 : CHANGES[words[0]]], *(["0"] if made else [])]) + "\n"
    return told


NO_SCRIPT: list[tuple[str, Files, str]] = [
    ("logs that begin later", {"b": SECOND}, "b: byte 16: transactions before it are not in the logs"),
    ("a gap", {"a": FIRST[: RECORDS[15]], "b": SECOND}, "b: byte 16: transactions before it are not in the logs"),
    (
        "a later epoch that begins at its second transaction",
        {"a": FIRST, "b": in_next_epoch(SECOND, 15)},
        "b: byte 16: transactions before it are not in the logs",
    ),
    ("a log twice", {"a": FIRST, "b": FIRST}, "a: its zxids are not above those of the other logs"),
    ("another digest", {"a": with_digest(FIRST, 13)}, departs("a", 975, 13)[1:-3]),
    ("a delete of no node", {"a": alone(2, CREATE[:6])}, f"a: byte {END}: the tree as it stands does not admit a change"),
    ("a path that is none", {"a": alone(2, b"\0\0\0\1z")}, f"a: byte {END}: a path: the path does not begin with a slash"),
    ("a part that is none", {"a": alone(14, struct.pack(">iii", 1, 77, 0))}, f"a: byte {END}: a part of a multi: unknown type 77"),
    ("an owner below 0", {"a": alone(1, CREATE[:14] + b"\1" + CREATE[15:], -7)}, "zxid 17: a time or an owner below 0, which no script has"),
]
"""Logs that have no script, and why."""

SEEN = [
    ("9 data /a", "data 79 4 6 1795889114434 1795889114460 1 0 1"),
    ("9 data /a/e", "data 71 9 9 1795889114466 1795889114466 0 72058146216280065 1"),
    ("9 data /b", "data \\0 5 5 1795889114456 1795889114456 0 0 0"),
    ("9 names /a", "names 2 e s-0000000000 9"),
    ("9 names /", "names 3 a b zookeeper 5"),
    ("22 data /a", "data 79 4 6 1795889114434 1795889114460 1 0 1"),
    ("22 names /a", "names 0 16"),
    ("22 data /m", "data 32 13 13 1795889114479 1795889114479 1 0 1"),
    ("22 data /t", "data \\e 21 21 1795889146680 1795889146680 0 0 0"),
    ("22 data /b", "data absent"),
    ("22 data /e1", "data absent"),
    ("22 names /", "names 6 a c m p t zookeeper 22"),
]
"""What a ZooKeeper 3.8.0 answered that was started over the logs up to zxid 9, and over all of them."""


@unittest.skipIf(program() is None, "there is no zk_shell: rt ci builds it")
class LogTest(unittest.TestCase):
    def _end_of(self, files: Files, words: str) -> str:
        before = os.getcwd()
        with tempfile.TemporaryDirectory() as folder:
            os.chdir(folder)
            try:
                for name, data in files.items():
                    with open(name, "wb") as file:
                        file.write(data)
                return outcome(["history", *words.split(" ")])
            finally:
                os.chdir(before)

    def test_rows(self) -> None:
        for name, files, words, wanted in ROWS:
            with self.subTest(name):
                self.assertEqual(wanted, self._end_of(files, words))

    def test_objects(self) -> None:
        printed, told, status = self._end_of({"a": FIRST}, "--log a --path /a --json").split("|")
        self.assertEqual((OBJECTS, "", "0"), ([json.loads(line) for line in printed.splitlines()], told, status))
        printed = self._end_of({"a": with_digest(FIRST, 13)}, "--log a --path /p --json").split("|")[0]
        self.assertEqual({"digest": "a", "byte": 975}, json.loads(printed.splitlines()[0]))
        printed = self._end_of({"b": SECOND}, "--log b --path /p --json").split("|")[0]
        self.assertEqual([{"unknown": "/p"}, {"unchecked": "b", "byte": 16}], [json.loads(line) for line in printed.splitlines()])

    def test_each_cut_is_torn_or_whole(self) -> None:
        """As long as a record has zeros alone, as the first half of a checksum, it is none yet."""
        for cut in range(RECORDS[16] + 1, END):
            torn = "torn a 1390\n" if any(FIRST[RECORDS[16] : cut]) else ""
            self.assertEqual(f"{lines(1, 15)}{torn}||0", self._end_of({"a": FIRST[:cut]}, "--log a"), cut)

    def test_scripts(self) -> None:
        files = {"a": FIRST, "b": SECOND}
        self.assertEqual(f"{script(22)}||0", self._end_of(files, "--log b a --script"))
        for last in range(1, 23):
            self.assertEqual(f"{script(last)}||0", self._end_of(files, f"--log a b --script --at {last}"), last)

    def test_logs_without_a_script(self) -> None:
        for name, files, why in NO_SCRIPT:
            with self.subTest(name):
                self.assertEqual(f"|{why}\n|1", self._end_of(files, " ".join(["--log", *files, "--script"])))

    def test_scripts_are_taken(self) -> None:
        told = self._end_of({"a": FIRST, "b": SECOND}, "--log a b --script").split("|")[0]
        asked = "".join(f"ask {question}\n" for question, _ in SEEN)
        self.assertEqual("".join(f"{answer}\n" for _, answer in SEEN) + "||0", outcome(["history"], (told + asked).encode()))
        self.assertEqual("||0", outcome(["rehearse"], f"{told}begin 30000\n".encode()))

    def test_words_that_are_refused(self) -> None:
        for words, why in REFUSED:
            self.assertEqual(f"|error: {why}|2", self._end_of({"a": FIRST}, words).replace(self._hint(), ""), words)

    @staticmethod
    def _hint() -> str:
        return "\n\nFor more information, try 'zk_shell history --log --help'.\n"

    def test_help_has_80_columns(self) -> None:
        printed, told, status = self._end_of({}, "--log --help").split("|")
        self.assertEqual(("", "0"), (told, status))
        self.assertLessEqual(max(map(len, printed.splitlines())), 80)
