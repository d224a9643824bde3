"""Requests that the model of a server does not have, and at which the proved server would end the connection: those that clients ask for by
`dw_session_raw`, and credentials. No other request is answered here.

The proved server is asked for the parts that the model has: each change, whether a node is there, its data, names and Stat. The rest is not
proved: a transaction is tried on another server that has learned all, and then made by one change after the other, so each has a zxid of
its own, and a check compares the version of a Stat; ACLs are kept beside and admit everybody; the scheme `digest` takes any credentials;
sync answers at once; and a container and a node with a TTL stay until somebody deletes them.
"""

from __future__ import annotations

import struct
from collections.abc import Iterator
from typing import TYPE_CHECKING, Callable, NamedTuple

from dirwolleu import _jute as jute
from dirwolleu._jute import Malformed
from dirwolleu.testing import _frames as frames
from dirwolleu.testing._frames import (
    CHECK,
    CREATE,
    CREATE2,
    DELETE,
    ERROR,
    EXISTS,
    GET_CHILDREN,
    GET_DATA,
    OK,
    SEQUENTIAL,
    SET_DATA,
    TTL,
    Record,
    Reply,
)

if TYPE_CHECKING:
    from dirwolleu.testing._ensemble import Ensemble, Session

RUNTIME_INCONSISTENCY, BAD_VERSION, AUTH_FAILED = -2, -103, -115
ANY_VERSION = -1
OPEN_ACL = struct.pack(">ii", 1, 31) + jute.text("world") + jute.text("anyone")
ACL_VERSION = slice(40, 44)
"""The place of the ACL's version in a Stat."""


class Refused(Exception):
    """A request whose answer is an error code."""

    def __init__(self, code: int) -> None:
        super().__init__(code)
        self.code = code


class Acl(NamedTuple):
    """The bytes of an ACL, and its version."""

    spelled: bytes = OPEN_ACL
    version: int = 0


def ask(session: Session, kind: int, body: bytes, notices: list[bytes]) -> Reply:
    """Asks the server in memory. Its other frames go to the notices."""
    output = session.answer(frames.framed(struct.pack(">ii", 1, kind) + body))
    if not output:
        raise Malformed
    notices += output[:-1]
    return frames.read_reply(output[-1])


def stat_of(session: Session, path: str, notices: list[bytes]) -> bytes:
    """The Stat of a node. Raises `Refused` if there is none."""
    reply = ask(session, EXISTS, jute.text(path) + b"\0", notices)
    if reply.code != OK:
        raise Refused(reply.code)
    return reply.body


def with_version(stat: bytes, acl: Acl) -> bytes:
    return stat[: ACL_VERSION.start] + struct.pack(">i", acl.version) + stat[ACL_VERSION.stop :]


def sync(_server: Ensemble, _session: Session, record: Record, _notices: list[bytes]) -> bytes:
    return jute.text(record.text())


def number_below(server: Ensemble, session: Session, folder: str) -> str:
    """The digits of the next sequential node below a path that ends with a slash. Another server finds them by making one."""
    trial = server.trial_of(session)
    trial.learn(session.bench)
    reply = ask(trial, CREATE, jute.text(f"{folder}n") + jute.text("") + OPEN_ACL + struct.pack(">i", SEQUENTIAL), [])
    if reply.code != OK:
        raise Refused(reply.code)
    return Record(reply.body).text()[-10:]


def modelled(server: Ensemble, session: Session, record: Record) -> bytes:
    """A create as the model has it, without a TTL, and with the whole path of a node that has no name but its digits."""
    path, rest = record.text(), record.rest()
    record.buffer(), record.acls()
    spelled, flags = rest[: len(rest) - len(record.rest())], record.integer()
    if flags in (TTL, TTL + 1):
        flags = SEQUENTIAL * (flags - TTL)
        record.long()
    if flags == frames.CONTAINER:
        flags = 0
    if flags & SEQUENTIAL and path.endswith("/"):
        path, flags = path + number_below(server, session, path), flags - SEQUENTIAL
    return jute.text(path) + spelled + struct.pack(">i", flags)


def create2(server: Ensemble, session: Session, record: Record, notices: list[bytes]) -> bytes:
    body = modelled(server, session, record)
    reply = ask(session, CREATE, body, notices)
    if reply.code != OK:
        raise Refused(reply.code)
    server.note(session, CREATE, body, reply)
    return reply.body + stat_of(session, Record(reply.body).text(), notices)


def get_acl(server: Ensemble, session: Session, record: Record, notices: list[bytes]) -> bytes:
    path = record.text()
    stat, acl = stat_of(session, path, notices), server.acls.get(path, Acl())
    return acl.spelled + with_version(stat, acl)


def set_acl(server: Ensemble, session: Session, record: Record, notices: list[bytes]) -> bytes:
    path, spelled, version = record.text(), record.acls(), record.integer()
    stat, acl = stat_of(session, path, notices), server.acls.get(path, Acl())
    if version not in (ANY_VERSION, acl.version):
        raise Refused(BAD_VERSION)
    server.acls[path] = Acl(spelled, acl.version + 1)
    return with_version(stat, server.acls[path])


def take_part(record: Record, kind: int) -> bytes:
    """The bytes of an operation of a transaction."""
    before = record.rest()
    record.text()
    if kind in (CREATE, CREATE2):
        record.buffer(), record.acls(), record.integer()
    elif kind in (DELETE, CHECK):
        record.integer()
    elif kind == SET_DATA:
        record.buffer(), record.integer()
    else:
        raise Malformed
    return before[: len(before) - len(record.rest())]


def take_parts(record: Record) -> list[tuple[int, bytes]]:
    """The operations of a transaction."""
    parts = list[tuple[int, bytes]]()
    while True:
        kind = record.integer()
        record.boolean(), record.integer()
        if kind == ERROR:
            return parts
        parts.append((kind, take_part(record, kind)))


def operate(server: Ensemble, session: Session, kind: int, part: bytes, notices: list[bytes]) -> bytes:
    """Does an operation of a transaction, and returns its result."""
    if kind == CREATE2:
        return create2(server, session, Record(part), notices)
    if kind == CHECK:
        record = Record(part)
        stat, version = stat_of(session, record.text(), notices), record.integer()
        if version not in (ANY_VERSION, struct.unpack(">i", stat[32:36])[0]):
            raise Refused(BAD_VERSION)
        return b""
    reply = ask(session, kind, part, notices)
    if reply.code != OK:
        raise Refused(reply.code)
    server.note(session, kind, part, reply)
    return reply.body


def put_header(kind: int, code: int, is_last: bool = False) -> bytes:
    """The header of an operation's result in a transaction."""
    return struct.pack(">i?i", kind, is_last, code)


END = put_header(ERROR, -1, True)


def refused_part(server: Ensemble, session: Session, parts: list[tuple[int, bytes]]) -> tuple[int, int]:
    """The place of the first operation that is not admitted after those before it, with its code; the number of all operations and 0 if
    there is none.
    """
    trial = server.trial_of(session)
    for place, (kind, part) in enumerate(parts):
        try:
            operate(server, trial, kind, part, [])
        except Refused as refused:
            return place, refused.code
    return len(parts), OK


def transact(server: Ensemble, session: Session, record: Record, notices: list[bytes]) -> bytes:
    """Does all operations, or none."""
    parts = take_parts(record)
    place, code = refused_part(server, session, parts)
    if code != OK:
        codes = [OK] * place + [code] + [RUNTIME_INCONSISTENCY] * (len(parts) - place - 1)
        return b"".join(put_header(ERROR, code) + struct.pack(">i", code) for code in codes) + END
    return b"".join(put_header(kind, OK) + operate(server, session, kind, part, notices) for kind, part in parts) + END


def put_texts(texts: list[str]) -> bytes:
    return struct.pack(">i", len(texts)) + b"".join(map(jute.text, texts))


def read_one(session: Session, kind: int, path: str, notices: list[bytes]) -> bytes:
    """The result of one read among several."""
    reply = ask(session, kind, jute.text(path) + b"\0", notices)
    if reply.code != OK:
        return put_header(ERROR, reply.code) + struct.pack(">i", reply.code)
    return put_header(kind, OK) + reply.body


def read_all(_server: Ensemble, session: Session, record: Record, notices: list[bytes]) -> bytes:
    """Reads the data or the names of several nodes."""
    found = b""
    while (kind := record.integer()) != ERROR:
        record.boolean(), record.integer()
        if kind not in (GET_DATA, GET_CHILDREN):
            raise Malformed
        path, _ = record.text(), record.boolean()
        found += read_one(session, kind, path, notices)
    return found + END


def below(session: Session, path: str, notices: list[bytes]) -> Iterator[str]:
    """The paths of all nodes below one that is there."""
    reply = ask(session, GET_CHILDREN, jute.text(path) + b"\0", notices)
    if reply.code != OK:
        raise Refused(reply.code)
    names = Record(reply.body)
    for _ in range(names.integer()):
        child = f"{path.rstrip('/')}/{names.text()}"
        yield child
        yield from below(session, child, notices)


def count_below(_server: Ensemble, session: Session, record: Record, notices: list[bytes]) -> bytes:
    return struct.pack(">i", len(list(below(session, record.text(), notices))))


def ephemerals(_server: Ensemble, session: Session, record: Record, _notices: list[bytes]) -> bytes:
    prefix = record.text()
    return put_texts(sorted(path for path in session.ephemerals if path.startswith(prefix)))


def who_am_i(_server: Ensemble, session: Session, _record: Record, _notices: list[bytes]) -> bytes:
    ids = [*(("digest", user) for user in session.users), ("ip", "127.0.0.1")]
    return struct.pack(">i", len(ids)) + b"".join(jute.text(scheme) + jute.text(one) for scheme, one in ids)


def introduce(_server: Ensemble, session: Session, record: Record, _notices: list[bytes]) -> bytes:
    """Takes a credential."""
    record.integer()
    if record.text() != "digest":
        raise Refused(AUTH_FAILED)
    session.users.append((record.buffer() or b"").decode(errors="replace").partition(":")[0])
    return b""


ANSWERS: dict[int, Callable[[Ensemble, Session, Record, list[bytes]], bytes]] = {
    CREATE2: create2,
    frames.CREATE_CONTAINER: create2,
    frames.CREATE_TTL: create2,
    frames.MULTI_READ: read_all,
    frames.GET_EPHEMERALS: ephemerals,
    frames.GET_ALL_CHILDREN_NUMBER: count_below,
    frames.WHO_AM_I: who_am_i,
    frames.SYNC: sync,
    frames.GET_ACL: get_acl,
    frames.SET_ACL: set_acl,
    frames.MULTI: transact,
    frames.AUTH: introduce,
}
"""The body of the reply to each of these requests. The proved server answers all others."""


def answer(server: Ensemble, session: Session, xid: int, kind: int, record: Record) -> tuple[list[bytes], bool]:
    """The frames to send for a request, and whether the connection ends after them: it does if credentials are refused."""
    notices = list[bytes]()
    try:
        body, code = ANSWERS[kind](server, session, record, notices), OK
    except Refused as refused:
        body, code = b"", refused.code
    return [*notices, frames.put_reply(xid, session.bench.zxid(), code, body)], kind == frames.AUTH and code != OK
