"""A session by the client for Python, at servers in memory, that does the rows of cuts.txt: cuts.py TABLE [K], for each Kth cut alone."""

from __future__ import annotations

import operator
import pathlib
import struct
import sys
from typing import Any, Iterator, NamedTuple, Optional

HERE = pathlib.Path(__file__).resolve().parent
sys.path.insert(0, str(HERE.parent / "python"))

from dirwolleu import _library as library  # noqa: E402
from dirwolleu._session import Dial, MemberAdded, MemberRemoved, PlainAction, Session, Shown, TreeComplete  # noqa: E402
from dirwolleu.testing import _library as bench  # noqa: E402
from dirwolleu.types import DataStat  # noqa: E402

TIMEOUT_MS, ADDRESSES, SEED, NUMBER = 9000, 2, 1, 77
PIECES = (1, 2, 3, 7, 64, 1 << 16)
"""How many bytes come at a time: at last all."""
MOST_STEPS = 20_000
"""More steps than a play has."""
MORE_CONNECTIONS = 2
"""How many more a cut makes: another one, and one to a server that is behind."""
EXISTS, GET_DATA, GET_CHILDREN_2, SET_WATCHES = 3, 4, 12, 101
"""Types of requests."""
NOTICE = -1
"""The xid of a notice, which has no zxid."""
CHANGES = {"create": bench.MADE, "set": bench.WRITTEN, "delete": bench.DELETED}


class Fault(Exception):
    """Something is not as it should be."""


class Counts(NamedTuple):
    """How many connections are made, and how many bytes are sent and heard by servers."""

    connections: int
    sent: int
    heard: int


class Row(NamedTuple):
    sign: str
    words: list[str]


class Case(NamedTuple):
    name: str
    begin: list[Row]
    counts: list[Counts]
    rows: list[Row]
    """The rows whose connections are cut."""


class Cut(NamedTuple):
    """After how many bytes that were sent, or heard, the connection ends, and how many come at a time."""

    sent: Optional[int]
    heard: Optional[int]
    piece: int


def cases_in(text: str) -> dict[str, Case]:
    cases: dict[str, Case] = {}
    for line in text.splitlines():
        sign, *words = line.split(" ")
        if sign == "case":
            case = cases[words[0]] = Case(words[0], [], [], [])
            for name in words[1:]:
                case.begin.extend(cases[name].begin + cases[name].rows)
        elif sign == "each":
            case.counts.append(Counts(*map(int, words)))
        elif sign in ("!", ">", "="):
            (case.rows if case.counts else case.begin).append(Row(sign, words))
    return cases


class Link:
    """The connection, the servers, and the contents of the bytes."""

    def __init__(self, subjects: list[list[str]]) -> None:
        self.bench = bench.Bench(NUMBER)
        self.taken = {1: 0, 2: 0}
        self.server = 1
        """The server that the session is connected to, or was last."""
        self.dialled: Optional[int] = None
        self.is_there = self.is_leaving = self.is_new = False
        """Whether there is a connection, whether it brings only what was sent already, and whether nothing was sent to the server yet."""
        self.coming = self.frames = b""
        """The bytes that the server has sent and that have not come, and the part of a frame that has come."""
        self.asked: dict[int, tuple[int, str]] = {}
        """The reads that are under way: each by its xid, with its type and path."""
        self.seen = 0
        """The greatest zxid of a reply."""
        self.connections, self.was_cut = 0, False
        self.passed = {"sent": 0, "heard": 0}
        self.ends: dict[str, Optional[int]] = {"sent": None, "heard": None}
        self._subjects = subjects

    def change(self, words: list[str]) -> None:
        """Another client changes the tree."""
        name, path, *data = words
        moment, content = 1000 * (self.bench.zxid() + 1), "".join(data).replace("-", "").encode()
        if self.bench.change(moment, CHANGES[name], path, content):
            raise Fault("the tree does not admit it")
        self.take_all(self.server)

    def take_all(self, server: int) -> None:
        while self.taken[server] < self.bench.zxid():
            self.bench.take(server)
            self.taken[server] += 1

    def connect(self) -> None:
        assert self.dialled is not None
        self.server_asked, self.dialled = self.dialled + 1, None
        self.bench.connect(self.server_asked)
        self.is_there, self.is_leaving, self.is_new = True, False, True
        self.frames, self.asked = b"", {}
        self.connections += 1

    def leave(self) -> None:
        """Nothing more comes, and the session has yet to find that the connection is over."""
        self.bench.cut()
        self.coming, self.is_leaving = b"", True

    def hang_up(self) -> None:
        self.leave()
        self.dialled, self.is_there = None, False

    def admit(self) -> None:
        """The server admits the session: it is not behind. It learns the transactions that it does not have."""
        self.server = self.server_asked
        if self.taken[self.server] < self.seen:
            raise Fault(f"a server at {self.taken[self.server]} admits a session that has seen {self.seen}")
        self.take_all(self.server)

    def _pass(self, way: str, count: int) -> tuple[int, bool]:
        """How many of these bytes pass, and whether the last one that may pass is among them."""
        end = self.ends[way]
        if end is not None:
            count = min(count, end - self.passed[way])
        self.passed[way] += count
        is_end = end == self.passed[way]
        if is_end:
            self.ends[way], self.was_cut = None, True
        return count, is_end

    def carry(self, frame: bytes) -> None:
        """The session sends a frame."""
        if not self.is_there:
            raise Fault("a frame is sent, and there is no connection")
        if self.is_new:
            self._greet(frame)
        else:
            self._note(frame)
        if self.is_leaving:
            return
        count, self.is_leaving = self._pass("heard", len(frame))
        self.bench.hear(frame[:count])
        while self.bench.process(1):
            pass

    def _greet(self, frame: bytes) -> None:
        """A ConnectRequest has the greatest zxid that was seen. One for another session is admitted."""
        self.is_new = False
        zxid, number = struct.unpack_from(">qxxxxq", frame, 8)
        if zxid != self.seen:
            raise Fault(f"a server is told that {zxid} was seen, and it was {self.seen}")
        if not number:
            self.bench.expire(False)

    def _note(self, frame: bytes) -> None:
        """A request. A path has no more reads under way than subjects, and at most one of its data and one of its names."""
        xid, kind = struct.unpack_from(">ii", frame, 4)
        if kind == SET_WATCHES:
            return
        if kind not in (EXISTS, GET_DATA, GET_CHILDREN_2):
            raise Fault(f"a request of type {kind} is sent")
        path = frame[16:-1].decode()
        under_way = [other for other in self.asked.values() if other[1] == path]
        if len(under_way) >= self._most_of(path) or (kind != EXISTS and (kind, path) in under_way):
            raise Fault(f"{path} is asked by {[*under_way, (kind, path)]} at a time")
        self.asked[xid] = kind, path

    def _most_of(self, path: str) -> int:
        """How many subjects a path has: a node of a tree has two."""
        return sum(2 if name == "tree" else 1 for name, root, *_ in self._subjects if f"{path}/".startswith(f"{root}/"))

    def take(self, piece: int) -> bytes:
        """The next bytes that come, at most this many."""
        if self.is_there:
            self.coming += self.bench.say()
        count, is_end = self._pass("sent", min(len(self.coming), piece)) if self.coming else (0, False)
        data, self.coming = self.coming[:count], self.coming[count:]
        if is_end:
            self.leave()
        self._hear(data)
        return bytes(data)

    def _hear(self, data: bytes) -> None:
        """A read whose answer has come is no longer under way. The answer to a ConnectRequest has no xid, and comes while nothing is asked.
        """
        self.frames += data
        while len(self.frames) >= 4:
            end = 4 + int(struct.unpack_from(">i", self.frames)[0])
            if len(self.frames) < end:
                return
            xid, zxid = struct.unpack_from(">iq", self.frames, 4)
            if xid not in (0, NOTICE):
                self.asked.pop(xid, None)
                self.seen = max(self.seen, zxid)
            self.frames = self.frames[end:]


def text_of(path: str, data: Optional[bytes], stat: DataStat) -> str:
    """The line of a node. The fields that follow from it are as the servers have them."""
    follows = 1000 * stat.czxid, 1000 * stat.mzxid, len(data or b""), 0
    if (stat.ctime, stat.mtime, stat.data_length, stat.ephemeral_owner) != follows:
        raise Fault(f"{path} has {stat}")
    return f"{path} {(data or b'-').decode()} {stat.czxid} {stat.mzxid} {stat.version}"


class Play:
    """A session that follows subjects: the ticket of each is its place."""

    def __init__(self, cut: Cut) -> None:
        self.subjects: list[list[str]] = []
        self.shown: dict[int, list[str]] = {}
        """The lines of each subject at the last report that it is good, or that a tree is whole."""
        self.link, self.now, self.piece = Link(self.subjects), 0, PIECES[-1]
        self.session = Session(TIMEOUT_MS, SEED, addresses=ADDRESSES)
        self._cut = cut

    def look(self, ticket: int) -> list[str]:
        """The lines of a subject, if it is good."""
        name, path, *most = self.subjects[ticket]
        if name == "tree":
            nodes, _ = self.session.subtree(path, int(most[0]))
            if nodes is not None:
                return [f"{text_of(node.path, node.data, node.stat)} {node.pzxid}" for node in nodes]
        elif name == "names":
            names, _ = self.session.peek_children(path)
            if names.mark == library.GOOD:
                return [f"{path}: {','.join(names.names)} {names.pzxid}"]
        else:
            kept, _ = self.session.peek_data(path)
            if kept.mark == library.GOOD:
                return [text_of(path, kept.data, kept.stat) if kept.stat else f"{path} none"]
        raise Fault(f"{path} is not good")

    def _perform(self, actions: list[Any]) -> None:
        for action in actions:
            self._do(action)

    def _do(self, action: Any) -> None:
        link = self.link
        if isinstance(action, library.Send):
            link.carry(action.frame)
        elif isinstance(action, Shown) and action.ticket < len(self.subjects):
            if self.subjects[action.ticket][0] != "tree":
                self.shown[action.ticket] = self.look(action.ticket)
        elif isinstance(action, TreeComplete):
            self.shown[action.tree] = self.look(action.tree)
        elif isinstance(action, Dial):
            if link.is_there or link.dialled is not None:
                raise Fault("a server is dialled, and there is a connection")
            link.dialled = action.place
        elif action is PlainAction.HANG_UP:
            link.hang_up()
        elif action is PlainAction.RENEWED:
            self.shown.clear()
        elif isinstance(action, library.StateChange):
            if action.state == library.CONNECTED:
                link.admit()
        elif not isinstance(action, (library.Report, Shown, MemberAdded, MemberRemoved)):
            raise Fault(f"{action} is told")

    def _go_on(self) -> bool:
        """Makes the next step of what is under way. Returns whether there was one."""
        link, session = self.link, self.session
        if data := link.take(self.piece):
            self._perform(session.received(self.now, data))
        elif link.dialled is not None:
            link.connect()
            self._perform(session.opened(self.now))
        elif link.is_there and (link.is_leaving or not link.bench.is_open):
            link.hang_up()
            self._perform(session.cut(self.now))
        elif session.state() != library.CONNECTED or self._is_due():
            self.now = max(self.now, session.deadline() or 0)
            self._perform(session.moment(self.now))
        else:
            return False
        return True

    def _is_due(self) -> bool:
        """Whether a step is due at this moment: a tree needs it."""
        due = self.session.deadline()
        return due is not None and due <= self.now

    def _settle(self) -> None:
        for _ in range(MOST_STEPS):
            if not self._go_on():
                return
        raise Fault("it does not end")

    def _happen(self, words: list[str]) -> None:
        link = self.link
        if words[0] == "level":
            for server in link.taken:
                link.take_all(server)
        elif words[0] in CHANGES:
            link.change(words)
        else:
            if words[0] == "expire":
                link.bench.expire(True)
            link.leave()

    def _follow(self, words: list[str]) -> None:
        name, path, *most = words
        ticket = len(self.subjects)
        self.subjects.append(words)
        if name == "tree":
            self._perform(self.session.follow_tree(self.now, ticket, path, int(most[0])))
        else:
            side = library.DATA_SIDE if name == "follow" else library.CHILDREN_SIDE
            self._perform(self.session.follow(self.now, ticket, path, side))

    def _expect(self, lines: list[str]) -> None:
        """Nothing is under way, and these lines were shown, and are kept."""
        self._settle()
        tickets = range(len(self.subjects))
        shown = [self.shown.get(ticket, []) for ticket in tickets]
        for found in (shown, [self.look(ticket) for ticket in tickets]):
            if sorted(sum(found, [])) != sorted(lines):
                raise Fault(f"there is {sorted(sum(found, []))}, and not {sorted(lines)}")

    def do_rows(self, rows: list[Row]) -> None:
        lines: list[str] = []
        for sign, words in [*rows, Row("", [])]:
            if sign == "=":
                lines.append(" ".join(words))
                continue
            if lines:
                self._expect(lines)
                lines = []
            if sign == "!":
                self._happen(words)
            elif sign == ">":
                self._follow(words)

    def begin(self) -> None:
        """From now on bytes are counted, and come in pieces, and the connection ends after one."""
        link = self.link
        link.connections, link.passed = 0, {"sent": 0, "heard": 0}
        link.ends["sent"], link.ends["heard"], self.piece = self._cut


def play(case: Case, cut: Cut) -> Link:
    one = Play(cut)
    try:
        one.do_rows(case.begin)
        one.begin()
        one.do_rows(case.rows)
    except Fault as fault:
        raise Fault(f"{case.name}, {cut}: {fault}") from fault
    return one.link


def cuts_of(counts: Counts, size: int, every: int) -> Iterator[Cut]:
    """Cuts after each byte whose number, with that of the size added, is a multiple of `every`."""
    first = -size % every or every
    for sent in range(first, 1 + counts.sent, every):
        yield Cut(sent, None, PIECES[size])
    for heard in range(first, 1 + counts.heard, every):
        yield Cut(None, heard, PIECES[size])


def try_case(case: Case, every: int) -> None:
    """Plays it in pieces of each size: without a cut, when as many bytes pass as the row says, or fewer in small pieces, and with each cut.
    """
    wanted, cuts = case.counts[0], 0
    for size, piece in enumerate(PIECES):
        link = play(case, Cut(None, None, piece))
        counts = Counts(link.connections, **link.passed)
        is_whole = size == len(PIECES) - 1
        if counts[0] != wanted[0] or any(map(operator.gt, counts, wanted)) or (is_whole and counts != wanted):
            raise Fault(f"{case.name}, in pieces of {piece}: {counts}")
        for cut in cuts_of(counts, size, every):
            link = play(case, cut)
            if not link.was_cut or link.connections > wanted.connections + MORE_CONNECTIONS:
                raise Fault(f"{case.name}, {cut}: there were {link.connections} connections")
            cuts += 1
    print(f"{case.name}: {cuts} cuts")


def main() -> None:
    table, every = sys.argv[1], int(sys.argv[2]) if len(sys.argv) > 2 else 1
    cases = cases_in(pathlib.Path(table).read_text(encoding="utf-8"))
    try:
        for case in cases.values():
            try_case(case, every)
    except Fault as fault:
        sys.exit(str(fault))


if __name__ == "__main__":
    main()
