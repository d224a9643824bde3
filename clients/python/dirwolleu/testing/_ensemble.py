"""ZooKeeper servers in memory at a socket: a loop of asyncio that moves bytes from and to the proved server.

The proved server decides the answer to a request, and which notices go before it; `_raw` has the requests that it does not know. This
module is tested and not proved: whose session a connection takes up, when servers learn from one another, and when a session ends.
"""

from __future__ import annotations

import asyncio
import itertools
import socket
import struct
import time
from typing import Optional

from dirwolleu._jute import Malformed
from dirwolleu.testing import _frames as frames
from dirwolleu.testing import _raw as raw
from dirwolleu.testing._frames import Record, Reply
from dirwolleu.testing._library import DELETED, MADE, WRITTEN, Bench

COMMANDS = {"create": MADE, "set": WRITTEN, "delete": DELETED}
"""The commands that change a node, as another session does."""


def now_ms() -> int:
    return int(time.time() * 1000)


def hold(port: int) -> socket.socket:
    """A socket that has a port of 127.0.0.1, or for 0 a free one, and does not listen.

    So the system gives the port to nobody else while a server is down: neither to another server, which clients of this one would reach,
    nor to a connection, beside which this one could not listen. Raises an `OSError` that names the address.
    """
    held = socket.socket()
    held.setsockopt(socket.SOL_SOCKET, socket.SO_REUSEADDR, 1)
    try:
        held.bind(("127.0.0.1", port))
    except BaseException as error:
        held.close()
        if isinstance(error, OSError):
            raise OSError(error.errno, error.strerror, f"127.0.0.1:{port}") from None
        raise
    return held


class Session:
    """A session: its server in memory, which has the history that all have, the password that its client got, its connection, and the paths
    of its ephemeral nodes.

    It lasts until it is closed or `expire` comes, however long its client is silent.
    """

    def __init__(self, number: int) -> None:
        self.number = number
        self.password: Optional[bytes] = None
        self.bench = Bench(number)
        self.connection: Optional[Connection] = None
        self.ephemerals: set[str] = set()
        self.users: list[str] = []
        """The users as whom its client has identified itself on this connection."""
        self.is_lagging = False
        """Whether its server learns nothing until it is asked for a change, or to catch up."""

    def learn(self, other: Bench) -> None:
        """Learns what another server has more, and sends the notices of watched nodes."""
        while self.bench.learn(other):
            self.bench.take(1)

    def drop(self) -> None:
        """Closes its connection, if it has one."""
        if self.connection is not None:
            self.connection.abort()

    def answer(self, frame: bytes) -> list[bytes]:
        """Hands in a request, and returns the frames that the server sends."""
        self.bench.hear(frame)
        self.bench.process(now_ms())
        return list(frames.split(self.bench.say()))


class Ensemble:
    """The servers: the sessions, their connections, and the history that they share, `log`."""

    def __init__(self) -> None:
        self.log = Bench(0)
        self.acls: dict[str, raw.Acl] = {}
        self.sessions: dict[int, Session] = {}
        self.connections: dict[Connection, None] = {}
        self.came = 0
        self._numbers = itertools.count(0x1000_0000_0000_0001)
        self._listener: Optional[asyncio.Server] = None
        self.port = 0

    def make_connection(self) -> Connection:
        return Connection(self)

    async def listen(self, port: int) -> None:
        loop = asyncio.get_running_loop()
        self._listener = await loop.create_server(self.make_connection, "127.0.0.1", port, reuse_address=True)
        self.port = self._listener.sockets[0].getsockname()[1]

    def is_up(self) -> bool:
        return self._listener is not None

    def stop_listening(self) -> None:
        if self._listener is not None:
            self._listener.close()
            self._listener = None

    def new_session(self, number: int) -> Session:
        session = Session(number)
        session.learn(self.log)
        return session

    def session_of(self, number: int, password: Optional[bytes]) -> Session:
        """A new session for number 0, else the one of this number and password. One that nobody knows has expired."""
        known = self.sessions.get(number)
        if known is not None and known.password == password:
            return known
        session = self.new_session(number or next(self._numbers))
        if number != 0:
            session.bench.expire(True)
        return session

    def spread(self, source: Bench) -> None:
        """All sessions learn what this server has more than they have, and their clients get the notices of what they watch."""
        if source.zxid() == self.log.zxid() and source is not self.log:
            return
        while source is not self.log and self.log.learn(source):
            pass
        for session in list(self.sessions.values()):
            if not session.is_lagging:
                self.catch_up(session)

    def catch_up(self, session: Session) -> None:
        """The server of a session learns all that there is, and its client gets the notices of what it watches."""
        session.learn(self.log)
        if session.connection is not None:
            session.connection.send(session.bench.say())

    def lag(self, sessions: list[Session], is_lagging: bool) -> None:
        """From now on the servers of these sessions learn nothing, or all that there is."""
        for session in sessions:
            session.is_lagging = is_lagging
            if not is_lagging:
                self.catch_up(session)

    def change(self, kind: int, path: str, data: bytes = b"") -> int:
        """Changes a node, as another session would. Returns 0, or the code for which the change is not admitted."""
        code = self.log.change(now_ms(), kind, path, data)
        if code == 0:
            if kind == DELETED:
                self.forget(path)
            self.spread(self.log)
        return code

    def forget(self, path: str) -> None:
        """A node is gone."""
        self.acls.pop(path, None)
        for session in self.sessions.values():
            session.ephemerals.discard(path)

    def note(self, session: Session, kind: int, body: bytes, reply: Reply) -> None:
        """Notes the ephemeral nodes and the ACLs that a request has made, which was answered with no error. A trial leaves nothing."""
        record = Record(body)
        if self.sessions.get(session.number) is not session:
            return
        if kind == frames.DELETE:
            self.forget(record.text())
        elif kind == frames.CREATE:
            record.text(), record.buffer()
            path, acl = Record(reply.body).text(), record.acls()
            self.acls[path] = raw.Acl(acl)
            if record.integer() & frames.EPHEMERAL:
                session.ephemerals.add(path)

    def trial_of(self, session: Session) -> Session:
        """A session that knows all that this one knows, and from which nobody learns, to try changes on."""
        trial = self.new_session(session.number)
        trial.bench.connect(1)
        trial.answer(frames.framed(struct.pack(">iqiqi", 0, 0, 10_000, 0, 16) + bytes(16) + b"\0"))
        return trial

    def end(self, session: Session) -> None:
        """Deletes the ephemeral nodes of a session, each in a transaction of its own."""
        self.sessions.pop(session.number, None)
        for path in sorted(session.ephemerals, reverse=True):
            self.log.change(now_ms(), DELETED, path)
        session.learn(self.log)
        self.spread(self.log)

    def drop(self) -> None:
        for connection in list(self.connections):
            connection.abort()

    def go_down(self) -> None:
        self.stop_listening()
        self.drop()

    def expire(self, session: Session) -> None:
        """Ends a session, as if its client had been silent for its timeout."""
        session.drop()
        self.end(session)

    async def obey(self, line: str) -> str:
        """Does a command. Returns `done`, `refused: CODE`, a number, or `unknown: ` and the line."""
        word, _, rest = line.rstrip("\r\n").partition(" ")
        path, _, text = rest.partition(" ")
        if word in COMMANDS:
            code = self.change(COMMANDS[word], path, text.encode())
            return f"refused: {code}" if code else "done"
        return await self.obey_word(line.split()) or f"unknown: {line.strip()}"

    async def obey_word(self, words: list[str]) -> Optional[str]:
        """Does another command. Returns None if it is unknown."""
        if words == ["connections"]:
            return str(self.came)
        if words == ["drop"]:
            self.drop()
        elif words == ["expire"]:
            self.drop()
            for session in list(self.sessions.values()):
                self.expire(session)
        elif words == ["down"]:
            self.go_down()
        elif words == ["up"]:
            await self.listen(self.port)
        elif words != ["quit"]:
            return None
        return "done"


class Connection(asyncio.Protocol):
    """A connection of a client."""

    transport: asyncio.Transport

    def __init__(self, server: Ensemble) -> None:
        self.server = server
        self.session: Optional[Session] = None
        self.is_over = False
        self._came = bytearray()

    def connection_made(self, transport: asyncio.BaseTransport) -> None:
        assert isinstance(transport, asyncio.Transport)
        self.transport = transport
        self.server.connections[self] = None
        self.server.came += 1
        if not self.server.is_up():  # the loop had taken it before, and makes it a turn or two later
            self.abort()

    def connection_lost(self, _: Optional[Exception]) -> None:
        self.forget()

    def data_received(self, data: bytes) -> None:
        self._came += data
        self.work()

    def abort(self) -> None:
        """Ends the connection at once. What was not sent yet is lost."""
        self.forget()
        self.transport.abort()

    def close(self) -> None:
        """Ends the connection after the bytes that were sent."""
        self.forget()
        self.transport.close()

    def send(self, data: bytes) -> None:
        if data and not self.transport.is_closing():
            self.transport.write(data)

    def forget(self) -> None:
        self.is_over = True
        self.server.connections.pop(self, None)
        if self.session is not None and self.session.connection is self:
            self.session.connection = None
            self.session.bench.cut()

    def is_listening(self) -> bool:
        return not self.is_over

    def work(self) -> None:
        """Takes each whole frame that came."""
        while self.is_listening() and len(self._came) >= 4:
            length = int.from_bytes(self._came[:4], "big")
            if length > frames.LONGEST:
                return self.close()
            if len(self._came) < 4 + length:
                return
            frame = bytes(self._came[: 4 + length])
            del self._came[: 4 + length]
            try:
                self.take(frame)
            except Malformed:
                self.close()

    def take(self, frame: bytes) -> None:
        if self.session is None:
            self.connect(frame)
        else:
            self.request(self.session, frame)

    def connect(self, frame: bytes) -> None:
        """Hands in the request to connect. The server admits the client, or says why not, or ends the connection."""
        record = Record(frame[4:])
        record.integer(), record.long(), record.integer()
        session = self.server.session_of(record.long(), record.buffer())
        session.drop()
        session.bench.connect(1)
        session.users.clear()
        output = session.answer(frame)
        self.send(b"".join(output))
        if not session.bench.is_open:
            return self.close()
        session.password = frames.read_password(output[0])
        session.connection, self.session = self, session
        self.server.sessions[session.number] = session

    def request(self, session: Session, frame: bytes) -> None:
        """Hands in a later request."""
        record = Record(frame[4:])
        xid, kind = record.integer(), record.integer()
        if session.is_lagging and kind not in frames.READS:
            self.server.catch_up(session)
        if kind == frames.CLOSE_SESSION:
            self.server.end(session)
        if kind in raw.ANSWERS:
            output, is_last = raw.answer(self.server, session, xid, kind, record)
        else:
            output, is_last = session.answer(frame), False
            if output and (reply := frames.read_reply(output[-1])).code == frames.OK:
                self.server.note(session, kind, record.rest(), reply)
        self.send(b"".join(output))
        self.server.spread(session.bench)
        if is_last or not session.bench.is_open:
            self.close()
