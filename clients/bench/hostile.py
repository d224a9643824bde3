#!/usr/bin/env python3
"""The server in memory at a socket with hostile moves: they decide when bytes go, cut them short, or answer nonsense.

Without a word and a command of its own it does what server.py does. README.md beside this file names them.
"""

from __future__ import annotations

import argparse
import asyncio
import random
import struct
from typing import Optional

from server import serve

from dirwolleu.testing import _ensemble


class Cut:
    """The byte after which connections end: after this many bytes more, of all connections together. None if no cut is to
    come.
    """

    left: Optional[int] = None

    def leave(self, data: bytes) -> tuple[bytes, bool]:
        """The part of these bytes that passes, and whether the connection ends after that."""
        if self.left is None or len(data) <= self.left:
            self.left = None if self.left is None else self.left - len(data)
            return data, False
        passed, self.left = data[: self.left], None
        return passed, True


class Ensemble(_ensemble.Ensemble):
    """The servers, with moves."""

    def __init__(self, piece: Optional[int], seed: Optional[int]) -> None:
        super().__init__()
        self.piece = piece
        self.random = None if seed is None else random.Random(seed)
        self.is_mute = False
        self.pace: Optional[int] = None
        self.cuts = {"sent": Cut(), "heard": Cut()}

    def make_connection(self) -> Connection:
        return Connection(self)

    def unmute(self) -> None:
        self.is_mute = False
        for connection in list(self.connections):
            assert isinstance(connection, Connection)
            connection.go_on()

    def spare(self) -> str:
        """Forgets the cut that is to come. Returns `done`, or `spared` if there was one."""
        is_spared = any(cut.left is not None for cut in self.cuts.values())
        for cut in self.cuts.values():
            cut.left = None
        return "spared" if is_spared else "done"

    async def obey_word(self, words: list[str]) -> Optional[str]:
        word, number = (words or [""])[0], (words or [""])[-1]
        if words == ["mute"]:
            self.is_mute = True
        elif words == ["unmute"]:
            self.unmute()
        elif words == ["spare"]:
            return self.spare()
        elif word == "pace" and len(words) == 2 and number.isdecimal():
            self.pace = int(number) or None
        elif word == "cut" and len(words) == 3 and words[1] in self.cuts and number.isdecimal():
            self.cuts[words[1]].left = int(number)
        else:
            return await super().obey_word(words)
        return "done"


class Connection(_ensemble.Connection):
    """A connection of a client. While the server is mute, it puts by the bytes that come and those to send."""

    server: Ensemble

    def __init__(self, server: Ensemble) -> None:
        super().__init__(server)
        self._held, self._paced = bytearray(), bytearray()
        self._is_cut = self._is_pacing = self._is_closing = False

    def data_received(self, data: bytes) -> None:
        data, is_cut = self.server.cuts["heard"].leave(data)
        super().data_received(data)
        if is_cut:
            self._cut()

    def is_listening(self) -> bool:
        return super().is_listening() and not self.server.is_mute

    def go_on(self) -> None:
        held, self._held = bytes(self._held), bytearray()
        self.send(held)
        self.work()

    def abort(self) -> None:
        self._paced.clear()
        super().abort()

    def close(self) -> None:
        self.forget()
        self._is_closing = True
        if not self._is_pacing:
            self.transport.close()

    def take(self, frame: bytes) -> None:
        if self.session is None or self.server.random is None:
            super().take(frame)
        else:
            self.send(nonsense(self.server.random, frame))

    def send(self, data: bytes) -> None:
        if self.server.is_mute:
            self._held += data
        elif self._is_pacing or self.server.pace is not None:
            self._paced += data
            if not self._is_pacing:
                self._go_by_pace()
        else:
            piece = self.server.piece or max(len(data), 1)
            for place in range(0, len(data), piece):
                self._pass_on(data[place : place + piece])

    def _cut(self) -> None:
        """Ends the connection after the bytes that were written, so that the client has just those."""
        self.forget()
        self._paced.clear()
        if not (self._is_cut or self.transport.is_closing()):
            self._is_cut = True
            self.transport.write_eof()

    def _go_by_pace(self) -> None:
        """Writes the next piece, and the one after it a millisecond later."""
        piece = self.server.pace or len(self._paced)
        self._is_pacing = bool(self._paced)
        if self._is_pacing:
            data = bytes(self._paced[:piece])
            del self._paced[:piece]
            self._pass_on(data)
            asyncio.get_running_loop().call_later(0.001, self._go_by_pace)
        elif self._is_closing:
            self.transport.close()

    def _pass_on(self, data: bytes) -> None:
        if self._is_cut:
            return
        passed, is_cut = self.server.cuts["sent"].leave(data)
        super().send(passed)
        if is_cut:
            self._cut()


def nonsense(source: random.Random, request: bytes) -> bytes:
    """Random bytes: bare, in a frame, or in a frame after the right xid."""
    noise = source.randbytes(source.randrange(1, 200))
    kind = source.randrange(3)
    payload = noise if kind < 2 else request[4:8] + struct.pack(">qi", source.getrandbits(40), 0) + noise
    return noise if kind == 0 else struct.pack(">i", len(payload)) + payload


def main() -> None:
    parser = argparse.ArgumentParser(description="A server in memory at a socket, for tests of clients, with moves that are hostile.")
    parser.add_argument("--port", type=int, default=0, help="the port on 127.0.0.1; by default a free one")
    parser.add_argument("--piece", type=int, metavar="BYTES", help="send at most this many bytes at a time")
    parser.add_argument("--hostile", type=int, metavar="SEED", help="answer each request with random bytes")
    chosen = parser.parse_args()
    if chosen.piece is not None and chosen.piece < 1:
        parser.error("--piece is not above 0")
    asyncio.run(serve(chosen.port, Ensemble(chosen.piece, chosen.hostile)))


if __name__ == "__main__":
    main()
