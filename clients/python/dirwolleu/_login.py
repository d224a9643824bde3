"""The log-in by SASL on one connection. The server's answer about the session is kept back until it is over.

So for the session the server is slow to accept, and the session's frames after its first one wait meanwhile. The frames of the log-in
have xids that the session never uses, and no answer to them reaches it.
"""

from __future__ import annotations

import struct
from typing import TYPE_CHECKING, NamedTuple, Optional

from dirwolleu import _jute as jute
from dirwolleu._jute import Malformed, Reader
from dirwolleu.security import AuthFailedError

if TYPE_CHECKING:
    from dirwolleu.sasl import Sasl

_OPERATION = 102
_FIRST_XID = -1001
_LONGEST = 4_194_308
_REFUSALS = (AuthFailedError.code, -124)
_REPLY = struct.Struct(">iqi")


class Failed(Exception):
    """The log-in can't go on over this connection. Its words say why."""


class Refused(Failed):
    """The server refuses the client, or the client the server."""


class Progress(NamedTuple):
    """The frames to write now, and, once the log-in is over, the bytes that came for the session."""

    frames: bytes
    passed: Optional[bytes]


class Login:
    """One log-in, from the connection's first bytes on."""

    def __init__(self, sasl: Sasl) -> None:
        self._sasl = sasl
        self._came, self._kept = b"", b""
        self._held: Optional[bytes] = None
        self._xid = _FIRST_XID + 1

    def hold(self, frames: bytes) -> bytes:
        """Takes frames of the session, and returns those to write now: the first, which asks for the session. The others wait for the
        end.
        """
        if self._held is not None:
            self._held += frames
            return b""
        end = 4 + int.from_bytes(frames[:4], "big")
        self._held = frames[end:]
        return frames[:end]

    def take(self, data: bytes) -> Progress:
        """Bytes came. If they do not parse before the server has accepted the session, the session judges them. Raises `Failed`."""
        self._came += data
        frames = b""
        while len(self._came) >= 4:
            end = 4 + int.from_bytes(self._came[:4], "big", signed=True)
            if not 4 <= end <= _LONGEST:
                if self._kept:
                    raise Failed("the server sends what is no frame")
                return self._end(frames)
            if len(self._came) < end:
                break
            frame, self._came = self._came[:end], self._came[end:]
            token = self._next_token(frame)
            if token is None:
                return self._end(frames)
            frames += token
        return Progress(frames, None)

    def _next_token(self, frame: bytes) -> Optional[bytes]:
        """The frame to write after a frame that came: None if the log-in is over, or none is wanted."""
        if not self._kept:
            self._kept = frame
            return self._ask(self._begin()) if self._is_accepted(frame) else None
        if frame[4:8] != struct.pack(">i", self._xid):
            self._kept += frame
            return b""
        try:
            token = self._answer(frame[4:])
        except Malformed as error:
            raise Failed("the server's answer does not read") from error
        return None if token is None else self._ask(token)

    def _is_accepted(self, frame: bytes) -> bool:
        """Whether the server has accepted the session: it grants a timeout."""
        return len(frame) >= 12 and int.from_bytes(frame[8:12], "big", signed=True) > 0

    def _begin(self) -> bytes:
        try:
            self._step = self._sasl()
            return self._step(b"") or b""
        except Exception as error:
            raise Refused(str(error)) from error

    def _answer(self, body: bytes) -> Optional[bytes]:
        """The token after an answer of the server, or None if the log-in is over."""
        if len(body) < _REPLY.size:
            raise Malformed
        _, _, code = _REPLY.unpack_from(body)
        if code:
            raise (Refused if code in _REFUSALS else Failed)(f"the server answers {code}")
        challenge = Reader(body[_REPLY.size :]).buffer() or b""
        try:
            return self._step(challenge)
        except Exception as error:
            raise Refused(str(error)) from error

    def _ask(self, token: bytes) -> bytes:
        self._xid -= 1
        return jute.buffer(struct.pack(">ii", self._xid, _OPERATION) + jute.buffer(token))

    def _end(self, frames: bytes) -> Progress:
        return Progress(frames + (self._held or b""), self._kept + self._came)
