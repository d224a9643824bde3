"""SASL: a session identifies itself by challenges and tokens, on each connection, before any other request.

    client = dirwolleu.Client("zk1:2181", sasl=digest_md5("app", password))

Another mechanism is a function that makes a `Step` for each connection: one over GSSAPI is some ten lines with a package for it.
"""

from __future__ import annotations

import hashlib
import hmac
import os
import re
from typing import Callable, Optional

__all__ = ["Sasl", "Step", "digest_md5"]

Step = Callable[[bytes], Optional[bytes]]
"""One log-in: a function that is called with no bytes first, and then with each challenge of the server. It returns the token to send,
or None if the log-in is over. An exception ends the client, with its words in an `AuthFailedError`. All blocking clients of the process
wait while it runs."""
Sasl = Callable[[], Step]
"""Makes the `Step` of one connection."""

_DIRECTIVE = re.compile(r'([\w-]+)=(?:"((?:[^"\\]|\\.)*)"|([^",]*))')
_COUNT, _QOP = "00000001", "auth"


def digest_md5(username: str, password: str, service: str = "zookeeper", host: str = "zk-sasl-md5") -> Sasl:
    """DIGEST-MD5 (RFC 2831), as ZooKeeper's `DigestLoginModule` wants it. The server has to show that it knows the password too.

    >>> digest_md5("app", "secret")()(b"")
    b''
    """
    return lambda: _DigestMd5(username, password, f"{service}/{host}")


class _DigestMd5:
    """One log-in."""

    def __init__(self, username: str, password: str, address: str) -> None:
        self._username, self._password, self._address = username, password, address
        self._is_begun = False
        self._proof: Optional[str] = None

    def __call__(self, challenge: bytes) -> Optional[bytes]:
        if not self._is_begun:
            self._is_begun = True
            return b""
        found = {name: re.sub(r"\\(.)", r"\1", quoted) or plain for name, quoted, plain in _DIRECTIVE.findall(challenge.decode())}
        if self._proof is None:
            return self._respond(found)
        if not hmac.compare_digest(found.get("rspauth", ""), self._proof):
            raise ValueError("the server does not show that it knows the password")
        return None

    def _respond(self, found: dict[str, str]) -> bytes:
        if "nonce" not in found or _QOP not in found.get("qop", _QOP).split(","):
            raise ValueError("the server's challenge is not one of DIGEST-MD5 that is known here")
        realm, nonce, cnonce = found.get("realm", ""), found["nonce"], os.urandom(16).hex()
        response = self.digest(realm, nonce, cnonce, f"AUTHENTICATE:{self._address}")
        self._proof = self.digest(realm, nonce, cnonce, f":{self._address}")
        return (
            f"username={_quoted(self._username)},realm={_quoted(realm)},nonce={_quoted(nonce)},cnonce={_quoted(cnonce)},"
            f"nc={_COUNT},qop={_QOP},digest-uri={_quoted(self._address)},response={response},charset=utf-8"
        ).encode()

    def digest(self, realm: str, nonce: str, cnonce: str, act: str) -> str:
        """The proof that the password is known, for an act."""
        secret = _md5(f"{self._username}:{realm}:{self._password}".encode())
        key = _md5(secret + f":{nonce}:{cnonce}".encode()).hex()
        return _md5(f"{key}:{nonce}:{_COUNT}:{cnonce}:{_QOP}:{_md5(act.encode()).hex()}".encode()).hex()


def _md5(data: bytes) -> bytes:
    return hashlib.md5(data, usedforsecurity=False).digest()  # the protocol demands it, strong or not


def _quoted(text: str) -> str:
    return '"' + re.sub(r'(["\\])', r"\\\1", text) + '"'
