"""The root of a client, which is known as its chroot: the path in the servers' tree that the program knows as `/`."""

from __future__ import annotations

from typing import NamedTuple

from dirwolleu._checks import checked_path
from dirwolleu._paths import no_path


class Root(NamedTuple):
    """A path of the servers' tree, without a slash at its end: empty for the whole tree."""

    path: str = ""

    def full(self, path: str) -> str:
        """The servers' path of a program's path. Raises `ValueError` if that does not begin with a slash."""
        if not self.path:
            return path
        if not path.startswith("/"):
            raise no_path(path)
        return self.path if path == "/" else self.path + path

    def spell(self, path: str) -> bytes:
        """The bytes of the servers' path of a program's path. Raises `TypeError` if that is no text, and `ValueError`."""
        checked_path(path)
        try:
            return (self.full(path) if self.path else path).encode()
        except UnicodeEncodeError:  # half of a character, as of a name that is no UTF-8
            raise no_path(path, self.path) from None

    def has(self, full: str) -> bool:
        """Whether a servers' path is the root, or below it."""
        return full == self.path or full.startswith(self.path + "/")

    def own(self, full: str) -> str:
        """The program's path of a servers' path. One that is not below the root stays as it is."""
        if full == self.path:
            return "/"
        return full[len(self.path) :] if full.startswith(self.path + "/") else full

    def read(self, spelled: bytes) -> str:
        """The program's path of the bytes of a servers' path."""
        return self.own(spelled.decode())
