"""A session by the client for Python that obeys commands, for the table of cases: session.py HOSTS TRIES [RECORD]."""

from __future__ import annotations

import pathlib
import sys
import time
from typing import Callable, Optional

sys.path.insert(0, str(pathlib.Path(__file__).resolve().parents[1] / "python"))

import dirwolleu  # noqa: E402
from dirwolleu.security import ACL, Id  # noqa: E402


def data_of(word: str) -> bytes:
    return b"" if word == "-" else word.encode()


LETTERS = "rwcda"


def acl_of(word: str) -> ACL:
    """The line of an ACL: SCHEME:ID:LETTERS."""
    scheme, name, letters = word.split(":")
    return ACL(sum(1 << LETTERS.index(letter) for letter in letters), Id(scheme, name))


def shown(acl: ACL) -> str:
    letters = [letter for place, letter in enumerate(LETTERS) if acl.perms >> place & 1]
    return ":".join([*acl.id, "".join(letters)])


class Told:
    def __init__(self, client: dirwolleu.Client) -> None:
        self.client = client
        self.token = 0
        self.told: Optional[str] = None

    def get(self, path: str) -> str:
        data, stat = self.client.get(path)
        return f"data {(data or b'').decode()} version {stat.version}"

    def exists(self, path: str) -> str:
        stat = self.client.exists(path)
        return "none" if stat is None else f"version {stat.version}"

    def create(self, path: str, data: str) -> str:
        return self.client.create(path, data_of(data))

    def sequential(self, path: str, data: str) -> str:
        return self.client.create(path, data_of(data), sequence=True)

    def ephemeral(self, path: str, data: str) -> str:
        return self.client.create(path, data_of(data), ephemeral=True)

    def set(self, path: str, data: str, version: str) -> str:
        return f"version {self.client.set(path, data_of(data), int(version)).version}"

    def delete(self, path: str, version: str) -> str:
        self.client.delete(path, int(version))
        return "done"

    def children(self, path: str) -> str:
        return " ".join(sorted(self.client.get_children(path)))

    def follow(self, path: str) -> None:
        self.followed = self.client.follow(path)

    def next(self) -> str:
        kept = next(self.followed)
        return f"data {(kept.data or b'').decode()}" if kept.exists else "none"

    def names(self, path: str) -> None:
        self.named = self.client.follow_children(path)

    def listed(self) -> str:
        return " ".join(sorted(next(self.named).names))

    def tree(self, path: str) -> None:
        self.grown, self.told = self.client.tree(path), None
        self.snapshots = self.grown.snapshots()

    def subtree(self) -> str:
        """The next report of the tree, if it differs from the one before."""
        while True:
            try:
                snapshot = next(self.snapshots)
                said = " ".join(f"{path}={(node.data or b'').decode()}" for path, node in sorted(snapshot.items()))
            except dirwolleu.NoNodeError as error:
                said, self.snapshots = str(error), self.grown.snapshots()
                time.sleep(0.01)  # the tree raises a trouble again and again
            if said != self.told:
                self.told = said
                return said

    def lock(self, path: str) -> str:
        self.held = dirwolleu.Lock(self.client, path).acquire()
        before, self.token = self.token, self.held.token
        return "held with a greater token" if self.token > before > 0 else "held"

    def check(self) -> str:
        self.held.check()
        return "is held"

    def release(self) -> str:
        self.held.release()
        return "done"

    def transaction(self, *words: str) -> str:
        transaction, left = self.client.transaction(), list(words)
        counts = {"check": 2, "delete": 1, "set": 2, "create": 2}
        while left:
            name, path, *rest = left[: 1 + counts[left[0]]]
            del left[: 1 + counts[name]]
            if name == "check":
                transaction.check(path, int(rest[0]))
            elif name == "delete":
                transaction.delete(path)
            elif name == "set":
                transaction.set_data(path, data_of(rest[0]))
            else:
                transaction.create(path, data_of(rest[0]))
        paths = [path for word, path in zip(words, words[1:]) if word in ("set", "create", "delete")]
        transaction.commit()
        return " ".join(paths)

    def sync(self, path: str) -> str:
        self.client.sync(path)
        return "done"

    def acls(self, path: str) -> str:
        acls, stat = self.client.get_acls(path)
        return " ".join([*map(shown, acls), "version", str(stat.aversion)])

    def set_acls(self, path: str, version: str, *words: str) -> str:
        return f"version {self.client.set_acls(path, list(map(acl_of, words)), int(version)).aversion}"

    def create_with_acls(self, path: str, data: str, *words: str) -> str:
        return self.client.create(path, data_of(data), acl=list(map(acl_of, words)))

    def auth(self, scheme: str, credential: str) -> str:
        self.client.add_auth(scheme, credential)
        return "done"

    def close(self) -> str:
        self.client.stop()
        self.client.close()
        return "closed"


def main() -> None:
    hosts, tries, *record = sys.argv[1:]
    retry = dirwolleu.Retry(tries=int(tries) + 1) if int(tries) else None
    client = dirwolleu.Client(hosts, timeout=10.0, retry=retry, record=record[0] if record else None)
    client.start()
    told = Told(client)
    for line in sys.stdin:
        name, *words = line.split()
        act: Callable[..., object] = getattr(told, name)
        try:
            printed = act(*words)
        except Exception as error:
            printed = error
        if printed is not None:
            print(printed, flush=True)


main()
