"""A contender by kazoo: kazoo_contender.py HOST:PORT PATH KIND NAMES. README.md says what it prints and reads. NAMES is kazoo's alone.
"""

from __future__ import annotations

import importlib
import sys
import threading
import time
from typing import Any

kazoo: Any = importlib.import_module("kazoo.client")
exceptions: Any = importlib.import_module("kazoo.exceptions")


def say(words: str) -> None:
    print(words, flush=True)


def tell_lost(state: str) -> None:
    if state == "LOST":
        say("lost")


class Contender:
    """A contender, in a thread of its own."""

    def __init__(self, client: Any, path: str, kind: str) -> None:
        makes = {"lock": client.Lock, "read": client.ReadLock, "write": client.WriteLock, "election": client.Election}
        self.made, self.may_end = makes[kind](path), threading.Event()
        self.thread = threading.Thread(target=self.contend, daemon=True)
        self.thread.start()

    def contend(self) -> None:
        try:
            if hasattr(self.made, "run"):
                self.made.run(self.hold)
            else:
                with self.made:
                    self.hold()
        except exceptions.CancelledError:
            pass  # it has given up
        except Exception as error:
            say(f"error: {error!r}")

    def hold(self) -> None:
        say("held")
        self.may_end.wait()

    def obey(self, command: str) -> None:
        if command == "release":
            self.may_end.set()
            self.thread.join()
            say("released")
        elif command == "give up":
            self.made.cancel()
            self.thread.join()
            say("given up")


def write_through_fence(client: Any, path: str, token: int) -> None:
    data, stat = client.get(f"{path}-fence")
    if int(data) > token:
        return say("refused")
    client.set(f"{path}-fence", b"%d" % token, version=stat.version)
    say("wrote")


def work(client: Any, path: str) -> None:
    """Holds the lock for a while, again and again, and writes its token through the fence meanwhile."""
    while True:
        try:
            lock = client.Lock(path, "kazoo")
            with lock:
                _, stat = client.get(f"{path}/{lock.node}")
                for _ in range(3):
                    write_through_fence(client, path, stat.czxid)
                    time.sleep(0.05)
        except exceptions.KazooException:
            time.sleep(0.1)  # another one was faster, or the session is gone


def main(hosts: str, path: str, kind: str, names: str) -> None:
    if names != "kazoo":
        say(f"error: kazoo has no names of {names}")
        return
    client = kazoo.KazooClient(hosts, timeout=4.0 if kind == "work" else 10.0)
    client.add_listener(tell_lost)
    client.start(60.0)
    if kind == "work":
        threading.Thread(target=work, args=(client, path), daemon=True).start()
        sys.stdin.read()
        client.stop()
        return
    contender = Contender(client, path, kind)
    for line in sys.stdin:
        contender.obey(line.strip())
        break
    client.remove_listener(tell_lost)
    client.stop()
    client.close()


if __name__ == "__main__":
    main(*sys.argv[1:])
