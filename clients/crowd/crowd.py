"""Many sessions by the client for Python, for trials over real servers: crowd.py HOSTS COUNT PATH. Each follows the node of the path. README.md says
what it prints.
"""

from __future__ import annotations

import pathlib
import sys
import threading
import time

sys.path.insert(0, str(pathlib.Path(__file__).resolve().parents[1] / "python"))

import dirwolleu  # noqa: E402
from dirwolleu import State  # noqa: E402

TIMEOUT = 10.0
PRINTS = threading.Lock()


class Member:
    def __init__(self, number: int, hosts: str) -> None:
        self.number = number
        self.client = dirwolleu.Client(hosts, timeout=TIMEOUT)
        self.client.add_listener(self.hear)

    def print(self, *words: str) -> None:
        line = " ".join((f"{time.time():.3f}", str(self.number), *words))
        with PRINTS:
            print(line, flush=True)

    def hear(self, state: State) -> None:
        if state is State.CONNECTED:
            self.print("connected", hex(self.client.session_id))
        else:
            self.print("cut" if state is State.SUSPENDED else "expired")

    def follow(self, path: str) -> None:
        self.client.start(timeout=None)
        for kept in self.client.follow(path):
            self.print("data", (kept.data or b"").decode() if kept.exists else "-")


def main() -> None:
    hosts, count, path = sys.argv[1:]
    members = [Member(number, hosts) for number in range(int(count))]
    threads = [threading.Thread(target=member.follow, args=(path,), daemon=True) for member in members]
    for thread in threads:
        thread.start()
    for thread in threads:
        thread.join()


main()
