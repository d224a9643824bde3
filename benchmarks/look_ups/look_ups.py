"""The same as look_ups.rs, by the client for threads.

usage: look_ups.py PORT SECONDS
"""

import sys
import threading
import time

import dirwolleu

THREADS, BETWEEN = 4, 0.001


def noticed(_event):
    """Nothing changes."""


def look_up(client, until, took):
    """Looks up until this moment, and notes how many microseconds after its moment each look-up had its answer."""
    due = time.monotonic()
    while due < until:
        time.sleep(max(due - time.monotonic(), 0))
        assert client.kept("/kept") is not None
        took.append(round((time.monotonic() - due) * 1_000_000))
        due += BETWEEN


def main():
    port, seconds = sys.argv[1:]
    took, names = [], 0
    with dirwolleu.Client(f"127.0.0.1:{port}", 30) as client:
        client.get("/kept", watch=noticed)
        until = time.monotonic() + int(seconds)
        threads = [threading.Thread(target=look_up, args=(client, until, took)) for _ in range(THREADS)]
        for thread in threads:
            thread.start()
        while time.monotonic() < until:
            names += len(client.get_children("/names", watch=noticed))
        for thread in threads:
            thread.join()
    took.sort()
    print("took", len(took), *(took[(len(took) - 1) * part // 1000] for part in (500, 990, 999, 1000)), names)


main()
