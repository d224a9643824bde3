"""The rows over kazoo or over dirwolleu: the same words and lines as dirwolleu.c, without `make` and `change`.

usage: python_clients.py CLIENT PORT ROW COUNT TIMES, where CLIENT is kazoo or dirwolleu
"""

import importlib
import logging
import operator
import sys
import threading

from measure import AT_ONCE, DATA, NODE, mark, tell, watcher

# The module of each client, its class, and how its answers are taken.
CLIENTS = {"kazoo": ("kazoo.client", "KazooClient", "get"), "dirwolleu": ("dirwolleu", "Client", "result")}
take = operator.methodcaller(CLIENTS[sys.argv[1]][2])


def ask_at_once(ask, paths):
    for answer in [ask(path) for path in paths]:
        take(answer)


def ask_each(ask, count):
    for first in range(0, count, AT_ONCE):
        ask_at_once(ask, [f"{NODE}/{number}" for number in range(first, min(first + AT_ONCE, count))])


def ask_over(client, write, count, times):
    one = (lambda path: client.set(path, DATA)) if write else client.get
    many = (lambda path: client.set_async(path, DATA)) if write else client.get_async
    for _ in range(times):
        if count > 1:
            ask_at_once(many, [NODE] * count)
        else:
            one(NODE)


def measure_over(client, write, count, times):
    ask_over(client, write, count, (times + 9) // 10)
    since = mark()
    ask_over(client, write, count, times)
    tell(since)


def measure_watches(client, count):
    all_reported = threading.Event()
    reported = watcher(count, all_reported)
    ask_each(client.get_async, count)
    since = mark()
    ask_each(lambda path: client.get_async(path, watch=reported), count)
    tell(since)
    since = mark()
    print("ready", flush=True)
    all_reported.wait()
    tell(since)


def measure_reconnect(client, count, reads_again):
    """Kazoo sets no watch again: where a connection ends it forgets them all, and its program reads all nodes anew."""
    connected = threading.Event()
    watched = lambda path: client.get_async(path, watch=lambda event: None)
    client.add_listener(lambda state: state == "CONNECTED" and connected.set())
    ask_each(watched, count)
    since = mark()
    print("ready", flush=True)
    connected.wait()
    if reads_again:
        ask_each(watched, count)
    else:
        client.get(NODE)
    tell(since)


def main():
    name, port, row, count, times = *sys.argv[1:4], int(sys.argv[4]), int(sys.argv[5])
    logging.disable(logging.CRITICAL)
    module, made, _ = CLIENTS[name]
    client = getattr(importlib.import_module(module), made)(f"127.0.0.1:{port}", timeout=30)
    client.start()
    if row in ("read", "write"):
        measure_over(client, row == "write", count, times)
    elif row == "watch":
        measure_watches(client, count)
    else:
        measure_reconnect(client, count, reads_again=name == "kazoo")
    client.stop()


main()
