"""Tests of a client in programs whose threads are those of gevent or eventlet: a call that waits leaves the processor to the others."""

from __future__ import annotations

import importlib.util
import subprocess
import sys

from support import CLIENTS, WAIT, PartnerCase

PROGRAM = """
import sys

kind, folder, host = sys.argv[1:]
if kind == "gevent":
    import gevent.monkey

    gevent.monkey.patch_all()
else:
    import eventlet

    eventlet.monkey_patch()
sys.path.insert(0, folder)
import threading

import dirwolleu

found, fired = [], threading.Event()


def read():
    for _ in range(20):
        found.append(client.get("/a")[0])


with dirwolleu.Client(host) as client:
    client.create("/a", b"one")
    client.get("/a", watch=lambda event: fired.set())
    threads = [threading.Thread(target=read) for _ in range(5)]
    for thread in threads:
        thread.start()
    for thread in threads:
        thread.join()
    with dirwolleu.Lock(client, "/lock") as held:
        client.set("/a", str(held.is_held).encode())
    fired.wait()
print(len(found), *set(found), client.state.value)
"""


HANDLED = """
import sys

kind, folder, host = sys.argv[1:]
sys.path.insert(0, folder)
import threading

import dirwolleu.kazoo

dirwolleu.kazoo.install()
from kazoo.client import KazooClient
from kazoo.exceptions import NoNodeError

if kind == "gevent":
    from kazoo.handlers.gevent import SequentialGeventHandler as Handler
else:
    from kazoo.handlers.eventlet import SequentialEventletHandler as Handler

home, ticks, told, fired = threading.get_native_id(), [], [], []
handler = Handler()
zk = KazooClient(host, handler=handler)
zk.add_listener(lambda state: told.append((state, threading.get_native_id() == home)))
zk.start(60)


def tick():
    while zk.connected:
        ticks.append(1)
        handler.sleep_func(0.001)


def watch(event):
    zk.get("/a")  # from within a watch
    fired.append((event.type, threading.get_native_id() == home))


def until(condition):
    for _ in range(20000):
        if condition():
            return
        handler.sleep_func(0.003)
    raise AssertionError("this has not come to pass in time")


handler.spawn(tick)
zk.create("/a", b"one", makepath=True)
zk.get("/a", watch=watch)
before = len(ticks)
results = [zk.get_async("/a") for _ in range(50)]
assert {result.get(timeout=60)[0] for result in results} == {b"one"}
zk.set("/a", b"two")
until(lambda: fired)
lock, other = zk.Lock("/lock", "one"), zk.Lock("/lock", "other")
with lock:
    held = []
    handler.spawn(lambda: held.append(other.acquire()))
    until(lambda: len(lock.contenders()) == 2)
until(lambda: held)
barrier = zk.Barrier("/barrier")
barrier.create()
waited = []
handler.spawn(lambda: waited.append(barrier.wait(60)))
before = len(ticks)
until(lambda: len(ticks) > before + 20)  # while a thread of the system waits for the barrier
assert not waited
barrier.remove()
until(lambda: waited)
try:
    zk.get("/none")
except NoNodeError as error:
    print(error)
try:
    handler.async_result().get(timeout=0.01)
except handler.timeout_exception:
    print("no answer")
late = handler.async_result()
late.rawlink(lambda result: print("told", result.get()))
late.set(7)
zk.stop()
zk.close()
print(held, waited, fired, told, zk.client_state)
"""


class GreenTest(PartnerCase):
    def run_program(self, program: str, kind: str) -> str:
        if importlib.util.find_spec(kind) is None:
            self.skipTest(f"there is no {kind}")
        command = [sys.executable, "-c", program, kind, str(CLIENTS / "python"), self.partner().host]
        return subprocess.run(command, stdout=subprocess.PIPE, text=True, check=True, timeout=3 * WAIT).stdout

    def check(self, kind: str) -> None:
        self.assertEqual(self.run_program(PROGRAM, kind).split(), ["100", "b'one'", "LOST"])

    def check_handler(self, kind: str) -> None:
        lines = ["no node: /none", "no answer", "told 7"]
        lines.append("[True] [True] [('CHANGED', True)] [('CONNECTED', True), ('LOST', True)] CLOSED")
        self.assertEqual(self.run_program(HANDLED, kind).splitlines(), lines)

    def test_the_handler_for_gevent(self) -> None:
        self.check_handler("gevent")

    def test_the_handler_for_eventlet(self) -> None:
        self.check_handler("eventlet")

    def test_threads_of_gevent(self) -> None:
        self.check("gevent")

    def test_threads_of_eventlet(self) -> None:
        self.check("eventlet")
