"""One row by one client for Python: client.py KIND PORT ROW COUNT TIMES. KIND is kazoo, threads or asyncio, of the package that PYTHONPATH names.

The rows are `make`, `read`, `write` and `watch`; `data`, reads of nodes of COUNT bytes, and `data20`, 20 at once; `threads`, reads by 50 threads, or
tasks; `connect`, COUNT clients that are started one after the other, and `idle`, the same for TIMES seconds; `notice`, COUNT notices, each to its
callback, while TIMES reads are in flight. It prints `took`, microseconds, those of the processor, and kilobytes: the most of the process, and where
nodes are watched or clients are started what these have added. Of notices it prints the median.
"""

from __future__ import annotations

import asyncio
import collections
import gc
import logging
import multiprocessing
import resource
import statistics
import sys
import threading
import time
from typing import Any

NODE, DATA = "/python", b"0123456789" * 10
AT_ONCE, TOGETHER, THREADS = 1000, 20, 50


def mark() -> tuple[int, int]:
    """The moment, and the processor time of this process until then, in microseconds."""
    usage = resource.getrusage(resource.RUSAGE_SELF)
    return time.monotonic_ns() // 1000, round((usage.ru_utime + usage.ru_stime) * 1_000_000)


def kilobytes(field: str) -> int:
    with open("/proc/self/status") as status:
        return int(next(line.split()[1] for line in status if line.startswith(f"{field}:")))


def tell(since: tuple[int, int], added: int | None = None) -> None:
    wall, processor = (now - then for now, then in zip(mark(), since))
    print("took", wall, processor, kilobytes("VmHWM") if added is None else added, flush=True)


def parts_of(count: int) -> list[range]:
    return [range(first, min(first + AT_ONCE, count)) for first in range(0, count, AT_ONCE)]


class Blocking:
    """A client whose functions wait: kazoo's, or that of dirwolleu."""

    def __init__(self, kind: str, host: str) -> None:
        if kind == "kazoo":
            from kazoo.client import KazooClient

            self.client: Any = KazooClient(host, timeout=30)
            self.answer_of: Any = lambda answer: answer.get()
        else:
            import dirwolleu

            self.client = dirwolleu.Client(host, 30.0)
            self.answer_of = lambda answer: answer.result()
        self.client.start()

    def ask(self, name: str, count: int, times: int, *words: Any) -> None:
        one, many, answer_of = getattr(self.client, name), getattr(self.client, f"{name}_async"), self.answer_of
        for _ in range(times):
            if count == 1:
                one(NODE, *words)
            else:
                for answer in [many(NODE, *words) for _ in range(count)]:
                    answer_of(answer)

    def make(self, count: int) -> None:
        if self.client.exists(NODE) is None:
            self.client.create(NODE, DATA)
            for part in parts_of(count):
                for answer in [self.client.create_async(f"{NODE}/{number}", DATA) for number in part]:
                    self.answer_of(answer)

    def watch(self, count: int, watcher: Any) -> None:
        for part in parts_of(count):
            for answer in [self.client.get_async(f"{NODE}/{number}", watch=watcher) for number in part]:
                self.answer_of(answer)

    def read(self, path: str, times: int, together: int) -> None:
        for _ in range(times):
            if together == 1:
                self.client.get(path)
            else:
                for answer in [self.client.get_async(path) for _ in range(together)]:
                    self.answer_of(answer)

    def read_by_many(self, times: int) -> None:
        threads = [threading.Thread(target=self.read, args=(NODE, times // THREADS, 1)) for _ in range(THREADS)]
        for thread in threads:
            thread.start()
        for thread in threads:
            thread.join()

    def put(self, path: str, size: int) -> None:
        if self.client.exists(path) is None:
            self.client.create(path, bytes(size))

    def notices(self, path: str, watcher: Any, flying: int, is_over: Any) -> None:
        def told(event: Any) -> None:
            watcher()
            self.client.get_async(path, watch=told)

        self.client.get(path, watch=told)
        answers = collections.deque(self.client.get_async(NODE) for _ in range(flying))
        while not is_over():
            if not flying:
                time.sleep(0.01)
            else:
                self.answer_of(answers.popleft())
                answers.append(self.client.get_async(NODE))

    def stop(self) -> None:
        self.client.stop()
        self.client.close()


class Loop:
    """The client for asyncio."""

    loop = asyncio.new_event_loop()

    def __init__(self, _: str, host: str) -> None:
        from dirwolleu import aio

        self.client = aio.Client(host, 30.0)
        self.loop.run_until_complete(self.client.start())

    def ask(self, name: str, count: int, times: int, *words: Any) -> None:
        one, many = getattr(self.client, name), getattr(self.client, f"{name}_async")

        async def run() -> None:
            for _ in range(times):
                if count == 1:
                    await one(NODE, *words)
                else:
                    for answer in [many(NODE, *words) for _ in range(count)]:
                        await answer

        self.loop.run_until_complete(run())

    def watch(self, count: int, watcher: Any) -> None:
        async def run() -> None:
            for part in parts_of(count):
                for answer in [self.client.get_async(f"{NODE}/{number}", watch=watcher) for number in part]:
                    await answer

        self.loop.run_until_complete(run())

    async def reads(self, path: str, times: int, together: int) -> None:
        for _ in range(times):
            if together == 1:
                await self.client.get(path)
            else:
                for answer in [self.client.get_async(path) for _ in range(together)]:
                    await answer

    def read(self, path: str, times: int, together: int) -> None:
        self.loop.run_until_complete(self.reads(path, times, together))

    def read_by_many(self, times: int) -> None:
        async def run() -> None:
            await asyncio.gather(*(self.reads(NODE, times // THREADS, 1) for _ in range(THREADS)))

        self.loop.run_until_complete(run())

    def put(self, path: str, size: int) -> None:
        async def run() -> None:
            if await self.client.exists(path) is None:
                await self.client.create(path, bytes(size))

        self.loop.run_until_complete(run())

    def notices(self, path: str, watcher: Any, flying: int, is_over: Any) -> None:
        def told(event: Any) -> None:
            watcher()
            self.client.get_async(path, watch=told)

        async def read() -> None:
            while not is_over():
                await self.client.get(NODE)

        async def run() -> None:
            await self.client.get(path, watch=told)
            if flying:
                await asyncio.gather(*(read() for _ in range(flying)))
            while not is_over():
                await asyncio.sleep(0.01)

        self.loop.run_until_complete(run())

    def stop(self) -> None:
        self.loop.run_until_complete(self.client.stop())
        self.loop.run_until_complete(self.client.close())


def rest(kind: str, seconds: float) -> None:
    """Lets clients be idle."""
    if kind == "asyncio":
        Loop.loop.run_until_complete(asyncio.sleep(seconds))
    else:
        time.sleep(seconds)


def measure_many(kind: str, host: str, row: str, count: int, times: int) -> None:
    """So many clients beside one that is not counted."""
    clients = [start(kind, host)]
    gc.collect()
    before, since = kilobytes("VmRSS"), mark()
    clients += [start(kind, host) for _ in range(count)]
    if row == "idle":
        rest(kind, 2.0)
        since = mark()
        rest(kind, times)
    tell(since, kilobytes("VmRSS") - before)
    for client in clients:
        client.stop()


def write(path: str, port: str, count: int, moments: Any) -> None:
    """In a process of its own: writes a node again and again, and tells when."""
    import dirwolleu

    with dirwolleu.Client(f"127.0.0.1:{port}", 30.0) as client:
        for _ in range(count):
            time.sleep(0.05)
            moments.send(time.monotonic_ns())
            client.set(path, b"two")
    moments.send(None)


def measure_notices(kind: str, port: str, count: int, flying: int) -> None:
    """The median of the times from a write of another process to the callback."""
    client, path, told = start(kind, f"127.0.0.1:{port}"), f"{NODE}-notice", list[int]()
    client.put(path, 3)
    ours, its = multiprocessing.Pipe(duplex=False)
    writes = multiprocessing.get_context("spawn").Process(target=write, args=(path, port, count, its))
    writes.start()
    moments: list[Any] = []

    def is_over() -> bool:
        while moments[-1:] != [None] and ours.poll():
            moments.append(ours.recv())
        return moments[-1:] == [None]

    since = mark()
    client.notices(path, lambda: told.append(time.monotonic_ns()), flying, is_over)
    _, processor = (now - then for now, then in zip(mark(), since))
    later = ((wrote, [moment for moment in told if moment > wrote]) for wrote in moments[1:-1])
    took = [after[0] - wrote for wrote, after in later if after]
    print("took", round(statistics.median(took)) // 1000, processor, kilobytes("VmHWM"), flush=True)
    writes.join()
    client.stop()


def start(kind: str, host: str) -> Any:
    return (Loop if kind == "asyncio" else Blocking)(kind, host)


def main() -> None:
    kind, port, row, count, times = sys.argv[1], sys.argv[2], sys.argv[3], int(sys.argv[4]), int(sys.argv[5])
    logging.disable(logging.CRITICAL)
    if row in ("connect", "idle"):
        return measure_many(kind, f"127.0.0.1:{port}", row, count, times)
    if row == "notice":
        return measure_notices(kind, port, count, times)
    client = start(kind, f"127.0.0.1:{port}")
    if row == "make":
        client.make(count)
        tell(mark())
    elif row == "watch":
        client.watch(100, None)
        gc.collect()
        before, since = kilobytes("VmRSS"), mark()
        client.watch(count, lambda event: None)
        gc.collect()
        tell(since, kilobytes("VmRSS") - before)
    elif row in ("data", "data20"):
        path, together = f"{NODE}-{count}", TOGETHER if row == "data20" else 1
        client.put(path, count)
        client.read(path, max(times // 10, 1), together)
        since = mark()
        client.read(path, times, together)
        tell(since)
    elif row == "threads":
        client.read_by_many(times // 10)
        since = mark()
        client.read_by_many(times)
        tell(since)
    else:
        words = () if row == "read" else (DATA,)
        name = "get" if row == "read" else "set"
        client.ask(name, count, max(times // 10, 1), *words)
        since = mark()
        client.ask(name, count, times, *words)
        tell(since)
    client.stop()


if __name__ == "__main__":
    main()
