"""The rows over dirwolleu.aio: the same words and lines as dirwolleu.c, without `make` and `change`.

usage: asyncio_client.py PORT ROW COUNT TIMES
"""

import asyncio
import logging
import sys

import dirwolleu.aio
from measure import AT_ONCE, DATA, NODE, mark, tell, watcher


async def ask_over(client, write, count, times):
    one = (lambda path: client.set(path, DATA)) if write else client.get
    many = (lambda path: client.set_async(path, DATA)) if write else client.get_async
    for _ in range(times):
        if count > 1:
            await asyncio.gather(*[many(NODE) for _ in range(count)])
        else:
            await one(NODE)


async def measure_over(client, write, count, times):
    await ask_over(client, write, count, (times + 9) // 10)
    since = mark()
    await ask_over(client, write, count, times)
    tell(since)


async def ask_each(ask, count):
    for first in range(0, count, AT_ONCE):
        await asyncio.gather(*[ask(f"{NODE}/{number}") for number in range(first, min(first + AT_ONCE, count))])


async def measure_watches(client, count):
    all_reported = asyncio.Event()
    reported = watcher(count, all_reported)
    await ask_each(client.get_async, count)
    since = mark()
    await ask_each(lambda path: client.get_async(path, watch=reported), count)
    tell(since)
    since = mark()
    print("ready", flush=True)
    await all_reported.wait()
    tell(since)


async def measure_reconnect(client, count):
    connected = asyncio.Event()
    client.add_listener(lambda state: connected.set() if state == "CONNECTED" else None)
    await ask_each(lambda path: client.get_async(path, watch=lambda event: None), count)
    since = mark()
    print("ready", flush=True)
    await connected.wait()
    await client.get(NODE)
    tell(since)


async def main():
    port, row, count, times = *sys.argv[1:3], int(sys.argv[3]), int(sys.argv[4])
    logging.disable(logging.CRITICAL)
    client = dirwolleu.aio.Client(f"127.0.0.1:{port}", timeout=30)
    await client.start()
    if row in ("read", "write"):
        await measure_over(client, row == "write", count, times)
    elif row == "watch":
        await measure_watches(client, count)
    else:
        await measure_reconnect(client, count)
    await client.stop()


asyncio.run(main())
