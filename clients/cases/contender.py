"""A contender by the client for Python: contender.py HOST:PORT PATH KIND NAMES. README.md says what it prints and reads.
"""

from __future__ import annotations

import asyncio
import contextlib
import itertools
import pathlib
import sys
import threading

sys.path.insert(0, str(pathlib.Path(__file__).resolve().parents[1] / "python"))

from dirwolleu import LockTimeout, MixedNamesError, ZookeeperError, aio  # noqa: E402

KINDS = {"lock": aio.Lock, "read": aio.ReadLock, "write": aio.WriteLock}


def say(words: str) -> None:
    print(words, flush=True)


async def hold(may_end: asyncio.Event) -> None:
    say("held")
    await may_end.wait()


async def contend(client: aio.Client, path: str, kind: str, names: str, may_end: asyncio.Event) -> None:
    """Waits until it holds, and holds until it may end."""
    if kind == "election":
        election = aio.Election(client, path, names=names, on_lost=lambda _: say("lost"))
        await election.run(lambda _: hold(may_end))
    else:
        async with KINDS[kind](client, path, names=names, on_lost=lambda _: say("lost")):
            await hold(may_end)


def read_commands(loop: asyncio.AbstractEventLoop, commands: asyncio.Queue[str]) -> None:
    for line in sys.stdin:
        loop.call_soon_threadsafe(commands.put_nowait, line.strip())
    loop.call_soon_threadsafe(commands.put_nowait, "")


async def write_through_fence(client: aio.Client, path: str, held: aio.Held) -> None:
    """Prints by which token it holds and at which zxid, and writes the token through the fence, which accepts none below the one that it
    has.
    """
    zxid = client.last_zxid
    if held.is_held:
        say(f"holds {held.token} {zxid}")
    data, stat = await client.get(f"{path}-fence")
    if int(data or b"") > held.token:
        return say("refused")
    await client.set(f"{path}-fence", b"%d" % held.token, version=stat.version)
    say("wrote")


async def work(client: aio.Client, path: str, names: str) -> None:
    """Holds the lock for a while, again and again, and writes meanwhile. Each third time it does not wait for long."""
    lock = aio.Lock(client, path, "python", names=names, keeps_while_suspended=True)
    for number in itertools.count():
        try:
            held = await lock.acquire(0.3 if number % 3 == 2 else None)
        except LockTimeout:
            continue
        with contextlib.suppress(ZookeeperError):  # another one was faster, or the connection is gone
            for _ in range(3):
                await write_through_fence(client, path, held)
                await asyncio.sleep(0.05)
        with contextlib.suppress(ZookeeperError):  # it goes on by itself
            await held.release()
            say("released")


async def obey(command: str, contending: asyncio.Task[None], may_end: asyncio.Event) -> None:
    if command == "release":
        may_end.set()
        await contending
        say("released")
    else:
        contending.cancel()
        await asyncio.wait([contending])
        if command:
            say("given up")


async def main(hosts: str, path: str, kind: str, names: str) -> None:
    commands, may_end = asyncio.Queue[str](), asyncio.Event()
    threading.Thread(target=read_commands, args=(asyncio.get_running_loop(), commands), daemon=True).start()
    async with aio.Client(hosts, 4.0 if kind == "work" else 10.0) as client:
        contends = work(client, path, names) if kind == "work" else contend(client, path, kind, names, may_end)
        contending = asyncio.ensure_future(contends)
        commanded = asyncio.ensure_future(commands.get())
        try:
            await asyncio.wait([contending, commanded], return_when=asyncio.FIRST_COMPLETED)
            if contending.done():
                contending.result()
            await obey(await commanded, contending, may_end)
        except MixedNamesError:
            say("mixed names")
        except Exception as error:
            say(f"error: {error}")


if __name__ == "__main__":
    asyncio.run(main(*sys.argv[1:]))
