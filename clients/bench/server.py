#!/usr/bin/env python3
"""A ZooKeeper server in memory at a socket, for tests of clients: that of `dirwolleu.testing`, by lines of commands.

It listens on 127.0.0.1, and the first line that it prints is `listening PORT`. Lines on its standard input are
commands, each answered by one line; it ends when its standard input ends. README.md beside this file names the
commands.
"""

from __future__ import annotations

import argparse
import asyncio
import pathlib
import sys
import threading
from typing import Optional

sys.path.insert(0, str(pathlib.Path(__file__).resolve().parents[1] / "python"))

from dirwolleu.testing._ensemble import Ensemble, hold  # noqa: E402


def read_lines(loop: asyncio.AbstractEventLoop, lines: asyncio.Queue[Optional[str]]) -> None:
    """Hands the lines of standard input to the loop, and None at its end or after `quit`."""
    for line in sys.stdin:
        loop.call_soon_threadsafe(lines.put_nowait, line)
        if line.strip() == "quit":
            break
    loop.call_soon_threadsafe(lines.put_nowait, None)


async def serve(port: int, ensemble: Ensemble) -> None:
    with hold(port) as held:
        await ensemble.listen(held.getsockname()[1])
        print(f"listening {ensemble.port}", flush=True)
        lines: asyncio.Queue[Optional[str]] = asyncio.Queue()
        threading.Thread(target=read_lines, args=(asyncio.get_running_loop(), lines), daemon=True).start()
        while (line := await lines.get()) is not None:
            print(await ensemble.obey(line), flush=True)
        ensemble.go_down()


def main() -> None:
    parser = argparse.ArgumentParser(description="A ZooKeeper server in memory at a socket, for tests of clients.")
    parser.add_argument("--port", type=int, default=0, help="the port on 127.0.0.1; by default a free one")
    asyncio.run(serve(parser.parse_args().port, Ensemble()))


if __name__ == "__main__":
    main()
