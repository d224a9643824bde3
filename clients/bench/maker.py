#!/usr/bin/env python3
"""maker.py: makes servers in memory, each in a process of its own that is forked, so that it begins at once.

It prints `making PORT`. A connection to that port of 127.0.0.1 is the standard input and output of a server, after a line with its words in
JSON, and the server ends with it. No more are made after the end of standard input.
"""

from __future__ import annotations

import fcntl
import gc
import json
import os
import selectors
import signal
import socket
import sys
import traceback
from typing import NoReturn

sys.dont_write_bytecode = True

import hostile  # noqa: E402


LAST = 512
"""A number of a file above those that a server opens: so it is closed last, and its reader sees the end of all."""


def be_server(words: list[str], file: int) -> NoReturn:
    """Becomes a server with these words, whose standard input and output are a file, and ends this process.

    It ends at once: an interpreter that ends by itself writes to all memory that it shares with the process that has forked it, which takes
    longer than all that a server does.
    """
    status = 1
    try:
        signal.signal(signal.SIGCHLD, signal.SIG_DFL)
        for number in (0, 1):
            os.dup2(file, number)
        fcntl.fcntl(file, fcntl.F_DUPFD_CLOEXEC, LAST)
        os.close(file)
        sys.argv = ["hostile.py", *words]
        hostile.main()
        status = 0
    except BaseException:
        traceback.print_exc()
    finally:
        os._exit(status)


def prepare_forks() -> None:
    """Nobody waits for the processes that are forked from now on, and the memory that is there stays shared with them as long as it can."""
    signal.signal(signal.SIGCHLD, signal.SIG_IGN)
    gc.freeze()


def read_line(connection: socket.socket) -> bytes:
    """A line, or the bytes before the end."""
    line = b""
    while not line.endswith(b"\n") and (byte := connection.recv(1)):
        line += byte
    return line


def make(listener: socket.socket) -> None:
    connection, _ = listener.accept()
    with connection:
        if os.fork() == 0:
            listener.close()
            line = read_line(connection)
            if not line:  # nobody asks for one
                os._exit(0)
            be_server(json.loads(line), connection.detach())


def main() -> None:
    """Runs in a group of processes of its own, which no interrupt of a terminal reaches. In a session of its own the servers would get less
    of a busy processor than the tests that wait for them: the system's scheduler shares by sessions.
    """
    os.setpgid(0, 0)
    prepare_forks()
    with socket.create_server(("127.0.0.1", 0), backlog=128) as listener, selectors.DefaultSelector() as selector:
        selector.register(listener, selectors.EVENT_READ)
        selector.register(0, selectors.EVENT_READ)
        print(f"making {listener.getsockname()[1]}", flush=True)
        while True:
            for key, _ in selector.select():
                if key.fileobj is listener:
                    make(listener)
                elif not os.read(0, 4096):
                    return


if __name__ == "__main__":
    main()
