"""The nodes of ZooKeeper from a shell, in the manner of `zk_shell`, and a server in memory."""

from __future__ import annotations

import argparse
import contextlib
import os
import re
import sys
import threading
from collections.abc import Sequence
from typing import Any, Callable, Optional, Union

from dirwolleu.exceptions import ConnectionClosedError, ZookeeperError
from dirwolleu.shell import faults
from dirwolleu.shell.connections import Attempts, Connections, Said
from dirwolleu.shell.faults import Ending
from dirwolleu.shell.printing import escaped
from dirwolleu.shell.words import COMMANDS, PROGRAM, general_help, help_of, read, read_file

Write = Callable[[Union[str, bytes]], None]

LONGEST_TIMEOUT = 10.0
"""The longest session timeout of a command that makes calls, in seconds. It is at most as long as the command waits, so that a
silent server is left while there is time for another one."""

READS = ("get", "ls", "stat", "tree", "getacl", "sync")
"""The commands that change nothing."""


def _version() -> str:
    from dirwolleu import __version__

    return f"dirwolleu {__version__}"


def _serve(chosen: argparse.Namespace, _: Write) -> None:
    from dirwolleu import serve  # here, since other commands need no server

    try:
        serve.run(chosen.port, chosen.script)
    except (serve.ScriptError, OSError) as error:
        raise Ending(faults.FAULT, f"serve: {error}") from error


def _demo(chosen: argparse.Namespace, write: Write) -> None:
    from dirwolleu import demo

    demo.run(chosen.seed, chosen.slow, write)


OWN_SERVERS = {"serve": _serve, "demo": _demo}
"""The commands that bring their own server."""


def _settings(chosen: argparse.Namespace) -> dict[str, Any]:
    """The credentials, and the TLS context. Raises `Ending` if a file can't be read, or has the wrong content."""
    from dirwolleu.tls import tls_context

    auth = [(scheme, text) for scheme, _, text in (one.partition(":") for one in chosen.auth)]
    if not (chosen.ca or chosen.cert or chosen.key):
        return {"auth_data": auth}
    try:
        return {"auth_data": auth, "ssl": tls_context(ca=chosen.ca, certfile=chosen.cert, keyfile=chosen.key)}
    except OSError as error:
        named = f"{error.filename}: " if error.filename is not None else ""
        raise Ending(faults.UNREAD, f"unread: {named}{error.strerror or error}") from error
    except ValueError as error:
        raise faults.usage(str(error)) from error


def _watch(chosen: argparse.Namespace, write: Write) -> None:
    import asyncio

    from dirwolleu import aio
    from dirwolleu.shell import watching

    settings = _settings(chosen)

    async def watch() -> None:
        await watching.run(aio.Client(chosen.hosts, chosen.timeout / 1000, **settings), chosen, write)

    asyncio.run(watch())


def _ending_of(error: Union[ZookeeperError, TimeoutError], chosen: argparse.Namespace, attempts: Attempts) -> Ending:
    """How a command ends after this error of its start or of its call."""
    is_read = chosen.command in READS
    if attempts.is_expired and isinstance(error, (TimeoutError, ConnectionClosedError)):
        return faults.expired(chosen.path)
    if isinstance(error, ZookeeperError):
        path = error.path if chosen.command == "tree" and error.path else chosen.path
        return faults.of_call(error, path, is_read)
    return faults.late(chosen.path, is_read, False) if attempts.was_accepted else faults.unconnected(chosen.path, attempts.all())


def _ask(chosen: argparse.Namespace, write: Write) -> None:
    """Makes a command's calls in a session of its own, and prints once all are answered."""
    from dirwolleu.client import Client
    from dirwolleu.shell.commands import RUNS, Asking

    read_file(chosen)
    client = Client(chosen.hosts, min(float(chosen.wait), LONGEST_TIMEOUT), **_settings(chosen))
    attempts, printed = Attempts(), list[Union[str, bytes]]()
    ending: Optional[Ending] = None

    def note(said: Said) -> None:
        attempts.note(said)
        if said.kind == "expired":  # a command has one session
            threading.Thread(target=client.stop, daemon=True).start()

    with Connections(chosen.hosts, note), contextlib.closing(client):
        asking = Asking(client, chosen.wait)
        try:
            client.start(asking.left())
            with client:
                printed.extend(RUNS[chosen.command](asking, chosen))
        except Ending as early:
            ending = early
        except (ZookeeperError, TimeoutError) as error:
            raise _ending_of(error, chosen, attempts) from error
    for line in printed:
        write(line)
    if ending is not None:
        raise ending


def _run(chosen: argparse.Namespace) -> None:
    def write(line: Union[str, bytes]) -> None:
        try:
            if isinstance(line, bytes):
                sys.stdout.buffer.write(line)
            else:
                print(line)
            sys.stdout.flush()
        except (OSError, UnicodeError) as error:
            raise faults.unwritten(error) from error

    run = _watch if chosen.command == "watch" else OWN_SERVERS.get(chosen.command, _ask)
    run(chosen, write)


def _write_no_more() -> None:
    """Sends the interpreter's last output nowhere: if it failed, the interpreter would end with a status of its own."""
    os.dup2(os.open(os.devnull, os.O_WRONLY), 1)


def _no_command() -> Ending:
    named = f"'{PROGRAM}' requires a subcommand but one was not provided\n  [subcommands: {', '.join([*COMMANDS, 'help'])}]"
    return faults.refused(f"{named}\n\nUsage: {PROGRAM} <COMMAND>")


def _read_option(first: str) -> str:
    """The text for an option before a command. Of letters after one dash, the first counts."""
    name, equals, value = first.partition("=")
    if name in ("--help", "--version") and equals:
        raise faults.refused(f"unexpected value '{value}' for '{name}' found; no more were expected")
    if first == "--help" or first[:2] == "-h":
        return general_help()
    if first == "--version" or first[:2] == "-V":
        return f"{_version()}\n"
    raise faults.refused(f"unexpected argument '{name if first.startswith('--') else first[:2]}' found")


def _read_after_dashes(words: Sequence[str]) -> Ending:
    """Why words after two dashes are refused."""
    if not words:
        return _no_command()
    is_command = words[0] in COMMANDS or words[0] == "help"
    return faults.refused(f"unexpected argument '{words[0]}' found" if is_command else f"unrecognized subcommand '{words[0]}'")


def _help(words: Sequence[str]) -> str:
    """The help that the words after `help` ask for."""
    unknown = words if words and words[0] not in (*COMMANDS, "help") else words[1:]
    if unknown:
        raise faults.refused(f"unrecognized subcommand '{unknown[0]}'")
    return help_of(words[0]) if words and words[0] in COMMANDS else general_help()


def _read(words: Sequence[str]) -> Optional[argparse.Namespace]:
    """What the words ask for, or None after printing the help or the version."""
    if not words:
        raise _no_command()
    for number, one in enumerate(words, 1):
        if re.search("[\ud800-\udfff]", one):
            raise faults.usage(f"word {number} is not UTF-8: {escaped(os.fsencode(one))}")
    first, *others = words
    if first == "--":
        raise _read_after_dashes(others)
    if first in COMMANDS:
        chosen = read(first, others)
        if chosen is None:
            print(help_of(first), end="")
        return chosen
    if first == "help":
        print(_help(others), end="")
    elif first.startswith("-") and first != "-":
        print(_read_option(first), end="")
    else:
        raise faults.refused(f"unrecognized subcommand '{first}'")
    return None


def main(words: Optional[Sequence[str]] = None) -> int:
    """Does what the words say, and returns the exit status."""
    try:
        chosen = _read(sys.argv[1:] if words is None else words)
        if chosen is not None:
            _run(chosen)
    except KeyboardInterrupt:
        return faults.INTERRUPTED
    except Ending as ending:
        if ending.told:
            print(ending.told, file=sys.stderr)
        if ending.status == faults.STREAM:
            _write_no_more()
        return ending.status
    return faults.DONE


if __name__ == "__main__":
    if hasattr(sys.stdout, "reconfigure"):
        sys.stdout.reconfigure(encoding="utf-8", errors="backslashreplace")
    sys.exit(main())
