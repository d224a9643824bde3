"""The words of the command line: the commands, their options, and their help."""

from __future__ import annotations

import argparse
import copy
import os
import re
from collections.abc import Sequence
from typing import Any, NamedTuple, Optional, Union

from dirwolleu._hosts import hosts_of
from dirwolleu.shell.commands import read_acl
from dirwolleu.shell.faults import UNREAD, Ending, path_fault, refused, unread, usage
from dirwolleu.shell.printing import quoted

PROGRAM = "python3 -m dirwolleu"
WIDTH = 80
LONGEST_FILE = 1_048_575
MOST_SECONDS, MOST_MS, MOST_NODES, MOST_VERSION = 4_294_967, 2_147_483_647, 4_294_967_295, 2_147_483_647

DESCRIPTION = "Shows and changes the nodes of ZooKeeper, and watches them.\nIf you have no ZooKeeper: demo, and serve."
EPILOG = """\
The names, options, exit statuses, sentences and keys of JSON are those of
zk_shell. `{program} COMMAND --help` says more of each.

a session:
  $ export DIRWOLLEU_HOSTS=127.0.0.1:2181
  $ {program} create --makepath /app/config one
  /app/config
  $ {program} get /app/config
  one
  $ {program} set /app/config two --version 0
  $ {program} tree /app --text
  /app ""
  /app/config "two"
  $ {program} stat /app/config --json
  {{"czxid":4,"mzxid":5,...}}
  $ {program} watch --data /app/config --text
  0.000 dial 127.0.0.1:2181
  ...
"""
NODE_EPILOG = """\
SERVERS is one word: hosts with commas between them, as zk1:2181,zk2:2181. After
them may stand a path, as in zk1:2181/app: then PATH is below it. Without
SERVERS they are those of DIRWOLLEU_HOSTS, or 127.0.0.1:2181.

exit status: 0 done; 2 a fault of the command line; 4 standard output failed;
5 no node; 6 refused; 7 no server has answered in time; 8 no answer to the call,
which may be done or not; 10 FILE is not read; 11 there are more nodes than
--most; 130 interrupted. After 5, 6, 7 and 10 nothing was changed. A line on
standard error says why it is not done.
"""
WATCH_EPILOG = """\
SERVERS are as in `{program} get --help`. --data,
--children and --tree may be used several times. With none, it prints lines of
connections and the session alone.

printed, each line with the seconds since the watch began before it:
  dial ADDRESS             this host is tried
  failed ADDRESS REASON    it could not be connected to
  ended ADDRESS REASON     the connection has ended
  drop FAULT ADDRESS WORDS
                           the connection is given up: the code of the fault in
                           CODES and its values, and what they mean
  state NAME               Connecting, Idle, Expired or Closed; and Connected,
                           with the address, the session and its timeout
  session new              after state Expired: nothing is kept any more
  PATH data full DATA SEVEN MARK last ZXID
                           SEVEN is czxid mzxid ctime mtime version
                           ephemeralOwner dataLength
  PATH names N NAME.. PZXID MARK last ZXID
  PATH does not exist last ZXID
  PATH data absent MARK last ZXID
  PATH data none last ZXID, PATH names none last ZXID
                           nothing is kept
  PATH refused code N WORDS
                           a read was refused, and is tried again
  bound N WORDS            a tree has more nodes than --most
MARK is good if the servers' history says so at ZXID and no change is known, and
stale if a change was told and the node is being read again. Each PATH is whole,
with the path after the servers. Data are in hex, \\e for no bytes and \\0 for
null; with --text in quotes if they are text.

exit status: 0 the time of --for is over; 2 a fault of the command line; 4
standard output failed, or was closed; 6 the credentials are refused; 9 the time
is over, and no server has ever accepted the session; 130 interrupted.
"""
SERVE_EPILOG = """\
It prints its address on one line, and serves until it is interrupted, also in
the background and without standard input. Whatever it holds ends with it.

the lines of a script, of which those before the first `wait` are done before
the address is printed:
  create PATH [TEXT]   makes a node, as another client does; so do the next two
  set PATH [TEXT]      writes a node
  delete PATH          deletes a node
  drop                 closes all connections; sessions and nodes stay
  expire               ends all sessions, with their ephemeral nodes
  stop                 closes all connections and listens no more
  restart              listens again, with all nodes and sessions
  wait SECONDS         does nothing for so long
  # ...                is a comment

exit status: 1 a line of the script is refused, or it can't listen at the port;
2 a fault of the command line; 130 interrupted.
"""


_NAMES = "A-Za-z0-9_%.-"
_SERVER = re.compile(rf"(?:\[([:{_NAMES}]+)\]|([{_NAMES}]+))(?::([1-9][0-9]{{0,4}}))?")


class Option(NamedTuple):
    """An option: the name of its value, if it takes one, its help, and how argparse takes it."""

    value: Optional[str]
    about: str
    how: dict[str, Any] = {}


OPTIONS = {
    "wait": Option("SECONDS", "how long to wait for all answers (default: 10)", {"default": "10"}),
    "json": Option(None, "print JSON, an object a line"),
    "hex": Option(None, "data are hex, \\e for no bytes, \\0 for null"),
    "raw": Option(None, "print the bytes as they are, and nothing else"),
    "null": Option(None, "the data are null, with no DATA"),
    "from": Option("FILE", "the data are the bytes of a file; - is standard input", {"dest": "file"}),
    "version": Option("N", "the version that the node is to have; else any"),
    "sequential": Option(None, "end the name with a number that the server gives"),
    "makepath": Option(None, "make the nodes above it too"),
    "depth": Option("N", "how many levels below PATH; else all"),
    "most": Option("N", "how many nodes at most (default: 10000)", {"default": "10000"}),
    "text": Option(None, "print data in quotes if they are text"),
    "data": Option("PATH", "a node whose data to watch", {"action": "append", "default": []}),
    "children": Option("PATH", "a node below which to watch the names", {"action": "append", "default": []}),
    "tree": Option("PATH", "a node to watch with all below it", {"action": "append", "default": []}),
    "timeout": Option("MS", "the session timeout to ask for (default: 30000)", {"default": "30000"}),
    "for": Option("SECONDS", "how long to watch; else until it is interrupted", {"dest": "duration"}),
    "auth": Option("SCHEME:TEXT", "credentials, as digest:bob:secret", {"action": "append", "default": []}),
    "ca": Option("FILE", "speak TLS, and trust these certificates"),
    "cert": Option("FILE", "the client's own certificate, for TLS"),
    "key": Option("FILE", "the key of that certificate"),
    "port": Option("PORT", "0 is any free one (default: 2181)", {"default": "2181"}),
    "script": Option("FILE", "do the lines of this file; - is standard input"),
    "seed": Option("N", "the history follows of it (default: a new one)"),
    "slow": Option(None, "at a pace to read along"),
}
OPTIONS_OF_WATCH = {"most": Option("N", "how many nodes of one tree at most (default: 1000)", {"default": "1000"})}
CONNECTING = ("auth", "ca", "cert", "key")


class Command(NamedTuple):
    """A command: its words besides options, what it does, and its options."""

    words: str
    about: str
    options: tuple[str, ...]
    epilog: str = NODE_EPILOG


_NODE = "[SERVERS] PATH"
COMMANDS = {
    "get": Command(_NODE, "the data of a node", ("wait", "json", "hex", "raw")),
    "ls": Command(_NODE, "the names below a node, a line each", ("wait", "json")),
    "stat": Command(_NODE, "what is known of a node, a line for each field", ("wait", "json")),
    "tree": Command(
        _NODE,
        "the path of a node and of each one below it,\nand with --text their data, all of it of one moment",
        ("wait", "json", "depth", "most", "text"),
    ),
    "set": Command(f"{_NODE} [DATA]", "sets the data of a node", ("wait", "hex", "null", "from", "version")),
    "create": Command(
        f"{_NODE} [DATA]",
        "makes a node that stays, and prints its path",
        ("wait", "hex", "null", "from", "sequential", "makepath", "json"),
    ),
    "delete": Command(_NODE, "deletes a node that has no children", ("wait", "version")),
    "deleteall": Command(_NODE, "deletes a node and all below it, one after the other", ("wait",)),
    "watch": Command(
        "[SERVERS]",
        "a line at each change of the nodes that it watches",
        ("data", "children", "tree", "most", "timeout", "for", "text", "json"),
        WATCH_EPILOG,
    ),
    "getacl": Command(_NODE, "the ACL of a node, a line for each SCHEME:ID:PERMS", ("wait", "json")),
    "setacl": Command(
        f"{_NODE} ACL",
        "sets the ACL of a node\n\nACL is SCHEME:ID:PERMS, several with commas between them, of the letters c, d,\nr, w and a, as world:anyone:cdrwa.",
        ("wait", "version"),
    ),
    "sync": Command(_NODE, "has the server take in all that was done", ("wait",)),
    "serve": Command("", "a ZooKeeper server in memory, at a port of 127.0.0.1", ("port", "script"), SERVE_EPILOG),
    "demo": Command("", "shows in some seconds what a client knows, and at which zxid", ("seed", "slow"), ""),
}


class _Layout(argparse.RawDescriptionHelpFormatter):
    """Lines of 80 columns at most, whatever the terminal has."""

    def __init__(self, prog: str) -> None:
        super().__init__(prog, max_help_position=26, width=WIDTH)


def _options_of(name: str) -> dict[str, Option]:
    """The options of a command, by their names."""
    command = COMMANDS[name]
    names = [*command.options, *(CONNECTING if command.epilog in (NODE_EPILOG, WATCH_EPILOG) else ())]
    return {one: (OPTIONS_OF_WATCH.get(one) if name == "watch" else None) or OPTIONS[one] for one in names}


def help_of(name: str) -> str:
    """The help of a command."""
    command = COMMANDS[name]
    layout = argparse.ArgumentParser(
        f"{PROGRAM} {name}",
        usage=f"{PROGRAM} {name} {' '.join(filter(None, ['[OPTIONS]', command.words]))}",
        description=command.about,
        epilog=command.epilog.format(program=PROGRAM),
        formatter_class=_Layout,
    )
    for option, (value, about, how) in _options_of(name).items():
        if value is None:
            layout.add_argument(f"--{option}", action="store_true", help=about)
        else:
            layout.add_argument(f"--{option}", metavar=value, help=about, **how)
    return layout.format_help()


def general_help() -> str:
    """The help without a command."""
    width = max(map(len, COMMANDS)) + 2
    rows = [f"  {name:<{width}}{command.about.splitlines()[0].rstrip(',')}" for name, command in COMMANDS.items()]
    return "\n".join([
        f"usage: {PROGRAM} COMMAND [OPTIONS] [SERVERS] [PATH] [DATA]", "", DESCRIPTION, "", "commands:", *rows, "",
        EPILOG.format(program=PROGRAM),
    ])  # fmt: skip


class _Words:
    """The words of a command, taken one after the other. Like `zk_shell`, it reports the first that has a fault."""

    def __init__(self, name: str, words: Sequence[str]) -> None:
        self._options = _options_of(name)
        self._kinds = COMMANDS[name].words.split()
        if "[SERVERS]" in self._kinds and self._names_no_servers(words):
            self._kinds.remove("[SERVERS]")
        self.found = dict[str, str]()
        """The words that are no options, by their kinds."""
        self.chosen = argparse.Namespace()
        for option, (value, _, how) in self._options.items():
            setattr(self.chosen, how.get("dest", option), False if value is None else copy.copy(how.get("default")))
        self._used = set[str]()
        self._last: Optional[tuple[str, Optional[str]]] = None
        """An option that takes a value, until another word is understood."""
        self.asks_help = False
        self._take(words)

    def _names_no_servers(self, words: Sequence[str]) -> bool:
        """Whether the first word that is no option, and no option's value, is a path, or there is none."""
        is_value = False
        for word in words:
            if not is_value and not _is_option(word):
                return word.startswith("/")
            option = None if is_value else self._options.get(word[2:])
            is_value = option is not None and option.value is not None and word.startswith("--")
        return True

    def _take(self, words: Sequence[str]) -> None:
        end = words.index("--") if "--" in words else len(words)
        for word in words[:end]:
            if not _is_option(word):
                self._take_plain(word)
            elif word.startswith("--"):
                self._take_option(word[2:])
            else:
                self._take_letters(word)
            if self.asks_help:
                return
        for word in words[end + 1 :]:
            self._take_operand(word)
        self._settle()
        lacking = [kind for kind in self._kinds if not kind.startswith("[")]
        if lacking:
            raise refused(f"the following required arguments were not provided:{''.join(f'{chr(10)}  <{kind}>' for kind in lacking)}")

    def _take_plain(self, word: str) -> None:
        if self._last is not None and self._last[1] is None:
            self._last = self._last[0], word
        else:
            self._take_operand(word)

    def _take_operand(self, word: str) -> None:
        if not self._kinds:
            raise refused(f"unexpected argument '{word}' found")
        self._settle()
        self.found[self._kinds.pop(0).strip("[]")] = word

    def _take_letters(self, word: str) -> None:
        if word[1] != "h":
            raise refused(f"unexpected argument '{word[:2]}' found")
        self._settle()
        self.asks_help = True

    def _take_option(self, word: str) -> None:
        name, equals, value = word.partition("=")
        option = self._options.get(name)
        if option is None and name != "help":
            raise refused(f"unexpected argument '--{name}' found")
        takes_value = option is not None and option.value is not None
        if equals and not takes_value:
            raise refused(f"unexpected value '{value}' for '--{name}' found; no more were expected")
        self._settle()
        if takes_value:
            self._last = name, value if equals else None
        elif option is None:
            self.asks_help = True
        else:
            self._note(name, True)

    def _settle(self) -> None:
        """Notes the option that was read last, with its value."""
        if self._last is None:
            return
        (name, value), self._last = self._last, None
        if value is None:
            raise refused(f"a value is required for '--{name} <{self._options[name].value}>' but none was supplied")
        self._note(name, value)

    def _note(self, name: str, value: Union[str, bool]) -> None:
        kind, _, how = self._options[name]
        dest = how.get("dest", name)
        if how.get("action") == "append":
            getattr(self.chosen, dest).append(value)
            return
        if name in self._used:
            raise refused(f"the argument '--{name}{f' <{kind}>' if kind is not None else ''}' cannot be used multiple times")
        self._used.add(name)
        setattr(self.chosen, dest, value)


def _is_option(word: str) -> bool:
    return word.startswith("-") and word != "-"


def _number(word: str, least: int, most: int, what: str) -> int:
    if not word.isascii() or not word.isdigit() or word != str(int(word)) or not least <= int(word) <= most:
        raise usage(f"{quoted(word)} is no {what} from {least} to {most}")
    return int(word)


NUMBERS = {
    "wait": (1, MOST_SECONDS, "time to wait: a number of seconds"),
    "timeout": (1, MOST_MS, "timeout: a number of milliseconds"),
    "duration": (1, MOST_SECONDS, "time to watch: a number of seconds"),
    "depth": (0, MOST_NODES, "depth: a number"),
    "most": (1, MOST_NODES, "number of nodes: a number"),
    "version": (0, MOST_VERSION, "version: a number"),
    "port": (0, 65_535, "port: a number"),
}


def _read_numbers(chosen: argparse.Namespace, *names: str) -> None:
    for name in names:
        if getattr(chosen, name, None) is not None:
            setattr(chosen, name, _number(getattr(chosen, name), *NUMBERS[name]))


def _read_seed(chosen: argparse.Namespace) -> None:
    if getattr(chosen, "seed", None) is not None:
        try:
            chosen.seed = int(chosen.seed)
        except ValueError:
            raise usage(f"{quoted(chosen.seed)} is no seed: a number") from None


def _hosts_of_environment() -> str:
    """The servers of a command that names none. Bytes that are no text are no server."""
    hosts = os.environ.get("DIRWOLLEU_HOSTS") or "127.0.0.1:2181"
    return "DIRWOLLEU_HOSTS: not UTF-8" if re.search("[\ud800-\udfff]", hosts) else hosts


def _check_server(server: str) -> None:
    """Raises `ValueError` if this is no server: labels of 1 to 63 letters with dots between them, 253 letters in all, and a port."""
    found = _SERVER.fullmatch(server)
    if found is None or int(found[3] or 1) > 65_535:
        raise ValueError(server)
    name = found[1] or found[2]
    *labels, last = name.split(".")
    if len(name) > 253 or not all(labels) or max(map(len, [*labels, last])) > 63:  # the last one may be empty
        raise ValueError(server)


def _read_servers(chosen: argparse.Namespace, given: Optional[str]) -> None:
    chosen.hosts = _hosts_of_environment() if given is None else given
    hosts, slash, below = chosen.hosts.partition("/")
    for server in hosts.split(","):
        try:
            _check_server(server)
            hosts_of(server)
        except ValueError:
            raise usage(f"{quoted(server)} is no server: HOST:PORT, as zk1:2181 or [::1]:2181") from None
    chosen.chroot = slash + below if below else ""
    _check_path(chosen.chroot or "/", "")


def _check_path(path: str, chroot: str) -> None:
    """Raises `Ending` if this is no path, or makes none below the servers' one."""
    fault = path_fault(path) or path_fault(chroot + path if path != "/" else chroot or "/")
    if fault is not None:
        raise fault


def _read_data(chosen: argparse.Namespace, word: Optional[str]) -> None:
    """The data of `set` and `create`. A file is read later, by `read_file`."""
    chosen.data = None
    beside = word if word is not None else chosen.file
    if chosen.file is not None and (word is not None or chosen.null or chosen.hex) or word is not None and chosen.null:
        raise usage(f"{quoted(beside or '')}: give DATA, with --hex where it is hex, or --null, or --from FILE")
    if chosen.file is None and word is None and not chosen.null:
        raise usage("DATA is missing: give it, or --from FILE, or --null for null data")
    if word is not None:
        chosen.data = _bytes_of(word) if chosen.hex else os.fsencode(word)


def _bytes_of(word: str) -> Optional[bytes]:
    if word in ("\\0", "\\e"):
        return None if word == "\\0" else b""
    try:
        if not word or word.isalnum() and word.isascii():
            return bytes.fromhex(word)
    except ValueError:
        pass
    raise usage(f"{quoted(word)} is no hex: two digits for each byte, \\e for no bytes, or \\0 for null")


def read_file(chosen: argparse.Namespace) -> None:
    """Reads the file that the command line names, before a server is asked. Raises `Ending`."""
    if getattr(chosen, "file", None) is None:
        return
    try:
        with open(0 if chosen.file == "-" else chosen.file, "rb", closefd=chosen.file != "-") as file:
            chosen.data = file.read(LONGEST_FILE + 1)
    except OSError as error:
        raise unread(chosen.file, error) from error
    if len(chosen.data) > LONGEST_FILE:
        raise Ending(UNREAD, f"unread: {chosen.file}: it has more than {LONGEST_FILE:,} bytes")


def read(name: str, words: Sequence[str]) -> Optional[argparse.Namespace]:
    """The options and arguments in the words after a command's name, or None if they ask for help. Raises `Ending`."""
    taken = _Words(name, words)
    if taken.asks_help:
        return None
    chosen, found = taken.chosen, taken.found
    chosen.command, chosen.path = name, found.get("PATH", "")
    is_watch = name == "watch"
    _read_numbers(chosen, "wait", "timeout", "duration", "depth", "port", *(() if is_watch else ("most",)))
    _read_seed(chosen)
    if "auth" in chosen:
        _read_servers(chosen, found.get("SERVERS"))
        if is_watch:
            _read_numbers(chosen, "most")
        for path in chosen.data + chosen.children + chosen.tree if is_watch else [chosen.path]:
            _check_path(path, chosen.chroot)
    if "null" in chosen:
        _read_data(chosen, found.get("DATA"))
    if "ACL" in found:
        chosen.acl = found["ACL"]
        read_acl(chosen)
    _read_numbers(chosen, "version")
    if "version" in chosen and chosen.version is None:
        chosen.version = -1
    return chosen
