"""Reads tables of test cases: each row is a step, its input, and the lines that it must print."""

from __future__ import annotations

import re
from pathlib import Path
from typing import Callable, Iterator, NamedTuple

HERE = Path(__file__).resolve().parent


class Row(NamedTuple):
    """A step of a case: its words, standard input and expected lines, and what it finds at the addresses that it dials. `line` is its place in the
    file, from 1."""

    line: int
    words: list[str]
    given: list[str]
    wanted: list[str]
    dialled: list[str]

    @property
    def kind(self) -> tuple[str, list[int], list[str]]:
        """Splits `KIND NUMBER..: WORDS`. A row without a kind is of the kind `row`."""
        kind, _, line = f" {' '.join(self.words)} ".rpartition(": ")
        name, *numbers = kind.split() or ["row"]
        return name, [int(number) for number in numbers], line.split()

    @property
    def printed(self) -> str:
        """The expected lines, and where none of them says how the row ends, that it tells nothing and has the status 0."""
        return "\n".join([*self.wanted, *([] if re.search(r"\|\d+$", "".join(self.wanted[-1:])) else ["||0"])])

    @property
    def script(self) -> str:
        """The standard input. `{end}` at the end of a line drops its newline."""
        return "".join(f"{line}\n" for text in self.given for line in numbered(repeated(text))).replace("{end}\n", "")


class Case(NamedTuple):
    name: str
    rows: list[Row]


SIGNS: dict[str, Callable[[Row], list[str]]] = {"<": lambda row: row.given, "=": lambda row: row.wanted, "@": lambda row: row.dialled}


def lines_of(file: Path) -> Iterator[tuple[int, str]]:
    """The lines of a table with their numbers, after a `>` several in one line: `> WORDS < TEXT ! STATUS TEXT`."""
    for number, line in enumerate(file.read_bytes().decode().split("\n"), 1):
        yield from ((number, part) for part in (re.split(r" (?=[<=!+] )", line) if line.startswith("> ") else [line]))


def cases_of(name: str) -> list[Case]:
    """The cases of a file.

    `case NAME` begins one. A step is a line `> WORDS`, followed by its input, `< TEXT`, its expected output, `= TEXT`, and what it finds at the
    addresses that it dials, `@ TEXT`. `! STATUS TEXT` is the end of one that fails: what it tells, and its status. `let NAME TEXT` defines a text,
    which replaces each `{NAME}`. `let NAME` alone defines lines of a step, up to the next empty line; `+ NAME` inserts them.
    """
    cases: list[Case] = []
    texts: dict[str, str] = {}
    parts: dict[str, Row] = {}
    row: Row | None = None
    for number, line in lines_of(HERE / name):
        sign, _, rest = line.partition(" ")
        rest = re.sub(r"\{(\w+)\}", lambda found: texts.get(found[1], found[0]), rest)
        word, _, text = rest.partition(" ")
        if sign == "let" and text:
            texts[word] = text
        elif sign == "let":
            row = parts[word] = Row(number, [word], [], [], [])
        elif sign == "case":
            cases.append(Case(rest, []))
        elif sign == ">":
            row = Row(number, rest.split(" "), [], [], [])
            cases[-1].rows.append(row)
        elif sign in SIGNS and row:
            SIGNS[sign](row).append(rest)
        elif sign == "!" and row:
            row.wanted.extend((f"|{text}", f"|{word}"))
        elif sign == "+" and row and rest in parts:
            for of in SIGNS.values():
                of(row).extend(of(parts[rest]))
        elif sign not in ("", "#"):
            raise ValueError(f"{name}:{number}: a line begins with case, let, >, <, =, !, @, + and a name, or #, and this one with {sign}")
    return cases


def bytes_of(word: str) -> bytes:
    """The bytes that a word spells: `''` has none, and `\\0` or `\\xff` is one byte."""
    return b"" if word == "''" else word.encode().decode("unicode_escape").encode("latin-1")


def repeated(text: str) -> str:
    """Writes each `{TEXT*COUNT}` out."""
    return re.sub(r"\{([^{}*]*)\*(\d+)\}", lambda found: found[1] * int(found[2]), text)


def numbered(line: str) -> Iterator[str]:
    """The line itself, or for `each FIRST LAST LINE;LINE..` these lines once per number. `{number}` is replaced by the number, and it takes an offset
    and a format: `{number:03}`, `{number+1:08x}`."""
    if not line.startswith("each "):
        yield line
        return
    _, first, last, text = line.split(" ", 3)
    for number in range(int(first), int(last) + 1):
        yield from re.sub(r"\{number(\+\d+)?(?::(\w+))?\}", lambda it: format(number + int(it[1] or 0), it[2] or ""), text).split(";")
