"""What the crates state, read from their texts, and what became of it since: each public function with its clauses, each trait, type, ghost view and
invariant, what each crate gives its callers, and each definition of specs/, or of proofs/ in a file that clauses name. `scripts/statements` writes a
line of each into STATEMENTS.lock. And the tests, rows and edits that are there no more.

A pin has a part for each clause, field and text of equations. The checksum of a part is of its words, without comments and line breaks, and of
what the imports of its file take the names in it for: a name that is imported from elsewhere says something else.

A message of a commit names a statement by the name of its definition or function (`IsFollowed`, `Client::step`); what a file gives its callers, by
the file (`zk_client/src/lib.rt`); a test, by its name, its class or its file; rows, by their file (`cases.txt`); an edit, by
its name or what it turns. A list of names will do. A new statement, and one that only moved to another file, needs no word.
"""

from __future__ import annotations

import difflib
import hashlib
import re
import sys
from collections import Counter
from collections.abc import Iterable, Iterator, Mapping
from dataclasses import dataclass, field
from functools import cache, cached_property

import repository
from repository import CRATES, TOP

# The crates of tests state nothing that a caller has.
NOT_PINNED = ("test_layers/", "test_clients/", "test_scripts/", "test_links/", "test_callers/")

QUOTED = r"""'(?:[^'\\\n]|\\[^'\n]+)'|"(?:[^"\\]|\\.)*\""""
QUOTES = re.compile(QUOTED, re.S)
COMMENT = re.compile(rf"({QUOTED})|//[^\n]*", re.S)
SPACES = re.compile(rf"({QUOTED})|\s+", re.S)
WORD = re.compile(r"[^\W\d][\w'-]*|[^\s\w(){}\[\],;.\"]+|[^\s(){}\[\],;.\"]+")
VISIBLE = r"(?:pub(?:\([\w ]+\))? )?"
FUNCTION = re.compile(rf"{VISIBLE}(?:final |const |unsafe |extern \"C\" )*fn (\w+)")
HEAD_END = re.compile(r"\n\s*(?:requires|ensures)\b|\s*\{|;\s*$")
CLAUSE = re.compile(r"\s*(requires|ensures)\b(\*?) *(\w*)\s*(?=\{)")
DECLARED = re.compile(rf"({VISIBLE})(struct|enum|const|static|type) (\w+)")
BLOCK = re.compile(rf"(?:unsafe )?impl\b|{VISIBLE}(?:unsafe )?trait |{VISIBLE}mod \w+ \{{")
IMPORT = re.compile(rf"\s*{VISIBLE}(?:ghost )?use\s")


@dataclass(frozen=True)
class Part:
    """A clause, a field, a type or the equations of a definition: its words, and what each imported name in them means."""

    label: str
    words: str = ""
    means: tuple[str, ...] = ()

    @cached_property
    def checksum(self) -> str:
        return hashlib.sha256("\n".join([self.words, *self.means]).encode()).hexdigest()[:8]


@dataclass(frozen=True)
class Pin:
    """What a line of STATEMENTS.lock is of."""

    file: str
    name: str
    parts: tuple[Part, ...]

    @property
    def key(self) -> str:
        return f"{self.file} {self.name}"

    @property
    def crate(self) -> str:
        return self.file.partition("/")[0]


@dataclass(frozen=True)
class Scope:
    """The names that imports bring, with the path of each."""

    names: Mapping[str, str] = field(default_factory=dict)

    def plus(self, imports: Iterable[str]) -> Scope:
        return Scope({**self.names, **{name: path for text in imports for name, path in imported(text)}})

    def part(self, label: str, words: str) -> Part:
        found = set(WORD.findall(words))
        used = [name for name in self.names if name in found or is_used(name, found, words)]
        return Part(label, words, tuple(sorted(f"{name}={self.names[name]}" for name in used)))


def is_used(name: str, found: set[str], words: str) -> bool:
    """Whether an operator, or a name of brackets, is in a text."""
    pieces = {it for it in name.split("◌") if it}
    return "◌" in name and pieces <= found or name in ("[]", "()") and name in words


def imported(text: str) -> Iterator[tuple[str, str]]:
    """Each name that an import brings, and its path: of `use a.b.{C, d as e}`, and of `use a::{self, c::D}`."""
    text = re.sub(r"^\s*(?:pub(?:\([\w ]+\))? )?(?:ghost )?use\s+|;\s*$", "", text).replace("::", ".")
    if braced := re.fullmatch(r"(.*?)\.?\{(.*)\}", text, re.S):
        for inner in split_outside(braced[2]):
            yield from ((name, f"{braced[1]}.{path}") for name, path in imported(inner))
    elif text.strip():
        path, _, alias = (it.strip() for it in text.partition(" as "))
        yield alias or path.split(".")[-1], path


def split_outside(text: str) -> list[str]:
    """The parts of a text between commas that are in no brackets."""
    parts, depth = [""], 0
    for letter in text:
        depth += (letter in "({[") - (letter in ")}]")
        parts = [*parts, ""] if letter == "," and not depth else [*parts[:-1], parts[-1] + letter]
    return [part.strip() for part in parts if part.strip()]


def flat(text: str) -> str:
    """The words of a text, with one space for what is between them, except in quotes."""
    return SPACES.sub(lambda found: found[1] or " ", text).strip()


def blank(text: str) -> str:
    """A text of the same length with nothing in its quotes."""
    return QUOTES.sub(lambda found: '"' * len(found[0]), text)


def indent_of(line: str) -> int:
    return len(line) - len(line.lstrip())


# The code, as `rt fmt` lays it out


def items(lines: list[str]) -> Iterator[list[str]]:
    """The items of a block: each ends with a semicolon, or at a line at its own indent that closes it."""
    taken: list[str] = []
    depth = 0
    for line in lines:
        if taken or line.strip():
            taken.append(line)
            bare = blank(line).rstrip()
            depth += len(re.findall(r"[({\[]", bare)) - len(re.findall(r"[)}\]]", bare))
            last = ("}", "]") if taken[0].lstrip().startswith("#") else ("}",)
            if depth == 0 and (bare.endswith(";") or indent_of(line) == indent_of(taken[0]) and bare.endswith(last)):
                yield taken
                taken = []
    if taken:
        yield taken


def closing(bare: str, start: int) -> int:
    """The place after the bracket that closes the one that opens here."""
    depth = 0
    for found in re.compile(r"[{}]").finditer(bare, start):
        depth += 1 if found[0] == "{" else -1
        if not depth:
            return found.end()
    return len(bare)


def function_parts(around: str, text: str, scope: Scope) -> Iterator[Part]:
    """The signature of a function, after the head of the impl or trait that has it, and each of its clauses."""
    bare = blank(text)
    end = HEAD_END.search(bare)
    at = end.start() if end else len(text)
    yield scope.part("fn", f"{around} {flat(text[:at])}".strip())
    while clause := CLAUSE.match(bare, at):
        at = closing(bare, clause.end())
        yield scope.part(f"{clause[1]}{clause[2]} {clause[3]}".strip(), flat(text[clause.end() : at]))


def type_parts(found: re.Match[str], text: str, scope: Scope) -> Iterator[Part]:
    """What a type or constant is, and each ghost field of it, which holds of each of its values."""
    bare = blank(text)
    start = bare.find("{")
    if found[2] not in ("struct", "enum") or start < 0:
        yield scope.part(found[2], flat(text))
        return
    fields = split_outside(re.sub(r"#\[[^\]]*\]", "", text[start + 1 : closing(bare, start) - 1]))
    ghosts = [it for it in fields if re.match(rf"{VISIBLE}ghost ", it)]
    yield scope.part(found[2], flat(f"{text[:start]}{{ {', '.join(flat(it) for it in fields if it not in ghosts)} }}"))
    for ghost in ghosts:
        yield scope.part(flat(ghost.partition(":")[0]), flat(re.sub(r"\}\s*by\s*\{.*", "}", ghost.partition(":")[2], flags=re.S)))


def ghost_part(head: str, text: str, scope: Scope) -> Part:
    """A ghost item of a trait or an impl, with what it is where an impl does not say; of a law with its proof, the law."""
    law = re.match(r"ghost \w+:\s*(?=\{)", text)
    end = closing(blank(text), law.end()) if law else len(text)
    return scope.part(" ".join(head.split()[:2]).rstrip(":"), flat(text if text[end:].lstrip().startswith("=") else text[:end]))


def owner_of(head: str) -> str:
    """What is in front of the names of a block's functions: its type, with its trait where it has one, or its trait, or its module."""
    head = re.sub(r"\swhere\s.*", "", head)
    if named := re.match(rf"{VISIBLE}(?:unsafe )?(?:trait|mod) (\w+)", head):
        return named[1]
    rest = re.sub(r"^(?:unsafe )?impl\b\s*", "", head)
    rest = rest[end_of_angles(rest) :].strip() if rest.startswith("<") else rest
    trait, _, kind = rest.rpartition(" for ")
    return f"{kind} as {trait}" if trait else re.sub(r"<.*", "", kind)


def end_of_angles(text: str) -> int:
    depth = 0
    for at, letter in enumerate(text):
        depth += (letter == "<") - (letter == ">" and text[at - 1] != "-")
        if not depth:
            return at + 1
    return len(text)


@dataclass(frozen=True)
class Block:
    """A file of code, or an impl, a trait or a module in it: what is in front of its names, and what its imports bring."""

    file: str
    scope: Scope
    owner: str = ""
    head: str = ""

    def pin(self, name: str, parts: Iterable[Part]) -> Pin:
        return Pin(self.file, "::".join(filter(None, [self.owner, name])), tuple(parts))

    @property
    def is_trait(self) -> bool:
        return bool(re.match(rf"{VISIBLE}(?:unsafe )?trait ", self.head))

    def pins(self, lines: list[str]) -> Iterator[Pin]:
        """The pins of what is in the block."""
        found = [*items(lines)]
        inside = Block(self.file, self.scope.plus("\n".join(it) for it in found if IMPORT.match(it[0])), self.owner, self.head)
        yield from (pin for item in found for pin in inside.pins_of(item))
        trait = [inside.scope.part("trait", self.head)] if self.is_trait else []
        ghosts = [ghost_part(it[0].strip(), "\n".join(it).strip(), inside.scope) for it in found if re.match(r"\s*ghost (?!use\b)", it[0])]
        given = [Part(name) for it in found for name in given_by(flat("\n".join(it)))]
        yield from (self.pin(name, parts) for name, parts in (("", trait + ghosts), ("exports", given)) if parts)

    def pins_of(self, item: list[str]) -> Iterator[Pin]:
        head, text = item[0].strip(), "\n".join(item).strip()
        if BLOCK.match(head):
            top = next(at for at, line in enumerate(item) if blank(line).rstrip().endswith(("{", "{}")))
            head = flat("\n".join(item[: top + 1])).rstrip("{} ")
            owner = "::".join(filter(None, [self.owner, owner_of(head)]))
            yield from Block(self.file, self.scope, owner, head).pins(item[top + 1 : -1])
        elif (function := FUNCTION.match(head)) and self.states(head, text):
            yield self.pin(function[1], function_parts(self.head, text, self.scope))
        elif (declared := DECLARED.match(head)) and (declared[1] or declared[2] in ("struct", "enum", "type")):
            yield self.pin(declared[3], type_parts(declared, text, self.scope))

    def states(self, head: str, text: str) -> bool:
        """Whether a function is a caller's: public, or of a trait; or of an impl of a trait, with clauses of its own."""
        is_of_impl = " as " in self.owner and bool(re.search(r"^\s*(?:requires|ensures)\b", text, re.M))
        return head.startswith("pub ") or self.is_trait or is_of_impl


def given_by(text: str) -> Iterator[str]:
    """What a public import or module gives to the callers of a crate."""
    if re.match(r"pub use\b", text):
        for name, path in imported(text):
            yield path.replace(".", "::") + ("" if path.split(".")[-1] == name else f" as {name}")
    elif module := re.match(r"pub mod (\w+)", text):
        yield f"mod {module[1]}"


# The definitions

DEFINITION = re.compile(r"(?:(?:abbrev|unfoldable|opaque) )?(?:pub )?(?:(data|record) )?(\S+)(?= |$)")
NOTATION = re.compile(r"infix")
NO_DEFINITION = re.compile(r"(?:pub )?(?:use|mod) |infix")


@dataclass
class Definition:
    """The lines of a definition, from its head on, with the heads of the modules around it."""

    kind: str
    name: str
    around: list[str]
    lines: list[str]

    @property
    def indent(self) -> int:
        return indent_of(self.lines[0])

    @property
    def end(self) -> int:
        """How many lines are its head, or its type."""
        deep = self.indent + (2 if self.kind else 0)
        return next((at for at, line in enumerate(self.lines) if at and indent_of(line) <= deep), len(self.lines))

    @property
    def how(self) -> str:
        """The word that it begins with, of a function that is not declared by its type alone."""
        first = self.lines[0].split()[0]
        return self.kind or (first if first in ("abbrev", "unfoldable", "opaque") else "")

    def parts(self, scope: Scope) -> Iterator[Part]:
        """The head, and each field or constructor; or the type, and the equations."""
        indent, end = self.indent, self.end
        head = [*self.around, *(line[indent:] for line in self.lines[:end])]
        yield scope.part(self.how or "type", "\n".join(head))
        rest = [line[indent:] for line in self.lines[end:]]
        if self.kind:
            yield from (scope.part(flat(it[0]).removeprefix("pub ").partition(" :")[0].strip(), "\n".join(it)) for it in fields(rest))
        elif rest:
            yield scope.part("equations", "\n".join(rest))


def fields(lines: list[str]) -> list[list[str]]:
    """The fields of a record or the constructors of data: what is deeper goes on with the one before it."""
    found: list[list[str]] = []
    for line in lines:
        if found and (indent_of(line) > 2 or line.strip() in ("}", "]", ")")):
            found[-1].append(line)
        else:
            found.append([line])
    return found


def definitions(lines: list[str]) -> Iterator[Definition]:
    """The definitions of a file of specs/, each with the modules that are around it. A line that is of none is one by itself, so that each is pinned."""
    around: list[str] = []
    current: Definition | None = None
    is_open = False
    for line in lines:
        if is_open:
            around[-1] += line
            is_open = not line.endswith(" where")
            continue
        indent = indent_of(line)
        around = around if indent else []
        found = DEFINITION.match(line.lstrip())
        if indent > 2 * len(around) or not found or not is_head(line.strip()):
            current = current or Definition("", line.split()[0].rstrip(":"), around, [])
            current.lines.append(line)
            continue
        if current:
            yield current
        current = None
        if line.strip().startswith("module "):
            around = [line]
            is_open = not line.endswith(" where")
        elif not NO_DEFINITION.match(line):
            current = Definition(found[1] or "", found[2], around, [line])
    if current:
        yield current


def is_head(line: str) -> bool:
    """Whether a line begins a definition, or what is none: all else goes on with the definition before it."""
    return bool(re.match(r"(?:abbrev|unfoldable|opaque|pub|data|record|module|use|mod|infix\w*) |\S+ : ", line))


def lines_of_specs(text: str) -> list[str]:
    """The lines of a file of specs/, without comments and those that are empty then."""
    return [line for line in map(str.rstrip, re.sub(r"(^|\s)--(?: .*|$)", "", text, flags=re.M).splitlines()) if line]


def spec_pins(file: str, text: str) -> Iterator[Pin]:
    """The pins of a file of specs/: each definition, and what the file passes on or spells as an operator."""
    lines = lines_of_specs(text)
    scope = Scope().plus(line for line in lines if IMPORT.match(line))
    for one in definitions(lines):
        yield Pin(file, one.name, tuple(one.parts(scope)))
    given = [name for line in lines if not line.startswith("pub mod ") for name in given_by(line)]
    if passed := [*given, *(line for line in lines if NOTATION.match(line))]:
        yield Pin(file, "exports", tuple(map(Part, passed)))


# All


@cache
def pins_in(file: str, text: str) -> tuple[Pin, ...]:
    """The pins of one file."""
    if file.endswith(".antt"):
        return tuple(spec_pins(file, text))
    lines = COMMENT.sub(lambda found: found[1] or "", text).splitlines()
    return tuple(Block(file, Scope()).pins([line.rstrip() for line in lines]))


OF_PROOFS = re.compile(r"^ *(?:pub |ghost )*use Rattle\.(\w+)\.proofs\.([\w.]+)", re.M)


def is_pinned(file: str) -> bool:
    """Whether a file below crates/ states anything, or one of proofs/ may."""
    return not file.startswith(NOT_PINNED) and bool(re.match(r"[^/]+/(?:(?:specs|proofs)/.*\.antt|src/.*\.rt)$", file))


def stating(texts: Mapping[str, str]) -> dict[str, str]:
    """Those of these texts that state something: of proofs/ the files that src/ and specs/ name, and those that these name."""
    found: set[str] = set()
    rest = {name for name in texts if "/proofs/" not in name}
    while rest:
        found |= rest
        named = {file for name in rest for found in OF_PROOFS.findall(texts[name]) for file in files_of_proofs(*found)}
        rest = (named & texts.keys()) - found
    return {name: texts[name] for name in sorted(found)}


def files_of_proofs(crate: str, path: str) -> Iterator[str]:
    """The files that a path of an import may be of, or in."""
    parts = path.strip(".").split(".")
    return (f"{crate}/proofs/{'/'.join(parts[: at + 1])}.antt" for at in range(len(parts)))


def texts_here() -> dict[str, str]:
    """The texts that are pinned, as they are in the work tree."""
    found = [*CRATES.glob("*/specs/**/*.antt"), *CRATES.glob("*/proofs/**/*.antt"), *CRATES.glob("*/src/**/*.rt")]
    names = {str(path.relative_to(CRATES)): path for path in found}
    return stating({name: path.read_text(encoding="utf-8") for name, path in names.items() if is_pinned(name)})


def numbered(names: Iterable[str]) -> Iterator[str]:
    """These names, each with a number where it was there before."""
    seen: Counter[str] = Counter()
    for name in names:
        seen[name] += 1
        yield f"{name} #{seen[name]}" if seen[name] > 1 else name


def pins_of(texts: Mapping[str, str]) -> dict[str, Pin]:
    """The pins of these texts by their keys, sorted."""
    pins = [pin for file in sorted(texts) for pin in pins_in(file, texts[file])]
    return dict(sorted(zip(numbered(pin.key for pin in pins), pins, strict=True)))


Parts = Mapping[str, str]
"""The checksum of each part by its label; nothing where a part has no words."""


def parts_of(pin: Pin) -> dict[str, str]:
    return dict(zip(numbered(part.label for part in pin.parts), (part.checksum if part.words else "" for part in pin.parts), strict=True))


# STATEMENTS.lock

LOCK = TOP / "STATEMENTS.lock"
HEAD = "# What the crates state. scripts/statements writes this, and scripts/statements --since says in words what changed\n"


def lock_of(pins: Mapping[str, Pin]) -> str:
    """The text of STATEMENTS.lock: a line of each pin."""
    lines = {key: ", ".join(f"{label} {checksum}".strip() for label, checksum in parts_of(pin).items()) for key, pin in pins.items()}
    return HEAD + "".join(f"{key}: {line}\n" for key, line in lines.items())


def lines_in(text: str) -> dict[str, Parts]:
    """The parts of each line of STATEMENTS.lock by its key."""
    return dict(read_line(line) for line in text.splitlines() if not line.startswith("#"))


def read_line(line: str) -> tuple[str, dict[str, str]]:
    key, _, rest = line.partition(": ")
    found = [re.fullmatch(r"(.*?)(?: ([0-9a-f]{8}))?", part) for part in rest.split(", ")]
    return key, {it[1]: it[2] or "" for it in found if it}


# What went away, was added or reads otherwise between two lists of pins, in plain words

GONE, NEW, OTHERWISE, MOVED = "went away", "was added", "reads otherwise", "moved as it was"
At = tuple[str, str]
"""The key of a line, and the label of a part of it."""
Words = Mapping[At, Part]


@dataclass(frozen=True)
class Change:
    """A line, or a part of one, that is not as it was."""

    kind: str
    key: str
    label: str = ""
    note: str = ""

    @property
    def title(self) -> str:
        return f"{self.kind}: {self.key}{', ' if self.label else ''}{self.label}{self.note}"


def changes(old: Mapping[str, Parts], new: Mapping[str, Parts]) -> list[Change]:
    """The changes from old lines to new ones, in the order of their keys."""
    moves = moved(old, new)
    gone = {(key, label): checksum for key in old for label, checksum in old[key].items() if key not in moves and label not in new.get(key, {})}
    come = {(key, label): checksum for key in new for label, checksum in new[key].items() if key not in moves.values() and label not in old.get(key, {})}
    found = [Change(MOVED, key, note=f", to {moves[key]}") for key in moves]
    found += whole_or_parts(GONE, new, gone, come)
    found += whole_or_parts(NEW, old, come, {})
    both = [(key, label) for key in old for label in old[key] if label in new.get(key, {})]
    found += [Change(OTHERWISE, key, label) for key, label in both if old[key][label] != new[key][label]]
    return sorted(found, key=lambda it: (it.key, it.label))


def moved(old: Mapping[str, Parts], new: Mapping[str, Parts]) -> dict[str, str]:
    """The lines that are in another file, each with its new key: no part of them has changed."""
    places = {(key.partition(" ")[2], *new[key].items()): key for key in new if key not in old}
    names = {key: (key.partition(" ")[2], *old[key].items()) for key in old if key not in new}
    return {key: places[name] for key, name in names.items() if name in places}


def whole_or_parts(kind: str, lacks: Mapping[str, Parts], parts: Mapping[At, str], elsewhere: Mapping[At, str]) -> Iterator[Change]:
    """A change for each line that one list has and the other has not, and one for each part of a line that both have."""
    for key in dict.fromkeys(key for key, _ in parts):
        labels = [label for at, label in parts if at == key]
        if key in lacks:
            yield from (Change(kind, key, label, note_on(kind, parts[key, label], label, elsewhere)) for label in labels)
        else:
            yield Change(kind, key, note=f" ({', '.join(labels)})")


def note_on(kind: str, checksum: str, label: str, elsewhere: Mapping[At, str]) -> str:
    """Where the words of a part that went away are now, or that callers are asked more."""
    now = next((key for (key, _), other in elsewhere.items() if checksum and other == checksum), "")
    if now:
        return f", and is now of {now}"
    return ", which asks more of callers" if kind == NEW and label.startswith("requires") else ""


def counts(found: Iterable[Change]) -> str:
    number = Counter(one.kind for one in found)
    return f"{number[GONE]} went away, {number[NEW]} added, {number[OTHERWISE]} read otherwise, {number[MOVED]} moved"


def words_of(pins: Mapping[str, Pin]) -> dict[At, Part]:
    labelled = ((key, zip(numbered(part.label for part in pin.parts), pin.parts, strict=True)) for key, pin in pins.items())
    return {(key, label): part for key, parts in labelled for label, part in parts}


def told(change: Change, before: Words, after: Words) -> Iterator[str]:
    """A change, with the lines that were and those that are."""
    yield change.title
    was, now = (words.get((change.key, change.label)) for words in (before, after))
    if change.kind == OTHERWISE and (not was or not now):
        yield "    (what it said before is in no commit at hand)"
    elif was and now and was.words == now.words:
        yield from (f"    the words are the same, but a name is taken from elsewhere: {one}" for one in sorted({*was.means} ^ {*now.means}))
    else:
        lines = [part.words.splitlines() if part else [] for part in (was, now)]
        compared = difflib.unified_diff(lines[0], lines[1], n=0, lineterm="")
        yield from (f"    {line[0]} {line[1:]}" for line in [*compared][2:] if not line.startswith("@@"))


def texts_at(commit: str) -> dict[str, str]:
    """The texts that are pinned, as a commit has them; none where there is no such commit."""
    texts = {name.removeprefix("crates/"): text for name, text in repository.texts_at(commit, "crates").items()}
    return stating({name: text for name, text in texts.items() if is_pinned(name)})


# What changed, in a word for whoever relies on it

RENAMED = "was renamed"
KINDS = ("record", "data", "fn", "struct", "enum")
MEANING = {
    ("requires", NEW): "narrower: callers are asked for more",
    ("requires", GONE): "wider: callers are asked for less",
    ("ensures", NEW): "promises more",
    ("ensures", GONE): "promises less",
    ("record", NEW): "narrower: holds of less",
    ("record", GONE): "wider: holds of more",
    ("data", NEW): "wider: has a case more",
    ("data", GONE): "narrower: has a case less",
}


def names_in(key: str) -> tuple[str, ...]:
    """The words by which a message may name a line: its name, a function of a trait also by its type; what a file gives, by the file."""
    file, _, name = key.partition(" ")
    name = name.partition(" #")[0]
    owner, _, last = name.rpartition("::")
    if last in ("exports", ""):
        return (file, owner)
    return (name, f"{owner.partition(' as ')[0]}::{last}" if owner else "")


def shape(key: str, pin: Pin) -> tuple[tuple[str, str], ...]:
    """The parts of a line without its own name."""
    last = names_in(key)[0].rpartition("::")[2]
    return tuple((part.label, part.words.replace(last, "")) for part in pin.parts)


def renamed(found: Iterable[Change], before: Mapping[str, Pin], after: Mapping[str, Pin]) -> dict[str, str]:
    """Of the lines that went away whole, the new key of each that says the same by another name."""
    come = {shape(one.key, after[one.key]): one.key for one in found if one.kind == NEW and not one.label}
    gone = {one.key: shape(one.key, before[one.key]) for one in found if one.kind == GONE and not one.label}
    return {key: come[kept] for key, kept in gone.items() if kept in come}


def meaning(change: Change, after: Mapping[str, Pin], renames: Mapping[str, str]) -> str:
    """What a change means for whoever relies on the line."""
    if not change.label:
        return f"{RENAMED}, to {renames[change.key]}" if change.key in renames else change.kind
    labels = [part.label for part in after[change.key].parts] if change.key in after else []
    word = change.label.split()[0].rstrip("*")
    kind = word if word in ("requires", "ensures") else next((it for it in KINDS if it in labels), "")
    return f"{change.label}: {MEANING.get((kind, change.kind), change.kind)}"


@dataclass(frozen=True)
class Changed:
    """A line that was there and is not as it was."""

    key: str
    meanings: tuple[str, ...]

    @property
    def crate(self) -> str:
        return self.key.partition("/")[0]

    @property
    def is_named(self) -> bool:
        return repository.is_named(*names_in(self.key))

    def __str__(self) -> str:
        return f"{self.key}: {'; '.join(self.meanings)}"


def changed_between(before: Mapping[str, Pin], after: Mapping[str, Pin]) -> list[Changed]:
    """What was there and is not as it was. A line that only moved to another file is as it was, and so is a file that gives its callers more."""
    found = changes({key: parts_of(pin) for key, pin in before.items()}, {key: parts_of(pin) for key, pin in after.items()})
    renames = renamed(found, before, after)
    told: dict[str, list[str]] = {}
    for one in found:
        is_given = one.kind == NEW and one.key.endswith("exports")
        if one.key in before and one.kind != MOVED and not is_given:
            told.setdefault(one.key, []).append(meaning(one, after, renames))
    return [Changed(key, tuple(meanings)) for key, meanings in told.items()]


@cache
def changed_since_base() -> list[Changed]:
    return changed_between(pins_of(texts_at(repository.base())), pins_of(texts_here()))


# Tests, rows and edits

FOLDERS = ("crates", "examples", "clients", "wrong_definitions")
TEST = re.compile(r"#\[test\]\n(?:\s*#.*\n)*\s*(?:pub )?fn (\w+)")
METHOD = re.compile(r"^class (\w+)|^    (?:async )?def (test\w*)", re.M)
MAIN = re.compile(r"^int main\(.*?\n\{\n(.*?)^\}", re.M | re.S)
TABLE = re.compile(r"^( *)(?:pub )?(?:static|const) \w+: [^=]*\[[^=]*= &?\[\n(.*?)^\1\]", re.M | re.S)
LINES = re.compile(r"/(?:stdin|stdout|args)$|^examples/|^clients/cases/\w+\.txt$")
SHOWN = 3


@dataclass(frozen=True)
class Tried:
    """A test, a row or an edit: the name or the text of it, and the words by which a message may name it."""

    kind: str
    text: str
    file: str
    names: tuple[str, ...]


def tried_in(file: str, text: str) -> Iterator[tuple[str, str, tuple[str, ...]]]:
    """The tests, rows and edits of a file: the kind, the name or text, and other names of each."""
    if LINES.search(file):
        yield from (("row", line, ()) for line in text.splitlines() if line.strip() and not line.startswith("#"))
    elif file.endswith(".edit"):
        yield "wrong body", file.removeprefix("crates/"), (file.rpartition("/")[2].removesuffix(".edit"),)
    elif file.startswith("wrong_definitions/"):
        yield from (("wrong definition", turns, (turns,)) for turns in re.findall(r"^turns: (.*)$", text, re.M))
    elif file.endswith((".rt", ".rs")):
        yield from (("test", name, (name,)) for name in TEST.findall(text))
        rows = [row for _, table in TABLE.findall(text) for row in table.split("\n")] if file.startswith("crates/test_") else []
        yield from (("row", row.strip(), ()) for row in rows if re.search(r"\w", row) and not row.strip().startswith("//"))
    elif re.search(r"/tests?[/_]\w*\.py$|/tests/.*\.py$", file):
        owner = ""
        for kind, name in METHOD.findall(text):
            owner = kind or owner
            if name:
                yield "test", f"{owner}.{name}", (f"{owner}.{name}", name, owner)
    elif re.search(r"/tests/\w+\.c$", file) and (main := MAIN.search(text)):
        yield from (("test", f"{file.rpartition('/')[2]} {name}", (name,)) for name in re.findall(r"^    (?!printf|dw_)([a-z]\w+)\(", main[1], re.M))


def tried(texts: Mapping[str, str]) -> list[Tried]:
    def of_file(file: str) -> tuple[str, ...]:
        return (file, file.removeprefix("crates/"), file.rpartition("/")[2] if file.startswith("clients/") else "")

    return [Tried(kind, name, file, (*names, *of_file(file))) for file in sorted(texts) for kind, name, names in tried_in(file, texts[file])]


def gone(old: list[Tried], new: list[Tried]) -> list[Tried]:
    """What is there no more, in whichever file: the last ones of the old, where some of a text are left."""
    left = Counter((it.kind, it.text) for it in old)
    left.subtract((it.kind, it.text) for it in new)
    found = []
    for it in reversed(old):
        if left[it.kind, it.text] > 0:
            left[it.kind, it.text] -= 1
            found.append(it)
    return found[::-1]


def told_gone(found: list[Tried]) -> Iterator[tuple[str, bool, str]]:
    """What is gone: each test and edit, and together the rows of a file and what a file had that is gone itself; whether messages name it, and
    by which word one would."""
    together: dict[tuple[str, str], list[Tried]] = {}
    for it in found:
        if it.kind == "row" or not (repository.TOP / it.file).is_file():
            together.setdefault((it.kind, it.file), []).append(it)
        else:
            yield f"gone: the {it.kind} {it.text}, of {it.file}", repository.is_named(*it.names), it.names[0]
    for (kind, file), its in together.items():
        shown = "; ".join(it.text for it in its[:SHOWN]) + (" .." if its[SHOWN:] else "")
        yield f"gone: {len(its)} of the kind '{kind}' of {file}: {shown}", all(repository.is_named(*it.names) for it in its), file.removeprefix("crates/")


def check_since() -> int:
    """Says what changed since the base, and how much of it no message names."""
    base = repository.base()
    said = repository.git("log", "-1", "--format=%h, %as, %s", base).stdout.strip()
    lines = [(str(one), one.is_named, names_in(one.key)[0]) for one in changed_since_base()]
    lost = list(told_gone(gone(tried(repository.texts_at(base, *FOLDERS)), tried(repository.texts_of(*FOLDERS)))))
    unnamed = [name for _, is_named, name in [*lines, *lost] if not is_named]
    print(f"since the base ({said}) {len(lines)} statements are not as they were, and {len(lost)} tests, edits or files of rows have lost something")
    print(*(f"{text}{'' if is_named else ' NOT NAMED'}" for text, is_named, _ in [*lines, *lost]), sep="\n", end="\n" if lines or lost else "")
    if unnamed:
        print("since: no message of a commit since the base names these: say in one what becomes of each, a list of them will do")
        print(*dict.fromkeys(unnamed), sep="\n")
    print(f"since: {len(unnamed)} not named")
    return int(bool(unnamed))


def compare(old: str, new: str | None = None) -> None:
    """Says what changed between two commits, or from one to the work tree."""
    before, after = pins_of(texts_at(old)), pins_of(texts_at(new) if new else texts_here())
    if not before or not after:
        sys.exit("since: there is no such commit, or it has no crates")
    found = changes({key: parts_of(pin) for key, pin in before.items()}, {key: parts_of(pin) for key, pin in after.items()})
    print(*(line for one in found for line in told(one, words_of(before), words_of(after))), sep="\n")
    print(*changed_between(before, after), sep="\n")
    now = repository.texts_at(new, *FOLDERS) if new else repository.texts_of(*FOLDERS)
    lost = gone(tried(repository.texts_at(old, *FOLDERS)), tried(now))
    print(*(f"gone: the {it.kind} {it.text}, of {it.file}" for it in lost), sep="\n")
    print(counts(found))
