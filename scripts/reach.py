"""What contracts reach: the definitions of specs/, with the types, constants and ghost views of the code, read from the texts of crates/; and what of
them a reader of the statements has to believe, which docs/DEFINITIONS.md counts.

A definition is reached where a clause, a ghost field, a view or an invariant of a public function or type names it, or a definition that is
reached does. A function is public where callers outside of its crate can name it. What the imports of a file take a name for, and what binds it
nearer, is gone by.

What is believed are the definitions of specs/ of the crates of the library and of its theory, by their headings in crates.txt, except
specs/inner/, which has what only contracts of private functions say; and types and constants of the code where they are declared. Lines are counted
without comments, imports and blank ones. The client is zk_client with the crates below it that have nothing but laws and are no theory_.
"""

from __future__ import annotations

import re
from collections import Counter
from collections.abc import Iterable, Iterator
from dataclasses import dataclass, field
from functools import cache
from typing import Union

from pins import Part, Pin, lines_of_specs, pins_of, texts_here
from pins import definitions as definitions_in
from repository import CRATES, TOP, crates_below, crates_listed, static_libraries

Key = tuple[str, str]
"""The module of a definition and its name; of a type or a constant of the code its file and its name."""
Group = list[Union[str, "Group"]]
"""Tokens, with what is in brackets as a group that begins with its bracket."""

TOKEN = re.compile(r"[^\W\d][\w']*(?:\.\w+)*|\.\w+(?:\.\w+)*|\d+|[(){}\[\];]|[^\s\w(){}\[\];]+")
IMPORT = re.compile(r"^(?:pub |ghost )*use (?:Rattle\.)?([\w.]+?)(?:\.{([^}]*)}| as (\w+))?;?$", re.M)
DECLARED = re.compile(r"^(?:pub(?:\(crate\))? )?(?:enum|struct|const|type) (\w+)\b(?:[^{;\n]*{.*?^}|[^;]*;)", re.M | re.S)
MODEL = re.compile(r"^impl.*? Model for (\w+).*? {\n(.*?)^}", re.M | re.S)
VIEW = re.compile(r"^    ghost view = {(.*?)};$", re.M | re.S)


@dataclass
class Scope:
    """The names that imports bring, each with what it means, and the modules that they name."""

    names: dict[str, Key] = field(default_factory=dict)
    modules: dict[str, str] = field(default_factory=dict)


@dataclass
class Definition:
    """The lines of a definition, with what is around it; of a type or constant of the code the words of other types; or a ghost view."""

    file: str
    lines: list[str]
    scope: Scope = field(default_factory=Scope)
    kind: str = ""
    indent: int = 0
    block: list[Key] = field(default_factory=list)
    words: list[Key] = field(default_factory=list)
    view: str = ""

    @property
    def crate(self) -> str:
        return self.file.split("/")[0]

    @property
    def is_of_specs(self) -> bool:
        return self.file.endswith(".antt")

    @property
    def head(self) -> int:
        """How many lines are its head: of a type one, and of a function, whose first line is its type, none."""
        return 1 if self.kind else 0

    def whole_lines(self) -> list[str]:
        """Its lines. One that stands further in goes on with the one before it."""
        if not self.is_of_specs:
            return self.lines
        whole = self.lines[: self.head]
        for line in self.lines[self.head :]:
            is_deeper = line[self.indent + 2 * self.head] == " " or line.strip() in ("}", "]", "])")
            goes_on = len(whole) > self.head and is_deeper
            whole[-1:] = [f"{whole[-1]} {line}"] if goes_on else whole[-1:] + [line]
        return whole


definitions: dict[Key, Definition] = {}
constructors: dict[Key, Key] = {}
scopes: dict[str, Scope] = {}
sources: dict[Key, Key] = {}
"""The types and constants of the code, by crate and name."""


# The texts


def scope_of(text: str) -> Scope:
    scope = Scope()
    for path, names, alias in IMPORT.findall(text):
        for one in re.findall(r"[^,]+", names):
            old, _, new = one.strip().partition(" as ")
            scope.names[new or old] = (path, old)
        scope.modules[alias or path.split(".")[-1]] = path
    return scope


def read_specs(file: str, text: str) -> None:
    """Takes in the definitions of a file of specs/, each with its lines, of which a head of a type is one, and with the block that it is in."""
    module = file.removesuffix(".antt").replace("/", ".")
    scope = scopes[module] = scope_of(text)
    for one in definitions_in(lines_of_specs(text)):
        block = [(module, line) for line in one.around]
        definitions.update({key: Definition(file, [key[1]], scope, "module") for key in block})
        if one.how:
            end = one.end if one.kind else 1
            lines = [" ".join([one.lines[0], *map(str.strip, one.lines[1:end])]), *one.lines[end:]]
            definitions[module, one.name] = Definition(file, lines, scope, one.kind, one.indent, block)
            scope.names[one.name] = (module, one.name)
        for line in one.lines if one.kind == "data" else ():
            shared = re.match(r" +(\S+(?: \S+)*?) : ", line)
            for constructor in shared[1].split() if shared else []:
                constructors[module, constructor], scope.names[constructor] = (module, one.name), (module, constructor)


def read_source(file: str, text: str) -> None:
    """Takes in the types and the constants that a source declares, each with the words that may be types of its own crate or another; and
    the ghost view of a type, which its crate's own contracts and those above see of it."""
    crates = [file.split("/")[0], *re.findall(r"^use (\w+)::", text, re.M)]
    for found in DECLARED.finditer(text):
        lines = [line for line in found[0].splitlines() if line.strip() and not line.strip().startswith(("//", "#[", "ghost "))]
        words = re.findall(r"[A-Z]\w+", " ".join(re.sub(r"^\s*\w+(?=[({,])|.*?[:=]", "", line) for line in lines[1:] or lines))
        sources[crates[0], found[1]] = (file, found[1])
        definitions[file, found[1]] = Definition(file, lines, words=[(crate, word) for crate in crates for word in words])
    imports = scope_of(re.sub(r"^ +(?=ghost use )", "", text, flags=re.M))
    for name, block in MODEL.findall(text):
        for view in VIEW.finditer(block):
            definitions[file, f"{name}::view"] = Definition(file, view[0].splitlines(), imports, view=view[1])


@cache
def read_all() -> None:
    """Takes in the definitions and types of all crates."""
    for path in [*CRATES.glob("*/specs/**/*.antt"), *CRATES.glob("*/src/**/*.rt")]:
        read = read_specs if path.suffix == ".antt" else read_source
        read(str(path.relative_to(CRATES)), path.read_text(encoding="utf-8"))


# What a definition names


def resolve(scope: Scope, word: str) -> tuple[Key | None, bool]:
    """The definition that a word means, or None where it is none of ours; and whether it is a constructor."""
    first, *rest = word.split(".")
    key = (scope.modules[first], rest[0]) if rest and first in scope.modules else scope.names.get(first)
    while key and key[0] in scopes and key not in definitions and key not in constructors and key[1] in scopes[key[0]].names:
        key = scopes[key[0]].names[key[1]]
    if key and (declared := re.match(r"(\w+)\.specs\.declared\.\w+\.(\w+)(.*)", key[0])):
        name = key[1] if declared[2] == "TheConstants" else declared[2]
        return sources.get((declared[1], name)), declared[3] == ".TheVariants"
    if key in constructors:
        return constructors[key], True
    return (key if key in definitions else None), False


def group_of(tokens: str | Iterator[str]) -> Group:
    group: Group = []
    tokens = iter(TOKEN.findall(tokens)) if isinstance(tokens, str) else tokens
    for token in tokens:
        if token in ")}]":
            break
        group.append([token, *group_of(tokens)] if token in "({[" else token)
    return group


def split(items: Group, separator: str) -> list[Group]:
    ends = [-1, *(end for end, item in enumerate(items) if item == separator), len(items)]
    return [items[one + 1 : other] for one, other in zip(ends, ends[1:])]


def bound_by(items: Group, scope: Scope, found: set[Key]) -> set[str]:
    """The names that a pattern binds; a constructor names its type."""
    bound: set[str] = set()
    for item in items:
        if isinstance(item, list):
            bound |= bound_by(item[1:], scope, found)
            continue
        key, is_constructor = resolve(scope, item)
        if is_constructor and key:
            found.add(key)
        bound |= set() if is_constructor else {item}
    return bound


def words_of(items: Group) -> set[str]:
    return {item for item in items if isinstance(item, str)}


def follow(items: Group, outer: set[str], scope: Scope, found: set[Key]) -> set[str]:
    """Adds what the items name, except what is bound: from where it is bound up to the end of its brackets. Gives what is bound there."""
    bound = set(outer)
    for index, item in enumerate(items):
        before, behind = ([";", *items])[index], ([*items, ""])[index + 1]
        if item == "λ":
            bound |= words_of(items[index + 1 : items.index(".", index)])
        elif isinstance(item, list) and item[0] in ("(", "{") and ":" in item:
            follow(item[item.index(":") + 1 :], bound, scope, found)
            bound |= words_of(item[1 : item.index(":")])
        elif isinstance(item, list):
            for *left, right in (split(branch, "↦") for branch in split(item[1:], "|")):
                follow(right, bound | bound_by(sum(left, []), scope, found), scope, found)
        elif item == ";":
            bound = set(outer)
        elif item == "let" or behind == "←":
            bound |= words_of([behind if item == "let" else item])
        elif (before, behind) != (";", "=") and item.split(".")[0] not in bound:
            meant = (resolve(scope, name)[0] for name in (item, "◌>>=◌" if item == "do" else f"◌{item}◌"))
            found |= {key for key in meant if key}
    return bound


def named_by_type(one: Definition) -> set[Key]:
    """The types that a type of the code has, each with its ghost view."""
    types = {sources[pair] for pair in one.words if pair in sources}
    return types | {(file, f"{name}::view") for file, name in types} & definitions.keys()


def named_by_lines(one: Definition) -> set[Key]:
    """What a definition of specs/ names in its head and in each of its lines."""
    found, bound = set(one.block), set[str]()
    for line in [line for _, line in one.block] + one.lines[: one.head]:
        bound = follow(group_of(line), bound, one.scope, found)
    for clause in map(group_of, one.whole_lines()[one.head :]):
        left = split(clause, "=")[0]
        if left != clause:
            follow(clause[len(left) + 1 :], bound | bound_by(left, one.scope, found), one.scope, found)
        else:
            colon = clause.index(":")
            follow(clause[colon + 1 :], bound, one.scope, found)
            bound |= words_of(clause[colon - 1 : colon]) if one.kind == "record" else set()
    return found


@cache
def named_in(key: Key) -> frozenset[Key]:
    """What a definition names; where its lines cannot be read so (a `deriving` line, say), each word of it counts."""
    one, found = definitions[key], set[Key]()
    if one.view:
        follow(group_of(one.view), set(), one.scope, found)
        return frozenset(found)
    if not one.is_of_specs:
        return frozenset(named_by_type(one))
    try:
        return frozenset(named_by_lines(one))
    except ValueError:
        meant = (resolve(one.scope, word)[0] for word in TOKEN.findall(" ".join(one.lines)))
        return frozenset(key for key in meant if key)


# What callers can name


@cache
def public_files(crate: str) -> frozenset[str]:
    """The sources whose items callers outside can name by their module."""
    root = next((f"src/{name}.rt" for name in ("lib", "main") if (CRATES / crate / f"src/{name}.rt").is_file()), "")
    found, rest = set[str](), [root] if root else []
    while rest:
        file = rest.pop()
        found.add(file)
        folder = "src" if file == root else file.removesuffix(".rt")
        text = (CRATES / crate / file).read_text(encoding="utf-8")
        names = [f"{folder}/{module}.rt" for module in re.findall(r"^pub mod (\w+);", text, re.M)]
        rest += [name for name in names if (CRATES / crate / name).is_file()]
    return frozenset(found)


@cache
def exported(crate: str) -> frozenset[str]:
    """The names that a public file passes on."""
    texts = [(CRATES / crate / file).read_text(encoding="utf-8") for file in public_files(crate)]
    uses = [used for text in texts for used in re.findall(r"^\s*pub use ([^;]*);", text, re.M)]
    return frozenset(name for used in uses for name in re.findall(r"\w+", used))


def is_public(file: str, name: str) -> bool:
    crate, _, rest = file.partition("/")
    return crate in static_libraries() or rest in public_files(crate) or bool({*re.findall(r"\w+", name)} & exported(crate))


@cache
def public_pins() -> tuple[Pin, ...]:
    """What each crate states to callers outside."""
    texts = {file: text for file, text in texts_here().items() if file.endswith(".rt")}
    return tuple(pin for pin in pins_of(texts).values() if is_public(pin.file, pin.name))


def is_law(pin: Pin) -> bool:
    """Whether it is a function that takes nothing and gives nothing: what it ensures is a law."""
    return bool(pin.parts) and pin.parts[0].label == "fn" and pin.parts[0].words.endswith("()")


# The crates


@cache
def crates_by_heading() -> dict[str, str]:
    """Each crate with its heading in crates.txt, up to the colon or the full stop of that."""
    heading, found = "", {}
    for line in (TOP / "crates.txt").read_text(encoding="utf-8").splitlines():
        if line.startswith("# "):
            heading = re.split("[:.]", line[2:])[0]
        elif line.strip():
            found[line.split(":")[0].split()[0]] = heading
    return found


@cache
def has_laws_alone(crate: str) -> bool:
    """Whether each public function of a crate is a law."""
    functions = [pin for pin in public_pins() if pin.crate == crate and pin.parts[0].label == "fn"]
    return bool(functions) and all(map(is_law, functions))


# What contracts reach


def scope_of_part(part: Part) -> Scope:
    scope = Scope()
    for one in part.means:
        if found := re.fullmatch(r"(.+?)=Rattle\.(.*)", one):
            path, _, last = found[2].rpartition(".")
            scope.names[found[1]], scope.modules[found[1]] = (path, last), found[2]
    return scope


def named_by_part(crate: str, part: Part) -> set[Key]:
    """What a clause or a ghost item names; of a signature or a type, the types in it, of its own crate or one that this is built on."""
    if "ghost" not in part.label and not part.label.startswith(("ensures", "requires")):
        words = {*re.findall(r"\b[A-Z]\w+", part.words)}
        own = {word for word in words if (crate, word) in sources}
        others = {(lower, word) for lower in crates_listed()[crate] for word in words - own}
        return {sources[pair] for pair in others | {(crate, word) for word in own} if pair in sources}
    found: set[Key] = set()
    for inner in re.findall(r"\{(.*)\}", part.words, re.S) or [part.words]:
        # a ghost member of a trait has its type, and after it what it is where an impl does not say
        for one in re.split(r"\} = \{", inner):
            follow(group_of(one), set(), scope_of_part(part), found)
    return found


def reached_from(pins: Iterable[Pin]) -> set[Key]:
    """All that these contracts and types reach."""
    read_all()
    found, rest = set[Key](), {key for pin in pins for part in pin.parts for key in named_by_part(pin.crate, part)}
    while rest:
        found |= rest
        rest = set[Key]().union(*map(named_in, rest)) - found
    return found


def lines_of(keys: Iterable[Key]) -> Counter[str]:
    """How many lines these definitions have in each file, without comments, imports and blank lines, one that is broken as one."""
    return Counter(definitions[key].file for key in keys for _ in definitions[key].whole_lines())


# What is believed, and its page

CLIENT, THEORY = "zk_client", "theory_"
# The headings of the crates whose contracts are believed, and the section of the page that has what a value of Rust is taken for.
LIBRARY, VALUES = ("The library", "Its theory"), 16
EVERYTHING = (*LIBRARY, "The workshop", "The workshop's theory")
ROW = re.compile(r"^\| (\d+) \| (.*) \|$", re.M)
COUNT = re.compile(r"`(\w+(?:/(?:specs|src)/\w+\.(?:antt|rt))?)`:([\d+]+)")
LEMMAS = re.compile(r"laws of (.*?) are lemmas that callers can cite")
TOTALS = re.compile(r"^[\d,]+ lines are of the client, .*", re.M)
PAGE = TOP / "docs/DEFINITIONS.md"


def believed() -> tuple[set[Key], set[Key], set[Key]]:
    """What the client names, what that is with the crates theory_, and what it is with the rest of the library."""
    pins = [pin for pin in public_pins() if crates_by_heading()[pin.crate] in LIBRARY]
    laws = {crate for crate in crates_below()[CLIENT] if has_laws_alone(crate) and not crate.startswith(THEORY)}
    client = [pin for pin in pins if pin.crate in {CLIENT, *laws}]
    return reached_from(client), reached_from([*client, *(pin for pin in pins if pin.crate.startswith(THEORY))]), reached_from(pins)


def wrong_places(library: set[Key]) -> Iterator[str]:
    """The definitions of specs/ that nobody has to believe there, and those of specs/inner/ that somebody has to."""
    everything = reached_from(pin for pin in public_pins() if crates_by_heading().get(pin.crate) in EVERYTHING)
    for key, one in sorted(definitions.items(), key=lambda it: (it[1].file, it[0][1])):
        if not one.is_of_specs or one.kind == "module":
            continue
        is_of_library = crates_by_heading().get(one.crate, "") in LIBRARY
        is_reached = key in (library if is_of_library else everything)
        if "/specs/inner/" in one.file and key in everything:
            yield f"crates/{one.file}: {key[1]}: a contract of a public function reaches it, so it belongs in specs/"
        elif "/specs/inner/" not in one.file and not is_reached:
            whose = "of the library" if is_of_library else "of a public function"
            yield f"crates/{one.file}: {key[1]}: no contract {whose} reaches it, so it belongs in specs/inner/, or in proofs/"


def added(lines: list[Counter[str]]) -> list[Counter[str]]:
    """What each of the three has more than the one before it, by file."""
    return [one - before for one, before in zip(lines, [Counter[str](), *lines])]


def by_file(lines: list[Counter[str]]) -> dict[str, str]:
    """The lines of the client in each file, with those that the crates theory_ add."""
    client, theory, _ = added(lines)
    return {file: f"{client[file]}+{theory[file]}".removesuffix("+0") for file in client | theory}


def by_crate(lines: list[Counter[str]]) -> dict[str, str]:
    """The lines that the rest of the library adds in each crate."""
    found = Counter[str]()
    for file, count in added(lines)[-1].items():
        found[file.split("/")[0]] += count
    return {crate: str(count) for crate, count in found.items()}


def totals(lines: list[Counter[str]], page: str) -> str:
    """The sentence of the page that has the totals."""
    client, theory, library = (one.total() for one in lines)
    of_values = {place for section, row in ROW.findall(page) if int(section) == VALUES for place, _ in COUNT.findall(row)}
    values = sum(count for file, count in lines[0].items() if file in of_values)
    code = sum(count for file, count in lines[-1].items() if "/src/" in file)
    return (
        f"{client:,} lines are of the client, {values:,} of these in section {VALUES}; {theory:,} with those that the crates theory_ add; "
        f"and {library:,} with those of the rest of the library, {code:,} of them types and constants, where the code declares them."
    )


def wrong_in_page(lines: list[Counter[str]]) -> Iterator[str]:
    """What docs/DEFINITIONS.md is to say and does not."""
    page = PAGE.read_text(encoding="utf-8")
    there = by_file(lines) | by_crate(lines)
    said = dict(COUNT.findall(page))
    yield from (f"`{place}`:{there.get(place, 'none')}" for place in sorted({*said, *there}) if said.get(place) != there.get(place))
    if (total := totals(lines, page)) not in page:
        yield total
    named = LEMMAS.search(page)
    if {*re.findall(r"`(\w+)`", named[1] if named else "")} != (lemmas := crates_of_lemmas()):
        yield f"laws of {' and '.join(f'`{crate}`' for crate in sorted(lemmas))} are lemmas that callers can cite"


def write_page() -> None:
    """Writes the numbers into the page. What it lacks or has too much of, the check says then."""
    lines = [lines_of(keys) for keys in believed()]
    there = by_file(lines) | by_crate(lines)
    page = COUNT.sub(lambda found: f"`{found[1]}`:{there.get(found[1], found[2])}", PAGE.read_text(encoding="utf-8"))
    PAGE.write_text(TOTALS.sub(totals(lines, page), page), encoding="utf-8")


def wrong() -> Iterator[str]:
    """What the page is to say, and the definitions that are in the wrong place."""
    kinds = believed()
    if said := [*wrong_in_page([lines_of(keys) for keys in kinds])]:
        yield "\n".join(["docs/DEFINITIONS.md is to say:", *said])
    yield from wrong_places(kinds[-1])


def crates_of_lemmas() -> set[str]:
    """The crates that name what is in proofs/ of ours, in clauses of public functions or in specs/."""
    texts = [(path.relative_to(CRATES).parts[0], path.read_text(encoding="utf-8")) for path in CRATES.glob("*/specs/**/*.antt")]
    texts += [(pin.crate, f"use {one.partition('=')[2]}") for pin in public_pins() for part in pin.parts for one in part.means]
    named = [(crate, proofs) for crate, text in texts for proofs in re.findall(r"\buse Rattle\.(\w+)\.proofs\.", text)]
    return {crate for crate, proofs in named if (CRATES / proofs).is_dir()}
