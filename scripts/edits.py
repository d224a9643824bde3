"""The edits that have to be refused: wrong bodies, what each turns, where it applies, and the function that it is within; and wrong definitions.
`scripts/wrong_bodies` tries them.

A wrong body is a file in the folder wrong_bodies of its crate, or in must-fail, which the toolchain tries by itself. It has lines:

  turns: what it turns, in words
  function: the function that has to fail, as a check names it below its crate; only where the edit lies in none
  file: src/lib.rt, or another file of the crate
  old: a text that is once in that file, as the pairs before leave it
  new: what is put in its place

Wrong definitions are in the lists of the folder wrong_definitions, four lines each: what it turns, the file below crates/, the old text and the new
one, where \\n is the end of a line.
"""

from __future__ import annotations

import re
import sys
from collections import Counter
from collections.abc import Callable, Iterator
from dataclasses import dataclass
from functools import cache, cached_property
from pathlib import Path

from pins import end_of_angles
from repository import CRATES, TOP, crates_listed, tracked

GATE = TOP / "scripts/gate_bodies.txt"
FOLDERS = ("must-fail", "wrong_bodies")
FIELDS = ("turns: ", "function: ", "file: ", "old: ", "new:")
# the head of a function, and of what may be between functions, each with its indentation
HEAD = re.compile(r"^( *)(?:pub(?:\([\w ]+\))? )?(?:final |const |unsafe |extern \"C\" )*fn (\w+)", re.M)
OTHER = re.compile(r"^( *)(?:#\[|pub(?:\([\w ]+\))? (?!const fn|unsafe|extern|fn)|(?:unsafe )?impl\b|struct |enum |trait |static |const (?!fn)|type |use |mod |ghost |///)", re.M)


@dataclass(frozen=True)
class Function:
    """A function of the code: its name as a check prints it below the crate, and where its text and its body begin and end."""

    name: str
    file: str
    start: int
    body: int
    end: int
    text: str

    @property
    def last(self) -> str:
        return self.name.rpartition("::")[2]

    @property
    def owner(self) -> str:
        """The type or trait whose function it is, or nothing."""
        above = self.name.split("::")[-2:-1]
        return above[0] if above and above[0][0].isupper() else ""

    @property
    def code(self) -> str:
        return self.text[self.body - self.start :]

    def calls(self, other: Function) -> bool:
        """Whether the body calls the other by a name that can only be meant for it; a check's output tells the rest."""
        if other.owner and other.owner != self.owner:
            return False
        by = rf"(?:\bself\.|\bSelf::|\b{other.owner}::)" if other.owner else r"(?<![.\w])"
        return bool(re.search(rf"{by}{other.last}(?:::<[^()]*>)?\(", self.code))


@dataclass(frozen=True)
class Span:
    """A part of a file, and what an edit puts in its place."""

    start: int
    end: int
    new: str


class Edit:
    def __init__(self, crate: str, path: Path) -> None:
        self.crate, self.path, self.name = crate, path, path.stem
        lines = path.read_text(encoding="utf-8").splitlines()
        self.fields = [(word.rstrip(": "), line[len(word) :]) for line in lines for word in FIELDS if line.startswith(word)]
        self.turns = self.fields[0][1].strip() if self.fields[:1] and self.fields[0][0] == "turns" else ""
        self.functions = [rest.strip() for word, rest in self.fields if word == "function"]
        self.files = list(dict.fromkeys(rest.strip() for word, rest in self.fields if word == "file"))

    @property
    def in_gate(self) -> bool:
        return f"{self.crate}/{self.name}" in gate_names()

    def read(self) -> tuple[dict[str, str], str]:
        """The files as the edit leaves them, and why it cannot be applied, if it cannot."""
        texts: dict[str, str] = {}
        file, old, pairs = "", "", 0
        for word, rest in self.fields:
            if word == "file":
                file = rest.strip()
                if not (CRATES / self.crate / file).is_file():
                    return {}, f"there is no crates/{self.crate}/{file}"
                texts.setdefault(file, text_of(self.crate, file))
            elif word == "old":
                old = rest
            elif word == "new":
                count = texts[file].count(old) if file and old else 0
                if count != 1:
                    return {}, f"an old text stands {count} times in crates/{self.crate}/{file}"
                texts[file], old, pairs = texts[file].replace(old, rest.removeprefix(" ")), "", pairs + 1
        if not pairs:
            return {}, "it has no pair of an old and a new text"
        same = [file for file, text in texts.items() if text == text_of(self.crate, file)]
        return texts, f"it leaves {same[0]} as it was" if same else ""

    @property
    def fault(self) -> str:
        """Why the edit cannot be applied, or does not say what it turns; nothing where all is well."""
        return self.read()[1] if self.turns else "its first line does not say what it turns"

    @cached_property
    def spans(self) -> dict[str, Span]:
        """The part of each file that the edit changes."""
        return {file: changed_part(text_of(self.crate, file), text) for file, text in self.read()[0].items()}

    @cached_property
    def within(self) -> Function | None:
        """The function whose body the edit changes, where it changes one body and nothing else."""
        return self.enclosing(lambda it: it.body)

    @cached_property
    def holder(self) -> Function | None:
        """The function whose body or clauses the edit changes, where it changes one function and nothing else."""
        return self.enclosing(lambda it: it.start)

    @property
    def body(self) -> Function:
        """The function whose body it changes, where it does."""
        assert self.within is not None
        return self.within

    def enclosing(self, begin: Callable[[Function], int]) -> Function | None:
        """The innermost function that has all that the edit changes from this place of its own on."""
        if len(self.spans) != 1 or self.functions:
            return None
        file, span = next(iter(self.spans.items()))
        around = [it for it in functions_of(self.crate, file) if begin(it) <= span.start and span.end <= it.end]
        return around[-1] if around else None


def changed_part(old: str, new: str) -> Span:
    """What lies between what two texts begin with and what they end with."""
    most = min(len(old), len(new))
    begin = next((at for at in range(most) if old[at] != new[at]), most)
    behind = next((at for at in range(most - begin) if old[-1 - at] != new[-1 - at]), most - begin)
    return Span(begin, len(old) - behind, new[begin : len(new) - behind])


@cache
def text_of(crate: str, file: str) -> str:
    return (CRATES / crate / file).read_text(encoding="utf-8")


@cache
def gate_names() -> list[str]:
    """The edits that the gate tries, each as CRATE/NAME."""
    lines = GATE.read_text(encoding="utf-8").splitlines() if GATE.is_file() else []
    return [line.strip() for line in lines if line.strip() and not line.startswith("#")]


def edits_of(crate: str) -> list[Edit]:
    """The edits of a crate in the order of their names."""
    paths = [path for folder in FOLDERS for path in (CRATES / crate / folder).glob("*.edit")]
    return [Edit(crate, path) for path in sorted(paths, key=lambda path: path.name)]


@cache
def functions_of(crate: str, file: str) -> list[Function]:
    """The functions of a file of the code, by the layout that `rt fmt` keeps."""
    text = text_of(crate, file)
    if not file.endswith(".rt"):
        return []
    others = [(found.start(), len(found[1])) for found in OTHER.finditer(text)]
    heads = list(HEAD.finditer(text))
    stops = others + [(found.start(), len(found[1])) for found in heads]
    found = []
    for head in heads:
        indent = len(head[1])
        end = min((at for at, depth in stops if at > head.start() and depth <= indent), default=len(text))
        opened = re.compile(rf"^ {{{indent}}}(?:[^ \n].*)?\{{\}}?$", re.M).search(text, head.start(), end)
        owner, of_trait = owner_of(text, head.start(), indent) if indent else ("", False)
        home = module_of(file) if of_trait or not owner else home_of(crate, owner, file)
        name = "::".join([*home, *([owner] if owner else []), head[2]])
        found.append(Function(name, file, head.start(), opened.end() - 1 if opened else end, end, text[head.start() : end]))
    return found


def module_of(file: str) -> list[str]:
    parts = Path(file).with_suffix("").parts[1:]
    return [] if parts in (("lib",), ("main",)) else list(parts)


@cache
def home_of(crate: str, kind: str, file: str) -> list[str]:
    """The module that declares a type, whose methods are named after it wherever they are; else that of the file."""
    declared = re.compile(rf"^(?:pub(?:\([\w ]+\))? )?(?:struct|enum) {kind}\b", re.M)
    files = [str(path.relative_to(CRATES / crate)) for path in sorted((CRATES / crate / "src").rglob("*.rt"))]
    return module_of(next((it for it in [file, *files] if declared.search(text_of(crate, it))), file))


def owner_of(text: str, start: int, indent: int) -> tuple[str, bool]:
    """The name of the impl or trait around a function, as a check spells it, and whether a trait is in it."""
    heads = list(re.finditer(r"^(?:unsafe )?(impl\b|(?:pub(?:\([\w ]+\))? )?trait )([^{]*)", text[:start], re.M))
    if not heads:
        return "", False
    kind, rest = heads[-1][1], re.split(r"\swhere\s", heads[-1][2])[0].strip()
    if kind.endswith("trait "):
        return re.split(r"\W", rest)[0], True
    given, rest = split_generics(rest)
    trait, _, kind_of = rest.rpartition(" for ")
    # (a check gives `drop` the name of a method of the type)
    trait = "" if trait == "Drop" else trait
    return spelled(kind_of, given) + (spelled(trait, given) if trait else ""), bool(trait)


def split_generics(text: str) -> tuple[set[str], str]:
    """The type parameters of an impl, and what stands after them."""
    end = end_of_angles(text) if text.startswith("<") else 0
    return set(re.findall(r"(?:^|, )(\w+)", text[1 : max(1, end - 1)])), text[end:].strip()


def spelled(kind: str, given: set[str]) -> str:
    """A type or trait as a part of a name: what is lent begins with Ref, and the types that it takes follow."""
    kind = re.sub(r"'\w+,? ?|\bmut |\bdyn ", "", kind.strip())
    lent, kind = ("Ref", kind[1:]) if kind.startswith("&") else ("", kind)
    head, _, taken = kind.partition("<")
    last = head.split("::")[-1].strip()
    more = [it for it in re.findall(r"\w+", taken) if it not in given] if last in ("From", "TryFrom") else []
    return lent + "".join(it[:1].upper() + it[1:] for it in [last, *more])


# Wrong definitions

KINDS = ("narrower", "wrong")


class Definition:
    """An edit of a definition: its list, what it turns, where, and how often its old text is there."""

    def __init__(self, kind: str, turns: str, file: str, old: str, new: str) -> None:
        self.kind, self.name, self.old, self.new = kind, turns, old, new
        self.crate, _, self.file = file.partition("/")
        whole = text_of(self.crate, self.file)
        self.count = whole.count(old)
        # a field that is after a line is looked for from its last letter
        self.definition = definition_at(whole, whole.index(old) + len(old) - len(old.lstrip())) if self.count == 1 else ""

    def __str__(self) -> str:
        return f"{self.kind}: {self.name} ({self.definition})"


def definition_at(whole: str, place: int) -> str:
    """The name of the definition in which a place of a file is; a function or a clause of one, in the code."""
    heads = re.finditer(r"^ *(?:(?:abbrev|unfoldable) pub|pub (?:record|data|fn)) ([\w']+)", whole, re.M)
    return [found[1] for found in heads if found.start() <= place][-1]


def definitions_of(kind: str) -> list[Definition]:
    """The edits of a list."""
    text = (TOP / "wrong_definitions" / f"{kind}.txt").read_text(encoding="utf-8")
    rows = re.findall(r"^turns: (.*)\nfile: (.*)\nold: (.*)\nnew: ?(.*)$", text, re.M)
    if len(rows) != text.count("turns: "):
        sys.exit(f"wrong_definitions/{kind}.txt has an edit that is not four lines: turns, file, old, new")
    return [Definition(kind, *(it.replace("\\n", "\n") for it in row)) for row in rows]


def all_definitions() -> list[Definition]:
    return [edit for kind in KINDS for edit in definitions_of(kind)]


# What is wrong with them

PAGE = TOP / "docs/WRONG_BODIES.md"
MOST_IN_GATE = 60
FEWEST_SAMPLES = 10


def all_edits() -> dict[str, list[Edit]]:
    """The edits of each crate, in the order of crates.txt and then of their names."""
    return {crate: edits_of(crate) for crate in crates_listed()}


def edits_elsewhere(found: dict[str, list[Edit]]) -> list[str]:
    """The files of the repository that are named as edits are, and that are in no folder of edits."""
    there = {str(edit.path.relative_to(TOP)) for of_one in found.values() for edit in of_one}
    return [name for name in tracked() if name.endswith(".edit") and name not in there]


def faults_of_page(there: set[str]) -> Iterator[str]:
    """What docs/WRONG_BODIES.md says that is not so."""
    named = re.findall(r"`(\w+/\w+)\.edit`", PAGE.read_text(encoding="utf-8"))
    if len(named) < FEWEST_SAMPLES:
        yield f"docs/WRONG_BODIES.md names {len(named)} edits, where {FEWEST_SAMPLES} are the fewest"
    yield from (f"docs/WRONG_BODIES.md names {name}, which is not there" for name in named if name not in there)


def faults() -> Iterator[str]:
    """What is wrong with the edits, the list of the gate, and the page."""
    found = all_edits()
    every = [edit for of_one in found.values() for edit in of_one]
    yield from (f"{edit.path.relative_to(TOP)}: {edit.fault}" for edit in every if edit.fault)
    names = Counter((edit.crate, edit.path.name) for edit in every)
    yield from (f"{crate} has two edits {name}" for (crate, name), count in names.items() if count > 1)
    yield from (f"{name}: an edit is in {' or '.join(FOLDERS)} of a crate of crates.txt" for name in edits_elsewhere(found))
    gate, there = Counter(gate_names()), {f"{edit.crate}/{edit.name}" for edit in every}
    yield from (f"scripts/gate_bodies.txt names {name}, which is not there" for name in gate if name not in there)
    yield from (f"scripts/gate_bodies.txt names {name} twice" for name, count in gate.items() if count > 1)
    if gate.total() > MOST_IN_GATE:
        yield f"the gate has {gate.total()} edits, where {MOST_IN_GATE} are the most"
    yield from faults_of_page(there)
    yield from (f"{it.name}: its old text stands {it.count} times in {it.crate}/{it.file}" for it in all_definitions() if it.count != 1)
