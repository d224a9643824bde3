"""What scripts/interface makes of the descriptions include/interface.toml and include/bench.toml: headers for C, declarations for Rust and Python, words
and advice, and tables of pages. Each function gives the text of a file, or of a part of one between marks; MADE_OF says of which."""

from __future__ import annotations

import textwrap
from collections.abc import Callable, Iterable, Iterator, Mapping
from typing import Any, NamedTuple

INTERFACE, BENCH, VERSION = "include/interface.toml", "include/bench.toml", "VERSION"
HEADER, BENCH_HEADER = "include/dirwolleu.h", "include/dirwolleu_bench.h"
EXCEPTIONS, CODES, GUIDE = "clients/python/dirwolleu/exceptions.py", "docs/CODES.md", "docs/GUIDE.md"
Part = dict[str, Any]
"""A part of the description, or the whole."""
Texts = Mapping[str, str]
"""The text of each file."""


class Unread(Exception):
    """What stands where it is not understood."""


# What a type of the description is in C, Rust and Python.
SPELLED = {
    "result": ("enum dw_result", "i32", "c_int32"),
    "bench_result": ("enum dw_bench_result", "i32", "c_int32"),
    "bench_change_kind": ("enum dw_bench_change_kind", "i32", "c_int32"),
    "i32": ("int32_t", "i32", "c_int32"),
    "u32": ("uint32_t", "u32", "c_uint32"),
    "i64": ("int64_t", "i64", "c_int64"),
    "u64": ("uint64_t", "u64", "c_uint64"),
    "usize": ("size_t", "usize", "c_size_t"),
    "bool": ("bool", "bool", "c_bool"),
    "stat": ("dw_stat", "Stat", "_Stat"),
    "data_stat": ("dw_data_stat", "DataStat", "_DataStat"),
    "output": ("dw_output", "Output", "_Output"),
    "kept_data": ("dw_kept_data", "KeptData", "_KeptData"),
    "kept_names": ("dw_kept_names", "KeptNames", "_KeptNames"),
    "address": ("uint8_t *", "*mut u8", "c_void_p"),
}
# The same of pointers to read or to write bytes at, each of which has a length, and so is two parameters.
POINTERS = {
    "bytes": ("const uint8_t *", "*const u8", "c_void_p"),
    "text": ("const char *", "*const u8", "c_void_p"),
    "room": ("uint8_t *", "*mut u8", "c_void_p"),
    "room_for_text": ("char *", "*mut u8", "c_void_p"),
    "room_for_either": ("void *", "*mut u8", "c_void_p"),
}
# The handles.
HANDLES = ("session", "bench")
ENUMS = {name: spelled[0] for name, spelled in SPELLED.items() if spelled[0].startswith("enum ")}
# A field that is an address is in a struct of its own, as in the source.
ADDRESS = "struct {\n    uint8_t *at;\n  }"
# What crosses where the header has a text or an enum.
CROSSES = {"const char *": "const uint8_t *", "char *": "uint8_t *", "void *": "uint8_t *", **{enum: "int32_t" for enum in ENUMS.values()}}
C, RUST, PYTHON = range(3)
MADE, END = "made by scripts/interface from {}", "end of what is made"
WIDTH = 130
# Where the clients write the structs by hand, with a text for each field.
BY_HAND = {"stat": "Stat", "data_stat": "DataStat"}


class Number(NamedTuple):
    """A number of an enum. Its name is that of C without DW_; in Rust and Python it may have another name, or none."""

    name: str
    number: int
    comment: str
    constant: str
    rust: str
    python: str


def prefix_of(part: Part) -> str:
    return part.get("prefix", f"{part['enum'].upper()}_")


def numbers_in(part: Part) -> list[Number]:
    numbers = []
    for name, given in part["numbers"].items():
        table = given if isinstance(given, dict) else {"number": given}
        camel = "".join(word.capitalize() for word in name.split("_"))
        names = table.get("constant", name), table.get("rust", camel), table.get("python", "")
        numbers.append(Number(f"{prefix_of(part)}{name}", table["number"], table.get("comment", ""), *names))
    return numbers


def fields_in(part: Part) -> Iterator[tuple[str, str, int]]:
    """The fields of a struct: name, type and place."""
    for name, given in part["fields"].items():
        kind, at = (given["type"] if isinstance(given, dict) else given).split(" at ")
        yield name, kind, int(at)


def fields_of_c(part: Part) -> Iterator[tuple[str, list[tuple[str, str, str]]]]:
    """The same as they are in C: of each its name in the description, and the fields that it becomes, which are several in a union: a type, a
    name and a comment."""
    for name, kind, _ in fields_in(part):
        given = part["fields"][name]
        table = given if isinstance(given, dict) else {}
        if "union" in table:
            yield name, [(f"enum dw_{enum}", enum, comment) for enum, comment in table["union"].items()]
        else:
            spelled = ADDRESS if kind == "address" else f"enum dw_{table['enum']}" if "enum" in table else SPELLED[kind][C]
            names = {name: table.get("comment", ""), **table.get("also", {})}
            yield name, [(spelled, called, comment) for called, comment in names.items()]


def spelled_fields(description: Part) -> dict[tuple[str, str], list[tuple[str, str]]]:
    """What C has instead of each field of the source: names and types, of those that are enums or have several names."""
    return {
        (f"dw_{part['struct']}", name): [(called, kind) for kind, called, _ in there]
        for part in parts_with(description, "struct")
        for name, there in fields_of_c(part)
        if len(there) > 1 or there[0][0].startswith("enum ")
    }


def spelled_parameters(part: Part, language: int) -> Iterator[tuple[str, str]]:
    """The parameters of a function in a language: pairs of a type and a name."""
    for name, kind in part["parameters"].items():
        word, _, rest = kind.replace(",", "").partition(" ")
        if word in HANDLES:
            yield (f"dw_{word} *", "*mut Raw", "_HANDLE")[language], name
        elif word in POINTERS:
            yield POINTERS[word][language], name
            yield SPELLED["usize"][language], rest
        elif word == "out":
            yield (f"{SPELLED[rest][C]} *", f"*mut {SPELLED[rest][RUST]}", f"POINTER({SPELLED[rest][PYTHON]})")[language], name
        else:
            yield SPELLED[word][language], name


def texts_in(part: Part, key: str, language: str = "header") -> dict[str, str]:
    """What a part has for people by the names of its numbers, as words or advice: a plain text each, which a language may have otherwise."""
    given = {name: given for name, given in part.get(key, {}).items() if name != "example"}
    texts = {name: given if isinstance(given, str) else given.get(language, given["header"]) for name, given in given.items()}
    others = [name for name in texts if name not in part["numbers"] and name not in ("unknown", "enum")]
    if others or any('"' in text or "\\" in text for text in texts.values()):
        raise Unread(f"{INTERFACE}: {key}: these are of no number, or no plain texts: {others or list(texts)}")
    return texts


def words_in(part: Part, language: str = "header") -> tuple[dict[str, str], str]:
    """The words of the numbers of an enum, in their order, and those of other numbers."""
    words = texts_in(part, "words", language)
    unknown = words.pop("unknown")
    if list(words) != list(part["numbers"]):
        raise Unread(f"{INTERFACE}: the words of {part['enum']} are not one for each number, in their order")
    return words, unknown


def codes_in(description: Part, key: str, language: str) -> dict[int, str]:
    """The same of all errors of servers, by their numbers."""
    parts = [*(part for part in parts_with(description, "enum") if part["enum"] == "code"), description["other_codes"]]
    found: dict[int, str] = {}
    for part in parts:
        texts = texts_in(part, key, language)
        found |= {number_of(part, name): texts[name] for name in part["numbers"] if name in texts}
    return found


def number_of(part: Part, name: str) -> int:
    given = part["numbers"][name]
    return int(given["number"] if isinstance(given, dict) else given)


def named(description: Part, enum: str) -> Part:
    """The part of an enum."""
    (part,) = [part for part in parts_with(description, "enum") if part["enum"] == enum]
    return part


def version_number(text: str) -> int:
    """A version as a number: 1.2.3 is 1002003."""
    parts = text.strip().split(".")
    if len(parts) != 3 or any(not part.isdecimal() or int(part) > 999 for part in parts):
        raise Unread(f"{VERSION}: no version of three numbers: {text.strip()}")
    return sum(int(part) * 1000**power for part, power in zip(parts, (2, 1, 0)))


def grouped(number: int) -> str:
    """A number as Rust and Python write it: 1002003 is 1_002_003."""
    return f"{number:_}" if number >= 10000 else str(number)


def parts_with(description: Part, key: str) -> list[Part]:
    return [part for part in description["part"] if key in part]


def comment_of_c(text: str) -> str:
    lines = text.strip("\n").split("\n")
    return "/* " + "\n".join([lines[0], *(f" * {line}".rstrip() for line in lines[1:])]) + " */\n"


def enum_of_c(part: Part) -> str:
    head = f"enum dw_{part['enum']} DW_AS_INT32 {{"
    numbers = numbers_in(part)
    short = f"{head} " + ", ".join(f"DW_{one.name} = {one.number}" for one in numbers) + " };\n"
    if len(short) <= WIDTH and not any(one.comment for one in numbers):
        return short
    lines = []
    for index, one in enumerate(numbers):
        line = f"  DW_{one.name} = {one.number}{',' if index + 1 < len(numbers) else ''}"
        if one.comment:
            indent = len(line) + 4
            words = textwrap.wrap(one.comment, WIDTH - indent - 3)
            line += " /* " + f"\n{' ' * indent}".join(words) + " */"
        lines.append(line)
    return f"{head}\n" + "\n".join(lines) + "\n};\n"


def struct_of_c(part: Part) -> str:
    lines = []
    for _, there in fields_of_c(part):
        if len(there) > 1:
            lines += ["  union {", *(f"    {kind} {name}; /* {comment} */" for kind, name, comment in there), "  };"]
            continue
        kind, name, comment = there[0]
        begin = f"  {kind} "
        if lines and lines[-1].startswith(begin) and lines[-1].endswith(";") and not comment:
            lines[-1] = f"{lines[-1][:-1]}, {name};"
        else:
            lines.append(f"{begin}{name};" + (f" /* {comment} */" if comment else ""))
    name = f"dw_{part['struct']}"
    return f"typedef struct {name} {{\n" + "\n".join(lines) + f"\n}} {name};\n"


def words_of_c(part: Part) -> str:
    """The function that gives the words of the numbers of an enum. A code may be any number."""
    enum = part["enum"]
    words, unknown = words_in(part)
    kind = "int32_t" if enum == "code" else f"enum dw_{enum}"
    lines = [f"static inline const char *dw_{enum}_words({kind} {enum}) {{", f"  switch ({enum}) {{"]
    lines += [f'  case DW_{prefix_of(part)}{name}: return "{text}";' for name, text in words.items()]
    return "\n".join([*lines, "  }", f'  return "{unknown}";', "}"]) + "\n"


def function_of_c(part: Part) -> str:
    result = SPELLED[part["result"]][C] if "result" in part else "void"
    head = f"{result} dw_{part['function']}("
    words = [f"{kind}{'' if kind.endswith('*') else ' '}{name}" for kind, name in spelled_parameters(part, C)] or ["void"]
    lines = [head]
    for index, word in enumerate(words):
        word += ", " if index + 1 < len(words) else ");"
        if len((lines[-1] + word).rstrip()) > WIDTH:
            lines.append(" " * len(head))
        lines[-1] += word
    return "\n".join(line.rstrip() for line in lines) + "\n"


# A header before its parts and after them, around the comment of its beginning; and what that of the library has more.
HEAD = """#ifndef {guard}
#define {guard}

#include <stdbool.h>
#include <stddef.h>
#include <stdint.h>
{version}
/* An enum is an int32_t in C++ and from C23 on. In C11 a compiler gives it four bytes{is_checked}. */
#if defined __cplusplus || (defined __STDC_VERSION__ && __STDC_VERSION__ >= 202311L)
#define DW_AS_INT32 : int32_t
#else
#define DW_AS_INT32
{check}#endif

#ifdef __cplusplus
extern "C" {{
#endif
"""
FOOT = """
#undef DW_AS_INT32

#ifdef __cplusplus
}
#endif

#endif
"""
VERSION_OF_HEADER = """
/* The version of this header, as a text and as a number, in which 1.2.3 is 1002003. */
#define DW_VERSION "{text}"
#define DW_VERSION_NUMBER {number}
"""
CHECK = """_Static_assert(sizeof(enum { DW_OF_FOUR_BYTES }) == sizeof(int32_t), "dirwolleu.h is not for compilers whose enums are short");
"""


def header_of(description: Part, version: str) -> str:
    told = VERSION_OF_HEADER.format(text=version.strip(), number=version_number(version))
    text = HEAD.format(guard="DIRWOLLEU_H", version=told, is_checked=", which is checked", check=CHECK) + declarations_of_c(description)
    return comment_of_c(description["beginning"]) + text + "\n".join(words_of_c(part) for part in parts_with(description, "words")) + FOOT


def header_of_bench(description: Part, _version: str) -> str:
    head = HEAD.format(guard="DIRWOLLEU_BENCH_H", version="", is_checked="", check="")
    return comment_of_c(description["beginning"]) + head + declarations_of_c(description) + FOOT


def declarations_of_c(description: Part) -> str:
    text, last = "", Part()
    for part in description["part"]:
        is_neighbour = "comment" not in part and last.keys() & part.keys() & {"enum", "function"}
        text += "" if is_neighbour else "\n"
        text += comment_of_c(part["comment"]) if "comment" in part else ""
        for key, make in (("enum", enum_of_c), ("struct", struct_of_c), ("function", function_of_c)):
            text += make(part) if key in part else ""
        last = part
    return text


def declarations_of_rust(description: Part, _version: str) -> str:
    """The structs and functions of `ffi.rs`."""
    lines = []
    for part in parts_with(description, "struct"):
        name = part["struct"]
        if name in BY_HAND:
            continue
        if name == "session":
            lines += ["/// `dw_session`.", "#[repr(C)]", "struct Raw {", "    is_open: bool,", "    slot: Slot,", "}", ""]
            lines += ["#[repr(C)]", "struct Slot {", "    at: *mut u8,", "}", ""]
            continue
        lines += [f"/// `dw_{name}`.", "#[repr(C)]", "#[derive(Default)]", "#[allow(dead_code)]", f"pub(crate) struct {SPELLED[name][RUST]} {{"]
        lines += [f"    pub(crate) {field}: {SPELLED[kind][RUST]}," for field, kind, _ in fields_in(part)] + ["}", ""]
    lines += ["#[rustfmt::skip]", "#[allow(dead_code)]", 'extern "C" {', *functions_of_rust(description, "fn")]
    return "\n".join([*lines, "}"]) + "\n"


def functions_of_rust(description: Part, visible: str) -> Iterator[str]:
    for part in parts_with(description, "function"):
        words = ", ".join(f"{name}: {kind}" for kind, name in spelled_parameters(part, RUST))
        result = f" -> {SPELLED[part['result']][RUST]}" if "result" in part else ""
        yield f"    {visible} dw_{part['function']}({words}){result};"


def constants_of(description: Part) -> list[Number]:
    return [one for part in parts_with(description, "enum") for one in numbers_in(part)]


def bench_of_rust(description: Part, _version: str) -> str:
    lines = ["//! The C interface of the server in memory.", f"// {MADE.format(BENCH)}", "#![allow(dead_code)] // one table for all who take from it", ""]
    lines += [f"pub const {one.constant}: i32 = {one.number};" for one in constants_of(description)]
    lines += ["", "/// `dw_bench`.", "#[repr(C)]", "pub struct Raw {", "    pub is_open: bool,", "    pub at: *mut u8,", "}", ""]
    lines += ["#[rustfmt::skip]", '#[link(name = "dirwolleu_bench", kind = "static")]', 'extern "C" {', *functions_of_rust(description, "pub fn")]
    return "\n".join([*lines, "}"]) + "\n"


# Where a client of Rust has the enums that are made.
DERIVED = "#[derive(Clone, Copy, Debug, PartialEq, Eq, Hash)]"


def numbers_of_rust(description: Part, version: str) -> str:
    """`numbers.rs`: the version; the constants; the enums, with the number of each variant; the codes of servers, and words."""
    lines = [f"//! The numbers of the interface, {MADE.format(INTERFACE)}.", "#![allow(dead_code)] // one table for all who take from it", ""]
    lines += ["use crate::fault::{Code, UnknownNumber};"]
    lines += ["", "/// The version, as a number in which 1.2.3 is 1002003.", f"pub(crate) const VERSION: u32 = {grouped(version_number(version))};"]
    for part in parts_with(description, "enum"):
        lines += constants_of_rust(part)
    enums = [part for part in parts_with(description, "enum") if "rust" in part]
    for part in enums:
        lines += enum_of_rust(part)
    lines += ["", *NUMBERED.splitlines(), "", "numbered! {"]
    lines += [f"    {part['rust']}, \"{part['enum']}\": {', '.join(one.rust for one in numbers_in(part) if one.rust)};" for part in enums] + ["}"]
    lines += ["", "/// The codes of servers.", "impl Code {"]
    for part in (named(description, "code"), description["other_codes"]):
        says = texts_in(part, "says")
        for name in part["numbers"]:
            lines += [f"    /// {says[name]}", f"    pub const {name}: Code = Code({number_of(part, name)});"]
    lines += ["}", "", *texts_of_rust(description, "words", "The reason in words. None where there are none for a number.")]
    lines += ["", *texts_of_rust(description, "advice", "What to do, where the reason does not say it.")]
    return "\n".join(lines) + "\n"


# How the enums come from a number, and give one.
NUMBERED = """\
/// Enums whose variants have the numbers of the header, each with its name there.
#[rustfmt::skip]
macro_rules! numbered {
    ($($name:ident, $what:literal: $($variant:ident),*;)*) => {$(
        /// By its number in the header.
        impl TryFrom<i32> for $name {
            type Error = UnknownNumber;

            fn try_from(number: i32) -> Result<$name, UnknownNumber> {
                let found = [$($name::$variant),*].into_iter().find(|one| *one as i32 == number);
                found.ok_or(UnknownNumber::of($what, number))
            }
        }

        /// Its number in the header.
        impl From<$name> for i32 {
            fn from(one: $name) -> i32 {
                one as i32
            }
        }
    )*};
}
"""


def constants_of_rust(part: Part) -> list[str]:
    """A module with the numbers of an enum that no variant and no `Code` has."""
    lacks = [one for one in numbers_in(part) if "rust" not in part or not one.rust]
    if part["enum"] == "code" or not lacks:
        return []
    constants = [f"    pub(crate) const {one.constant}: i32 = {one.number};" for one in lacks]
    return ["", f"pub(crate) mod {part.get('module', part['enum'])} {{", *constants, "}"]


def enum_of_rust(part: Part) -> Iterator[str]:
    """An enum with its variants and their numbers."""
    name, says = part["rust"], texts_in(part, "says")
    numbers = [(one, words) for one, words in zip(numbers_in(part), part["numbers"]) if one.rust]
    example = part["says"].get("example", "").splitlines()
    shown = ["", "```", *example, "```"] if example else []
    yield from ["", f"/// {says['enum']}", *(f"/// {line}".rstrip() for line in shown), DERIVED, *(["#[non_exhaustive]"] if part.get("is_open") else []), f"pub enum {name} {{"]
    for one, key in numbers:
        yield from [f"    /// {says[key]}", f"    {one.rust} = {one.number},"]
    yield "}"


def texts_of_rust(description: Part, key: str, comment: str) -> Iterator[str]:
    """A module with the texts of all enums that have them in Rust."""
    optional = key == "words"
    result = "Option<&'static str>" if optional else "&'static str"
    found = {"code": codes_in(description, key, "rust")}
    for enum in ("result", "outcome"):
        part = named(description, enum)
        found[enum] = {number_of(part, name): text for name, text in texts_in(part, key, "rust").items() if name != "unknown"}
    yield from [f"/// {comment}", "#[rustfmt::skip]", "#[allow(clippy::match_same_arms)] // a line for each number", f"pub(crate) mod {key} {{"]
    for index, enum in enumerate(("result", "outcome", "code")):
        yield from [""] * bool(index)
        yield from [f"    pub(crate) fn {enum}(number: i32) -> {result} {{", f"        {'Some(' if optional else ''}match number {{"]
        yield from [f'            {number} => "{text}",' for number, text in found[enum].items()]
        yield from [f"            _ => {'return None' if optional else chr(34) * 2},", f"        }}{')' if optional else ''}", "    }"]
    yield "}"


def advice_of_c(description: Part, _version: str) -> str:
    """The advice of the session for C, and its words of codes that the header does not name."""
    lines = []
    for enum, comment in (("result", "about what a function answered"), ("outcome", "where there is no reply")):
        part = named(description, enum)
        advice = texts_in(part, "advice")
        lines += [f"/* What to do {comment}: the empty text where its words say it. */"]
        lines += [f"static const char *dws_advice_of_{enum}(enum dw_{enum} {enum})", "{", f"    switch ({enum}) {{"]
        lines += [f'    case DW_{prefix_of(part)}{name}: return "{advice.get(name, "")}";' for name in part["numbers"]]
        lines += ["    }", f'    return "{advice["unknown"]}";', "}", ""]
    lines += ["/* Why a server refuses a call, by a code that the header does not name. NULL where there are no words either. */"]
    lines += ["static const char *dws_words_of_other_code(int32_t code)", "{", "    switch (code) {"]
    lines += [f'    case {number_of(description["other_codes"], name)}: return "{text}";' for name, text in texts_in(description["other_codes"], "words").items()]
    lines += ["    default: return NULL;", "    }", "}", "", "/* What to do where a server refuses a call. */"]
    lines += ["static const char *dws_advice_of_code(int32_t code)", "{", "    switch (code) {"]
    lines += [f'    case {number}: return "{text}";' for number, text in codes_in(description, "advice", "header").items()]
    return "\n".join([*lines, '    default: return "";', "    }", "}"]) + "\n"


def tables_of_python(description: Part, version: str) -> str:
    """The version, constants, structs and functions of `_library.py`, which holds no client by itself."""
    lines = [f"VERSION = {grouped(version_number(version))}", ""]
    for part in parts_with(description, "enum"):
        lines += [f"{one.constant} = {one.number}" for one in numbers_in(part)] + [""]
    for part in parts_with(description, "struct"):
        name = "_Handle" if part["struct"] == "session" else SPELLED[part["struct"]][PYTHON]
        if name == "_Handle":
            lines += ["", "class _Slot(Structure):", '    _fields_ = [("at", c_void_p)]', ""]
        kinds = {"address": "_Slot"}
        lines += ["", f"class {name}(Structure):", "    _fields_ = ["]
        lines += [f'        ("{field}", {kinds.get(kind, SPELLED[kind][PYTHON])}),' for field, kind, _ in fields_in(part)] + ["    ]", ""]
    return "\n".join([*lines, "", *functions_of_python(description, "session_", "version"), "", *words_of_python(named(description, "result"))]) + "\n"


def bench_of_python(description: Part, _version: str) -> str:
    """The constants and functions of the server in memory. Its handle is like that of a session, and `_library.py` has it."""
    lines = [f"{one.constant} = {one.number}" for one in constants_of(description)]
    return "\n".join([*lines, "", *functions_of_python(description, "")]) + "\n"


def functions_of_python(description: Part, *beginnings: str) -> Iterator[str]:
    """Those whose names begin so."""
    yield from ("_HANDLE = POINTER(_Handle)", "_FUNCTIONS: dict[str, tuple[Any, tuple[Any, ...]]] = {")
    for part in parts_with(description, "function"):
        if not part["function"].startswith(beginnings):
            continue
        words = [kind for kind, _ in spelled_parameters(part, PYTHON)]
        result = SPELLED[part["result"]][PYTHON] if "result" in part else "None"
        short = f'    "dw_{part["function"]}": ({result}, ({", ".join(words)}{"," if len(words) == 1 else ""})),'
        yield from [short] if len(short) <= 120 else [f'    "dw_{part["function"]}": (', f"        {result},", f"        ({', '.join(words)}),", "    ),"]
    yield "}"


def words_of_python(part: Part) -> Iterator[str]:
    """What a function answers where it fails, in words, with what to do."""
    words, advice = words_in(part, "python")[0], texts_in(part, "advice", "python")
    yield "_RESULT_WORDS = {"
    for one, name in zip(numbers_in(part), part["numbers"]):
        if one.number < 0:
            yield f'    {one.constant}: "{words[name]}{"; " + advice[name] if name in advice else ""}",'
    yield "}"


def others_of_python(description: Part, _version: str) -> str:
    """The codes of servers that have no class, with their words and what to do."""
    part = description["other_codes"]
    words, advice = texts_in(part, "words", "python"), texts_in(part, "advice", "python")
    lines = [f'    {number_of(part, name)}: ("{words[name]}", "{advice.get(name, "")}"),' for name in part["numbers"]]
    return "\n".join(["_OTHERS = {", *lines, "}"]) + "\n"


def errors_of_python(description: Part, _version: str) -> str:
    """Why a call has no reply, and the error that says so."""
    part = named(description, "outcome")
    found = [f"    library.{one.constant}: {one.python}," for one in numbers_in(part) if one.python]
    return "\n".join(["_ERRORS: dict[int, type[ZookeeperError]] = {", *found, "}"]) + "\n"


def events_of_python(description: Part, _version: str) -> str:
    part = named(description, "event")
    return "\n".join(["_EVENTS = {", *(f"    library.{one.constant}: EventType.{one.python}," for one in numbers_in(part)), "}"]) + "\n"


def told_in(part: Part) -> list[dict[str, Any]]:
    """The numbers of an enum with what the pages say of each: its name in Rattle, what it means, what to do, and what else is told."""
    page = dict(part["page"])
    others = [page.pop("unknown")] if "unknown" in page else []
    if list(page) != list(part["numbers"]):
        raise Unread(f"{INTERFACE}: the texts for pages of {part['enum']} are not one for each number, in their order")
    told = [{"number": one.number, "rattle": one.rust, "to_do": "", **page[name]} for one, name in zip(numbers_in(part), page)]
    texts = [text for row in told + others for text in row.values() if isinstance(text, str)]
    if any("|" in text or "\n" in text for text in texts):
        raise Unread(f"{INTERFACE}: the texts for pages of {part['enum']} are no cells of a table")
    return told + others


def table_of(head: tuple[str, ...], rows: Iterable[tuple[str, ...]]) -> str:
    """A table of a page, between empty lines, so that no mark is part of it."""
    lines = [" | ".join(cells) for cells in (head, *rows)]
    return "\n".join(["", f"| {lines[0]} |", "|" + "---|" * len(head), *(f"| {line} |" for line in lines[1:]), "", ""])


def outcomes_of_codes(description: Part, _version: str) -> str:
    """K1 to K7 in docs/CODES.md: their names, and the state after them."""
    part = named(description, "outcome")
    rows = []
    for one, row in zip(numbers_in(part), told_in(part)):
        python = (f"`{one.python}`" if one.python else "none") + row.get("python", "")
        rows += [(f"`K{one.number}`", f"`{one.rust}`", f"`DW_{one.name}`", python, row["state"])] if one.number else []
    return table_of(("Code", "Rattle and Rust", "C", "Python", "The state then"), rows)


def outcomes_of_guide(description: Part, _version: str) -> str:
    """What a call is answered in docs/GUIDE.md."""
    told = told_in(named(description, "outcome"))
    rows = [(f"`{row['rattle']}`", f"K{row['number']}" * bool(row["number"]), row["means"], row["to_do"]) for row in told]
    return table_of(("Outcome", "Code", "What it means", "What to do"), rows)


def servers_of_codes(description: Part, _version: str) -> str:
    """The errors of servers in docs/CODES.md."""
    told = told_in(named(description, "code"))
    rows = [(f"`{row['number']}`" if "number" in row else "any other", f"`{row['rattle']}`", row["means"], row["to_do"]) for row in told]
    return table_of(("Code", "Name", "What it means", "What to do"), rows)


# What is made: a file, how a mark of it is written where it is made between its marks alone, and the function that makes it.
MadeOf = tuple[tuple[str, str, Callable[[Part, str], str]], ...]
MADE_OF: MadeOf = (
    (HEADER, "", header_of),
    ("clients/rust/src/numbers.rs", "", numbers_of_rust),
    ("clients/rust/src/ffi.rs", "// {}", declarations_of_rust),
    ("clients/c/src/words.c", "/* {} */", advice_of_c),
    ("clients/python/dirwolleu/_library.py", "# {}", tables_of_python),
    ("clients/python/dirwolleu/_requests.py", "# {}", errors_of_python),
    ("clients/python/dirwolleu/_views.py", "# {}", events_of_python),
    (EXCEPTIONS, "# {}", others_of_python),
    (CODES, "<!-- answers to calls: {} -->", outcomes_of_codes),
    (CODES, "<!-- codes of servers: {} -->", servers_of_codes),
    (GUIDE, "<!-- outcomes: {} -->", outcomes_of_guide),
)
MADE_OF_BENCH: MadeOf = (
    (BENCH_HEADER, "", header_of_bench),
    ("clients/rust/src/testing/ffi.rs", "", bench_of_rust),
    ("clients/python/dirwolleu/testing/_library.py", "# {}", bench_of_python),
)


def made_from(file_of_description: str, made_of: MadeOf, description: Part, texts: Texts) -> Iterator[tuple[str, str]]:
    """Each file that is made, whole or between its marks. The last time that a file comes, all of it is made."""
    so_far: dict[str, str] = {}
    for file, sign, make in made_of:
        lines = make(description, texts[VERSION])
        if sign:
            begin, end = f"{sign.format(MADE.format(file_of_description))}\n", f"{sign.format(END)}\n"
            head, found, rest = so_far.get(file, texts[file]).partition(begin)
            _, closed, tail = rest.partition(end)
            if not found or not closed:
                raise Unread(f"{file}: the marks `{begin.strip()}` and `{end.strip()}` are not there")
            lines = head + begin + lines + end + tail
        so_far[file] = lines
        yield file, lines
