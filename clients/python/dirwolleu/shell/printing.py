"""How commands print names, data and fields, as `zk_shell` does."""

from __future__ import annotations

import json
import re
import unicodedata
from typing import Any, Optional, Union

from dirwolleu.types import DataStat, Stat

HEX_MARK = "hex:"
"""The mark before hex that is printed instead of a text."""

_DIRECTIONS = "\u061c\u200e\u200f\u2028-\u202e\u2066-\u2069"
"""The characters that change the direction of the text after them, or end a line."""
_CONTROL = re.compile(f"[\0-\x1f\x7f-\x9f{_DIRECTIONS}]")
_HIDDEN = re.compile(f"[\0-\x08\x0b-\x1f\x7f-\x9f{_DIRECTIONS}]")
"""The same without a tab and a line's end, which data may have."""
_ESCAPES = {"\t": "\\t", "\r": "\\r", "\n": "\\n", '"': '\\"', "\\": "\\\\"}
_LETTERS = {"c": 4, "d": 8, "r": 1, "w": 2, "a": 16}
"""The letters of permissions, in ZooKeeper's order."""


def json_line(value: Any) -> str:
    return json.dumps(value, ensure_ascii=False, separators=(",", ":"))


def word(text: Union[str, bytes]) -> str:
    """A text or bytes as one word: all bytes but visible ASCII as a backslash, x and two digits."""
    spelled = text.encode(errors="surrogateescape") if isinstance(text, str) else text
    return "".join(chr(byte) if 0x21 <= byte <= 0x7E and byte != 0x5C else f"\\x{byte:02x}" for byte in spelled) or "\\e"


def escaped(spelled: bytes) -> str:
    """Bytes that are no UTF-8, as a refusal has them."""
    return repr(b"\"'" + spelled)[5:-1].replace('"', '\\"')


def _shown(character: str) -> str:
    """A character of a quoted word. One that can't be seen, or joins the one before it, is shown by its number."""
    if character in _ESCAPES:
        return _ESCAPES[character]
    return character if character.isprintable() and not unicodedata.combining(character) else f"\\u{{{ord(character):x}}}"


def quoted(text: str) -> str:
    """A word of the command line in quotes, as a refusal has it."""
    return f'"{"".join(map(_shown, text))}"'


def name_line(name: str) -> str:
    """A name or a path in a line of its own."""
    return word(name) if _CONTROL.search(name) else name


def hex_word(data: Optional[bytes]) -> str:
    return "\\0" if data is None else data.hex() or "\\e"


def _text_of(data: bytes) -> Optional[str]:
    """Data as a text, or None if they are none, or would control a terminal."""
    try:
        text = data.decode()
    except UnicodeDecodeError:
        return None
    return None if _HIDDEN.search(text) else text


def plain_data(data: bytes) -> str:
    """Data as `get` prints them."""
    text = _text_of(data)
    return HEX_MARK + hex_word(data) if text is None or text.startswith(HEX_MARK) else text


def quoted_data(data: Optional[bytes]) -> str:
    """Data in quotes if they are text, and else in hex."""
    text = None if data is None else _text_of(data)
    return hex_word(data) if text is None else json.dumps(text, ensure_ascii=False)


def data_fields(data: Optional[bytes]) -> dict[str, Any]:
    """Data in JSON: a text or null, or hex if they are no UTF-8."""
    try:
        return {"data": None if data is None else data.decode()}
    except UnicodeDecodeError:
        return {"hex": (data or b"").hex()}


def _as_zookeeper_names(name: str) -> str:
    first, *others = name.split("_")
    return first + "".join(other.capitalize() for other in others)


def stat_fields(stat: Union[Stat, DataStat]) -> dict[str, int]:
    """The fields by the names that ZooKeeper gives them."""
    return {_as_zookeeper_names(name): value for name, value in stat._asdict().items()}


def letters_of(perms: int) -> str:
    return "".join(letter for letter, bit in _LETTERS.items() if perms & bit)


def perms_of(letters: str) -> int:
    """The permissions of these letters. Raises `KeyError` for a letter that is none."""
    return sum({_LETTERS[letter] for letter in letters})
