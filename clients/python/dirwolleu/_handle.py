"""A handle of the library, and the look-ups of its kept answers, which any thread may make."""

from __future__ import annotations

import ctypes
import itertools
import struct
import time
from collections.abc import Iterable, Iterator, Sequence
from ctypes import Structure, byref, c_int64, c_size_t, c_uint64
from typing import Any, Callable, NamedTuple, Optional, TypeVar

from dirwolleu import _library as library
from dirwolleu._library import (
    ABSENT,
    CHILDREN_SIDE,
    DATA_SIDE,
    FULL,
    GOOD,
    KNOWN,
    NOTHING,
    NOT_PATH,
    OK,
    STALE,
    WAITS,
    NotWhole,
    checked,
    functions,
    known,
)
from dirwolleu._paths import no_path
from dirwolleu._process import this_process
from dirwolleu._root import Root
from dirwolleu.types import DataStat


class KeptData(NamedTuple):
    """The kept answer for the data of a path."""

    kind: int
    mark: int
    stat: Optional[DataStat]
    data: Optional[bytes]


class KeptNames(NamedTuple):
    """The kept answer for the children of a path. The mark is 0 if there is none."""

    mark: int
    names: tuple[str, ...]
    pzxid: int


class SubtreeNode(NamedTuple):
    """A node of a subtree. The pzxid is the zxid of the last change of the names below it."""

    path: str
    data: Optional[bytes]
    stat: DataStat
    pzxid: int


class Lacking(NamedTuple):
    """A read, with a watch, that is missing before there is a subtree. The side is `DATA_SIDE` or `CHILDREN_SIDE`."""

    path: str
    side: int


class Standing(NamedTuple):
    """Whether a session comes first in a directory, with a token, or after a rival, or neither is shown."""

    token: Optional[int]
    rival: Optional[str]


class KeptAtOnce(NamedTuple):
    """The kept answers for several paths, all good and of one moment: for the nodes, and for the names below the parents."""

    nodes: list[KeptData]
    children: list[KeptNames]


_length_at = struct.Struct(">I").unpack_from


MANY, TURN = 2048, 0.00002
"""After this many texts other threads have the interpreter for this many seconds at least: they would wait for 5 ms else."""
TURN_OF_TEXT = 0.0000001
"""They have it for this many seconds a text, once a step has read many of one length: half as long as the step took."""


def texts_in(spelled: bytes) -> list[str]:
    """The texts that follow one another, each after its length in four bytes."""
    return _texts_of_one_length(spelled) or _texts_in_turns(spelled)


def _texts_of_one_length(spelled: bytes) -> list[str]:
    """The same in a fifth of the time, if there are many, all of ASCII and as long as the first; else none. Other threads have the
    interpreter first: the step that read the texts has kept it from them.
    """
    if len(spelled) < MANY or not spelled.isascii():
        return []
    length = int.from_bytes(spelled[:4], "big")
    time.sleep(len(spelled) // (4 + length) * TURN_OF_TEXT)
    text = spelled.decode()
    texts = text.split(text[:4])[1:]
    return texts if set(map(len, texts)) == {length} else []


def _texts_in_turns(spelled: bytes) -> list[str]:
    """The same, while other threads have turns."""
    each = _each_text_in(spelled)
    texts = list(itertools.islice(each, MANY))
    while more := list(itertools.islice(each, MANY)):
        time.sleep(TURN)
        texts += more
    return texts


def _each_text_in(spelled: bytes) -> Iterator[str]:
    begin, end = 4, len(spelled)
    while begin <= end:
        (length,) = _length_at(spelled, begin - 4)
        yield spelled[begin : begin + length].decode()
        begin += length + 4


def _buffer_at(spelled: bytes, at: int) -> tuple[Optional[bytes], int]:
    """The bytes at this place, after their length in four bytes, and the place after them. None means null."""
    length = int.from_bytes(spelled[at : at + 4], "big", signed=True)
    begin = at + 4
    return (None, begin) if length < 0 else (spelled[begin : begin + length], begin + length)


_FIELDS_OF_A_NODE = struct.Struct(">qqqqiqiq")  # as a Stat has them, from czxid to pzxid


def _nodes_in(spelled: bytes, root: Root) -> Iterator[SubtreeNode]:
    """The nodes that follow one another: path, data, and numbers."""
    at = 0
    while at < len(spelled):
        path, at = _buffer_at(spelled, at)
        data, at = _buffer_at(spelled, at)
        *fields, pzxid = _FIELDS_OF_A_NODE.unpack_from(spelled, at)
        at += _FIELDS_OF_A_NODE.size
        yield SubtreeNode(root.read(path or b""), data, DataStat._make(fields), pzxid)


_FIELDS_OF_A_SHOWN_NODE = struct.Struct(">qqqqiqi")  # the same without the pzxid


def _nodes_shown(spelled: bytes, count: int) -> tuple[list[KeptData], int]:
    """This many nodes of a snapshot, and the place after them: path, kind, data, and numbers."""
    nodes, at = [], 0
    for _ in range(count):
        _path, at = _buffer_at(spelled, at)
        kind = known("kind of what is kept", int.from_bytes(spelled[at : at + 4], "big"), (ABSENT, KNOWN, FULL))
        data, at = _buffer_at(spelled, at + 4)
        stat = DataStat._make(_FIELDS_OF_A_SHOWN_NODE.unpack_from(spelled, at))
        at += _FIELDS_OF_A_SHOWN_NODE.size
        nodes.append(KeptData(kind, GOOD, None if kind == ABSENT else stat, data))
    return nodes, at


def _parents_shown(spelled: bytes, at: int) -> Iterator[KeptNames]:
    """The parents of a snapshot from this place on: path, names, and their zxid."""
    while at < len(spelled):
        _path, at = _buffer_at(spelled, at)
        names, at = _buffer_at(spelled, at)
        pzxid = int.from_bytes(spelled[at : at + 8], "big", signed=True)
        at += 8
        yield KeptNames(GOOD, tuple(texts_in(names or b"")), pzxid)


def _lacking_in(spelled: bytes, root: Root) -> Iterator[Lacking]:
    """The reads that follow one another: path and side."""
    at = 0
    while at < len(spelled):
        path, at = _buffer_at(spelled, at)
        side = int.from_bytes(spelled[at : at + 4], "big")
        at += 4
        yield Lacking(root.read(path or b""), known("side", side, (DATA_SIDE, CHILDREN_SIDE)))


def _joined(texts: Iterable[bytes]) -> bytes:
    """Texts that follow one another, each after its length in four bytes."""
    return b"".join(len(text).to_bytes(4, "big") + text for text in texts)


def _spelled(texts: Iterable[str]) -> bytes:
    """The same for texts that are not encoded yet."""
    return _joined(map(str.encode, texts))


new_bytes = ctypes.pythonapi.PyBytes_FromStringAndSize
"""Makes bytes of this length, after None, which nobody else has yet: the library writes them."""
new_bytes.restype, new_bytes.argtypes = ctypes.py_object, (ctypes.c_void_p, ctypes.c_ssize_t)
_FEW = 512


def filled(call: Callable[..., int], likely: int = 0) -> bytes:
    """The bytes that a call writes into a buffer, whose length it gets, and counts. It probably needs no more than `likely`."""
    count, room = c_size_t(), new_bytes(None, max(likely, _FEW))
    while True:
        checked(call(room, len(room), byref(count)))
        if count.value <= len(room):
            return bytes(room[: count.value])
        room = new_bytes(None, count.value)


Found = TypeVar("Found")
Stamp = TypeVar("Stamp")


def _steady(look: Callable[[], Found], stamp: Callable[[], Stamp]) -> tuple[Found, Stamp]:
    """The result of a look between two equal stamps: no step that counts was made meanwhile."""
    before = stamp()
    while True:
        found, after = look(), stamp()
        if before == after:
            return found, after
        before = after


def _codes_of(kind: type[Structure]) -> Iterator[str]:
    for field in kind._fields_:
        if issubclass(field[1], Structure):
            yield from _codes_of(field[1])
        else:
            yield getattr(field[1], "_type_")


def fields_of(kind: type[Structure]) -> Callable[[Structure], tuple[Any, ...]]:
    """A function that reads all fields of a structure at once, with those of the structures in it in their places."""
    return struct.Struct("@" + "".join(_codes_of(kind))).unpack_from


_fields_of_kept_data = fields_of(library._KeptData)
made = tuple.__new__  # it makes a record of its fields, and is faster than the record's own class
_KINDS_OF_KEPT, _MARKS = frozenset((NOTHING, ABSENT, KNOWN, FULL)), frozenset((0, GOOD, STALE))


class LookUps:
    """The look-ups of a session. All paths that go in and come out are below the root: it is put before them, and taken off."""

    _calls = functions("dw_session_")

    def __init__(self, root: Root) -> None:
        self._handle = library._Handle()
        self._process = this_process()
        self._root = root

    _process: object = None
    """The process in which it was made: none before that."""

    def close(self) -> None:
        """Frees its memory. It ends no session. In a forked child it does nothing."""
        if this_process() == self._process:
            self._calls.free(self._handle)

    def __del__(self) -> None:
        self.close()

    # Look-ups.

    def state(self) -> int:
        return int(self._calls.state(self._handle))

    def last_zxid(self) -> int:
        return self._number(self._calls.last_zxid(self._handle))

    def timeout_ms(self) -> int:
        return self._number(self._calls.timeout_ms(self._handle))

    def deadline(self) -> Optional[int]:
        """The first moment at which something is due, if anything ever is."""
        first = c_uint64()
        code = self._calls.deadline(self._handle, first)
        if code == OK:
            return first.value
        checked(code)
        return None

    def saved(self) -> bytes:
        """The bytes that resume the session."""
        return filled(lambda *room: self._calls.saved(self._handle, *room))

    def peek_data(self, path: str) -> tuple[KeptData, int]:
        """The kept answer for the data of a path, and the last zxid at that moment."""
        return _steady(lambda: self._data_kept(path), self.last_zxid)

    def peek_children(self, path: str) -> tuple[KeptNames, int]:
        """The kept answer for the children of a path, and the last zxid at that moment."""
        names, (side, last_zxid) = _steady(
            lambda: self._names_kept(path), lambda: (self._side_kept(path), self.last_zxid())
        )
        return KeptNames(side[0], names, side[1]), last_zxid

    def subtree(self, path: str, most: int) -> tuple[Optional[list[SubtreeNode]], int]:
        """All nodes at and below a path, each after its parent, and the last zxid at that moment: the servers had just these nodes there at
        that zxid. None if some of it is not kept good: make the reads of `lacking`. Raises `TooManyNodes` if there are more than `most`.
        """
        spelled, last_zxid = _steady(lambda: self._collected(self._calls.subtree, path, most), self.last_zxid)
        return None if spelled is None else list(_nodes_in(spelled, self._root)), last_zxid

    def lacking(self, path: str, most: int) -> list[Lacking]:
        """The reads, with a watch, that are missing before there is a subtree: none exactly if there is one. Raises `NotWhole` if a name
        makes no path, so that no read helps.
        """
        spelled = self._collected(self._calls.lacking, path, most)
        if spelled is None:
            raise NotWhole(f"a name below {path} makes no path")
        return list(_lacking_in(spelled, self._root))

    def snapshot(self, nodes: Sequence[str], parents: Sequence[str]) -> tuple[Optional[KeptAtOnce], int]:
        """The kept answers for nodes and for the names below parents, in their order, and the last zxid at that moment: the servers had all
        of it at that zxid. None if some of it is not kept good: read that again, with a watch.
        """
        found, last_zxid = _steady(lambda: self._kept_at_once(nodes, parents), self.last_zxid)
        if found is None:
            return None, last_zxid
        shown, end = _nodes_shown(found, len(nodes))
        return KeptAtOnce(shown, list(_parents_shown(found, end))), last_zxid

    def _kept_at_once(self, nodes: Sequence[str], parents: Sequence[str]) -> Optional[bytes]:
        first, second = (_joined(map(self._root.spell, paths)) for paths in (nodes, parents))

        def copy(*room: Any) -> int:
            code = self._calls.snapshot(self._handle, first, len(first), second, len(second), *room)
            return self._checked_among(code, nodes, parents)

        try:
            return filled(copy)
        except NotWhole:
            return None

    def standing(
        self, directory: str, name: str, names: Iterable[str], listed: int, markers: Iterable[str]
    ) -> Standing:
        """The standing of the session in a directory by its node of this name, by the names and the zxid of a listing, which needs no
        watch. The first marker is that of its name, the others are those of its rivals.
        """
        spelled, own, room = self._root.spell(directory), name.encode(), new_bytes(None, _FEW)
        listing, kinds, token, count = _spelled(names), _spelled(markers), c_int64(), c_size_t()
        contender = (spelled, len(spelled), own, len(own), listing, len(listing), listed, kinds, len(kinds))
        while True:
            code = self._calls.standing(self._handle, *contender, byref(token), room, len(room), byref(count))
            self._check(code, directory)
            if count.value <= len(room):
                break
            room = new_bytes(None, count.value)
        rival = room[: count.value].decode() if code == WAITS else None
        return Standing(token.value if code == OK else None, rival)

    def holder(self, directory: str, prefix: str, path: str) -> Optional[int]:
        """The token by which the session holds the first place in a directory by its node of this path: of the names there that begin with
        the prefix, which are kept good, that node's is the first in byte order, and the kept answer for the node is good and the node is
        this session's. None if that is not shown.
        """
        spelled, begin, own, token = self._root.spell(directory), prefix.encode(), self._root.spell(path), c_int64()
        place = spelled, len(spelled), begin, len(begin), own, len(own)
        code = self._calls.holder(self._handle, *place, byref(token))
        self._checked_among(code, (directory, path))
        return token.value if code == OK else None

    def held(self, ticket: int) -> Optional[int]:
        """The token, if the session holds by the contender of this ticket, at the last zxid. None if that is not shown."""
        token = c_int64()
        code = self._calls.held(self._handle, ticket, byref(token))
        checked(code)
        return token.value if code == OK else None

    def place(self, ticket: int) -> Optional[str]:
        """The path of the place that this ticket's contender has, if it is known."""
        path = filled(lambda *room: self._calls.place(self._handle, ticket, *room))
        return self._root.read(path) if path else None

    def _number(self, answered: int) -> int:
        checked(answered)
        return int(answered)

    def _data_kept(self, path: str) -> KeptData:
        told, room, spelled = library._KeptData(), new_bytes(None, _FEW), self._root.spell(path)
        while True:
            self._check(self._calls.peek_data(self._handle, spelled, len(spelled), told, room, len(room)), path)
            kind, mark, length, is_null, czxid, mzxid, ctime, mtime, owner, version, data_length = _fields_of_kept_data(told)
            if length <= len(room):
                break
            room = new_bytes(None, length)
        known("kind of what is kept", kind, _KINDS_OF_KEPT)
        known("mark", mark, _MARKS)
        stat = DataStat(czxid, mzxid, ctime, mtime, version, owner, data_length) if kind in (KNOWN, FULL) else None
        return KeptData(kind, mark, stat, room[:length] if kind == FULL and not is_null else None)

    def _side_kept(self, path: str) -> tuple[int, int]:
        kept, spelled = library._KeptNames(), self._root.spell(path)
        self._check(self._calls.peek_children(self._handle, spelled, len(spelled), byref(kept)), path)
        return known("mark", kept.mark, _MARKS), kept.pzxid

    def _names_kept(self, path: str) -> tuple[str, ...]:
        spelled = self._root.spell(path)
        names = filled(lambda *room: self._calls.peek_names(self._handle, spelled, len(spelled), *room))
        return tuple(texts_in(names))

    def _collected(self, collect: Callable[..., int], path: str, most: int) -> Optional[bytes]:
        """The bytes that a function copies about the nodes at and below a path, and None if they are not whole."""
        spelled = self._root.spell(path)
        try:
            return filled(lambda *room: self._checked_at(collect(self._handle, spelled, len(spelled), most, *room), path))
        except NotWhole:
            return None

    def _checked_at(self, code: int, path: str) -> int:
        self._check(code, path)
        return code

    def _checked_among(self, code: int, *paths: Iterable[str]) -> int:
        """The same for a call about these paths: the error names the first that is none."""
        if code == NOT_PATH:
            for path in itertools.chain(*paths):
                self._side_kept(path)
        checked(code)
        return code

    def _check(self, code: int, path: str) -> None:
        """Raises the error of a code below 0, from a call about this path."""
        if code < OK:
            if code == NOT_PATH:
                raise no_path(path, self._root.full(path))
            checked(code)
