"""`Session`, the session of the library: it says which server to dial and when, makes calls wait for a connection, keeps the subjects that
are followed good, and begins another session after an expiry.

It opens no socket and reads no clock: each step gets the moment, in milliseconds of a clock that does not go back, and returns the actions.
One thread makes all steps, and any thread may look up the kept answers. A ticket is the caller's number of a call or a subject, and is
never used twice.
"""

from __future__ import annotations

import enum
import functools
import operator
import struct
from collections.abc import Sequence
from ctypes import byref, c_char, c_size_t, c_uint64, create_string_buffer
from typing import Any, Callable, NamedTuple, Optional, Union

from dirwolleu import _library as library
from dirwolleu._handle import LookUps, fields_of, filled, made, new_bytes, texts_in
from dirwolleu._library import Answer, Drop, Halted, NoMemory, Report, Send, StateChange, checked, known
from dirwolleu._root import Root
from dirwolleu.exceptions import TooLargeError
from dirwolleu.types import Stat

NO_LIMIT = 2**64 - 1
"""The limit of a call that has none."""
LONGEST_ANSWER, LONGEST_REQUEST = 4_194_304, 1_048_575
"""The most bytes of a frame that comes and of one that is sent, each after its length, if a program sets no other."""
MOST_AT_ONCE = 98_304
"""How many bytes of a step's outputs are taken together, at most. Longer ones are taken one output after the other, and copied once."""
LONG = 65_536
"""An output of this many bytes is copied once, if as many have come for it."""
KEPT = 2_097_152
"""Twice as many bytes stay with the process once long answers are freed."""
_REFUSALS = frozenset(range(library.READ_CODE, library.MIXED_NAMES + 1))
_EVENTS = frozenset((library.NODE_CREATED, library.NODE_DELETED, library.DATA_CHANGED, library.CHILDREN_CHANGED))
_SIDES = frozenset((library.DATA_SIDE, library.CHILDREN_SIDE))
_STATES = frozenset((library.IDLE, library.CONNECTING, library.CONNECTED, library.EXPIRED, library.SESSION_CLOSED))
_OUTCOMES = frozenset(range(library.REPLIED, library.TOO_MANY_PENDING + 1))
_RESULTS = frozenset(range(library.CODE, library.RAW + 1))
_output = struct.Struct(">iiiiQqQQ??qqqqiiiqiiqi")  # an output: its fields, its Stat, and how many bytes follow
_output_at, _SIZE_OF_OUTPUT = _output.unpack_from, _output.size
_fields_of_output = fields_of(library._Output)
_LENGTH, _HEAD, _END_OF_STAT = 6, 10, 21  # of these: the place of the text's length, and where the Stat begins and ends
_as_the_protocol_has_it = operator.itemgetter(*range(14), 16, 17, 18, 14, 19, 20, 15)
"""The fields of an output with those of the Stat in the order of the protocol."""
_OK, _SEND, _ANSWER, _START = library.OK, library.SEND, library.ANSWER, c_size_t(0)


class Dial(NamedTuple):
    """Connect to the address at this place of the list, from 0 on. After this many milliseconds the attempt will be given up."""

    place: int
    within_ms: int


class PlainAction(enum.Enum):
    """An action without fields."""

    HANG_UP = enum.auto()
    """Close the connection, or give up the attempt. Bytes that were not written are dropped."""

    RENEWED = enum.auto()
    """The session has expired, and another one begins."""


class TimedOut(NamedTuple):
    """The limit of a call has come, and it waits no longer. If it was sent, it may have happened, or may yet."""

    ticket: int
    was_sent: bool


class Shown(NamedTuple):
    """The kept answer of a subject is good. It was not, or its path was reported since, or servers had an election."""

    ticket: int


class Refused(NamedTuple):
    """A read of a subject was refused. It is made again after a second, or, if its answer is too long, once more after a minute. The code
    is the server's, if the server has refused it.
    """

    ticket: int
    refusal: int
    code: int


class MemberAdded(NamedTuple):
    """A side of a node is followed for a tree, by a ticket: that of the tree, or one from 2^63 on."""

    tree: int
    ticket: int
    side: int
    path: str


class MemberRemoved(NamedTuple):
    """A tree no longer follows this ticket's side of a node: there is no such node, or nobody follows the tree any more."""

    tree: int
    ticket: int


class TreeBounded(NamedTuple):
    """A tree has come to have more nodes than its bound, or no longer has. While it has, no more of it is followed."""

    tree: int
    is_bounded: bool


class TreeComplete(NamedTuple):
    """A tree is complete again, and may have changed since the last report of that: `subtree` judges whether it is of one moment."""

    tree: int


class Contends(NamedTuple):
    """The standing of a contender has changed: it is one of `CONTENDER_WAITS` to `CONTENDER_GIVEN_UP`.

    It holds by a token. If it pauses, `refusal` says why, and the code is the server's.
    """

    ticket: int
    stands: int
    token: int = 0
    refusal: int = 0
    code: int = 0


_STANDS = frozenset(range(library.CONTENDER_WAITS, library.CONTENDER_GIVEN_UP + 1))
_PLAIN_ACTIONS = {library.HANG_UP: PlainAction.HANG_UP, library.RENEWED: PlainAction.RENEWED}


class CredentialAnswer(NamedTuple):
    """A server has answered the credential at this place, from 0 on: with code 0 it accepts it. Each connection has its own answer."""

    place: int
    code: int


class Limits(NamedTuple):
    """The most bytes of a frame that comes, and of one that is sent, each after its length."""

    longest_answer: int = LONGEST_ANSWER
    longest_request: int = LONGEST_REQUEST


Action = Union[library.Output, Dial, PlainAction, TimedOut, Shown, Refused, MemberAdded, MemberRemoved, TreeBounded, TreeComplete, CredentialAnswer, Contends]


@functools.cache
def keep_what_is_let_go() -> None:
    """Makes glibc keep the memory of long answers for the next ones. It gives free memory at the end of its heap back to the system if that
    is more than 128 KB, or twice the longest block that was mapped by itself and freed: then each page of the next answer is a fault, which
    takes as long as all else.
    """
    bytes(KEPT)


def unbegun(last_zxid: int) -> bytes:
    """A saved session that resumes none, but admits no server that is behind this zxid."""
    return struct.pack(">qi", 0, 16) + bytes(16) + struct.pack(">q", last_zxid)


class Session(LookUps):
    """One session after the other, with the greatest zxid seen in all of them. It holds memory of the library's until `close`.

    `saved` is resumed first. The order of the addresses and the pauses between attempts are random by the seed. Raises `ValueError` if no
    session may have such limits.
    """

    def __init__(
        self,
        timeout_ms: int,
        seed: int,
        saved: Optional[bytes] = None,
        root: Root = Root(),
        addresses: int = 0,
        limits: Limits = Limits(),
    ) -> None:
        super().__init__(root)
        self._output, self._count = library._Output(), c_size_t()
        self._take_next = functools.partial(self._calls.next, byref(self._handle), byref(self._output))
        self._make_room(4096)
        self._untold = 0
        """How many bytes have come since the last step with an output."""
        if saved is None:
            checked(self._calls.open_with_limits(self._handle, timeout_ms, addresses, seed, *limits))
        else:
            checked(self._calls.resume_with_limits(self._handle, timeout_ms, addresses, seed, *limits, saved, len(saved)))

    # Steps.

    def opened(self, now: int) -> list[Action]:
        """The connection that the session asked for is open."""
        return self._outputs(self._calls.opened(self._handle, now))

    def failed(self, now: int) -> list[Action]:
        """The connection that the session asked for could not be made."""
        return self._outputs(self._calls.failed(self._handle, now))

    def cut(self, now: int) -> list[Action]:
        """The connection is over."""
        return self._outputs(self._calls.cut(self._handle, now))

    def moment(self, now: int) -> list[Action]:
        """Gives the session only the moment."""
        return self._outputs(self._calls.moment(self._handle, now))

    def received(self, now: int, data: Union[bytes, memoryview]) -> list[Action]:
        """Bytes came, maybe in memory that the caller can write. Raises `NoMemory` if they can be handed in again."""
        at = data if isinstance(data, bytes) else byref(c_char.from_buffer(data))
        code = self._calls.bytes(self._handle, now, at, len(data))
        self._untold += len(data)
        if self._untold < LONG or code < _OK:
            outputs = self._outputs(code)
        else:
            keep_what_is_let_go()
            outputs = self._each_output(LONG)
        if outputs:
            self._untold = 0
        return outputs

    def addresses(self, now: int, kept: int, added: int, is_listed: bool) -> list[Action]:
        """The list of addresses is a new one: first those that were in the list before, and then those that were not."""
        return self._outputs(self._calls.addresses(self._handle, now, kept, added, is_listed))

    def exists(self, now: int, ticket: int, until: int, path: str, watch: bool) -> list[Action]:
        spelled = self._root.spell(path)
        return self._outputs(self._calls.exists(self._handle, now, ticket, until, spelled, len(spelled), watch), path)

    def get_data(self, now: int, ticket: int, until: int, path: str, watch: bool) -> list[Action]:
        spelled = self._root.spell(path)
        return self._outputs(self._calls.get_data(self._handle, now, ticket, until, spelled, len(spelled), watch), path)

    def get_children(self, now: int, ticket: int, until: int, path: str, watch: bool) -> list[Action]:
        spelled = self._root.spell(path)
        code = self._calls.get_children(self._handle, now, ticket, until, spelled, len(spelled), watch)
        return self._outputs(code, path)

    def set_data(
        self, now: int, ticket: int, until: int, path: str, data: Optional[bytes], version: int
    ) -> list[Action]:
        spelled, given = self._root.spell(path), data or b""
        place, content = (spelled, len(spelled)), (given, len(given), data is None)
        return self._outputs(self._calls.set_data(self._handle, now, ticket, until, *place, *content, version), path)

    def create(
        self, now: int, ticket: int, until: int, path: str, data: Optional[bytes], mode: int
    ) -> list[Action]:
        if mode & library.SEQUENTIAL and path == "/" and self._root.path:
            raise ValueError("the digits would be part of the root's own name")
        spelled, given = self._root.spell(path), data or b""
        place, content = (spelled, len(spelled)), (given, len(given), data is None)
        return self._outputs(self._calls.create(self._handle, now, ticket, until, *place, *content, mode), path)

    def delete(self, now: int, ticket: int, until: int, path: str, version: int) -> list[Action]:
        spelled = self._root.spell(path)
        code = self._calls.delete(self._handle, now, ticket, until, spelled, len(spelled), version)
        return self._outputs(code, path)

    def raw(
        self, now: int, ticket: int, until: int, operation: int, named: Sequence[str], body: Callable[[Root], bytes]
    ) -> list[Action]:
        """Asks for another operation, with a body that the library does not read: so the paths that it names are checked before."""
        for path in named:
            self._side_kept(path)
        spelled = body(self._root)
        return self._outputs(self._calls.raw(self._handle, now, ticket, until, operation, spelled, len(spelled)))

    def credential(self, now: int, scheme: str, secret: bytes) -> list[Action]:
        """Adds a credential, which the session sends on this connection and each later one, before all else. Credentials have places, from
        0 on.

        Raises `TooLargeError` if the scheme and the secret have more than 1,048,555 bytes.
        """
        spelled = scheme.encode()
        code = self._calls.credential(self._handle, now, spelled, len(spelled), secret, len(secret))
        if code == library.CREDENTIAL_TOO_LARGE:
            raise TooLargeError(library._RESULT_WORDS[code])
        return self._outputs(code)

    def close_session(self, now: int, ticket: int, until: int) -> list[Action]:
        """Ends the session at the servers. After `SESSION_CLOSED` there is nothing more to do for it."""
        return self._outputs(self._calls.close(self._handle, now, ticket, until))

    def follow(self, now: int, ticket: int, path: str, side: int) -> list[Action]:
        """Keeps the data of a node, or the names of its children, good, even if there is no node yet."""
        spelled = self._root.spell(path)
        calls = self._calls
        follow = calls.follow_data if side == library.DATA_SIDE else calls.follow_names
        return self._outputs(follow(self._handle, now, ticket, spelled, len(spelled)), path)

    def unfollow(self, now: int, ticket: int) -> list[Action]:
        return self._outputs(self._calls.unfollow(self._handle, now, ticket))

    def follow_tree(self, now: int, ticket: int, path: str, most: int) -> list[Action]:
        """Follows all nodes at and below a path. If there are more than `most`, it adds no more."""
        spelled = self._root.spell(path)
        return self._outputs(self._calls.follow_tree(self._handle, now, ticket, spelled, len(spelled), most), path)

    def unfollow_tree(self, now: int, ticket: int) -> list[Action]:
        return self._outputs(self._calls.unfollow_tree(self._handle, now, ticket))

    def contend(
        self, now: int, ticket: int, directory: str, naming: int, guid: str, data: bytes, acl: bytes, may_be_there: bool
    ) -> list[Action]:
        """Adds a contender for the lock of a directory. The nodes that it makes have the ACL that these bytes spell: without any they are
        open to all. `may_be_there` says that this session may have made a place by this guid before.
        """
        spelled, tag = self._root.spell(directory), guid.encode()
        place, name, content = (spelled, len(spelled)), (naming, tag, len(tag)), (data, len(data), False)
        code = self._calls.contend(self._handle, now, ticket, *place, *name, *content, may_be_there, acl, len(acl))
        return self._outputs(code, directory)

    def give_up(self, now: int, ticket: int) -> list[Action]:
        """Gives a contender up: its place is deleted, through any number of connections."""
        return self._outputs(self._calls.give_up(self._handle, now, ticket))

    # Look-ups.

    def heard_at(self) -> Optional[int]:
        """The moment at which the server was last heard, on any connection."""
        moment = c_uint64()
        code = self._calls.heard_at(self._handle, moment)
        checked(code)
        return moment.value if code == library.OK else None

    def forget(self) -> None:
        """Forgets all stale answers."""
        checked(self._calls.forget(self._handle))

    # The outputs of a step.

    def _outputs(self, code: int, path: str = "") -> list[Action]:
        if code < _OK:
            self._check(code, path)
        outputs: list[Any] = []
        if self._take_all() != _OK or self._count.value > self._size:
            if not self._can_take_all():
                return self._each_output()
        at, end, view = 0, self._count.value, self._view
        while at < end:
            fields = _output_at(view, at)
            begin = at + _SIZE_OF_OUTPUT
            at = begin + fields[-1]
            told = view[begin:at].tobytes()
            outputs.append(self._answer(fields, told) if fields[0] == _ANSWER else self._read(fields, told))
        return outputs

    def _make_room(self, size: int) -> None:
        """Makes room for outputs."""
        self._room = create_string_buffer(size)
        self._view, self._size = memoryview(self._room), size
        self._take_all = functools.partial(self._calls.outputs, byref(self._handle), byref(self._room), c_size_t(size), byref(self._count))

    def _can_take_all(self) -> bool:
        """Takes a step's outputs into more room, unless they are long, or there is no memory to take them at once."""
        wanted = self._count.value
        if not self._size < wanted <= MOST_AT_ONCE:
            return False
        self._make_room(wanted)
        return bool(self._take_all() == _OK)

    def _each_output(self, least: int = 0) -> list[Action]:
        """The same, one output after the other, and all that follow one of fewer than `least` bytes together. If there is no memory for
        one, it is lost.
        """
        outputs: list[Action] = []
        while (code := self._take_next()) == _OK:
            fields = _as_the_protocol_has_it(_fields_of_output(self._output))
            try:
                outputs.append(self._read(fields, self._bytes_of(fields)))
            except NoMemory:
                checked(library.HALTED)
            if fields[_LENGTH] < least:
                return outputs + self._outputs(code)
        if code < _OK:
            checked(code)
        return outputs

    def _bytes_of(self, fields: tuple[Any, ...]) -> bytes:
        """The bytes of the last output: its text, and after it the names of a listing, or the words of a drop."""
        kind, length = fields[0], fields[_LENGTH]
        if kind == _ANSWER and fields[_LENGTH + 1]:
            return filled(lambda *room: self._calls.names(self._handle, *room), self._untold)
        text: bytes = new_bytes(None, length)
        self._calls.copy(byref(self._handle), _START, text, length)
        return text + filled(lambda *room: self._calls.words(self._handle, *room)) if kind == library.DROP else text

    def _read(self, fields: tuple[Any, ...], told: bytes) -> Action:
        """The action of an output, by its fields, with its Stat as the protocol has it, and its bytes."""
        kind, detail, result, code, ticket, zxid, length, place, was_sent = fields[:9]
        if kind == _SEND:
            return made(Send, (told,))
        if kind == _ANSWER:
            return self._answer(fields, told)
        if kind == library.REPORT:
            return Report(known("event", detail, _EVENTS), known("side", result, _SIDES), self._root.read(told))
        if kind == library.STATE:
            return StateChange(known("state", detail, _STATES))
        if kind == library.DROP:
            return Drop(told[:length].decode(), told[length:].decode(errors="replace"), detail)
        if kind == library.DIAL:
            return Dial(place, ticket)
        if kind == library.TIMED_OUT:
            return TimedOut(ticket, was_sent)
        if kind == library.SHOWN:
            return Shown(ticket)
        if kind == library.REFUSED:
            return Refused(ticket, known("refusal", detail, _REFUSALS), code)
        if kind == library.MEMBER_ADDED:
            return MemberAdded(place, ticket, known("side", result, _SIDES), self._root.read(told))
        if kind == library.MEMBER_REMOVED:
            return MemberRemoved(place, ticket)
        if kind == library.TREE_BOUNDED:
            return TreeBounded(ticket, was_sent)
        if kind == library.TREE_COMPLETE:
            return TreeComplete(ticket)
        if kind == library.CREDENTIAL:
            return CredentialAnswer(place, code)
        if kind in _STANDS:
            why = known("refusal", detail, _REFUSALS) if kind == library.CONTENDER_PAUSES else 0
            return Contends(ticket, kind, zxid, why, code)
        return _PLAIN_ACTIONS[known("output", kind, _PLAIN_ACTIONS)]

    def _answer(self, fields: tuple[Any, ...], told: bytes) -> Answer:
        _, lack, result, code, ticket, zxid, _, _, is_null, has_stat = fields[:_HEAD]
        if lack not in _OUTCOMES:
            known("outcome", lack, _OUTCOMES)
        if lack == library.REPLIED:
            if result not in _RESULTS:
                known("result of a reply", result, _RESULTS)
        else:
            zxid = 0
        text: Optional[bytes] = None
        names: list[str] = []
        if result == library.DATA:
            text = None if is_null else told
        elif result == library.NAMES:
            names = texts_in(told)
        elif result == library.CREATED:
            text = self._root.read(told).encode()
        elif result == library.RAW:
            text = told
        stat = made(Stat, fields[_HEAD:_END_OF_STAT]) if has_stat else None
        return made(Answer, (ticket, lack, result, code, stat, text, names, zxid))
