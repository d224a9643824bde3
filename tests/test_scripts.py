"""Runs the built zk_shell on the scripts of the tables in scripts/. Everything outside the program is in memory (outside.c), the servers too.

A row is a command line, its script, and the expected PRINTED|TOLD|STATUS: standard output, standard error, exit status. Its `@` lines are the
servers, in the order in which they are dialled. `dial ADDRESS` is a server, followed by a line per frame that it expects: the frame and its answer
in hex, `-` for no answer, and the delay of the answer in milliseconds, if there is one. `down ADDRESS` refuses the connection. In a script `{number}`
is the number of the run, and `{frame HEX}` a frame with that many bytes of the payload.

    COMMAND LINE           runs the script whole, byte by byte, with one `bytes` line per byte, and with each request for memory refused in turn
    each LEAST MOST: ..    runs it once per number: whole, byte by byte, and with one `bytes` line per byte. All runs print the same
    fails LEAST MOST: ..   the same; the first connection fails after that many bytes
    reports LEAST MOST: .. the same; compares only reports, the last zxid, and answers that differ from the history
    refused COUNT: ..      refuses each request for memory in turn; tells whether there were more than COUNT, and how the runs ended
    broken: ..             fails the writer once, after each number of bytes
    small MOST: ..         refuses each request for more than MOST bytes, of a script that announces more than it brings
    unread: ..             fails the reader, after each number of bytes
    world LEAST MOST: ..   runs against a server in memory, whose plan are the `@` lines `NAME NUMBER` (tree_server.c), once per `{number}` in it
    disturbed MOST: ..     the same, with reads of at most 1 to MOST bytes, which change nothing but last zxids; with a writer that fails once; and
                           with each request for memory refused
"""

from __future__ import annotations

import re
import unittest
from typing import Callable, Iterator, NamedTuple

from outside import Outside, Refused, lacks_compiler
from shell import program
from tables import cases_of

UNWRITTEN = "||4"
"""What a command tells and answers whose reader has gone."""
OUT_OF_MEMORY = 3
MOST_WITHOUT = 4
SHARES = 4
"""The tests that each take a share of the rows, side by side."""
TABLES = ("show", "history", "replay", "words", "rehearse", "live", "watch", "memory")


class Case(NamedTuple):
    """A row of a table: its place, kind, least and greatest number, command line, servers, script, and expected text."""

    place: str
    kind: str
    least: int
    most: int
    words: list[str]
    table: str
    script: str
    wanted: str


def cases(*kinds: str) -> Iterator[Case]:
    """The rows of some kinds, in their order."""
    for name in TABLES:
        for case in cases_of(f"scripts/{name}.txt"):
            for row in case.rows:
                kind, numbers, words = row.kind
                least, most = [*numbers, 0, 0][:2]
                if kind in kinds:
                    place = f"{name}.txt:{row.line}: {case.name}"
                    wanted = row.wanted[0] if kind == "refused" else row.printed
                    yield Case(place, kind, least, most, words, "\n".join(row.dialled), row.script, f"{wanted}\n")


def expanded(script: str, number: int = 0) -> str:
    """The script of this run, with `{frame HEX}` and `{number}` written out."""
    text = re.sub(r"\{frame (\w+)\}", lambda found: f"{number:08x}{found[1][: 2 * number]}", script)
    return text.replace("{number}", str(number))


def by_bytes(script: str) -> str:
    """The script with each `bytes` line split into one per byte."""
    return re.sub(r"(?m)^bytes (.*)$", lambda found: "\n".join(f"bytes {found[1][at : at + 2]}" for at in range(0, len(found[1]), 2)), script)


def reports(printed: str) -> str:
    """The lines of reports, of the last zxid, of answers that differ from the history, and of the ending."""
    lines = printed.splitlines(keepends=True)
    return "".join(line for line in lines if line.startswith(("report ", "last ", "|")) or line.endswith(" differs\n"))


def ended(refused: Refused, whole: str) -> str | None:
    """How a run ended that was refused memory: it printed `nothing`, or whole `lines` of the full output, or it `halts` after such lines. None if it
    ended in any other way, wrote to standard error, or had another status."""
    printed = refused.printed.removesuffix("halt\n")
    if refused.told or refused.status != OUT_OF_MEMORY or not whole.startswith(printed) or printed[-1:] not in ("", "\n"):
        return None
    return "halts" if printed != refused.printed else "lines" if printed else "nothing"


@unittest.skipIf(program() is None or lacks_compiler(), "there is no zk_shell, which rt ci builds, or no C compiler")
class ScriptsTest(unittest.TestCase):
    is_long = True

    def setUp(self) -> None:
        self.outside = Outside()
        self.addCleanup(self.outside.close)

    def _each(self, does: Callable[[Case], None], *kinds: str, share: int = 0, shares: int = 1) -> None:
        for case in list(cases(*kinds))[share::shares]:
            with self.subTest(case.place):
                does(case)

    def _refusals(self, case: Case) -> tuple[str, list[str]]:
        """What a case prints, and how it ends if each request for memory is refused in turn. A few refusals change nothing: those of the output
        buffer, and of the note why an address was not reached, which only another command prints."""
        whole, refused = self.outside.refusals(case.words, expanded(case.script), case.table)
        others = [one for one in refused if f"{one.printed}|{one.told}|{one.status}" != whole]
        self.assertLessEqual(len(refused) - len(others), MOST_WITHOUT, len(others))
        ends = [ended(one, whole) for one in others]
        self.assertNotIn(None, ends, [one for one in others if ended(one, whole) is None][:2])
        return whole, [end for end in ends if end]

    def _thrice(self, case: Case, number: int, **parts: int) -> str:
        """What a script prints: the same where it is read one byte at a time, and where each byte that comes is a line of its own."""
        script = expanded(case.script, number)
        whole = self.outside.run(case.words, script, case.table, **parts)
        for text, piece in ((script, 1), (by_bytes(script), 1 << 20)):
            self.assertEqual(whole, self.outside.run(case.words, text, case.table, piece=piece, **parts), number)
        return whole

    def _row(self, case: Case) -> None:
        self.assertEqual(case.wanted, self._thrice(case, 0) + "\n")
        self.assertEqual(case.wanted, self._refusals(case)[0] + "\n")

    def _numbers(self, case: Case) -> None:
        """Each number from the least to the greatest; where it `fails`, the first connection passes so many bytes."""
        for number in range(case.least, case.most + 1):
            whole = self._thrice(case, number, **({"left": number} if case.kind == "fails" else {}))
            self.assertEqual(case.wanted, (reports(whole) if case.kind == "reports" else whole) + "\n", number)

    def _refused(self, case: Case) -> None:
        ends = self._refusals(case)[1]
        words = ["more"] * (len(ends) > case.least) + [end for end in ("nothing", "lines", "halts") if end in ends]
        self.assertEqual(case.wanted, ", ".join(words) + "\n")

    def _broken(self, case: Case) -> None:
        """Fails the writer after each number of bytes: exactly these are written."""
        printed = self.outside.run(case.words, case.script, case.table).removesuffix("||0")
        for count in range(len(printed)):
            self.assertEqual(printed[:count] + UNWRITTEN, self.outside.run(case.words, case.script, written=count), count)
        self.assertEqual(case.wanted, self.outside.run(case.words, case.script, written=len(printed)) + "\n")

    def _unread(self, case: Case) -> None:
        """Fails the reader after each number of bytes, and at the end of the script."""
        for count in range(len(case.script) + 1):
            self.assertEqual(case.wanted, self.outside.run(case.words, case.script, piece=1, read=count) + "\n", count)

    def _small(self, case: Case) -> None:
        self.assertEqual(case.wanted, self.outside.run(case.words, case.script, largest=case.least) + "\n")

    def _world(self, case: Case) -> None:
        for number in range(case.least, case.most + 1):
            table = case.table.replace("{number}", str(number))
            self.assertEqual(case.wanted, self.outside.run(case.words, case.script, table) + "\n", number)

    def _disturbed(self, case: Case) -> None:
        """Reads in pieces, an output that fails at the beginning and in the middle of each line, and refused memory. Last zxids are left out of the
        comparison, since they show which messages came at once."""
        whole, _ = self._refusals(case)
        self.assertEqual(case.wanted, whole + "\n")
        for piece in range(1, case.least + 1):
            came = self.outside.run(case.words, "", f"{case.table}\npiece {piece}")
            self.assertEqual(re.sub(r" last \d+", "", whole), re.sub(r" last \d+", "", came), piece)
        printed, begin = whole.removesuffix("||0"), 0
        for line in printed.splitlines(keepends=True):
            for count in (begin, begin + len(line) // 2):
                self.assertEqual(printed[:count] + UNWRITTEN, self.outside.run(case.words, "", case.table, written=count), count)
            begin += len(line)

    def test_rows_of_a_first_share(self) -> None:
        self._each(self._row, "row", share=0, shares=SHARES)

    def test_rows_of_a_second_share(self) -> None:
        self._each(self._row, "row", share=1, shares=SHARES)

    def test_rows_of_a_third_share(self) -> None:
        self._each(self._row, "row", share=2, shares=SHARES)

    def test_rows_of_a_last_share(self) -> None:
        self._each(self._row, "row", share=3, shares=SHARES)

    def test_numbers(self) -> None:
        self._each(self._numbers, "each", "reports")

    def test_connections_that_fail_after_each_byte(self) -> None:
        self._each(self._numbers, "fails")

    def test_counts_take_no_memory(self) -> None:
        self._each(self._small, "small")

    def test_refused_memory_of_a_first_share(self) -> None:
        self._each(self._refused, "refused", share=0, shares=SHARES)

    def test_refused_memory_of_a_second_share(self) -> None:
        self._each(self._refused, "refused", share=1, shares=SHARES)

    def test_refused_memory_of_a_third_share(self) -> None:
        self._each(self._refused, "refused", share=2, shares=SHARES)

    def test_refused_memory_of_a_last_share(self) -> None:
        self._each(self._refused, "refused", share=3, shares=SHARES)

    def test_writers_that_fail(self) -> None:
        self._each(self._broken, "broken")

    def test_servers_that_do_wrong(self) -> None:
        self._each(self._world, "world")

    def test_watches_that_are_disturbed(self) -> None:
        self._each(self._disturbed, "disturbed")

    def test_readers_that_fail(self) -> None:
        self._each(self._unread, "unread")
