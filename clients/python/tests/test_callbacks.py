"""Tests of the output about a callback that fails, in a program without logging set up."""

from __future__ import annotations

import subprocess
import sys
import textwrap

import support
from support import WAIT, PartnerCase


class CallbackTest(PartnerCase):
    """A program without logging set up, whose callback fails."""

    def errors_of(self, program: str) -> str:
        partner = self.partner()
        words = [sys.executable, "-c", textwrap.dedent(program), partner.host, str(support.CLIENTS / "python")]
        done = subprocess.run(words, capture_output=True, text=True, timeout=3 * WAIT, check=False)
        self.assertEqual(done.stdout, "done\n", done.stderr)
        return done.stderr

    def test_a_watch_that_fails_is_seen(self) -> None:
        errors = self.errors_of(
            """
            import sys; sys.path.insert(0, sys.argv[2])
            import dirwolleu
            def fail(event): raise LookupError("a fault of the program")
            with dirwolleu.Client(sys.argv[1], 60.0) as client:
                client.exists("/a", watch=fail)
                client.create("/a")
            print("done")
            """
        )
        self.assertEqual(errors.count("LookupError: a fault of the program"), 1, errors)
        self.assertEqual(errors.count("Traceback"), 1, errors)

    def test_a_coroutine_function_that_fails_is_seen(self) -> None:
        errors = self.errors_of(
            """
            import asyncio, sys; sys.path.insert(0, sys.argv[2])
            from dirwolleu import aio
            async def main():
                failed = asyncio.Event()
                async def fail(event):
                    failed.set()
                    raise LookupError("a fault of the program")
                async with aio.Client(sys.argv[1], 60.0) as client:
                    await client.exists("/a", watch=fail)
                    await client.create("/a")
                    await failed.wait()
            asyncio.run(main())
            print("done")
            """
        )
        self.assertEqual(errors.count("LookupError: a fault of the program"), 1, errors)
        self.assertEqual(errors.count("Traceback"), 1, errors)
