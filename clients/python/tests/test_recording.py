"""Records of clients: what clients/cases/recording.py does not try, such as asyncio, an expiry, and a client that is closed and not
stopped.
"""

from __future__ import annotations

import asyncio
import pathlib
import tempfile

from support import TIMEOUT, PartnerCase, within

import dirwolleu
from dirwolleu import aio


class RecordingTest(PartnerCase):
    def setUp(self) -> None:
        folder = tempfile.TemporaryDirectory()
        self.addCleanup(folder.cleanup)
        self.file = pathlib.Path(folder.name, "record")

    def lines(self) -> list[str]:
        return self.file.read_text(encoding="ascii").splitlines()

    def kinds(self) -> list[str]:
        """The first words of the lines that say what happens, each once if several follow one another."""
        kinds = [line.split()[0] for line in self.lines()]
        kinds = [kind for kind in kinds if kind not in ("#", "now")]
        return [kind for before, kind in zip([""] + kinds, kinds) if kind != before]

    def test_asyncio_records_too(self) -> None:
        partner = self.partner()

        async def read() -> None:
            async with aio.Client(partner.host, TIMEOUT, record=self.file) as client:
                await client.exists("/none")

        asyncio.run(read())
        self.assertIn("call 1 exists /none 0", self.lines())
        self.assertEqual(["timeout", "opened", ">", "bytes", "call", ">", "bytes", "call", ">", "bytes", "cut"], self.kinds())

    def test_an_expiry_begins_another_session(self) -> None:
        partner = self.partner()
        with dirwolleu.Client(partner.host, TIMEOUT, record=str(self.file)) as client:
            client.create("/a", b"one")
            first = client.session_id
            partner.do("expire")
            within(lambda: client.session_id not in (0, first) and client.connected)
        begun = [line for line in self.lines() if line.startswith(("timeout", "resume"))]
        self.assertEqual(["timeout 60000", f"resume 60000 0 {32 * '0'} 1"], begun)

    def test_a_client_that_is_not_stopped_leaves_a_whole_record(self) -> None:
        partner = self.partner()
        client = dirwolleu.Client(partner.host, TIMEOUT, record=self.file)
        client.start()
        client.close()
        self.assertEqual(["timeout", "opened", ">", "bytes", "cut"], self.kinds())

    def test_a_record_that_cannot_be_made_is_told_at_once(self) -> None:
        with self.assertRaises(FileNotFoundError):
            dirwolleu.Client("127.0.0.1:1", record=self.file / "none")
