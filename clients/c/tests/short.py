"""Tests of the short programs: the recipes, and that of the five minutes. Where nobody listens, each says so, and does not wait without a word."""

import os
import pathlib
import re
import select
import shlex
import subprocess

from programs import BOUND, NOBODY, OUT, Case

HERE = pathlib.Path(__file__).resolve().parent
TOP = HERE.parents[2]


def sources():
    """Each program with its name, at a place where nobody listens."""
    page = (TOP / "docs/FIVE_MINUTES.md").read_text(encoding="utf-8")
    programs = {path.stem: path.read_text(encoding="utf-8") for path in (HERE.parent / "recipes").glob("*.c")}
    programs["five_minutes"] = re.search(r"```c\n(.*?)```", page, re.DOTALL)[1]
    return {name: text.replace("127.0.0.1:2181", NOBODY) for name, text in programs.items()}


class Short(Case):
    """Tests of short programs."""

    def built(self, name, text):
        folder = pathlib.Path(OUT) / "short"
        folder.mkdir(exist_ok=True)
        compiler = shlex.split(os.environ.get("CC", "cc"))
        flags = ["-std=c11", "-O0", f"-I{TOP}/include", f"-I{HERE.parent}", "-x", "c", "-", "-x", "none"]
        libraries = [f"{OUT}/libdirwolleu_session.a", f"{TOP}/clients/out/libdirwolleu.a"]
        subprocess.run([*compiler, *flags, *libraries, "-o", folder / name], input=text, text=True, check=True)
        return str(folder / name)

    def test_no_server(self):
        for name, text in sources().items():
            with self.subTest(name):
                process = self.run_of(self.built(name, text), stderr=subprocess.PIPE).process
                told, _, _ = select.select([process.stderr], [], [], BOUND)
                self.assertTrue(told, "it says nothing")
                self.assertEqual(process.stderr.readline(), f"{NOBODY}: connection refused\n")
