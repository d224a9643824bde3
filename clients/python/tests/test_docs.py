"""The examples in docstrings, run against the partner."""

from __future__ import annotations

import ast
import asyncio
import contextlib
import doctest
import importlib
import inspect
import io
import re
import textwrap
from collections.abc import Iterator
from typing import Any, NamedTuple
from unittest import mock

from support import CLIENTS, WAIT, Partner, PartnerCase

import dirwolleu

PACKAGE = CLIENTS / "python" / "dirwolleu"
REAL, REAL_AIO = dirwolleu.Client, dirwolleu.aio.Client


class Example(NamedTuple):
    """The lines of an example, and the docstring that they are in."""

    where: str
    lines: str


def examples() -> Iterator[Example]:
    for file in sorted(PACKAGE.glob("*.py")):
        for node in ast.walk(ast.parse(file.read_text())):
            if isinstance(node, (ast.ClassDef, ast.FunctionDef, ast.AsyncFunctionDef)):
                for block in blocks(ast.get_docstring(node, clean=False) or "", " " * (node.col_offset + 8)):
                    yield Example(f"{file.name}: {node.name}", block)


def blocks(docstring: str, margin: str) -> Iterator[str]:
    """The blocks of a docstring that are indented further, after an empty line."""
    for paragraph in docstring.split("\n\n")[1:]:
        lines = [line for line in paragraph.splitlines() if line.strip()]
        if lines and all(line.startswith(margin) for line in lines):
            yield textwrap.dedent("\n".join(lines))


class DocsTest(PartnerCase):
    def begin(self, number: int, example: Example) -> None:
        """Makes a root of its own for an example, with the nodes that examples read. An example with other hosts has none."""
        self.server: Partner = self.shared_partner()
        self.root = "" if "set_hosts" in example.lines else f"/example-{number}"
        if self.root:
            self.server.do(f"create {self.root}")
        self.server.do(*(f"create {self.root}{node}" for node in ("/config one", "/config/a x", "/log")))
        self.server.do(*3 * [f"set {self.root}/config one"])
        self.ends = contextlib.ExitStack()

    def client(self, hosts: str = "", *words: Any, **named: Any) -> dirwolleu.Client:
        """A client of the partner, started, whatever its hosts are; the root is that of the hosts, below that of the example."""
        _, slash, root = hosts.partition("/")
        client = REAL(self.server.host + self.root + slash + root, *words, **named)
        self.ends.callback(client.close)
        self.ends.callback(client.stop)
        client.start(WAIT)
        return client

    def test_each_example_runs(self) -> None:
        found = [example for example in examples() if not example.lines.startswith(">>>")]
        self.assertGreaterEqual(len(found), 18)
        for number, example in enumerate(found):
            with self.subTest(example.where):
                self.begin(number, example)
                with self.ends:
                    self.run_example(example)

    def run_example(self, example: Example) -> None:
        names = {"dirwolleu": dirwolleu, "names": ["a"], "Retry": dirwolleu.Retry, "Client": self.client}
        with contextlib.redirect_stdout(io.StringIO()), mock.patch("dirwolleu.Client", self.client):
            with mock.patch("dirwolleu.tls_context", return_value=None):
                if "await " in example.lines or "async " in example.lines:
                    asyncio.run(self.run_coroutine(example, names))
                else:
                    exec(compile(example.lines, example.where, "exec"), {**names, "client": self.client()})

    async def run_coroutine(self, example: Example, names: dict[str, Any]) -> None:
        body = "async def example():\n" + textwrap.indent(example.lines, "    ")
        async with REAL_AIO(self.server.host + self.root) as client:
            found: dict[str, Any] = {**names, "client": client}
            exec(compile(body, example.where, "exec"), found)
            await asyncio.wait_for(found["example"](), 3 * WAIT)

    def test_each_public_name_says_what_it_is(self) -> None:
        modules = [dirwolleu, dirwolleu.aio, dirwolleu.recipes, dirwolleu.security, dirwolleu.transaction]
        for module in modules:
            for name in module.__all__:
                found = getattr(module, name)
                if isinstance(found, type) and found.__module__.startswith("dirwolleu"):
                    self.assertTrue(found.__doc__, name)
                    for own, part in vars(found).items():
                        if inspect.isfunction(part) and not own.startswith("_"):
                            self.assertTrue(part.__doc__, f"{name}.{own}")

    def test_the_readme_names_each_public_name(self) -> None:
        readme = (CLIENTS / "python" / "README.md").read_text()
        names = {*dirwolleu.__all__, *dirwolleu.aio.__all__}
        for kind in (dirwolleu.Client, dirwolleu.Held, dirwolleu.Lock, dirwolleu.Semaphore, dirwolleu.Registration, dirwolleu.Queue):
            names.update(own for own in dir(kind) if not own.startswith("_") and not own.endswith("_async"))
        self.assertEqual([name for name in sorted(names) if not re.search(rf"\b{name}\b", readme)], [])

    def test_both_clients_and_their_recipes_have_the_same_names(self) -> None:
        for name in ("Client", *dirwolleu.recipes.__all__):
            ours, theirs = ({own for own in dir(getattr(one, name)) if not own.startswith("_")} for one in (dirwolleu, dirwolleu.aio))
            self.assertEqual(ours - {"size"}, theirs - {"size"}, name)

    def test_prompts(self) -> None:
        for file in PACKAGE.glob("*.py"):
            if ">>> " in file.read_text():
                name = "dirwolleu" if file.stem == "__init__" else f"dirwolleu.{file.stem}"
                outcome = doctest.testmod(importlib.import_module(name))
                self.assertEqual(outcome.failed, 0)
                self.assertGreater(outcome.attempted, 0)
