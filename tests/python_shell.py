"""Runs a command of the shell of Python in this process: its start takes no time."""

from __future__ import annotations

import contextlib
import io
import os
import sys
import tempfile
from pathlib import Path
from typing import Sequence

sys.path.insert(0, str(Path(__file__).resolve().parents[1] / "clients" / "python"))

from dirwolleu.__main__ import main


def outcome_of_python(words: Sequence[str], given: bytes) -> str:
    """What a command line prints and tells over this standard input, and its status, as `outcome` of the other shell."""
    spelled, told = io.BytesIO(), io.StringIO()
    printed, before = io.TextIOWrapper(spelled, encoding="utf-8"), os.dup(0)
    with tempfile.TemporaryFile() as source, contextlib.redirect_stdout(printed), contextlib.redirect_stderr(told):
        source.write(given)
        source.seek(0)
        os.dup2(source.fileno(), 0)
        try:
            status = main(words)
        finally:
            os.dup2(before, 0)
            os.close(before)
    printed.flush()
    return f"{spelled.getvalue().decode()}|{told.getvalue()}|{status}"
