"""python3 -m dirwolleu.kazoo PROGRAM ARGS..: runs a program of Python for which `import kazoo` gives dirwolleu.kazoo.

PROGRAM is a file, or a name in PATH; `-m MODULE` in its place runs a module.
"""

from __future__ import annotations

import os
import runpy
import shutil
import sys

import dirwolleu.kazoo


def main(words: list[str]) -> None:
    """Runs what the words say."""
    if not words or words[0] in ("-h", "--help") or words == ["-m"]:
        sys.exit(__doc__)
    dirwolleu.kazoo.install()
    if words[0] == "-m":
        sys.argv = words[1:]
        runpy.run_module(words[1], run_name="__main__", alter_sys=True)
        return
    program = words[0] if os.path.exists(words[0]) else shutil.which(words[0])
    if program is None:
        sys.exit(f"dirwolleu.kazoo: there is no program {words[0]}")
    sys.argv = [program, *words[1:]]
    if sys.path[0] in ("", os.getcwd()):
        sys.path[0] = os.path.dirname(os.path.abspath(program))  # as for any program
    runpy.run_path(program, run_name="__main__")


if __name__ == "__main__":
    main(sys.argv[1:])
