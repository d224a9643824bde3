"""held_up.py HOST SECONDS: a program with a client of this timeout, which a test stops and lets go on."""

import pathlib
import sys
import time

sys.path.insert(0, str(pathlib.Path(__file__).resolve().parents[1]))

import dirwolleu  # noqa: E402

with dirwolleu.Client(sys.argv[1], float(sys.argv[2])):
    time.sleep(60)
