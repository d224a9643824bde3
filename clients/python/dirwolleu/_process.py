"""Which process this is. The system is asked once in each: at the import, and after a fork."""

import os

_process = os.getpid()


def _note() -> None:
    global _process
    _process = os.getpid()


os.register_at_fork(after_in_child=_note)


def this_process() -> int:
    return _process
