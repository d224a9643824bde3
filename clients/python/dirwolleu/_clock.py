"""The clock of both clients."""

import time

_CLOCK = getattr(time, "CLOCK_BOOTTIME", time.CLOCK_MONOTONIC)
"""A clock that goes on while the machine is suspended, if there is one: what was heard before is old after it."""


def moment() -> int:
    """Milliseconds of a clock that does not go back."""
    return time.clock_gettime_ns(_CLOCK) // 1_000_000
