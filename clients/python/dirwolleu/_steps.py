"""Steps that both kinds of clients make, one after the other: each asks a request, waits, or calls a function.

A rule is written once, as a generator of steps. The client for threads makes them in the thread that calls, or as a task in the
thread of the callbacks; the one for asyncio makes them in a coroutine, or as a task of its loop.
"""

from __future__ import annotations

import time
from collections.abc import Generator
from typing import Any, Callable, NamedTuple, Optional, TypeVar, Union

from dirwolleu._plans import Plan
from dirwolleu._requests import Request
from dirwolleu._retry import Retry
from dirwolleu.exceptions import CallTimeoutError, ZookeeperError

Result = TypeVar("Result")

SHORTEST_ASK = 1.0
"""The shortest wait for an answer, in seconds, if a wait has less left: so a wait of no time tries once."""


class Ask(NamedTuple):
    """Ask this, and wait for the answer for at most this many seconds; None is no bound but that of each call. It waits as long
    in steps that are `bounded` too.
    """

    request: Request[Any]
    timeout: Optional[float]


class Wait(NamedTuple):
    """Wait for news, for at most this many seconds; None is no bound."""

    seconds: Optional[float]


class GetNews(NamedTuple):
    """Get the news that `Wait` waits for, as an object to set."""


class Call(NamedTuple):
    """Call a function of the program. If it is a coroutine function of asyncio, its result is awaited."""

    function: Callable[[], Any]


Step = Union[Request[Any], Ask, Wait, GetNews, Call]
Steps = Generator[Step, Any, Result]


class TimeIsOver(Exception):
    """The moment by which steps were to be done has come."""


def left_of(until: Optional[float]) -> Optional[float]:
    """How many seconds are left until a moment; None is no bound."""
    return None if until is None else until - time.monotonic()


def until_of(seconds: Optional[float]) -> Optional[float]:
    """The moment after this many seconds; None is no bound."""
    return None if seconds is None else time.monotonic() + seconds


def by_policy(request: Request[Any], retry: Optional[Retry], until: Optional[float]) -> Steps[Any]:
    """Asks once, and again by a policy if there is one, up to a moment."""
    if retry is None:
        return (yield Ask(request, left_of(until)))
    attempts = retry.attempts()
    while True:
        try:
            return (yield Ask(request, left_of(until)))
        except ZookeeperError as error:
            pause = attempts.after(error)
            if until is not None and time.monotonic() + pause > until:
                raise
        yield Wait(pause)


def run(plan: Plan[Result], retry: Optional[Retry], until: Optional[float]) -> Steps[Result]:
    """Makes the requests of a plan, one after the other."""
    try:
        request = next(plan)
        while True:
            try:
                answer = yield from by_policy(request, retry, until)
            except ZookeeperError as error:
                request = plan.throw(error)
            else:
                request = plan.send(answer)
    except StopIteration as end:
        result: Result = end.value
        return result


def drive(steps: Steps[Result], do: Callable[[Step], Any]) -> Result:
    """Makes steps in this thread, one after the other. The steps handle the errors and interrupts that they raise."""
    try:
        step = next(steps)
        while True:
            try:
                answer = do(step)
            except BaseException as error:
                step = steps.throw(error)
            else:
                step = steps.send(answer)
    except StopIteration as end:
        result: Result = end.value
        return result


def bounded(steps: Steps[Result], until: Optional[float]) -> Steps[Result]:
    """The same steps, up to a moment: then the step that waits raises `TimeIsOver`, and the clean-up after it may wait."""
    try:
        step = next(steps)
        while True:
            try:
                answer = yield (step if until is None else _within(step, until))
            except CallTimeoutError as error:
                is_over = until is not None and until <= time.monotonic() and not isinstance(step, Ask)
                until = None if is_over else until
                step = steps.throw(TimeIsOver() if is_over else error)
            except BaseException as error:
                step = steps.throw(error)
            else:
                is_over = isinstance(step, Wait) and until is not None and until <= time.monotonic()
                until = None if is_over else until
                step = steps.throw(TimeIsOver()) if is_over else steps.send(answer)
    except StopIteration as end:
        result: Result = end.value
        return result


def _within(step: Step, until: float) -> Step:
    left = until - time.monotonic()
    if isinstance(step, Wait):
        return Wait(max(left, 0) if step.seconds is None else min(step.seconds, max(left, 0)))
    return Ask(step, max(left, SHORTEST_ASK)) if isinstance(step, Request) else step
