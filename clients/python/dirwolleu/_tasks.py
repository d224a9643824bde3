"""Steps that no thread waits for: the thread of the callbacks makes them."""

from __future__ import annotations

from collections.abc import Generator
from typing import Any, Callable, Optional, Protocol

from dirwolleu._requests import Request
from dirwolleu._steps import Ask, Call, GetNews, Step, Steps, Wait


class Doing(Protocol):
    """The functions that a task needs of its client."""

    def _tell(self, function: Callable[[Any], object], argument: Any) -> bool: ...
    def _later(self, seconds: float, function: Callable[[], object]) -> None: ...
    def _hand_in(self, request: Any, waiter: Any, timeout: Optional[float] = None) -> None: ...


class _Turn:
    """The waiter for the answer to one step of a task."""

    def __init__(self, task: Task, number: int) -> None:
        self._task, self._number, self._is_done = task, number, False

    def begin(self) -> bool:
        return not self.done()

    def cancel(self) -> None:
        self._is_done = True

    def done(self) -> bool:
        return self._is_done or self._task.is_past(self._number)

    def set_result(self, result: Any) -> None:
        self._is_done = True
        self._task.soon(self._number, result, None)

    def set_exception(self, error: BaseException) -> None:
        self._is_done = True
        self._task.soon(self._number, None, error)


class Task:
    """Steps that no thread waits for. The thread of the callbacks makes each of them, and is not held up between them.

    It is also the news that its own steps wait for. `end` gets its result, or its error.
    """

    def __init__(
        self,
        client: Doing,
        begin: Callable[[Task], Steps[Any]],
        end: Callable[[Any, Optional[BaseException]], object],
    ) -> None:
        self._client, self._end = client, end
        self._is_news, self._is_told, self._waits, self._number = False, False, False, 0
        self._open = {0: True}
        """The next step, until somebody takes it: after a stop that may be any thread."""
        self._steps: Optional[Generator[Step, Any, Any]] = begin(self)

    def start(self) -> None:
        """Begins, or goes on in the threads of a client that was started again."""
        self._is_told = False
        self.soon(0, None, None)
        self.set()

    def set(self) -> None:
        """Reports news. Any thread may call it."""
        self._is_news = True
        if not self._is_told:
            self._is_told = True  # before the other thread is called: that may take it at once
            if not self._client._tell(self._wake, None):
                self._is_told = False

    def clear(self) -> None:
        self._is_news = False

    def is_past(self, number: int) -> bool:
        """Whether it does not wait for this step any more."""
        return self._steps is None or number != self._number

    def soon(self, number: int, answer: Any, error: Optional[BaseException]) -> None:
        """Continues the task with the answer or the error of a step, unless the step is past."""
        came = number, answer, error
        if not self._client._tell(self._go_on, came):
            self._go_on(came)

    def _wake(self, _: object) -> None:
        self._is_told = False
        if self._waits and self._is_news:
            self._is_news = False
            self._go_on((self._number, None, None))

    def _go_on(self, came: tuple[int, Any, Optional[BaseException]]) -> None:
        number, answer, error = came
        steps = self._steps
        if steps is None or not self._open.pop(number, False):
            return
        self._number += 1
        self._waits = False
        self._open[self._number] = True
        try:
            step = steps.send(answer) if error is None else steps.throw(error)
        except StopIteration as end:
            self._finish(end.value, None)
        except BaseException as failed:
            self._finish(None, failed)
        else:
            self._do(step)

    def _finish(self, result: Any, error: Optional[BaseException]) -> None:
        self._steps = None
        self._end(result, error)

    def _do(self, step: Step) -> None:
        number = self._number
        try:
            if isinstance(step, Wait):
                self._wait(step.seconds)
            elif isinstance(step, (Call, GetNews)):
                self.soon(number, step.function() if isinstance(step, Call) else self, None)
            else:
                self._ask(step)
        except BaseException as error:
            self.soon(number, None, error)

    def _ask(self, step: Any) -> None:
        request, timeout = step if isinstance(step, Ask) else (step, None)
        assert isinstance(request, Request)
        self._client._hand_in(request, _Turn(self, self._number), timeout)

    def _wait(self, seconds: Optional[float]) -> None:
        """Waits for news, which may be there already."""
        number = self._number
        if self._is_news:
            self._is_news = False
            return self.soon(number, None, None)
        self._waits = True
        if seconds is not None:
            self._client._later(seconds, lambda: self.soon(number, None, None))
