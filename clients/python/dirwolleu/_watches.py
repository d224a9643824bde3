"""Functions that are called with good answers, by kazoo's names. They are the same for both kinds of clients."""

from __future__ import annotations

import logging
from typing import TYPE_CHECKING, Any, Callable, Generic, Optional

from dirwolleu import _following as following
from dirwolleu._checks import checked_function, checked_path
from dirwolleu._engine import News
from dirwolleu._following import Subject, Told
from dirwolleu._steps import Steps
from dirwolleu.exceptions import ZookeeperError
from dirwolleu.types import Kept, KeptChildren

if TYPE_CHECKING:
    from dirwolleu._shown import Shown

logger = logging.getLogger("dirwolleu")

Function = Callable[..., object]


class _Watch(Generic[Told]):
    """One function that is called with one subject."""

    def __init__(self, client: Shown, path: str, function: Optional[Function] = None) -> None:
        self._client, self._path = client, checked_path(path)
        self._function: Optional[Function] = None
        self._is_wanted = True
        self._news: Optional[News] = None
        if function is not None:
            self(function)

    def __call__(self, function: Function) -> Function:
        """Begins to call this function. A watch has one: a second one is a `ValueError`."""
        if self._function is not None:
            raise ValueError("a watch calls one function")
        self._function = checked_function("what a watch calls", function)
        self._client._engine.check_process()
        subject = self._subject()
        subject.settled()  # a ValueError if the path is none
        told: Optional[Told] = None

        def begin_first(news: News) -> Steps[tuple[Optional[Told], bool]]:
            self._news = news
            return following.first(self._client._engine, subject, news, self._call, lambda: self._is_wanted)

        def begin(news: News) -> Steps[None]:
            self._news = news
            return following.watching(self._client._engine, subject, news, self._call, lambda: self._is_wanted, told)

        try:
            told, goes_on = self._client._do_first(begin_first) or (None, True)
        except ZookeeperError as error:
            self._end(None, error)
        else:
            if goes_on:
                self._client._begin(begin, self._end)
        return function

    def stop(self) -> None:
        """Stops calling the function. `stop` may be called again."""
        self._is_wanted = False
        if self._news is not None:
            self._news.set()

    def _end(self, _: Any, error: Optional[BaseException]) -> None:
        self._is_wanted = False
        if error is not None:
            logger.error("the watch of %s has ended: %s", self._path, error)

    def _subject(self) -> Subject[Told]:
        raise NotImplementedError

    def _call(self, kept: Told) -> object:
        raise NotImplementedError


class DataWatch(_Watch[Kept]):
    """Calls a function with a node's data and its `DataStat`, now and after each change: with None and None if there is no node.

    It goes on through reconnects, new sessions and a client that is started again. Its arguments were looked up right before the call, and
    were good then: so they are never older than at an earlier call, and no report to the client had ended them. A node that changes faster
    than it can be read is shown when it comes to rest, or between two changes; `follow` yields each answer that was good when it came.

    The first call comes before the watch is made, in the thread that makes it, as kazoo's does: if the client is started and an answer
    comes within the timeout of the session. From then on, and always with asyncio, the function is called where watches are, one after the
    other. It may call the client. With asyncio it may be a coroutine function. After it returns False, and after `stop`, it is not called
    any more. Its exceptions are logged. If a read is refused for another reason than the connection, the session and the load of a server,
    the watch ends, and the log says why.

        @client.DataWatch("/config")
        def changed(data, stat):
            print("no node" if stat is None else data)
    """

    def _subject(self) -> Subject[Kept]:
        return following.data_of(self._client._engine, self._path)

    def _call(self, kept: Kept) -> object:
        assert self._function is not None
        return self._function(kept.data, kept.stat)


class ChildrenWatch(_Watch[KeptChildren]):
    """Calls a function with the list of the names of a node's children, now and after each change: with an empty one if there is no node.

    All else is as for `DataWatch`.

        @client.ChildrenWatch("/workers")
        def changed(names):
            print(len(names), "workers")
    """

    def _subject(self) -> Subject[KeptChildren]:
        return following.children_of(self._client._engine, self._path)

    def _call(self, kept: KeptChildren) -> object:
        assert self._function is not None
        return self._function(list(kept.names))
