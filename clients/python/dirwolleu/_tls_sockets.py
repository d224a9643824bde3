"""The connection of a blocking client by TLS."""

from __future__ import annotations

import functools
import ssl

from dirwolleu._driver import Driver
from dirwolleu._poll import READ, WRITE, Reactor
from dirwolleu._sockets import Do, Link


class TlsLink(Link):
    """A connection that shakes hands first."""

    not_now = (ssl.SSLWantReadError, ssl.SSLWantWriteError, BlockingIOError)

    def __init__(self, reactor: Reactor, do: Do, driver: Driver, tls: ssl.SSLContext) -> None:
        super().__init__(reactor, do, driver)
        self._tls = tls

    def _begin(self) -> None:
        place = self._driver.place
        if self._socket is None or place is None:
            return
        self._reactor.leave(self._socket.fileno())
        try:
            self._socket = self._tls.wrap_socket(self._socket, server_hostname=place.name, do_handshake_on_connect=False)
        except (OSError, ValueError) as error:
            return self._fail(error)
        self._shake_hands(READ)

    def _shake_hands(self, _: int) -> None:
        if self._socket is None:
            return
        assert isinstance(self._socket, ssl.SSLSocket)
        try:
            self._socket.do_handshake()
        except ssl.SSLWantReadError:
            self._await_hand(READ)
        except ssl.SSLWantWriteError:
            self._await_hand(WRITE)
        except (ssl.SSLEOFError, ssl.SSLZeroReturnError):
            self._fail(ConnectionError())
        except (OSError, ValueError) as error:
            self._fail(error)
        else:
            super()._begin()

    def _await_hand(self, wanted: int) -> None:
        assert self._socket is not None
        self._reactor.watch(self._socket.fileno(), wanted, functools.partial(self._do, self._shake_hands))

    def _read(self) -> None:
        """Also reads the bytes that are deciphered already, which no poll reports."""
        super()._read()
        while self._socket is not None and isinstance(self._socket, ssl.SSLSocket) and self._socket.pending():
            super()._read()
