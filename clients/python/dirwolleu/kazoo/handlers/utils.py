"""Sockets, and wrappers that set a result to what a function returns, for handlers (kazoo.handlers.utils)."""

from __future__ import annotations

import functools
import socket
import ssl
import time
from typing import TYPE_CHECKING, Any, Callable, Optional, TypeVar

from dirwolleu.kazoo._checks import own_key
from dirwolleu.tls import tls_context

if TYPE_CHECKING:
    from dirwolleu.kazoo.handlers.threading import AsyncResult

Returned = TypeVar("Returned")


def create_tcp_socket(module: Any) -> socket.socket:
    """A socket of a module such as `socket`, for TCP."""
    made: socket.socket = module.socket(module.AF_INET, module.SOCK_STREAM)
    _set_default_tcpsock_options(module, made)
    return made


def _set_default_tcpsock_options(module: Any, made: Any) -> None:
    made.setsockopt(module.IPPROTO_TCP, module.TCP_NODELAY, 1)


def create_socket_pair(module: Any) -> tuple[socket.socket, socket.socket]:
    """Two sockets of a module that are connected to each other."""
    one, other = module.socketpair()
    return one, other


def create_tcp_connection(
    module: Any,
    address: tuple[str, int],
    timeout: Optional[float] = None,
    use_ssl: bool = False,
    ca: Optional[str] = None,
    certfile: Optional[str] = None,
    keyfile: Optional[str] = None,
    keyfile_password: Optional[str] = None,
    verify_certs: bool = True,
) -> socket.socket:
    """A connection to an address, by the sockets of a module, within this many seconds. Raises `OSError`."""
    until = None if timeout is None else time.time() + timeout
    left = None if until is None else until - time.time()
    if left is not None and left <= 0:
        raise module.error(f"no connection to {address[0]}:{address[1]} within {timeout} seconds")
    connection: socket.socket = module.create_connection(address, left)
    _set_default_tcpsock_options(module, connection)
    if not use_ssl:
        return connection
    context = tls_context(
        ca=ca,
        certfile=certfile,
        keyfile=own_key(certfile, keyfile),
        keyfile_password=keyfile_password,
        verify_certs=verify_certs,
        check_hostname=False,
    )
    return _wrapped(context, connection)


def _wrapped(context: ssl.SSLContext, connection: socket.socket) -> socket.socket:
    try:
        return context.wrap_socket(connection)
    except BaseException:
        connection.close()
        raise


def capture_exceptions(async_result: AsyncResult) -> Callable[[Callable[..., Returned]], Callable[..., Optional[Returned]]]:
    """Sets a result to the exception that a function raises, and does not raise it then."""

    def capture(function: Callable[..., Returned]) -> Callable[..., Optional[Returned]]:
        @functools.wraps(function)
        def captured(*args: Any, **kwargs: Any) -> Optional[Returned]:
            try:
                return function(*args, **kwargs)
            except Exception as error:
                async_result.set_exception(error)
                return None

        return captured

    return capture


def wrap(async_result: AsyncResult) -> Callable[[Callable[..., Returned]], Callable[..., Optional[Returned]]]:
    """Sets a result to what a function returns, or to the exception that it raises."""

    def settle(function: Callable[..., Returned]) -> Callable[..., Optional[Returned]]:
        @capture_exceptions(async_result)
        def settled(*args: Any, **kwargs: Any) -> Returned:
            value = function(*args, **kwargs)
            async_result.set(value)
            return value

        return settled

    return settle
