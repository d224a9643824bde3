"""TLS for connections to servers, by kazoo's options for it."""

from __future__ import annotations

import contextlib
from collections.abc import Iterator
from typing import TYPE_CHECKING, Optional

if TYPE_CHECKING:
    import ssl

__all__ = ["tls_context"]


def tls_context(
    *,
    ca: Optional[str] = None,
    certfile: Optional[str] = None,
    keyfile: Optional[str] = None,
    keyfile_password: Optional[str] = None,
    verify_certs: bool = True,
    check_hostname: bool = True,
) -> ssl.SSLContext:
    """A context for `Client(.., ssl=context)`, made of files in PEM. Any other context of the module `ssl` serves too.

    `ca` has the trusted certificates; by default the system's are trusted. `certfile` and `keyfile` are the
    client's own certificate and key, if the server wants one; `keyfile` may be left out if both are in one file.
    The name in the server's certificate has to be that of the connection string, unless `check_hostname` is false. With
    `verify_certs` false any server is believed, and so is whoever is on the way to it.

    Raises `OSError` if a file can't be read, and `ssl.SSLError` if it is no certificate or key: both name the file. Raises
    `ValueError` for a key without its certificate.

        context = dirwolleu.tls_context(ca="ca.pem", certfile="client.pem", keyfile="client.key")
        client = dirwolleu.Client("zk1.example:2281", ssl=context)
    """
    import ssl  # here, so that no import of the package loads it

    if keyfile is not None and certfile is None:
        raise ValueError(f"the key {keyfile} wants its certificate: name it by certfile")
    with _naming(ca):
        context = ssl.create_default_context(cafile=ca)
    if not verify_certs:
        context.check_hostname = False
        context.verify_mode = ssl.CERT_NONE
    elif not check_hostname:
        context.check_hostname = False
    if certfile is not None:
        with _naming(certfile, keyfile):
            context.load_cert_chain(certfile, keyfile, keyfile_password)
    return context


@contextlib.contextmanager
def _naming(*files: Optional[str]) -> Iterator[None]:
    """Adds to an error of reading these files the name of the one that can't be read, or else all names."""
    try:
        yield
    except OSError as error:
        names = [file for file in files if file is not None]
        for name in names:
            open(name, "rb").close()
        error.strerror = f"{', '.join(names)}: {error.strerror}"
        raise
