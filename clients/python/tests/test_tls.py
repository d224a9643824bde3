"""Tests of connections by TLS, with certificates that are made here, before a partner that knows nothing of it."""

from __future__ import annotations

import asyncio
import contextlib
import pathlib
import shutil
import socket
import ssl
import subprocess
import tempfile
import threading
import unittest
from typing import Any, Optional

from support import TIMEOUT, WAIT, Listener, Partner, PartnerCase, Peer, within

from dirwolleu import Client, ConnectionClosedError, State, aio, tls_context
from dirwolleu.kazoo._checks import own_key


class Authority:
    """A signer of certificates, in a folder."""

    def __init__(self, folder: pathlib.Path, name: str) -> None:
        self._folder, self._name = folder, name
        self.certificate = str(folder / f"{name}.pem")
        self._key = str(folder / f"{name}.key")
        self._openssl(
            "req", "-x509", "-newkey", "ec", "-pkeyopt", "ec_paramgen_curve:P-256", "-nodes", "-days", "2", "-subj",
            f"/CN={name}", "-addext", "keyUsage=critical,keyCertSign", "-keyout", self._key, "-out", self.certificate,
        )  # fmt: skip

    def sign(self, name: str, password: Optional[str] = None) -> tuple[str, str]:
        """The files of a certificate of this name, and of its key."""
        key, request, certificate = (str(self._folder / f"{self._name}-{name}.{end}") for end in ("key", "csr", "pem"))
        names = self._folder / f"{self._name}-{name}.txt"
        address = ",IP:127.0.0.1" if name == "localhost" else ""
        names.write_text(f"subjectAltName=DNS:{name}{address}\nauthorityKeyIdentifier=keyid\n")
        secret = ["-passout", f"pass:{password}"] if password else ["-nodes"]
        self._openssl(
            "req", "-new", "-newkey", "ec", "-pkeyopt", "ec_paramgen_curve:P-256", *secret, "-subj", f"/CN={name}",
            "-keyout", key, "-out", request,
        )  # fmt: skip
        self._openssl(
            "x509", "-req", "-in", request, "-CA", self.certificate, "-CAkey", self._key, "-CAcreateserial", "-days",
            "2", "-extfile", str(names), "-out", certificate,
        )  # fmt: skip
        return certificate, key

    def _openssl(self, *words: str) -> None:
        subprocess.run(["openssl", *words], check=True, capture_output=True, timeout=3 * WAIT)


class Wrapper(Listener):
    """A port at which TLS is spoken, in front of a partner."""

    def __init__(self, partner: Partner, context: ssl.SSLContext) -> None:
        self._partner, self._context = partner, context
        super().__init__()

    def _take(self, connection: socket.socket) -> None:
        threading.Thread(target=self._serve, args=(connection,), daemon=True).start()

    def _serve(self, connection: socket.socket) -> None:
        with contextlib.suppress(OSError), connection:
            connection.settimeout(3 * WAIT)
            with self._context.wrap_socket(connection, server_side=True) as outer:
                with socket.create_connection(("127.0.0.1", self._partner.port)) as inner:
                    threading.Thread(target=self._pass_on, args=(inner, outer), daemon=True).start()
                    self._pass_on(outer, inner)

    def _pass_on(self, source: socket.socket, sink: socket.socket) -> None:
        with contextlib.suppress(OSError):
            while data := source.recv(65536):
                sink.sendall(data)
        with contextlib.suppress(OSError):
            sink.shutdown(socket.SHUT_RDWR)


@unittest.skipUnless(shutil.which("openssl"), "there is no openssl")
class TlsTest(PartnerCase):
    @classmethod
    def setUpClass(cls) -> None:
        folder = tempfile.TemporaryDirectory()
        cls.addClassCleanup(folder.cleanup)
        cls.authority = Authority(pathlib.Path(folder.name), "authority")
        cls.stranger = Authority(pathlib.Path(folder.name), "stranger")
        cls.server, cls.own = cls.authority.sign("localhost"), cls.authority.sign("client", "secret")

    authority: Authority
    stranger: Authority
    server: tuple[str, str]
    own: tuple[str, str]

    def wrapped(self, wants_client: bool = False) -> tuple[Partner, int]:
        partner = self.partner()
        context = ssl.SSLContext(ssl.PROTOCOL_TLS_SERVER)
        context.load_cert_chain(*self.server)
        if wants_client:
            context.verify_mode = ssl.CERT_REQUIRED
            context.load_verify_locations(self.authority.certificate)
        wrapper = Wrapper(partner, context)
        self.addCleanup(wrapper.stop)
        return partner, wrapper.port

    def client(self, port: int, context: ssl.SSLContext, host: str = "localhost") -> Client:
        client = Client(f"{host}:{port}", TIMEOUT, ssl=context)
        self.addCleanup(client.close)
        self.addCleanup(client.stop)
        return client

    def start(self, client: Client) -> None:
        with contextlib.suppress(ConnectionClosedError, TimeoutError):
            client.start(3 * WAIT)

    def test_a_client_speaks_tls(self) -> None:
        for host in ("localhost", "127.0.0.1"):
            partner, port = self.wrapped()
            client = self.client(port, tls_context(ca=self.authority.certificate), host)
            client.start(WAIT)
            client.create("/a", bytes(300_000))
            self.assertEqual(client.get("/a", watch=True)[0], bytes(300_000))
            partner.do("drop", "set /a two")
            within(lambda: client.stats().connections == 2)
            self.assertEqual(client.get("/a")[0], b"two")
            client.stop()
            self.assertIs(client.state, State.LOST)

    def test_asyncio(self) -> None:
        _, port = self.wrapped()

        async def run() -> list[str]:
            context = tls_context(ca=self.authority.certificate)
            async with aio.Client(f"localhost:{port}", ssl=context) as client:
                return await client.get_children("/")

        self.assertEqual(asyncio.run(run()), [])

    def test_a_server_that_is_not_trusted_is_not_believed(self) -> None:
        _, port = self.wrapped()
        client = self.client(port, tls_context(ca=self.stranger.certificate))
        with self.assertLogs("dirwolleu", "WARNING") as logs:
            starts = threading.Thread(target=self.start, args=(client,), daemon=True)
            starts.start()
            within(lambda: "CERTIFICATE_VERIFY_FAILED" in client._engine.trouble and logs.output)
        client.stop()
        starts.join(WAIT)
        self.assertEqual(client.stats().connections, 0)
        self.client(port, tls_context(verify_certs=False)).start(WAIT)

    def test_the_name_of_the_server_is_that_of_the_connection_string(self) -> None:
        _, port = self.wrapped()
        client = self.client(port, tls_context(ca=self.authority.certificate), "localhost.localdomain")
        with self.assertRaises(TimeoutError):
            client.start(1.0)
        context = tls_context(ca=self.authority.certificate, check_hostname=False)
        self.client(port, context, "127.0.0.1").start(WAIT)

    def test_a_server_may_want_a_certificate_of_the_client(self) -> None:
        _, port = self.wrapped(wants_client=True)
        client = self.client(port, tls_context(ca=self.authority.certificate))
        with self.assertRaises(TimeoutError):
            client.start(1.0)
        certificate, key = self.own
        context = tls_context(
            ca=self.authority.certificate, certfile=certificate, keyfile=key, keyfile_password="secret"
        )
        self.client(port, context).start(WAIT)

    def test_a_server_that_speaks_no_tls_is_left(self) -> None:
        client = self.client(self.partner().port, tls_context(ca=self.authority.certificate))
        with self.assertRaises(TimeoutError):
            client.start(1.5)

    def test_an_error_names_the_file(self) -> None:
        certificate, key = self.own
        folder = pathlib.Path(key).parent
        none, garbage = str(folder / "none.pem"), str(folder / "garbage.pem")
        pathlib.Path(garbage).write_text("no certificate")
        rows: tuple[tuple[dict[str, Any], type[Exception], str], ...] = (
            ({"ca": none}, FileNotFoundError, none),
            ({"ca": str(folder)}, IsADirectoryError, str(folder)),
            ({"ca": garbage}, ssl.SSLError, f"{garbage}: "),
            ({"certfile": none, "keyfile": key}, FileNotFoundError, none),
            ({"certfile": certificate, "keyfile": none}, FileNotFoundError, none),
            ({"certfile": garbage}, ssl.SSLError, f"{garbage}: "),
            ({"certfile": certificate, "keyfile": garbage}, ssl.SSLError, f"{certificate}, {garbage}: "),
            ({"keyfile": key}, ValueError, f"the key {key} wants its certificate: name it by certfile"),
        )
        for named, kind, words in rows:
            with self.subTest(named=named), self.assertRaises(kind) as caught:
                tls_context(**named)
            self.assertIs(type(caught.exception), kind)
            self.assertIn(words, str(caught.exception))
        self.assertIsNone(own_key(None, key))  # as kazoo

    def test_a_server_that_ends_the_handshake_is_told(self) -> None:
        server = self.raw_server(hear_hello)
        client = Client(server.host, TIMEOUT, ssl=tls_context(ca=self.authority.certificate))
        self.addCleanup(client.close)
        self.start_fails(client, f"last: {server.host}: the server ended the connection within the TLS handshake$")


def hear_hello(peer: Peer) -> None:
    """Reads the first record of TLS."""
    head = peer.take_bytes(5)
    peer.take_bytes(int.from_bytes(head[3:], "big"))
