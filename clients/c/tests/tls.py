#!/usr/bin/env python3
"""Runs the example `tls` against the server in memory, with TLS before it: what it prints, and what it says of a certificate that it does not trust.

  tls.py TLS SERVER
"""
import socket
import ssl
import subprocess
import sys
import tempfile
import threading
from pathlib import Path

BOUND = 120
PROGRAM, SERVER = sys.argv[1:3] if len(sys.argv) == 3 else sys.exit(__doc__)


def make_certificate(folder, name):
    """A certificate of 127.0.0.1 that has signed itself, and its key."""
    files = [str(folder / f"{name}.pem"), str(folder / f"{name}.key")]
    words = ["openssl", "req", "-x509", "-newkey", "ec", "-pkeyopt", "ec_paramgen_curve:P-256", "-nodes", "-days", "2"]
    words += ["-subj", f"/CN={name}", "-addext", "subjectAltName=IP:127.0.0.1", "-out", files[0], "-keyout", files[1]]
    subprocess.run(words, check=True, capture_output=True, timeout=BOUND)
    return files


def carry(source, target):
    try:
        while data := source.recv(65536):
            target.sendall(data)
    except OSError:
        pass
    for end in (source, target):
        try:
            end.shutdown(socket.SHUT_RDWR)
        except OSError:
            pass


def serve(listener, context, port):
    """Takes TLS off each connection, and hands the bytes to the server at a port."""
    while True:
        accepted, _ = listener.accept()
        try:
            inner = context.wrap_socket(accepted, server_side=True)
        except (OSError, ssl.SSLError):
            continue
        outer = socket.create_connection(("127.0.0.1", port))
        for pair in ((inner, outer), (outer, inner)):
            threading.Thread(target=carry, args=pair, daemon=True).start()


def main():
    with tempfile.TemporaryDirectory() as folder:
        trusted, other = make_certificate(Path(folder), "one"), make_certificate(Path(folder), "other")
        partner = subprocess.Popen([sys.executable, SERVER], stdin=subprocess.PIPE, stdout=subprocess.PIPE, text=True, bufsize=1)
        port = int(partner.stdout.readline().split()[1])
        context = ssl.SSLContext(ssl.PROTOCOL_TLS_SERVER)
        context.load_cert_chain(*trusted)
        listener = socket.create_server(("127.0.0.1", 0))
        threading.Thread(target=serve, args=(listener, context, port), daemon=True).start()
        address = f"127.0.0.1:{listener.getsockname()[1]}"

        def do(command):
            partner.stdin.write(command + "\n")
            assert partner.stdout.readline() == "done\n", command

        do("create /config first")
        with subprocess.Popen([PROGRAM, address, "/config", trusted[0]], stdout=subprocess.PIPE, stderr=subprocess.DEVNULL, text=True) as program:
            assert program.stdout.readline().startswith("first at zxid ")
            do("set /config second")
            assert program.stdout.readline().startswith("second at zxid ")
            do("drop")
            do("set /config " + 100_000 * "x")
            assert len(program.stdout.readline()) > 100_000
            program.terminate()
            assert program.wait(BOUND) == 0
        with subprocess.Popen([PROGRAM, address, "/config", other[0]], stdout=subprocess.DEVNULL, stderr=subprocess.PIPE, text=True) as program:
            assert program.stderr.readline() == f"{address}: self-signed certificate\n"
            program.kill()
        partner.kill()
        partner.wait(BOUND)


if __name__ == "__main__":
    main()
    print("tls: passed")
