#!/usr/bin/env python3
"""metrics HOST:PORT[,HOST:PORT..] PATH [PORT]: follows a node, and serves a page for Prometheus of what its client does, until it is interrupted.

The page is at PORT of 127.0.0.1, or at a free one, which is printed.
"""

import http.server
import pathlib
import sys
import threading

sys.path.insert(0, str(pathlib.Path(__file__).resolve().parents[1]))

import dirwolleu  # noqa: E402
from dirwolleu.metrics import Metrics  # noqa: E402


def page_of(metrics: Metrics) -> type[http.server.BaseHTTPRequestHandler]:
    class Page(http.server.BaseHTTPRequestHandler):
        def do_GET(self) -> None:
            body = metrics.text().encode()
            self.send_response(200)
            self.send_header("Content-Type", "text/plain; version=0.0.4; charset=utf-8")
            self.send_header("Content-Length", str(len(body)))
            self.end_headers()
            self.wfile.write(body)

        def log_message(self, *_: object) -> None: ...

    return Page


def main(hosts: str, path: str, port: str = "0") -> None:
    client = dirwolleu.Client(hosts)
    server = http.server.ThreadingHTTPServer(("127.0.0.1", int(port)), page_of(Metrics(client)))
    print(f"http://127.0.0.1:{server.server_port}/metrics", flush=True)
    threading.Thread(target=server.serve_forever, daemon=True).start()
    with client:
        for kept in client.follow(path):
            print(kept.path, (kept.data or b"").decode(errors="replace") if kept.exists else "(no node)", flush=True)


if __name__ == "__main__":
    if len(sys.argv) not in (3, 4):
        sys.exit(__doc__)
    try:
        main(*sys.argv[1:])
    except KeyboardInterrupt:
        pass
