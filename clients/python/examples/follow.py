#!/usr/bin/env python3
"""follow HOST:PORT[,HOST:PORT..] PATH: prints what a node holds, and again at each change, until it is interrupted."""

import pathlib
import sys

sys.path.insert(0, str(pathlib.Path(__file__).resolve().parents[1]))

import dirwolleu  # noqa: E402


def main(hosts: str, path: str) -> None:
    with dirwolleu.Client(hosts) as client:
        client.add_listener(lambda state: print(state.value, file=sys.stderr, flush=True))
        for kept in client.follow(path):
            shown = (kept.data or b"").decode(errors="replace") if kept.exists else "(no node)"
            print(kept.path, kept.mark.name.lower(), f"{kept.last_zxid:#x}", shown, flush=True)


if __name__ == "__main__":
    if len(sys.argv) != 3:
        sys.exit(__doc__)
    try:
        main(sys.argv[1], sys.argv[2])
    except KeyboardInterrupt:
        pass
