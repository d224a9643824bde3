"""The parts of a text or a list of hosts (kazoo.hosts)."""

from __future__ import annotations

from collections.abc import Sequence
from typing import Optional, Union
from urllib.parse import urlsplit


def collect_hosts(hosts: Union[str, Sequence[str]]) -> tuple[list[tuple[str, int]], Optional[str]]:
    """The hosts with their ports, and the chroot, if there is one. Raises `ValueError` if a host has no name."""
    if isinstance(hosts, str):
        servers, slash, root = hosts.partition("/")
        texts, chroot = servers.split(","), slash + root
    else:
        texts, chroot = list(hosts), ""
        if texts and texts[-1].strip().startswith("/"):
            chroot = texts.pop()
    found = [urlsplit(f"xxx://{text.strip()}") for text in texts]
    if not all(one.hostname for one in found):
        raise ValueError("bad hostname")
    return [(one.hostname or "", one.port or 2181) for one in found], chroot if len(chroot) > 1 else None
