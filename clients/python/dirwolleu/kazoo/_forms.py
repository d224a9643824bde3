"""Results and keywords in kazoo's form."""

from __future__ import annotations

import inspect
import warnings
from collections.abc import Iterable, Sequence
from typing import Any, Optional, Union

from dirwolleu import _jute as jute
from dirwolleu._hosts import Hosts, hosts_of
from dirwolleu._library import Answer
from dirwolleu._records import Created
from dirwolleu._requests import Request
from dirwolleu._root import Root
from dirwolleu.kazoo.exceptions import ConfigurationError
from dirwolleu.kazoo.handlers.threading import SequentialThreadingHandler
from dirwolleu.kazoo.protocol.paths import normpath
from dirwolleu.kazoo.protocol.states import ZnodeStat
from dirwolleu.kazoo.retry import KazooRetry
from dirwolleu.kazoo.security import ACL
from dirwolleu.sasl import Sasl, digest_md5
from dirwolleu.types import Stat

HostList = Union[str, Sequence[str]]


def as_it_is(result: Any) -> Any:
    return result


def true(_: object) -> bool:
    return True


def stat(stat: Optional[Stat]) -> Optional[ZnodeStat]:
    return None if stat is None else ZnodeStat(*stat)


def data(result: tuple[Optional[bytes], Stat]) -> tuple[Optional[bytes], ZnodeStat]:
    return result[0], ZnodeStat(*result[1])


def acls(result: tuple[list[ACL], Stat]) -> tuple[list[ACL], ZnodeStat]:
    return result[0], ZnodeStat(*result[1])


def created(result: Created) -> tuple[str, ZnodeStat]:
    return result.path, ZnodeStat(*result.stat)


class Children(Request[Any]):
    """Reads the names of a node's children, and the node's metadata."""

    def result(self, answer: Answer, root: Root) -> Any:
        names = super().result(answer, root)
        return names, stat(answer.stat)


def reconfig(joining: Optional[str], leaving: Optional[str], new_members: Optional[str], from_config: int) -> bytes:
    """A ReconfigRequest of zookeeper.jute."""
    texts = (jute.buffer(None if text is None else text.encode()) for text in (joining, leaving, new_members))
    return b"".join(texts) + jute.long(from_config)


def hosts(hosts: HostList) -> Hosts:
    """Reads a text or a list of hosts, with the chroot in kazoo's form. Raises `ValueError`."""
    if not isinstance(hosts, str):
        texts = [host.strip() for host in hosts]
        chroot = texts.pop() if texts and texts[-1].startswith("/") else ""
        hosts = ",".join(texts) + chroot
    servers, slash, root = hosts.partition("/")
    chroot = normpath(slash + root)
    return hosts_of(servers + ("" if chroot == "/" else chroot))


def policy(name: str, policy: object, handler: SequentialThreadingHandler) -> KazooRetry:
    """The policy of a keyword; None is one without end."""
    if policy is None:
        return KazooRetry(max_tries=None, sleep_func=handler.sleep_func)
    if isinstance(policy, dict):
        words: dict[str, Any] = {"sleep_func": handler.sleep_func, **policy}
        policy = KazooRetry(**words)
    if not isinstance(policy, KazooRetry):
        raise ConfigurationError(f"{name} is a KazooRetry or a dict of its words, and not {policy!r}")
    if policy.sleep_func != handler.sleep_func:
        raise ConfigurationError(f"{name} and the handler must use the same sleep func")
    return policy


_OLD = {"max_retries": "max_tries", "retry_delay": "delay", "retry_backoff": "backoff", "retry_jitter": "max_jitter", "retry_max_delay": "max_delay"}


def old_policy(others: dict[str, Any]) -> Optional[dict[str, Any]]:
    """Takes out the old keywords of a policy, which hold for both: the arguments of a `KazooRetry`, or None if there are none."""
    found = {new: others.pop(old) for old, new in _OLD.items() if old in others}
    return {"max_tries": None, **found} if found else None


def sasl(options: Optional[dict[str, Any]], auth_data: Iterable[tuple[str, str]]) -> Optional[Sasl]:
    """The log-in by `sasl_options`, or by a pair of `auth_data` as long ago. Raises `ConfigurationError` if the mechanism is not known
    here.
    """
    for scheme, credential in auth_data:
        if scheme == "sasl" and options is None:
            warnings.warn("Passing SASL configuration as part of the auth_data is deprecated, use sasl_options", DeprecationWarning)
            username, _, password = credential.partition(":")
            options = {"mechanism": "DIGEST-MD5", "username": username, "password": password}
    if options is None:
        return None
    if options.get("mechanism") != "DIGEST-MD5":
        raise ConfigurationError("sasl_options: dirwolleu.kazoo does DIGEST-MD5 alone; dirwolleu.sasl takes another mechanism as a function")
    try:
        return digest_md5(options["username"], options["password"])
    except KeyError as missing:
        raise ConfigurationError(f"sasl_options: {missing} is wanted") from None


def refuse(read_only: object, handler: object, others: dict[str, Any]) -> None:
    """Raises an error that names the keyword whose request is not supported."""
    if others:
        raise TypeError(f"__init__() got unexpected keyword arguments: {', '.join(sorted(others))}")
    if read_only:
        raise ConfigurationError("read_only: dirwolleu.kazoo connects to no server that only reads")
    if inspect.isclass(handler):
        raise ConfigurationError(f"handler is an instance of a class, and not the class {handler!r}")
