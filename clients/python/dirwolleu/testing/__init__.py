"""A ZooKeeper server in memory, for the tests of programs that use ZooKeeper.

    import dirwolleu
    from dirwolleu.testing import Server

    with Server() as server, dirwolleu.Client(server.hosts) as client:
        client.create("/config", b"one")
        server.set("/config", b"two")  # as another client does
        assert client.get("/config")[0] == b"two"
        server.expire(client.session_id)
        assert client.retry(client.get, "/config")[0] == b"two"

It listens at a port of 127.0.0.1, so any client of ZooKeeper can use it. Each answer to a request of the core comes from a server that is
proved to be one of the model; the loop around it, and the replies to transactions, ACLs, credentials, `sync` and `create2`, are tested.

It has no disk, no TLS, no SASL, no access control (ACLs are kept, and admit everybody), no containers, no persistent watches, and no time:
a session ends when it is closed or by `Server.expire`, however long its client is silent. A transaction takes a zxid for each of its
changes. A frame that comes may have 4,194,304 bytes after its length; by default, servers take 1,048,575.

Tests by pytest get a server by the fixture `zookeeper`, as soon as the package is installed.
"""

from dirwolleu.testing._server import Server

__all__ = ["Server"]
