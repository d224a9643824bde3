"""Changes a tree of a real ZooKeeper server by kazoo: trials/real_server.sh runs it, beside the example that prints what it keeps of the tree.

  grove.py PORT COUNT    makes a tree of 100 nodes below /grove, and then this many transactions, at about 100 a second. Each sets the root and three
                         other nodes, and makes a leaf or deletes one. The tree after each of them is written as the example prints it, without the
                         zxid
"""

import random
import sys
import time

from kazoo.client import KazooClient

port, count = map(int, sys.argv[1:])
client = KazooClient(hosts=f"127.0.0.1:{port}")
client.start(timeout=20)
branches = [f"/grove/b{number}" for number in range(9)]
leaves = [f"{branch}/l{number:02}" for number in range(20) for branch in branches]
nodes = {path: "0" for path in ["/grove", *branches, *leaves[:90]]}


def tell():
    print("".join(f" {path}={nodes[path]}" for path in sorted(nodes, key=lambda path: (path.count("/"), path))), flush=True)


def change(number):
    transaction = client.transaction()
    leaf = random.choice(leaves)
    others = [path for path in nodes if path not in ("/grove", leaf)]
    for path in ["/grove", *random.sample(others, 3)]:
        transaction.set_data(path, str(number).encode())
        nodes[path] = str(number)
    if nodes.pop(leaf, None):
        transaction.delete(leaf)
    else:
        transaction.create(leaf, str(number).encode())
        nodes[leaf] = str(number)
    if any(isinstance(one, Exception) for one in transaction.commit()):
        sys.exit("a transaction is refused")


first = client.transaction()
for path in nodes:
    first.create(path, b"0")
first.commit()
tell()
begun = time.monotonic()
for number in range(1, count + 1):
    change(number)
    tell()
    time.sleep(max(0.0, begun + number / 100 - time.monotonic()))
client.stop()
