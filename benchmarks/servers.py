"""A real ZooKeeper server for one benchmark, and a relay that cuts connections to it."""

import socket
import subprocess
import threading
import time

JARS = "/usr/share/java/zookeeper.jar:/usr/share/java/slf4j-nop.jar"
LONGEST_SECONDS = 900  # until the server serves, or a client has run a row, on a machine that works too


class Server:
    """A real server of its own, which waits for no disk and takes no snapshot meanwhile."""

    def __init__(self, folder):
        with socket.socket() as free:
            free.bind(("127.0.0.1", 0))
            self.port = free.getsockname()[1]
        settings = folder / "server.cfg"
        settings.write_text(
            f"tickTime=2000\ndataDir={folder}/data\nclientPort={self.port}\nclientPortAddress=127.0.0.1\n"
            "maxClientCnxns=0\nadmin.enableServer=false\n4lw.commands.whitelist=srvr\n"
        )
        options = ["-Xmx1g", "-Djava.net.preferIPv4Stack=true", "-Dzookeeper.jmx.log4j.disable=true"]
        options += ["-Dzookeeper.forceSync=no", "-Dzookeeper.snapCount=100000000"]
        main = "org.apache.zookeeper.server.quorum.QuorumPeerMain"
        self.process = subprocess.Popen(
            ["java", *options, "-cp", JARS, main, settings], stdout=subprocess.DEVNULL, stderr=subprocess.DEVNULL
        )

    def wait(self):
        """Waits until it serves."""
        end = time.monotonic() + LONGEST_SECONDS
        while not self._serves():
            if time.monotonic() > end:
                raise SystemExit("failed: the server does not serve")
            time.sleep(0.1)

    def _serves(self):
        try:
            with socket.create_connection(("127.0.0.1", self.port), timeout=5) as connection:
                connection.sendall(b"srvr")
                with connection.makefile() as lines:
                    return "Mode:" in lines.read()
        except OSError:
            return False

    def stop(self):
        self.process.kill()
        self.process.wait()


class Relay:
    """Hands bytes on between a client and the server, and cuts the connection once when it is told."""

    def __init__(self, port):
        self.server_port = port
        self.listener = socket.create_server(("127.0.0.1", 0))
        self.port = self.listener.getsockname()[1]
        self.pairs = []
        self.dialled = []
        threading.Thread(target=self._accept, daemon=True).start()

    def _accept(self):
        while True:
            try:
                client, _ = self.listener.accept()
            except OSError:
                return
            self.dialled.append(time.monotonic())
            server = socket.create_connection(("127.0.0.1", self.server_port))
            self.pairs.append((client, server))
            for source, target in ((client, server), (server, client)):
                source.setsockopt(socket.IPPROTO_TCP, socket.TCP_NODELAY, 1)
                threading.Thread(target=self._pump, args=(source, target), daemon=True).start()

    @staticmethod
    def _pump(source, target):
        try:
            while piece := source.recv(1 << 18):
                target.sendall(piece)
            target.shutdown(socket.SHUT_RDWR)
        except OSError:
            pass

    def cut(self):
        """Ends the connection, and answers the moment."""
        moment = time.monotonic()
        self.pairs[-1][0].shutdown(socket.SHUT_RDWR)
        return moment

    def close(self):
        self.listener.shutdown(socket.SHUT_RDWR)
        self.listener.close()
        for end in (end for pair in self.pairs for end in pair):
            end.close()
