"""A bucket of several NATS servers, which keep what they took while one of them is dead."""
import os
import time

from server import Server
from storage import Bucket

COUNT, CLUSTER = 3, 10  # servers; between the ports of a server for programs, and for the others


class Replicas(Bucket):
    """A bucket of three NATS servers. One at a time is killed, and comes back; not the first, which is asked here."""

    may_fail, replicas = True, COUNT

    def __init__(self, folder, host, port):
        super().__init__(folder, host, port)
        routes = ",".join(f"nats://{host}:{port + CLUSTER + number}" for number in range(COUNT))
        self.servers, self.turn = [], 1
        for number in range(COUNT):
            words = ["-n", f"bank-{number}", "--cluster_name", "bank", "--routes", routes]
            words += ["--cluster", f"nats://{host}:{port + CLUSTER + number}"]
            self.servers.append(Server(True, port + number, host, os.path.join(folder, f"jetstream-{number}"), words))
        self.server = self.servers[0]
        self.word = "nats:" + ",".join(f"nats://{host}:{it.port}" for it in self.servers) + "/bank"

    def begins(self):
        for server in self.servers:
            server.__enter__()

    def __exit__(self, *_):
        for server in self.servers:
            server.__exit__()

    def fails(self):
        """The next server is killed, and comes back after a while. It has time to take what it missed, before another one goes."""
        self.turn = 3 - self.turn
        dead = self.servers[self.turn]
        dead.kill()
        time.sleep(1)
        dead.__enter__()
        time.sleep(5)
