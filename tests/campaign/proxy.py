"""Datagrams between programs, of which some are lost, some come twice, and some late, behind others."""
import heapq
import os
import random
import select
import socket
import threading
import time

LOST, TWICE, LATE, LONGEST = 0.1, 0.1, 0.2, 0.05


class Proxy(threading.Thread):
    """Takes what is sent to each process of a proxied cluster, and passes it on, or doesn't."""

    def __init__(self, cluster, seed):
        super().__init__(daemon=True)
        self.chance, self.counts = random.Random(seed), {"passed": 0, "lost": 0, "twice": 0, "late": 0}
        self.targets, self.late, self.over = {}, [], False
        for number in range(len(cluster.names)):
            path = cluster.path(number, through=True)
            inlet = socket.socket(socket.AF_UNIX, socket.SOCK_DGRAM)
            inlet.bind(path)
            self.targets[inlet] = cluster.path(number)
        self.out = socket.socket(socket.AF_UNIX, socket.SOCK_DGRAM)
        self.out.setblocking(False)

    def run(self):
        while not self.over:
            wait = max(0, self.late[0][0] - time.monotonic()) if self.late else 0.05
            for inlet in select.select(list(self.targets), [], [], min(wait, 0.05))[0]:
                self.take(inlet.recv(65536), self.targets[inlet])
            while self.late and self.late[0][0] <= time.monotonic():
                _, _, packet, target = heapq.heappop(self.late)
                self.send(packet, target)

    def take(self, packet, target):
        if self.chance.random() < LOST:
            self.counts["lost"] += 1
            return
        copies = 1
        if self.chance.random() < TWICE:
            self.counts["twice"] += 1
            copies = 2
        for _ in range(copies):
            if self.chance.random() < LATE:
                self.counts["late"] += 1
                at = time.monotonic() + self.chance.random() * LONGEST
                heapq.heappush(self.late, (at, os.urandom(8), packet, target))
            else:
                self.send(packet, target)

    def send(self, packet, target):
        try:
            self.out.sendto(packet, target)
            self.counts["passed"] += 1
        except OSError:
            self.counts["lost"] += 1
