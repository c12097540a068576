"""Servers of stores that are silent: one that never answers, a row that another transaction holds, a statement that comes late."""
import os
import socket
import threading
import time

from lives import Cluster, Wrong
from listening import PROCESSES, connect, has_said, payload, works
from looks import is_built_with, told
from storage import Bucket, Table, lets_through

PORT, WAIT = 17820, 30  # WAIT: seconds that a program waits
WAITS, ANSWERS = "it doesn't answer: this program waits", "it answers, after"


class Line:
    """A connection to the exchange, and the one to its server. What comes in while it is held waits."""

    def __init__(self, near, server):
        self.near, self.far = near, socket.create_connection(server)
        self.is_held, self.is_broken, self.late, self.answer = False, False, b"", b""
        for passes in (self.asks, self.answers):
            threading.Thread(target=passes, daemon=True).start()

    def asks(self):
        while data := self.near.recv(1 << 16):
            if self.is_held:
                self.late += data
            else:
                self.far.sendall(data)
        self.ends(self.far if not self.is_held else self.near)

    def answers(self):
        while data := self.far.recv(1 << 16):
            if self.is_broken:
                self.answer += data
            else:
                self.near.sendall(data)
        self.ends(self.near)

    def ends(self, end):
        try:
            end.shutdown(socket.SHUT_RDWR)
        except OSError:
            pass  # the other side was faster

    def breaks(self):
        """Its program sees it end; its server doesn't."""
        self.is_broken = True
        self.ends(self.near)

    def goes_on(self):
        """What was held comes now; the server's answer to a write."""
        until = time.monotonic() + 10
        self.far.sendall(self.late)
        while b"INSERT 0 " not in self.answer:
            if time.monotonic() > until:
                raise Wrong(f"a write that came late is answered by {self.answer}")
            time.sleep(0.01)
        return self.answer


class Exchange:
    """Passes connections on to a server."""

    def __init__(self, server):
        self.server, self.lines, self.socket = server, [], socket.create_server(("127.0.0.1", 0))
        self.port = self.socket.getsockname()[1]
        threading.Thread(target=self.accepts, daemon=True).start()

    def accepts(self):
        while True:
            self.lines.append(Line(self.socket.accept()[0], self.server))


def ends_alone(folder):
    """A server that takes connections, and says nothing: a program ends after its wait, and says so before."""
    deaf = socket.create_server(("127.0.0.1", 0))
    port, cluster, programs = deaf.getsockname()[1], Cluster(folder, "bank", PROCESSES), []
    for program, library, word in zip(cluster.nodes, ("libpq", "libnats"),
                                      (f"postgres:host=127.0.0.1 port={port}", f"nats:nats://127.0.0.1:{port}/bank")):
        program.store = word
        if is_built_with(library, [*program.command()[1:], "--check"], f"a silent server of {word.partition(':')[0]}"):
            programs.append(program)
    began = time.monotonic()
    for program in programs:
        program.start()
    for program in programs:
        has_said(program, WAITS)
        status, took = program.ends(), time.monotonic() - began
        if status != 6 or not WAIT - 1 < took < 2 * WAIT:
            raise Wrong(f"{program.store}: status {status} after {took:.0f} s: {program.said}")


def started(folder, storage):
    cluster = Cluster(folder, "bank", PROCESSES)
    lets_through(folder)
    cluster.lines = os.path.join(folder, "lines")
    for program in cluster.programs:
        storage.takes(program)
    cluster.gateway.words += ["--listen", "unix:" + cluster.lines]
    return cluster


def waits_for_lock(cluster, storage, talk):
    """Another transaction holds the claim of a program: this one waits, and goes on."""
    text = "BEGIN; SELECT FROM sblog WHERE store = 'bank.1' AND name = 'claim' FOR UPDATE; SELECT pg_sleep(3); COMMIT"
    other = threading.Thread(target=storage.query, args=[text])
    other.start()
    time.sleep(0.5)
    works(cluster, talk, 2)
    other.join()
    for sentence in (WAITS, ANSWERS):
        has_said(cluster.nodes[0], sentence)


def comes_late(cluster, storage, exchange, talk):
    """A connection breaks with a write on its way, which the server gets after later ones: it changes nothing."""
    old = exchange.lines[-1]
    old.is_held = True
    talk.says("input relay 3")
    while not old.late:
        time.sleep(0.01)
    old.breaks()
    talk.hears("logged relay 3", f"output echo 3 {payload(3)}")
    works(cluster, talk, 4)
    stored = "SELECT md5(string_agg(name || claim || encode(bytes, 'hex'), ',' ORDER BY name, number)) FROM sblog WHERE store = 'bank.1'"
    before = storage.query(stored)
    answer = old.goes_on()
    if b"INSERT 0 0" not in answer or storage.query(stored) != before:
        raise Wrong(f"a write that came late was taken: {answer}")
    works(cluster, talk, 5)


def table(folder):
    with Table(folder, "127.0.0.1", PORT) as storage:
        cluster, exchange = started(os.path.join(folder, "cluster"), storage), Exchange(("127.0.0.1", storage.port))
        relay = cluster.nodes[0]
        relay.store = storage.word.replace(f"port={storage.port}", f"port={exchange.port}")
        cluster.start()
        talk = connect(cluster)
        talk.says("outputs")
        works(cluster, talk, 1)
        waits_for_lock(cluster, storage, talk)
        comes_late(cluster, storage, exchange, talk)
        cluster.stop()


def bucket(folder):
    """A server that takes less than is stored."""
    file = os.path.join(folder, "small.conf")
    with open(file, "w") as small:
        small.write("max_payload: 600\n")
    with Bucket(folder, "127.0.0.1", PORT) as storage:
        cluster = started(os.path.join(folder, "cluster"), storage)
        cluster.start()
        talk = connect(cluster)
        talk.says("outputs")
        works(cluster, talk, 1, 2)
        cluster.stop()
        storage.server.kill()
        storage.server.words = ["-c", file]
        storage.server.__enter__()
        for program in cluster.programs:
            words = program.command()[1:]
            for words in (words, [*words, "--check"]):
                if not any("its server's max_payload is 600" in line for line in told(words, 6)[1]):
                    raise Wrong(f"{program.name} doesn't name max_payload")


def silence(folder):
    ends_alone(folder + ".deaf")
    for kind, tries in ((Table, table), (Bucket, bucket)):
        if kind.is_here():
            place = os.path.join(folder, kind.__name__)
            os.makedirs(place)
            tries(place)
