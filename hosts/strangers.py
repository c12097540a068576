"""Stores that were lost, and packets and greetings of other clusters."""
import os
import shutil
import socket
import subprocess
import time

import lives
from lives import Cluster, Wrong
from disk import preload
from listening import PROCESSES, begin, connect, has_said, is_refused, payload, tells, works
from proxy import Proxy


def lost(folder):
    """A node whose store is lost, in whatever life, is refused, and says so; with its store it goes on."""
    cluster = begin(folder)
    one, echo = connect(cluster), cluster.nodes[1]
    one.says("outputs")
    works(cluster, one, 1, 2, 3)
    for last in (4, 5):
        echo.kill()
        os.rename(echo.store, echo.store + ".away")
        for _ in range(2):
            is_refused(echo, "the cluster has heard of echo with another store")
        cluster.gateway.kill()
        cluster.gateway.start()
        is_refused(echo, "the cluster has heard of echo with another store")
        shutil.rmtree(echo.store)
        os.rename(echo.store + ".away", echo.store)
        echo.start()
        echo.wait_up()
        one = connect(cluster)
        one.says("outputs", *(f"took echo {number}" for number in range(1, last)))
        works(cluster, one, last)


def gateway(folder):
    """A gateway whose store is lost is another cluster's: no node listens to it. With its store it goes on."""
    cluster = begin(folder)
    one, (relay, echo), first = connect(cluster), cluster.nodes, cluster.gateway
    one.says("outputs")
    works(cluster, one, 1, 2)
    first.kill()
    os.rename(first.store, first.store + ".away")
    first.start()
    one = connect(cluster)
    one.says("outputs", "input relay 9")
    one.hears("logged relay 1")
    until = time.monotonic() + 20
    while int((relay.status or {}).get("foreign", 0)) == 0:
        if time.monotonic() > until:
            raise Wrong(f"relay tells {relay.status}")
        cluster.standings()
    tells(relay, length=2, refused=0)
    tells(echo, length=2, refused=0)
    first.kill()
    shutil.rmtree(first.store)
    os.rename(first.store + ".away", first.store)
    first.start()
    one = connect(cluster)
    one.says("outputs", "took echo 2")
    works(cluster, one, 3)


def caught(cluster, node, peer):
    """What a node sends to a peer that is away."""
    path = cluster.path(peer.number)
    with socket.socket(socket.AF_UNIX, socket.SOCK_DGRAM) as inlet:
        inlet.bind(path)
        inlet.settimeout(10)
        node.start()
        frames = [inlet.recv(1 << 17) for _ in range(3)]
        node.kill()
    os.remove(path)
    return frames


def earlier(folder):
    """Packets of an earlier cluster at the same addresses, of later incarnations, come late: they are dropped."""
    cluster = begin(folder)
    one, (relay, echo) = connect(cluster), cluster.nodes
    one.says("outputs")
    works(cluster, one, 1)
    for _ in range(3):
        echo.kill()
        echo.start()
        echo.wait_up()
    echo.kill()
    relay.stop()
    frames = caught(cluster, echo, relay)
    cluster.stop()
    for program in cluster.programs:
        shutil.rmtree(program.store)
    cluster.start()
    one = connect(cluster)
    one.says("outputs")
    works(cluster, one, 1)
    with socket.socket(socket.AF_UNIX, socket.SOCK_DGRAM) as out:
        for frame in frames:
            out.sendto(frame, cluster.path(relay.number))
    time.sleep(0.2)
    works(cluster, one, *range(2, 20))
    tells(relay, foreign=3, exact="yes")


def greetings(folder):
    """Greetings of other clusters and other stores, and answers to them, that come late or were made up."""
    cluster = begin(folder)
    one, ids = connect(cluster), (bytes(16), cluster.gateway.id(), b"another cluster.")
    own, other = (node.id(f"store-id {node.number}") for node in cluster.nodes)
    one.says("outputs")
    works(cluster, one, 1)
    with socket.socket(socket.AF_UNIX, socket.SOCK_DGRAM) as out:
        for word in range(7):
            for process in range(4):
                for store in (own, other, b"one more store..", bytes(16)):
                    for number in range(3):
                        for cluster_id in ids:
                            out.sendto(lives.greeting(word, process, cluster_id, store), cluster.path(number))
    has_said(cluster.gateway, "came with another store than before")
    time.sleep(0.3)
    works(cluster, one, *range(2, 10))
    for node in cluster.nodes:
        node.kill()
        node.start()
        node.wait_up()
    works(cluster, one, *range(10, 20))


def joins(folder, name, environment=None, seed=None):
    """A cluster begins, whose program of this name dies in its first life at a call on its store; all come up, and work."""
    cluster = Cluster(folder, "programs", PROCESSES, proxied=seed is not None)
    cluster.lines = os.path.join(folder, "lines")
    cluster.gateway.words = ["--listen", "unix:" + cluster.lines]
    proxy = Proxy(cluster, seed) if seed is not None else None
    if proxy:
        proxy.start()
    died = False
    for program in cluster.programs:
        program.environment = environment if program.name == name else None
        program.start()
    for program in cluster.programs:
        if program.name == name and environment:
            try:
                died = program.child.wait(3) is not None
            except subprocess.TimeoutExpired:
                program.kill()
            program.environment = None
            program.start()
    for node in cluster.nodes:
        node.wait_up()
    one = connect(cluster)
    one.says("outputs")
    works(cluster, one, 1, 2)
    if proxy:
        proxy.over = True
    cluster.stop()
    return died


def joining(folder):
    """A new cluster begins whichever program dies at whichever call on its store, and over a way that loses, doubles and delays."""
    os.makedirs(folder)
    library = preload(folder)
    for name in ("gateway", "relay"):
        call = 1
        while joins(os.path.join(folder, f"{name}{call}"), name, {"LD_PRELOAD": library, "DIE_AT": str(call)}):
            call += 1
        if call < 16:
            raise Wrong(f"{name} changes its store only {call - 1} times until it has joined")
    for seed in range(5):
        joins(os.path.join(folder, f"seed{seed}"), None, seed=seed)
