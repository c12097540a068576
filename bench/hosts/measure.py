#!/usr/bin/env python3
"""How long an input of 64 bytes takes through two nodes (relay, echo) until it is shown, and how many pass a second; beside Redis streams
and NATS JetStream doing the same, and bare NATS requests. Rows take turns, so the medians of some rounds are of one machine. Then
how long a node takes from its start until it is up, and what memory the programs have.

    bench/run hosts [--rounds N] [--count N] [--long N] [--kills] [PROGRAM ..]

In a round COUNT inputs (400) go one by one, and a hundred times as many with 256 and with 2,048 ahead. LONG inputs (500,000) go by
before memory is looked at again. With --kills a node dies each second beside that. Where programs are named, each has its rows.
Inputs are durable before they are sent, and outputs before they are shown."""
import argparse
import contextlib
import os
import random
import shutil
import statistics
import subprocess
import sys
import tempfile
import threading
import time

sys.dont_write_bytecode = True
HERE = os.path.dirname(os.path.realpath(__file__))
TOP = os.path.join(HERE, "..", "..")
sys.path[:0] = [os.path.join(TOP, "tests", "campaign"), os.path.join(TOP, "hosts")]

import lives
from lives import Cluster
from server import Server

PROCESSES = [(name, os.path.join(TOP, "examples", f"{name}.sbi")) for name in ("relay", "echo")]
PORT, AHEAD, TIMES, BEHIND = 17600, (256, 2048), 100, 10000


def compiled(folder, name, *words):
    """A program of this folder; none where it needs a library that isn't there."""
    program = os.path.join(folder, name)
    command = ["cc", "-std=c11", "-D_GNU_SOURCE", "-O2", "-o", program, os.path.join(HERE, name + ".c"), *words]
    return program if subprocess.run(command, stderr=subprocess.DEVNULL).returncode == 0 else None


def passes(*words, **more):
    """Messages a second, and median and 99th of a hundred of what one took, in milliseconds."""
    done = subprocess.run([str(word) for word in words], stdout=subprocess.PIPE, text=True, timeout=300, check=True, **more)
    return [float(word) for word in done.stdout.split()]


@contextlib.contextmanager
def ended(*commands, **more):
    """Programs that run in the `with`."""
    running = [subprocess.Popen(words, stdout=subprocess.DEVNULL, stderr=subprocess.DEVNULL, **more) for words in commands]
    lives.running.update(running)
    try:
        yield
    finally:
        for child in running:
            child.kill()
            child.wait()


@contextlib.contextmanager
def cluster_of(client, program, transport, words):
    """A cluster, whose inputs `client` hands in, and how: by count and ahead."""
    with tempfile.TemporaryDirectory(prefix="hosts.") as folder, Server(transport == "nats", PORT):
        cluster = Cluster(folder, "measure", PROCESSES, transport=transport, program=program, port=PORT, words=words)
        lines = os.path.join(folder, "lines")
        cluster.gateway.words = ["--listen", "unix:" + lines]
        cluster.start()
        yield cluster, lambda count, ahead: passes(client, lines, count, ahead)
        cluster.stop()


@contextlib.contextmanager
def hosts(client, program, transport, words):
    with cluster_of(client, program, transport, words) as (_, run):
        yield run


@contextlib.contextmanager
def killed(client, program, transport, words):
    """The same while a node dies each second."""
    over, chance = threading.Event(), random.Random(1)

    def kill(cluster):
        while not over.wait(1):
            node = chance.choice(cluster.nodes)
            node.kill()
            node.start()
            node.wait_up()

    with cluster_of(client, program, transport, words) as (cluster, run):
        killer = threading.Thread(target=kill, args=[cluster])
        killer.start()
        try:
            yield run
        finally:
            over.set()
            killer.join()


@contextlib.contextmanager
def redis(program):
    with tempfile.TemporaryDirectory(prefix="hosts.") as folder:
        path = os.path.join(folder, "socket")
        server = ["redis-server", "--port", "0", "--unixsocket", path, "--dir", folder, "--appendonly", "yes",
                  "--appendfsync", "always", "--save", ""]
        with ended(server):
            while not os.path.exists(path):
                time.sleep(0.01)
            with ended(*([program, "stage", path, *way] for way in (("in", "between"), ("between", "out")))):
                time.sleep(0.3)
                yield lambda count, ahead: passes(program, "passes", path, "in", "out", count, ahead)


def jetstream_syncs():
    """Whether this server can sync each message: it can from 2.10 on."""
    version = subprocess.run(["nats-server", "--version"], capture_output=True, text=True).stdout.rsplit("v", 1)[-1]
    return tuple(map(int, version.split(".")[:2])) >= (2, 10)


@contextlib.contextmanager
def jetstream(program):
    """A message at a time goes out at once, many in what the client library makes of them."""
    url, ways = f"nats://127.0.0.1:{PORT}", (("IN", "BETWEEN"), ("BETWEEN", "OUT"))
    with tempfile.TemporaryDirectory(prefix="hosts.") as folder:
        config = os.path.join(folder, "config")
        with open(config, "w") as file:
            syncs = "sync_interval: always" if jetstream_syncs() else ""
            file.write(f'host: 127.0.0.1\nport: {PORT}\njetstream {{ store_dir: "{folder}/streams" {syncs} }}\n')
        with ended(["nats-server", "-c", config]):
            while subprocess.run([program, "make", url, "IN", "BETWEEN", "OUT"], stderr=subprocess.DEVNULL).returncode:
                time.sleep(0.05)

            def run(count, ahead):
                environment = {**os.environ, "AT_ONCE": "yes"} if ahead == 1 else None
                with ended(*([program, "stage", url, *way] for way in ways), env=environment):
                    time.sleep(0.3)
                    return passes(program, "passes", url, "IN", "OUT", count, ahead, env=environment)
            yield run


@contextlib.contextmanager
def bare(program):
    """A request that two programs answer by NATS; nothing is kept. It goes one by one."""
    def run(count, _):
        words = [program, f"nats://127.0.0.1:{PORT}", str(count)]
        said = subprocess.run(words, check=True, capture_output=True, text=True).stdout
        times = sorted(int(line) / 1e3 for line in said.split())
        return [0, times[count // 2], times[count * 99 // 100]]
    with Server(True, PORT):
        yield run


def rows_of(folder, client, words):
    """Names of rows, and what each is measured by; what can't be measured here is said."""
    kinds = [("Unix sockets", "unix", ["--volatile"]), ("Unix sockets, durable nodes", "unix", []),
             ("TCP on loopback", "tcp", ["--volatile"]), ("NATS on loopback", "nats", ["--volatile"])]
    has_nats, has_redis = shutil.which("nats-server"), shutil.which("redis-server")
    for program in words.programs:
        for name, transport, more in kinds if has_nats else kinds[:3]:
            name = f"{program}: {name}" if len(words.programs) > 1 else name
            yield name, lambda p=program, t=transport, m=more: hosts(client, p, t, m)
            if words.kills:
                yield f"{name}, a kill each second", lambda p=program, t=transport, m=more: killed(client, p, t, m)
    moves = compiled(folder, "redis", "-lhiredis") if has_redis else None
    streams, asks = (compiled(folder, name, "-lnats", "-pthread") if has_nats else None for name in ("jetstream", "bare"))
    if moves:
        yield "Redis streams, always synced", lambda: redis(moves)
    if streams:
        yield f"NATS JetStream, {'always' if jetstream_syncs() else 'not'} synced", lambda: jetstream(streams)
    if asks:
        yield "bare NATS requests", lambda: bare(asks)
    if not moves:
        print("left out: Redis streams (Debian's redis-server and libhiredis-dev)")
    if not (streams and asks):
        print("left out: what needs NATS (Debian's nats-server and libnats-dev)")


def measured(row, count):
    """Of a round: how long one took, and how many pass a second by how many are ahead; none where they go one by one alone."""
    with row() as run:
        run(20, 1)
        rate, median, _ = run(count, 1)
        return [median, *(run(TIMES * count, ahead)[0] if rate else None for ahead in AHEAD)]


def print_table(found):
    wide = max(map(len, found)) + 3
    print(f"{'Over':{wide}}{'One by one':13}{'256 ahead, a second':22}2,048 ahead, a second")
    for name, rounds in found.items():
        median, *rates = (statistics.median(column) if None not in column else None for column in zip(*rounds))
        cells = [f"{rate:,.0f}" if rate else "" for rate in rates]
        print(f"{name:{wide}}{f'{median:.2f} ms':13}{cells[0]:22}{cells[1]}".rstrip())


def memory(cluster):
    """Of each program, in MB."""
    for program in cluster.programs:
        with open(f"/proc/{program.child.pid}/status") as file:
            size = next(int(line.split()[1]) for line in file if line.startswith("VmRSS"))
        yield f"{program.name} {size / 1000:.1f}"


def starts(client, program):
    with cluster_of(client, program, "unix", ["--volatile", "--checkpoint-every", "65536"]) as (cluster, run):
        node = cluster.nodes[1]
        run(BEHIND, 256)
        for _ in range(9):
            node.kill()
            node.start()
            node.wait_up()
        times = sorted(1000 * wall for wall, _ in node.ups[1:])
        middle, worst = times[len(times) // 2], times[-1]
        print(f"from a start to up, {BEHIND:,} messages after the checkpoint: median {middle:.1f} ms, worst {worst:.1f} ms", flush=True)


def grows(client, program, count):
    with cluster_of(client, program, "unix", []) as (cluster, run):
        for part, so_far in ((count // 10, count // 10), (count - count // 10, count)):
            run(part, 2048)
            print(f"after {so_far:,} messages: {', '.join(memory(cluster))} MB", flush=True)


def main():
    parser = argparse.ArgumentParser(prog="bench/run hosts")
    for name, usual in (("rounds", 3), ("count", 400), ("long", 500000)):
        parser.add_argument("--" + name, type=int, default=usual)
    parser.add_argument("--kills", action="store_true")
    parser.add_argument("programs", nargs="*", default=[lives.program_path()])
    words = parser.parse_args()
    with tempfile.TemporaryDirectory(prefix="hosts.") as folder:
        client = compiled(folder, "passes")
        rows, found = dict(rows_of(folder, client, words)), {}
        print(f"load {os.getloadavg()[0]:.1f}, {os.cpu_count()} processors", flush=True)
        for _ in range(words.rounds):
            for name, row in rows.items():
                found.setdefault(name, []).append(measured(row, words.count))
        print_table(found)
        for program in words.programs:
            starts(client, program)
            grows(client, program, words.long)


if __name__ == "__main__":
    main()
