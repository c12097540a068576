#!/usr/bin/env python3
"""Runs the bank: three nodes and a gateway as programs, killed at random while transfers flow; then the same transfers without
a kill. Receipts and balances have to be the same, and those of plain arithmetic.

    play.py [SECONDS]"""
import os
import random
import statistics
import sys
import tempfile
import time

sys.dont_write_bytecode = True
sys.path[:0] = [os.path.dirname(os.path.realpath(__file__)), os.path.join(os.path.dirname(os.path.realpath(__file__)), "..", "..")]

import bank
from lives import Cluster, Wrong

AHEAD = 64  # lines of the gateway without an answer


def begin(folder):
    cluster = Cluster(folder, "bank", bank.PROCESSES, words=["--volatile", "--checkpoint-every", "64"])
    cluster.start()
    made = bank.deposits()
    for transfer in made:
        cluster.write("ledger", bank.payload(transfer))
    cluster.wait_for(lambda: len(cluster.outputs["notifier"]) == len(made))
    return cluster, made


def end(cluster, made):
    """All receipts came, and the nodes end behind their last checkpoints: receipts and states."""
    cluster.wait_for(lambda: len(cluster.outputs["notifier"]) == len(made))
    statuses = cluster.stop()
    if any(statuses):
        raise Wrong(f"a program ended with {statuses}: {[program.said[-1:] for program in cluster.programs]}")
    return cluster.outputs["notifier"], [node.kept()[0] for node in cluster.nodes]


def with_kills(folder, seconds, chance):
    cluster, made = begin(folder)
    more = bank.transfers(1, len(made) + 1)
    until, next_kill, dead = time.monotonic() + seconds, 0, None
    while time.monotonic() < until:
        for _ in range(chance.randrange(8)):
            made.append(next(more))
            cluster.write("ledger", bank.payload(made[-1]))
        cluster.wait_logged(AHEAD)
        if dead and dead.is_up.is_set():
            dead, next_kill = None, time.monotonic() + chance.random() * 0.2
        if not dead and time.monotonic() >= next_kill:
            dead = chance.choice(cluster.nodes)
            dead.kill()
            dead.start()
        time.sleep(0.002)
    if dead:
        dead.wait_up()
    return cluster, made, *end(cluster, made)


def without_kills(folder, made):
    cluster, first = begin(folder)
    for transfer in made[len(first):]:
        cluster.write("ledger", bank.payload(transfer))
        cluster.wait_logged(AHEAD)
    return end(cluster, made)


def main():
    seconds = float(sys.argv[1]) if len(sys.argv) > 1 else 20
    with tempfile.TemporaryDirectory(prefix="bank.") as folder:
        cluster, made, receipts, states = with_kills(os.path.join(folder, "killed"), seconds, random.Random(7))
        kills = {node.name: node.kills for node in cluster.nodes}
        times = [seconds * 1000 for node in cluster.nodes for seconds, own in node.ups[1:]]
        print(f"{len(made)} transfers in {seconds:.0f} s, and SIGKILL for " + ", ".join(f"{name} {n} times" for name, n in kills.items()))
        print(f"from a start to up again: median {statistics.median(times):.1f} ms, worst {max(times):.1f} ms")
        if not all(node.exact for node in cluster.nodes):
            raise Wrong("a node says that failures met")
        calm = without_kills(os.path.join(folder, "calm"), made)
        print("the same transfers without a kill: " + ("the same receipts and states" if calm == (receipts, states) else "OTHER ones"))
        right = bank.expected(made) == (receipts, states)
        print("by plain arithmetic: " + ("the same receipts and states" if right else "OTHER ones"))
        sums = [int.from_bytes(states[0][8 * i:8 * i + 8], "little") for i in range(bank.ACCOUNTS)]
        print("balances " + " ".join(map(str, sums)))
        return 0 if right and calm == (receipts, states) else 1


if __name__ == "__main__":
    try:
        sys.exit(main())
    except Wrong as wrong:
        sys.exit(f"wrong: {wrong}")
