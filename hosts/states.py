"""States leave the stores of a cluster that was stopped, and a new cluster begins with them."""
import os
import subprocess
import sys
import time

from disk import preload
from lives import Cluster, Wrong
from listening import HERE, tells
from looks import files_of, holds, told

sys.path[:0] = [os.path.join(HERE, "examples", "bank")]

import bank

STILL = "under way 0: its receivers have taken all that it sent"


def refuses(node, status, sentence, *words):
    said = told([*node.command()[1:], *words], status)
    if said[0] or not said[1] or sentence not in said[1][-1]:
        raise Wrong(f"{node.name} with {words} says {said}, not {sentence!r}")


def feeds(cluster, made, more):
    for transfer in more:
        made.append(transfer)
        cluster.write("ledger", bank.payload(transfer))


def is_through(cluster, count):
    cluster.wait_for(lambda: len(cluster.outputs["notifier"]) == count)


def begins(cluster):
    """The gateway, too, takes signals then."""
    cluster.start()
    while not os.path.exists(cluster.path(0)):
        time.sleep(0.01)


def ends(cluster):
    statuses = cluster.stop()
    if any(statuses):
        raise Wrong(f"programs that are stopped end with {statuses}: {[program.said[-1:] for program in cluster.programs]}")


def exported(node, out):
    """The state that the file has then, and what is said of it. Nothing else changes."""
    before = files_of(node.store)
    said, lines = told([*node.command()[1:], "--export", out])
    if lines or files_of(node.store) != before or os.path.exists(out + ".new"):
        raise Wrong(f"--export of {node.name} says {lines}, or changes something")
    with open(out, "rb") as file:
        return file.read(), said


def rests(cluster):
    """All are stopped, and nothing is under way then: else they are started again, and have some time. No store is another process's."""
    for pause in range(20):
        ends(cluster)
        out = os.path.join(cluster.folder, "state")
        words = [[*node.command()[1:], "--export", f"{out}.{node.name}.{pause}"] for node in cluster.nodes]
        if all(told(it, 0, 1)[0].endswith(STILL + "\n") for it in words):
            refuses(cluster.nodes[0], 7, "it is the store of another process", "--export", out, "--store", cluster.gateway.store)
            return
        begins(cluster)
        time.sleep(0.1 * pause)
    raise Wrong("messages stay under way")


def dies(node, folder):
    """A file that isn't whole and durable has no name."""
    out, library = os.path.join(folder, "dead"), preload(folder)
    for call in ("fsync", "rename"):
        environment = {**os.environ, "LD_PRELOAD": library, "DIE_ON": call, "DIE_AT": "1"}
        done = subprocess.run([*node.command(), "--export", out], env=environment, capture_output=True)
        if done.returncode != -9 or os.path.exists(out):
            raise Wrong(f"--export that dies at {call} ends with {done.returncode}, or leaves a file")


def leaves(cluster, made, folder):
    """Each process's state by plain arithmetic is in a file, and the gateway has nothing that no process took."""
    _, states = bank.expected(made)
    for node, state, length in zip(cluster.nodes, states, (2 * len(made), len(made), len(made))):
        found = exported(node, os.path.join(folder, node.name + ".state"))
        if found != (state, f"state of {len(state)} bytes, after {length} messages, exact yes\n{STILL}\n"):
            raise Wrong(f"{node.name} leaves {found}, not {state.hex()}")
    holds(cluster.gateway, "0 outputs handed out and not taken", f"process 1 ledger: {len(made)} inputs logged, .* kept, 0 not taken; .*")


def stays_under_way(cluster, made, more):
    """A receiver is away: what waits for it is under way, of a process, and of the gateway."""
    ledger, _, notifier = cluster.nodes
    notifier.stop()
    before = len(made)
    feeds(cluster, made, more)
    tells(ledger, kept=len(more), length=2 * len(made))
    ledger.stop()
    cluster.write("ledger", bank.payload(more[0]))
    cluster.wait_logged(0)
    made.append(more[0])
    ends(cluster)
    holds(cluster.gateway, f"process 1 ledger: {len(made)} inputs logged, .* kept, 1 not taken; 0 outputs shown; .*")
    out = os.path.join(cluster.folder, "early")
    refuses(ledger, 6, "old/none: No such file or directory", "--export", os.path.join(cluster.folder, "none", "early"))
    said, lines = told([*ledger.command()[1:], "--export", out], 1)
    if f"under way {len(made) - 1 - before}: messages and outputs that no receiver" not in said or lines or not os.path.exists(out):
        raise Wrong(f"--export of the ledger says {said}, {lines}")
    refuses(ledger, 6, "early: File exists", "--export", out)
    cluster.start()
    is_through(cluster, len(made))


def is_refused(cluster, out):
    """No process leaves its state while it runs, after a kill, or before its first start."""
    ledger, fraud, _ = cluster.nodes
    refuses(ledger, 7, "another life of this process has the store", "--export", out)
    fraud.kill()
    for words in ([], ["--store", out]):
        refuses(fraud, 7, "the process isn't suspended", "--export", out, *words)
    fraud.start()
    fraud.wait_up()


def with_states(cluster):
    """Its cluster file names the states, from its own folder on."""
    with open(cluster.file_of(1)) as file:
        text = file.read()
    for node in cluster.nodes:
        text = text.replace(cluster.address(node.number) + "\n", f"{cluster.address(node.number)} state={node.name}.state\n")
    with open(cluster.file_of(1), "w") as file:
        file.write(text)


def judges(cluster):
    """A state of another length, or that isn't there, is refused with its line, by a start and by --check."""
    notifier, path = cluster.nodes[2], os.path.join(cluster.folder, "notifier.state")
    with open(path, "rb") as file:
        state = file.read()
    for text in (b"", state[1:], state + b"x"):
        with open(path, "wb") as file:
            file.write(text)
        for words in ([], ["--check"]):
            refuses(notifier, 4, f"cluster, line 5: the state has {len(text)} bytes, and that of the image 24: {path}", *words)
    os.remove(path)
    for words in ([], ["--check"]):
        refuses(notifier, 6, "notifier.state: No such file or directory", *words)
    with open(path, "wb") as file:
        file.write(state)


def goes_on(cluster, first, more):
    """Kills before and after the first messages; then receipts and states are those of all transfers. A process that has a store doesn't
    need what it began with."""
    cluster.start()
    for node in cluster.nodes:
        node.kill()
        node.start()
        node.wait_up()
    made = list(first)
    feeds(cluster, made, more)
    cluster.nodes[1].kill()
    cluster.nodes[1].start()
    is_through(cluster, len(more))
    ends(cluster)
    receipts, states = bank.expected(made)
    if cluster.outputs["notifier"] != receipts[len(first):] or [node.kept()[0] for node in cluster.nodes] != states:
        raise Wrong("the new cluster's receipts or states aren't those of all transfers")
    for node in cluster.nodes:
        os.remove(os.path.join(cluster.folder, node.name + ".state"))
        if told([*node.command()[1:], "--check"]) != ("", []):
            raise Wrong(f"{node.name} needs what it began with")
    begins(cluster)
    ends(cluster)


def moves(folder, words):
    old, new = (Cluster(os.path.join(folder, name), name, bank.PROCESSES, words=words) for name in ("old", "new"))
    made, transfers = [], bank.transfers(1, bank.ACCOUNTS + 1)
    old.start()
    for more in (bank.deposits(), [next(transfers) for _ in range(200)]):
        feeds(old, made, more)
        is_through(old, len(made))
    if not words:
        stays_under_way(old, made, [next(transfers) for _ in range(20)])
        is_refused(old, os.path.join(folder, "none"))
    rests(old)
    dies(old.nodes[0], folder)
    leaves(old, made, new.folder)
    with_states(new)
    judges(new)
    goes_on(new, made, [next(transfers) for _ in range(200)])


def states(folder):
    moves(os.path.join(folder, "durable"), [])
    moves(os.path.join(folder, "volatile"), ["--volatile"])
