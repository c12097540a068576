"""Programs that are stopped by SIGTERM or SIGINT, and started again: a node is suspended once, and resumed once. `tests/campaign/run stops`
has whole clusters."""
import itertools
import os
import signal
import subprocess
import time

from disk import preload, read
from listening import PROCESSES, begin, connect, has_said, is_refused, tells, works
from lives import Cluster, Wrong
from looks import files_of, holds, told

LIMIT = 10  # seconds that a program has to end
AWAY = "it isn't suspended: it is collecting"


def path_of(node):
    return os.path.join(node.store, "suspended")


def lives_on(node, incarnation, is_resumed):
    """It is up in this incarnation, and says whether it was resumed."""
    said, node.status = len(node.said), None
    node.start()
    node.wait_up()
    if any("resumed in incarnation" in line for line in node.said[said:]) != is_resumed:
        raise Wrong(f"{node.name} is up in incarnation {incarnation}: {node.said[said:]}")
    tells(node, incarnation=incarnation, exact="yes")


def ends(program, status):
    ended = program.ends()
    if ended != status:
        raise Wrong(f"{program.name} ended with {ended} in place of {status}: {program.said[-2:]}")


def ends_well(program, number=signal.SIGTERM):
    program.child.send_signal(number)
    ends(program, 0)


def once(node):
    """The bytes are there until a start takes them: not one that only looks, nor one of another kind. A kill after that is as any."""
    ends_well(node)
    holds(node, "incarnation 1", "suspended: the next start goes on in this incarnation")
    before = files_of(node.store)
    if told([*node.command()[1:], "--check"]) != ("", []):
        raise Wrong(f"--check of {node.name} names faults")
    node.words = ["--volatile"]
    is_refused(node, "whether the process is durable was fixed")
    node.words = []
    if files_of(node.store) != before:
        raise Wrong("a start that doesn't begin changes what a node left")
    lives_on(node, 1, True)
    node.kill()
    lives_on(node, 2, False)
    ends_well(node)
    lives_on(node, 2, True)


def hangs(node, number, status, seconds):
    """The disk doesn't answer when the bytes get their name. A second signal ends the node, or else it ends when its time is over."""
    node.child.send_signal(number)
    began = time.monotonic()
    while not os.path.exists(path_of(node) + ".new"):
        time.sleep(0.01)
    time.sleep(0.3)
    if node.child.poll() is not None:
        raise Wrong(f"{node.name} doesn't wait for its disk")
    if seconds < LIMIT:
        node.child.send_signal(number)
    try:
        node.child.wait(2 * LIMIT)
    except subprocess.TimeoutExpired as over:
        raise Wrong(f"{node.name} waits for its disk without an end") from over
    ends(node, status)
    if not seconds - 1 < time.monotonic() - began < seconds + LIMIT / 2:
        raise Wrong(f"{node.name} ended after {time.monotonic() - began} seconds")


def twice(library, node, incarnation):
    for number, status, seconds in ((signal.SIGTERM, -signal.SIGTERM, 0), (signal.SIGINT, -signal.SIGINT, 0),
                                    (signal.SIGTERM, -signal.SIGALRM, LIMIT)):
        ends_well(node)
        node.environment = {"LD_PRELOAD": library, "DIE_ON": "rename", "DIE_AT": "2", "HANG": "yes"}
        lives_on(node, incarnation, True)
        hangs(node, number, status, seconds)
        node.environment = None
        incarnation += 1
        lives_on(node, incarnation, False)
    ends_well(node, signal.SIGINT)
    lives_on(node, incarnation, True)


def away(node, others):
    """A node that isn't up isn't suspended."""
    for program in others:
        ends_well(program)
    node.kill()
    node.words, node.status = ["--status"], None
    node.start()
    while not node.status and node.child.poll() is None:
        time.sleep(0.01)
    ends_well(node)
    has_said(node, AWAY)
    node.words = []
    for program in others:
        program.start()


def comes_back(node, incarnation, left, sentence):
    """What a stopped node left is this instead. It is refused, unless it is nothing, and the node comes back as after a kill."""
    with open(path_of(node), "wb") as file:
        file.write(left)
    said = len(node.said)
    lives_on(node, incarnation, False)
    if any(f"{sentence}: the node isn't resumed" in line for line in node.said[said:]) != (len(left) > 0):
        raise Wrong(f"{left} is left: {node.said[said:]}")


def torn(node, incarnation):
    """Each beginning of what is left, to every 16th byte; then what an earlier life left, with the same checkpoint. The incarnation after."""
    before = whole = b""
    for cut in itertools.count(0, 16):
        ends_well(node)
        before, whole = whole, read(path_of(node))
        if cut >= len(whole):
            break
        incarnation += 1
        comes_back(node, incarnation, whole[:cut], "")
    comes_back(node, incarnation + 1, before, "it is of another life")
    return incarnation + 1


def earlier(cluster, talk, node, incarnation):
    """What is of an earlier checkpoint of the same life, and what is of another store."""
    tells(node, kept=0)
    ends_well(node)
    before = read(path_of(node))
    lives_on(node, incarnation, True)
    works(cluster, talk, 7)
    tells(node, length=7, kept=0)
    ends_well(node)
    comes_back(node, incarnation + 1, before, "it is of another checkpoint")
    ends_well(node)
    comes_back(node, incarnation + 2, bytes(16) + read(path_of(node))[16:], "it is of another store")
    return incarnation + 2


def joining(folder):
    """A node that is no member yet goes on when the gateway is there."""
    cluster = Cluster(folder, "programs", PROCESSES)
    relay = cluster.nodes[0]
    relay.start()
    has_said(relay, "the gateway doesn't answer yet")
    ends_well(relay)
    cluster.start()
    for node in cluster.nodes:
        tells(node, incarnation=1, exact="yes")
    cluster.stop()


def prints_once(folder, storage=None):
    """A gateway that is stopped while outputs flow prints each once, over its lives; also if stores are elsewhere."""
    cluster, count = Cluster(folder, "programs", PROCESSES), 0
    for program in cluster.programs if storage else ():
        storage.takes(program)
    cluster.start()
    for _ in range(5):
        for _ in range(200):
            count += 1
            cluster.write("relay", count.to_bytes(8, "little"))
        cluster.wait_for(lambda: len(cluster.outputs["echo"]) > count - 150)
        ends_well(cluster.gateway)
        count = max(ssn for _, ssn in cluster.logged)
        cluster.restart_gateway()
    cluster.write("relay", b"")
    cluster.wait_logged(0)  # a gateway that answers takes signals
    cluster.wait_for(lambda: len(cluster.outputs["echo"]) >= count)
    if any(cluster.stop()) or cluster.repeated:
        raise Wrong(f"{cluster.repeated} outputs come again")


def stopped(folder):
    os.makedirs(folder)
    cluster = begin(os.path.join(folder, "cluster"))
    one, (relay, echo) = connect(cluster), cluster.nodes
    one.says("outputs")
    works(cluster, one, 1, 2, 3)
    once(relay)
    works(cluster, one, 4)
    twice(preload(folder), relay, 2)
    works(cluster, one, 5)
    away(relay, [cluster.gateway, echo])
    lives_on(relay, 7, False)
    one = connect(cluster)
    one.says("outputs", "took echo 5")
    works(cluster, one, 6)
    incarnation = torn(relay, earlier(cluster, one, relay, 7))
    cluster.stop()
    cluster.start()
    tells(relay, incarnation=incarnation, exact="yes")
    cluster.stop()
    joining(os.path.join(folder, "joining"))
    prints_once(os.path.join(folder, "printing"))
