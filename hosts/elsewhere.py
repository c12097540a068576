"""Stores that aren't in a folder. `tests/campaign/run moves` has lives on several machines."""
import os
import pwd
import re
import subprocess
import tempfile
import time

import lives
from lives import Cluster, Wrong
from listening import PROCESSES, connect, payload, tells, works
from looks import has_sandbox, told
from stopped import prints_once
from storage import Bucket, Table, lets_through

PORT = 17790


def holds(cluster, program):
    return told(["--cluster", cluster.file_of(0), "--me", str(program.number), "--inspect", program.store])[0]


def incarnation(cluster, program):
    return int(re.search(r"(?m)^incarnation (\d+)$", holds(cluster, program))[1])


def follows(cluster, program, act):
    """Another life of a program claims its store, at an address where nobody looks for it. The first one ends when it would send what
    comes of this act."""
    file, before = os.path.join(cluster.folder, "moved"), holds(cluster, program)
    with open(cluster.file_of(program.number)) as old, open(file, "w") as new:
        new.write(old.read().replace(f":{cluster.path(program.number)}\n", f":{cluster.path(program.number)}.moved\n"))
    words = [word + ".moved" if word.startswith("unix:") else word for word in program.command(file)]
    heir = subprocess.Popen(words, stdin=subprocess.DEVNULL, stdout=subprocess.DEVNULL, stderr=subprocess.DEVNULL)
    lives.running.add(heir)
    while holds(cluster, program) == before:
        time.sleep(0.01)
    act()
    try:
        program.child.wait(30)
    except subprocess.TimeoutExpired as over:
        raise Wrong(f"{program.name} goes on behind another life") from over
    if program.ends() != 7 or "has claimed the store" not in program.said[-1]:
        raise Wrong(f"{program.name} ended otherwise behind another life: {program.said[-2:]}")
    heir.kill()
    heir.wait()
    program.start()


def tries(word, program, file):
    """What is told of a store: before there is one, of one that isn't the process's, and of places that aren't there."""
    words = ["--cluster", file, "--me", str(program.number)]
    told([*words, "--store", word, "--check"])
    for wrong, status in ((word.replace("bank", "none"), 6), (word.split(":")[0] + ":", 2 if word.startswith("nats") else 6)):
        told([*words, "--store", wrong, "--check"], status)
    told(["--inspect", word], 2)
    told([*words, "--inspect", word], 7)


def lives_on(folder, storage):
    """As another user, with few system calls: a first life, kills of all, and lives that follow others."""
    cluster = Cluster(folder, "bank", PROCESSES)
    lets_through(folder)
    os.chmod(folder, 0o777)
    cluster.lines = os.path.join(folder, "lines")
    for program in cluster.programs:
        program.home = tempfile.mkdtemp(dir=folder)
        storage.takes(program)
        tries(storage.word, program, cluster.file_of(0))
    user = pwd.getpwnam("nobody") if os.geteuid() == 0 else pwd.getpwuid(os.geteuid())
    sandbox = has_sandbox(cluster.nodes[0])
    for program in cluster.programs:
        program.words = ["--user", user.pw_name, *["--sandbox"][:sandbox]]
    cluster.gateway.words += ["--listen", "unix:" + cluster.lines]
    cluster.start()
    one, (relay, echo) = connect(cluster), cluster.nodes
    one.says("outputs")
    works(cluster, one, 1, 2, 3)
    for program in cluster.programs:
        wanted = "process 1 relay: 3 inputs logged" if program is cluster.gateway else "after 3 messages"
        if wanted not in holds(cluster, program):
            raise Wrong(f"--inspect of {program.name} says {holds(cluster, program)}")
    echo.kill()
    echo.start()
    echo.wait_up()
    works(cluster, one, 4)
    follows(cluster, relay, lambda: one.says("input relay 5"))
    one.hears("logged relay 5", f"output echo 5 {payload(5)}")
    echo.kill()
    follows(cluster, relay, echo.start)  # which asks, and nothing changes at the one that would answer
    echo.wait_up()
    relay.wait_up()
    follows(cluster, cluster.gateway, lambda: one.says("input relay 6"))
    one = connect(cluster)
    one.says("outputs")
    one.hears(*(f"output echo {number} {payload(number)}" for number in range(1, 6)))
    works(cluster, one, 6)
    goes_on(cluster, relay)


def exports(cluster, node):
    """The state of a suspended node leaves its store, which stays as it is."""
    out, before = os.path.join(cluster.folder, "state"), holds(cluster, node)
    if "suspended: the next start goes on" not in before:
        raise Wrong(f"{node.name} isn't suspended: {before}")
    said, lines = told([*node.command()[1:], "--export", out])
    state = node.kept()[0]
    if f"state of {len(state)} bytes, after 6 messages" not in said or "under way 0: its receivers have taken all" not in said or lines:
        raise Wrong(f"--export of {node.name} says {said}, {lines}")
    with open(out, "rb") as file:
        if file.read() != state or holds(cluster, node) != before:
            raise Wrong("--export writes something else")


def goes_on(cluster, relay):
    """All are stopped, and go on; after a kill nobody goes on from what was left before."""
    life = incarnation(cluster, relay)
    echo = cluster.nodes[1]
    tells(echo, kept=0)
    cluster.stop()
    exports(cluster, echo)
    cluster.start()
    one = connect(cluster)
    one.says("outputs", "took echo 6")
    works(cluster, one, 7)
    if incarnation(cluster, relay) != life or "suspended: " in holds(cluster, relay):
        raise Wrong(f"relay doesn't go on: {relay.said[-3:]}")
    told([*echo.command()[1:], "--export", os.path.join(cluster.folder, "another")], 7)
    relay.kill()
    relay.start()
    relay.wait_up()
    works(cluster, one, 8)
    if incarnation(cluster, relay) != life + 1:
        raise Wrong(f"relay goes on twice: {relay.said[-3:]}")
    if any(cluster.stop()):
        raise Wrong(f"a program that is stopped ends otherwise: {[program.said[-1:] for program in cluster.programs]}")


def elsewhere(folder):
    for kind in (Bucket, Table):
        if kind.is_here():
            place = os.path.join(folder, kind.__name__)
            os.makedirs(place)
            with kind(place, "127.0.0.1", PORT) as storage:
                lives_on(os.path.join(place, "cluster"), storage)
                prints_once(os.path.join(place, "printing"), storage)
