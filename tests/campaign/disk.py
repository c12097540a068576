"""A disk that fails at one call, and slots of which a beginning was written: two nodes and a gateway lose nothing."""
import itertools
import os
import shutil
import signal
import struct
import subprocess
import time

import lives
from lives import Cluster, Wrong
from listening import PROCESSES

HERE = os.path.dirname(os.path.realpath(__file__))
CALLS = ("write", "pwrite", "fdatasync", "fsync", "rename", "ftruncate", "openat")
NEVER = ("ftruncate",)  # no program makes this call
FAILS, INPUTS, PAYLOAD = "the disk fails", 5, 64


def preload(folder):
    """die.c, to be loaded in front of a program."""
    path = os.path.join(folder, "die.so")
    subprocess.run(["cc", "-O2", "-shared", "-fPIC", "-o", path, os.path.join(HERE, "die.c"), "-ldl"], check=True)
    return path


class Run:
    """Numbers go in one after the other, and come out; the disk of one program, the victim, fails once."""

    def __init__(self, folder, name=None):
        self.cluster = Cluster(folder, "disk", PROCESSES)
        self.victim = next((program for program in self.cluster.programs if program.name == name), None)
        self.number, self.doubtful, self.has_ended = 0, set(), False

    def has_failed(self):
        return FAILS in self.victim.said

    def write(self):
        self.number += 1
        self.cluster.write("relay", bytes([self.number]) * PAYLOAD)

    def hand_in(self):
        """One number more, until it is answered and out. If the gateway fails meanwhile, that one may be lost, and another one goes in."""
        self.write()
        self.settle()
        if self.number in self.doubtful:
            self.hand_in()

    def is_settled(self):
        logged = max((ssn for _, ssn in self.cluster.logged), default=0)
        return not self.cluster.unanswered and len(self.cluster.outputs["echo"]) >= logged

    def is_soon_settled(self):
        with self.cluster.lock:
            return self.cluster.lock.wait_for(lambda: self.cluster.fault or self.is_settled(), 0.02)

    def settle(self):
        until = time.monotonic() + 20
        while not self.is_soon_settled():
            if self.victim and self.victim.child.poll() is not None:
                self.revive()
            if time.monotonic() > until:
                raise Wrong(f"number {self.number} isn't out:\n" + "\n".join(self.cluster.standings()))
        if self.cluster.fault:
            raise Wrong(self.cluster.fault)

    def revive(self):
        """The victim ended, as a program does whose disk fails. Its next disk is a good one."""
        self.is_fit(self.victim.ends())
        self.victim.environment = None
        if self.victim is self.cluster.gateway:
            self.doubtful |= {payload[0] for _, payload in self.cluster.restart_gateway()}
        else:
            self.victim.start()

    def is_fit(self, status):
        if status != 6 or not self.has_failed():
            raise Wrong(f"{self.victim.name} ended with {status}: {self.victim.said[-3:]}")
        self.has_ended = True

    def stop(self):
        for program in self.cluster.programs:
            status = program.stop() if program.child.poll() is None else program.ends()
            if status and program is self.victim:
                self.is_fit(status)
            elif status:
                raise Wrong(f"{program.name} ended with {status}: {program.said[-3:]}")

    def judge(self):
        """What was answered is out once, at the place that the answer said; and nothing that wasn't handed in."""
        if self.cluster.fault:
            raise Wrong(self.cluster.fault)
        out = [bytes.fromhex(text) for text in self.cluster.outputs["echo"]]
        answered = {payload[0] for payload in self.cluster.logged.values()}
        numbers = [payload[0] for payload in out]
        right = all(payload == bytes([payload[0]]) * PAYLOAD for payload in out) and numbers == sorted(set(numbers))
        right = right and answered <= set(numbers) <= answered | self.doubtful
        if not right or any(out[ssn - 1] != payload for (_, ssn), payload in self.cluster.logged.items()):
            raise Wrong(f"{numbers} are out, {sorted(answered)} were answered, and {sorted(self.doubtful)} may be out")


def restart(program, environment):
    if program.stop():
        raise Wrong(f"{program.name} isn't stopped: {program.said[-3:]}")
    program.environment = environment
    program.start()


def fails(folder, name, is_again, environment):
    """A run, in whose victim's first life, or the one after it, a call fails; and a life of all after it. Whether that call was made,
    and whether the program ended by that."""
    run = Run(folder, name)
    run.victim.environment = None if is_again else environment
    for program in run.cluster.programs:
        program.start()
    if is_again:
        run.hand_in()
        restart(run.victim, environment)
    for _ in range(INPUTS):
        run.hand_in()
    run.stop()
    run.victim.environment = None
    run.cluster.start()
    run.hand_in()
    run.stop()
    run.judge()
    return run.has_failed(), run.has_ended


def failures(place, name, is_again, environment, row, step):
    """The K-th of these calls fails, K = 1, 1 + step and so on. How many did, until a run made no more."""
    failed, has_failed = -1, True
    while has_failed:
        failed += 1
        has_failed, has_ended = fails(place, name, is_again, {**environment, "DIE_AT": str(1 + failed * step)})
        shutil.rmtree(place)
        row["runs"] += 1
        row["ended"] += has_ended
        row["went on"] += has_failed and not has_ended
    return failed


def calls(folder, kills=0, seed=0, step=1):
    """Each call of each kind fails, or each step-th: of gateway and nodes, in their first life and in the next."""
    os.makedirs(folder, exist_ok=True)
    environment, row = {"LD_PRELOAD": preload(folder), "FAIL": "yes"}, {"runs": 0, "ended": 0, "went on": 0}
    for name, call in itertools.product(("gateway", "relay", "echo"), CALLS):
        environment["DIE_ON"] = call
        counts = [failures(os.path.join(folder, "run"), name, is_again, environment, row, step) for is_again in (False, True)]
        if not any(counts) and call not in NEVER:
            raise Wrong(f"{name} makes no call of {call}")
    return row, True


def read(path):
    with open(path, "rb") as file:
        return file.read()


def torn(before, after, cut):
    """The file `kept` with the first bytes of the slot that was written last, and the slot before it as it was."""
    half = len(after) // 2
    at = 0 if before[:half] != after[:half] else half
    return before[:at] + after[at:at + cut] + before[at + cut:]


def covers(kept):
    """How many messages the last whole checkpoint of these bytes covers."""
    return struct.unpack_from("<Q", lives.last_of(kept), 8)[0]


def covered_of(run, node):
    """A node begins, and is up again. How many messages its checkpoint covers, as it says while the gateway doesn't answer yet."""
    gateway = run.cluster.gateway.child
    gateway.send_signal(signal.SIGSTOP)
    node.environment, node.status = None, None
    node.start()
    while not node.status and node.child.poll() is None:
        time.sleep(0.001)
    covered = int((node.status or {}).get("covered", -1))
    gateway.send_signal(signal.SIGCONT)
    node.wait_up()
    run.settle()
    return covered


def tear(run, node, environment, cut):
    """A node dies when its checkpoint is written and not synced; then the first bytes of it are on the disk. Whether those are all.
    It comes back with the checkpoint before, if they aren't, and loses nothing."""
    path = os.path.join(node.store, "kept")
    restart(node, environment)
    node.wait_up()
    before = read(path)
    run.write()
    if node.ends() != -9:
        raise Wrong(f"{node.name} makes no checkpoint: {node.said[-3:]}")
    after = read(path)
    left = torn(before, after, cut)
    earlier, later = (covers(it) for it in (before, after))
    if earlier >= later:
        raise Wrong(f"{node.name} died before it wrote its next checkpoint")
    with open(path, "wb") as file:
        file.write(left)
    covered = covered_of(run, node)
    if covered != (later if left == after else earlier):
        raise Wrong(f"{node.name} came back with a checkpoint of {covered} messages, when {cut} bytes of the next were written")
    return left == after


def slots(folder, kills=0, seed=0, step=16):
    """Each beginning of a slot, of 0 bytes, step bytes and so on, is all that is left of a node's last checkpoint."""
    os.makedirs(folder, exist_ok=True)
    environment = {"LD_PRELOAD": preload(folder), "DIE_ON": "fdatasync", "DIE_AT": "2"}  # the first is of the slot that it has
    run, row = Run(os.path.join(folder, "run")), {}
    for node in run.cluster.nodes:
        node.words = ["--status"]
    run.cluster.start()
    for node in run.cluster.nodes:
        cut = 0
        while not tear(run, node, environment, cut):
            cut += step
        row[f"beginnings of {node.name}"] = cut // step
    run.stop()
    run.judge()
    return row, True
