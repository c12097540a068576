"""Whole clusters are stopped by SIGTERM while transfers flow, and started again in a random order. In most rounds a node is killed, by
SIGKILL, at some place of its stop or of the next start; or what it left is torn, old or another node's. Each other node goes on in the
same incarnation, and is as exact as before. Between two stops one node is stopped while another one comes back."""
import itertools
import os
import re
import shutil
import subprocess

import lives
from disk import preload, read
from lives import Wrong
from server import Server
from storage import with_each

VOLATILE = ["--volatile", "--checkpoint-every", "64"]
FLOW = 100  # transfers that are through before the next stop

# Calls before which a life dies when it is stopped: those of its start count, too. `unsynced` also cuts off what was written.
AT_STOP = {"unwritten": ("openat", 4), "unsynced": ("fsync", 3), "unnamed": ("rename", 2), "named": ("fsync", 4)}
AT_START = {"untaken": ("rename", 1), "taken": ("fsync", 2)}
BY_HAND = ("torn", "flipped", "foreign", "old")
CALLS = {"openat": 1, "fsync": 2, "rename": 1}  # of a file that is replaced, as a start does that refuses what was left
AT_RANDOM = ("killed", "begun")  # at some moment of the stop, or of the start
GOES_ON = ("named", "untaken")  # here the bytes are used all the same
FAULTS = ("unwritten", "torn", "unsynced", "untaken", "foreign", "unnamed", "taken", "named", "old", "killed", "flipped", "begun")


def path_of(node):
    return os.path.join(node.store, "suspended")


def holds(node):
    """What its store holds, in words, wherever it is."""
    words = ["--cluster", node.cluster.file_of(node.number), "--me", str(node.number), "--inspect", node.store]
    return subprocess.run([node.cluster.program, *words], check=True, capture_output=True, text=True).stdout


def life_of(node):
    return int(re.search(r"(?m)^incarnation (\d+)$", holds(node))[1])


def is_left(node):
    return "suspended: " in holds(node)


class Stops:
    """Rounds of a campaign. `plan` has the faults of each round, by node."""

    def __init__(self, campaign, library, plan):
        self.campaign, self.library, self.plan = campaign, library, plan
        self.cluster, self.chance, self.old, self.has_left = campaign.cluster, campaign.chance, {}, {}

    def environment(self, call, number):
        return {"LD_PRELOAD": self.library, "DIE_ON": call, "DIE_AT": str(number)}

    def shuffled(self):
        return self.chance.sample(self.cluster.programs, len(self.cluster.programs))

    def stop(self, faults):
        """All at once, nearly: each ends with status 0, but for those that are killed."""
        programs = self.shuffled()
        for program in programs:
            self.campaign.pause(0.01)
            if program is self.cluster.gateway:
                self.campaign.feed.is_away.set()
            program.child.send_signal(lives.signal.SIGTERM)
            if faults.get(program) == "killed":
                self.campaign.pause(0.01)
                program.child.send_signal(lives.signal.SIGKILL)
        for program in programs:
            status, fault = program.ends(), faults.get(program)
            statuses = (-9,) if fault in AT_STOP else (0, -9) if fault == "killed" else (0,)
            self.campaign.kills += status == -9
            if status not in statuses:
                raise Wrong(f"{program.name} is stopped, {fault}, and ends with {status}: {program.said[-3:]}")

    def prepare(self, node, fault):
        """What the node left is as this fault leaves it."""
        left = path_of(node) + ".new" if fault == "unsynced" else path_of(node)
        text = read(left) if os.path.exists(left) else b""
        if fault in ("unsynced", "torn"):
            text = text[:self.chance.randrange(1, len(text))]
        elif fault == "flipped":
            at = self.chance.randrange(len(text))
            text = text[:at] + bytes([text[at] ^ 1 << self.chance.randrange(8)]) + text[at + 1:]
        elif fault == "foreign":
            text = self.old[self.chance.choice([other for other in self.cluster.nodes if other is not node])]
        elif fault == "old":
            text = self.old[node]
        if fault == "unsynced" or fault in BY_HAND:
            with open(left, "wb") as file:
                file.write(text)
        self.has_left[node] = is_left(node)

    def begin(self, program, fault, following):
        """A start that dies first, if that is the fault; then one that may die when it is stopped the next time."""
        if fault in AT_START:
            program.environment = self.environment(*AT_START[fault])
            program.start()
            self.campaign.kills += 1
            if program.ends() != -9:
                raise Wrong(f"{program.name} begins, {fault}, and doesn't die: {program.said[-3:]}")
        elif fault == "begun":
            program.start()
            self.campaign.pause(0.1)
            self.campaign.kill(program)
            self.has_left[program] = is_left(program)
        call, number = AT_STOP.get(following, (None, 0))
        more = CALLS[call] if call and fault in BY_HAND else 0
        program.environment = self.environment(call, number + more) if call else None
        self.campaign.restart(program)

    def one(self, faults, following):
        nodes = self.cluster.nodes
        exact, lives_before = {node: node.exact for node in nodes}, {node: life_of(node) for node in nodes}
        self.stop(faults)
        kept = {node: read(path_of(node)) for node in nodes if node not in faults and os.path.isdir(node.store)}
        for node in nodes:
            self.prepare(node, faults.get(node))
        said = {node: len(node.said) for node in nodes}
        for program in self.shuffled():
            self.begin(program, faults.get(program), following.get(program))
        for node in nodes:
            node.wait_up()
            self.judge(node, faults.get(node), lives_before[node], exact[node], node.said[said[node]:])
        self.old.update(kept)
        self.roll([node for node in nodes if node not in following])
        outputs = self.cluster.outputs["notifier"]
        until = len(outputs) + FLOW
        self.cluster.wait_for(lambda: len(outputs) >= until)

    def judge(self, node, fault, life, was_exact, said):
        """It goes on as it was, unless a fault took what it left. Bytes that aren't used are named."""
        goes_on = fault in (None, *GOES_ON) or (fault in AT_RANDOM and self.has_left[node])
        is_refused = any("the node isn't resumed" in line for line in said)
        is_resumed = any(f"resumed in incarnation {life}," in line for line in said)
        if life_of(node) != (life if goes_on else life + 1) or (is_resumed != goes_on and fault != "begun"):
            raise Wrong(f"{node.name} is in incarnation {life_of(node)} after {life}, {fault}: {said}")
        if is_refused != (fault in BY_HAND):
            raise Wrong(f"{node.name}, {fault}, says {said}")
        if is_left(node):
            raise Wrong(f"{node.name}, {fault}, hasn't taken what it left")
        if goes_on and node.exact != was_exact:
            raise Wrong(f"{node.name}, {fault}, isn't as exact as it was: {said}")

    def roll(self, nodes):
        """A node is killed, and while it comes back another one is stopped and started, which is no failure."""
        if len(nodes) < 2:
            return
        dead, other = self.chance.sample(nodes, 2)
        life = life_of(other)
        self.campaign.kill(dead)
        dead.start()
        self.campaign.pause(0.02)
        if other.stop():
            raise Wrong(f"{other.name} isn't stopped while {dead.name} comes back: {other.said[-3:]}")
        other.start()
        for node in (dead, other):
            node.wait_up()
        if life_of(other) != life:
            raise Wrong(f"{other.name} doesn't go on: {other.said[-3:]}")

    def run(self):
        for faults, following in zip(self.plan, [*self.plan[1:], {}]):
            self.one(faults, following)
        self.campaign.notes.append(("stops", len(self.plan)))


def alone(nodes, chance, faults):
    return {chance.choice(nodes): next(faults)}


def several(nodes, chance, faults):
    """Two or more. A node that isn't exact stores that, and so none of these dies at a call that is counted from its start."""
    return {node: next(fault for fault in faults if fault not in AT_STOP) for node in chance.sample(nodes, chance.randrange(2, 4))}


KINDS = {
    "unix": ("unix", VOLATILE, alone), "tcp": ("tcp", VOLATILE, alone), "nats": ("nats", VOLATILE, alone),
    "durable": ("unix", ["--durable"], several),
}


def elsewhere(folder, rounds, seed, port, begin):
    """Half of the rounds with each kind of storage, and one kill at a time, at random."""
    def one(place, kind):
        faults = itertools.cycle(AT_RANDOM)
        with kind(place, "127.0.0.1", port) as storage:
            campaign = begin(os.path.join(place, "cluster"), seed, words=VOLATILE, storage=storage)
            Stops(campaign, None, [alone(campaign.cluster.nodes, campaign.chance, faults) for _ in range(rounds // 2)]).run()
            return campaign.finish()
    return with_each(folder, one)


def part(folder, rounds, seed, port, begin):
    """A quarter of the rounds over each transport, with one fault at a time, and a quarter with several in durable nodes. The first stop of
    each kind is a plain one. `begin` makes a campaign."""
    kinds = [kind for kind in KINDS if kind != "nats" or shutil.which("nats-server")]
    if len(kinds) < len(KINDS):
        print("not tried, since there is no nats-server: stops over nats", flush=True)
    library, faults, rows, right = preload(folder), itertools.cycle(FAULTS), {}, True
    for place, kind in enumerate(kinds):
        transport, words, choose = KINDS[kind]
        with Server(transport == "nats", port):
            campaign = begin(os.path.join(folder, kind), seed + place, transport, words)
            count = (rounds - place - 1) // len(kinds)
            plan = [{}] + [choose(campaign.cluster.nodes, campaign.chance, faults) for _ in range(count)]
            Stops(campaign, library, plan).run()
            row, is_right = campaign.finish(is_exact=choose is alone)
        rows.update({f"{kind} {key}": value for key, value in row.items()})
        right = right and is_right
    return rows, right
