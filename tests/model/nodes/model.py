#!/usr/bin/env python3
"""A model of nodes (docs/CLUSTER.md): the rules of node.py, run at random with kills, and the promises asserted on the way.

    tests/model/nodes/model.py [RUNS]            all rules: no promise is broken
    tests/model/nodes/model.py left-out [RUNS]   leaves out one rule after the other, and tells how many runs notice it

It shares nothing with the proofs. Seeds are 1, 2, 3 and so on, so that a run is the same each time."""
import random
import sys
import zlib

sys.dont_write_bytecode = True

from node import GATEWAY, RULES, Gateway, Node

KINDS = ["Delivery", "Number", "Acknowledgement", "Ask", "Told", "Resume", "Restored", "Saved"]
DEPTH = 4           # a message that came by so many others sends none itself


class Broken(Exception):
    """A promise is broken."""


def handle(process, count, state, message):
    """The state after a message, and what is sent: pairs of a destination and a payload."""
    mixed = zlib.crc32(repr((process, state, message)).encode())
    sender, ssn, (depth, word) = message
    sends = []
    if depth < DEPTH:
        for place in range(mixed % 3):
            destination = (mixed >> (4 + 5 * place)) % (count + 1)
            if destination != process:
                sends.append((destination, (depth + 1, (mixed >> place) % 9973)))
    return mixed, sends


def pass_on(process, count, state, message):
    """Each node sends what it receives to the next one, and the last to the gateway."""
    sender, ssn, payload = message
    return zlib.crc32(repr((state, message)).encode()), [((process + 1) % (count + 1), payload)]


class Host:
    """What is stored durably for a node, and the node's one life, if it has one."""

    def __init__(self, me, cluster, durable):
        self.me, self.cluster, self.durable = me, cluster, durable
        logs = {other: (1, ()) for other in range(cluster.count + 1) if other != me}
        self.kept, self.made, self.stored = (0, {other: 0 for other in logs}, logs), None, 1
        self.node = Node(me, cluster, self.kept, 1, durable)

    def make(self):
        if self.node and not self.made:
            self.made = self.node.checkpoint()

    def keep(self):
        """The bytes become durable; their node may die before it is told."""
        if self.made and self.kept is not self.made:
            self.kept = self.made
            self.cluster.keeps(self.me, sum(self.kept[1].values()))

    def confirm(self):
        if self.node and self.node.frozen and self.kept is self.made:
            self.made = None
            self.node.saved()

    def die(self):
        self.node, self.made = None, None

    def open(self, skipped):
        if self.node is None:
            self.stored += 1 + skipped
            self.node = Node(self.me, self.cluster, self.kept, self.stored, self.durable)


class Cluster:
    """Hosts, the gateway, all packets that were ever put out; and beside them what really happened, for the promises."""

    def __init__(self, count, durable, left_out, handler):
        self.count, self.left_out, self.handler = count, left_out, handler
        self.net, self.known, self.queue = [], set(), []
        self.inputs = {node: [] for node in range(1, count + 1)}
        self.history = {node: [] for node in range(1, count + 1)}
        self.shown = {node: [] for node in range(1, count + 1)}
        self.saved = {node: 0 for node in range(1, count + 1)}
        self.safe = {node: 0 for node in range(1, count + 1)}
        self.met = False
        self.gateway = Gateway(self)
        self.hosts = {node: Host(node, self, node in durable) for node in range(1, count + 1)}

    def put(self, source, destination, packet):
        parcel = (source, destination, packet)
        self.queue.append(parcel)
        if parcel not in self.known:
            self.known.add(parcel)
            self.net.append(parcel)

    def deliver(self, parcel):
        source, destination, packet = parcel
        if destination == GATEWAY:
            self.gateway.receive(source, packet)
        elif self.hosts[destination].node:
            self.hosts[destination].node.receive(source, packet)

    def fold(self, process, history):
        """The state after a history, and by destination what was sent by then."""
        state, sent = 0, {destination: [] for destination in range(self.count + 1)}
        for message in history:
            state, sends = self.handler(process, self.count, state, message)
            for destination, payload in sends:
                sent[destination].append(payload)
        return state, sent

    def nodes(self):
        return [host.node for host in self.hosts.values() if host.node]

    # what happened, as nodes tell it
    def receives(self, node, message):
        self.history[node].append(message)
        self.check()

    def show(self, node, ssn, payload):
        self.shown[node].append(payload)
        self.check()

    def acknowledged(self, node, run):
        self.safe[node] = max(self.safe[node], run)

    def keeps(self, node, length):
        self.saved[node] = length
        self.acknowledged(node, length)

    def recovers(self, node, plan):
        """The promise of a recovery: the checkpoint, then each number that a log holds, and no log holds the next."""
        self.see()
        before, me = self.history[node.me], node.me
        kept = before[: node.base] + plan
        self.history[me] = kept
        if self.met:
            self.safe[me] = min(self.safe[me], len(kept))
            self.check()
            return
        if kept != before[: len(kept)]:
            raise Broken("a recovery keeps what was not received so")
        if len(kept) < max(self.safe[me], self.saved[me]):
            raise Broken("a recovery loses what was acknowledged")
        for other in [self.gateway] + [peer for peer in self.nodes() if peer.me != me and peer.up()]:
            if any(number == len(kept) + 1 for number, ssn, payload in other.logs[me].above(len(kept))):
                raise Broken("a recovery leaves out what a log holds")
        self.check()

    def is_up(self, node):
        """The promise of one that is up again, and why it waits for all: it has the numbers that peers gave to its messages."""
        self.see()
        if self.met:
            return
        if node.state != self.fold(node.me, self.history[node.me])[0]:
            raise Broken("a state isn't the one of what was received")
        for peer in self.nodes():
            for ssn in range(peer.covered.get(node.me, 0) + 1, peer.count_of(node.me) + 1) if peer is not node and peer.up() else []:
                if node.logs[peer.me].entry(ssn)[1] != peer.number_of(node.me, ssn):
                    raise Broken("one is up without a number that a peer gave")

    def see(self):
        """Whether two have met, as the nodes tell it."""
        self.met = self.met or not all(node.exact for node in self.nodes())

    def check(self):
        """No orphan, everything received and shown once and in order: of all nodes, or where two have met of durable ones."""
        self.see()
        for source in range(self.count + 1):
            last = source == GATEWAY or self.hosts[source].durable
            if self.met and not last:
                continue
            sent = None if source == GATEWAY else self.fold(source, self.history[source][: self.saved[source]] if last else self.history[source])[1]
            for node in range(1, self.count + 1):
                has = [message for message in self.history[node] if message[0] == source]
                sends = self.inputs[node] if source == GATEWAY else sent[node]
                if [message[1] for message in has] != list(range(1, len(has) + 1)):
                    raise Broken("messages are received out of order, or twice")
                if [message[2] for message in has] != sends[: len(has)]:
                    raise Broken("a message is an orphan")
            if source != GATEWAY and self.shown[source] != sent[GATEWAY][: len(self.shown[source])]:
                raise Broken("an output is an orphan, or shown twice")


class Run:
    """A random run: one call of a node or its host after another, then a quiet time in which nobody dies."""

    def __init__(self, seed, left_out, steps=600):
        self.random = random.Random(seed)
        count = self.random.choice([1, 2, 2, 3, 3])
        # kills come one at a time, or at any moment; and of those at any moment some are of durable nodes
        self.alone = seed % 3 == 0
        durable = {0: [], 1: [[], range(1, count + 1)][seed % 2], 2: [node for node in range(1, count + 1) if self.random.random() < 0.5]}[seed % 3]
        self.cluster = Cluster(count, set(durable), left_out, handle)
        self.kills, self.word, self.deaths = 0, 0, []
        # some kinds of packets are slow: most of them don't come, or come much later
        self.slow = {kind for kind in KINDS if self.random.random() < 0.3}
        choice = self.random.choice
        self.weights = [8, 60, choice([4, 16]), choice([5, 25]), choice([0.5, 3]), 1, 3, 3, choice([0.5, 1.5]), 6]
        for _ in range(steps):
            self.step()
        self.settle()

    def step(self):
        cluster = self.cluster
        host = cluster.hosts[self.random.randint(1, cluster.count)]
        kind = self.random.choices(["input", "deliver", "late", "work", "tick", "make", "keep", "confirm", "die", "open"], self.weights)[0]
        if kind == "input" and self.word < 40:
            self.word += 1
            cluster.gateway.input(host.me, (0, self.word))
        elif kind == "deliver" and cluster.queue:
            cluster.queue = cluster.queue[-30:]
            parcel = cluster.queue.pop(self.random.randrange(len(cluster.queue)))
            if self.random.random() > (0.7 if parcel[2][0] in self.slow else 0.05):
                cluster.deliver(parcel)
        elif kind == "late" and cluster.net:
            cluster.deliver(self.late())
        elif kind == "work" and host.node:
            host.node.work()
        elif kind == "tick":
            self.random.choice(cluster.nodes() + [cluster.gateway]).tick()
        elif kind in ("make", "keep", "confirm"):
            getattr(host, kind)()
        elif kind == "die":
            self.die(host)
        elif kind == "open":
            host.open(self.random.choice([0, 0, 0, 1]))
        cluster.see()

    def late(self):
        """Any packet that was ever put out: one of those before a death, or of any kind, each as likely."""
        net = self.cluster.net
        if self.deaths and self.random.random() < 0.5:
            death = self.random.choice(self.deaths)
            net = net[max(0, death - 30) : death] or net
        kinds = sorted({packet[0] for source, destination, packet in net})
        kind = self.random.choice([kind for kind in kinds if kind in self.slow] or kinds)
        return self.random.choice([parcel for parcel in net if parcel[2][0] == kind])

    def die(self, host):
        others = [other.node for other in self.cluster.hosts.values() if other is not host]
        if host.node and not (self.alone and any(node is None or not node.up() for node in others)):
            self.kills += 1
            self.deaths.append(len(self.cluster.net))
            host.die()

    def rounds(self, number):
        cluster = self.cluster
        for _ in range(number):
            for peer in cluster.nodes() + [cluster.gateway]:
                peer.tick()
            while cluster.queue:
                cluster.deliver(cluster.queue.pop(0))
                for node in cluster.nodes():
                    node.work()
            for node in cluster.nodes():
                node.work()

    def checkpoints(self):
        for host in self.cluster.hosts.values():
            host.make()
            host.keep()
            host.confirm()

    def settle(self):
        """All come back; where none have met all is received and shown, and after checkpoints of all the logs are empty."""
        cluster = self.cluster
        for host in cluster.hosts.values():
            host.open(0)
        self.checkpoints()
        cluster.queue = []
        self.rounds(40)
        if not all(node.up() for node in cluster.nodes()):
            raise Broken("a node doesn't come back")
        for peer in cluster.nodes() + [cluster.gateway]:
            peer.tick()
        if cluster.queue and not cluster.met and not any(node.durable for node in cluster.nodes()):
            raise Broken("something is sent forever")
        for _ in range(DEPTH + 2):
            self.checkpoints()
            self.rounds(12)
        if self.alone and cluster.met:
            raise Broken("one isn't exact, though failures came one at a time")
        if cluster.met:
            return
        sent = {source: cluster.fold(source, cluster.history[source])[1] for source in cluster.history}
        sent[GATEWAY] = cluster.inputs
        for source, lists in sent.items():
            for destination, payloads in lists.items():
                got = cluster.shown[source] if destination == GATEWAY else [1 for message in cluster.history[destination] if message[0] == source]
                if source != destination and len(got) != len(payloads):
                    raise Broken("a message is never received")
        if any(log.entries for peer in cluster.nodes() + [cluster.gateway] for log in peer.logs.values()):
            raise Broken("an entry is never dropped")


class Drawn:
    """A run that is drawn by hand: packets arrive when and where it says."""

    def __init__(self, count, left_out):
        self.cluster = Cluster(count, set(), left_out, pass_on)

    def last(self, source, destination, kind):
        found = [parcel for parcel in self.cluster.net if parcel[:2] == (source, destination) and parcel[2][0] == kind]
        if not found:
            raise Broken("%s sends no %s" % ("node %d" % source if source else "the gateway", kind))
        return found[-1]

    def go(self, source, destination, kind):
        parcel = self.last(source, destination, kind)
        self.cluster.deliver(parcel)
        return parcel

    def work(self, node):
        self.cluster.hosts[node].node.work()

    def receives(self, node, word):
        self.cluster.gateway.input(node, (0, word))
        self.go(GATEWAY, node, "Delivery")
        self.work(node)

    def is_counted(self, node):
        self.go(node, GATEWAY, "Number")
        self.go(GATEWAY, node, "Acknowledgement")

    def comes_back(self, node):
        """It dies, is opened, collects and replays; what its peers restore is still to come."""
        self.cluster.hosts[node].die()
        self.cluster.hosts[node].open(0)
        for other in range(self.cluster.count + 1):
            if other != node:
                self.go(node, other, "Ask")
                self.go(other, node, "Told")
        while self.cluster.hosts[node].node.stage == "replaying":
            self.work(node)

    def restores(self, node, *others):
        for other in others:
            self.go(node, other, "Resume")
            self.go(other, node, "Restored")


def gap(left_out):
    """The number of the second message is recorded and acknowledged, that of the first isn't; the acknowledgement comes much later."""
    drawn = Drawn(1, left_out)
    drawn.receives(1, 1)
    drawn.receives(1, 2)
    drawn.go(1, GATEWAY, "Number")
    old = drawn.last(GATEWAY, 1, "Acknowledgement")
    drawn.comes_back(1)
    drawn.restores(1, GATEWAY)
    for ssn in (1, 2):
        drawn.cluster.deliver((GATEWAY, 1, ("Delivery", 1, ssn, (0, ssn))))
        drawn.work(1)
        if ssn == 1:
            drawn.is_counted(1)
    drawn.cluster.deliver(old)
    drawn.comes_back(1)


def sends_on(left_out, words):
    """Node 1 has received so many messages of the gateway, which are acknowledged, and passed them on to node 2."""
    drawn = Drawn(2, left_out)
    for word in range(1, words + 1):
        drawn.receives(1, word)
        drawn.is_counted(1)
    return drawn


def old_message(left_out):
    """A message of before a death comes when its receiver has restored the sender's numbers, and the gateway hasn't answered."""
    drawn = sends_on(left_out, 1)
    old = drawn.last(1, 2, "Delivery")
    drawn.comes_back(1)
    drawn.restores(1, 2)
    drawn.cluster.deliver(old)
    drawn.work(2)
    drawn.restores(1, GATEWAY)


def old_restored(left_out):
    """A node comes back twice, and what was restored the first time comes again."""
    drawn = sends_on(left_out, 1)
    drawn.comes_back(1)
    drawn.restores(1, 2, GATEWAY)
    old = drawn.last(2, 1, "Restored")
    drawn.go(1, 2, "Delivery")
    drawn.work(2)
    drawn.comes_back(1)
    drawn.cluster.deliver(old)
    drawn.restores(1, GATEWAY)


def open_job(left_out):
    """A Resume comes while its receiver works on a message of the one that resumes."""
    drawn = sends_on(left_out, 1)
    drawn.go(1, 2, "Delivery")
    drawn.comes_back(1)
    drawn.go(1, 2, "Resume")
    if any(parcel[2][0] == "Restored" for parcel in drawn.cluster.net):
        drawn.go(2, 1, "Restored")
    drawn.work(2)
    drawn.restores(1, GATEWAY)


def two_senders(left_out):
    """Node 2 takes a message of node 1, whose number is lost, and one of the gateway. It comes back without both, and takes two of node 1."""
    drawn = sends_on(left_out, 2)
    first, second = [parcel for parcel in drawn.cluster.net if parcel[:2] == (1, 2) and parcel[2][0] == "Delivery"]
    drawn.cluster.deliver(first)
    drawn.work(2)
    drawn.receives(2, 9)
    old_number = drawn.go(2, GATEWAY, "Number")
    drawn.comes_back(2)
    drawn.restores(2, GATEWAY, 1)
    old_resume = drawn.last(2, 1, "Resume")
    for parcel in (first, second):
        drawn.cluster.deliver(parcel)
        drawn.work(2)
        drawn.go(2, 1, "Number")
        drawn.go(1, 2, "Acknowledgement")
    drawn.cluster.deliver(old_number)
    drawn.cluster.deliver(old_resume)
    drawn.comes_back(2)


def covered(left_out):
    """The number of a message and the first Saved are lost; the message comes again when a checkpoint covers it."""
    drawn = Drawn(1, left_out)
    drawn.receives(1, 1)
    host = drawn.cluster.hosts[1]
    host.make()
    host.keep()
    host.confirm()
    before = len(drawn.cluster.queue)
    drawn.go(GATEWAY, 1, "Delivery")
    if len(drawn.cluster.queue) == before:
        raise Broken("a message that is covered gets no answer")


DRAWN = [gap, old_message, old_restored, open_job, two_senders, covered]


def guarded(run):
    """What a run breaks, and the run."""
    try:
        return None, run()
    except Broken as broken:
        return str(broken), None


def all_rules(runs):
    kills = messages = met = 0
    drawn = [(run.__name__, guarded(lambda: run(None))) for run in DRAWN]
    for name, (broken, run) in drawn + [("run %d" % seed, guarded(lambda: Run(seed, None))) for seed in range(1, runs + 1)]:
        if broken:
            print(name, "breaks a promise:", broken)
            return 1
        if run:
            kills += run.kills
            messages += sum(len(history) for history in run.cluster.history.values())
            met += run.cluster.met
    print(runs, "runs,", kills, "kills,", messages, "messages;", met, "runs in which nodes met; no promise was broken")
    return 0


def left_out(runs):
    unnoticed = 0
    for rule in RULES:
        drawn = [(run.__name__, guarded(lambda: run(rule))[0]) for run in DRAWN]
        drawn = ["%s: %s" % pair for pair in drawn if pair[1]]
        seen = [("run %d" % seed, guarded(lambda: Run(seed, rule))[0]) for seed in range(1, runs + 1)]
        seen = ["%s: %s" % pair for pair in seen if pair[1]]
        unnoticed += not (drawn or seen)
        print("%-62s %4d of %d   %s" % (rule, len(seen), runs, (drawn + seen + ["not noticed"])[0]), flush=True)
    return unnoticed


if __name__ == "__main__":
    words = sys.argv[1:]
    table = words[:1] == ["left-out"]
    number = words[1:] if table else words
    runs = int(number[0]) if number else (150 if table else 600)
    sys.exit(left_out(runs) if table else all_rules(runs))
