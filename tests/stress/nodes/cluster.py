"""A small cluster over queues, with what the hosts of its nodes and of its gateway keep, and what may happen to it."""


DEAD_FROM = 3  # the first stage of one that comes back
BUSY = 1


class Cluster:
    """`maker` opens and revives nodes and the gateway; `chance` decides what happens."""

    def __init__(self, maker, chance, names, limits, page, tick):
        self.maker, self.chance, self.names, self.limits = maker, chance, names, limits
        self.page, self.tick_limit, self.n = page, tick, len(names)
        self.network, self.taken, self.nodes, self.kills = [], [], {}, 0
        self.kept, self.incarnation, self.durable = {}, {}, {}
        *_, self.gateway = maker.opened_gateway(self.n, page, tick)
        self.base, self.journal = self.gateway.whole("store")[2], b""
        self.shown = []
        for me in range(1, self.n + 1):
            self.open(me)

    def close(self):
        for node in self.nodes.values():
            node.close()
        self.gateway.close()

    def parties(self):
        return [self.gateway, *self.nodes.values()]

    def party(self, to):
        return self.nodes.get(to) if to else self.gateway

    # ---- the hosts of nodes

    def opening_state(self, _me):
        """None, for zeros."""

    def open(self, me):
        *_, node = self.maker.opened_node(self.names[me - 1], me, self.n, self.limits[me - 1], self.opening_state(me))
        self.kept[me], self.incarnation[me], self.durable[me] = node.whole("checkpoint")[2], 1, None
        node.make("saved")
        self.nodes[me] = node

    def work(self):
        for node in self.nodes.values():
            if self.chance.random() < 0.6:
                for _ in range(self.chance.choice([1, 1, 2, 5])):
                    node.make("work")

    def take(self):
        for party in self.parties():
            if self.chance.random() < 0.4:
                for _ in range(self.chance.choice([1, 3, 20])):
                    self.take_of(party)

    def take_of(self, party):
        if party is self.gateway:
            self.keep_changes()
        code, _, to, data = party.whole("take")
        if code == 0:
            self.network.append((to, data))
            self.taken.append((to, data))
        return code == 0

    def tick(self):
        self.chance.choice(self.parties()).make("tick")

    def checkpoint(self):
        """The bytes are made; whether they are durable is seen later."""
        if self.nodes:
            me = self.chance.choice(list(self.nodes))
            code, _, data = self.nodes[me].whole("checkpoint")
            if code == 0:
                self.durable[me] = data

    def saved(self):
        if self.nodes:
            me = self.chance.choice(list(self.nodes))
            self.store_kept(me)
            self.nodes[me].make("saved")

    def store_kept(self, me):
        if self.durable[me] is not None:
            self.kept[me], self.durable[me] = self.durable[me], None

    def kill(self):
        """Bytes that the dead one was to store are durable by then, or not."""
        me = self.chance.choice(list(self.nodes))
        if self.chance.random() < 0.5:
            self.store_kept(me)
        self.durable[me] = None
        self.nodes.pop(me).close()
        self.kills += 1

    def kill_one(self):
        """Where all are up: failures come one at a time."""
        if self.is_whole():
            self.kill()

    def kill_any(self):
        if self.nodes:
            self.kill()

    def is_whole(self):
        return len(self.nodes) == self.n and all(node.stage < DEAD_FROM for node in self.nodes.values())

    def revive(self):
        dead = self.dead()
        if dead:
            self.revive_one(self.chance.choice(dead))

    def dead(self):
        return [me for me in range(1, self.n + 1) if me not in self.nodes]

    def revive_one(self, me):
        self.incarnation[me] += self.chance.choice([1, 1, 1, 2])
        *_, self.nodes[me] = self.maker.revived_node(self.names[me - 1], me, self.kept[me], self.incarnation[me], self.limits[me - 1])

    # ---- the host of the gateway

    def output(self, room=256):
        code, process, ssn, _, data = self.gateway.make("output", room)
        if code == 0:
            self.shown.append((process, ssn, data))
        return code == 0

    def keep_changes(self):
        self.journal += self.gateway.whole("changes")[2] or b""
        if self.chance.random() < 0.02:
            self.base, self.journal = self.gateway.whole("store")[2], b""

    def restart_gateway(self):
        """What the gateway did and its host had not made durable was put out by nobody."""
        if self.chance.random() < 0.5:
            self.keep_changes()
        self.gateway.close()
        *_, self.gateway = self.maker.revived_gateway(self.base, self.page, self.tick_limit)
        self.gateway.make("apply", self.journal)

    # ---- the network

    def deliver(self):
        for _ in range(self.chance.choice([1, 1, 4, 16])):
            if not self.network:
                return
            at = self.chance.choice([0, 0, self.chance.randrange(len(self.network))])
            is_kept = self.chance.random() < 0.08
            to, data = self.network[at] if is_kept else self.network.pop(at)
            if party := self.party(to):
                party.make("receive", data)

    def lose(self):
        if self.network:
            del self.network[self.chance.randrange(len(self.network))]
        if len(self.network) > 300:
            del self.network[:150]

    # ---- the end

    def settle(self, turns):
        """All come back, and packets arrive, for some turns."""
        for me in self.dead():
            self.revive_one(me)
        for turn in range(turns):
            for me, node in self.nodes.items():
                self.settle_node(me, node, turn % 4 == 0)
            for party in self.parties():
                if turn % 3 == 0:
                    party.make("tick")
                while self.take_of(party):
                    pass
            for to, data in self.network[:400]:
                party = self.party(to)
                party.make("receive", data)
                if to and party.stage == BUSY:
                    party.make("work")
            del self.network[:400]

    def settle_node(self, me, node, is_to_keep):
        if self.durable[me] is not None:
            self.store_kept(me)
            node.make("saved")
        while node.make("work") == 0:
            pass
        if is_to_keep:
            code, _, self.durable[me] = node.whole("checkpoint")
            if code == 0:
                self.store_kept(me)
                node.make("saved")
