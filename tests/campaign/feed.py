"""Transfers that flow while programs are killed, and whether all of it came out right."""
import os
import sys
import threading
import time

HERE = os.path.dirname(os.path.realpath(__file__))
HOSTS = os.path.join(HERE, "..", "..", "hosts")
sys.path[:0] = [HOSTS, os.path.join(HOSTS, "examples", "bank")]

import bank
from lives import Cluster, Wrong

UNANSWERED, UNFINISHED = 32, 128  # lines without an answer, transfers without a receipt


class Feed(threading.Thread):
    """Hands transfers in, one behind the other, also while the gateway is away."""

    def __init__(self, cluster, seed):
        super().__init__(daemon=True)
        self.cluster, self.over, self.is_away = cluster, False, threading.Event()
        self.more = bank.transfers(seed, bank.ACCOUNTS + 1)
        self.written = {transfer[0]: transfer for transfer in bank.deposits()}
        self.doubtful = set()
        for transfer in self.written.values():
            cluster.write("ledger", bank.payload(transfer))
        cluster.wait_for(lambda: len(cluster.outputs["notifier"]) == len(self.written))

    def is_ahead(self):
        logged = len(self.cluster.logged)
        return len(self.cluster.unanswered) >= UNANSWERED or logged - len(self.cluster.outputs["notifier"]) >= UNFINISHED

    def run(self):
        while not self.over:
            if self.is_away.is_set() or self.is_ahead():
                time.sleep(0.001)
            else:
                self.one()

    def one(self):
        transfer = next(self.more)
        self.written[transfer[0]] = transfer
        self.cluster.write("ledger", bank.payload(transfer))

    def restart_gateway(self):
        """Its lines that had no answer were logged or not: their receipts tell."""
        for _, payload in self.cluster.restart_gateway():
            self.doubtful.add(int.from_bytes(payload[:8], "little"))

    def finish(self):
        """All that was logged has its receipt; the nodes end. The receipts, and the states of the stores."""
        self.over = True
        self.join()
        self.cluster.wait_logged(0)
        self.one()
        self.cluster.wait_logged(0)
        last = max(ssn for _, ssn in self.cluster.logged)
        self.cluster.wait_for(lambda: len(self.cluster.outputs["notifier"]) >= last, 120)
        self.cluster.goes_on()
        statuses = self.cluster.stop()
        if self.cluster.fault:
            raise Wrong(self.cluster.fault)
        if any(statuses):
            raise Wrong(f"programs ended with {statuses}: {[program.said[-1:] for program in self.cluster.programs]}")
        return self.cluster.outputs["notifier"], [node.kept()[0] for node in self.cluster.nodes]

    def judge(self, receipts, states):
        """Which of the four things went wrong, as counts: outputs lost, doubled and changed, states that aren't right."""
        numbers = [int.from_bytes(bytes.fromhex(receipt)[:8], "little") for receipt in receipts]
        logged = {ssn: int.from_bytes(payload[:8], "little") for (_, ssn), payload in self.cluster.logged.items()}
        right, right_states = bank.expected([self.written[number] for number in numbers if number in self.written])
        answered = set(self.written) - self.doubtful
        return {
            "lost": len(answered - set(numbers)),
            "doubled": len(numbers) - len(set(numbers)),
            "changed": sum(a != b for a, b in zip(receipts, right)) + abs(len(receipts) - len(right))
            + sum(numbers[ssn - 1] != number for ssn, number in logged.items() if ssn <= len(numbers)),
            "states": sum(a != b for a, b in zip(states, right_states)),
        }
