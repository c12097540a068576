"""Nodes whose stores lie elsewhere go on on another machine, when theirs is cut off, stands still or is gone; servers that may fail are
killed now and then. A life that was left behind and wakes up ends by itself, with status 7, and has written nothing; with status 6 if
its machine was cut off for as long as it waits for its server."""
import collections
import copy
import os
import shutil
import signal
import tempfile
import threading
import time

from lives import Program, Wrong
from machines import Lan
from server import Server
from storage import Bucket

MACHINES, LEFT, LOST = 8, 3, "has claimed the store"  # LEFT: lives left behind at a time
PATIENCE = 25  # seconds that it waits for its server at least


class Left:
    """A life that another one followed, its machine, and when it was left."""

    def __init__(self, program, machine, way):
        self.program, self.machine, self.way, self.since, self.until = program, machine, way, time.monotonic(), None

    def wakes(self):
        """It is to end soon, by one of these statuses."""
        now = time.monotonic()
        self.statuses = (6, 7) if self.way == "cut" and now - self.since > PATIENCE else (7,)
        self.until = now + 60

    def is_right(self, status):
        return status in self.statuses and (status == 6 or any(LOST in line for line in self.program.said))


class Moves:
    """A campaign whose programs move, with inputs flowing."""

    def __init__(self, campaign, lan, storage):
        self.campaign, self.lan, self.storage, self.cluster = campaign, lan, storage, campaign.cluster
        self.free, self.left, self.ways = list(lan.names[len(self.cluster.programs):]), [], collections.Counter()

    def leave(self, program):
        """The same process, of which no life began here yet, on a machine that is free; the program that is left."""
        heir, number = copy.copy(program), program.number
        heir.said, heir.is_up, heir.status = [], threading.Event(), None
        heir.home = tempfile.mkdtemp(prefix="machine.", dir=self.cluster.folder)
        self.storage.takes(heir)
        self.cluster.programs[number] = heir
        if number:
            self.cluster.nodes[number - 1] = heir
        else:
            self.cluster.gateway = heir
        old, self.cluster.places[number] = self.cluster.places[number], (self.free.pop(0), self.lan.host)
        return heir, old[0]

    def move(self, program):
        """By one of the ways at random."""
        way = self.campaign.chance.choice(("cut", "stop", "kill") if self.lan.is_there else ("stop", "kill"))
        if not program.number:
            self.campaign.feed.is_away.set()
        heir, machine = self.leave(program)
        left = Left(program, machine, way)
        if way == "cut":
            self.lan.cuts(machine, True)
        elif way == "stop":
            program.child.send_signal(signal.SIGSTOP)
        else:
            self.campaign.kill(program)
            self.empties(program)
            self.free.append(machine)
        self.campaign.restart(heir)
        if program.number:
            heir.wait_up(60)
        self.campaign.pause(0.3)
        if way != "kill":
            self.wakes(left)
        self.ways[way] += 1

    def empties(self, program):
        """Its folder goes, in which it left nothing."""
        if os.listdir(program.home):
            raise Wrong(f"{program.name} left {os.listdir(program.home)} behind")
        shutil.rmtree(program.home)

    def wakes(self, left):
        if left.way == "cut":
            self.lan.cuts(left.machine, False)
        else:
            left.program.child.send_signal(signal.SIGCONT)
        left.wakes()
        self.left.append(left)

    def reap(self, most):
        """Until so many at most have not ended yet."""
        while True:
            for left in [left for left in self.left if left.program.child.poll() is not None]:
                status = left.program.ends()
                if not left.is_right(status):
                    raise Wrong(f"{left.program.name} woke up after {left.way}, and ended with {status}: {left.program.said[-3:]}")
                self.left.remove(left)
                self.empties(left.program)
                self.free.append(left.machine)
            late = [left for left in self.left if time.monotonic() > left.until]
            if late:
                raise Wrong(f"{late[0].program.name} woke up after {late[0].way}, and goes on: {late[0].program.said[-3:]}")
            if len(self.left) <= most:
                return
            time.sleep(0.05)

    def run(self, count):
        for number in range(count):
            self.reap(LEFT)
            self.cluster.goes_on()
            if number % 25 == 20 and self.storage.may_fail:
                self.storage.fails()
                self.ways["server"] += 1
            programs = self.cluster.nodes if number % 10 else [self.cluster.gateway]
            self.move(self.campaign.chance.choice(programs))
        self.reap(0)
        self.campaign.notes += self.ways.items()


def part(folder, kind, count, seed, port, begin):
    """So many moves; `begin` makes a campaign."""
    with Lan(MACHINES) as lan, kind(folder, lan.host, port) as storage, Server(not issubclass(kind, Bucket), port, lan.host):
        places = [(name, lan.host) for name in lan.names[:4]]
        campaign = begin(os.path.join(folder, "cluster"), seed, "nats", ["--durable"], places=places, storage=storage)
        moving = Moves(campaign, lan, storage)
        moving.run(count)
        return campaign.finish()
