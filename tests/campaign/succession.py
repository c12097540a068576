"""Clusters that go on as others, in another layout, while a client hands inputs in; programs and hosts/upgrade itself are killed in each
step. What has to come is known from what was handed in: the client's model of sums and numbers knows of no cluster."""
import collections
import itertools
import os
import random
import signal
import struct
import subprocess
import tempfile
import threading
import time

import lives
import running
from frames import INPUT, LOGGED, OUTPUT, TAKEN, frame
from lives import Wrong
from storage import Table, with_each
from talk import Talk
from upgrades import COUNTER, HERE, NARROW, SHRINK, WIDE, WIDEN
from listening import RELAY as RELAY_IMAGE

NAMES = ("gateway", "relay", "counter")
RELAY, AHEAD, FLOW = 1, 64, 50  # inputs under way; outputs that come before the next thing happens
# Who dies, and after which line of hosts/upgrade: so many seconds later at most, or once it runs.
VICTIMS, PAUSE = (*NAMES, "upgrade", "all"), 0.25
PLACES = {"before": 0, "draining": 1, "stopped": 2, "converted": 3, "begun": 4, "up": 5}


class Client(threading.Thread):
    """Hands numbers in for the relay, and takes the counter's outputs: reconnects, sends again what isn't logged."""

    def __init__(self, path, seed):
        super().__init__(daemon=True)
        self.path, self.chance, self.ends, self.is_over, self.fault = path, random.Random(seed), False, False, None
        self.words, self.sums, self.logged, self.out, self.taken, self.again, self.connections = [0], [0], 0, 0, 0, 0, 0

    def run(self):
        while not self.is_over:
            try:
                self.talk()
            except (OSError, EOFError):
                time.sleep(0.01)
            except Wrong as wrong:
                self.fault = str(wrong)
                return

    def expect(self, is_so, what):
        if not is_so:
            raise Wrong(f"{what}: {self.logged} of {len(self.words) - 1} inputs were logged, {self.out} outputs came, {self.taken} were taken")

    def talk(self):
        """One connection."""
        one = Talk(self.path)
        try:
            file = one.socket.makefile("rb")
            one.socket.sendall(b"SBF1" + frame(OUTPUT) + frame(LOGGED, RELAY))
            self.connections += 1
            sent, last, asked = None, None, collections.deque()
            while not self.is_over:
                kind, process, ssn, payload = self.read(file)
                if kind == LOGGED:
                    self.expect(process in (RELAY, COUNTER), "an answer to nobody")
                    if process == COUNTER:  # what was taken before this question is taken
                        self.taken = asked.popleft()
                    else:
                        self.expect(self.logged <= ssn < len(self.words), f"input {ssn} is logged")
                        self.logged, sent = ssn, ssn if sent is None else sent
                else:
                    self.expect(kind == OUTPUT and process == COUNTER, f"{kind}, {process}, {ssn}, {payload}")
                    last = self.take(ssn, payload, last)
                    asked.append(ssn)
                    one.socket.sendall(frame(TAKEN, COUNTER, ssn) + frame(LOGGED, COUNTER))
                sent = self.send(one, sent)
        finally:
            one.socket.close()

    def read(self, file):
        head = file.read(14)
        if len(head) < 14:
            raise EOFError
        length, kind, process, ssn = struct.unpack("<IBBQ", head)
        return kind, process, ssn, file.read(length - 10)

    def take(self, ssn, payload, last):
        """Of a connection the first output is the next one, or came and wasn't taken; then they come without a gap."""
        self.expect(ssn == last + 1 if last else self.taken < ssn <= self.out + 1, f"output {ssn}, after {last} of this connection")
        self.expect(ssn < len(self.sums) and payload == struct.pack("<2Q", self.sums[ssn], ssn), f"output {ssn} is {payload}")
        self.again += ssn <= self.out
        self.out = max(self.out, ssn)
        return ssn

    def send(self, one, sent):
        """Those that a connection was cut off before first; then new ones."""
        while sent is not None and sent < min(self.logged, self.out) + AHEAD and not self.is_over:
            sent += 1
            if sent == len(self.words) and self.ends:
                return sent - 1
            if sent == len(self.words):
                self.words.append(self.chance.randrange(256))
                self.sums.append(self.sums[-1] + self.words[-1])
            one.socket.sendall(frame(INPUT, RELAY, sent, self.words[sent].to_bytes(8, "little")))
        return sent

    def flows(self, count, seconds=60):
        """So many outputs more come."""
        until, wanted = time.monotonic() + seconds, self.out + count
        while self.out < wanted:
            if self.fault or time.monotonic() > until:
                raise Wrong(self.fault or f"{self.out} outputs came, not {wanted}: {self.logged} of {len(self.words) - 1} inputs are logged")
            time.sleep(0.005)


class Line:
    """Clusters one after the other, each in the file `cluster-N`. Their programs are found by the words that they run with."""

    def __init__(self, folder, seed, storage=None):
        os.makedirs(folder)
        self.folder, self.number, self.chance, self.counts = folder, 1, random.Random(seed), collections.Counter()
        self.client = Client(self.path("lines"), seed)
        running.Program.said = self.said = open(self.path("said"), "ab")
        program, file = lives.program_path(), self.file(1)
        for number, name in enumerate(NAMES):
            words = [program, "--cluster", file, "--me", str(number), "--store", storage.word if storage else self.path(name)]
            running.Program([*words, *(() if number else ("--listen", "unix:" + self.path("lines")))], self.home()).begins()
        self.waits()
        self.client.start()
        self.flows(FLOW)

    def path(self, name):
        return os.path.join(self.folder, name)

    def home(self):
        """The folder of a machine that has nothing."""
        return tempfile.mkdtemp(prefix="machine.", dir=self.folder)

    def file(self, number):
        """The counter's state has numbers of 32 bits, and in each second cluster of 64."""
        path, where = self.path(f"cluster-{number}"), "unix:" + self.path("socket-")
        state = [f" state={name}.{number}" if number > 1 else "" for name in NAMES]
        with open(path, "w") as file:
            file.write(f"cluster line-{number}\ngateway {where}0\nprocess 2 counter {NARROW if number % 2 else WIDE} {where}2{state[2]}\n"
                       f"process 1 relay {RELAY_IMAGE} {where}1{state[1]}\n")
        return path

    def programs(self, number=None):
        return running.running(running.Cluster(self.path(f"cluster-{number or self.number}")))

    def waits(self, seconds=60):
        """Until all run."""
        until = time.monotonic() + seconds
        while len(self.programs()) < len(NAMES):
            if time.monotonic() > until:
                raise Wrong(f"of line-{self.number} run {sorted(self.programs())}: {self.tail()}")
            time.sleep(0.02)

    def tail(self):
        with open(self.path("said"), "rb") as file:
            return file.read()[-1500:].decode(errors="replace")

    def flows(self, count):
        try:
            self.client.flows(count)
        except Wrong as wrong:
            raise Wrong(f"{wrong}; {self.counts}; of line-{self.number} run {sorted(self.programs())}: {self.tail()}") from wrong

    def kills(self, programs):
        for program in programs:
            running.kill(program, signal.SIGKILL)
        for program in programs:
            while program.is_there():
                time.sleep(0.002)
        self.counts["kills"] += len(programs)

    def dies(self, count=1, moves=False):
        """Some die, and begin again; if their stores are elsewhere, also on another machine."""
        there = self.programs()
        dead = self.chance.sample(sorted(there), count)
        self.kills([there[number] for number in dead])
        time.sleep(self.chance.random() * 0.05)
        for number in dead:
            there[number].place = self.home() if moves else there[number].place
            there[number].begins()
        self.counts["moves"] += moves

    def several(self):
        self.dies(self.chance.choice((2, 3)))

    def moves(self):
        self.dies(moves=True)

    def stops(self):
        """All, or one, of which one is killed at times; then they begin in any order."""
        there = self.programs()
        chosen = self.chance.sample(sorted(there), self.chance.choice((1, len(there))))
        if self.chance.random() < 0.3:
            self.kills([there[chosen[0]]])
        running.stop([there[number] for number in chosen])
        for number in self.chance.sample(chosen, len(chosen)):
            there[number].begins()
        self.counts["stops"] += 1

    def upgrades(self, victim=None, place=None):
        """It goes on as the next cluster, while a victim dies in a step. If that was the command, or the step failed, it is called again."""
        self.file(self.number + 1)
        there, status = self.programs(), None
        while status != 0 and not self.has_followed(there[0]):
            if status in (1, 2):
                self.begins(there)
            if self.counts[f"status {status}"] > 100:
                raise Wrong(f"line-{self.number} isn't upgraded: {self.tail()}")
            status, victim, place = self.attempt(victim, place), None, None
            self.counts[f"status {status}"] += 1
        self.number += 1
        self.counts["upgrades"] += 1
        self.waits()

    def has_followed(self, gateway):
        """The next cluster was up when the command was killed."""
        return not os.path.exists(self.path(f"cluster-{self.number + 1}.plan")) and "\nfollowed by " in gateway.holds()

    def begins(self, programs):
        there = self.programs()
        for number in set(programs) - set(there):
            programs[number].begins()
        self.waits()

    def attempt(self, victim, place):
        """The status of one call."""
        words = [os.path.join(HERE, "upgrade"), self.path(f"cluster-{self.number}"), self.path(f"cluster-{self.number + 1}")]
        words.append(f"counter={WIDEN if self.number % 2 else SHRINK}")
        command = subprocess.Popen(words, stdin=subprocess.DEVNULL, stdout=subprocess.PIPE, stderr=self.said, text=True)
        lives.running.add(command)
        dead = self.strikes(victim, place, command) if place == "before" else {}
        for number, _ in enumerate(command.stdout, 1):
            if number == PLACES.get(place):
                dead = self.strikes(victim, place, command)
        status = command.wait()
        lives.running.discard(command)
        there = self.programs(self.number + 1)
        for number, program in dead.items():  # of the next cluster, which was up before it died
            if status == 0 and number not in there:
                program.begins()
        return status

    def strikes(self, victim, place, command):
        """A little later than now: what runs then of both clusters, or what runs next. Those of the next one."""
        time.sleep(self.chance.random() * PAUSE)
        if victim == "upgrade":
            number = self.chance.choice((signal.SIGKILL, signal.SIGTERM))
            command.send_signal(number)
            self.counts[f"upgrade {number.name}"] += 1
            return {}
        dead = []
        while not dead and command.poll() is None:
            both = [self.programs(number).items() for number in (self.number, self.number + 1)]
            dead = [program for there in both for number, program in there if victim in ("all", NAMES[number])]
        self.kills(dead)
        return {number: program for number, program in both[1] if program in dead} if dead else {}

    def finish(self):
        """All that was handed in is out, and the states are those of all of it, in the layout of the last cluster. A row, and whether that is so."""
        client, there = self.client, self.programs()
        client.ends = True
        client.flows(len(client.words) - 1 - client.out)
        client.is_over = True
        client.join()
        running.stop(there.values())
        total = struct.pack("<2I" if self.number % 2 else "<2Q", client.sums[-1], client.out)
        for number, state in ((1, b""), (2, total)):
            status, _, why = there[number].says("--export", self.path(f"last.{number}"))
            with open(self.path(f"last.{number}"), "rb") as file:
                if status or file.read() != state:
                    raise Wrong(f"the state of {NAMES[number]} isn't {state}: {status}, {why}")
        row = {**self.counts, "inputs": len(client.words) - 1, "outputs again": client.again, "connections": client.connections}
        return row, True

    def ends(self):
        for number in (self.number, self.number + 1):
            if os.path.exists(self.path(f"cluster-{number}")):
                self.kills(self.programs(number).values())


def part(folder, count, seed):
    """So many upgrades, with each victim in each step."""
    line = Line(folder, seed)
    try:
        faults = [(None, None), *itertools.product(VICTIMS, PLACES)]
        for number in range(count):
            line.upgrades(*faults[number % len(faults)])
            line.flows(FLOW)
        return line.finish()
    finally:
        line.ends()


def at_random(folder, seconds, seed, storage=None):
    """All of it in any order, for so long."""
    line = Line(folder, seed, storage)
    until = time.monotonic() + seconds
    try:
        while time.monotonic() < until:
            what = line.chance.choice((line.dies, line.several, line.stops, line.moves if storage else line.dies, line.upgrades))
            if what == line.upgrades and line.chance.random() < 0.7:
                line.upgrades(line.chance.choice(VICTIMS), line.chance.choice(list(PLACES)))
            else:
                what()
            line.flows(line.chance.randrange(FLOW))
        return line.finish()
    finally:
        line.ends()


def random_part(folder, seconds, seed, port):
    """Half of the time with stores in folders, and half with stores in a table, if PostgreSQL is here."""
    def in_table(place, kind):
        with kind(place, "127.0.0.1", port) as storage:
            return at_random(os.path.join(place, "line"), seconds / 2, seed, storage)
    row, _ = at_random(os.path.join(folder, "line"), seconds / (2 if Table.is_here() else 1), seed)
    more, _ = with_each(folder, in_table, [Table])
    return {**row, **more}, True
