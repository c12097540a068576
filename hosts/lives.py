"""Programs of a cluster, each of which is started, killed and started again, and what they say."""
import atexit
import os
import re
import signal
import struct
import subprocess
import sys
import threading
import time

from certificates import Authority

HERE = os.path.dirname(os.path.realpath(__file__))
UP = re.compile(r"up in incarnation (\d+) with (\d+) messages, (\d+) of its checkpoint, after ([\d.]+) ms")


class Wrong(Exception):
    """What a cluster is not to do."""


def bundle(cluster, sender, receiver, *packets):
    """Packets as they go between programs of a cluster of this id (docs/FORMATS.md)."""
    head = b"SBB1" + bytes([sender, receiver]) + struct.pack("<H", len(packets)) + cluster
    return head + b"".join(struct.pack("<H", len(packet)) + packet for packet in packets)


def crc32c(data):
    rest = 0xFFFFFFFF
    for byte in data:
        rest ^= byte
        for _ in range(8):
            rest = rest >> 1 ^ (0x82F63B78 if rest & 1 else 0)
    return rest ^ 0xFFFFFFFF


def slot(number, data, room=1 << 16):
    """One of the two that the file `kept` has."""
    head = struct.pack("<QQ", number, len(data))
    return (b"SBS2" + struct.pack("<I", crc32c(head + data + data[-4:])) + head + data).ljust(room, b"\0")


def last_of(kept):
    """The bytes of the last whole slot: of two, or of the one that a store elsewhere has."""
    found = {}
    for at in (0, len(kept) // 2):
        number, size = struct.unpack_from("<QQ", kept.ljust(at + 24), at + 8)
        data = kept[at + 24:at + 24 + size]
        if slot(number, data, 0) == kept[at:at + 24 + size]:
            found[number] = data
    return found[max(found)]


HELLO, OFFER, JOIN, WELCOME, REFUSAL = range(1, 6)


def greeting(word, process, cluster, store):
    """What a process with a new store and the gateway say to each other."""
    text = b"SBH1" + bytes([word, process, 0, 0]) + cluster + store
    return text + struct.pack("<I", crc32c(text))


running = set()


@atexit.register
def end_all():
    """No program outlives the script that started it."""
    for child in list(running):
        if child.poll() is None:
            child.kill()


signal.signal(signal.SIGTERM, lambda number, frame: sys.exit(128 + number))


def program_path():
    """sblog-node, as hosts/build has built it; SBLOG_NODE names another one."""
    path = os.environ.get("SBLOG_NODE") or os.path.join(HERE, "out", "sblog-node")
    if not os.path.exists(path):
        sys.exit(f"there is no {path}: hosts/build makes it")
    return path


class Program:
    """A process of a cluster, or its gateway: one life after the other."""

    def __init__(self, cluster, number, words=()):
        self.cluster, self.number, self.words = cluster, number, list(words)
        self.name = cluster.names[number]
        self.store = os.path.join(cluster.folder, "store-" + self.name)
        self.child, self.readers, self.said, self.lives, self.kills = None, [], [], 0, 0
        self.is_up, self.exact, self.status = threading.Event(), True, None
        self.ups = []  # seconds from the start of a life to the line that says so
        self.environment, self.home = None, None  # home: the folder that it runs in

    def command(self, file=None):
        file = file or self.cluster.file_of(self.number)
        words = [self.cluster.program, "--cluster", file, "--me", str(self.number), "--store", self.store]
        if self.cluster.places and self.cluster.places[self.number][0]:
            words = ["ip", "netns", "exec", self.cluster.places[self.number][0], *words]
        if self.cluster.authority:
            words += ["--tls", self.cluster.certificate(self.number)]
        return words + self.words

    def start(self):
        self.is_up.clear()
        self.lives, self.shown = self.lives + 1, {}
        self.started = time.monotonic()
        stream = subprocess.PIPE if self.number == 0 else subprocess.DEVNULL
        environment = {**os.environ, **self.environment} if self.environment else None
        self.child = subprocess.Popen(self.command(), stdin=stream, stdout=stream, stderr=subprocess.PIPE, env=environment,
                                      cwd=self.home)
        running.add(self.child)
        self.readers = [self.reads(self.child.stderr, self.hear)]
        if self.number == 0:
            self.readers.append(self.reads(self.child.stdout, self.answer))

    def reads(self, stream, hear):
        def read():
            for line in stream:
                if line.endswith(b"\n"):
                    hear(line.decode().rstrip("\n"))
        reader = threading.Thread(target=read, daemon=True)
        reader.start()
        return reader

    def answer(self, line):
        """Of a gateway that another one followed outputs alone are heard, of which some come again then. None does in one life."""
        if line.startswith("output "):
            _, process, ssn, _ = line.split()
            if int(ssn) <= self.shown.get(process, 0):
                self.cluster.fault = f"{line} comes again in one life"
            self.shown[process] = int(ssn)
        elif self.cluster.gateway is not self:
            return
        self.cluster.hear(line)

    def hear(self, line):
        if line.startswith("status "):
            self.status = dict(zip(*[iter(line.split()[2:])] * 2))
            return
        self.said.append(line)
        if "failures met" in line:
            self.exact = False
        found = UP.search(line)
        if found:
            self.ups.append((time.monotonic() - self.started, float(found[4]) / 1000))
            self.is_up.set()

    def ends(self):
        """The status of a life that is over, when all that it said was heard."""
        status = self.child.wait()
        running.discard(self.child)
        for reader in self.readers:
            reader.join()
        return status

    def kill(self):
        self.kills += 1
        self.child.send_signal(signal.SIGKILL)
        return self.ends()

    def stop(self):
        self.child.send_signal(signal.SIGCONT)
        self.child.send_signal(signal.SIGTERM)
        return self.ends()

    def wait_up(self, seconds=30):
        until = time.monotonic() + seconds
        while not self.is_up.wait(0.2):
            if self.child.poll() is not None or time.monotonic() > until:
                raise Wrong(f"{self.name} isn't up, status {self.child.poll()}:\n" + "\n".join(self.cluster.standings()))

    def id(self, line="cluster-id"):
        """The id of its cluster, or of a store, as its store has it; none while it has none."""
        with open(os.path.join(self.store, "identity")) as file:
            found = re.search(rf"(?m)^{line} ([0-9a-f]{{32}})$", file.read())
        return bytes.fromhex(found[1]) if found else None

    def slots(self):
        with open(os.path.join(self.store, "kept"), "rb") as file:
            return file.read()

    def kept(self):
        """State and number of messages of the stored checkpoint (docs/FORMATS.md)."""
        data = last_of(self.slots())
        count, size = data[5], struct.unpack_from("<H", data, 6)[0]
        at = 16 + 8 * count
        return data[at:at + size], struct.unpack_from("<Q", data, 8)[0]


class Cluster:
    """All programs; what was handed in, and what came out."""

    def __init__(self, folder, name, processes, transport="unix", program=None, words=(), port=7600, proxied=False, places=None):
        """processes: pairs of a name and an image; places: of each program a network namespace, if it has one, and its address there, or
        by nats the server's."""
        self.folder, self.name, self.proxied, self.places = folder, name, proxied, places
        self.program = program or program_path()
        self.names = ["gateway"] + [process for process, image in processes]
        self.images = [None] + [os.path.realpath(image) for process, image in processes]
        self.transport, self.port, self.host = transport, port, places[0][1] if places else "127.0.0.1"
        os.makedirs(folder, exist_ok=True)
        for number in range(len(self.names)):
            with open(self.file_of(number), "w") as file:
                file.write(self.text(number))
        self.authority = Authority(os.path.join(folder, "authority")) if transport == "tls" else None
        for name in self.names if self.authority else ():
            self.authority.signs(self.certificate(self.names.index(name)), f"{name}.{self.name}")
        self.programs = [Program(self, number, words if number else ()) for number in range(len(self.names))]
        self.gateway, self.nodes = self.programs[0], self.programs[1:]
        self.lock, self.pen = threading.Condition(), threading.Lock()
        self.unanswered, self.logged, self.outputs = [], {}, {process: [] for process in self.names[1:]}
        self.repeated, self.heard_in = 0, 0

    def certificate(self, number):
        """The folder of its certificate, by tls."""
        return os.path.join(self.folder, "certificate-" + self.names[number])

    def address(self, number, through=False):
        if self.transport in ("tcp", "tls"):
            return f"{self.transport}:{self.places[number][1] if self.places else '127.0.0.1'}:{self.port + number}"
        if self.transport == "nats":
            return f"nats:nats://{self.host}:{self.port}"
        return f"unix:{self.path(number, through)}"

    def path(self, number, through=False):
        return os.path.join(self.folder, f"{number}.{'proxy' if through else 'socket'}")

    def file_of(self, number):
        return os.path.join(self.folder, f"cluster-{number}" if self.proxied else "cluster")

    def text(self, me):
        """The cluster file; where a proxy stands between, the others' addresses are the proxy's."""
        rows = [f"cluster {self.name}"]
        for number, process in enumerate(self.names):
            address = self.address(number, self.proxied and number != me)
            rows.append(f"gateway {address}" if number == 0 else f"process {process} {self.images[number]} {address}")
        return "\n".join(rows) + "\n"

    def start(self):
        for program in self.programs:
            program.start()
        for node in self.nodes:
            node.wait_up()

    # lines of the gateway
    def hear(self, line):
        with self.lock:
            word, process, ssn, *rest = line.split()
            if word == "logged":
                key, payload = self.unanswered.pop(0)
                if key != process:
                    self.fault = f"{line}, where {key} was written to"
                self.logged[process, int(ssn)] = payload
            elif word == "output":
                self.take_output(process, int(ssn), rest[0])
            self.lock.notify_all()

    def take_output(self, process, ssn, payload):
        so_far = self.outputs[process]
        if ssn == len(so_far) + 1:
            so_far.append(payload)
        elif ssn == len(so_far) and so_far[-1] == payload and self.heard_in != self.gateway.lives:
            self.repeated += 1  # the one line that a gateway which was killed may print again
        elif so_far[ssn - 1:ssn] == [payload] and not os.path.isdir(self.gateway.store):
            self.repeated += 1  # several, if its store is elsewhere
        else:
            self.fault = f"output {process} {ssn} behind {len(so_far)} outputs"
        self.heard_in = self.gateway.lives

    fault = None

    def write(self, process, payload):
        """Hands a payload in; false where the gateway is gone."""
        with self.pen:
            with self.lock:
                self.unanswered.append((process, payload))
            try:
                self.gateway.child.stdin.write(f"bytes {process} {payload.hex() or '-'}\n".encode())
                self.gateway.child.stdin.flush()
                return True
            except OSError:
                return False

    def wait_for(self, what, seconds=30):
        with self.lock:
            if not self.lock.wait_for(lambda: self.fault or what(), seconds) or self.fault:
                raise Wrong(self.fault or f"not so after {seconds} s:\n" + "\n".join(self.standings()))

    def wait_logged(self, most, seconds=60):
        """Until at most so many lines have no answer."""
        self.wait_for(lambda: len(self.unanswered) <= most, seconds)

    def restart_gateway(self):
        """What had no answer may have been logged, or not."""
        with self.pen:
            with self.lock:
                doubtful, self.unanswered = self.unanswered, []
            self.gateway.start()
        return doubtful

    def standings(self):
        """What each program says of itself now."""
        rows = []
        for program in self.programs:
            program.status = None
            if program.child.poll() is None:
                program.child.send_signal(signal.SIGUSR1)
            until = time.monotonic() + 1
            while program.status is None and time.monotonic() < until:
                time.sleep(0.01)
            rows.append(f"{program.name}: {program.status} {program.said[-12:]}")
        return rows

    def goes_on(self):
        """No program has ended by itself."""
        for program in self.programs:
            if program.child.poll() is not None:
                raise Wrong(f"{program.name} ended with {program.ends()}: {program.said[-3:]}")

    def stop(self):
        """Each node behind its last checkpoint; the statuses."""
        return [program.stop() for program in self.programs if program.child.poll() is None]
