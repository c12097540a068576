"""Programs that speak frames: what each is answered, however its bytes are cut, and what bytes that are no frames do."""
import os
import shutil
import socket
import struct
import subprocess
import threading
import time

from listening import begin, connect, tells
from lives import Wrong
from talk import Talk

INPUT, LOGGED, REFUSED, OUTPUT, TAKEN = range(1, 6)
VERSION, LENGTH, KIND, FIELD, PROCESS, SSN, OTHER, NO_CONSUMER, NO_OUTPUT = range(1, 10)
RELAY, ECHO = 1, 2
CLIENTS = os.path.join(os.path.dirname(os.path.realpath(__file__)), "examples", "clients")


def frame(kind, process=0, ssn=0, payload=b""):
    return struct.pack("<IBBQ", 10 + len(payload), kind, process, ssn) + payload


class Framed(Talk):
    """A program that connects to the gateway, and begins with these bytes."""

    def __init__(self, place, begins=b"SBF1", context=None):
        super().__init__(place, context)
        self.file = self.socket.makefile("rb")
        self.says(begins)

    def says(self, *frames):
        self.socket.sendall(b"".join(frames))

    def hears(self, *frames):
        for wanted in frames:
            heard = self.file.read(len(wanted))
            if heard != wanted:
                raise Wrong(f"{heard!r} in place of {wanted!r}")

    def heard(self):
        length = self.file.read(4)
        return length + self.file.read(int.from_bytes(length, "little"))

    def ends(self):
        try:
            rest = self.file.read()
        except ConnectionResetError:
            return
        if rest:
            raise Wrong(f"{rest!r} before the end")


def framed(cluster, begins=b"SBF1"):
    connect(cluster).goes()
    return Framed(cluster.lines, begins)


def frames(folder):
    """Requests of one write are answered in their order; an input that is sent again under its SSN is logged once, by the next life too."""
    cluster = begin(folder)
    one, two = framed(cluster), framed(cluster)
    one.says(frame(LOGGED, RELAY), frame(INPUT, RELAY, 1, b"a"), frame(INPUT, RELAY, 0, b""), frame(INPUT, RELAY, 4, b"d"),
             frame(INPUT, RELAY, 3, bytes(256)), frame(INPUT, RELAY, 2, b"x"), frame(INPUT, 3, 0, b"x"), frame(TAKEN, ECHO, 1),
             frame(LOGGED, RELAY))
    one.hears(frame(LOGGED, RELAY, 0), frame(LOGGED, RELAY, 1), frame(LOGGED, RELAY, 2), frame(REFUSED, RELAY, 4, bytes([SSN])),
              frame(LOGGED, RELAY, 3), frame(LOGGED, RELAY, 2), frame(REFUSED, 3, 7, bytes([PROCESS])),
              frame(REFUSED, ECHO, 8, bytes([NO_CONSUMER])), frame(LOGGED, RELAY, 3))
    two.says(frame(OUTPUT))
    outputs = [frame(OUTPUT, ECHO, number, text.ljust(64, b"\0")[:64]) for number, text in ((1, b"a"), (2, b""), (3, bytes(256)))]
    two.hears(*outputs)
    one.says(frame(OUTPUT))
    one.hears(frame(REFUSED, 0, 10, bytes([OTHER])))
    two.says(frame(TAKEN, ECHO, 2), frame(TAKEN, ECHO, 4))
    two.hears(frame(REFUSED, ECHO, 3, bytes([NO_OUTPUT])))
    cluster.gateway.kill()
    cluster.gateway.start()
    one = framed(cluster)
    one.says(frame(OUTPUT), frame(INPUT, RELAY, 3, b"x"), frame(LOGGED, RELAY), frame(LOGGED, ECHO))
    answers, heard = [frame(LOGGED, RELAY, 3), frame(LOGGED, RELAY, 3), frame(LOGGED, ECHO, 0)], [one.heard() for _ in range(4)]
    heard.remove(outputs[2])
    if heard != answers:
        raise Wrong(f"{heard} in place of {answers}")
    tells(cluster.nodes[0], length=3)


def cut(folder):
    """Frames, and what a connection begins with, that come in two pieces, cut at each place; byte by byte; and many at once."""
    cluster = begin(folder)
    text = b"SBF1" + frame(INPUT, RELAY, 0, b"some bytes") + frame(LOGGED, ECHO)
    last = 0
    for cut_at in range(1, len(text)):
        one = framed(cluster, text[:cut_at])
        time.sleep(0.002)
        one.says(text[cut_at:])
        last += 1
        one.hears(frame(LOGGED, RELAY, last), frame(LOGGED, ECHO, 0))
        one.socket.close()
    one = framed(cluster, b"")
    for byte in text:
        one.says(bytes([byte]))
        time.sleep(0.001)
    one.hears(frame(LOGGED, RELAY, last + 1), frame(LOGGED, ECHO, 0))
    count = 4000
    writer = threading.Thread(target=one.says, args=[text[4:-14] * count], daemon=True)
    writer.start()
    time.sleep(1)
    one.hears(*(frame(LOGGED, RELAY, last + 2 + number) for number in range(count)))
    tells(cluster.gateway, faulty=0)


FAULTY = [
    (b"SBF2", VERSION), (b"SBF0" + frame(OUTPUT), VERSION), (b"SBF1" + struct.pack("<I", 9) + bytes(9), LENGTH),
    (b"SBF1" + struct.pack("<I", 267), LENGTH), (b"SBF1" + b"\xff" * 4, LENGTH), (b"SBF1" + bytes(4), LENGTH),
    *((b"SBF1" + frame(kind), KIND) for kind in (0, REFUSED, TAKEN + 1, 255)),
    *((b"SBF1" + it, FIELD) for it in (frame(OUTPUT, RELAY), frame(OUTPUT, 0, 1), frame(OUTPUT, 0, 0, b"x"), frame(LOGGED, RELAY, 1),
                                       frame(LOGGED, RELAY, 0, b"x"), frame(TAKEN, RELAY, 1, b"x"))),
]


def faulty(folder):
    """What is no frame is refused with a number, is counted, and ends that connection: others go on, and the next may take the outputs."""
    cluster = begin(folder)
    other, lines = framed(cluster), connect(cluster)
    lines.says("# its first bytes are of a line")
    for count, (text, why) in enumerate(FAULTY, 1):
        before = [] if text[3:4] != b"1" else [frame(INPUT, RELAY, count, b"x"), frame(OUTPUT)]
        one = framed(cluster, b"".join((text[:4], *before, text[4:], frame(INPUT, RELAY, 0, b"no more"))))
        heard = [frame(LOGGED, RELAY, count)] if before else []
        one.hears(*heard, frame(REFUSED, text[9] if len(text) > 9 and why > LENGTH else 0, len(before) + 1, bytes([why])))
        one.ends()
        if not before:
            other.says(frame(INPUT, RELAY, count, b"x"))
            other.hears(frame(LOGGED, RELAY, count))
        lines.says("SBF is no line")
        lines.hears(f"refused {count + 1} a line is: bytes NAME HEX, input NAME WORD, outputs, or: took NAME SSN")
    for begins in (b"", b"S", b"SBF", b"SBF1", b"SBF1\x0a"):
        one = framed(cluster, begins)
        one.socket.shutdown(socket.SHUT_WR)
        one.ends()
    tells(cluster.gateway, faulty=len(FAULTY), logged=len(FAULTY))
    other.says(frame(OUTPUT))
    other.hears(*(frame(OUTPUT, ECHO, number, b"x".ljust(64, b"\0")) for number in range(1, len(FAULTY) + 1)))


def compiled(folder):
    """The commands of the clients of hosts/examples/clients."""
    os.makedirs(folder, exist_ok=True)
    yield ["python3", os.path.join(CLIENTS, "client.py")]
    for name, words in (("client.c", ["cc", "-std=c11", "-D_GNU_SOURCE", "-Wall", "-Wextra", "-Werror", "-O2"]),
                        ("client.rs", ["rustc", "--edition", "2021", "-O", "-D", "warnings"])):
        source = os.path.join(CLIENTS, name)
        program = os.path.join(folder, words[0])
        if shutil.which(words[0]):
            subprocess.run([*words, "-o", program, source], check=True)
            yield [program]
        else:
            print(f"not tried, since there is no {words[0]}: {source}")


COUNT, KILLS = 40000, 30


def survives(folder, command):
    """A client hands inputs in and takes their outputs while the gateway and the nodes are killed: none is lost, doubled or changed."""
    cluster, kills, said = begin(folder), 0, []
    client = subprocess.Popen([*command, cluster.lines, str(COUNT)], stdout=subprocess.PIPE, text=True)
    reader = threading.Thread(target=lambda: said.extend(client.stdout), daemon=True)
    reader.start()
    while client.poll() is None and kills < KILLS:
        program = cluster.programs[kills % len(cluster.programs)]
        program.kill()
        program.start()
        if program.number:
            program.wait_up()
        kills += 1
        time.sleep(0.02)
    reader.join(300)
    client.kill()
    wanted = [f"{ECHO} {ssn} {ssn}\n" for ssn in range(1, COUNT + 1)]
    if client.wait() or said != wanted:
        at = next((place for place, pair in enumerate(zip(said, wanted)) if pair[0] != pair[1]), min(len(said), len(wanted)))
        raise Wrong(f"{command[-1]}: status {client.returncode}, {len(said)} outputs, and at {at} {said[at:at + 2]}")
    if kills < 6:
        raise Wrong(f"{command[-1]} was over after {kills} kills")
    for node in cluster.nodes:
        tells(node, length=COUNT)
    cluster.stop()
    print(f"{os.path.basename(command[-1])}: {kills} kills", flush=True)


def clients(folder):
    for number, command in enumerate(compiled(folder)):
        survives(os.path.join(folder, str(number)), command)
