"""Clusters that go on as others: states in another layout, numbers that go on, outputs that nobody took, and steps that fail."""
import itertools
import os
import re
import shutil
import socket
import subprocess
import threading
import time

import lives
import running
from disk import preload
from frames import INPUT, LOGGED, REFUSED, SSN, Framed, frame
from listening import ECHO, HERE, RELAY, begin, connect, payload, tells
from lives import Wrong
from looks import files_of, told

MIGRATION = os.path.join(HERE, "..", "examples", "migration")
NARROW, WIDE, WIDEN, SHRINK = (os.path.join(MIGRATION, f"{name}.sbi") for name in ("narrow", "wide", "widen", "shrink"))
COUNTER, PORT = 2, 17750


class Heir:
    """A program that hosts/upgrade began: none of this script's own."""

    def __init__(self, program):
        self.program = program

    def poll(self):
        return None if self.program.is_there() else 0

    def kill(self):
        running.kill(self.program, lives.signal.SIGKILL)


class Line:
    """Clusters that follow each other, by their files: a relay and a counter, whose sums so far are kept here."""

    def __init__(self, folder, **more):
        os.makedirs(folder)
        self.folder, self.number, self.sums, self.bits = folder, 1, [0], 32
        self.cluster = begin(os.path.join(folder, "one"), [("relay", RELAY), ("counter", NARROW)], **more)
        self.lines, self.file = self.cluster.lines, self.cluster.file_of(0)

    def next_file(self, image, more=""):
        """The next cluster has the same addresses, and maybe one process more, which is new."""
        path, where = os.path.join(self.folder, f"cluster-{self.number + 1}"), self.cluster.address
        with open(path, "w") as file:
            file.write(f"cluster programs-{self.number + 1}\ngateway {where(0)}\n{more and f'process 3 echo {more} {where(3)}'}\n"
                       f"process 2 counter {image} {where(2)} state=counter.state\nprocess 1 relay {RELAY} {where(1)} state=relay.state\n")
        return path

    def upgrades(self, file, *images, status=0, says=""):
        """hosts/upgrade ends so, and says this."""
        path = os.path.join(self.folder, "said")
        with open(path, "a") as said:
            begin = said.tell()
            done = subprocess.run([os.path.join(HERE, "upgrade"), self.file, file, *images], stdin=subprocess.DEVNULL,
                                  stdout=subprocess.PIPE, stderr=said, text=True, timeout=120)
        self.adopts(file if status == 0 else self.file)
        with open(path) as said:
            said.seek(begin)
            text = done.stdout + said.read()
        if done.returncode != status or not re.search(says, text):
            raise Wrong(f"hosts/upgrade {images}: status {done.returncode}, {text}, not {status} and {says!r}")
        if status == 0:
            self.file, self.number, self.bits = file, self.number + 1, 32 if f"counter={SHRINK}" in images else 64

    def adopts(self, file):
        self.programs = running.running(running.Cluster(file))
        lives.running.update(Heir(program) for program in self.programs.values())

    def connects(self):
        self.cluster.lines = self.lines
        talk = connect(self.cluster)
        talk.says("outputs")
        return talk

    def works(self, talk, *inputs, takes=True):
        """Each is logged under the next number, and its sum comes out under the same."""
        for word in inputs:
            self.sums.append((self.sums[-1] + word) % 2 ** self.bits)
            talk.says(f"input relay {word}")
            talk.hears(f"logged relay {len(self.sums) - 1}", self.output(len(self.sums) - 1))
        if takes:
            talk.says(f"took counter {len(self.sums) - 1}")

    def output(self, number):
        return f"output counter {number} {(self.sums[number].to_bytes(8, 'little') + number.to_bytes(8, 'little')).hex()}"


def refuses(program, status, sentence, *more):
    ended, _, why = program.says(*more)
    if ended != status or sentence not in why:
        raise Wrong(f"{program.words} {more}: status {ended}, {why!r}, not {status} and {sentence!r}")


def goes_on(line):
    """Outputs that nobody took come again under their numbers; lines and frames have the next numbers, over a kill too."""
    talk = line.connects()
    line.works(talk, 5, 6, 7, takes=False)
    talk.says("took counter 2")
    line.works(talk, 8, takes=False)
    line.upgrades(line.next_file(WIDE, ECHO), f"counter={WIDEN}")
    old, talk = running.Program(line.cluster.gateway.command(), line.folder), line.connects()
    if "2 outputs handed out and not taken" not in line.programs[0].holds():
        raise Wrong(f"two outputs don't go over: {line.programs[0].holds()}")
    talk.hears(line.output(3), line.output(4))
    talk.says("took counter 4")
    line.works(talk, 2 ** 40, takes=False)
    talk.says("input echo 6")
    talk.hears("logged echo 1", f"output echo 1 {payload(6)[:16]}{'00' * 56}")
    talk.says("took echo 1")
    for more in ((), ("--check",)):
        refuses(old, 7, "the cluster programs-2 goes on where this one ended", *more)
    gateway = line.programs[0]
    Heir(gateway).kill()
    while gateway.is_there():
        time.sleep(0.01)
    gateway.begins()
    line.adopts(line.file)
    talk, framed = line.connects(), Framed(line.lines)
    talk.hears(line.output(5))
    framed.says(frame(LOGGED, 1), frame(INPUT, 1, 5, b"again"), frame(INPUT, 1, 7), frame(LOGGED, COUNTER))
    framed.hears(frame(LOGGED, 1, 5), frame(LOGGED, 1, 5), frame(REFUSED, 1, 3, bytes([SSN])), frame(LOGGED, COUNTER, 0))
    talk.says("took counter 6")
    talk.hears("refused 2 no output has this SSN yet")
    line.works(talk, 9)
    text = gateway.holds()
    for part in ("before 1 4 0\n", "before 2 0 4\n", "process 1 relay: 6 inputs logged", "process 3 echo: 1 inputs logged", "0 not taken; 6 outputs shown"):
        if part not in text:
            raise Wrong(f"--inspect has no {part!r}: {text}")


def begins_after(line, name="programs-2", *more):
    """The words of a gateway that begins after the line's, and its program."""
    file = os.path.join(line.folder, f"file-{name}")
    with open(line.next_file(WIDE)) as like, open(file, "w") as made:
        made.write(like.read().replace("programs-2", name))
    words = ["--cluster", file, "--me", "0", "--store", os.path.join(line.folder, name), "--listen", "unix:" + line.lines]
    return running.Program([lives.program_path(), *words], line.folder), ("--after", f"programs={line.cluster.gateway.store}", *more)


def many(line):
    """Inputs that their process hasn't taken hold the next cluster back. Outputs that nobody asked for go over, however many there are."""
    talk, count = connect(line.cluster), 1500
    words, line.sums = [f"input relay {number}" for number in range(count)], [0, *itertools.accumulate(range(count))]
    writer = threading.Thread(target=talk.says, args=words, daemon=True)
    writer.start()
    talk.hears(*(f"logged relay {number + 1}" for number in range(count)))
    tells(line.cluster.nodes[1], length=count)
    relay = line.cluster.nodes[0]
    relay.stop()
    talk.says("input relay 7")
    talk.hears(f"logged relay {count + 1}")
    line.sums.append(line.sums[-1] + 7)
    line.cluster.gateway.stop()
    heir, after = begins_after(line)
    for more in (("--check",), ()):
        refuses(heir, 1, "1 inputs are under way to relay", *after, *more)
    line.cluster.gateway.start()
    relay.start()
    line.upgrades(line.next_file(WIDE), f"counter={WIDEN}")
    line.connects().hears(*map(line.output, range(1, count + 2)))


def dies(line):
    """A gateway that goes on dies before the n-th call on its disk, n = 1, 2, 3, ..: the old one goes on, or the next start does."""
    talk, library = line.connects(), preload(line.folder)
    line.works(talk, 3, 4)
    line.works(talk, 5, takes=False)
    line.cluster.stop()
    store = line.cluster.gateway.store
    shutil.copytree(store, store + ".before")
    heir, after = begins_after(line)
    old, has_died, call, seen = running.Program(line.cluster.gateway.command(), line.folder), True, 0, set()
    while has_died:
        call += 1
        for place in (store, heir.store):
            shutil.rmtree(place, ignore_errors=True)
        shutil.copytree(store + ".before", store)
        has_died = is_dead(subprocess.Popen(heir.words + list(after), stdin=subprocess.DEVNULL, stderr=subprocess.DEVNULL,
                                            env={**os.environ, "LD_PRELOAD": library, "DIE_AT": str(call)}), heir)
        is_followed = "followed by programs-2" in old.holds()
        seen.add((has_died, is_followed))
        if is_followed:
            refuses(old, 7, "the cluster programs-2 goes on where this one ended", "--check")
            refuses(begins_after(line, "programs-3")[0], 7, "the cluster programs-2 goes on", *after, "--check")
        elif old.says("--check")[0] or "before" in heir.holds():
            raise Wrong(f"before call {call}: {old.holds()}, {heir.holds()}")
        if is_dead(subprocess.Popen([*heir.words, *after], stdin=subprocess.DEVNULL), heir):
            raise Wrong(f"after call {call} it doesn't begin")
        text = heir.holds()
        if not all(part in text for part in ("before 1 3 0\nbefore 2 0 3\n", "1 outputs handed out and not taken")):
            raise Wrong(f"after call {call}: {text}")
    if seen != {(True, False), (True, True), (False, True)}:
        raise Wrong(f"{call} calls: {seen}")


def listens(path):
    with socket.socket(socket.AF_UNIX) as one:
        return one.connect_ex(path) == 0


def is_dead(child, program):
    """Whether it died, or came so far that its store has an identity, and is stopped then."""
    lives.running.add(child)
    while child.poll() is None and not (os.path.exists(os.path.join(program.store, "identity")) and listens(program.listen[5:])):
        time.sleep(0.01)
    child.terminate()
    status = child.wait()
    if status not in (0, -9):
        raise Wrong(f"{program.words} ends with {status}")
    return status == -9


def sealed(line):
    """Over TLS the certificates need the names that the next cluster gives."""
    line.works(line.connects(), 1, 2)
    line.upgrades(line.next_file(WIDE), f"counter={WIDEN}", status=1, says="its name isn't gateway.programs-2")
    for number, name in enumerate(line.cluster.names):
        line.cluster.authority.signs(line.cluster.certificate(number), f"{name}.programs,DNS:{name}.programs-2")
    line.upgrades(line.next_file(WIDE), f"counter={WIDEN}")
    line.works(line.connects(), 2 ** 40, 3)


def fails(line):
    """Each step that fails goes back: the old cluster runs on, and nothing is lost."""
    good = line.next_file(NARROW)
    with open(good) as file:
        text = file.read()
    bad = os.path.join(line.folder, "bad")
    for old, new, images, status, says in (
            ("state=counter.state", "", (), 2, "have no state=FILE: counter"), ("programs-", "pro grams-", (), 2, "such a line is: cluster NAME"),
            ("", "", (f"echo={SHRINK}",), 2, "no process is called so in both: echo"),
            ("", "", (), 1, "upgrade: checking: .*, line 4: the state has 16 bytes, and that of the image 8: "), ("", "", ("counter=none.sbi",), 1, "upgrade: converting: counter: "),
            (NARROW, "/none.sbi", (f"counter={SHRINK}",), 1, "/none.sbi: No such file")):
        with open(bad, "w") as file:
            file.write(text.replace(old, new) if old else text)
        line.upgrades(bad, *images, status=status, says=says)
        line.works(line.connects(), len(line.sums))
        if os.path.exists(bad + ".plan") or os.path.exists(os.path.join(line.folder, "counter.state")) and status == 1:
            raise Wrong("a step that failed leaves files")
    line.upgrades(good, f"counter={SHRINK}")
    line.works(line.connects(), 1, 2, 3)


def upgrades(folder):
    line = Line(os.path.join(folder, "one"))
    goes_on(line)
    fails(line)
    if shutil.which("openssl"):
        sealed(Line(os.path.join(folder, "sealed"), transport="tls", port=PORT))
    many(Line(os.path.join(folder, "many")))
    dies(Line(os.path.join(folder, "dying")))
