"""Cluster files, and programs of a cluster that run on this machine, which are found by their words."""
import os
import re
import signal
import subprocess
import time

LOOKS = {"--check", "--inspect", "--export"}
STOPPING = 15  # seconds that a program has to end


class Fault(Exception):
    """Why a step fails."""


class Process:
    """What its line says."""

    def __init__(self, name, state=None):
        self.name, self.state = name, state


class Cluster:
    """A file that sblog-node takes: it judges files, and this only reads them. The gateway has the number 0."""

    def __init__(self, file):
        self.file, self.name, self.processes = os.path.abspath(file), None, {0: Process("gateway")}
        with open(file) as lines:
            for words in map(str.split, lines):
                if words[:1] == ["cluster"]:
                    self.name = words[1]
                elif words[:1] == ["process"]:
                    state = words.pop().split("=", 1)[1] if words[-1].startswith("state=") else None
                    number = int(words[1]) if len(words) == 5 else len(self.processes)
                    self.processes[number] = Process(words[-3], state and os.path.join(os.path.dirname(self.file), state))

    def numbers(self):
        """By name."""
        return {process.name: number for number, process in self.processes.items()}


def value_of(words, option):
    """The last word that an option has, as --option WORD or --option=WORD; none without it."""
    value = None
    for word, following in zip(words, [*words[1:], None]):
        if word == option:
            value = following
        elif word.startswith(option + "="):
            value = word[len(option) + 1:]
    return value


def without(words, *options):
    """Words but for these options and theirs."""
    kept, is_value = [], False
    for word in words:
        if not is_value and word.split("=")[0] not in options:
            kept.append(word)
        is_value = not is_value and word in options
    return kept


class Program:
    """How a program was called, and where; and its number in the system while it runs."""

    said = None  # where those that begin write; none: where this writes

    def __init__(self, words, place, pid=None):
        self.words, self.place, self.pid = words, place, pid
        self.store, self.listen = value_of(words, "--store"), value_of(words, "--listen")

    def begins(self, *more):
        """It runs on when who started it ends, and writes where that writes."""
        return subprocess.Popen([*self.words, *more], cwd=self.place, stdin=subprocess.DEVNULL, stdout=subprocess.DEVNULL,
                                stderr=self.said, start_new_session=True)

    def says(self, *more):
        """Of words that start nothing: the status, and what is printed."""
        done = subprocess.run([*self.words, *more], cwd=self.place, stdin=subprocess.DEVNULL, capture_output=True, text=True)
        return done.returncode, done.stdout, done.stderr.strip()

    def holds(self):
        """What its store holds, in words."""
        words = [self.words[0]]
        for option in ("--cluster", "--me"):
            words += [option, value_of(self.words, option)]
        return Program(words, self.place).says("--inspect", self.store)[1]

    def is_there(self):
        """Whether that process hasn't ended, with each of its threads: one that still syncs holds the store."""
        try:
            with open(f"/proc/{self.pid}/stat") as file:
                return file.read().rsplit(")", 1)[1].split()[0] != "Z" or len(os.listdir(f"/proc/{self.pid}/task")) > 1
        except OSError:
            return False


def program_at(pid):
    """The sblog-node that this process is; none if it is another program."""
    try:
        if not re.fullmatch(r"sblog-node( \(deleted\))?", os.path.basename(os.readlink(f"/proc/{pid}/exe"))):
            return None
        with open(f"/proc/{pid}/cmdline", "rb") as file:
            words = os.fsdecode(file.read()).split("\0")[:-1]
        return Program(words, os.readlink(f"/proc/{pid}/cwd"), int(pid))
    except OSError:
        return None


def running(cluster):
    """The programs of this cluster file, by their numbers."""
    found = {}
    for program in filter(None, map(program_at, filter(str.isdigit, os.listdir("/proc")))):
        file, me = value_of(program.words, "--cluster"), value_of(program.words, "--me")
        is_life = file and me and not LOOKS & set(program.words)
        if is_life and os.path.realpath(os.path.join(program.place, file)) == os.path.realpath(cluster.file):
            found[int(me)] = program
    return found


def stop(programs):
    """All at once, by SIGTERM; one that doesn't end in time by SIGKILL."""
    until = time.monotonic() + STOPPING
    for program in programs:
        kill(program, signal.SIGTERM)
    while any(program.is_there() for program in programs):
        time.sleep(0.01)
        for program in programs if time.monotonic() > until else ():
            kill(program, signal.SIGKILL)


def kill(program, number):
    try:
        os.kill(program.pid, number)
    except ProcessLookupError:
        pass
