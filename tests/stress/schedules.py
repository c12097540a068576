"""Sessions of the slow model, for those who break them: lists of calls as scenarios, and random ones."""

import os
import re
import sys
from pathlib import Path

sys.dont_write_bytecode = True
TOP = Path(__file__).resolve().parents[2]
sys.path.insert(0, str(TOP / "tests/model"))
os.chdir(TOP)

import handlers  # noqa: E402
import sessions  # noqa: E402

IMAGES = sorted(map(str, [*Path("examples").glob("*.sbi"), *Path("examples/scenarios").glob("*.sbi")]))


def modelled(text):
    """What the model prints of a scenario, and its status."""
    try:
        return carried_out(text)[1], 0
    except sessions.Stop as stop:
        return f"{stop}\n", stop.status


def carried_out(text):
    """The world to which a scenario leads, and what is printed, as `sessions.run` makes it of a file."""
    scenario = sessions.Scenario(text)
    world, held, lines = scenario.open(), {}, []
    for line, call in scenario.calls:
        try:
            obey(world, held, call)
        except sessions.Refused as refused:
            lines.append(f"line {line} refused {refused}")
    return world, "\n".join(lines + scenario.printed(world)) + "\n"


def obey(world, held, call):
    """Makes the call of a line. Started jobs are held by their processes."""
    if call[0] == "drive":
        return world.drive(call[1])
    job = held.pop(call[1], None) if call[0] == "finish" else None
    if world.make(call, job=job).startswith("started"):
        held[world.jobs[-1].process] = world.jobs[-1]
    return None


class List:
    """The calls that a scenario makes, one a line, with nothing left to a drive."""

    def __init__(self, text):
        lines = text.splitlines()
        self.heads = [line for line in lines if line.startswith("process ")]
        names = [line.split()[1] for line in self.heads]
        self.parties = ["outside", *names]
        self.inputs = [line for line in lines if line.split(" ")[0] in ("input", "bytes")]
        printed, self.status = modelled(text)
        entries = re.findall(r"^[0-9]{6} w0 (\S+) (.*) -> .*$", printed, re.M)
        self.calls = [self.line(word, *map(int, numbers.split())) for word, numbers in entries]

    def line(self, word, *numbers):
        if word == "input":
            return self.inputs[numbers[1] - 1]
        if word in ("copy", "lose", "arrive"):
            return f"{word} {numbers[0]}"
        words = [word, *(self.parties[number] for number in numbers[:2])]
        return " ".join(words + [str(number) for number in numbers[2:]])

    def processes(self):
        return self.parties[1:]

    def world(self, count):
        """The world after so many calls, and the processes whose jobs are held then, the first one first."""
        scenario = sessions.Scenario("\n".join(self.heads + self.calls[:count]))
        world, held = scenario.open(), {}
        for _, call in scenario.calls:
            obey(world, held, call)
        return world, [self.parties[p] for p in held]

    def cut(self, count, failure):
        """The first so many calls, what fails then, the inputs that are missing, and a drive to the end."""
        done = self.calls[:count]
        made = sum(call.split(" ")[0] in ("input", "bytes") for call in done)
        missing = [line for line in self.calls[count:] if line.split(" ")[0] in ("input", "bytes")]
        assert made + len(missing) == len(self.inputs)
        return "\n".join([*self.heads, *done, *failure, *missing, "drive 1000"]) + "\n"


def random_call(world, rng):
    """A call that may well be accepted."""
    processes, keys = list(world.processes), list(world.wire) or [0]
    parties = [0, *processes]
    p, q = rng.choice(processes), rng.choice(parties)
    word = rng.choice("input input transmit arrive arrive finish finish copy lose checkpoint trim crash "
                      "recover recover alone replay replay resync resync drive drive".split())
    match word:
        case "input":
            return word, p, len(world.feeds) + 1
        case "transmit":
            return word, q, rng.choice(parties), rng.randint(0, 4)
        case "arrive" | "copy" | "lose":
            return word, rng.choice(keys) if rng.random() < 0.97 else rng.randint(0, 9)
        case "trim":
            return word, q
        case "resync":
            return word, p, rng.choice(processes)
        case "drive":
            return word, rng.choice([1, 2, 5, 20, 60])
    return word, p


def random_payload(rng):
    """A word, or bytes, and how a line says it."""
    if rng.random() < 0.6:
        word = rng.choice([rng.randint(0, 3), rng.randint(0, 2**64 - 1)])
        return word.to_bytes(8, "little").ljust(64, b"\0"), ("input", str(word))
    data = rng.randbytes(rng.choice([0, 1, 7, 8, 9, 63, 64, 65, 255, 256]))
    return data, ("bytes", data.hex() or "-")


def random_session(rng, calls, is_saved=False):
    """The text of a scenario of random calls, and the world to which it leads; and all are driven on and
    saved in the end, where that is asked for."""
    paths = [rng.choice(IMAGES) for _ in range(rng.choice([1, 2, 2, 3, 4]))]
    images = [handlers.load(Path(path).read_bytes()) for path in paths]
    names = [f"p{at}" for at in range(1, len(paths) + 1)]
    lines = [f"process {name} {path}" for name, path in zip(names, paths)]
    world, held = sessions.World(images, {}), {}
    ends = [call for p in world.processes for call in (("drive", 60), ("checkpoint", p))]
    for at in range(calls + is_saved * len(ends)):
        call = random_call(world, rng) if at < calls else ends[at - calls]
        lines.append(random_line(world, rng, call, ["outside", *names]))
        try:
            obey(world, held, call)
        except sessions.Refused:
            pass
    return "\n".join(lines) + "\n", world


def random_line(world, rng, call, parties):
    """The line of a call. What an input hands in is made up here."""
    word, *numbers = call
    if word == "input":
        payload, (word, text) = random_payload(rng)
        world.feeds[numbers[1]] = payload
        return f"{word} {parties[numbers[0]]} {text}"
    if word in ("copy", "lose", "arrive", "drive"):
        return f"{word} {numbers[0]}"
    return " ".join([word, *(parties[number] for number in numbers[:2]), *map(str, numbers[2:])])


def saved(world, p):
    """What a checkpoint of a process has: own number, processes, state, senders, and what is kept."""
    process = world.processes[p]
    covered = process.history[: process.saved]
    kept = {}
    for to in world.others(p):
        first = process.saved_trims[to]
        kept[to] = first + 1, tuple(world.sent(p, to, process.saved)[first:])
    state = world.fold(p, covered)[0]
    return p, len(world.processes), state, [message.sender for message in covered], kept
