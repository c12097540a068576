"""A cluster whose gateway listens, and what is asked of it and of its programs."""
import os
import signal
import subprocess
import time

from lives import Cluster, Wrong
from talk import Talk

HERE = os.path.dirname(os.path.realpath(__file__))
EXAMPLES = os.path.join(HERE, "..", "examples")
RELAY, ECHO = (os.path.join(EXAMPLES, name) for name in ("relay.sbi", "echo.sbi"))
PROCESSES = [("relay", RELAY), ("echo", ECHO)]


def payload(number):
    return number.to_bytes(8, "little").hex() + "00" * 56


def begin(folder, processes=PROCESSES, **words):
    """A cluster whose gateway listens."""
    cluster = Cluster(folder, "programs", processes, **words)
    cluster.lines = os.path.join(folder, "lines")
    cluster.gateway.words = ["--listen", "unix:" + cluster.lines]
    cluster.start()
    return cluster


def connect(cluster):
    until = time.monotonic() + 30
    while True:
        try:
            return Talk(cluster.lines)
        except OSError:
            if time.monotonic() > until:
                raise
            time.sleep(0.01)


def is_refused(program, sentence):
    """It ends by itself with status 7, and says this."""
    try:
        said = subprocess.run(program.command(), stdin=subprocess.DEVNULL, capture_output=True, text=True, timeout=10)
    except subprocess.TimeoutExpired as over:
        raise Wrong(f"{program.name} begins") from over
    if said.returncode != 7 or sentence not in said.stderr:
        raise Wrong(f"status {said.returncode}, {said.stderr!r}")


def tells(program, **figures):
    """Its line of figures has these, within a while."""
    until = time.monotonic() + 20
    wanted = {name: str(number) for name, number in figures.items()}
    while not wanted.items() <= (program.status or {}).items():
        if time.monotonic() > until:
            raise Wrong(f"{program.name} tells {program.status}, not {wanted}")
        program.child.send_signal(signal.SIGUSR1)
        time.sleep(0.1)


def has_said(program, sentence):
    """It has said so, within a while."""
    until = time.monotonic() + 10
    while not any(sentence in line for line in program.said):
        if time.monotonic() > until:
            raise Wrong(f"{program.name} hasn't said {sentence!r}")
        time.sleep(0.01)


def works(cluster, talk, *numbers):
    """Inputs are logged and their outputs come, one after the other."""
    for number in numbers:
        talk.says(f"input relay {number}")
        talk.hears(f"logged relay {number}", f"output echo {number} {payload(number)}")
