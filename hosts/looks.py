"""What programs tell of themselves: whether one would start, what its store holds, and lines in the form that is asked for."""
import http.client
import json
import os
import re
import shlex
import shutil
import signal
import socket
import subprocess
import time

from lives import Cluster, Wrong, program_path
from listening import HERE, PROCESSES, begin, connect, works

PORT = 17740  # of figures


def told(words, *statuses):
    """What a program with these words says, which ends with one of these statuses, or with 0."""
    done = subprocess.run([program_path(), *words], stdin=subprocess.DEVNULL, capture_output=True, text=True, timeout=20)
    if done.returncode not in (statuses or (0,)):
        raise Wrong(f"{words}: status {done.returncode}, {done.stderr!r}")
    return done.stdout, done.stderr.splitlines()


def is_built_with(library, words, what):
    """Whether the program was built with a library. One that wasn't has to say so if it gets these words, and `what` isn't tried then."""
    if library in subprocess.run(["ldd", program_path()], capture_output=True, text=True, check=True).stdout:
        return True
    if not any("this program was built where" in line for line in told(words, *range(2, 8))[1]):
        raise Wrong(f"{words}: the program doesn't say that it was built without {library}")
    print(f"not tried, since the program was built without {library}: {what}", flush=True)
    return False


def has_sandbox(program):
    """Whether --sandbox can be tried. A program that was built for it has to take it."""
    words = [*program.command()[1:], "--check", "--sandbox"]
    is_there = is_built_with("libseccomp", words, "--sandbox")
    if is_there:
        told(words)
    return is_there


def files_of(folder):
    """Each file below a folder, with its bytes and its time."""
    found = {}
    for at, folders, names in os.walk(folder):
        found.update({os.path.join(at, name): None for name in folders})
        for name in names:
            path = os.path.join(at, name)
            with open(path, "rb") as file:
                found[path] = file.read(), os.stat(path).st_mtime_ns
    return found


def starts_well(cluster):
    """--check says nothing of a start that would do, and changes nothing."""
    before = files_of(cluster.folder)
    for program in cluster.programs:
        said = told([*program.command()[1:], "--check"])
        if said != ("", []):
            raise Wrong(f"--check of {program.name} says {said}")
    if files_of(cluster.folder) != before:
        raise Wrong("--check changes something")


def faults(cluster):
    """Each fault has a line, and the status is the one that a start would have."""
    node, other = cluster.nodes[0], os.path.join(cluster.folder, "other")
    bad, taken = os.path.join(cluster.folder, "bad.sbi"), os.path.join(cluster.folder, "taken")
    for path in (bad, taken):
        with open(path, "w") as file:
            file.write("SBI1 and no more")
    with open(cluster.file_of(1)) as file:
        text = file.read()
    with open(other, "w") as file:
        file.write(text.replace(cluster.images[1], bad).replace(cluster.address(1), "unix:" + taken))
    words = ["--cluster", other, "--me", "1", "--store", node.store, "--metrics", "unix:/none/x", "--check"]
    _, lines = told(words, 7)
    wanted = ("the image isn't the one", "taken is there, and is no socket", "unix:/none/x: No such file", "open: the file is no image")
    if len(lines) != len(wanted) or not all(part in line for part, line in zip(wanted, lines)):
        raise Wrong(f"--check says {lines}")
    with open(other, "w") as file:
        file.write("cluster a b\ngateway udp:x\n" + "".join(re.findall("(?m)^process .*\n", text)))
    _, lines = told([*words[:1], other, *words[2:]], 4)
    if not all(part in line for part, line in zip(("line 1: ", "line 2: "), lines)) or len(lines) != 2:
        raise Wrong(f"--check says {lines}")


def holds(program, *patterns):
    text, _ = told(["--inspect", program.store])
    for pattern in patterns:
        if not re.search(rf"(?m)^{pattern}$", text):
            raise Wrong(f"--inspect of {program.name} has no {pattern!r}: {text}")


def is_json(line, **wanted):
    """A line of --log json: these fields, beside those that each has."""
    read = json.loads(line)
    if not re.fullmatch(r"\d{4}-\d\d-\d\dT\d\d:\d\d:\d\d\.\d{6}Z", read["time"]) or not wanted.items() <= read.items():
        raise Wrong(f"{line}, not {wanted}")


def logs(folder):
    """Each line of standard error in the form that was asked for: none is lost, whatever is in it."""
    os.makedirs(folder)
    odd, many = os.path.join(folder, "odd\"\\\n\u00fc") + "\udcff", os.path.join(folder, "many")
    with open(many, "w") as file:
        file.write("x y\nz\n" + "w" * 5000 + "\n")
    _, lines = told(["--log", "json", "--cluster", odd, "--me", "1", "--store", folder], 6)
    is_json(*lines, level="error", event="fault", message=odd.replace("\udcff", "\ufffd") + ": No such file or directory")
    _, lines = told(["--cluster", many, "--me", "1", "--store", folder, "--log=json"], 4)
    for number, line in enumerate(lines, 1):
        if f"many, line {number}: " not in json.loads(line)["message"]:
            raise Wrong(f"line {number}: {line}")
    if len(lines) != 3:
        raise Wrong(f"{len(lines)} lines of 3")
    _, lines = told(["--me", "16", "--log", "pairs"], 2)
    if not re.fullmatch(r'time=\S+ level=error event=fault message="--me doesn\'t take 16"', *lines):
        raise Wrong(lines)
    cluster = Cluster(os.path.join(folder, "cluster"), "logs", PROCESSES, words=["--log", "json"])
    cluster.nodes[1].words = ["--log", "pairs"]
    cluster.start()
    with socket.socket(socket.AF_UNIX, socket.SOCK_DGRAM) as out:
        for node in cluster.nodes:
            out.sendto(b"x", cluster.path(node.number))
            has_line(node, "broken")
            node.child.send_signal(signal.SIGUSR1)
            has_line(node, "status")
    up, broken, status = (has_line(cluster.nodes[0], event) for event in ("up", "broken", "status"))
    is_json(up, level="info", process="relay", incarnation=1, length=0, covered=0)
    is_json(broken, level="warning", process="relay", message="what is no bundle came, and was dropped; more are counted")
    is_json(status, level="info", process="relay", stage="up", exact="yes", broken=1, length=0)
    words = dict(word.split("=", 1) for word in shlex.split(has_line(cluster.nodes[1], "status")))
    if not {"level": "info", "process": "echo", "event": "status", "stage": "up", "broken": "1"}.items() <= words.items():
        raise Wrong(words)


def has_line(node, event):
    """The line of this event that the node has said."""
    until = time.monotonic() + 10
    while time.monotonic() < until:
        for line in node.said:
            if f'"event":"{event}"' in line or f" event={event} " in line:
                return line
        time.sleep(0.01)
    raise Wrong(f"{node.name} says no {event}: {node.said}")


def asked(port, path, word="GET"):
    """What a program answers over HTTP: status and text."""
    out = http.client.HTTPConnection("127.0.0.1", port, timeout=20)
    out.request(word, path)
    answer = out.getresponse()
    return answer.status, answer.read().decode()


def answers(port, path, status, text):
    until, found = time.monotonic() + 20, None
    while found != (status, text):
        if time.monotonic() > until:
            raise Wrong(f"{path} is answered by {found}, not {(status, text)}")
        try:
            found = asked(port, path)
        except OSError as away:
            found = away
            time.sleep(0.05)


def figures(port):
    """The samples of /metrics, by name and labels without the process; each has a type."""
    status, text = asked(port, "/metrics")
    typed = set(re.findall(r"(?m)^# TYPE (\S+) (?:gauge|counter|histogram)$", text))
    samples = {}
    for name, labels, value in re.findall(r'(?m)^(\w+)\{process="\w+"(.*?)\} (\S+)$', text):
        samples[name + labels] = float(value)
        if name not in typed and re.sub("_(bucket|sum|count)$", "", name) not in typed:
            raise Wrong(f"{name} has no type")
    if status != 200 or len(samples) + 2 * len(typed) != len(text.splitlines()):
        raise Wrong(f"/metrics: {status} {text}")
    return samples


def counts(samples, name):
    """How often a histogram was added to; its buckets only grow."""
    buckets = [value for key, value in samples.items() if key.startswith(f"{name}_bucket,le=")]
    if len(buckets) != 17 or buckets != sorted(buckets) or buckets[-1] != samples[f"{name}_count"]:
        raise Wrong(f"{name} is {buckets}, {samples}")
    if (samples[f"{name}_sum"] > 0) != (buckets[-1] > 0):
        raise Wrong(f"the sum of {name} is {samples[f'{name}_sum']}")
    return buckets[-1]


def are_known(*all_samples):
    """Dashboard and alerts ask for what is there."""
    known = {re.sub(",.*", "", key) for samples in all_samples for key in samples}
    for name in ("grafana.json", "alerts.yaml"):
        with open(os.path.join(HERE, "examples", name)) as file:
            text = file.read()
        if name.endswith("json"):
            json.loads(text)
        asked_for = set(re.findall(r"\bsblog_\w+", text))
        if not asked_for or asked_for - known:
            raise Wrong(f"{name} asks for {asked_for - known}")


def health(folder):
    """Figures, histograms and health over TCP; also of a program that waits for others, and beside readers that say nothing."""
    cluster = Cluster(folder, "programs", PROCESSES)
    cluster.lines = os.path.join(folder, "lines")
    ports = [PORT + program.number for program in cluster.programs]
    for program, port in zip(cluster.programs, ports):
        program.words = ["--metrics", f"tcp:127.0.0.1:{port}", "--checkpoint-every", "2"]
    cluster.gateway.words += ["--listen", "unix:" + cluster.lines]
    relay, echo = cluster.nodes
    relay.start()
    answers(ports[1], "/readyz", 503, "joining\n")
    answers(ports[1], "/healthz", 200, "joining\n")
    for program in (echo, cluster.gateway):
        program.start()
    for port in ports:
        answers(port, "/readyz", 200, "up\n")
    one = connect(cluster)
    one.says("outputs")
    works(cluster, one, *range(1, 6))
    samples = [figures(port) for port in ports]
    for sample in samples:
        if not counts(sample, "sblog_message_seconds") or not counts(sample, "sblog_sync_seconds"):
            raise Wrong(f"nothing is counted: {sample}")
    if counts(samples[1], "sblog_sync_seconds") != samples[1]["sblog_checkpoints_total"]:
        raise Wrong(f"not a sync a checkpoint: {samples[1]}")
    are_known(*samples)
    if [asked(ports[0], path, word)[0] for path, word in (("/", "GET"), ("/metricsx", "GET"), ("/metrics", "POST"))] != [404, 404, 400]:
        raise Wrong("other requests are answered otherwise")
    silent = [socket.create_connection(("127.0.0.1", ports[1])) for _ in range(9)]
    silent[8].sendall(b"GET /healthz HTTP/1.0\r\n")
    cluster.gateway.kill()
    relay.kill()
    relay.start()
    answers(ports[1], "/readyz", 503, "collecting\n")
    cluster.gateway.start()
    answers(ports[1], "/readyz", 200, "up\n")
    silent = [socket.create_connection(("127.0.0.1", ports[1])) for _ in range(9)]
    silent[8].sendall(b"GET /healthz HTTP/1.0\r\n")
    answers(ports[1], "/healthz", 200, "up\n")


def looks(folder):
    cluster = begin(folder, words=["--volatile"])
    one, (relay, echo) = connect(cluster), cluster.nodes
    one.says("outputs")
    works(cluster, one, 1, 2, 3)
    one.says("took echo 2", "bytes nobody -")
    one.hears("refused 6 no process has this name")
    holds(relay, "process 1 relay", "incarnation 1", "checkpoint 0: .* after 0 messages")
    cluster.stop()
    starts_well(cluster)
    length = len(echo.kept()[0])
    holds(echo, "cluster programs", "process 2 echo", "durable no", "store-id 2 [0-9a-f]{32}", "incarnation 1",
          rf"checkpoint \d+: \d+ bytes, of them {length} the state, after 3 messages", "exact yes: .*")
    with open(os.path.join(echo.store, "inexact"), "w") as file:
        file.write("7\n")
    holds(echo, "exact no: incarnation 7 was the first that wasn't")
    holds(cluster.gateway, "process 0 gateway", "cluster-id [0-9a-f]{32}", "generation \\d+: .*", "1 outputs handed out and not taken",
          "process 1 relay: 3 inputs logged, [0-3] of them kept, 0 not taken; 0 outputs shown; incarnation 1",
          "process 2 echo: 0 inputs logged, 0 of them kept, 0 not taken; 3 outputs shown; incarnation 1")
    faults(cluster)
    shutil.rmtree(relay.store)
    starts_well(cluster)
    told(["--inspect", relay.store], 6)
    told(["--inspect", folder], 7)
