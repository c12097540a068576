"""Network namespaces in place of machines. Of two the link between delays packets and loses some, where the kernel has
netem; else it is slow, and drops what waits too long."""
import fcntl
import os
import shutil
import subprocess
import tempfile

NAMES = ("sblog-one", "sblog-two")
ADDRESSES = ("10.77.0.1", "10.77.0.2")
LOCK = os.path.join(tempfile.gettempdir(), "sblog-machines.lock")
LINKS = ("netem delay 5ms 2ms loss 1%", "tbf rate 4mbit burst 4kb latency 5ms")


def run(words):
    subprocess.run(words.split(), check=True, stderr=subprocess.DEVNULL)


def shapes(name, link):
    words = f"ip netns exec {name} tc qdisc add dev sblog0 root {link}"
    return subprocess.run(words.split(), check=False, stderr=subprocess.DEVNULL).returncode == 0


class Machines:
    """`places` has a namespace and an address for each program, by its number: the gateway is on the first, and so in turn."""

    def __init__(self, count):
        self.places = [(NAMES[number % 2], ADDRESSES[number % 2]) for number in range(count)]

    def __enter__(self):
        self.__exit__()
        for name in NAMES:
            run(f"ip netns add {name}")
            run(f"ip -n {name} link set lo up")
        run(f"ip link add sblog0 netns {NAMES[0]} type veth peer name sblog0 netns {NAMES[1]}")
        for name, address in zip(NAMES, ADDRESSES):
            run(f"ip -n {name} addr add {address}/24 dev sblog0")
            run(f"ip -n {name} link set sblog0 up")
            self.link = next(link for link in LINKS if shapes(name, link))
        return self

    def __exit__(self, *_):
        for name in NAMES:
            subprocess.run(["ip", "netns", "del", name], check=False, stderr=subprocess.DEVNULL)


def tries(words):
    """Whether it can be done, or was before."""
    done = subprocess.run(words.split(), check=False, capture_output=True, text=True)
    return done.returncode == 0 or "File exists" in done.stderr


class Lan:
    """Machines on one network, with this one, whose address is `host`. Each may be cut off. Where there are no namespaces it is this
    machine alone."""

    def __init__(self, count):
        self.is_there = os.geteuid() == 0 and shutil.which("ip") is not None and tries("ip netns add sblog-0")
        self.host = "10.78.0.254" if self.is_there else "127.0.0.1"
        self.names = [f"sblog-{number}" if self.is_there else None for number in range(count)]

    def __enter__(self):
        self.lock = open(LOCK, "w")
        fcntl.flock(self.lock, fcntl.LOCK_EX)  # until another run of moves is over, whose machines have the same names
        self.removes()
        if not self.is_there:
            return self
        run("ip link add sblog-lan type bridge")
        run(f"ip addr add {self.host}/24 dev sblog-lan")
        run("ip link set sblog-lan up")
        for number, name in enumerate(self.names):
            run(f"ip netns add {name}")
            run(f"ip -n {name} link set lo up")
            run(f"ip link add {name} type veth peer name eth0 netns {name}")
            run(f"ip link set {name} master sblog-lan up")
            run(f"ip -n {name} addr add 10.78.0.{number + 1}/24 dev eth0")
            run(f"ip -n {name} link set eth0 up")
        return self

    def cuts(self, name, is_off):
        run(f"ip link set {name} {'down' if is_off else 'up'}")

    def __exit__(self, *_):
        self.removes()
        self.lock.close()

    def removes(self):
        for name in self.names if self.is_there else ():
            for words in ("link", "netns"):
                subprocess.run(["ip", words, "del", name], check=False, stderr=subprocess.DEVNULL)
        if self.is_there:
            subprocess.run(["ip", "link", "del", "sblog-lan"], check=False, stderr=subprocess.DEVNULL)
