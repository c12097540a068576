"""Peers and programs that mean harm: what they send is dropped and counted, the others are served, and no memory grows."""
import random
import socket
import struct
import time

import lives
from lives import Wrong
from listening import begin, connect, payload, tells, works

PORT, LIES, HALVES, GROWTH = 17780, 100_000, 10_000, 8 << 20  # packets, connections, bytes
DELIVERY, NUMBER, ACKNOWLEDGEMENT, ASK, TOLD, RESUME, RESTORED = range(1, 8)


def memory(program):
    """Bytes that it has in memory."""
    with open(f"/proc/{program.child.pid}/statm") as file:
        return int(file.read().split()[1]) * 4096


class Flat:
    """No program has much more memory behind the `with` than before."""

    def __init__(self, cluster):
        self.programs = cluster.programs

    def __enter__(self):
        self.before = [memory(program) for program in self.programs]

    def __exit__(self, kind, *_):
        grown = [memory(program) - before for program, before in zip(self.programs, self.before)]
        if kind is None and max(grown) > GROWTH:
            raise Wrong(f"programs have {grown} bytes more")


def packet(kind, sender, receiver, fields):
    text = b"SBP1" + bytes([kind, 2, sender, receiver]) + fields
    return text + struct.pack("<I", lives.crc32c(text))


def numbers(*all_of_them):
    return struct.pack(f"<{len(all_of_them)}Q", *all_of_them)


def lie(chance, own):
    """A packet as echo might send it to relay, but for what it says: of a life of before, numbers far off, a page that nobody asked for.
    What a member may say in its own name, and believed is, isn't among them."""
    far, old = chance.randrange(1 << 40, 1 << 62), chance.randrange(1, own)
    page = bytes([1]) + struct.pack("<H", 1) + numbers(far + 1, far)
    return packet(*chance.choice([
        (DELIVERY, 2, 1, numbers(old, 1) + b"\0\0"), (DELIVERY, 2, 1, numbers(own, far) + b"\1\0x"), (NUMBER, 2, 1, numbers(old, 1, 1)),
        (NUMBER, 2, 1, numbers(old, far, far)), (ACKNOWLEDGEMENT, 2, 1, numbers(old, far)), (ASK, 2, 1, numbers(old, far)),
        (TOLD, 2, 1, numbers(old, own, far) + page + b"\1\0x"), (RESUME, 2, 1, numbers(old, far, far)),
        (RESTORED, 2, 1, numbers(old, own, far, far) + page), (DELIVERY, 1, 2, numbers(1, far) + b"\0\0"),
    ]))


def lies(folder):
    """Packets that are well-formed and lie, in bundles of the cluster: the cluster goes on as before."""
    chance = random.Random(1)
    cluster = begin(folder, transport="tcp", port=PORT)
    one, (relay, echo) = connect(cluster), cluster.nodes
    one.says("outputs")
    works(cluster, one, 1, 2)
    for _ in range(3):
        echo.kill()
        echo.start()
        echo.wait_up()
    works(cluster, one, 3, 4)
    told = [lie(chance, 4) for _ in range(1000)]
    with Flat(cluster), socket.create_connection(("127.0.0.1", PORT + 1)) as out:
        for number in range(LIES // 100):
            sender = 2 if number % 4 else 9
            bundle = lives.bundle(relay.id(), sender, 1, *chance.sample(told, 100))
            out.sendall(struct.pack("<I", len(bundle)) + bundle)
        works(cluster, one, *range(5, 30))
    tells(relay, length=29, exact="yes", broken=LIES // 400, refused=0)


def halves(folder):
    """Connections that stop in the midst of a bundle."""
    cluster = begin(folder, transport="tcp", port=PORT)
    one, frame = connect(cluster), struct.pack("<I", 1000) + lives.bundle(cluster.gateway.id(), 2, 1, b"x" * 900)
    one.says("outputs")
    works(cluster, one, 1, 2)
    with Flat(cluster):
        for number in range(HALVES // 100):
            guests = [socket.create_connection(("127.0.0.1", PORT + number % 3)) for _ in range(100)]
            for guest in guests:
                guest.send(frame[:500])
            for guest in guests:
                guest.close()
        works(cluster, one, *range(3, 30))


def pours(place, kind, text):
    """Sends for as long as that is taken, and reads nothing; the connection, which stays."""
    out = socket.socket(kind, socket.SOCK_STREAM)
    out.connect(place)
    out.settimeout(2)
    began = time.monotonic()
    try:
        while time.monotonic() < began + 20:
            out.send(text)
    except (TimeoutError, BrokenPipeError, ConnectionResetError):
        pass
    return out


def deaf(folder):
    """A program that hands in lines and one that asks for figures, again and again, and read no answer: nothing piles up."""
    cluster = begin(folder)
    relay, one = cluster.nodes[0], connect(cluster)
    relay.stop()
    figures = folder + "/figures"
    relay.words += ["--metrics", "unix:" + figures]
    relay.start()
    relay.wait_up()
    one.says("outputs")
    works(cluster, one, 1, 2)
    with Flat(cluster):
        guests = [pours(cluster.lines, socket.AF_UNIX, b"bytes nobody 00\n" * 1000),
                  pours(figures, socket.AF_UNIX, b"GET /metrics HTTP/1.1\r\n\r\n" * 1000)]
        works(cluster, one, *range(3, 30))
    for guest in guests:
        guest.close()
