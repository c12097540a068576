"""What the calls put out in the tests of `c_cluster`, by docs/FORMATS.md and the rules of docs/CLUSTER.md.

python3 tests/model/nodes/calls.py prints the bytes as the tests have them."""
import struct

from packets import entry, kept, numbers, output, packet, page, payload, store, suspended

GATEWAY = {
    # the gateway of two processes logs an input for process 1, and sends it
    "LOGGED": bytes([1, 1]) + payload(b"hello"),
    "DELIVERY": packet(1, 2, 0, 1, numbers(1, 1) + payload(b"hello")),
    # it is process 1's first message, which is recorded
    "NUMBER": packet(2, 2, 1, 0, numbers(1, 1, 1)),
    "ACKNOWLEDGEMENT": packet(3, 2, 0, 1, numbers(1, 1)),
    # process 2 gives an output, which is shown
    "OUTPUT": packet(1, 2, 2, 0, numbers(1, 1) + payload(b"out")),
    "SAVED": packet(8, 2, 0, 2, numbers(1)),
    "NUMBERED": bytes([2, 1]) + numbers(1, 1) + bytes([6]) + output(2, 1, b"out"),
    # the store then, and after the host took the output
    "STORE": store([(0, 1, 1), (1, 1, 1)], [(1, [(1, b"hello")]), (1, [])], [(2, 1, b"out")]),
    "TAKEN": bytes([7]) + struct.pack("<I", 1),
    "LATER": store([(0, 1, 1), (1, 1, 1)], [(1, [(1, b"hello")]), (1, [])], []),
    # process 1 comes back in its second incarnation, and asks
    "ASK": packet(4, 2, 1, 0, numbers(2, 0)),
    "TOLD": packet(5, 2, 0, 1, numbers(2, 1, 0) + page(5, [entry(1, 1, b"hello")])),
}

# the one process of a cluster keeps the word that it gets, and puts its 64 bytes out
WORD = b"hello".ljust(8, b"\0")
SHOWN = b"hello".ljust(64, b"\0")

NODE = {
    "NEW": kept(1, 1, bytes(8), 0, [0], [(1, [])]),
    # the same if it opens with this word as its state
    "OPENED": kept(1, 1, WORD, 0, [0], [(1, [])]),
    "DELIVERY": packet(1, 1, 0, 1, numbers(1, 1) + payload(b"hello")),
    "NUMBER": packet(2, 1, 1, 0, numbers(1, 1, 1)),
    "ACKNOWLEDGEMENT": packet(3, 1, 0, 1, numbers(1, 1)),
    "OUTPUT": packet(1, 1, 1, 0, numbers(1, 1) + payload(SHOWN)),
    # its checkpoint then covers the message, which the gateway is told
    "KEPT": kept(1, 1, WORD, 1, [1], [(1, [SHOWN])]),
    "SAVED": packet(8, 1, 1, 0, numbers(1)),
    # the whole node is suspended then; the number of its output isn't told yet
    "SUSPENDED": suspended(kept(1, 1, WORD, 1, [1], [(1, [SHOWN])]), 1, 1, [1, 1], [1, 1], [[None], []]),
    # it comes back from nothing in its second incarnation: it asks, is told the message, replays it, asks for the number of
    # its output, and is up
    "ASK": packet(4, 1, 1, 0, numbers(2, 0)),
    "TOLD": packet(5, 1, 0, 1, numbers(2, 1, 0) + page(5, [entry(1, 1, b"hello")])),
    "RESUME": packet(6, 1, 1, 0, numbers(2, 1, 0)),
    "RESTORED": packet(7, 1, 0, 1, numbers(2, 1, 0, 0) + page(5, [])),
    "AGAIN": packet(1, 1, 1, 0, numbers(2, 1) + payload(SHOWN)),
}


def main():
    for name, data in [*GATEWAY.items(), *NODE.items()]:
        rows = [", ".join("0x%02x" % byte for byte in data[at:at + 16]) for at in range(0, len(data), 16)]
        print("const %s: &[u8] = &[\n%s\n];" % (name, "\n".join("    " + row + "," for row in rows)))


if __name__ == "__main__":
    main()
