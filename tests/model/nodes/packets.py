"""The eight packets, kept bytes, a store and changes (docs/FORMATS.md), by Python's struct and a CRC-32C bit by bit.

python3 tests/model/nodes/packets.py prints them as the tests of `packets` and `stores` have them."""
import struct


def crc32c(data):
    rest = 0xFFFFFFFF
    for byte in data:
        rest ^= byte
        for _ in range(8):
            rest = rest >> 1 ^ (0x82F63B78 if rest & 1 else 0)
    return rest ^ 0xFFFFFFFF


def sealed(data):
    return data + struct.pack("<I", crc32c(data))


def packet(kind, n, source, target, fields):
    return sealed(b"SBP1" + bytes([kind, n, source, target]) + fields)


def numbers(*values):
    return struct.pack("<%dQ" % len(values), *values)


def payload(data):
    return struct.pack("<H", len(data)) + data


def page(flags, entries):
    return bytes([flags]) + struct.pack("<H", len(entries)) + b"".join(entries)


def kept(me, n, state, length, counts, logs):
    fields = b"".join(numbers(first) + struct.pack("<I", len(log)) + b"".join(payload(data) for data in log) for first, log in logs)
    return sealed(b"SBN1" + bytes([me, n]) + struct.pack("<H", len(state)) + numbers(length) + numbers(*counts) + state + fields)


def suspended(kept, life, exact, heard, resumed, logs):
    codes = b"".join(numbers(len(log), *(0 if number is None else number + 1 for number in log)) for log in logs)
    return sealed(b"SBN2" + numbers(len(kept)) + kept + numbers(life) + bytes([exact]) + numbers(*heard) + bytes(resumed) + codes)


def entry(number, ssn, data):
    return numbers(number, ssn) + payload(data)


def log(first, entries):
    return numbers(first) + struct.pack("<I", len(entries)) + b"".join(numbers(number) + payload(data) for number, data in entries)


def output(process, ssn, data):
    return bytes([process]) + numbers(ssn) + payload(data)


def store(heads, logs, outputs):
    fields = b"".join(numbers(shown, heard) + bytes([resumed]) for shown, heard, resumed in heads)
    fields += b"".join(log(first, entries) for first, entries in logs)
    fields += struct.pack("<I", len(outputs)) + b"".join(output(*one) for one in outputs)
    return sealed(b"SBG1" + bytes([len(heads), 0, 0, 0]) + fields)


PACKETS = {
    "DELIVERY": packet(1, 3, 1, 2, numbers(4, 5) + payload(b"seven")),
    "NUMBER": packet(2, 3, 2, 0, numbers(4, 5, 0x0102030405060708)),
    "ACKNOWLEDGEMENT": packet(3, 15, 15, 14, numbers(1, 2**63 - 1)),
    "ASK": packet(4, 3, 3, 1, numbers(2, 0)),
    "TOLD": packet(5, 3, 0, 1, numbers(2, 1, 7) + page(5, [entry(8, 3, b""), entry(8, 4, b"\xff"), entry(9, 1, b"ab")])),
    "RESUME": packet(6, 3, 1, 0, numbers(2, 9, 0)),
    "RESTORED": packet(7, 3, 2, 1, numbers(2, 1, 3, 4) + page(0, [numbers(5, 6), numbers(7, 300)])),
    "SAVED": packet(8, 1, 0, 1, numbers(256)),
    "KEPT": kept(1, 2, bytes([7, 1]), 3, [1, 2], [(4, []), (2, [b"", b"hi"])]),
    # process 1 has shown two outputs, of which the second isn't taken, and is in incarnation 3, resumed: of its inputs the
    # first four are dropped, the fifth is its 9th message, the sixth has no number, the seventh is its 12th; process 2 is in
    # its first incarnation, of which no Resume was obeyed
    "STORE": store([(2, 3, 1), (0, 1, 0)], [(5, [(9, b"hi"), (0, b""), (12, b"x")]), (1, [])], [(1, 2, b"out")]),
    # an input for process 2, its number there, process 1 drops up to 5, is in incarnation 4, forgets numbers above 11, and
    # resumed; its third output is shown, and the one before it is taken
    "CHANGES": bytes([1, 2]) + payload(b"new") + bytes([2, 2]) + numbers(1, 7) + bytes([3, 1]) + numbers(5) + bytes([4, 1])
    + numbers(4) + bytes([0, 5, 1]) + numbers(11) + bytes([4, 1]) + numbers(4) + bytes([1, 6]) + output(1, 3, b"more")
    + bytes([7]) + struct.pack("<I", 1),
    # the store after them
    "LATER": store([(3, 4, 1), (0, 1, 0)], [(6, [(0, b""), (0, b"x")]), (1, [(7, b"new")])], [(1, 3, b"more")]),
}


def main():
    assert crc32c(b"123456789") == 0xE3069283
    for name, data in PACKETS.items():
        print(name, len(data))
        rows = [", ".join("0x%02x" % byte for byte in data[at:at + 16]) for at in range(0, len(data), 16)]
        print("\n".join("    " + row + "," for row in rows))


if __name__ == "__main__":
    main()
