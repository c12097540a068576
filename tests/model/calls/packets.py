"""What nodes tell one another, as bytes (docs/FORMATS.md, "Packet `SBP1`"), and what is wrong with other bytes."""

import struct
from functools import lru_cache
from typing import NamedTuple

MOST_PROCESSES = 15
MOST_BYTES = 256
FIRST_TOO_GREAT = 2**63
DONE, LOST, EXACT = 1, 2, 4


class Refused(Exception):
    """The first fault that holds of some bytes."""

    def __init__(self, fault):
        super().__init__(fault)
        self.fault = fault


class Delivery(NamedTuple):
    incarnation: int
    ssn: int
    payload: bytes


class Number(NamedTuple):
    incarnation: int
    ssn: int
    number: int


class Acknowledgement(NamedTuple):
    incarnation: int
    number: int


class Ask(NamedTuple):
    incarnation: int
    above: int


class Told(NamedTuple):
    incarnation: int
    teller: int
    above: int
    flags: int
    entries: list  # of number, SSN, payload


class Resume(NamedTuple):
    incarnation: int
    kept: int
    above: int


class Restored(NamedTuple):
    incarnation: int
    teller: int
    covered: int
    above: int
    flags: int
    pairs: list  # of SSN, number


class Saved(NamedTuple):
    covered: int


KINDS = [None, Delivery, Number, Acknowledgement, Ask, Told, Resume, Restored, Saved]
MAY_BE_ZERO = {"above", "kept", "covered"}


def table_of(polynomial):
    """What a byte comes to."""
    rows = list(range(256))
    for _ in range(8):
        rows = [row >> 1 ^ (polynomial if row & 1 else 0) for row in rows]
    return rows


TABLE = table_of(0x82F63B78)


@lru_cache(maxsize=512)
def checksum(data):
    rest, table = 0xFFFFFFFF, TABLE
    for byte in data:
        rest = rest >> 8 ^ table[(rest ^ byte) & 255]
    return rest ^ 0xFFFFFFFF


def sealed(data):
    return data + struct.pack("<I", checksum(data))


def is_sealed(data):
    return data[-4:] == struct.pack("<I", checksum(data[:-4]))


def word(value):
    return struct.pack("<Q", value)


def lengthy(payload):
    """A payload behind its length."""
    return struct.pack("<H", len(payload)) + payload


def refuse_first(*faults):
    """Refuses by the first of the faults, 1 and so on, that is so."""
    for fault, is_so in enumerate(faults, 1):
        if is_so():
            raise Refused(fault)


class Reader:
    """Bytes that are read one field after the other; a fault where they end early."""

    def __init__(self, data, fault):
        self.data, self.fault, self.at = data, fault, 0

    def take(self, size):
        if size > len(self.data) - self.at:
            raise Refused(self.fault)
        self.at += size
        return self.data[self.at - size : self.at]

    def number(self, size=8):
        return int.from_bytes(self.take(size), "little")

    def payload(self):
        size = self.number(2)
        if size > MOST_BYTES:
            raise Refused(self.fault)
        return self.take(size)

    def end(self):
        if self.at != len(self.data):
            raise Refused(self.fault)


def written(n, source, target, packet):
    """The bytes of a packet of one node to another one."""
    fields = b"".join(map(field_bytes, packet._fields, packet))
    return sealed(b"SBP1" + bytes([KINDS.index(type(packet)), n, source, target]) + fields)


def field_bytes(name, value):
    match name:
        case "payload": return lengthy(value)
        case "flags": return bytes([value])
        case "entries": return counted(word(number) + word(ssn) + lengthy(payload) for number, ssn, payload in value)
        case "pairs": return counted(word(ssn) + word(number) for ssn, number in value)
    return word(value)


def counted(parts):
    parts = list(parts)
    return struct.pack("<H", len(parts)) + b"".join(parts)


def read(data):
    """The number of processes, from, to, and the packet."""
    refuse_first(
        lambda: len(data) < 12,
        lambda: data[:4] != b"SBP1",
        lambda: not is_sealed(data),
        lambda: not 1 <= data[4] <= 8,
        lambda: not 1 <= data[5] <= MOST_PROCESSES,
        lambda: max(data[6], data[7]) > data[5] or data[6] == data[7],
    )
    kind = KINDS[data[4]]
    fields = Reader(data[8:-4], 7)
    packet = kind(*[field(name, fields) for name in kind._fields])
    fields.end()
    if not is_in_range(packet):
        raise Refused(8)
    return data[5], data[6], data[7], packet


def field(name, fields):
    match name:
        case "payload": return fields.payload()
        case "flags": return fields.number(1)
        case "entries": return [(fields.number(), fields.number(), fields.payload()) for _ in range(fields.number(2))]
        case "pairs": return [(fields.number(), fields.number()) for _ in range(fields.number(2))]
    return fields.number()


def is_in_range(packet):
    numbers = [(name, value) for name, value in packet._asdict().items() if isinstance(value, int) and name != "flags"]
    if any(value >= FIRST_TOO_GREAT or value == 0 and name not in MAY_BE_ZERO for name, value in numbers):
        return False
    if isinstance(packet, Told):
        return is_page(packet, DONE | LOST | EXACT, [entry[:2] for entry in packet.entries], lambda entry: entry)
    if isinstance(packet, Restored):
        return is_page(packet, DONE | EXACT, packet.pairs, lambda pair: pair[0])
    return True


def is_page(packet, flags, pairs, key):
    """Whether the flags are among these, and what the page holds ascends by a key and stands above what was asked."""
    return (
        packet.flags & ~flags == 0
        and all(0 < value < FIRST_TOO_GREAT for pair in pairs for value in pair)
        and all(key(one) < key(next_one) for one, next_one in zip(pairs, pairs[1:]))
        and all(pair[0] > packet.above for pair in pairs)
        and (packet.flags & DONE != 0 or len(pairs) > 0)
    )


def page_of(n, source, target, page, items, packet_of):
    """The packet with as many of the items as fit a page, made by whether these are all, and by them."""
    fitting = len(items)
    while len(packet := written(n, source, target, packet_of(fitting == len(items), items[:fitting]))) > page:
        fitting -= 1
    return packet
