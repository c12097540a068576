"""Checkpoints: their bytes, and what is wrong with others, as docs/FORMATS.md says ("Checkpoint file")."""

STATE, RECEIPTS, SSNS = 1_024, 65_536, 524_289


class Refused(Exception):
    """The number of the first fault."""


class Reader:
    def __init__(self, data):
        self.rest = data

    def bytes(self, size):
        if len(self.rest) < size:
            raise Refused(2)
        taken, self.rest = self.rest[:size], self.rest[size:]
        return taken

    def number(self, size, least, most):
        value = int.from_bytes(self.bytes(size), "little")
        if not least <= value <= most:
            raise Refused(3)
        return value

    def payloads(self, form, count):
        for _ in range(count):
            yield self.bytes(64 if form == 1 else self.number(2, 0, 256))


def read(data):
    """Form, own number, processes, state, senders, and for each destination the first SSN and payloads."""
    reader = Reader(data)
    magic = reader.bytes(4)
    if magic not in (b"SBC1", b"SBC2"):
        raise Refused(1)
    form = int(magic[3:])
    state_len = reader.number(2, 0, STATE)
    count = reader.number(1, 1, 15)
    me = reader.number(1, 1, count)
    received = reader.number(4, 0, RECEIPTS)
    state = reader.bytes(state_len)
    senders = reader.bytes(received)
    if any(sender > count or sender == me for sender in senders):
        raise Refused(3)
    kept = {}
    for to in range(count + 1):
        if to != me:
            first = reader.number(4, 1, SSNS)
            kept[to] = first, tuple(reader.payloads(form, reader.number(4, 0, SSNS - first)))
    if reader.rest:
        raise Refused(2)
    return form, me, count, state, senders, kept


def refusal(data):
    """The number of the first fault, or 0."""
    try:
        read(data)
    except Refused as refused:
        return refused.args[0]
    return 0


def written(me, count, state, senders, kept):
    """The second form."""
    data = b"SBC2" + len(state).to_bytes(2, "little") + bytes([count, me])
    data += len(senders).to_bytes(4, "little") + state + bytes(senders)
    for first, payloads in kept.values():
        data += first.to_bytes(4, "little") + len(payloads).to_bytes(4, "little")
        for payload in payloads:
            data += len(payload).to_bytes(2, "little") + payload
    return data
