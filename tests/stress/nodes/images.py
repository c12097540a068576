"""The handlers of the runs: those of examples/, and some that are written here, slot by slot."""

import struct
import sys
from pathlib import Path

TOP = Path(__file__).resolve().parents[3]
sys.path[:0] = [str(TOP / "tests/model/calls"), str(TOP / "tests/model")]

SEND, OUTPUT, OWN, SEND_SOME, OUTPUT_SOME = 1, 2, 3, 5, 6


def slot(op, dst=0, src=0, offset=0, imm=0):
    return struct.pack("<BBhi", op, dst | src << 4, offset, imm)


def copy(dst, src): return slot(0xBF, dst, src)
def put(dst, imm): return slot(0xB7, dst, imm=imm)
def add(dst, imm): return slot(0x07, dst, imm=imm)
def sum_of(dst, src): return slot(0x0F, dst, src)
def times(dst, imm): return slot(0x27, dst, imm=imm)
def masked(dst, imm): return slot(0x57, dst, imm=imm)
def shifted(dst, imm): return slot(0x77, dst, imm=imm)
def load(dst, src, offset): return slot(0x79, dst, src, offset)
def store(dst, offset, src): return slot(0x7B, dst, src, offset)
def skip_if_zero(dst, slots): return slot(0x15, dst, offset=slots)
def skip_if_below(dst, imm, slots): return slot(0xA5, dst, offset=slots, imm=imm)
def call(helper): return slot(0x85, imm=helper)


END = [put(0, 0), slot(0x95)]
# r6 the message, r7 the state, r8 the message's length; the state counts the messages, and mixes their lengths
BEGIN = [
    copy(6, 1), copy(7, 2), copy(8, 3),
    load(0, 7, 0), add(0, 1), store(7, 0, 0),
    load(0, 7, 8), times(0, 31), sum_of(0, 8), store(7, 8, 0),
]


def counted_send(at):
    """Sends 64 bytes of the stack to the number in r1, and counts what the helper answers."""
    return [copy(2, 10), add(2, -64), call(SEND), load(1, 7, at), times(1, 3), sum_of(1, 0), store(7, at, 1)]


def image(state_len, slots):
    code = b"".join(slots)
    return b"SBI2" + struct.pack("<HH", state_len, len(code) // 8) + code


def gossip():
    """Of a word: its lowest byte says how often it is sent on, the bits above it to whom; the state is an output."""
    sends = [
        store(10, -64, 9), load(0, 7, 0), store(10, -56, 0),
        copy(1, 9), shifted(1, 8), masked(1, 7), *counted_send(16),
        copy(1, 9), shifted(1, 11), masked(1, 7), *counted_send(24),
    ]
    talk = [
        load(9, 6, 0), load(0, 7, 8), sum_of(0, 9), store(7, 8, 0),
        copy(1, 9), masked(1, 255), skip_if_zero(1, len(sends) + 1), add(9, -1), *sends,
    ]
    return image(64, [*BEGIN, skip_if_below(8, 8, len(talk)), *talk, copy(1, 7), call(OUTPUT), *END])


def to_next(times_sent):
    """Sends the message to the process with the next number, so many times."""
    once = [call(OWN), copy(1, 0), add(1, 1), copy(2, 6), copy(3, 8), call(SEND_SOME)]
    return once * times_sent


def chain():
    """Sends each message to the process with the next number; message and state are outputs."""
    outputs = [copy(1, 6), copy(2, 8), call(OUTPUT_SOME), copy(1, 7), call(OUTPUT)]
    return image(64, [*BEGIN, *to_next(1), *outputs, *END])


def burst():
    """Sends each message eight times, and gives it as an output eight times."""
    return image(16, [*BEGIN, *to_next(8), *[copy(1, 6), copy(2, 8), call(OUTPUT_SOME)] * 8, *END])


def wide():
    """A state of 1,024 bytes, of which each message changes three words."""
    return image(1024, [*BEGIN, store(7, 1016, 0), copy(1, 7), add(1, 900), call(OUTPUT), *END])


def examples():
    names = ["relay", "echo", "adder", "greatest", "node/counter", "scenarios/mirror", "scenarios/doubler", "c/replicated", "c/sized", "c/limiter"]
    return {name.rpartition("/")[2]: (TOP / "examples" / f"{name}.sbi").read_bytes() for name in names}


OWN_HANDLERS = {"gossip": gossip(), "chain": chain(), "burst": burst(), "wide": wide()}
ALL = examples() | OWN_HANDLERS
