#!/usr/bin/env python3
"""The worked rows that the tests of both bindings drive: `rows.py` prints a line for each, `TABLE CALL ARGUMENTS = CODE NUMBERS BYTES`,
with bytes in hexadecimal after an x.

They are the tables of tests/c_sessions and tests/c_cluster, whose values a model worked out, and of nodes also what the model in
tests/model/calls answers to a list of calls. Left out is what bindings leave no way to ask for: a buffer that is too short, lengths
that don't fit their files, and a handle that is opened or closed twice.
"""
import re
import subprocess
import sys
from pathlib import Path

sys.dont_write_bytecode = True
TOP = Path(__file__).resolve().parent.parent
sys.path[:0] = [str(TOP / "tests/model/calls"), str(TOP / "tests/model")]
import gateway as model_gateway  # noqa: E402
import handlers  # noqa: E402
import node as model_node  # noqa: E402

# Functions of the header that bindings leave out: `run` and `entries` do their work, and no binding calls machine code.
LEFT_OUT = {"sblog_call", "sblog_call_many", "sblog_session_entry", "sblog_native_report"}
NOTHING, SHORT, TWICE = 99, 19, 16
OPENING = ("open", "revive", "resume", "close")
# Calls of a gateway or a node that give bytes, and how many numbers with them.
GIVING = {"take": 1, "take_all": 3, "output": 2, "store": 0, "changes": 0, "checkpoint": 0, "state": 0, "suspend": 0}
LIMITS = (8, 256, 65_536, 0)  # of a node in those tables, after its page


def functions():
    """The functions of the header that each binding calls."""
    told = subprocess.run([TOP / "tools/declarations", "exports", ""], check=True, capture_output=True, text=True)
    return set(told.stdout.split()) - LEFT_OUT


def constants(*files):
    """What the constants of files of tests are, in Python: bytes, and tables of rows. A file stands behind those that it uses."""
    text = re.sub(r"//.*", "", "\n".join((TOP / "tests" / it).read_text() for it in files))
    known = {"Act": lambda name, *arguments: (re.sub(r"\B(?=[A-Z])", "_", name).lower(), arguments)}
    for name, value in re.findall(r"(?ms)^(?:pub(?:\(super\))? )?const (\w+): &?\[[^=]*\] = [&*]?(.*?);\n(?=\n|$)", text):
        value = re.sub(r"\\\n\s*", "", value).replace("&", "").replace("\\0", "\\x00")
        value = re.sub(r"\[(\d+); (\d+)\]", r"([\1] * \2)", value)
        value = re.sub(r"Act::(\w+)\(", r'Act("\1", ', value)
        try:
            known[name] = eval(re.sub(r"Act::(\w+)", r'Act("\1")', value), known)
        except (NameError, SyntaxError):
            continue  # of another module, or no bytes and no table
    return known


def as_bytes(value):
    return bytes(value) if isinstance(value, (list, bytes)) else value


def session_rows(known, *tables):
    """Of tables of a session's calls: a file's bytes in place of lengths, and no room."""
    for table in tables:
        for (call, arguments), code, number in known[table]:
            if call == "open":
                files, lengths = bytes(arguments[0]), arguments[1]
                ends = [sum(lengths[:place]) for place in range(len(lengths) + 1)]
                if ends[-1] != len(files):
                    continue
                arguments = [files[begin:end] for begin, end in zip(ends, ends[1:])]
            elif call == "input":
                arguments = [*arguments[:2], bytes([7]) * arguments[2]]
            elif call in ("state", "saved", "shown", "trace"):
                arguments = arguments[:-1]
            yield f"session.{table}", call, arguments, code, [number] if number != NOTHING else [], b""


def party_rows(kind, known, *tables):
    """Of tables of a gateway's or a node's calls, which tell process, number and size in one. Of a bundle they have the first bytes."""
    for table in tables:
        for (call, arguments), code, number, data in known[table]:
            numbers = [number] if number != NOTHING else []
            if call in GIVING:
                told = [number // 100_000, number // 1_000 % 100, number % 1_000]
                arguments, numbers = arguments if call == "take_all" else (), told[: GIVING[call]] if numbers else []
            elif call == "receive_all":
                bundle = b"".join(len(packet).to_bytes(2, "little") + bytes(packet) for packet in arguments[0])
                arguments, numbers = [bundle[: len(bundle) - arguments[1]]], [int(digit) for digit in f"{number:03}"] if numbers else []
            elif kind == "node" and call in OPENING[:3]:
                arguments = [known["SHOWS"], *arguments, *LIMITS]
            if call != "standing":  # rows of the model have all its numbers
                yield f"{kind}.{table}", call, [as_bytes(it) for it in arguments], code, numbers, bytes(data)


def label_rows(known):
    """The packets of a table and their labels, and one that was cut off."""
    for packet, words in known["LABELS"]:
        yield "node.LABELS", "packet_label", [bytes(packet)], 0, words, b""
    yield "node.LABELS", "packet_label", [bytes(known["SAVED"][:19])], 21, [3], b""


class Party:
    """A node of the model, whose calls become rows."""

    def __init__(self, image, me, limits=model_node.Limits()):
        self.image, self.me, self.limits, self.rows = image, me, limits, []

    def told(self, call, *arguments):
        """Makes a call: its code, numbers and bytes, which become a row."""
        writes = call in ("take", "checkpoint", "state")
        answer = (0, *self.node.standing()) if call == "standing" else getattr(self.node, call)(*arguments, *[1 << 16] * writes)
        code, *numbers = answer if isinstance(answer, tuple) else (answer,)
        data = numbers.pop() if writes else None
        return self.row(call, arguments, code, numbers[1:] if writes else numbers, data)

    def row(self, call, arguments, code, numbers=(), data=None):
        numbers = [it for it in numbers if it is not None] if code in (0, 21) else []
        self.rows.append((f"node.{self.me}", call, arguments, code, numbers, data or b""))
        return code, numbers, data

    def open(self, n, image=None, me=None, limits=None):
        image, me, limits = image or self.image, me or self.me, limits or self.limits
        code, self.node = model_node.opened(model_node.Node, handlers.load(image), me, n, limits)
        self.row("open", [image, me, n, *limits], code)

    def revive(self, kept, incarnation):
        code, fault, self.node = model_node.revived(model_node.Node, handlers.load(self.image), kept, incarnation, self.limits)
        self.row("revive", [self.image, kept, incarnation, *self.limits], code, [fault])


def look(party):
    party.told("standing")
    party.told("state")


def carry(parties, gateway):
    """Handlers run and packets are carried, those of nodes as rows, until nothing is left."""
    moved = True
    while moved:
        moved = False
        for party in parties:
            while party.told("work")[0] == 0:
                moved = True
            while (taken := party.told("take"))[0] == 0:
                moved, (_, [to], data) = True, taken
                gateway.receive(data) if to == 0 else parties[to - 1].told("receive", data)
        while (taken := gateway.take(1 << 16))[0] == 0:
            moved = True
            parties[taken[2] - 1].told("receive", taken[3])
        for party in parties:
            look(party)


def node_rows():
    """A relay and a counter: two numbers go through both; the counter is kept, dies and comes back, and then the relay."""
    relay, counter = ((TOP / "examples" / name).read_bytes() for name in ("relay.sbi", "node/counter.sbi"))
    parties, (_, gateway) = [Party(relay, 1), Party(counter, 2)], model_gateway.opened(2, 60_000, 8)
    parties[0].open(2, me=3)
    parties[0].open(2, limits=model_node.Limits(page=511))
    for party in parties:
        party.open(2)
    kept = parties[0].told("checkpoint")[2]
    parties[0].told("checkpoint")
    parties[0].told("saved")
    parties[0].told("saved")
    for number in (5, 7):
        gateway.input(1, number.to_bytes(8, "little"))
        carry(parties, gateway)
    parties[1].told("receive", b"SBP1")
    counted = parties[1].told("checkpoint")[2]
    parties[1].told("saved")
    parties[1].revive(counted[:-1], 2)
    for party, data in zip(reversed(parties), (counted, kept)):
        party.revive(data, 2)
        carry(parties, gateway)
        gateway.input(1, bytes([9]))
        carry(parties, gateway)
        party.told("tick")
    return [row for party in parties for row in party.rows]


def rows():
    """All rows that bindings can ask for."""
    sessions = constants("c_sessions/tests.rattle", "c_sessions/tests/lists.rattle", "c_sessions/tests/ordinary_c.rattle")
    gateways = constants("c_cluster/tests/gateways.rattle")
    nodes = constants(*(f"c_cluster/tests/nodes{it}.rattle" for it in ("", "/packets", "/lists", "/labels")))
    every = [
        *session_rows(sessions, "ADDING", "RELAYING", "STUCK", "SCHEDULED", "ENDING", "CLOSED", "TRACED", "DROPPING"),
        *party_rows("gateway", gateways, "CLOSED", "RUNNING", "BUNDLED", "REVIVING"),
        *party_rows("node", nodes, "BUNDLED", "SUSPENDING"),
        *label_rows(nodes),
        *node_rows(),
    ]
    return [row for row in every if row[3] != SHORT and not (row[3] == TWICE and row[1] in OPENING)]


def spelled(value):
    return f"x{value.hex()}" if isinstance(value, bytes) else str(value)


if __name__ == "__main__":
    for table, call, arguments, code, numbers, data in rows():
        print(table, call, *map(spelled, arguments), "=", code, *numbers, spelled(data))
