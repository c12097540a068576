"""What calls take and tell, as enums and tuples."""
from __future__ import annotations

import enum
from typing import NamedTuple

Phase = enum.IntEnum("Phase", "UP BUSY DOWN REPLAYING RESYNC", start=0)
Stage = enum.IntEnum("Stage", "UP BUSY FROZEN COLLECTING REPLAYING RESUMING", start=0)
Call = enum.IntEnum("Call", "INPUT TRANSMIT COPY LOSE ARRIVE FINISH CHECKPOINT TRIM CRASH RECOVER ALONE REPLAY RESYNC")
Answer = enum.IntEnum(
    "Answer", "LOGGED PACKET LOST STARTED NUMBERED ACKNOWLEDGED SHOWN DUPLICATE SHOWN_BEFORE EARLY STALE UNREACHABLE "
    "COMMITTED REPLAYED SAVED TRIMMED CRASHED KEPT RESTORED")  # fmt: skip
PacketKind = enum.IntEnum("PacketKind", "DELIVERY NUMBER ACKNOWLEDGEMENT ASK TOLD RESUME RESTORED SAVED")

Fault = NamedTuple("Fault", [("rule", int), ("slot", int)])  # by which a file is refused; slot 0 of a header
# What one call of a handler answered: of a longer message or output the first 64 bytes; a shorter one is filled up with zeros.
Report = NamedTuple("Report", [("r0", int), ("steps", int), ("sends", "list[tuple[int, bytes]]"), ("outputs", "list[bytes]")])
Drive = NamedTuple("Drive", [("accepted", int), ("is_stopped", bool)])  # how many calls; whether the journal's end stopped it
Shown = NamedTuple("Shown", [("sender", int), ("ssn", int), ("payload", bytes)])  # an output, and its number among its process's
Output = NamedTuple("Output", [("process", int), ("ssn", int), ("payload", bytes)])  # the same, of a gateway
Packet = NamedTuple("Packet", [("to", int), ("data", bytes)])  # for a node; 0 is the gateway
Bundle = NamedTuple("Bundle", [("to", int), ("count", int), ("data", bytes)])  # so many packets, each after the two bytes of its length
Tally = NamedTuple("Tally", [("taken", int), ("refused", int), ("lost", int)])  # packets of a bundle; lost: memory ran out for them
Label = NamedTuple("Label", [("kind", PacketKind), ("sender", int), ("to", int), ("ssn", int), ("number", int)])  # sblog_label's fields
# An entry of the journal: a call and its answer, each with numbers in the order of the entry's line in the trace.
Entry = NamedTuple(
    "Entry",
    [("worker", int), ("call", Call), ("call_numbers", "tuple[int, ...]"), ("answer", Answer), ("answer_numbers", "tuple[int, ...]"),
     ("payload", bytes)],
)  # fmt: skip
# The fields of sblog_standing, and of sblog_job with the array of the call.
Standing = NamedTuple(
    "Standing",
    [("length", int), ("base", int), ("incarnation", int), ("stage", Stage), ("exact", bool), ("receipts", int), ("entries", int),
     ("packets", int), ("replays", int), ("waited_for", int)],
)  # fmt: skip
Job = NamedTuple(
    "Job",
    [("incarnation", int), ("received", int), ("message_len", int), ("me", int), ("sender", int), ("count", int), ("array", bytearray)],
)


class Limits(NamedTuple):  # of a node, until it is closed
    page: int = 60_000
    tick: int = 8
    numbers: int = 256
    receipts: int = 65_536
    durable: bool = True
