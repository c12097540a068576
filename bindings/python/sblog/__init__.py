"""Message handlers that are checked once, sessions of them that survive crashes, and the nodes and the gateway of a cluster.

This module is outside the proofs: it is plain Python, tested, that calls the C library sblog by ctypes. The functions of the library
are proved to do what their contracts say. Its classes are Image, Session, Node and Gateway.

Each value is closed by its `with`, or by `close`. It stays on the thread that opened it, as the library asks, and has no copies. A
refused call raises an exception with its code and what the library says of it, and changes nothing, unless its words here say so. The
library is the one in the folder that SBLOG_LIB_DIR names, else the one that the loader finds.

    with Session([Path("examples/adder.sbi").read_bytes()]) as session:
        session.input(1, 1, (5).to_bytes(8, "little"))
        session.drive(1000)
        assert session.state(1) == (5).to_bytes(8, "little")
"""
from .handle import Error, GatewayError, ImageError, NodeError, SessionError, version
from .image import Image
from .party import Gateway, Node, packet_label
from .session import Session
from .values import (
    Answer, Bundle, Call, Drive, Entry, Fault, Job, Label, Limits, Output, Packet, PacketKind, Phase, Report, Shown, Stage, Standing, Tally
)  # fmt: skip
