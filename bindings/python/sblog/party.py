"""A node, the gateway, and what they send each other."""
from __future__ import annotations

from ctypes import byref, c_uint8, c_uint32, c_uint64
from typing import Any

from .handle import LIBRARY, GatewayError, Held, NodeError, sent, u8, u32, u64
from .values import Bundle, Job, Label, Limits, Output, Packet, PacketKind, Stage, Standing, Tally


def packet_label(packet: bytes) -> Label:
    """The label of the packet in these bytes. Others are refused as by a node, with fault 1 to 8."""
    words, fault = (c_uint64 * 5)(), c_uint32()
    code = LIBRARY.sblog_packet_label(*sent(packet), words, byref(fault))
    if code != 0:
        raise NodeError(code, fault.value if code == 21 else None)
    return Label(PacketKind(words[0]), *words[1:])


class _Party(Held):
    """A node or the gateway.

    receive      takes the bytes of a packet that came
    receive_all  takes each packet of a bundle's data, and a node's handler runs after each; other bytes are refused whole (21)
    take         the packet that waits first, if one does
    take_all     the first that wait, as many as go to one node and take `room` bytes; a first one that is longer comes alone
    tick         sends again what isn't answered
    """

    @classmethod
    def _opened(cls, name: str, *arguments: Any) -> Any:
        it = cls.__new__(cls)
        it._open(name, *arguments, fault=c_uint32())
        return it

    def receive(self, packet: bytes) -> None: self._told("receive", *sent(packet))
    def tick(self) -> None: self._done(self._call("tick"))

    def receive_all(self, bundle: bytes) -> Tally:
        words = (c_uint64 * 3)()
        self._done(self._call("receive_all", *sent(bundle), words))
        return Tally(*words)

    def take(self) -> Packet | None:
        to = c_uint8()
        data = self._bytes("take", after=[byref(to)])
        return None if data is None else Packet(to.value, data)

    def take_all(self, room: int) -> Bundle | None:
        to, count = c_uint8(), c_uint64()
        data = self._bytes("take_all", after=[byref(to), byref(count)], first=room)
        return None if data is None else Bundle(to.value, count.value, data)


class Gateway(_Party):
    """The way into a cluster of `n` processes and out of it, node 0. What its calls put out may be sent once their changes are durable.

    revive   one that comes back with a store
    apply    brings the store up to date by the changes that were kept after it, before any other call
    input    logs a message of 0 to 256 bytes for a process; its number among those
    output   the next output, if there is one
    store    the bytes of the store
    changes  what happened to the store since this was asked; no bytes if nothing did

    gateway = Gateway(2)
    store = gateway.store()  # to be kept, and after it all changes
    gateway.input(1, b"hello")
    changes = gateway.changes()  # to be durable before gateway.take() is sent
    again = Gateway.revive(store)  # after a kill
    again.apply(changes)
    """

    _error = GatewayError

    def __init__(self, n: int, page: int = 60_000, tick: int = 8) -> None:
        self._open("open", u8(n), u32(page), u32(tick))

    @classmethod
    def revive(cls, store: bytes, page: int = 60_000, tick: int = 8) -> Gateway:
        return cls._opened("revive", *sent(store), u32(page), u32(tick))

    def apply(self, changes: bytes) -> None: self._told("apply", *sent(changes))
    def input(self, process: int, payload: bytes) -> int: return self._told("input", u8(process), *sent(payload), kind=c_uint64)
    def store(self) -> bytes: return self._bytes("store")
    def changes(self) -> bytes: return self._bytes("changes")

    def output(self) -> Output | None:
        process, ssn = c_uint8(), c_uint64()
        payload = self._bytes("output", byref(process), byref(ssn))
        return None if payload is None else Output(process.value, ssn.value, payload)


class Node(_Party):
    """Process `me` of `n` in a cluster, which received nothing, by the image file of its handler, with this opening state or zeros.

    revive      one that comes back from what was kept, in an incarnation that is higher than any before
    work        runs the handler on the message that it received, or on the next one that is replayed; whether there was one
    job         the call that `work` would make, if there is one, for a host that makes it as machine code
    done        takes in what that call left in the job's array and in its record
    checkpoint  the bytes that are to be kept; it drops what comes until `saved`
    saved       they are kept: what waited for that goes out
    suspend     the bytes of the whole node, which stays open: close it, and send nothing that it still has to give. It has to be up, with
                a saved checkpoint that covers all
    resume      one as it was, from these bytes: once, and only if it did nothing since
    standing    its numbers, and what it does
    refused     how many sends and outputs helpers refused in this life, by the code that the handler got, 1 to 3
    state       the state that its handler left last

    node = Node(image, 1, 1)
    kept = node.checkpoint()  # to be durable, and incarnation 1 before it
    node.saved()
    again = Node.revive(image, kept, 2)  # after a kill, with incarnation 2 durable
    """

    _error = NodeError

    def __init__(self, image: bytes, me: int, n: int, limits: Limits = Limits(), state: bytes | None = None) -> None:
        name, given = ("open", ()) if state is None else ("open_with", sent(state))
        self._open(name, *sent(image), u8(me), u8(n), *map(u32, limits), *given)

    @classmethod
    def revive(cls, image: bytes, kept: bytes, incarnation: int, limits: Limits = Limits()) -> Node:
        return cls._opened("revive", *sent(image), *sent(kept), u64(incarnation), *map(u32, limits))

    @classmethod
    def resume(cls, image: bytes, suspended: bytes, limits: Limits = Limits()) -> Node:
        return cls._opened("resume", *sent(image), *sent(suspended), *map(u32, limits))

    def checkpoint(self) -> bytes: return self._bytes("checkpoint")
    def saved(self) -> None: self._done(self._call("saved"))
    def suspend(self) -> bytes: return self._bytes("suspend")
    def refused(self, code: int) -> int: return self._call("refused", u32(code))
    def state(self) -> bytes: return self._bytes("state")

    def work(self) -> bool:
        code = self._call("work")
        if code != self._absent:
            self._done(code)
        return code != self._absent

    def job(self) -> Job | None:
        words = (c_uint64 * 6)()
        array = self._bytes("job", after=[words])
        return None if array is None else Job(*words, bytearray(array))

    def done(self, job: Job, record: bytes) -> None:
        self._done(self._call("done", u64(job.incarnation), u64(job.received), *sent(job.array), *sent(record)))

    def standing(self) -> Standing:
        words = (c_uint64 * 10)()
        self._done(self._call("standing", words))
        length, base, incarnation, stage, exact, *counts = words
        return Standing(length, base, incarnation, Stage(stage), exact == 1, *counts)
