"""The C library's nodes and gateway, by ctypes: each call answers what the same call of tests/model/calls does."""

import ctypes
import os
from ctypes import POINTER, byref, c_size_t, c_uint8, c_uint32, c_uint64, c_void_p

from images import TOP

MOST_ROOM = 1 << 20
TOO_SHORT = 19
BLANK = b"\xA5"
BLANKS = {c_uint8: 0xA5, c_uint32: 0xA5A5A5A5, c_size_t: 0xA5A5A5A5A5A5A5A5, c_uint64: 0xA5A5A5A5A5A5A5A5}
BYTES = [ctypes.c_char_p, c_size_t]
OUT = [c_void_p, c_size_t, POINTER(c_size_t)]
LIMITS = [c_uint32] * 5

CALLS = {
    "node_open": [*BYTES, c_uint8, c_uint8, *LIMITS, c_void_p],
    "node_open_with": [*BYTES, c_uint8, c_uint8, *LIMITS, *BYTES, c_void_p],
    "node_revive": [*BYTES, *BYTES, c_uint64, *LIMITS, c_void_p, POINTER(c_uint32)],
    "node_close": [c_void_p],
    "node_receive": [c_void_p, *BYTES, POINTER(c_uint32)],
    "node_take": [c_void_p, *OUT, POINTER(c_uint8)],
    "node_work": [c_void_p],
    "node_tick": [c_void_p],
    "node_checkpoint": [c_void_p, *OUT],
    "node_saved": [c_void_p],
    "node_standing": [c_void_p, c_void_p],
    "node_state": [c_void_p, *OUT],
    "gateway_open": [c_uint8, c_uint32, c_uint32, c_void_p],
    "gateway_revive": [*BYTES, c_uint32, c_uint32, c_void_p, POINTER(c_uint32)],
    "gateway_apply": [c_void_p, *BYTES, POINTER(c_uint32)],
    "gateway_close": [c_void_p],
    "gateway_input": [c_void_p, c_uint8, *BYTES, POINTER(c_uint64)],
    "gateway_receive": [c_void_p, *BYTES, POINTER(c_uint32)],
    "gateway_take": [c_void_p, *OUT, POINTER(c_uint8)],
    "gateway_tick": [c_void_p],
    "gateway_output": [c_void_p, POINTER(c_uint8), POINTER(c_uint64), *OUT],
    "gateway_store": [c_void_p, *OUT],
    "gateway_changes": [c_void_p, *OUT],
}


class Wrong(Exception):
    """The library wrote where it may not."""


def loaded():
    library = ctypes.CDLL(os.environ.get("SBLOG_SHARED", str(TOP / "dist/lib/libsblog.so")))
    for name, types in CALLS.items():
        function = getattr(library, f"sblog_{name}")
        function.argtypes, function.restype = types, c_uint32
    return library


class Cell:
    """An argument that a call may write."""

    def __init__(self, kind):
        self.kind, self.cell = kind, kind(BLANKS[kind])

    def pointer(self):
        return byref(self.cell)

    def value(self):
        """What was written, None where nothing was."""
        return None if self.cell.value == BLANKS[self.kind] else self.cell.value


class Buffer:
    """Bytes that a call may write, and how many it says there are."""

    memory = ctypes.create_string_buffer(MOST_ROOM + 64)
    view = memoryview(memory).cast("B")

    def __init__(self, room):
        self.room, self.looked_at = room, room + 64
        self.view[: self.looked_at] = BLANK * self.looked_at
        self.size = Cell(c_size_t)

    def arguments(self):
        return [ctypes.addressof(self.memory), self.room, self.size.pointer()]

    def written(self, code):
        """The size and the bytes; nothing else may have been written."""
        size, data = self.size.value(), self.memory[: self.looked_at]
        taken = size if code == 0 else 0
        if taken > self.room or data[taken:] != BLANK * (self.looked_at - taken):
            raise Wrong("bytes behind those that were asked for")
        return size, data[:taken] if code == 0 else None


class Held:
    """A handle, and the calls on it."""

    def __init__(self, library, kind):
        self.library, self.kind = library, kind
        self.handle = (c_uint64 * 2)()

    def call(self, name, *arguments):
        return getattr(self.library, f"sblog_{self.kind}_{name}")(*arguments)

    def on(self, name, *arguments):
        return self.call(name, self.handle, *arguments)

    def with_fault(self, name, data):
        fault = Cell(c_uint32)
        return self.on(name, data, len(data), fault.pointer()), fault.value()

    def receive(self, data):
        return self.with_fault("receive", data)

    def take(self, room):
        buffer, to = Buffer(room), Cell(c_uint8)
        code = self.on("take", *buffer.arguments(), to.pointer())
        size, data = buffer.written(code)
        return code, size, to.value(), data

    def writes(self, name, room):
        buffer = Buffer(room)
        code = self.on(name, *buffer.arguments())
        return code, *buffer.written(code)

    def tick(self):
        return self.on("tick")

    def close(self):
        return self.on("close")

    def make(self, call, *arguments):
        return getattr(self, call)(*arguments)

    def whole(self, call):
        """What a call writes: its size is asked for first."""
        answer = self.make(call, 0)
        return self.make(call, answer[1]) if answer[0] == TOO_SHORT else answer


class Node(Held):
    stage = property(lambda self: self.standing()[3])

    def work(self):
        return self.on("work")

    def saved(self):
        return self.on("saved")

    def checkpoint(self, room):
        return self.writes("checkpoint", room)

    def state(self, room):
        return self.writes("state", room)

    def standing(self):
        words = (c_uint64 * 10)()
        if self.on("standing", words) != 0:
            raise Wrong("no standing of an open node")
        return words[:]


class Gateway(Held):
    def input(self, process, payload):
        ssn = Cell(c_uint64)
        return self.on("input", process, payload, len(payload), ssn.pointer()), ssn.value()

    def output(self, room):
        buffer, process, ssn = Buffer(room), Cell(c_uint8), Cell(c_uint64)
        code = self.on("output", process.pointer(), ssn.pointer(), *buffer.arguments())
        size, data = buffer.written(code)
        return code, process.value(), ssn.value(), size, data

    def apply(self, data):
        return self.with_fault("apply", data)

    def store(self, room):
        return self.writes("store", room)

    def changes(self, room):
        return self.writes("changes", room)


def opened_node(library, image, me, n, limits, state=None):
    node = Node(library, "node")
    name, given = ("open", []) if state is None else ("open_with", [state, len(state)])
    code = node.call(name, image, len(image), me, n, *limits, *given, node.handle)
    return code, node if code == 0 else None


def revived_node(library, image, kept, incarnation, limits):
    node, fault = Node(library, "node"), Cell(c_uint32)
    code = node.call("revive", image, len(image), kept, len(kept), incarnation, *limits, node.handle, fault.pointer())
    return code, fault.value(), node if code == 0 else None


def opened_gateway(library, n, page, tick):
    gateway = Gateway(library, "gateway")
    code = gateway.call("open", n, page, tick, gateway.handle)
    return code, gateway if code == 0 else None


def revived_gateway(library, store, page, tick):
    gateway, fault = Gateway(library, "gateway"), Cell(c_uint32)
    code = gateway.call("revive", store, len(store), page, tick, gateway.handle, fault.pointer())
    return code, fault.value(), gateway if code == 0 else None


class Alone:
    """Opens and revives the library's, as `pairs.Pairs` does both."""

    def __init__(self, lib, images):
        self.lib, self.images = lib, images

    def opened_node(self, name, me, n, limits, state=None):
        return opened_node(self.lib, self.images[name], me, n, limits, state)

    def revived_node(self, name, _me, kept, incarnation, limits):
        return revived_node(self.lib, self.images[name], kept, incarnation, limits)

    def opened_gateway(self, n, page, tick):
        return opened_gateway(self.lib, n, page, tick)

    def revived_gateway(self, store, page, tick):
        return revived_gateway(self.lib, store, page, tick)
