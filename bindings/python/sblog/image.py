"""An image, and calls of its handler."""
from __future__ import annotations

import ctypes
import threading
from ctypes import byref, c_size_t, c_uint8, c_uint64, c_void_p
from typing import Iterable

from .handle import LIBRARY, Held, ImageError, sent, u8
from .values import Fault, Report


class Image(Held):
    """The image of a handler, of form 1, 2 or 3: whatever its message, a call ends, and reads and writes nothing of others.

    with Image(Path("examples/adder.sbi").read_bytes()) as adder:
        state = bytearray(adder.state_len)
        [report] = adder.run(state, [bytes([5]).ljust(64, bytes(1))])
        assert (state[0], report.steps) == (5, 6)
    """

    _error, _room, _limit = ImageError, 8, 1064  # bytes of a report, at most

    def __init__(self, file: bytes) -> None:
        self._handle, self._thread, fault = c_void_p(), threading.get_ident(), (c_uint64 * 2)()
        code = LIBRARY.sblog_open(*sent(file), byref(self._handle))
        if code != 0:
            LIBRARY.sblog_check(*sent(file), fault, c_size_t(16))
            raise ImageError(code, Fault(*fault) if 2 <= code <= 4 else None)

    @property
    def state_len(self) -> int:
        """How many bytes the state has."""
        return self._call("state_len")

    def run(self, state: bytearray, messages: Iterable[bytes], me: int = 1, sender: int = 0, count: int = 1) -> list[Report]:
        """Calls the handler by messages of 64 bytes one after another, each on the state that the one before left, as process `me` of
        `count`, by `sender`, 0 from the outside. The state is changed in place; a handler of form 2 is refused."""
        messages = [memoryview(message).tobytes() for message in messages]
        if any(len(message) != 64 for message in messages):
            raise ImageError(6)
        place, out = (c_uint8 * len(state)).from_buffer(state), ctypes.create_string_buffer(self._limit * len(messages) + 1)
        who = (u8(me), u8(sender), u8(count))
        self._done(self._call("run", place, c_size_t(len(state)), *sent(b"".join(messages)), *who, out, c_size_t(len(out))))
        rest, reports = out.raw, []
        for _ in messages:
            r0, steps, sends, outputs = (int.from_bytes(rest[at : at + 8], "little") for at in range(0, 32, 8))
            given = 32 + 65 * sends
            end = given + 64 * outputs
            sends = [(rest[at], rest[at + 1 : at + 65]) for at in range(32, given, 65)]
            reports.append(Report(r0, steps, sends, [rest[at : at + 64] for at in range(given, end, 64)]))
            rest = rest[end:]
        return reports

    def compile(self) -> bytes:
        """The machine code of the handler for x86-64."""
        return self._bytes("compile")

    def close(self) -> None:
        super().close()
        self._handle = c_void_p()
