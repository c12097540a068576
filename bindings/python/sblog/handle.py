"""The library, its numbers, why it refuses calls, and handles."""
from __future__ import annotations

import ctypes
import functools
import operator
import os
import threading
from ctypes import byref, c_char_p, c_size_t, c_uint8, c_uint32, c_uint64
from typing import Any, Sequence

LIBRARY = ctypes.CDLL(os.path.join(os.environ.get("SBLOG_LIB_DIR", ""), "libsblog.so.0"))
for _name in ("version", "code_text", "session_code_text", "gateway_code_text", "node_code_text"):
    getattr(LIBRARY, f"sblog_{_name}").restype = c_char_p
for _name in ("state_len", "session_refused", "node_refused"):
    getattr(LIBRARY, f"sblog_{_name}").restype = c_uint64


def _unsigned(kind: Any, value: int) -> Any:
    """Makes a number of this type, and refuses one beyond it, which ctypes would cut off."""
    if not 0 <= operator.index(value) < 1 << 8 * ctypes.sizeof(kind):
        raise OverflowError(f"{value} is not from 0 to {(1 << 8 * ctypes.sizeof(kind)) - 1}")
    return kind(value)


u8, u32, u64, usize = (functools.partial(_unsigned, kind) for kind in (c_uint8, c_uint32, c_uint64, c_size_t))


def sent(data: bytes) -> tuple[bytes, c_size_t]:
    """Bytes as a call takes them."""
    data = memoryview(data).tobytes()
    return data, c_size_t(len(data))


def version() -> str:
    """The version of the library."""
    return LIBRARY.sblog_version().decode()


class Error(Exception):
    """A refusal: `code` is the library's, `text` what the library says of it, and `fault` what was written with it, if anything."""

    _kind = ""

    def __init__(self, code: int, fault: Any = None) -> None:
        super().__init__(code, fault)
        self.code, self.fault, self.text = code, fault, getattr(LIBRARY, f"sblog_{self._kind}code_text")(u32(code)).decode()

    def __str__(self) -> str:
        return f"code {self.code}: {self.text}" + ("" if self.fault is None else f" ({self.fault})")


class ImageError(Error): _kind = ""  # of a file `fault` is a Fault
class SessionError(Error): _kind = "session_"
class GatewayError(Error): _kind = "gateway_"  # of refused bytes `fault` says by what
class NodeError(Error): _kind = "node_"  # likewise


class Held:
    """A handle, which `close` or the end of `with` closes."""

    _error, _room, _absent, _bytes_refused = Error, 19, 20, 21

    def _open(self, name: str, *arguments: Any, fault: Any = None) -> None:
        self._handle, self._thread = (c_uint64 * 2)(), threading.get_ident()
        self._done(self._function(name)(*arguments, self._handle, *([] if fault is None else [byref(fault)])), fault)

    def _call(self, name: str, *arguments: Any) -> int:
        """What a function answers."""
        if threading.get_ident() != self._thread:
            raise RuntimeError("it stays on the thread that opened it")
        return self._function(name)(self._handle, *arguments)

    def _done(self, code: int, fault: Any = None) -> None:
        if code != 0:
            raise self._error(code, fault.value if fault is not None and code == self._bytes_refused else None)

    def _told(self, name: str, *arguments: Any, kind: Any = c_uint32) -> int:
        """The number that a call writes last; of a refused call the fault."""
        number = kind()
        self._done(self._call(name, *arguments, byref(number)), number)
        return number.value

    def _bytes(self, name: str, *before: Any, after: Sequence[Any] = (), first: int = 1024) -> bytes | None:
        """The bytes that a call writes, if it has any to write. If its room was too short, it says how many it takes, and is made again."""
        size, code = usize(first), self._room
        while code == self._room:
            out = ctypes.create_string_buffer(size.value)
            code = self._call(name, *before, out, c_size_t(len(out)), byref(size), *after)
        if code != self._absent:
            self._done(code)
            return out.raw[: size.value]
        return None

    def close(self) -> None:
        """Gives all memory back. A closed one refuses each call, but `close`."""
        if any(bytes(self._handle)):
            self._call("close")

    def _function(self, name: str) -> Any: return getattr(LIBRARY, f"sblog_{self._error._kind}{name}")
    def __enter__(self) -> Any: return self
    def __exit__(self, *_: Any) -> None: self.close()
    def __reduce__(self) -> Any: raise TypeError("it has no copies")
