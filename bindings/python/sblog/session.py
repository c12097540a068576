"""A session."""
from __future__ import annotations

import ctypes
from ctypes import byref, c_size_t, c_uint8, c_uint32, c_uint64
from typing import Sequence

from .handle import Held, SessionError, sent, u8, u32, usize
from .values import Answer, Call, Drive, Entry, Phase, Shown


class _Entry(ctypes.Structure):
    _fields_ = [(name, c_uint32) for name in ("worker", "call", "answer", "payload_len")]
    _fields_ += [("call_numbers", c_uint64 * 3), ("answer_numbers", c_uint64 * 2), ("payload", c_uint8 * 256)]

    def told(self) -> Entry:
        numbers, payload = (tuple(self.call_numbers), tuple(self.answer_numbers)), bytes(self.payload[: self.payload_len])
        return Entry(self.worker, Call(self.call), numbers[0], Answer(self.answer), numbers[1], payload)


class Session(Held):
    """Processes, numbered from 1, that run the handlers of 1 to 15 image files, of any forms; 0 is the outside.

    input          hands 0 to 256 bytes in for a process, under a feed number that is taken once; the message's number
    drive          makes useful calls until there is none, so many were accepted, or the journal has no place; with code 15 it keeps
                   the calls that were accepted before
    transmit, copy put a message on the wire, or a packet a second time; the key of the packet, which `lose` takes away
    arrive         has a packet arrive, and calls the handler if that starts a job; the last entry. With code 15 the packet may have
                   arrived, and a job be open
    checkpoint     saves a process; how many messages that covers, which `trim` drops from logs, or of 0 what was shown
    crash          loses all of a process but its checkpoint; its new incarnation
    recover        brings a process back; how many messages it keeps, which the next drive replays
    recover_alone  the same though others aren't up: failures came not one at a time from then on
    standing       how many messages the state of a process has, and what it does
    state, saved   the state of a process, without bytes while it is down, and its latest checkpoint
    shown          the output that was shown at a place, from 0
    exact          whether failures came one at a time
    refused        how many sends and outputs helpers refused the handler of a process, by the code that it got, 1 to 3
    trace          the journal as text; `room` is how many places it has left, `journal` how many entries it has
    entries        the entries from a place on, from 0
    """

    _error = SessionError

    def __init__(self, files: Sequence[bytes]) -> None:
        lengths = (c_uint32 * len(files))(*(u32(len(file)) for file in files))
        self._open("open", *sent(b"".join(files)), lengths, c_size_t(len(files)))

    def input(self, to: int, feed: int, payload: bytes) -> int: return self._told("input", u8(to), u32(feed), *sent(payload))
    def transmit(self, sender: int, to: int, ssn: int) -> int: return self._told("transmit", u8(sender), u8(to), u32(ssn))
    def copy(self, packet: int) -> int: return self._told("copy", u32(packet))
    def lose(self, packet: int) -> None: self._done(self._call("lose", u32(packet)))
    def checkpoint(self, process: int) -> int: return self._told("checkpoint", u8(process))
    def trim(self, to: int) -> int: return self._told("trim", u8(to))
    def crash(self, process: int) -> int: return self._told("crash", u8(process))
    def recover(self, process: int) -> int: return self._told("recover", u8(process))
    def recover_alone(self, process: int) -> int: return self._told("recover_alone", u8(process))
    def state(self, process: int) -> bytes: return self._bytes("state", u8(process))
    def saved(self, process: int) -> bytes: return self._bytes("saved", u8(process))
    def exact(self) -> bool: return self._told("exact") == 1
    def refused(self, process: int, code: int) -> int: return self._call("refused", u8(process), u32(code))
    def trace(self) -> str: return self._bytes("trace").decode()
    def room(self) -> int: return self._told("room", kind=c_size_t)
    def journal(self) -> int: return self._told("journal", kind=c_size_t)

    def drive(self, budget: int) -> Drive:
        accepted = c_uint32()
        code = self._call("drive", u32(budget), byref(accepted))
        if code != 12:
            self._done(code)
        return Drive(accepted.value, code == 12)

    def arrive(self, packet: int) -> Entry:
        entry = _Entry()
        self._done(self._call("arrive", u32(packet), byref(entry)))
        return entry.told()

    def standing(self, process: int) -> tuple[int, Phase]:
        length = c_uint32()
        phase = self._told("standing", u8(process), byref(length))
        return length.value, Phase(phase)

    def shown(self, place: int) -> Shown | None:
        sender, ssn = c_uint8(), c_uint32()
        payload = self._bytes("shown", usize(place), byref(sender), byref(ssn))
        return None if payload is None else Shown(sender.value, ssn.value, payload)

    def entries(self, first: int = 0) -> list[Entry]:
        room = max(0, self.journal() - first)
        out = (_Entry * room)()
        count = self._told("entries", usize(first), out, c_size_t(room), kind=c_size_t)
        return [entry.told() for entry in out[:count]]
