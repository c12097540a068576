"""Hands COUNT words in for process 1 of a cluster, and prints the words of as many outputs: client.py SOCKET COUNT. It reconnects,
sends again what isn't logged, and drops outputs that it had (docs/FORMATS.md, "Frames of a program")."""
import socket
import struct
import sys
import time

INPUT, LOGGED, REFUSED, OUTPUT, TAKEN = range(1, 6)
PROCESS, AHEAD = 1, 256


def frame(kind, process=0, ssn=0, payload=b""):
    return struct.pack("<IBBQ", 10 + len(payload), kind, process, ssn) + payload


def frames(file):
    while len(head := file.read(14)) == 14:
        length, kind, process, ssn = struct.unpack("<IBBQ", head)
        yield kind, process, ssn, file.read(length - 10)


def main(path, count):
    first, shown, had = None, 0, {}  # the SSN before its inputs, and of each process the last output
    while shown < count:
        try:
            with socket.socket(socket.AF_UNIX) as it, it.makefile("rb") as file:
                it.connect(path)
                it.sendall(b"SBF1" + frame(OUTPUT) + frame(LOGGED, PROCESS))
                sent = None
                for kind, process, ssn, payload in frames(file):
                    if kind == REFUSED:
                        sys.exit(f"request {ssn} is refused: {payload[0]}")
                    if kind == LOGGED:
                        first, sent = ssn if first is None else first, max(ssn, sent or 0)
                        last = min(first + count, ssn + AHEAD)
                        it.sendall(b"".join(frame(INPUT, PROCESS, n, (n - first).to_bytes(8, "little")) for n in range(sent + 1, last + 1)))
                        sent = max(sent, last)
                    else:
                        if ssn > had.get(process, 0):
                            print(process, ssn, int.from_bytes(payload[:8], "little"))
                            had[process], shown = ssn, shown + 1
                        it.sendall(frame(TAKEN, process, ssn))
                    if shown == count:
                        return
        except OSError:
            time.sleep(0.02)


main(sys.argv[1], int(sys.argv[2]))
