"""Calls a handler that adds numbers: adder.c in Python. Which numbers, the arguments say."""
import pathlib
import sys

from sblog import Image

with Image((pathlib.Path(__file__).parents[1] / "adder.sbi").read_bytes()) as adder:
    state = bytearray(adder.state_len)
    for number in sys.argv[1:]:
        [report] = adder.run(state, [int(number).to_bytes(8, "little").ljust(64, b"\0")])
        print(f"state {int.from_bytes(state, 'little')}, r0 {report.r0}, {report.steps} instructions")
