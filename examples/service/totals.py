"""Hands numbers in to a session of one adder, and prints the total after each, with the process lost in between. Which numbers, the
arguments say."""
import pathlib
import sys

from sblog import Session

BUDGET = 1000

with Session([(pathlib.Path(__file__).parents[1] / "adder.sbi").read_bytes()]) as session:
    for feed, word in enumerate(sys.argv[1:], 1):
        session.input(1, feed, int(word).to_bytes(8, "little"))
        session.drive(BUDGET)
        print(f"total {int.from_bytes(session.state(1), 'little')}")
        session.crash(1)
        session.recover(1)
        session.drive(BUDGET)
