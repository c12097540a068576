"""Opens a node that counts, keeps it, and opens it again from what was kept."""
import pathlib

from sblog import Node

image = pathlib.Path(__file__).with_name("counter.sbi").read_bytes()
with Node(image, 1, 1) as node:
    kept = node.checkpoint()
with Node.revive(image, kept, 2) as node:
    print(f"{len(kept)} bytes kept, then {node.standing().stage.name} in incarnation {node.standing().incarnation}")
