"""A gateway of two processes logs an input, and comes back with what was kept of it."""
from sblog import Gateway

with Gateway(2) as gateway:
    store = gateway.store()
    ssn = gateway.input(1, b"hello")
    changes = gateway.changes()  # durable before the packet is sent
    packet = gateway.take()

# killed, it comes back with these bytes, and sends again what isn't answered
with Gateway.revive(store) as again:
    again.apply(changes)
    again.tick()
    same = "the same" if again.take() == packet else "another one"
assert same == "the same"
print(f"input {ssn} for process {packet.to}: a packet of {len(packet.data)} bytes, {same} after a kill")
