"""The bank's transfers, and what has to come of them: by plain arithmetic, without handlers, nodes or packets."""
import os
import random
import struct

HERE = os.path.dirname(os.path.realpath(__file__))
PROCESSES = [(name, os.path.join(HERE, name + ".sbi")) for name in ("ledger", "fraud", "notifier")]
ACCOUNTS, OUTSIDE, DEPOSIT = 8, 8, 1_000_000
LARGE, TRUSTED = 500, 3
BOOKED, SUSPECT, NO_FUNDS = 0, 1, 2


def deposits():
    return [(account + 1, OUTSIDE, account, DEPOSIT) for account in range(ACCOUNTS)]


def transfers(seed, first):
    """Transfers without an end. A few ask for more than there is in the whole bank, and a few go out of it."""
    chance = random.Random(seed)
    number = first
    while True:
        source = chance.randrange(ACCOUNTS)
        target = (source + chance.randrange(1, ACCOUNTS)) % ACCOUNTS if chance.random() < 0.97 else OUTSIDE
        amount = chance.randrange(1, 100) if chance.random() < 0.9 else chance.randrange(LARGE, 600)
        yield number, source, target, amount if chance.random() < 0.98 else 10 ** 12
        number += 1


def payload(transfer):
    return struct.pack("<4Q", *transfer)


def expected(made):
    """The receipts of transfers in their order, as outputs, and the states of ledger, fraud check and notifier."""
    balances, large, receipts = [0] * ACCOUNTS, [0] * ACCOUNTS, []
    booked = refused = 0
    for place, (number, source, target, amount) in enumerate(made, 1):
        verdict = BOOKED
        if source < ACCOUNTS and balances[source] < amount:
            verdict = NO_FUNDS
        elif amount >= LARGE and source < ACCOUNTS:
            large[source] += 1
            verdict = SUSPECT if large[source] > TRUSTED else BOOKED
        if verdict == BOOKED:
            booked += amount
            if source < ACCOUNTS:
                balances[source] -= amount
            if target < ACCOUNTS:
                balances[target] += amount
        else:
            refused += amount
        receipts.append(struct.pack("<8Q", number, source, target, amount, verdict, place, 0, 0).hex())
    states = [struct.pack("<8Q", *balances), struct.pack("<8Q", *large), struct.pack("<3Q", len(made), booked, refused)]
    return receipts, states
