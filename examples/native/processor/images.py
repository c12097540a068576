#!/usr/bin/env python3
"""images.py COUNT [SEED]: so many random images, a third of each form, each behind its length, on standard output.

Each is built so that the verifier mostly takes it: registers are set before they are read, accesses lie in their regions,
jumps lead forward. Those of form 3 are made by `spans.py`.
"""
import random
import struct
import sys

sys.dont_write_bytecode = True

from spans import ALU, COMPARISONS, NUMBERS, SIZES, Spans, word  # noqa: E402

STACK = 512


class Builder:
    def __init__(self, rng):
        self.rng = rng
        self.form = rng.choice([1, 2])
        self.state = rng.choice([0, 8, 16, 64, 200, 1024])
        self.code = []  # instructions, and the slots that each takes
        self.words = {3} if self.form == 2 else set()  # registers that hold numbers
        self.places = {1: "message", 2: "state", 10: "stack"}

    def number(self):
        return self.rng.choice(NUMBERS) if self.rng.random() < 0.7 else self.rng.randrange(-2**31, 2**31)

    def put(self, *words):
        self.code += words

    def word_register(self):
        return self.rng.choice(sorted(self.words))

    def gives(self, r):
        self.words.add(r)
        self.places.pop(r, None)

    def target(self):
        """A register that may be written: mostly none of the places that are needed."""
        free = [r for r in range(10) if r not in self.places]
        return self.rng.choice(free if free else [0])

    def sets(self):
        r = self.target()
        if self.rng.random() < 0.2:
            value = self.rng.getrandbits(64) >> self.rng.randrange(64)
            low, high = value & 0xFFFFFFFF, value >> 32
            self.put(struct.pack("<BBhI", 0x18, r, 0, low) + struct.pack("<BBhI", 0, 0, 0, high))
        else:
            self.put(word(self.rng.choice([0xB7, 0xB4]), r, imm=self.number()))
        self.gives(r)

    def computes(self):
        rng, r = self.rng, self.word_register()
        name = rng.choice(sorted(ALU))
        wide = rng.choice([0x07, 0x04])
        off = rng.choice([0, 1]) if name in ("div", "mod") else 0
        if rng.random() < 0.5:
            self.put(word(ALU[name] | wide | 0x08, r, self.word_register(), off))
        else:
            bits = 64 if wide == 7 else 32
            imm = rng.randrange(bits) if name in ("lsh", "rsh", "arsh") and rng.random() < 0.7 else self.number()
            self.put(word(ALU[name] | wide, r, imm=imm, off=off))

    def changes(self):
        rng, r = self.rng, self.word_register()
        kind = rng.randrange(4)
        if kind == 0:
            self.put(word(rng.choice([0x87, 0x84]), r))
        elif kind == 1:
            self.put(word(rng.choice([0xD4, 0xDC, 0xD7]), r, imm=rng.choice([16, 32, 64])))
        elif kind == 2:
            to, wide = self.target(), rng.choice([0xBF, 0xBC])
            self.put(word(wide, to, r, rng.choice([8, 16, 32] if wide == 0xBF else [8, 16])))
            self.gives(to)
        else:
            to = self.target()
            self.put(word(rng.choice([0xBF, 0xBC]), to, r))
            self.gives(to)

    def reach(self, regions):
        """A base, an offset and a size inside its region."""
        rng = self.rng
        fits = {"message": 64 if self.form == 1 else 0, "state": self.state, "stack": STACK}
        bases = [(r, k) for r, k in self.places.items() if k in regions and fits[k]]
        if not bases:
            return None
        r, k = rng.choice(bases)
        size = rng.choice([s for s in SIZES if s <= fits[k]])
        at = rng.randrange(fits[k] - size + 1) if rng.random() < 0.3 else rng.choice([0, fits[k] - size, min(8, fits[k] - size)])
        return r, at - STACK if k == "stack" else at, size

    def loads(self):
        found = self.reach(["message", "state", "stack"])
        if found:
            base, off, size = found
            to = self.target()
            signed = size < 8 and self.rng.random() < 0.4
            self.put(word((0x81 if signed else 0x61) | SIZES[size], to, base, off))
            self.gives(to)

    def stores(self):
        found = self.reach(["state", "stack"])
        if found:
            base, off, size = found
            if self.rng.random() < 0.6:
                self.put(word(0x63 | SIZES[size], base, self.word_register(), off))
            else:
                self.put(word(0x62 | SIZES[size], base, 0, off, self.number()))

    def calls(self):
        """A helper behind what its arguments want; r1 to r5 are unset by it, so places move to r6 and r7 before."""
        rng = self.rng
        helper = rng.choice([1, 1, 2, 3, 4] if self.form == 1 else [1, 2, 3, 4, 5, 5, 6, 6])
        payload = 10
        least = 256 if helper in (5, 6) else 64
        at = rng.choice([-STACK, -least, -least - rng.randrange(STACK - least + 1)])
        if self.state >= least and 7 in self.places and rng.random() < 0.5:
            payload, at = 7, rng.choice([0, self.state - least])
        if helper in (1, 5):
            self.put(word(0xB7, 1, imm=rng.choice([0, 1, 1, 2, 2, 3, 3, 4, 16, -1])))
        place = 2 if helper in (1, 5) else 1
        if helper in (1, 2, 5, 6):
            self.put(word(0xBF, place, payload), word(0x07, place, imm=at))
        if helper in (5, 6):
            self.put(word(0xB7, place + 1, imm=rng.choice([0, 1, 8, 63, 64, 65, 255, 256, 257, -1])))
        self.put(word(0x85, imm=helper))
        for r in range(1, 6):
            self.words.discard(r)
            self.places.pop(r, None)
        self.gives(0)

    def branches(self):
        """A jump over some instructions, in which no register is set anew."""
        rng = self.rng
        words, places = set(self.words), dict(self.places)
        outer, self.code = self.code, []
        for _ in range(rng.randrange(1, 6)):
            rng.choice([self.computes, self.computes, self.stores, self.loads, self.changes])()
        inner, self.code = self.code, outer
        self.words, self.places = self.words & words, {r: k for r, k in self.places.items() if places.get(r) == k}
        distance = sum(len(w) // 8 for w in inner)
        if rng.random() < 0.1:
            self.put(word(0x05, off=0) if rng.random() < 0.5 else word(0x06, imm=0))
        op, width = rng.choice(COMPARISONS), rng.choice([0x05, 0x06])
        if rng.random() < 0.5:
            self.put(word(op | width | 0x08, self.word_register(), self.word_register(), distance))
        else:
            self.put(word(op | width, self.word_register(), off=distance, imm=self.number()))
        self.put(*inner)

    def image(self):
        rng = self.rng
        self.put(word(0xBF, 6, 1), word(0xBF, 7, 2))
        self.places |= {6: "message", 7: "state"}
        for _ in range(rng.randrange(1, 4)):
            self.sets()
        for _ in range(rng.randrange(2, 40)):
            rng.choice([self.sets, self.computes, self.computes, self.computes, self.changes, self.loads, self.loads,
                        self.stores, self.branches, self.branches, self.calls])()
        if 0 not in self.words:
            self.put(word(0xB7, 0, imm=self.number()))
        self.put(word(0x95))
        code = b"".join(self.code)
        head = (b"SBI1" if self.form == 1 else b"SBI2") + struct.pack("<HH", self.state, len(code) // 8)
        return head + code


def main(count, seed="images"):
    rng = random.Random(seed)
    for at in range(int(count)):
        data = (Spans if at % 3 == 2 else Builder)(rng).image()
        sys.stdout.buffer.write(struct.pack("<I", len(data)) + data)


main(*sys.argv[1:])
