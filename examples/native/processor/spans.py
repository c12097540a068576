"""Random images of form 3.

Each instruction is made under what is known where it stands, by the rules as `tests/model/listings.py` has them, and left out
where they refuse it: so places are moved by numbers that were masked or compared, kept in words of the stack and taken
from there, and accesses reach to the last byte of their region. Some instructions are left unjudged, and most of those
images are refused.
"""
import os
import struct
import sys

sys.path.append(os.path.join(os.path.dirname(os.path.realpath(__file__)), "../../../tests/model"))

import handlers  # noqa: E402
import listings  # noqa: E402

ALU = {"add": 0x00, "sub": 0x10, "mul": 0x20, "div": 0x30, "or": 0x40, "and": 0x50, "lsh": 0x60, "rsh": 0x70,
       "mod": 0x90, "xor": 0xA0, "mov": 0xB0, "arsh": 0xC0}
COMPARISONS = [0x10, 0x20, 0x30, 0x40, 0x50, 0x60, 0x70, 0xA0, 0xB0, 0xC0, 0xD0]
SIZES = {1: 0x10, 2: 0x08, 4: 0x00, 8: 0x18}
NUMBERS = [0, 1, -1, 2, 3, 7, 8, 31, 32, 63, 64, 127, 128, -128, -129, 255, 256, 2**31 - 1, -2**31]
MASKS = [0, 1, 3, 7, 15, 31, 63, 127, 255, 256, 448, 504, 511]
WORDS = range(11, 11 + 64)  # those of the stack, behind the registers


def word(op, dst=0, src=0, off=0, imm=0):
    return struct.pack("<BBhi", op, dst | src << 4, off, imm)


def is_allowed(slot):
    """Whether it breaks none of the rules that ask for what is known; where it stands isn't judged."""
    try:
        for judge in (slot.judge_unset, slot.judge_frame_pointer, slot.judge_mixed, slot.judge_outside):
            judge()
        if slot.form == "call":
            slot.judge_call()
    except listings.Broken:
        return False
    return True


class Spans:
    def __init__(self, rng):
        self.rng = rng
        self.state = rng.choice([0, 8, 16, 64, 200, 512, 1024])
        self.unjudged = rng.random() < 0.05
        self.code = []  # instructions
        self.frame = listings.ENTRY  # what is known here, or None where no way leads here
        self.open = []  # jumps: their place, the instructions that they still skip, and what is known where they lead

    # ---- what is known

    def registers(self, holds):
        return [r for r in range(11) if self.frame[r] is not None and holds(self.frame[r])]

    def a_number(self):
        found = self.registers(listings.is_number)
        return self.rng.choice(found) if found else None

    def a_place(self):
        found = self.registers(listings.is_place)
        return self.rng.choice(found) if found else None

    def target(self):
        """A register that may be written: mostly none that holds a place."""
        free = [r for r in range(10) if not (self.frame[r] and listings.is_place(self.frame[r]))]
        return self.rng.choice(free if free and self.rng.random() < 0.9 else range(10))

    def number(self):
        return self.rng.choice(NUMBERS) if self.rng.random() < 0.7 else self.rng.randrange(-2**31, 2**31)

    def room(self, region):
        return listings.SIZES.get(region, self.state)

    # ---- what is written

    def slot(self, data):
        return listings.Slot(handlers.Image(2, self.state, data), 0, {0, 1, 2}, self.frame)

    def put(self, data):
        """One instruction, no jump, where it may stand. Whether it was put."""
        if self.frame is None:
            self.code.append(data)
        else:
            slot = self.slot(data)
            if not is_allowed(slot):
                if not self.unjudged or self.rng.random() < 0.95:
                    return False
                self.code.append(data)
                return self.closes()
            self.code.append(data)
            self.frame = slot.left()
        return self.closes()

    def closes(self):
        """The jumps that lead behind the last instruction are given their distance."""
        self.open = [(at, left - 1, known) for at, left, known in self.open]
        for at, left, known in self.open:
            if left == 0:
                self.lead(at, len(self.code), known)
        self.open = [it for it in self.open if it[1] > 0]
        return True

    def lead(self, at, to, known):
        op, registers, _, imm = struct.unpack("<BBhi", self.code[at])
        distance = sum(len(it) // 8 for it in self.code[at + 1:to])
        self.code[at] = struct.pack("<BBhi", op, registers, 0, distance) if op == 0x06 else struct.pack("<BBhi", op, registers, distance, imm)
        if self.frame is None:
            self.frame = known
        elif known is not None:
            self.frame = [listings.joined_kind(a, b) for a, b in zip(self.frame, known)]

    # ---- kinds of instructions

    def sets(self):
        r = self.target()
        if self.rng.random() < 0.2:
            value = self.rng.getrandbits(64) >> self.rng.randrange(64)
            self.put(struct.pack("<BBhI", 0x18, r, 0, value & 0xFFFFFFFF) + struct.pack("<BBhI", 0, 0, 0, value >> 32))
        else:
            self.put(word(self.rng.choice([0xB7, 0xB4]), r, imm=self.number()))

    def computes(self):
        rng, r = self.rng, self.a_number()
        name, wide = rng.choice(sorted(ALU)), rng.choice([0x07, 0x04])
        off = rng.choice([0, 1]) if name in ("div", "mod") else 0
        if r is None:
            return
        if rng.random() < 0.5:
            self.put(word(ALU[name] | wide | 0x08, r, self.a_number(), off))
        else:
            bits = 64 if wide == 7 else 32
            imm = rng.randrange(bits) if name in ("lsh", "rsh", "arsh") and rng.random() < 0.7 else self.number()
            self.put(word(ALU[name] | wide, r, imm=imm, off=off))

    def changes(self):
        rng, r = self.rng, self.a_number()
        if r is None:
            return
        to, wide = self.target(), rng.choice([0xBF, 0xBC])
        self.put(rng.choice([
            word(rng.choice([0x87, 0x84]), r),
            word(rng.choice([0xD4, 0xDC, 0xD7]), r, imm=rng.choice([16, 32, 64])),
            word(wide, to, r, rng.choice([8, 16, 32] if wide == 0xBF else [8, 16])),
            word(wide, to, r),
        ]))

    def bounds(self):
        """A number is masked, or divided, so that it may be an index."""
        rng, r = self.rng, self.a_number()
        if r is None:
            return
        op, imm = rng.choice([(0x57, rng.choice(MASKS)), (0x54, rng.choice(MASKS)), (0x97, rng.randrange(1, 512)),
                              (0x77, rng.randrange(55, 64)), (0x67, rng.randrange(4))])
        self.put(word(op, r, imm=imm))

    def moves(self):
        """A place is copied, and maybe moved, by a number or by one in a register, in either order."""
        rng, base = self.rng, self.a_place()
        if base is None:
            return
        to = rng.choice(range(10))
        if to != base and not self.put(word(0xBF, to, base)):
            return
        if self.frame is None or self.frame[to] is None or not listings.is_place(self.frame[to]):
            return
        region, lo, hi = self.frame[to]
        way = rng.randrange(4)
        if way == 0:
            by = rng.choice([0, -lo, self.room(region) - hi, rng.randrange(-600, 600)])
            self.put(word(0x07, to, imm=by))
        elif way == 1:
            self.put(word(0x17, to, imm=rng.choice([lo, 8, rng.randrange(-600, 600)])))
        else:
            small = [r for r in self.registers(listings.is_number) if self.frame[r][2] <= 1024]
            if small:
                r = rng.choice(small)
                self.put(word(0x0F, r, to) if way == 2 and rng.random() < 0.3 else word(0x0F, to, r))

    def reach(self, base, whole):
        """An offset and a size with which an access at a place lies in its region, mostly to its first or last byte."""
        rng = self.rng
        region, lo, hi = self.frame[base]
        size = 8 if whole else rng.choice(sorted(SIZES))
        first, last = -lo, self.room(region) - hi - size
        if first > last or not -32768 <= first <= last <= 32767:
            return None
        at = rng.randrange(first, last + 1) if rng.random() < 0.5 else rng.choice([first, last])
        return (at - (at + lo) % 8 if whole and at - (at + lo) % 8 >= first else at), size

    def loads(self):
        base = self.a_place()
        found = base is not None and self.reach(base, self.rng.random() < 0.5)
        if found:
            off, size = found
            signed = size < 8 and self.rng.random() < 0.4
            self.put(word((0x81 if signed else 0x61) | SIZES[size], self.target(), base, off))

    def stores(self):
        base, r = self.a_place(), self.a_number()
        found = base is not None and self.reach(base, self.rng.random() < 0.5)
        if found:
            off, size = found
            if self.rng.random() < 0.6 and r is not None:
                self.put(word(0x63 | SIZES[size], base, r, off))
            else:
                self.put(word(0x62 | SIZES[size], base, 0, off, self.number()))

    def keeps(self):
        """A place, or a number, in a word of the stack, by r10 or a copy of it."""
        rng = self.rng
        bases = self.registers(lambda kind: kind[0] == "stack" and kind[1] == kind[2])
        kept = self.registers(listings.is_place) + self.registers(listings.is_number)[:1]
        base, w = rng.choice(bases), rng.randrange(64)
        self.put(word(0x7B, base, rng.choice(kept), 8 * w - self.frame[base][1]))

    def takes(self):
        """What is kept in a word of the stack, mostly a place."""
        rng = self.rng
        words = [w for w in WORDS if self.frame[w] and listings.is_place(self.frame[w])]
        bases = self.registers(lambda kind: kind[0] == "stack" and kind[1] == kind[2])
        w, base = (rng.choice(words) if words else rng.choice(WORDS)) - 11, rng.choice(bases)
        self.put(word(0x79, rng.choice(range(10)), base, 8 * w - self.frame[base][1]))

    def calls(self):
        """A helper behind what its arguments want. It unsets r1 to r5, so places are mostly copied to r6 to r9 before."""
        rng, helper = self.rng, self.rng.choice([1, 2, 3, 4, 5, 5, 6, 6])
        if rng.random() < 0.8:
            for r in range(1, 6):
                if self.frame[r] and listings.is_place(self.frame[r]):
                    self.put(word(0xBF, rng.randrange(6, 10), r))
        if helper in (1, 2, 5, 6):
            self.arguments(helper)
        if self.frame is not None:
            self.put(word(0x85, imm=helper))

    def arguments(self, helper):
        rng, place = self.rng, 2 if helper in (1, 5) else 1
        base = self.a_place()
        if base is None:
            return
        region, lo, hi = self.frame[base]
        if base != place:
            self.put(word(0xBF, place, base))
        if rng.random() < 0.7 and self.frame is not None:
            count = 64 if helper < 5 else rng.choice([0, 1, 64, 255, 256])
            self.put(word(0x07, place, imm=rng.choice([-lo, self.room(region) - hi - count])))
        if helper in (1, 5):
            self.put(word(0xB7, 1, imm=rng.choice([0, 1, 1, 2, 2, 3, 3, 4, 16, -1])))
        if helper in (5, 6):
            r = self.a_number()
            if rng.random() < 0.4 and r is not None:
                self.put(word(0xBF, place + 1, r))
                self.put(word(0x57, place + 1, imm=rng.choice(MASKS)))
            else:
                self.put(word(0xB7, place + 1, imm=rng.choice([0, 1, 8, 63, 64, 65, 255, 256, 257, -1])))

    def branches(self):
        """A jump over some instructions that are yet to come; of two ways each goes on with what it leaves."""
        rng, r = self.rng, self.a_number()
        if r is None:
            return
        op, width = rng.choice(COMPARISONS), rng.choice([0x05, 0x06])
        if rng.random() < 0.4:
            data = word(op | width | 0x08, r, self.a_number(), 1)
        else:
            data = word(op | width, r, 0, 1, rng.choice([self.number(), rng.randrange(512)]))
        ways = dict(self.slot(data).ways())
        self.code.append(data)
        self.frame = ways.get(1)
        self.closes()
        self.open.append((len(self.code) - 1, rng.randrange(1, 9), ways.get(2)))

    def leaves(self):
        """A jump without a test, or an end, with a few instructions behind it to which no way may lead."""
        rng = self.rng
        if not self.open or rng.random() < 0.5:
            data, known = rng.choice([word(0x05, off=1), word(0x06, imm=1)]), self.frame
            self.code.append(data)
            self.frame = None
            self.closes()
            self.open.append((len(self.code) - 1, rng.randrange(1, 4), known))
        elif listings.is_number(self.frame[0]):
            self.code.append(word(0x95))
            self.frame = None
            self.closes()

    def image(self):
        rng = self.rng
        kinds = [self.sets, self.computes, self.computes, self.changes, self.bounds, self.bounds, self.moves, self.moves, self.moves,
                 self.loads, self.loads, self.stores, self.stores, self.keeps, self.takes, self.takes, self.branches, self.branches]
        for r in range(rng.randrange(3)):
            self.put(word(0xBF, 6 + r, 1 + r))
        for _ in range(rng.randrange(4, 80)):
            if self.frame is None:
                self.put(rng.choice([word(0xB7, rng.randrange(10), imm=self.number()), word(0x0F, rng.randrange(10), rng.randrange(10)),
                                     word(0x79, rng.randrange(10), rng.randrange(11), rng.randrange(-40, 40))]))
            elif rng.random() < 0.06:
                self.calls()
            elif rng.random() < 0.02:
                self.leaves()
            else:
                rng.choice(kinds)()
        while self.open:
            self.put(word(0xB7, 0, imm=self.number()))
        if self.frame is not None and not (self.frame[0] and listings.is_number(self.frame[0])):
            self.put(word(0xB7, 0, imm=self.number()))
        self.code.append(word(0x95))
        code = b"".join(self.code)
        return b"SBI3" + struct.pack("<HH", self.state, len(code) // 8) + code
