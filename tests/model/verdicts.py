"""What becomes of the file of an image: a slow, plain verifier, to hold beside the proved one.

It is written from docs/FORMATS.md ("Refusals of code bytes", "Image file", "Rules of the verifier"), and
not from the program.
"""

import handlers

ARITHMETIC = {*range(0x0, 0x8), 0x9, 0xA, 0xB, 0xC}
COMPARISONS = {0x1, 0x2, 0x3, 0x4, 0x5, 0x6, 0x7, 0xA, 0xB, 0xC, 0xD}
LOADS = {0x61, 0x69, 0x71, 0x79, 0x81, 0x89, 0x91}
STORES_OF_IMMEDIATES = {0x62, 0x6A, 0x72, 0x7A}
STORES_OF_REGISTERS = {0x63, 0x6B, 0x73, 0x7B}


class Refused(Exception):
    """What the program prints of a file that it refuses."""


def form_of(op):
    """The form of an opcode, or None where it isn't in the table."""
    code, is_by_register = op >> 4, op & 8
    match op & 7:
        case 4 | 7 if code in ARITHMETIC:
            return "register" if is_by_register else "immediate"
        case 4 | 7 if code == 0x8 and not is_by_register:
            return "neg"
        case 4 | 7 if op in (0xD4, 0xDC, 0xD7):
            return "end"
        case 5 if op in (0x05, 0x85, 0x95):
            return {0x05: "jump", 0x85: "call", 0x95: "exit"}[op]
        case 6 if op == 0x06:
            return "long jump"
        case 5 | 6 if code in COMPARISONS:
            return "register comparison" if is_by_register else "comparison"
        case 0 if op == 0x18:
            return "wide"
    for opcodes, name in ((LOADS, "load"), (STORES_OF_IMMEDIATES, "set"), (STORES_OF_REGISTERS, "store")):
        if op in opcodes:
            return name
    return None


def offsets_of(op):
    """The offsets that name a form of an arithmetic opcode."""
    code = op >> 4
    if code in (0x3, 0x9):
        return {0, 1}
    if op in (0xBC, 0xBF):
        return {0, 8, 16} if op == 0xBC else {0, 8, 16, 32}
    return {0}


def is_unused_set(form, op, dst, src, offset, imm, second):
    """Whether a field that isn't used is set, or an offset names no form."""
    match form:
        case "immediate":
            return src != 0 or offset not in offsets_of(op)
        case "register":
            return imm != 0 or offset not in offsets_of(op)
        case "neg":
            return src != 0 or offset != 0 or imm != 0
        case "end":
            return src != 0 or offset != 0
        case "jump":
            return dst != 0 or src != 0 or imm != 0
        case "long jump" | "call":
            return dst != 0 or src != 0 or offset != 0
        case "exit":
            return dst != 0 or src != 0 or offset != 0 or imm != 0
        case "comparison" | "set":
            return src != 0
        case "register comparison" | "load" | "store":
            return imm != 0
    return src != 0 or offset != 0 or any(second[:4])


def decoding_fault(image, at):
    """The rule that the encoding of the instruction at a slot breaks, or None."""
    op, dst, src, offset, imm = image.slot(at)
    form = form_of(op)
    second = image.code[8 * at + 8 : 8 * at + 16]
    faults = {
        2: form is None,
        4: dst > 10 or src > 10,
        7: form == "call" and src in (1, 2) or form == "wide" and 1 <= src <= 6,
        5: form == "wide" and not second,
        6: form == "end" and imm not in (16, 32, 64),
        3: is_unused_set(form, op, dst, src, offset, imm, second),
    }
    return next((rule for rule, is_so in faults.items() if is_so), None)


def instructions_of(image):
    """The slots at which instructions begin."""
    starts, at, slots = [], 0, len(image.code) // 8
    while at < slots:
        if rule := decoding_fault(image, at):
            raise Refused(f"decode refused {rule} at slot {at}")
        starts.append(at)
        at += 2 if image.slot(at)[0] == 0x18 else 1
    return starts


# ---- What is known: of a register None (unset), "number", "length", or a pair of region and place ----


def joined(one, other):
    """What both of two frames know."""
    (kinds, low), (others, other_low) = one, other
    pairs = zip(kinds, others)
    return [joined_kind(a, b) for a, b in pairs], min(low, other_low)


def joined_kind(a, b):
    if a == b:
        return a
    return "number" if {a, b} == {"number", "length"} else None


def is_number(kind):
    return kind in ("number", "length")


def is_place(kind):
    return isinstance(kind, tuple)


class Instruction:
    """An instruction before which a frame is known: the rules that it breaks, and what it leaves."""

    def __init__(self, image, at, starts, frame):
        self.image, self.at, self.starts = image, at, starts
        self.kinds, self.low = frame
        self.op, self.dst, self.src, self.offset, self.imm = image.slot(at)
        self.form = form_of(self.op)
        self.broken = set()

    def slots(self):
        return len(self.image.code) // 8

    def size_of(self, region):
        return {"message": self.low, "state": self.image.state_len, "stack": 512}[region]

    def behind(self):
        return self.at + (2 if self.form == "wide" else 1)

    def target(self):
        """The slot that a jump leads to."""
        return self.at + 1 + (self.imm if self.form == "long jump" else self.offset)

    def is_jump(self):
        return self.form in ("jump", "long jump", "comparison", "register comparison")

    def judge(self):
        """The least rule that it breaks, or None."""
        if self.is_jump() and not (self.at < self.target() < self.slots() and self.target() in self.starts):
            self.broken.add(1)
        if self.form not in ("jump", "long jump", "exit") and self.behind() == self.slots():
            self.broken.add(2)
        self.left = self.leaving()
        return min(self.broken, default=None)

    def want_number(self, register):
        kind = self.kinds[register]
        if kind is None:
            self.broken.add(3)
        elif is_place(kind):
            self.broken.add(5)

    def access(self, base, is_write):
        """An access at the place of a register and the offset."""
        kind, size = self.kinds[base], handlers.SIZES[self.op & 0x18]
        if kind is None:
            self.broken.add(3)
        elif is_number(kind):
            self.broken.add(5)
        else:
            region, place = kind
            start = place + self.offset
            if start < 0 or start + size > self.size_of(region):
                self.broken.add(6)
            if is_write and region == "message":
                self.broken.add(7)

    def has_bytes(self, kind, size):
        """Whether so many bytes lie in their region from a place on."""
        return is_place(kind) and kind[1] >= 0 and kind[1] + size <= self.size_of(kind[0])

    def call(self):
        """The arguments of a helper."""
        r1, r2, r3 = self.kinds[1:4]

        def is_sized(place, length):
            is_whole = place == ("message", 0) and length == "length"
            return is_number(length) and (self.has_bytes(place, 256) or is_whole)

        wanted = {
            1: is_number(r1) and self.has_bytes(r2, 64),
            2: self.has_bytes(r1, 64),
            3: True,
            4: True,
        }
        if self.image.form == 2:
            wanted |= {5: is_number(r1) and is_sized(r2, r3), 6: is_sized(r1, r2)}
        if self.imm not in wanted:
            self.broken.add(8)
        elif not wanted[self.imm]:
            self.broken.add(9)

    def arithmetic(self):
        """What an arithmetic instruction leaves in its destination."""
        code, kind = self.op >> 4, self.kinds[self.dst]
        if self.op == 0xBF and self.offset == 0:
            if self.kinds[self.src] is None:
                self.broken.add(3)
            return self.kinds[self.src]
        if self.op in (0x07, 0x17) and is_place(kind):
            place = kind[1] + (self.imm if self.op == 0x07 else -self.imm)
            if not -32_768 <= place <= 32_767:
                self.broken.add(6)
            return kind[0], place
        if self.form == "register":
            self.want_number(self.src)
        if code != 0xB:
            self.want_number(self.dst)
        return "number"

    def leaving(self):
        """The registers that it leaves."""
        kinds = list(self.kinds)
        match self.form:
            case "immediate" | "register" | "neg" | "end":
                kinds[self.dst] = self.arithmetic()
                self.protect()
            case "wide":
                kinds[self.dst] = "number"
                self.protect()
            case "load":
                self.access(self.src, False)
                kinds[self.dst] = "number"
                self.protect()
            case "set" | "store":
                self.access(self.dst, True)
                if self.form == "store":
                    self.want_number(self.src)
            case "comparison" | "register comparison":
                self.want_number(self.dst)
                if self.form == "register comparison":
                    self.want_number(self.src)
            case "call":
                self.call()
                kinds[:6] = ["number"] + [None] * 5
            case "exit":
                if not is_number(kinds[0]):
                    self.broken.add(10)
        return kinds

    def protect(self):
        if self.dst == 10:
            self.broken.add(4)

    def lows(self):
        """The least lengths of the message on the way that is taken, and on the other one."""
        shown = {0x3: (0, None), 0x1: (0, None), 0x2: (1, None), 0xA: (None, 0), 0x5: (None, 0), 0xB: (None, 1)}
        is_shown = self.form == "comparison" and self.op & 7 == 5 and self.kinds[self.dst] == "length"
        more = shown.get(self.op >> 4, (None, None)) if is_shown else (None, None)
        values = [self.low if add is None else self.imm + add for add in more]
        return [value if self.low <= value <= 256 else self.low for value in values]

    def ways(self):
        """The slots that it leads to, each with the frame there."""
        taken, other = self.lows()
        if self.form == "exit":
            return []
        if self.form in ("jump", "long jump"):
            return [(self.target(), (self.left, self.low))]
        if self.is_jump():
            return [(self.target(), (self.left, taken)), (self.behind(), (self.left, other))]
        return [(self.behind(), (self.left, self.low))]


def accepted(data):
    """The image of a file and how many instructions it has. `Refused` has what is wrong with it."""
    try:
        image = handlers.load(data, forms=(1, 2))
    except handlers.LoadRefused as refused:
        raise Refused(f"load refused {refused}") from None
    starts = instructions_of(image)
    has_length = image.form == 2
    kinds = [None, ("message", 0), ("state", 0), "length" if has_length else None] + [None] * 6
    frames = {0: (kinds + [("stack", 512)], 0 if has_length else 64)}
    for at in starts:
        if at in frames:
            instruction = Instruction(image, at, set(starts), frames[at])
            if rule := instruction.judge():
                raise Refused(f"verify refused V{rule} at slot {at}")
            for to, frame in instruction.ways():
                frames[to] = joined(frames[to], frame) if to in frames else frame
    return image, len(starts)


class Counted(handlers.Handling):
    """A call of a handler that counts its instructions."""

    steps = 0

    def step(self, slot):
        self.steps += 1
        return super().step(slot)
