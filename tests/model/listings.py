#!/usr/bin/env python3
"""The listing of an image of form 3, to hold beside what `sblog explain` prints: listings.py IMAGE ..

It is written from docs/FORMATS.md ("Rules of form 3", "Listing"), and not from the program: the verdict of a plain
pass over the code with intervals of whole numbers, and the lines of that page.
"""

import sys

import handlers
import texts
import verdicts

WORD = 2**64
SIZES = {"message": 512, "stack": 512}
ANY = ("number", 0, WORD - 1)
ENTRY = [None, ("message", 0, 0), ("state", 0, 0), ("number", 0, 256)] + [None] * 6 + [("stack", 512, 512)] + [ANY] * 64
OPPOSITE = {0x1: 0x5, 0x5: 0x1, 0xA: 0x3, 0x3: 0xA, 0xB: 0x2, 0x2: 0xB, 0xC: 0x7, 0x7: 0xC, 0xD: 0x6, 0x6: 0xD}
INDEX = (
    "compare the index with a number (if (i >= N) return 1;), or mask it (i & (N - 1), N a power of two), "
    "on each way that leads here, before it is added; % bounds nothing where its divisor may be 0, or where clang makes div, mul and sub of it; "
    "where the C does so already, within(index, most); right above the access does so anew"
)
# Of an index that can be any number.
ANY_INDEX = f"{INDEX}; one of a signed type, as int, may be negative: make it a u64, and compare that"
REGION = (
    "stay inside the region: the message has 512 bytes with the zeros behind it, the local variables have 512, "
    "the state has as many as --state says"
)
STATE = "stay inside the state, which has as many bytes as --state says, or pack it with a greater one"
STATE_INDEX = f"{INDEX}; or --state is too small"
LENGTH = (
    "compare the length with a number that fits before the call, or give a fixed one, and begin where so many bytes are left; "
    "where the C compares it already, within(length, most); right above the call does so anew; or --state is too small"
)
POINTERS = "compare and compute with indices in place of pointers"
MESSAGE = (
    "copy it to a local array, and change the copy; where the state is meant, the message is the first argument, the state the second"
)
REACH = "compare the index of the local array with a number, or mask it, so that no pointer lies within its reach"


def is_number(kind):
    return kind is not None and kind[0] == "number"


def is_place(kind):
    return kind is not None and kind[0] != "number"


def number(lo, hi, bits=64):
    """The numbers from one to another, or all words where one of them is none."""
    return ("number", lo, hi) if 0 <= lo and hi < 2**bits else ("number", 0, 2**bits - 1)


def joined_kind(a, b):
    if a is None or b is None or a[0] != b[0]:
        return None
    return a[0], min(a[1], b[1]), max(a[2], b[2])


class Broken(Exception):
    """A rule that an instruction breaks: its number, the cause, and what to do."""


def results(code, is_signed, bits, a, b):
    """What an operation leaves of numbers a and b."""
    (alo, ahi), (blo, bhi) = a, b
    ones = lambda n: 2 ** n.bit_length() - 1
    if code == 0x0:
        return number(alo + blo, ahi + bhi, bits)
    if code == 0x1:
        return number(alo - bhi, ahi - blo, bits)
    if code == 0x2:
        return number(alo * blo, ahi * bhi, bits)
    if code == 0x4 or code == 0xA:
        return "number", 0, ones(max(ahi, bhi))
    if code == 0x5:
        return "number", 0, min(ahi, bhi)
    if code == 0x3 and not is_signed and blo > 0:
        return "number", alo // bhi, ahi // blo
    if code == 0x9 and not is_signed and blo > 0:
        return "number", 0, bhi - 1
    if code == 0x6 and bhi < bits:
        return number(alo << blo, ahi << bhi, bits)
    if code == 0x7 and bhi < bits or code == 0xC and bhi < bits and ahi < 2 ** (bits - 1):
        return "number", alo >> bhi, ahi >> blo
    return "number", 0, 2**bits - 1


def narrowed(code, bits, a, b):
    """What a condition leaves of the numbers a and b, or None where none of them meet it."""
    if code is None or code in (0x1, 0x4) or max(a[1], b[1]) >= 2**bits:
        return a, b
    if code in (0x2, 0x3, 0x6, 0x7):
        turned = narrowed({0x2: 0xA, 0x3: 0xB, 0x6: 0xC, 0x7: 0xD}[code], bits, b, a)
        return turned and (turned[1], turned[0])
    if code in (0xC, 0xD):
        if a[1] >= 2 ** (bits - 1):
            return a, b
        b = b[0], min(b[1], 2 ** (bits - 1) - 1)
        code -= 2
    if code == 0x5:
        lo, hi = a
        left = (lo + (b == (lo, lo)), hi - (b == (hi, hi))), b
    elif code == 0xA:
        left = (a[0], min(a[1], b[1] - 1)), (max(b[0], a[0] + 1), b[1])
    else:
        left = (a[0], min(a[1], b[1])), (max(b[0], a[0]), b[1])
    return left if all(lo <= hi for lo, hi in left) else None


class Slot:
    """An instruction under a frame: eleven registers, and the 64 words of the stack behind them."""

    def __init__(self, image, at, starts, frame):
        self.image, self.at, self.starts, self.frame = image, at, starts, frame
        self.op, self.dst, self.src, self.offset, self.imm = image.slot(at)
        self.form = verdicts.form_of(self.op)
        self.bits = 32 if self.op & 7 in (4, 6) else 64

    # ---- text

    def size_of(self, region):
        return SIZES.get(region, self.image.state_len)

    @staticmethod
    def numbers_text(lo, hi):
        return f"{lo}" if lo == hi else f"{lo} to {hi}"

    def places_text(self, region, lo, hi):
        return f"{region}{lo:+}" + ("" if hi <= lo else f" to {hi}") + f" of {self.size_of(region)}"

    def kind_text(self, kind):
        if kind is None:
            return "unset"
        if kind == ANY:
            return "number"
        return f"number {self.numbers_text(*kind[1:])}" if is_number(kind) else self.places_text(*kind)

    @staticmethod
    def word_text(word):
        return f"stack-{512 - 8 * word}"

    # ---- what is read

    def operand(self):
        """What is known of the operand of arithmetic or of a comparison."""
        if self.form in ("register", "register comparison"):
            return self.frame[self.src]
        word = self.imm % 2**self.bits
        return "number", word, word

    def accessed(self):
        """The base, how many bytes and whether they are written, of a load or store."""
        if self.form == "load":
            return self.src, handlers.SIZES[self.op & 0x18], False
        if self.form in ("set", "store"):
            return self.dst, handlers.SIZES[self.op & 0x18], True
        return None

    def is_copy(self):
        return self.op == 0xBF and self.offset == 0

    def reads(self):
        """The registers that are read, in the order in which they are judged."""
        match self.form:
            case "immediate":
                return [] if self.op >> 4 == 0xB else [self.dst]
            case "register" if self.op >> 4 == 0xB:
                return [self.src]
            case "register" | "register comparison":
                return [self.dst, self.src]
            case "neg" | "end" | "comparison":
                return [self.dst]
            case "load":
                return [self.src]
            case "set":
                return [self.dst]
            case "store":
                return [self.src, self.dst]
            case "call":
                return {1: [1, 2], 2: [1], 5: [1, 2, 3], 6: [1, 2]}.get(self.imm, [])
            case "exit":
                return [0]
        return []

    def is_inside(self, kind, offset, size):
        region, lo, hi = kind
        return 0 <= lo + offset and hi + offset + size <= self.size_of(region)

    def whole_word(self, kind, offset, size):
        """The word of the stack that an access takes as a whole, or None."""
        region, lo, hi = kind
        is_whole = region == "stack" and lo == hi and size == 8 and (lo + offset) % 8 == 0
        return (lo + offset) // 8 if is_whole and self.is_inside(kind, offset, size) else None

    def reached(self, kind, offset, size):
        """The words of the stack that an access may reach."""
        region, lo, hi = kind
        if region != "stack" or size == 0:
            return []
        return [word for word in range(64) if lo + offset < 8 * word + 8 and 8 * word < hi + offset + size]

    # ---- rules

    def judge(self):
        """The least rule that is broken, as `Broken`."""
        self.judge_flow()
        for test in (self.judge_unset, self.judge_frame_pointer, self.judge_mixed, self.judge_outside):
            test()
        if self.form == "call":
            self.judge_call()
        if self.form == "exit" and not is_number(self.frame[0]):
            raise Broken(10, "r0 is to be a number at the end", "return a number on each way")

    def judge_flow(self):
        slots = len(self.image.code) // 8
        if self.form in ("jump", "long jump", "comparison", "register comparison"):
            if not (self.at < self.target() < slots and self.target() in self.starts):
                raise Broken(
                    1,
                    f"the jump leads to slot {self.target()} of {slots}, and has to lead to a later one at which an instruction begins",
                    "jump forward, to where an instruction begins: write unrolled above a loop of known length, and turn() first in it "
                    "where clang leaves it as one",
                )
        if self.form not in ("jump", "long jump", "exit") and self.behind() == slots:
            raise Broken(2, "nothing follows this instruction", "end each way with exit")

    def judge_unset(self):
        if self.form in ("call", "exit"):
            return
        for register in self.reads():
            if self.frame[register] is None:
                raise Broken(
                    3,
                    f"r{register} is read and isn't set",
                    "set it on each way that leads here, alike: a function that gives a pointer or NULL gives an index in its place, "
                    "and one more for none; what a helper must not lose belongs in r6 to r9",
                )
        for word, _ in self.touched(lambda kind: kind is None):
            raise Broken(
                3,
                f"the word at {self.word_text(word)} is read and isn't set",
                "set the local variable on each way that leads here, alike: a pointer on all, or a number on all",
            )

    def touched(self, has_flaw):
        """Words of the stack with a flaw that an access reads or overwrites in part."""
        access = self.accessed()
        if access is None or not is_place(self.frame[access[0]]):
            return
        base, size, is_write = access
        kind = self.frame[base]
        if not self.is_inside(kind, self.offset, size):
            return
        word = self.whole_word(kind, self.offset, size)
        if word is not None and (is_write or has_flaw("place")):
            return
        for word in self.reached(kind, self.offset, size):
            if has_flaw(self.frame[11 + word]):
                yield word, size

    def judge_frame_pointer(self):
        if self.form in ("immediate", "register", "neg", "end", "wide", "load") and self.dst == 10:
            raise Broken(4, "r10 is written, and is for reading", "copy it by mov, and change the copy")

    def judge_mixed(self):
        access = self.accessed()
        if access is not None:
            return self.judge_mixed_access(*access)
        if self.is_copy():
            return None
        if self.op == 0x0F and is_place(self.frame[self.dst]) and is_place(self.frame[self.src]):
            raise Broken(5, f"r{self.dst} and r{self.src} are added, and both hold places", POINTERS)
        if self.op in (0x0F, 0x07, 0x17) or self.form in ("call", "exit"):
            return None
        for register in self.reads():
            if is_place(self.frame[register]):
                raise Broken(5, f"r{register} is read as a number and holds a place", POINTERS)
        return None

    def judge_mixed_access(self, base, size, is_write):
        kind = self.frame[base]
        if is_number(kind):
            raise Broken(
                5,
                f"r{base} is the base of a load or store and holds a number",
                "load and store at an index of the message, the state or a local array: a pointer that was kept in the state "
                "comes back as a number",
            )
        if self.form == "store" and is_place(self.frame[self.src]) and self.whole_word(kind, self.offset, size) is None:
            raise Broken(
                5,
                f"r{self.src} holds a place, which only a whole word of the stack can keep",
                "keep an index in its place; a pointer is kept by a local variable alone",
            )
        for word, count in self.touched(lambda it: it == "place" or isinstance(it, tuple) and is_place(it)):
            what = "written" if is_write else "read"
            raise Broken(5, f"the word at {self.word_text(word)} holds a place, of which {count} bytes are {what}", REACH)

    def judge_outside(self):
        access = self.accessed()
        if access is not None:
            base, size, is_write = access
            region, lo, hi = kind = self.frame[base]
            if not self.is_inside(kind, self.offset, size):
                text = self.places_text(region, lo + self.offset, hi + self.offset)
                fixed, moving = (STATE, STATE_INDEX) if region == "state" else (REGION, INDEX)
                raise Broken(6, f"not all of the {size} bytes at {text} lie there", fixed if hi <= lo else moving)
            if is_write and region == "message":
                raise Broken(7, f"r{base} is a place of the message, which is for reading", MESSAGE)
        left = self.moved()
        if left is None:
            return
        (_, lo, hi), register, by = left
        if lo < -32768 or hi > 32767:
            is_index, is_any = self.form == "register", str(by).endswith(f"{WORD - 1}")
            advice = REGION if not is_index else ANY_INDEX if is_any else INDEX
            raise Broken(6, f"r{register} is moved by {by}, out of the places from -32768 to 32767", advice)

    def moved(self):
        """Places that an addition leaves, the register that held them, and by what they are moved."""
        kind, other = self.frame[self.dst], self.frame[self.src]
        if self.op in (0x07, 0x17) and is_place(kind):
            by = self.imm if self.op == 0x07 else -self.imm
            return (kind[0], kind[1] + by, kind[2] + by), self.dst, by
        if self.op != 0x0F or is_place(kind) == is_place(other):
            return None
        register, place, span = (self.dst, kind, other) if is_place(kind) else (self.src, other, kind)
        return (place[0], place[1] + span[1], place[2] + span[2]), register, self.numbers_text(*span[1:])

    def judge_call(self):
        match self.imm:
            case 1:
                self.want_count(1)
                self.want_payload(2, 64)
            case 2:
                self.want_payload(1, 64)
            case 5:
                self.want_count(1)
                self.want_sized(2, 3)
            case 6:
                self.want_sized(1, 2)
            case 3 | 4:
                pass
            case _:
                raise Broken(8, f"form 3 has no helper {self.imm}", "call helper 1 to 6")

    def want_count(self, register):
        if not is_number(self.frame[register]):
            raise Broken(9, f"r{register} is to be a number", "give the helper a number, set on each way that leads here")

    def want_sized(self, place, count):
        self.want_count(count)
        self.want_payload(place, min(256, self.frame[count][2]))

    def want_payload(self, register, size):
        kind = self.frame[register]
        if not is_place(kind) or not self.is_inside(kind, 0, size):
            raise Broken(
                9,
                f"r{register} is to be a place, with {size} bytes from there on in its region",
                LENGTH,
            )
        for word in self.reached(kind, 0, size):
            if not is_number(self.frame[11 + word]):
                raise Broken(
                    9,
                    f"the word at {self.word_text(word)} is to be a number",
                    "send or output a local array of numbers, each of which is set on each way that leads here",
                )

    # ---- what is left

    def behind(self):
        return self.at + (2 if self.form == "wide" else 1)

    def target(self):
        return self.at + 1 + (self.imm if self.form == "long jump" else self.offset)

    def result(self):
        """What arithmetic leaves in its destination."""
        code, kind, operand = self.op >> 4, self.frame[self.dst], self.operand()
        if self.is_copy():
            return operand
        if self.form in ("neg", "end"):
            return ANY
        if self.op in (0xBC, 0xBF) and self.offset:
            fits = operand[2] < 2 ** (self.offset - 1)
            return operand if fits else ("number", 0, 2**self.bits - 1)
        if moved := self.moved():
            return moved[0]
        half = lambda it: number(*it[1:], self.bits)[1:]
        if code == 0xB:
            return ("number", *half(operand))
        lo, hi = half(kind)
        if self.form == "immediate" and code in (0x0, 0x1):
            by = self.imm if code == 0x0 else -self.imm
            return number(lo + by, hi + by, self.bits)
        return results(code, self.offset == 1, self.bits, (lo, hi), half(operand))

    def left(self):
        """The frame behind the instruction, where it is no jump."""
        frame = list(self.frame)
        match self.form:
            case "immediate" | "register" | "neg" | "end":
                frame[self.dst] = self.result()
            case "wide":
                low, high = (it % 2**32 for it in (self.imm, self.image.slot(self.at + 1)[4]))
                value = low + (high << 32)
                frame[self.dst] = ("number", value, value)
            case "load":
                frame[self.dst] = self.loaded()
            case "set" | "store":
                self.store(frame)
            case "call":
                frame[:6] = [("number", 0, 15)] + [None] * 5
        return frame

    def loaded(self):
        base, size, _ = self.accessed()
        word = self.whole_word(self.frame[base], self.offset, size)
        if self.op in (0x81, 0x89, 0x91):
            return ANY
        return self.frame[11 + word] if word is not None else ("number", 0, 2 ** (8 * size) - 1)

    def store(self, frame):
        base, size, _ = self.accessed()
        kind = self.frame[base]
        word = self.whole_word(kind, self.offset, size)
        if word is not None:
            frame[11 + word] = self.frame[self.src] if self.form == "store" else ("number", self.imm % WORD, self.imm % WORD)
            return
        for word in self.reached(kind, self.offset, size):
            frame[11 + word] = ANY

    def shown(self):
        """What both ways of a comparison show of its numbers: the other way, and the one of the jump."""
        code, (_, *a), (_, *b) = self.op >> 4, self.frame[self.dst], self.operand()
        a, b = tuple(a), tuple(b)
        return narrowed(OPPOSITE.get(code), self.bits, a, b), narrowed(code, self.bits, a, b)

    def ways(self):
        """The slots that it leads to, each with the frame there; no way that nothing takes."""
        if self.form == "exit":
            return []
        if self.form in ("jump", "long jump"):
            return [(self.target(), self.frame)]
        if self.form not in ("comparison", "register comparison"):
            return [(self.behind(), self.left())]
        found = []
        for to, pair in zip((self.behind(), self.target()), self.shown()):
            if pair is None:
                continue
            frame = list(self.frame)
            if self.form == "comparison" or self.dst != self.src:
                frame[self.dst] = ("number", *pair[0])
                if self.form == "register comparison":
                    frame[self.src] = ("number", *pair[1])
            found.append((to, frame))
        return found

    # ---- notes

    def known(self):
        for register in sorted(set(self.reads())):
            yield f"    r{register} {self.kind_text(self.frame[register])}"
        access = self.accessed()
        if access is None or not is_place(self.frame[access[0]]) or self.op in (0x81, 0x89, 0x91):
            return
        word = self.whole_word(self.frame[access[0]], self.offset, access[1])
        if word is None:
            return
        kind = self.frame[11 + word] if self.form == "load" else self.frame[self.src]
        if self.form == "load" or self.form == "store" and is_place(kind):
            yield f"    {self.word_text(word)} {self.kind_text(kind)}"

    def dead(self):
        if self.form not in ("comparison", "register comparison"):
            return
        other, taken = self.shown()
        if other is None:
            yield "    every number takes this jump"
        elif taken is None:
            yield "    no number takes this jump"


def lines_of(data):
    """The lines of the listing of a file of form 3."""
    image = handlers.load(b"SBI2" + data[4:])
    starts = verdicts.instructions_of(image)
    frames, refusal = {0: ENTRY}, None
    yield f"form 3, {image.state_len} bytes of state"
    for at in starts:
        yield f"{at}: {texts.line_of(image, at)}"
        if refusal:
            continue
        if at not in frames:
            yield "    no way leads here"
            continue
        slot = Slot(image, at, set(starts), frames[at])
        yield from slot.known()
        try:
            slot.judge()
        except Broken as broken:
            rule, cause, advice = broken.args
            yield f"    refused by V{rule}: {cause}"
            yield f"    to do: {advice}"
            refusal = f"verify refused V{rule} at slot {at}"
            continue
        yield from slot.dead()
        for to, frame in slot.ways():
            frames[to] = [joined_kind(a, b) for a, b in zip(frames[to], frame)] if to in frames else frame
    yield refusal or f"accepted {len(starts)} instructions"


def main():
    for path in sys.argv[1:]:
        with open(path, "rb") as file:
            print("\n".join(lines_of(file.read())))


if __name__ == "__main__":
    main()
