"""The line of an instruction in an assembler text, as docs/FORMATS.md ("Assembler text") has it."""

ALU = ["add", "sub", "mul", "div", "or", "and", "lsh", "rsh", "neg", "mod", "xor", "mov", "arsh"]
SIGNED = {0x3: "sdiv", 0x9: "smod"}
JUMPS = {
    0x1: "jeq", 0x2: "jgt", 0x3: "jge", 0x4: "jset", 0x5: "jne", 0x6: "jsgt", 0x7: "jsge",
    0xA: "jlt", 0xB: "jle", 0xC: "jslt", 0xD: "jsle",
}
LOADS = {0x61: "ldxw", 0x69: "ldxh", 0x71: "ldxb", 0x79: "ldxdw", 0x81: "ldxsw", 0x89: "ldxsh", 0x91: "ldxsb"}
SIZES = {0x00: "w", 0x08: "h", 0x10: "b", 0x18: "dw"}


def line_of(image, at):
    """The line of the instruction that begins at a slot."""
    op, dst, src, offset, imm = image.slot(at)
    kind, code = op & 7, op >> 4
    half = "32" if kind in (4, 6) else ""
    operand = f"r{src}" if op & 8 else str(imm)
    if kind in (4, 7) and code == 0xD:
        return f"{ {0xD4: 'le', 0xDC: 'be', 0xD7: 'swap'}[op] }{imm} r{dst}"
    if kind in (4, 7) and code == 0x8:
        return f"neg{half} r{dst}"
    if op in (0xBC, 0xBF) and offset:
        return f"mov{half}sx{offset} r{dst}, r{src}"
    if kind in (4, 7):
        word = SIGNED[code] if offset else ALU[code]
        return f"{word}{half} r{dst}, {operand}"
    if op == 0x05:
        return f"ja {offset:+}"
    if op == 0x06:
        return f"jal {imm:+}"
    if op == 0x85:
        return f"call {imm}"
    if op == 0x95:
        return "exit"
    if kind in (5, 6):
        return f"{JUMPS[code]}{half} r{dst}, {operand}, {offset:+}"
    if op == 0x18:
        low, high = (word % 2**32 for word in (imm, image.slot(at + 1)[4]))
        return f"lddw r{dst}, {low + (high << 32)}"
    if op in LOADS:
        return f"{LOADS[op]} r{dst}, [r{src}{offset:+}]"
    size = SIZES[op & 0x18]
    return f"stx{size} [r{dst}{offset:+}], r{src}" if kind == 3 else f"st{size} [r{dst}{offset:+}], {imm}"
