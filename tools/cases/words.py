"""Words read and instructions made."""
from words_expected import FUNCTION, NAME, OPCODE, TABLE, make, placed, read, text, unused

# Document 01, "Checked by hand": the words that have a text there.
BY_HAND = {
    0x2401FFFC: "addi r1,r0,-4",
    0x8C220008: "lw r2,r1(8)",
    0x0022182B: "sge r3,r1,r2",
    0x00200411: "movi2s SPR[16],r1",
    0x5BE00000: "jr r31",
    0xF8000005: "trap 5",
    0x00430820: "addo r1,r2,r3",
    0x0C000008: "jal 8",
    0x1000FFFC: "beqz r0,-4",
}

# Immediates, the first and the last out of range.
BOUNDS = {"I": (-32769, -32768, -1, 0, 32767, 32768), "J": (-33554433, -33554432, -1, 0, 33554431, 33554432)}

# One instruction of each group of those that have a register.
REGISTER_GROUPS = """slli sll movs2i movi2s add lhg sge clr set clri seti beqz bnez jr jalr addi lhgi sgei lw sw""".split()


def operands(name, **others):
    """The operands of a case: all different, the immediate negative for an odd opcode."""
    form, number, _ = TABLE[name]
    size = 1193046 if form == "J" else 4660
    return {"RD": 2, "RS1": 1, "RS2": 31, "SA": 16, "imm": -size if number % 2 else size, **others}


def make_case(group, name, values):
    group.call("make " + text(name, values), "make", operands=[name, *(values[f] for f in NAME.findall(TABLE[name][2]))])
    return make(name, values)


def read_case(group, word, name=None):
    group.call(name or f"read {word:08X}", "read", operands=[word])


def both_cases(group, name, values):
    """An instruction made, and its word read back with ones in every field that it does not use."""
    word = make_case(group, name, values)
    if word is not None:
        read_case(group, word | unused(name))


def instructions(group):
    for name in TABLE:
        both_cases(group, name, operands(name))


def by_hand(group):
    for word, known in BY_HAND.items():
        assert text(*read(word)) == known
        read_case(group, word)
    read_case(group, 0)


def numbers(group):
    for number in range(1, 64):
        read_case(group, placed(number, OPCODE), f"opcode {number:02X}")
    for number in range(64):
        read_case(group, placed(number, FUNCTION), f"function {number:02X}")


def immediates(group):
    for imm in BOUNDS["I"]:
        for name in "beqz bnez addi lhgi sgei lw sw".split():
            both_cases(group, name, operands(name, imm=imm))
    for imm in BOUNDS["J"]:
        for name in "j jal trap".split():
            both_cases(group, name, operands(name, imm=imm))


def registers(group):
    for number in (31, 32, 255):
        for name in REGISTER_GROUPS:
            for register in NAME.findall(TABLE[name][2]):
                if register != "imm":
                    make_case(group, name, operands(name, **{register: number}))


# ---- All words and all fields at their corners

# What the bits beside the number hold: nothing, ones, alternating bits, and a different value in each field.
FILLINGS = {"zeros": 0, "ones": 0xFFFFFFFF, "odd": 0xAAAAAAAA, "even": 0x55555555, "mixed": 0x02A61D80, "high": 0x02108400}

OPCODE_BITS, FUNCTION_BITS = placed(-1, OPCODE), placed(-1, FUNCTION)

# More immediates and bytes: beside the ends, and far out of range.
IMMEDIATES = {"I": (-32767, -2, 1, 2, 32766, 65535, -65536, 2**31 - 1, -(2**31)),
              "J": (-33554431, -2, 1, 2, 33554430, 2**26 - 1, -(2**26), 2**31 - 1, -(2**31))}
BYTES = (0, 31, 32, 255)
MORE_BYTES = (1, 2, 15, 16, 30, 33, 63, 64, 128)


def fillings(group):
    for number in range(64):
        for name, bits in FILLINGS.items():
            if number:
                word = placed(number, OPCODE) | bits & ~OPCODE_BITS
                read_case(group, word, f"opcode {number:02X} {name}")
    for number in range(64):
        for name, bits in FILLINGS.items():
            word = placed(number, FUNCTION) | bits & ~FUNCTION_BITS & ~OPCODE_BITS
            read_case(group, word, f"function {number:02X} {name}")


def corners(form, used):
    """Each field at its corners, the others at 0; and at the ends of its range, the others at their largest."""
    top = {field: BOUNDS[form][-2] if field == "imm" else 31 for field in used}
    yield top
    for field in used:
        ends, more = (BOUNDS[form], IMMEDIATES[form]) if field == "imm" else (BYTES, MORE_BYTES)
        for value in ends:
            yield {**top, field: value}
        for value in (*ends, *more):
            yield {**{other: 0 for other in used}, field: value}


def fields(group):
    for name, (form, _, syntax) in TABLE.items():
        used = NAME.findall(syntax)
        for values in sorted({tuple(values[field] for field in used) for values in corners(form, used)}):
            values = dict(zip(used, values))
            if make_case(group, name, values) is not None:
                read_case(group, make(name, values), f"read {text(name, values)}")


def refused(group):
    """Two fields out of range at once."""
    for name, (form, _, syntax) in TABLE.items():
        used = NAME.findall(syntax)
        for n, one in enumerate(used):
            for other in used[n + 1:]:
                for beyond, end in ((32, -1), (255, 0)):
                    values = {field: BOUNDS[form][end] if field == "imm" else beyond for field in (one, other)}
                    make_case(group, name, operands(name, **values))


def illegal(group):
    """Illegal words that are next to a legal one: one bit of its opcode or function is another."""
    tried = set()
    for name in TABLE:
        word = make(name, operands(name))
        for bit in [*range(26, 32), *range(6)]:
            other = word ^ 1 << bit
            if read(other) is None and other not in tried:
                tried.add(other)
                read_case(group, other)


GROUPS = {
    "words/by-hand": ("the words that document 01 spells out, and word 0.", by_hand),
    "words/instructions": ("all 58 made, and read back with ones in every field that is not used.", instructions),
    "words/numbers": ("every opcode and every function, the other bits zero.", numbers),
    "words/immediates": ("immediates at and past the ends of their range.", immediates),
    "words/registers": ("each register and SA at 31, 32 and 255.", registers),
    "words/fillings": ("every opcode and every function, with six fillings of the other bits.", fillings),
    "words/fields": ("each field of all 58 at its corners, in and out of range; each word that is made is read back.", fields),
    "words/refused": ("two fields out of range at once.", refused),
    "words/illegal": ("illegal words that are one bit from a legal one.", illegal),
}
