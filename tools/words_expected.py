"""Reads and makes instruction words, by document 01 and nothing else.

The tables below are document 01's, "Words", and the syntax of tables 1.2 to 1.4.
"""
import re

# Document 01, "Words": numbers in hex. R words have opcode 00 and these functions, J and I words these opcodes.
R = """00 slli, 01 slai, 02 srli, 03 srai, 04 sll, 05 sla, 06 srl, 07 sra, 10 movs2i, 11 movi2s, 20 addo, 21 add,
    22 subo, 23 sub, 24 and, 25 or, 26 xor, 27 lhg, 28 clr, 29 sgr, 2A seq, 2B sge, 2C sls, 2D sne, 2E sle, 2F set"""
J = "02 j, 03 jal, 3E trap, 3F rfe"
I = """04 beqz, 05 bnez, 08 addio, 09 addi, 0A subio, 0B subi, 0C andi, 0D ori, 0E xori, 0F lhgi, 16 jr, 17 jalr,
    18 clri, 19 sgri, 1A seqi, 1B sgei, 1C slsi, 1D snei, 1E slei, 1F seti, 20 lb, 21 lh, 23 lw, 24 lbu, 25 lhu,
    28 sb, 29 sh, 2B sw"""

# Document 01, "Words": the highest and the lowest bit of each field.
OPCODE = (31, 26)
FUNCTION = (5, 0)
FIELDS = {
    "R": {"RS1": (25, 21), "RS2": (20, 16), "RD": (15, 11), "SA": (10, 6)},
    "J": {"imm": (25, 0)},
    "I": {"RS1": (25, 21), "RD": (20, 16), "imm": (15, 0)},
}

# Document 01, "Words": the ranges of the immediates.
RANGE = {"I": (-32768, 32767), "J": (-(2**25), 2**25 - 1)}

# Tables 1.2 to 1.4: the syntax of each mnemonic. (Table 1.2 prints the syntax of ori and xori as subi's.)
SYNTAX = {
    # table 1.2
    "RD,RS1(imm)": "lb lh lw lbu lhu",
    "RS1(imm),RD": "sb sh sw",
    "RD,RS1,imm": "addi addio subi subio andi ori xori sgri seqi sgei slsi snei slei",
    "RD,imm": "lhgi",
    "RS1,imm": "beqz bnez",
    "RS1": "jr jalr",
    # tables 1.2 and 1.3
    "RD": "clri seti clr set",
    # table 1.3
    "RD,RS1,SA": "slli slai srli srai",
    "RD,RS1,RS2": "sll sla srl sra add addo sub subo and or xor sgr seq sge sls sne sle",
    "RD,SPR[SA]": "movs2i",
    "SPR[SA],RS1": "movi2s",
    "RD,RS1": "lhg",
    # table 1.4
    "imm": "j jal trap",
    "": "rfe",
}

NAME = re.compile(r"RD|RS1|RS2|SA|imm")


def numbers(text):
    """Mnemonic and number of each entry of one of the lists above."""
    return [(name, int(number, 16)) for number, name in (entry.split() for entry in text.split(","))]


# Mnemonic: format, opcode or function, syntax. In document 01's order.
TABLE = {
    name: (form, number, next(s for s, names in SYNTAX.items() if name in names.split()))
    for form, text in (("R", R), ("J", J), ("I", I))
    for name, number in numbers(text)
}
assert len(TABLE) == 58 and sum(len(names.split()) for names in SYNTAX.values()) == 58


def field(word, bits):
    high, low = bits
    return (word >> low) & (2 ** (high - low + 1) - 1)


def placed(value, bits):
    """A value in its field, an immediate in two's complement."""
    high, low = bits
    return (value & (2 ** (high - low + 1) - 1)) << low


def text(name, values):
    """Mnemonic and operands, as in `lw r2,r1(8)`."""
    syntax = TABLE[name][2]
    operands = NAME.sub(lambda m: ("r" if m[0][0] == "R" else "") + str(values[m[0]]), syntax)
    return (name + " " + operands).rstrip()


def make(name, values):
    """The word, its unused fields zero; None for 14."""
    form, number, syntax = TABLE[name]
    word = placed(0, OPCODE) | placed(number, FUNCTION) if form == "R" else placed(number, OPCODE)
    for used in NAME.findall(syntax):
        least, most = RANGE[form] if used == "imm" else (0, 31)
        if not least <= values[used] <= most:
            return None
        word |= placed(values[used], FIELDS[form][used])
    return word


# The mnemonic of each function of an R word, and of each opcode of the others.
FUNCTIONS = {number: name for name, (form, number, _) in TABLE.items() if form == "R"}
OPCODES = {number: name for name, (form, number, _) in TABLE.items() if form != "R"}


def read(word):
    """Mnemonic and values; None for 23."""
    opcode = field(word, OPCODE)
    name = OPCODES.get(opcode) if opcode else FUNCTIONS.get(field(word, FUNCTION))
    if name is None:
        return None
    form, _, syntax = TABLE[name]
    values = {used: field(word, FIELDS[form][used]) for used in NAME.findall(syntax)}
    if "imm" in values and values["imm"] > RANGE[form][1]:
        values["imm"] -= 2 * (RANGE[form][1] + 1)
    return name, values


def unused(name):
    """Ones in every field that the instruction does not use."""
    form, _, syntax = TABLE[name]
    return sum(placed(-1, bits) for f, bits in FIELDS[form].items() if f not in NAME.findall(syntax))


def pattern(syntax):
    """What the operands of a syntax look like, as in r2,r1(8)."""
    return NAME.sub(lambda m: ("r" if m[0][0] == "R" else "") + rf"(?P<{m[0]}>-?\d+)", re.escape(syntax))


def word(text):
    """The word of a text, as in `lw r2,r1(8)`; a number in hex stands for itself."""
    name, _, operands = text.partition(" ")
    if name not in TABLE:
        return int(text, 16)
    found = re.fullmatch(pattern(TABLE[name][2]), operands)
    return make(name, {field: int(value) for field, value in found.groupdict().items()})


def full(text):
    """The word of a text with ones in every field that the instruction does not use."""
    return word(text) | unused(text.split()[0])
