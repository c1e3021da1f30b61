#!/usr/bin/env python3
"""The program of the thesis (source document 000, table A.8): the integer square root of 453, assembled by document 01's
tables.

    python3 tools/thesis_program.py

prints the words, one to a line: address, word, text. The test vamp/thesis runs them.

The text is the thesis' own, in document 01's syntax (`lw r3,r0(jtable)` where the thesis writes `lw r3,jtable(r0)`), with its
one misprint mended (`imul.exit`). The array memfill has 4,080 bytes instead of 4,096, so that the data is 1,024 words, as much
as a card can hold. The two expressions over `res` and `sqr` give the high half of a word whose low half a sign-extending xori
fills in. A branch's immediate is taken from the address of the next word, by document 01's rule on PC'.
"""
import re

from words_expected import NAME, TABLE, make

CODE = 500

ROOT_OF = 453

TEXT = """
main:       clr r4
square:     add r24,r4,r0
            lw r3,r0(jtable)
            jalr r3
            add r25,r4,r0
            lw r26,r0(res)
            lw r3,r0(X)
            sle r1,r26,r3
            slli r2,r4,2
            sw r2(memfill),r26
            beqz r1,end
            nop
            j square
            addi r4,r4,1
imul:       beqz r25,imul_exit
            clr r26
            sls r1,r25,r0
            beqz r1,test2
            clr r2
            set r2
            sub r25,r0,r25
test2:      sls r1,r24,r0
            beqz r1,mul
            nop
            sub r2,r1,r2
            sub r24,r0,r24
mul:        beqz r24,sign
            andi r1,r24,1
            beqz r1,skip
            srai r24,r24,1
            add r26,r26,r25
skip:       j mul
            slli r25,r25,1
sign:       beqz r2,imul_exit
            nop
            sub r26,r0,r26
imul_exit:  lhgi r24,high(res)
            xori r24,r24,low(res)
            jr r31
            sw r24(0),r26
end:        lhgi r25,high(sqr)
            xori r25,r25,low(sqr)
            subi r4,r4,1
            sw r25(0),r4
"""

# The data, from the end of the code on: name and size in bytes.
DATA = [("memfill", 4080), ("X", 4), ("res", 4), ("sqr", 4), ("jtable", 4)]

LINE = re.compile(r"(?:(\w+):)?\s*(\S+)\s*(.*)")


def high(value):
    """The half that lhgi loads, so that xori with the low half gives the value."""
    return ~(value >> 16) if value & 0x8000 else value >> 16


def signed16(value):
    return value - 0x10000 if value & 0x8000 else value


def assemble():
    """Address, word and text of each instruction; the names with their addresses."""
    lines = [LINE.fullmatch(line).groups() for line in TEXT.strip().splitlines()]
    names = {label: CODE + 4 * n for n, (label, _, _) in enumerate(lines) if label}
    at = CODE + 4 * len(lines)
    for name, size in DATA:
        names[name] = at
        at += size

    def operand(text, here, relative):
        if text.startswith("high("):
            return high(names[text[5:-1]])
        if text.startswith("low("):
            return signed16(names[text[4:-1]] & 0xFFFF)
        if text in names:
            return names[text] - (here + 4) if relative else names[text]
        return int(text)

    program = []
    for n, (_, mnemonic, operands) in enumerate(lines):
        here = CODE + 4 * n
        name, text = ("slli", "r0,r0,0") if mnemonic == "nop" else (mnemonic, operands)
        syntax = TABLE[name][2]
        pattern = NAME.sub(lambda m: ("r" if m[0][0] == "R" else "") + rf"(?P<{m[0]}>[\w()-]+?)", re.escape(syntax))
        found = re.fullmatch(pattern, text).groupdict()
        relative = name in ("beqz", "bnez", "j", "jal")
        word = make(name, {field: operand(value, here, relative) for field, value in found.items()})
        program.append((here, word, f"{mnemonic} {operands}".strip()))
    return program, names


def data(names):
    """The data words that are not zero, by address."""
    return {names["X"]: ROOT_OF, names["jtable"]: names["imul"]}


def main():
    program, names = assemble()
    for address, word, text in program:
        print(f"{address} {word:08X} {text}")
    for address, word in data(names).items():
        print(f"{address} {word:08X}")


if __name__ == "__main__":
    main()
