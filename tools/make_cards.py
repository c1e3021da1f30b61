#!/usr/bin/env python3
"""Makes the sample cards and their expected lines, from documents 01 and 02 alone.

    python3 tools/make_cards.py

writes cards/*.card, cards/EXPECTED with the verdict line of each, cards/BECAUSE with the second line of those that have one,
and the input and output of the programs verdict and explain. The lines stand here as derived by hand from document 01, second
lines from document 02, request Seven; nothing of this repository is run for them. The cards are tests too: tools/make_tests.
"""
import os
import struct

TOP = os.path.dirname(os.path.dirname(os.path.abspath(__file__)))

# Words, spelled by document 01's layout: opcode 31..26, RS1 25..21, RD 20..16, imm 15..0.
NOP = 0x00000000            # slli r0,r0,0
ADDI_R1_M4 = 0x2401FFFC     # addi r1,r0,-4
LW_R2_R1_8 = 0x8C220008     # lw r2,r1(8)
LW_R2_R1 = 0x8C220000       # lw r2,r1(0)
JR_R1 = 0x58200000          # jr r1


def i_word(opcode, rs1, rd, imm):
    return opcode << 26 | rs1 << 21 | rd << 16 | imm & 0xFFFF


def j_word(opcode, imm):
    return opcode << 26 | imm & 0x3FFFFFF


def card(code=(NOP,), data=(), **fields):
    """A card's bytes. Fields not named have the whole case's values."""
    f = dict(mark=b"SND", version=1, reserved=b"\0\0\0", code_start=0, code_words=len(code), data_start=256,
             data_words=len(data), dpc=0, pc=4, limit=10, gpr=[0] * 32, spr=[0] * 32)
    f.update(fields)
    head = f["mark"] + struct.pack("<H", f["version"]) + f["reserved"]
    head += struct.pack("<7I", f["code_start"], f["code_words"], f["data_start"], f["data_words"], f["dpc"], f["pc"],
                        f["limit"])
    return head + struct.pack("<32I", *f["gpr"]) + struct.pack("<32I", *f["spr"]) + struct.pack(
        f"<{len(code) + len(data)}I", *code, *data)


def registers(**values):
    """32 registers, of which r1=.. and so on differ from 0."""
    return [values.get(f"r{n}", 0) for n in range(32)]


FOUR = (0, 0, 0, 0)
WHOLE = dict(code=(ADDI_R1_M4, LW_R2_R1_8, NOP), data=FOUR)
FULL = dict(code=[NOP] * 1024, data=[0] * 1024, data_start=4096)

# addi r1,r1,1; beqz r0,-8; nop. The branch at 4 finds PC' = 8 and makes the next one 0; the nop at 8 runs before it is taken.
LOOP = (i_word(0x09, 1, 1, 1), i_word(0x04, 0, 0, -8), NOP)


def loop_dpc(steps):
    """The DPC of LOOP after so many steps: 0, 4, 8 and again."""
    return (0, 4, 8)[steps % 3]


# addi r1,r0,6; jr r1; addi r1,r0,0. R1 is DPC at step 3; that it is written again in the delay slot is too late for the jump.
JR_STEP = (card((i_word(0x09, 0, 1, 6), JR_R1, i_word(0x09, 0, 1, 0))), "violation 21 step 3 at 00000006 word -",
           "because dpc from step 1 at 00000004 word 58200000, r1 from step 0 at 00000000 word 24010006")


def samples():
    """(name, bytes, line, second line or None), the refusals and the violations in the order of their numbers."""
    yield ("whole-case", card(**WHOLE), "violation 26 step 1 at 00000004 word 8C220008",
           "because r1 from step 0 at 00000000 word 2401FFFC")
    for name, content, line in accepted():
        yield name, content, line, None
    yield from violations()
    yield from origins()
    for name, content, line in refused():
        yield name, content, line, None
    # The longest card that loads, 8,484 bytes: it runs off its end.
    yield ("violation-22-longest", card(**FULL, limit=1000000), "violation 22 step 1024 at 00001000 word -",
           "because dpc ran on")


def accepted():
    yield "accepted-loop", card(LOOP, limit=1000000), f"accepted 1000000 next {loop_dpc(1000000):08X}"
    # Limit 0 takes no step: any counters do, and even a word that is illegal.
    yield ("accepted-nothing", card((0xFFFFFFFF,), limit=0, dpc=0xFFFFFFFF, pc=0xABCDEF01),
           "accepted 0 next FFFFFFFF")


def violations():
    """One of each number."""
    # jr r1 at 0 with the nop after it in the delay slot: R1 becomes DPC at step 2.
    jump = (JR_R1, NOP)
    yield ("violation-21", card(jump, gpr=registers(r1=6)), "violation 21 step 2 at 00000006 word -",
           "because dpc from step 0 at 00000000 word 58200000, r1 from card")
    yield ("violation-22", card(jump, gpr=registers(r1=0xFFFFFFFC)), "violation 22 step 2 at FFFFFFFC word -",
           "because dpc from step 0 at 00000000 word 58200000, r1 from card")
    # Opcode 3D is not in the list; the word before it runs.
    yield "violation-23", card((NOP, 0xF4000000)), "violation 23 step 1 at 00000004 word F4000000", None
    # trap 5 is legal, and no word of the assembler machine.
    yield "violation-24", card((0xF8000005,)), "violation 24 step 0 at 00000000 word F8000005", None
    # sw r2 to 270 of the data region 256 to 271: not a multiple of 4, which is tested before the region.
    yield ("violation-25", card((i_word(0x2B, 1, 2, 0),), FOUR, gpr=registers(r1=270)),
           "violation 25 step 0 at 00000000 word AC220000", "because r1 from card")
    # The data words end at 272: 268 is loaded, 272 is not.
    yield ("violation-26", card((LW_R2_R1, i_word(0x23, 1, 2, 4)), (1, 2, 3, 4), gpr=registers(r1=268)),
           "violation 26 step 1 at 00000004 word 8C220004", "because r1 from card")
    # movi2s SPR[16],r1 with R1 = 0 passes; the second finds 1.
    yield ("violation-27", card((0x00200411, i_word(0x09, 0, 1, 1), 0x00200411)),
           "violation 27 step 2 at 00000008 word 00200411", None)


def origins():
    """One of each way to come to a bad address that those before do not show; the data are the four words from 256 on."""
    # lw r2,r0(272).
    yield ("because-zero", card((i_word(0x23, 0, 2, 272),), FOUR), "violation 26 step 0 at 00000000 word 8C020110",
           "because r0 from zero")
    # lw r1,r0(256) loads 270, which lw r2,r1(0) takes for an address.
    yield ("because-load", card((i_word(0x23, 0, 1, 256), LW_R2_R1), (270, 0, 0, 0)),
           "violation 25 step 1 at 00000004 word 8C220000", "because r1 from step 0 at 00000000 word 8C010100")
    # jal 4 at 0 puts 8 in R31 and goes on at 8, behind its delay slot: lw r2,r31(0) there would load itself.
    yield ("because-link", card((j_word(0x03, 4), NOP, i_word(0x23, 31, 2, 0)), FOUR),
           "violation 26 step 2 at 00000008 word 8FE20000", "because r31 from step 0 at 00000000 word 0C000004")
    # Five words a round: lw r2,r1(0); add r3,r3,r2; addi r1,r1,4; beqz r0,-16; nop. Round 1,024 finds R1 past the data, which
    # round 1,023 left there with its third step.
    rounds = (LW_R2_R1, 0x00621821, i_word(0x09, 1, 1, 4), i_word(0x04, 0, 0, -16), NOP)
    yield ("because-late", card(rounds, [0] * 1024, data_start=4096, gpr=registers(r1=4096), limit=1000000),
           "violation 26 step 5120 at 00000000 word 8C220000", "because r1 from step 5117 at 00000008 word 24210004")

    # Step 0 fetches at the card's DPC, step 1 at its PC'.
    yield "because-dpc-card", card(dpc=2), "violation 21 step 0 at 00000002 word -", "because dpc from card"
    yield "because-pc-card", card(pc=16384), "violation 22 step 1 at 00004000 word -", "because dpc from card"
    # The code ends at 8. bnez r0 is not taken; beqz r0 is, though it goes to 8 as well.
    yield ("because-ran-on", card((i_word(0x05, 0, 0, 4), NOP)), "violation 22 step 2 at 00000008 word -",
           "because dpc ran on")
    yield ("because-branch", card((i_word(0x04, 0, 0, 4), NOP)), "violation 22 step 2 at 00000008 word -",
           "because dpc from step 0 at 00000000 word 10000004")
    # The base is PC', 4.
    yield ("because-jal", card((j_word(0x03, -8), NOP)), "violation 22 step 2 at FFFFFFFC word -",
           "because dpc from step 0 at 00000000 word 0FFFFFF8")
    # jr r0 where the code starts at 16.
    yield ("because-jr-zero", card((i_word(0x16, 0, 0, 0), NOP), code_start=16, dpc=16, pc=20),
           "violation 22 step 2 at 00000000 word -", "because dpc from step 0 at 00000010 word 58000000, r0 from zero")
    yield ("because-jr-step", *JR_STEP)


def refused():
    whole = card(**WHOLE)
    full = card(**FULL)
    yield "refused-02", whole[:291], "refused 2"
    yield "refused-02-empty", b"", "refused 2"
    yield "refused-03", card(**WHOLE, mark=b"SNd"), "refused 3"
    yield "refused-04", card(**WHOLE, version=257), "refused 4"
    yield "refused-05", card(**WHOLE, reserved=b"\0\0\1"), "refused 5"
    yield "refused-06", card((), (0,)), "refused 6"
    yield "refused-06-long", card([NOP] * 1025), "refused 6"
    yield "refused-07", whole + b"\0", "refused 7"
    # Longer than any card that loads, by one byte and by many.
    yield "refused-07-longest", full + b"\0", "refused 7"
    yield "refused-07-beyond", full + b"\0" * 5000, "refused 7"
    yield "refused-08", card(**WHOLE, code_start=2), "refused 8"
    # 16,384 - 12 holds three words and 16,384 - 8 does not; FFFFFFFC + 16 would wrap to 12.
    yield "refused-09", card(**WHOLE, code_start=16376), "refused 9"
    yield "refused-09-wrap", card(**WHOLE, data_start=0xFFFFFFFC), "refused 9"
    yield "refused-10", card(**WHOLE, data_start=8), "refused 10"
    yield "refused-11", card(**WHOLE, gpr=registers(r0=1)), "refused 11"
    yield "refused-11-mode", card(**WHOLE, spr=registers(r16=1)), "refused 11"
    yield "refused-12", card(**WHOLE, limit=1000001), "refused 12"


def write(path, content):
    with open(os.path.join(TOP, path), "wb") as f:
        f.write(content)


def main():
    os.makedirs(os.path.join(TOP, "cards"), exist_ok=True)
    expected = because = ""
    for name, content, line, second in samples():
        write(f"cards/{name}.card", content)
        expected += f"{name}.card {line}\n"
        because += f"{name}.card {second}\n" if second else ""
    write("cards/EXPECTED", expected.encode())
    write("cards/BECAUSE", because.encode())
    write("crates/verdict/stdin", card(**WHOLE))
    write("crates/verdict/stdout", b"violation 26 step 1 at 00000004 word 8C220008\n")
    content, line, second = JR_STEP
    write("crates/explain/stdin", content)
    write("crates/explain/stdout", f"{line}\n{second}\n".encode())


if __name__ == "__main__":
    main()
