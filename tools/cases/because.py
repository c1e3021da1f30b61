"""Explanations: where the bad address of a run came from. Document 02, request Seven."""
from call_lines import buffer_places
from cases import checker
from cases.checker import lent, run, step, words
from words_expected import full, word

# Enough for each case to come to its violation.
LIMIT = 100

# Every kind of word that writes a general register, here R3 or the link. With 6 in R1, 5 in R2 and 3 in the special register, no
# value that they make is the address of a data word.
WRITERS = ("lw r3,r0(260)", "movs2i r3,SPR[1]", "add r3,r1,r2", "sub r3,r1,r2", "slli r3,r1,2", "srli r3,r1,1", "addi r3,r1,2",
           "lhgi r3,1", "andi r3,r1,2", "ori r3,r1,8", "xori r3,r1,6", "sne r3,r1,r2", "sgr r3,r1,r2", "sge r3,r1,r2", "jal 4")

# R1 where the RD of a word would stand, in the format R and in I.
RD_OF_R, RD_OF_I = 1 << 11, 1 << 16


def record(**fields):
    return checker.record(**{"limit": LIMIT, **fields})


def registers(*values, **fields):
    """A record with R1 to R3."""
    return checker.registers(*values, **{"limit": LIMIT, **fields})


def zeros(group):
    run(group, "r0 in 25, lw", record(), "lw r2,r0(257)")
    run(group, "r0 in 25, sw", record(), "sw r0(258),r2")
    run(group, "r0 in 26, lw", record(), "lw r2,r0(272)")
    run(group, "r0 in 26, sw", record(), "sw r0(-4),r2")
    run(group, "r0 after words that would write it", record(), "addi r0,r0,2", "lw r0,r0(256)", "lw r2,r0(2)")


def writers(group):
    run(group, "register of the card in 25", registers(258), "addi r2,r0,4", "lw r3,r1(0)")
    run(group, "register of the card in 26", registers(4), "addi r2,r0,4", "sw r1(0),r2")
    run(group, "register that is 0 on the card", record(), "lw r2,r5(4)")
    run(group, "register 31 of the card", record(gpr={31: 6}), "lw r2,r31(0)")
    run(group, "writer just before", record(), "addi r1,r0,6", "lw r2,r1(0)")
    run(group, "writer three steps before", record(), "addi r1,r0,6", "0", "0", "lw r2,r1(0)")
    run(group, "writer before those of others", record(), "addi r1,r0,6", "addi r2,r0,1", "addi r3,r1,1", "sw r1(0),r2")
    run(group, "writer that is overwritten", record(), "addi r1,r0,6", "addi r1,r0,10", "lw r2,r1(0)")
    run(group, "writer that reads its register", registers(4), "addi r1,r1,2", "addi r1,r1,4", "lw r2,r1(0)")
    run(group, "the same value again", registers(6), "0", "add r1,r1,r0", "lw r2,r1(0)")
    run(group, "the same value loaded", registers(0x22222222), "lw r1,r0(260)", "sw r1(0),r2")
    run(group, "address of sw, not its value", record(), "addi r1,r0,6", "addi r2,r0,6", "sw r1(0),r2")
    run(group, "the violating word's own register", registers(6), "lw r1,r1(0)")
    run(group, "the violating word's own register, written before", record(), "addi r1,r0,6", "lw r1,r1(0)")
    for text in WRITERS:
        name, register = text.split()[0], "r31" if text.startswith("jal") else "r3"
        run(group, f"writer {name}", registers(6, 5, spr={1: 3}), full(text), "0", f"sw {register}(0),r4")


def no_writers(group):
    """R1 in a field of a word that writes no general register."""
    run(group, "sw writes nothing", record(), "addi r1,r0,256", "sw r1(0),r1", "lw r2,r1(2)")
    run(group, "movi2s writes nothing", registers(6), word("movi2s SPR[1],r2") | RD_OF_R, "lw r2,r1(0)")
    run(group, "beqz writes nothing", registers(6), word("beqz r0,4") | RD_OF_I, "0", "lw r2,r1(0)")
    run(group, "bnez writes nothing", registers(6, 1), word("bnez r2,4") | RD_OF_I, "0", "lw r2,r1(0)")
    run(group, "jr writes nothing", registers(6, 8), word("jr r2") | RD_OF_I, "0", "lw r2,r1(0)")
    run(group, "jal writes the link alone", registers(6), word("jal 0") | RD_OF_I | RD_OF_R, "lw r2,r1(0)")


def first_steps(group):
    """21 and 22 at the steps 0, 1 and 2."""
    run(group, "21 at step 0", record(dpc=2, pc=4))
    run(group, "22 at step 0", record(dpc=32, pc=4))
    run(group, "21 at step 1", record(pc=6))
    run(group, "22 at step 1", record(pc=64))
    run(group, "21 at step 1, behind jal", record(pc=6), "jal 8")
    run(group, "22 at step 1, behind jr", registers(6, pc=64), "jr r1")
    run(group, "21 at step 2 by jal", record(), "jal 2")
    run(group, "22 at step 2 by jal", record(), "jal 1000")
    run(group, "21 at step 2 by beqz", record(), "beqz r0,2")
    run(group, "22 at step 2 by beqz", record(), "beqz r0,-8")
    run(group, "21 at step 2 by bnez", registers(5), "bnez r1,2")
    run(group, "22 at step 2 by bnez", registers(5), "bnez r1,-8")
    run(group, "22 at step 2, ran on", record(code=(0, 2)))
    run(group, "22 at step 2, ran on where PC' led", record(pc=28))


def transfers(group):
    run(group, "the first of two transfers", record(), "jal 1000", "jal 8")
    run(group, "the second of two transfers", record(), "jal 8", "jal 1000")
    run(group, "the second of two jr", registers(12, 6), "jr r1", "jr r2")
    run(group, "jr behind beqz", registers(6), "beqz r0,8", "jr r1")
    run(group, "off the end behind the target of a transfer", record(), "jal 24")
    run(group, "off the end in the delay slot", record(dpc=28), *["0"] * 7, "jal -8")
    run(group, "jal to the next word", record(code=(0, 2)), "jal 4")
    run(group, "beqz to the next word", record(code=(0, 2)), "beqz r0,4")
    run(group, "bnez to the next word", registers(1, code=(0, 2)), "bnez r1,4")
    run(group, "jr to the next word", registers(8, code=(0, 2)), "jr r1")
    run(group, "beqz that is not taken", registers(1, code=(0, 2)), "beqz r1,4")
    run(group, "bnez that is not taken", record(code=(0, 2)), "bnez r1,4")
    run(group, "beqz not taken, its register 0 after it", registers(1, code=(0, 2)), "beqz r1,4", "addi r1,r0,0")
    run(group, "bnez taken, its register 0 after it", registers(1), "bnez r1,-8", "addi r1,r0,0")
    run(group, "off the end after a loop", registers(3, code=(0, 3)), "addi r1,r1,-1", "bnez r1,-8")


def jumps(group):
    """jr and its register."""
    run(group, "jr of the card", registers(6), full("jr r1"))
    run(group, "jr of zero", record(code=(64, 8)), "jr r0")
    run(group, "jr of zero after words that would write it", record(code=(64, 8)), "addi r0,r0,4", "jr r0")
    run(group, "jr of a step", record(), "addi r1,r0,6", "jr r1")
    run(group, "jr of a step that is overwritten", record(), "addi r1,r0,6", "addi r1,r1,26", "jr r1")
    run(group, "jr of the same value again", registers(6), "ori r1,r1,0", "0", "jr r1")
    run(group, "jr of a load", record(), "lw r1,r0(260)", "jr r1")
    run(group, "jr of a link", record(dpc=24), "0", "0", "0", "jr r31", "0", "0", "jal -16")
    run(group, "jr of a link that a jal behind it writes", record(gpr={31: 6}), "jr r31", "jal 0")
    run(group, "jr of the card, written in its delay slot", registers(6), "jr r1", "addi r1,r0,0")
    run(group, "jr of a step, written in its delay slot", record(), "addi r1,r0,6", "jr r1", "addi r1,r1,0")
    run(group, "jr of zero and of the card", registers(64, code=(64, 8)), "jr r1", "jr r0")


def loops(group):
    """Steps of the same word, of which one is named; and a writer that is long ago."""
    run(group, "writer in the last round", registers(252), "addi r1,r1,4", "lw r2,r1(0)", "beqz r0,-12")
    run(group, "jr in the second round", registers(-2 % 2**32), "addi r1,r1,2", "jr r1")
    run(group, "writer 40,000 steps before", record(limit=1000000), "addi r1,r0,6", "addi r2,r0,13333", "addi r2,r2,-1",
        "bnez r2,-8", "0", "lw r3,r1(0)")
    run(group, "the last step of the limit", record(limit=2), "addi r1,r0,6", "lw r2,r1(0)")


def memories(group):
    """Data that the run changes, and what the buffers hold past C and D."""
    run(group, "load of what a step stored", record(), "addi r1,r0,6", "sw r0(256),r1", "lw r2,r0(256)", "lw r3,r2(0)")
    # From the data as the run leaves them the branch would not be taken.
    run(group, "word that is stored over after its load", registers(r3=6), "lw r1,r0(256)", "sw r0(256),r0", "bnez r1,8",
        "addi r2,r0,1", "addi r3,r0,6", "lw r4,r3(0)")
    run(group, "transfers past C", record(code=(0, 2)), "0", "0", "jal 8", "jal 8")
    filled(group, "code filled past C", record(code=(0, 2)), "addi r1,r0,6", "addi r2,r0,1")
    filled(group, "data filled past D", record(data=(256, 1)), "addi r1,r0,256", "lw r2,r1(4)")
    filled(group, "data filled, and loaded", record(), "lw r1,r0(268)", "lw r2,r1(0)")


def filled(group, name, given, *program):
    """The rest of the code with a transfer that also writes, the data with a number."""
    rest = {"code": word("jal 8"), "data": 0xA5A5A5A5}
    group.call(name, "checker-run", {**given, **rest, **buffer_places("code", words(program))})


def records(group):
    """Counters and registers of any value."""
    full_of = {n: 2**32 - n for n in range(1, 32)}
    run(group, "any counters and registers, 21", record(dpc=0xFFFFFFFF, pc=0xFFFFFFFE, gpr=full_of))
    run(group, "any counters and registers, 22", record(dpc=0xFFFFFFFC, pc=3, gpr=full_of))
    run(group, "any PC', 21", record(pc=0xFFFFFFFE, gpr=full_of), "addi r1,r1,1")
    run(group, "any PC', 22", record(pc=0xFFFFFFFC, gpr=full_of), "addi r1,r1,1")
    run(group, "any registers, 25", record(gpr=full_of), "addi r16,r17,1", "lw r2,r17(0)")
    run(group, "any registers, 26", record(gpr=full_of), "addi r16,r17,1", "lw r2,r16(0)")
    run(group, "any special registers", record(spr={n: 2**32 - n for n in range(1, 12)}), "movs2i r3,SPR[11]", "sw r3(0),r1")
    run(group, "PC' before DPC", record(dpc=28, pc=0), "addi r1,r0,1", *["0"] * 6, "jal 1000")


def other_ends(group):
    first = "addi r1,r0,6"
    run(group, "23", record(), first, "04000000")
    run(group, "24", record(), first, "lh r2,r1(0)")
    run(group, "27", record(), first, "movi2s SPR[16],r1")
    run(group, "accepted", record(limit=4), first)
    run(group, "accepted before 25", record(limit=1), first, "lw r2,r1(0)")
    run(group, "accepted before 22", record(limit=2), "jal 1000")
    run(group, "limit 0", record(limit=0, dpc=2))


def refused(group):
    """Records of which each would end with one of the four."""
    bad = "lw r2,r0(2)"
    lent(group, "refused 1", record(), 1025, 1024, bad)
    run(group, "refused 6", record(code=(0, 0)), bad)
    run(group, "refused 8", record(code=(2, 8)), bad)
    run(group, "refused 9", record(code=(16376, 8)), bad)
    run(group, "refused 10", record(data=(4, 4)), bad)
    run(group, "refused 11", record(gpr={0: 1}), bad)
    run(group, "refused 12", record(limit=1000001), bad)


def single_steps(group):
    step(group, "21", record(dpc=2))
    step(group, "22", record(dpc=32))
    step(group, "25", registers(6), "lw r2,r1(0)")
    step(group, "26", registers(4), "lw r2,r1(0)")


def explained(group):
    for part in (zeros, writers, no_writers, first_steps, transfers, jumps, loops, memories, records):
        part(group)
    assert all(" because " in line for line in group.answers[1:])


def unexplained(group):
    for part in (other_ends, refused, single_steps):
        part(group)
    assert not any(" because " in line for line in group.answers[1:])


GROUPS = {
    "checker/because": ("runs with an explanation: each source of a register and of DPC.", explained),
    "checker/because-not": ("what has no explanation: other violations, accepted runs, refusals, single steps.", unexplained),
}
