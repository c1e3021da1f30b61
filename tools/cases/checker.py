"""Steps and runs of the assembler machine."""
from call_lines import buffer_places
from checker_expected import BUFFER, TWENTY, low
from words_expected import NAME, SYNTAX, TABLE, full, make, word

# The data words of a case that says nothing else.
DATA = {"data0": 0x11111111, "data1": 0x22222222, "data2": 0x33333333, "data3": 0x44444444}


def record(limit=1, code=(0, 8), data=(256, 4), dpc=None, pc=None, gpr={}, spr={}):
    """A record's places: code at 0 and data at 256 where a case says nothing else."""
    dpc = low(code[0]) if dpc is None else dpc
    places = {"code-start": code[0], "code-words": code[1], "data-start": data[0], "data-words": data[1], "limit": limit,
              "dpc": dpc, "pc": low(dpc + 4) if pc is None else pc}
    return {**places, **{f"r{n}": value for n, value in gpr.items()}, **{f"spr{n}": value for n, value in spr.items()}}


def registers(r1=0, r2=0, r3=0, **others):
    """A record for one step with R1 to R3."""
    return record(gpr={1: r1, 2: r2, 3: r3}, **others)


def words(program):
    """A program as words: of texts, words in hex and numbers."""
    return [word(text) if isinstance(text, str) else text for text in program]


def run(group, name, given, *program):
    group.call(name, "checker-run", {**given, **buffer_places("code", words(program)), **DATA})


def step(group, name, given, *program):
    group.call(f"step {name}", "checker-step", {**given, **buffer_places("code", words(program)), **DATA})


def check(group, name, given, *program):
    group.call(f"check {name}", "checker-check", {**given, **buffer_places("code", words(program)), **DATA})


def both(group, name, given, *program):
    run(group, name, given, *program)
    check(group, name, given, *program)
    step(group, name, given, *program)


def lent(group, name, given, code, data, filling):
    """Buffers of so many words, each of the same content."""
    given = {**given, "code": word(filling), "data": 7, "code-length": code, "data-length": data}
    group.call(name, "checker-run", given)
    group.call(f"check {name}", "checker-check", given)
    group.call(f"step {name}", "checker-step", given)


def by_hand(group):
    run(group, "andi of FFFFFFFF with 8000", registers(0xFFFFFFFF), "andi r2,r1,-32768")
    run(group, "sge of 80000000 and 1", registers(0x80000000, 1, 0xAAAAAAAA), "0022182B")
    run(group, "sge of 2 and 1", registers(2, 1), "0022182B")
    run(group, "jal 8 at 0", registers(), "0C000008")
    run(group, "beqz r0,-4 at 64", registers(code=(64, 8)), "1000FFFC")
    run(group, "whole case", record(limit=10, code=(0, 3)), "2401FFFC", "8C220008", "00000000")
    for ea in (268, 272, 270, 274):
        run(group, f"lw at {ea}", registers(ea), "lw r2,r1(0)")


def traps(group):
    run(group, "andi of 12345679 with -2", registers(0x12345679), "andi r2,r1,-2")
    run(group, "ori of F with -32768", registers(0xF), "ori r2,r1,-32768")
    run(group, "xori of 12345678 with -1", registers(0x12345678), "xori r2,r1,-1")
    run(group, "lw unaligned and outside", registers(3), "lw r2,r1(0)")
    run(group, "sw unaligned and outside", registers(3), "sw r1(0),r2")
    run(group, "DPC unaligned and outside", registers(dpc=1001, pc=1005))
    for limit in (1, 2, 3):
        run(group, f"jal out of the code, limit {limit}", record(limit=limit), "jal 1000")
    for limit in (2, 3):
        run(group, f"jr to 6, limit {limit}", registers(6, limit=limit), "jr r1")
    for limit in (2, 3):
        run(group, f"beqz to 6, limit {limit}", record(limit=limit), "beqz r0,2")
    run(group, "sgr of 1 and FFFFFFFF", registers(1, 0xFFFFFFFF), "sgr r3,r1,r2")
    run(group, "sgr of FFFFFFFF and 1", registers(0xFFFFFFFF, 1, 0xAAAAAAAA), "sgr r3,r1,r2")
    run(group, "sge of 7FFFFFFF and 80000000", registers(0x7FFFFFFF, 0x80000000), "sge r3,r1,r2")
    run(group, "beqz 8 with PC' 16", registers(pc=16), "beqz r0,8")
    run(group, "beqz not taken with PC' 16", registers(1, pc=16), "beqz r1,8")
    run(group, "bnez -8 with PC' 16", registers(1, pc=16), "bnez r1,-8")
    run(group, "jal 8 with PC' 16", registers(pc=16), "jal 8")
    run(group, "sw into the code", registers(4), "sw r1(0),r2")
    run(group, "lw from the code", registers(4), "lw r2,r1(0)")
    run(group, "sge of 7 and 7", registers(7, 7), "sge r3,r1,r2")
    run(group, "sge of 80000000 and 80000000", registers(0x80000000, 0x80000000), "sge r3,r1,r2")
    run(group, "sgr of 7 and 7", registers(7, 7, 0xAAAAAAAA), "sgr r3,r1,r2")
    both(group, "code that wraps to 0", record(code=(0xFFFFFFE0, 8)))
    both(group, "data that wraps to 0", record(data=(0xFFFFFFF0, 4)))
    both(group, "code that wraps past 0", record(code=(0xFFFFFFFC, 8)))


def violations(group):
    # At step 0.
    run(group, "21 at step 0", record(limit=100, dpc=2, pc=4))
    run(group, "22 at step 0", record(limit=100, dpc=32, pc=4))
    run(group, "23 at step 0", record(limit=100), "04000000")
    run(group, "24 at step 0", record(limit=100), "trap 5")
    run(group, "25 at step 0", record(limit=100), "lw r2,r0(257)")
    run(group, "26 at step 0", record(limit=100), "lw r2,r0(272)")
    run(group, "27 at step 0", registers(5, limit=100), "movi2s SPR[16],r1")
    # After steps that changed a register and a data word.
    first = ("addi r1,r1,5", "sw r0(260),r1")
    run(group, "21 at step 4", registers(5, limit=100), *first, "jr r1")
    run(group, "22 at step 2", record(limit=100, code=(0, 2)), *first)
    run(group, "23 at step 2", record(limit=100), *first, "0000003F")
    run(group, "24 at step 2", record(limit=100), *first, "addo r1,r2,r3")
    run(group, "25 at step 2, lw", record(limit=100), *first, "lw r1,r0(258)")
    run(group, "25 at step 2, sw", record(limit=100), *first, "sw r0(271),r1")
    run(group, "26 at step 2, lw", record(limit=100), *first, "lw r1,r0(252)")
    run(group, "26 at step 2, sw", record(limit=100), *first, "sw r0(-4),r1")
    run(group, "27 at step 2", record(limit=100), *first, "movi2s SPR[16],r1")
    # The edges of the code, and the order of the tests.
    run(group, "DPC before the code", record(code=(64, 8), dpc=60), "04000000")
    run(group, "DPC at the last word", record(code=(64, 3), dpc=72), "0", "0", "addi r1,r0,7")
    run(group, "DPC past the code", record(code=(64, 2), dpc=72), "0", "0", "04000000")
    run(group, "DPC FFFFFFFC", record(dpc=0xFFFFFFFC), "04000000")
    run(group, "lh unaligned", record(), "lh r2,r0(257)")
    run(group, "sb outside", record(), "sb r0(0),r1")
    # A single step.
    step(group, "21", record(dpc=2, pc=4))
    step(group, "22", record(dpc=32, pc=4))
    step(group, "23", record(), "04000000")
    step(group, "24", record(), "trap 5")
    step(group, "25", record(), "sw r0(257),r1")
    step(group, "26", record(), "sw r0(272),r1")
    step(group, "27", registers(5), "movi2s SPR[16],r1")


# What a case of a refusal would run.
GO = "addi r1,r0,5"


def together(group):
    """From the last fault up to all of them: the first of each line is the answer."""
    every = dict(limit=1000001, gpr={0: 1}, data=(16378, 1025), code=(16374, 8), dpc=0)
    faults = [
        ("12", dict(data=(256, 4), code=(0, 8), gpr={})),
        ("11, 12", dict(data=(256, 4), code=(0, 8))),
        ("10, 11, 12", dict(data=(4, 4), code=(0, 8))),
        ("9, 10, 11, 12", dict(data=(16376, 4), code=(16372, 8))),
        ("8, 9, 10, 11, 12", dict(data=(16378, 4))),
        ("6, 8, 9, 10, 11, 12", {}),
    ]
    for name, better in faults:
        both(group, "faults " + name, record(**{**every, **better}), GO)
    lent(group, "faults 1, 6, 8, 9, 10, 11, 12", record(**every), BUFFER, BUFFER - 1, GO)


def refusals(group):
    go = GO
    together(group)
    # 1
    for code, data in ((1023, 1024), (1025, 1024), (1024, 1023), (1024, 1025), (0, 0)):
        lent(group, f"buffers of {code} and {data} words", record(), code, data, go)
    # 6
    both(group, "no code", record(code=(0, 0)), go)
    both(group, "code of 1025 words", record(code=(0, 1025), data=(8192, 4)), go)
    both(group, "data of 1025 words", record(data=(8192, 1025)), go)
    both(group, "code and data of 1024 words", record(code=(0, 1024), data=(4096, 1024)), go)
    # 8
    both(group, "code from 2", record(code=(2, 8), dpc=0), go)
    both(group, "data from 257", record(data=(257, 4)), go)
    # 9
    both(group, "code to 16384", record(code=(16352, 8)), go)
    both(group, "code to 16388", record(code=(16356, 8)), go)
    both(group, "data to 16384", record(data=(16368, 4)), "lw r2,r0(16380)")
    both(group, "data to 16388", record(data=(16372, 4)), go)
    both(group, "no data at 16384", record(data=(16384, 0)), go)
    both(group, "no data at 16388", record(data=(16388, 0)), go)
    # 10
    both(group, "data in the code", record(data=(28, 1)), go)
    both(group, "code in the data", record(code=(252, 2), data=(248, 4)), go)
    both(group, "data over the end of the code", record(data=(28, 4)), go)
    both(group, "code over the end of the data", record(code=(268, 8)), go)
    both(group, "code and data the same", record(data=(0, 8)), go)
    both(group, "data after the code", record(data=(32, 4)), go)
    both(group, "code after the data", record(code=(272, 8)), go)
    both(group, "no data in the code", record(data=(4, 0)), go)
    # 11
    both(group, "R0 set", record(gpr={0: 1}), go)
    both(group, "R31 set", record(gpr={31: 1}), go)
    for n in range(32):
        run(group, f"set special register {n}", record(spr={n: 1}), go)


def limits(group):
    go = "addi r1,r1,1"
    loop = ("beqz r0,-4", go)
    run(group, "limit 0", record(limit=0), go)
    run(group, "limit 0 with DPC 3", record(limit=0, dpc=3, pc=5), go)
    run(group, "limit 7", record(limit=7), *loop)
    run(group, "limit 1000000", record(limit=1000000), *loop)
    run(group, "limit 1000001", record(limit=1000001), *loop)
    run(group, "limit FFFFFFFF", record(limit=0xFFFFFFFF), *loop)
    for limit in (0, 7, 1000001, 0xFFFFFFFF):
        step(group, "limit " + ("FFFFFFFF" if limit == 0xFFFFFFFF else str(limit)), record(limit=limit), go)


def special(group):
    run(group, "addi to R0", registers(5), "addi r0,r1,5")
    run(group, "lw to R0", registers(), "lw r0,r0(256)")
    run(group, "movs2i to R0", record(spr={1: 5}), "movs2i r0,SPR[1]")
    run(group, "R0 after a write", registers(5, 5, 5, limit=2), "addi r0,r1,5", "add r2,r0,r0")
    run(group, "movi2s to MODE of 0", record(), "movi2s SPR[16],r1")
    for n in range(32):
        run(group, f"movi2s to special register {n}", registers(5), f"movi2s SPR[{n}],r1")
    for n in range(32):
        run(
            group,
            f"movs2i from special register {n}",
            registers(0, 0xAAAAAAAA, spr={k: 256 + k for k in range(12)}),
            f"movs2i r2,SPR[{n}]",
        )


def transfers(group):
    slot = ("jal 12", "beqz r0,8", "addi r2,r0,2", "addi r3,r0,3", "addi r4,r0,4", "addi r5,r0,5", "addi r6,r0,6")
    for limit in (1, 2, 3, 4):
        run(group, f"branch in a delay slot, limit {limit}", record(limit=limit), *slot)
    two = ("jr r1", "jr r2", "0", "addi r3,r0,3", "0", "0", "addi r4,r0,4")
    run(group, "jr in the delay slot of jr", registers(24, 12, limit=4), *two)
    run(group, "jal back", record(dpc=8), "0", "0", "jal -8")
    run(group, "there and back", record(limit=6), "jal 12", "addi r1,r0,1", "addi r2,r0,2", "0", "jr r31", "addi r3,r0,3")
    run(group, "jal with PC' FFFFFFFC", record(pc=0xFFFFFFFC, gpr={31: 5}), "jal 8")
    run(group, "nop with PC' FFFFFFFC", record(pc=0xFFFFFFFC), "0")
    run(
        group,
        "sum of the data",
        registers(256, limit=24),
        "lw r2,r1(0)",
        "addi r1,r1,4",
        "add r3,r3,r2",
        "addi r4,r1,-272",
        "bnez r4,-20",
        "sw r0(256),r3",
    )


def instructions(group):
    run(group, "lw", registers(264), full("lw r2,r1(-4)"))
    run(group, "sw", registers(264, 0x12345678), full("sw r1(4),r2"))
    run(group, "movs2i", record(spr={3: 0x12345678}), full("movs2i r2,SPR[3]"))
    run(group, "movi2s", registers(0x12345678), full("movi2s SPR[3],r1"))
    run(group, "add", registers(0xFFFFFFFF, 2), full("add r3,r1,r2"))
    run(group, "sub", registers(1, 2), full("sub r3,r1,r2"))
    run(group, "slli", registers(0x80000001), full("slli r2,r1,31"))
    run(group, "srli", registers(0x80000001), full("srli r2,r1,31"))
    run(group, "addi", registers(1), full("addi r2,r1,-2"))
    run(group, "lhgi", registers(1), full("lhgi r2,-2"))
    run(group, "andi", registers(0x12345678), full("andi r2,r1,4095"))
    run(group, "ori", registers(0x12345678), full("ori r2,r1,4095"))
    run(group, "xori", registers(0x12345678), full("xori r2,r1,4095"))
    run(group, "sne", registers(0x80000000, 0), full("sne r3,r1,r2"))
    run(group, "sgr", registers(3, 2), full("sgr r3,r1,r2"))
    run(group, "sge", registers(3, 2), full("sge r3,r1,r2"))
    run(group, "beqz", registers(0), full("beqz r1,16"))
    run(group, "bnez", registers(3), full("bnez r1,16"))
    run(group, "jal", registers(), full("jal 16"))
    run(group, "jr", registers(20), full("jr r1"))
    # The other 38: legal words that the assembler machine does not run.
    zero = {field: 0 for syntax in SYNTAX for field in NAME.findall(syntax)}
    for name in TABLE:
        if name not in TWENTY:
            run(group, name, record(), make(name, zero))


GROUPS = {
    "checker/by-hand": ("what document 01 lists under \"Checked by hand\".", by_hand),
    "checker/traps": ("what document 01 lists under \"Traps for the builder\".", traps),
    "checker/violations": ("every violation, at step 0, after steps and by a single step, and the order of the tests.",
                           violations),
    "checker/refusals": ("every refusal alone, and beside all that come after it.", refusals),
    "checker/limits": ("the limit of a run, which a single step does not look at.", limits),
    "checker/special": ("R0 and every special register.", special),
    "checker/transfers": ("jumps and branches, also one behind another.", transfers),
    "checker/instructions": ("all 58: what the twenty do, with ones in every field that is not used, and 24 for the others.",
                             instructions),
}
