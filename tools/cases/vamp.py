"""Steps and runs of the VAMP machine."""
import thesis_program
from vamp_expected import EDPC, EPC, ESR, MEMORY, SIZE, SR, low
from words_expected import TABLE, full, make, unused, word

# What memory holds where a case says nothing else: bytes of both signs, and a legal word at the very end.
BACKGROUND = {256: 0xB5B67798, 260: 0x91F233D4, MEMORY - 4: 0x8C020100}


def record(r1=0, r2=0, r3=0, dpc=0, pc=None, gpr={}, spr={}, length=2048):
    """The places of a record with R1 to R3, and the length of the memory that is lent."""
    gpr = {1: r1, 2: r2, 3: r3, **gpr}
    places = {"dpc": dpc, "pc": low(dpc + 4) if pc is None else pc, "memory-length": length}
    return {**places, **{f"r{n}": value for n, value in gpr.items()}, **{f"spr{n}": value for n, value in spr.items()}}


def memory(contents):
    """The places of memory words, from their addresses."""
    return {f"memory{at // 4}": content for at, content in contents.items()}


def laid(program, start=0):
    """The places of memory: the background, and a program from an address on."""
    contents = {start + 4 * n: word(text) for n, text in enumerate(program)}
    return memory({**BACKGROUND, **contents})


def run(group, name, given, limit, *program, start=0):
    group.call(name, "vamp-run", {**given, **laid(program, start), "steps": limit})


def step(group, name, given, *program, start=0):
    group.call(f"step {name}", "vamp-step", {**given, **laid(program, start)})


def both(group, name, given, *program):
    run(group, name, given, 1, *program)
    step(group, name, given, *program)


def by_hand(group):
    both(group, "andi of FFFFFFFF with 8000", record(0xFFFFFFFF), "andi r2,r1,-32768")
    both(group, "sge of 80000000 and 1", record(0x80000000, 1, 0xAAAAAAAA), "0022182B")
    both(group, "sge of 2 and 1", record(2, 1), "0022182B")
    both(group, "jal 8 at 0", record(), "0C000008")
    run(group, "beqz r0,-4 at 64", record(dpc=64), 1, "1000FFFC", start=64)
    both(group, "addo of 7FFFFFFF and 1, SR 0", record(0, 0x7FFFFFFF, 1), "00430820")
    both(group, "addo of 7FFFFFFF and 1, SR 64", record(0, 0x7FFFFFFF, 1, spr={SR: 64}), "00430820")
    both(group, "movi2s to MODE of 1", record(1), "00200411")
    both(group, "trap 5", record(), "F8000005")


def masks(group, name, r1, r2, text):
    """An overflow, or none, with SR bit 6 at 0 and at 1."""
    run(group, name + ", SR 0", record(r1, r2), 1, text)
    run(group, name + ", SR 64", record(r1, r2, spr={SR: 64}), 1, text)


def overflows(group):
    addo, subo = "addo r3,r1,r2", "subo r3,r1,r2"
    masks(group, "addo of 80000000 and FFFFFFFF", 0x80000000, 0xFFFFFFFF, addo)
    masks(group, "addo of 80000000 and 7FFFFFFF", 0x80000000, 0x7FFFFFFF, addo)
    masks(group, "addo of FFFFFFFF and FFFFFFFF", 0xFFFFFFFF, 0xFFFFFFFF, addo)
    masks(group, "addo of 7FFFFFFF and 0", 0x7FFFFFFF, 0, addo)
    masks(group, "addo of 40000000 and 40000000", 0x40000000, 0x40000000, addo)
    masks(group, "subo of 80000000 and 1", 0x80000000, 1, subo)
    masks(group, "subo of 0 and 80000000", 0, 0x80000000, subo)
    masks(group, "subo of 7FFFFFFF and FFFFFFFF", 0x7FFFFFFF, 0xFFFFFFFF, subo)
    masks(group, "subo of 80000000 and 80000000", 0x80000000, 0x80000000, subo)
    masks(group, "subo of FFFFFFFF and 7FFFFFFF", 0xFFFFFFFF, 0x7FFFFFFF, subo)
    masks(group, "addio of 7FFFFFFF and 1", 0x7FFFFFFF, 0, "addio r3,r1,1")
    masks(group, "addio of 80000000 and -1", 0x80000000, 0, "addio r3,r1,-1")
    masks(group, "addio of 7FFFFFFF and -1", 0x7FFFFFFF, 0, "addio r3,r1,-1")
    masks(group, "subio of 80000000 and 1", 0x80000000, 0, "subio r3,r1,1")
    masks(group, "subio of 7FFFFFFF and -1", 0x7FFFFFFF, 0, "subio r3,r1,-1")
    masks(group, "subio of 80000000 and -1", 0x80000000, 0, "subio r3,r1,-1")
    masks(group, "add of 7FFFFFFF and 1", 0x7FFFFFFF, 1, "add r3,r1,r2")
    masks(group, "sub of 80000000 and 1", 0x80000000, 1, "sub r3,r1,r2")
    masks(group, "addo to R0 of 7FFFFFFF and 1", 0x7FFFFFFF, 1, "addo r0,r1,r2")
    run(group, "addo of 7FFFFFFF and 1, SR FFFFFFBF", record(0x7FFFFFFF, 1, spr={SR: 0xFFFFFFBF}), 1, addo)
    run(group, "addo of 7FFFFFFF and 1, SR FFFFFFFF", record(0x7FFFFFFF, 1, spr={SR: 0xFFFFFFFF}), 1, addo)


def orders(group):
    # 1 before 2, 3 and 4.
    both(group, "fetch misaligned", record(dpc=2), "addi r1,r0,1")
    both(group, "fetch misaligned and past memory", record(dpc=MEMORY + 1))
    run(group, "fetch misaligned at the last word", record(dpc=MEMORY - 2), 1)
    run(group, "fetch misaligned of an illegal word", record(dpc=1), 1, "04000000")
    run(group, "fetch misaligned of a misaligned lw", record(257, dpc=3), 1, "lw r2,r1(0)")
    # 2.
    both(group, "fetch past memory", record(dpc=MEMORY))
    run(group, "fetch at FFFFFFFC", record(dpc=0xFFFFFFFC), 1)
    run(group, "fetch of the last word", record(dpc=MEMORY - 4), 1)
    run(group, "fetch past memory after the last word", record(dpc=MEMORY - 4), 2)
    # 3, with fields of a misaligned load, a trap and an overflow.
    both(group, "illegal opcode 01", record(), "04000000")
    run(group, "illegal opcode 22 at 257", record(257), 1, "88220000")
    run(group, "illegal opcode 3D", record(), 1, "F4000005")
    run(group, "illegal function 08", record(0x7FFFFFFF, 1, spr={SR: 64}), 1, "00221808")
    run(group, "illegal function 30", record(), 1, "00000030")
    run(group, "floating-point opcode 11", record(), 1, "44000000")
    later_orders(group)


def later_orders(group):
    # 4 before 5.
    both(group, "lw misaligned and past memory", record(MEMORY + 1), "lw r2,r1(0)")
    run(group, "sw misaligned and past memory", record(MEMORY + 2, 5), 1, "sw r1(0),r2")
    run(group, "lh misaligned and past memory", record(MEMORY + 1), 1, "lh r2,r1(0)")
    run(group, "sh misaligned and past memory", record(0xFFFFFFFF, 5), 1, "sh r1(0),r2")
    # 5.
    both(group, "lw past memory", record(MEMORY), "lw r2,r1(0)")
    run(group, "sw past memory", record(MEMORY, 5), 1, "sw r1(0),r2")
    run(group, "lh past memory", record(MEMORY), 1, "lh r2,r1(0)")
    run(group, "lb past memory", record(MEMORY), 1, "lb r2,r1(0)")
    run(group, "sb past memory", record(MEMORY + 1, 5), 1, "sb r1(0),r2")
    run(group, "lbu at FFFFFFFF", record(0xFFFFFFFF), 1, "lbu r2,r1(0)")
    run(group, "lw where ea wraps to 260", record(0xFFFFFFFC), 1, "lw r2,r1(264)")
    run(group, "lw at 80000100", record(0x80000100), 1, "lw r2,r1(0)")
    # 6, with SR bit 6 at 1.
    run(group, "trap -1", record(), 1, "trap -1")
    run(group, "trap 0, SR 64", record(spr={SR: 64}), 1, "trap 0")
    # 8, and neighbours of MODE.
    run(group, "movi2s to MODE of 80000000", record(0x80000000, spr={SR: 64}), 1, "movi2s SPR[16],r1")
    run(group, "movi2s to MODE of 0", record(), 1, "movi2s SPR[16],r1")
    run(group, "movi2s to 15 of 1", record(1), 1, "movi2s SPR[15],r1")
    run(group, "movi2s to 17 of 1", record(1), 1, "movi2s SPR[17],r1")


def accesses(group):
    for name in ("lb", "lh", "lw", "lbu", "lhu"):
        for at in range(256, 264):
            run(group, f"{name} at {at}", record(256), 1, f"{name} r2,r1({at - 256})")
    for name in ("sb", "sh", "sw"):
        for at in range(256, 264):
            run(group, f"{name} at {at}", record(256, 0xA1E2C384), 1, f"{name} r1({at - 256}),r2")
    for name, at in (("lb", 16383), ("lbu", 16383), ("lh", 16382), ("lhu", 16382), ("lw", 16380)):
        run(group, f"{name} at {at}", record(16384), 1, f"{name} r2,r1({at - 16384})")
    for name, at in (("sb", 16383), ("sh", 16382), ("sw", 16380)):
        run(group, f"{name} at {at}", record(16384, 0xA1E2C384), 1, f"{name} r1({at - 16384}),r2")
    run(group, "lb of a positive byte", record(256), 1, "lb r2,r1(1)")
    run(group, "lw to R0", record(256), 1, "lw r0,r1(0)")


def special(group):
    for n in range(32):
        run(group, f"movi2s to special register {n}", record(5), 1, f"movi2s SPR[{n}],r1")
    marks = {k: 0x100 + k for k in range(12)}
    for n in range(32):
        run(group, f"movs2i from special register {n}", record(0, 0xAAAAAAAA, spr=marks), 1, f"movs2i r2,SPR[{n}]")
    both(group, "rfe", record(spr=marks), "rfe")
    run(group, "rfe, with other bits", record(spr=marks), 1, f"{full('rfe'):08X}")
    run(group, "rfe to a misaligned DPC", record(spr={ESR: 64, EPC: 8, EDPC: 6}), 2, "rfe")
    onward = ("0", "addi r1,r0,1", "addi r2,r0,2")
    run(group, "rfe and on", record(spr={ESR: 64, EPC: 12, EDPC: 8}), 3, "rfe", *onward)
    run(group, "rfe in a delay slot", record(spr={EPC: 12, EDPC: 16}), 3, "jal 20", "rfe", *onward)


def transfers(group):
    both(group, "jalr r31", record(gpr={31: 64}), "jalr r31")
    run(group, "jalr r1", record(64), 1, "jalr r1")
    run(group, "jalr r0 with PC' 400", record(pc=400), 1, "jalr r0")
    run(group, "j -8 with PC' 400", record(pc=400), 1, "j -8")
    run(group, "jal back with PC' 400", record(pc=400), 1, "jal -400")
    run(group, "beqz 8 with PC' 400", record(pc=400), 1, "beqz r0,8")
    run(group, "jal with PC' FFFFFFFC", record(pc=0xFFFFFFFC, gpr={31: 5}), 1, "jal 8")
    slots = ("jal 12", "j 8", "addi r2,r0,2", "addi r3,r0,3", "addi r4,r0,4", "addi r5,r0,5")
    for limit in (1, 2, 3, 4):
        run(group, f"jump in a delay slot, limit {limit}", record(), limit, *slots)
    run(group, "a target that is misaligned", record(6), 5, "jr r1")
    run(group, "a target past memory", record(MEMORY), 5, "jr r1")


def rewriting(group):
    """Programs that store into their own code."""
    new = word("addi r2,r0,7")
    run(group, "sw over a later word", record(new), 4, "sw r0(8),r1", "0", "trap 1")
    run(group, "sw over the next word", record(new), 3, "sw r0(4),r1", "trap 1")
    run(group, "sb over the immediate of the next word", record(9), 3, "sb r0(4),r1", "addi r2,r0,7")
    run(group, "sh over the opcode of the next word", record(0x2402), 3, "sh r0(6),r1", "F8000007")
    run(group, "sw of an illegal word", record(0x04000000), 5, "sw r0(8),r1")
    run(group, "sw over itself in a loop", record(word("trap 2")), 9, "sw r0(0),r1", "beqz r0,-8")


def sequences(group):
    over = ("addo r3,r1,r2", "bnez r4,-8", "subi r4,r4,1", "trap 3")
    both(group, "masked", record(0x7FFFFFFF, 1), "addo r3,r1,r2")
    for limit in (0, 1, 4, 8, 100):
        run(group, f"masked overflow in a loop, limit {limit}", record(0x7FFFFFFF, 1, gpr={4: 2}), limit, *over)
    twice = ("addo r3,r1,r2", "addo r3,r1,r2", "addo r3,r0,r2", "trap 3")
    run(group, "masked overflow and a trap", record(0x7FFFFFFF, 1), 100, *twice)
    run(group, "limit 0 with DPC 3", record(dpc=3, pc=5), 0)
    run(group, "endless loop, limit 100000", record(), 100000, "beqz r0,-4", "addi r1,r1,1")
    mode = ("addi r2,r0,2", "sw r0(256),r2", "movi2s SPR[0],r1", "movi2s SPR[16],r1")
    run(group, "MODE after three steps", record(1), 100, *mode)


def instructions(group):
    """All 58, with ones in every field that is not used."""
    given = dict(r1=0x80000104, r2=0x00000103, r3=0xAAAAAAAA)
    for name in TABLE:
        fields = {"RD": 3, "RS1": 1, "RS2": 2, "SA": 4, "imm": -4}
        if name in SIZE:
            fields["RS1"], fields["imm"] = 2, -3
        text = f"{make(name, fields) | unused(name):08X}"
        run(group, f"word {text}", record(**given, spr={ESR: 1, EPC: 3, EDPC: 4}), 1, text)


def refusals(group):
    go = "addi r1,r0,5"
    for length in (0, 2047, 2049):
        for name, gpr in (("", {}), (", R0 set", {0: 1})):
            both(group, f"memory of {length} double words{name}", record(gpr=gpr, length=length), go)
    both(group, "R0 set", record(gpr={0: 1}), go)
    both(group, "R31 set", record(gpr={31: 1}), go)
    run(group, "R0 set and DPC misaligned", record(gpr={0: 1}, dpc=1), 1, go)
    run(group, "R0 set, limit 0", record(gpr={0: 1}), 0, go)
    for n in range(32):
        run(group, f"set special register {n}", record(spr={n: 1}), 1, go)


def thesis(group):
    program, names = thesis_program.assemble()
    contents = {at: content for at, content, _ in program} | thesis_program.data(names)
    given = {**record(dpc=thesis_program.CODE), **memory(contents), "steps": 100000}
    group.call("integer square root of 453", "vamp-run", given)


GROUPS = {
    "vamp/by-hand": ("what document 01 lists under \"Checked by hand\".", by_hand),
    "vamp/overflows": ("overflows of both signs, and none, with SR bit 6 at 0 and at 1.", overflows),
    "vamp/orders": ("every event, and each before those that come after it.", orders),
    "vamp/accesses": ("every load and store at every place of a double word, and at the end of memory.", accesses),
    "vamp/special": ("every special register, and rfe.", special),
    "vamp/transfers": ("jumps and branches, also one behind another.", transfers),
    "vamp/rewriting": ("programs that store into their own code.", rewriting),
    "vamp/sequences": ("runs over more than one step, and the number of masked events.", sequences),
    "vamp/instructions": ("all 58, with ones in every field that is not used.", instructions),
    "vamp/refusals": ("every refusal of the VAMP side.", refusals),
    "vamp/thesis": ("the program of the thesis, table A.8.", thesis),
}
