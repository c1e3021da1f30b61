"""The assembler machine and its checked steps and runs, by document 01 and nothing else; the explanations, by document 02.

The simulator is written from document 01's "What an instruction does", "Tests of a checked step" and "The run card", the
explanations from request Seven of document 02; the words come from the tables of words_expected.py.
"""
import collections
import functools

import words_expected

# Document 01, "Words": what the assembler machine runs.
TWENTY = """lw sw movs2i movi2s add sub slli srli addi lhgi andi ori xori sne sgr sge beqz bnez jal jr""".split()

# Document 01, "What an instruction does": the thirteen special registers.
MODE = 16
THIRTEEN = [*range(12), MODE]

# Document 01, "The run card": the length of each buffer in words, modelled memory in bytes, the largest limit.
BUFFER = 1024
MEMORY = 16384
MOST_STEPS = 1000000


# A long run reads the same words over and over.
read = functools.lru_cache(maxsize=4096)(words_expected.read)


# ---- The machine


def signed(x):
    return x - 2**32 if x >= 2**31 else x


def low(x):
    return x % 2**32


class Machine:
    """A record: the regions as (start, words), the limit, the counters and the registers."""

    def __init__(self, limit=1, code=(0, 8), data=(256, 4), dpc=None, pc=None, gpr={}, spr={}):
        self.code, self.data, self.limit = code, data, limit
        self.dpc = low(code[0]) if dpc is None else dpc
        self.pc = low(self.dpc + 4) if pc is None else pc
        self.gpr = [gpr.get(n, 0) for n in range(32)]
        self.spr = [spr.get(n, 0) for n in range(32)]

    def copy(self):
        other = Machine(self.limit, self.code, self.data, self.dpc, self.pc)
        other.gpr, other.spr = list(self.gpr), list(self.spr)
        return other


def addresses(region):
    start, words = region
    return range(start, start + 4 * words)


def overlap(one, other):
    """Whether some address is in both regions."""
    one, other = addresses(one), addresses(other)
    return bool(one) and bool(other) and one.start < other.stop and other.start < one.stop


def tests(machine, code, data, single):
    """The refusal table as far as it concerns the assembler side: whether the test holds, by its number."""
    regions = (machine.code, machine.data)
    return {
        1: lambda: len(code) != BUFFER or len(data) != BUFFER,
        6: lambda: not 1 <= machine.code[1] <= 1024 or machine.data[1] > 1024,
        8: lambda: any(start % 4 for start, _ in regions),
        9: lambda: any(start + 4 * words > MEMORY for start, words in regions),
        10: lambda: overlap(*regions),
        11: lambda: machine.gpr[0] or any(machine.spr[n] for n in range(32) if n not in THIRTEEN or n == MODE),
        12: lambda: not single and machine.limit > MOST_STEPS,
    }


def refusal(machine, code, data, single):
    """The number of the first test that holds, or 0."""
    return next((number for number, holds in tests(machine, code, data, single).items() if holds()), 0)


# What the register instructions put in RD.
VALUES = {
    "add": lambda a, b, imm, sa: low(a + b),
    "sub": lambda a, b, imm, sa: low(a - b),
    "slli": lambda a, b, imm, sa: low(a * 2**sa),
    "srli": lambda a, b, imm, sa: a // 2**sa,
    "addi": lambda a, b, imm, sa: low(a + imm),
    "lhgi": lambda a, b, imm, sa: low(imm * 65536),
    "andi": lambda a, b, imm, sa: a & low(imm),
    "ori": lambda a, b, imm, sa: a | low(imm),
    "xori": lambda a, b, imm, sa: a ^ low(imm),
    "sne": lambda a, b, imm, sa: int(signed(a) != signed(b)),
    "sgr": lambda a, b, imm, sa: int(signed(a) > signed(b)),
    "sge": lambda a, b, imm, sa: int(signed(a) >= signed(b)),
}


def tested(m, code):
    """The number of the first test that a step at DPC would break, or 0, and the word; None for the word of 21 and 22."""
    if m.dpc % 4:
        return 21, None
    if m.dpc not in addresses(m.code):
        return 22, None
    here = code[addresses(m.code).index(m.dpc) // 4]
    found = read(here)
    if found is None:
        return 23, here
    name, f = found
    if name not in TWENTY:
        return 24, here
    if name in ("lw", "sw"):
        ea = low(m.gpr[f["RS1"]] + f["imm"])
        if ea % 4:
            return 25, here
        if ea not in addresses(m.data):
            return 26, here
    if name == "movi2s" and f["SA"] == MODE and m.gpr[f["RS1"]] != 0:
        return 27, here
    return 0, here


# A step that was taken: its DPC, its word, the general register that it wrote (None where it wrote none), and whether it was a
# taken transfer.
Step = collections.namedtuple("Step", "dpc word wrote taken")


def take(m, data, name, f):
    """The step of one of the twenty. What it did: the general register that it wrote, or None, and whether it was a taken
    transfer."""
    a = m.gpr[f["RS1"]] if "RS1" in f else None
    b = m.gpr[f["RS2"]] if "RS2" in f else None
    imm, sa = f.get("imm"), f.get("SA")
    onward = low(m.pc + 4)

    # Register and value, the target of a taken transfer.
    put, target = None, None
    if name in ("lw", "sw"):
        at = addresses(m.data).index(low(a + imm)) // 4
        if name == "lw":
            put = f["RD"], data[at]
        else:
            data[at] = m.gpr[f["RD"]]
    elif name == "movi2s":
        if sa in THIRTEEN:
            m.spr[sa] = a
    elif name == "movs2i":
        put = f["RD"], m.spr[sa] if sa in THIRTEEN else 0
    elif name in ("beqz", "bnez"):
        if (a == 0) == (name == "beqz"):
            target = low(m.pc + imm)
    elif name == "jal":
        put, target = (31, onward), low(m.pc + imm)
    elif name == "jr":
        target = a
    else:
        put = f["RD"], VALUES[name](a, b, imm, sa)
    # R0 is never written.
    wrote = put[0] if put and put[0] != 0 else None
    if wrote:
        m.gpr[wrote] = put[1]
    m.dpc, m.pc = m.pc, onward if target is None else target
    return wrote, target is not None


def checked_step(m, code, data, steps=None):
    """One checked step: the number and the word of the violation, with nothing changed, or (0, the word). A step that is taken
    is added to `steps`."""
    dpc = m.dpc
    number, here = tested(m, code)
    if not number:
        did = take(m, data, *read(here))
        if steps is not None:
            steps.append(Step(dpc, here, *did))
    return number, here


def run(m, code, data, limit, steps=None):
    """Steps until the limit or the first violation: ("accepted", steps), or ("violation", number, step, DPC, word), where the
    word is None for 21 and 22. The record and the data are changed in place; the steps taken are added to `steps`."""
    for taken in range(limit):
        dpc = m.dpc
        number, here = checked_step(m, code, data, steps)
        if number:
            return "violation", number, taken, dpc, here
    return "accepted", limit


def call(single, m, code, data, steps=None):
    """The answer of a single step or of a run: ("refused", number), or that of the steps."""
    number = refusal(m, code, data, single)
    return ("refused", number) if number else run(m, code, data, 1 if single else m.limit, steps)


# ---- Document 02, request Seven

# Where something came from, if no step is named.
CARD, ZERO, RAN_ON = "from card", "from zero", "ran on"


def source(steps, k, register):
    """Of a register before step k: the last earlier step that wrote it, or "card" if none did, or "zero" for R0."""
    if register == 0:
        return ZERO
    return next((step for step in reversed(range(k)) if steps[step].wrote == register), CARD)


def explanation(steps, kind, number, k=None, dpc=None, word=None):
    """Of a run's answer, the steps that it took being all before step k: what is explained, a register or DPC, with the number
    of the step that it came from, or with one of the words above. Empty where there is no explanation."""
    if kind != "violation":
        return []
    if number in (25, 26):
        _, f = read(word)
        return [(f"r{f['RS1']}", source(steps, k, f["RS1"]))]
    if number in (21, 22):
        return led(steps, k)
    return []


def led(steps, k):
    """What led to the DPC of step k."""
    if k in (0, 1):
        return [("dpc", CARD)]
    before = k - 2
    if not steps[before].taken:
        return [("dpc", RAN_ON)]
    name, f = read(steps[before].word)
    return [("dpc", before)] + ([(f"r{f['RS1']}", source(steps, before, f["RS1"]))] if name == "jr" else [])


assert len(TWENTY) == 20 and len(THIRTEEN) == 13
