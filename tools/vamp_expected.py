"""The VAMP machine, by document 01 and nothing else.

The simulator is written from document 01's "What an instruction does", "Events of a VAMP step" and "The run card"; its memory
is bytes. The words come from the tables of words_expected.py.
"""
import functools

import words_expected

# Document 01, "What an instruction does": the thirteen special registers.
SR, ESR, EPC, EDPC, MODE = 0, 1, 3, 4, 16
THIRTEEN = [*range(12), MODE]

# Document 01, "Events of a VAMP step": modelled memory in bytes, and the bits of the cause word.
MEMORY = 16384
ILLEGAL, MISALIGNED, TRAP, OVERFLOW = 1 << 1, 1 << 2, 1 << 5, 1 << 6

# Size in bytes of each load and store.
SIZE = {"lb": 1, "lbu": 1, "sb": 1, "lh": 2, "lhu": 2, "sh": 2, "lw": 4, "sw": 4}

# The instructions that may overflow.
OVERFLOWING = ("addo", "addio", "subo", "subio")

# A long run reads the same words over and over.
read = functools.lru_cache(maxsize=4096)(words_expected.read)


# ---- The machine


def signed(x):
    return x - 2**32 if x >= 2**31 else x


def low(x):
    return x % 2**32


class Machine:
    def __init__(self, r1=0, r2=0, r3=0, dpc=0, pc=None, gpr={}, spr={}, length=2048):
        self.dpc, self.pc = dpc, low(dpc + 4) if pc is None else pc
        self.gpr = [{1: r1, 2: r2, 3: r3, **gpr}.get(n, 0) for n in range(32)]
        self.spr = [spr.get(n, 0) for n in range(32)]
        self.length = length
        self.memory = bytearray(MEMORY)

    def store(self, at, size, value):
        self.memory[at : at + size] = (value % 2 ** (8 * size)).to_bytes(size, "little")

    def load(self, at, size, sign=False):
        return int.from_bytes(self.memory[at : at + size], "little", signed=sign)

    def copy(self):
        other = Machine(dpc=self.dpc, pc=self.pc, length=self.length)
        other.gpr, other.spr, other.memory = list(self.gpr), list(self.spr), bytearray(self.memory)
        return other

    def refusal(self):
        """The number of the first test that concerns the VAMP side and holds, or 0."""
        if self.length != 2048:
            return 1
        if self.gpr[0] or any(self.spr[n] for n in range(32) if n not in THIRTEEN or n == MODE):
            return 11
        return 0

    def event(self):
        """Answer and cause word of a step at DPC, by the first event in document 01's order; (0, 0) where there is none."""
        if self.dpc % 4:
            return 31, MISALIGNED
        if self.dpc >= MEMORY:
            return 32, 0
        found = read(self.load(self.dpc, 4))
        if found is None:
            return 31, ILLEGAL
        name, f = found
        if name in SIZE:
            ea = low(self.gpr[f["RS1"]] + f["imm"])
            if ea % SIZE[name]:
                return 31, MISALIGNED
            if ea >= MEMORY:
                return 32, 0
        if name == "trap":
            return 31, TRAP
        if name in OVERFLOWING and not -(2**31) <= self.exact(name, f) <= 2**31 - 1:
            return 31 if self.spr[SR] >> 6 & 1 else 0, OVERFLOW
        if name == "movi2s" and f["SA"] == MODE and self.gpr[f["RS1"]] != 0:
            return 33, 0
        return 0, 0

    def exact(self, name, f):
        """The sum or the difference as a whole number."""
        a, b = signed(self.gpr[f["RS1"]]), f["imm"] if name.endswith("io") else signed(self.gpr[f["RS2"]])
        return a + b if name.startswith("add") else a - b

    def step(self):
        """Answer and cause word; all answers but 0 change nothing."""
        answer, cause = self.event()
        if answer == 0:
            self.take(*read(self.load(self.dpc, 4)))
        return answer, cause

    def take(self, name, f):
        """The step of an instruction."""
        a = self.gpr[f["RS1"]] if "RS1" in f else None
        b = self.gpr[f["RS2"]] if "RS2" in f else None
        imm, sa, rd = f.get("imm"), f.get("SA"), f.get("RD")
        onward = low(self.pc + 4)

        # Register and value, DPC, the next PC'.
        put, here, after = None, self.pc, onward
        if name in SIZE:
            ea, size = low(a + imm), SIZE[name]
            if name[0] == "s":
                self.store(ea, size, self.gpr[rd])
            else:
                put = rd, low(self.load(ea, size, name in ("lb", "lh")))
        elif name in OVERFLOWING:
            put = rd, low(self.exact(name, f))
        elif name == "movi2s":
            if sa in THIRTEEN:
                self.spr[sa] = a
        elif name == "movs2i":
            put = rd, self.spr[sa] if sa in THIRTEEN else 0
        elif name == "rfe":
            self.spr[SR], here, after = self.spr[ESR], self.spr[EDPC], self.spr[EPC]
        elif name in ("beqz", "bnez"):
            if (a == 0) == (name == "beqz"):
                after = low(self.pc + imm)
        elif name in ("j", "jal", "jr", "jalr"):
            put = (31, onward) if name in ("jal", "jalr") else None
            after = low(self.pc + imm) if name in ("j", "jal") else a
        else:
            put = rd, value(name, a, b, imm, sa)
        if put and put[0] != 0:
            self.gpr[put[0]] = put[1]
        self.dpc, self.pc = here, after

    def run(self, limit):
        """Steps taken, answer and cause word of the last step, how many of the steps taken reported a cause."""
        taken, masked, answer = 0, 0, (0, 0)
        while taken < limit:
            answer = self.step()
            if answer[0]:
                break
            taken, masked = taken + 1, masked + (answer[1] != 0)
        return taken, *answer, masked


def value(name, a, b, imm, sa):
    """What the register instructions without an event put in RD."""
    if name in ("lhg", "lhgi"):
        return low((a % 65536 if name == "lhg" else imm) * 65536)
    if name in ("clr", "clri", "set", "seti"):
        return int(name.startswith("set"))
    if name in ("slli", "slai", "srli", "srai"):
        return VALUES[name[:-1]](a, sa)
    return VALUES[name[:-1]](a, low(imm)) if name.endswith("i") else VALUES[name](a, b)


# By the mnemonic without the i of an immediate. Variable shifts use the low five bits, which an SA has.
VALUES = {
    "sll": lambda a, b: low(a * 2 ** (b % 32)),
    "sla": lambda a, b: low(a * 2 ** (b % 32)),
    "srl": lambda a, b: a // 2 ** (b % 32),
    "sra": lambda a, b: low(signed(a) // 2 ** (b % 32)),
    "add": lambda a, b: low(a + b),
    "sub": lambda a, b: low(a - b),
    "and": lambda a, b: a & b,
    "or": lambda a, b: a | b,
    "xor": lambda a, b: a ^ b,
    "sgr": lambda a, b: int(signed(a) > signed(b)),
    "seq": lambda a, b: int(signed(a) == signed(b)),
    "sge": lambda a, b: int(signed(a) >= signed(b)),
    "sls": lambda a, b: int(signed(a) < signed(b)),
    "sne": lambda a, b: int(signed(a) != signed(b)),
    "sle": lambda a, b: int(signed(a) <= signed(b)),
}
