"""All 58 instructions at the corners of their operands, on both machines."""
from checker_expected import TWENTY
from vamp_expected import EDPC, EPC, ESR, SIZE, SR, low
from words_expected import NAME, TABLE, make, word

VALUES = (0, 1, 2, 2**31 - 2, 2**31 - 1, 2**31, 2**31 + 1, 2**32 - 2, 2**32 - 1)
IMMEDIATES = {"I": (-32768, -32767, -2, -1, 0, 1, 2, 32766, 32767),
              "J": (-(2**25), -(2**25) + 1, -2, -1, 0, 1, 2, 2**25 - 2, 2**25 - 1)}
AMOUNTS = (0, 1, 2, 15, 16, 30, 31)

# Variable shifts take the low five bits.
SHIFTS, SHIFTED_BY = ("sll", "sla", "srl", "sra"), (31, 32, 33)

OVERFLOWS = ("addo", "addio", "subo", "subio")

# RS1, RS2 and RD, which holds a mark so that a write shows.
ONE, TWO, PUT, MARK = 1, 2, 3, 170

# What data and memory hold: bytes of both signs.
FILLING = 0x8F7E6D9C


# ---- The calls: a word, the registers, and what else differs


def checker_step(group, name, code, gpr, more={}):
    places = {"code-words": 1, "data-start": 256, "data-words": 4, "pc": 4, "code0": code}
    if name.split()[0] in SIZE:
        places["data"] = FILLING
    group.numbered(name, "checker-step", {**places, **registers(gpr), **more})


def vamp_step(group, name, code, gpr, more={}):
    places = {"pc": 4, "memory0": code}
    if name.split()[0] in SIZE:
        places["memory"] = FILLING
    group.numbered(name, "vamp-step", {**places, **registers(gpr), **more})


def registers(gpr):
    return {f"r{n}": value for n, value in gpr.items() if n}


# ---- The operands


def operands(name):
    """Register contents, immediates and SA: all corners of what the instruction uses."""
    form, _, syntax = TABLE[name]
    used = NAME.findall(syntax)
    seconds = VALUES + SHIFTED_BY if name in SHIFTS else VALUES
    reads_put = name in ("sb", "sh", "sw")
    for a in VALUES if "RS1" in used else (0,):
        for b in seconds if "RS2" in used else (0,):
            for imm in IMMEDIATES[form] if "imm" in used else (0,):
                for sa in AMOUNTS if "SA" in used else (0,):
                    yield {ONE: a, TWO: b, PUT: 0xA1E2C384 if reads_put else MARK}, {"imm": imm, "SA": sa}


FIELDS = {"RS1": ONE, "RS2": TWO, "RD": PUT}

# Which registers an instruction names: RD is RS1, RD is R0, all the same, all R0.
PATTERNS = {"RD RS1": {"RD": ONE}, "RD 0": {"RD": 0}, "one": {"RD": ONE, "RS2": ONE}, "zero": {"RD": 0, "RS1": 0, "RS2": 0}}


def special(name):
    return name in ("movs2i", "movi2s")


def each_corner(step, group, name):
    for gpr, fields in operands(name):
        code = make(name, {**FIELDS, **fields})
        gpr = {n: value for n, value in gpr.items() if n in named(name, FIELDS)}
        step(group, name, code, gpr)
        if name in OVERFLOWS:
            step(group, f"{name} SR 64", code, gpr, {f"spr{SR}": 64})


def named(name, fields):
    return {fields[field] for field in NAME.findall(TABLE[name][2]) if field in fields}


def each_pattern(step, group, name):
    """The registers named twice, or R0, with two contents each."""
    form, _, syntax = TABLE[name]
    for pattern, changes in PATTERNS.items():
        if set(changes) & set(NAME.findall(syntax)):
            fields = {**FIELDS, **changes}
            for a, b, imm in ((2**31 - 1, 2**32 - 1, -1), (2**31, 1, 4), (256, 5, 4)):
                gpr = {n: value for n, value in {ONE: a, TWO: b, PUT: MARK}.items() if n in named(name, fields)}
                step(group, f"{name} {pattern}", make(name, {**fields, "imm": imm, "SA": 3}), gpr)


def each_return(step, group):
    """rfe with corners in ESR, EPC and EDPC."""
    for n, value in enumerate(VALUES):
        more = {f"spr{ESR}": value, f"spr{EPC}": VALUES[n - 1], f"spr{EDPC}": VALUES[n - 2], f"spr{SR}": 5}
        step(group, "rfe", make("rfe", {}), {}, more)


def checker(group):
    for name in TABLE:
        if name in TWENTY and not special(name):
            each_corner(checker_step, group, name)
            each_pattern(checker_step, group, name)


def not_run(group):
    for name in TABLE:
        if name not in TWENTY:
            for pattern, changes in {"": {}, **PATTERNS}.items():
                fields = {**FIELDS, **changes, "imm": 4, "SA": 3}
                if not pattern or set(changes) & set(NAME.findall(TABLE[name][2])):
                    checker_step(group, f"{name} {pattern}".rstrip(), make(name, fields), {ONE: 256, TWO: 5, PUT: MARK})


def vamp(group):
    for name in TABLE:
        if name == "rfe":
            each_return(vamp_step, group)
        elif not special(name):
            each_corner(vamp_step, group, name)
            each_pattern(vamp_step, group, name)


# ---- Transfers where PC' is anything

COUNTERS = (0, 4, 6, 400, 16380, 2**31 - 4, 2**31 - 1, 2**31, 2**32 - 8, 2**32 - 4, 2**32 - 3, 2**32 - 1)

# Taken and not, forward and back; R1 is 1, R2 is past memory and no multiple of 4.
TRANSFERS = ["slli r0,r0,0", "jr r1", "jr r2", "jr r0", "jalr r1", "jalr r2", "jalr r31", "rfe"]
TRANSFERS += [f"{name},{imm}" for name in ("beqz r0", "beqz r1", "bnez r0", "bnez r1") for imm in (-32768, -4, 0, 4, 32767)]
TRANSFERS += [f"{name} {imm}" for name in ("j", "jal") for imm in (-(2**25), -4, 0, 4, 2**25 - 1)]

TARGETS = {"r1": 1, "r2": 2**32 - 2, "r31": 64}


def checker_counters(group):
    for text in TRANSFERS:
        if text.split()[0] in TWENTY:
            for pc in COUNTERS:
                given = {"code-start": 64, "code-words": 1, "dpc": 64, "pc": pc, "code0": word(text), **TARGETS}
                group.call(f"{text} with PC' {pc}", "checker-step", given)
    each_run(group, "checker-run", "code", {"code-words": 8, "limit": 4})


def vamp_counters(group):
    for text in TRANSFERS:
        for pc in COUNTERS:
            given = {"dpc": 64, "pc": pc, "memory16": word(text), **TARGETS}
            group.call(f"{text} with PC' {pc}", "vamp-step", given)
    each_run(group, "vamp-run", "memory", {"steps": 4})


def each_run(group, call, buffer, given):
    """Four steps from DPC 0 that end where the last of two transfers leads, back over 0 or over the end of the numbers."""
    for first in ("beqz r0,-8", "jr r1", "jal -16", "jal 4"):
        for second in ("beqz r0,-8", "jr r2", "jal -32", "bnez r1,8"):
            for pc in (4, 8, 2**32 - 4):
                codes = {f"{buffer}{n}": word(text) for n, text in enumerate([first, second, second])}
                group.call(f"{first} and {second} from PC' {pc}", call, {**given, **codes, "pc": pc, "r1": 8, "r2": low(-4)})


GROUPS = {
    "checker/corners": ("what the twenty do at the corners of their operands.", checker),
    "checker/corners-not-run": ("the other 38, once for each choice of registers.", not_run),
    "checker/counters": ("transfers where PC' is not DPC + 4, or wraps.", checker_counters),
    "vamp/corners": ("all 58 at the corners of their operands; for movs2i and movi2s see special-corners.", vamp),
    "vamp/counters": ("transfers where PC' is not DPC + 4, or wraps.", vamp_counters),
}
