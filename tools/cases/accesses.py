"""Loads and stores at the borders of the regions and of memory, on both machines."""
from checker_expected import TWENTY
from vamp_expected import MEMORY, SIZE, low
from words_expected import word

# Code and data region, as (start, words): apart; data from the middle of a double word, code up to the end of memory; data
# right behind the code; data up to the end of memory; data right before the code, both in the middle of a double word.
LAYOUTS = [((0, 4), (256, 4)), ((MEMORY - 12, 3), (260, 3)), ((300, 5), (320, 2)), ((4, 3), (MEMORY - 12, 3)),
           ((276, 3), (268, 2))]

AROUND = range(-8, 9)

# What data and memory hold, and what is stored: bytes of both signs.
FILLING, STORED = 0x8F7E6D9C, 0xA1E2C384

LARGEST = 32767


def end(region):
    start, words = region
    return start + 4 * words


def text(name, imm):
    return f"{name} r1({imm}),r2" if name.startswith("s") else f"{name} r2,r1({imm})"


def addresses(code, data):
    """The addresses around each border, each once. Those before 0 are at the end of the numbers."""
    borders = (0, MEMORY, code[0], end(code), data[0], end(data))
    return sorted({border + n for border in borders for n in AROUND})


def splits(at):
    """Register and immediate of an address: the base beside it, and far from it, where the sum may wrap."""
    yield low(at - at % 8 + 8), at % 8 - 8
    if at < 64 or at >= MEMORY - 8:
        yield low(at - LARGEST), LARGEST
        yield low(at + LARGEST + 1), -LARGEST - 1


def checker(group):
    for number, (code, data) in enumerate(LAYOUTS, 1):
        regions = {"code-start": code[0], "code-words": code[1], "data-start": data[0], "data-words": data[1],
                   "dpc": code[0], "pc": code[0] + 4, "data": FILLING, "r2": STORED}
        for name in SIZE:
            for at in addresses(code, data) if name in TWENTY else (data[0], data[0] + 1, MEMORY):
                for base, imm in splits(at):
                    given = {**regions, "r1": base, "code0": word(text(name, imm))}
                    group.numbered(f"{number} {name} {at}", "checker-step", given)


def vamp(group):
    for number, (code, data) in enumerate(LAYOUTS[:2], 1):
        record = {"dpc": code[0], "pc": code[0] + 4, "memory": FILLING, "r2": STORED}
        for name in SIZE:
            for at in addresses(code, data):
                if number == 1 or at in range(data[0] - 8, MEMORY - 8):
                    for base, imm in splits(at):
                        given = {**record, "r1": base, f"memory{code[0] // 4}": word(text(name, imm))}
                        group.numbered(f"{number} {name} {at}", "vamp-step", given)


ABOUT = "loads and stores around the borders of the regions and of memory, and where the address wraps"

GROUPS = {
    "checker/borders": (f"{ABOUT}; the number is that of a layout of the regions.", checker),
    "vamp/borders": (f"{ABOUT}.", vamp),
}
