"""Cards and their loader, by document 01, "The run card", and nothing else."""
import struct

BUFFERS = {"code": 1024, "data": 1024, "memory": 2048}
MEMORY_BYTES = 16384
HEAD = 292
MOST_STEPS = 1000000
SPECIALS = {"SR": 0, "ESR": 1, "ECA": 2, "EPC": 3, "EDPC": 4, "EData": 5, "RM": 6, "IEEEf": 7, "FCC": 8, "PTO": 9,
            "PTL": 10, "EMODE": 11, "MODE": 16}


# ---- Cards

def card(mark=b"SND", version=1, zeros=b"\0\0\0", code=(0, 3), data=(256, 4), dpc=0, pc=4, limit=10, general=None,
         special=None, words=None):
    """The bytes of a card. The default is document 01's whole case, with data and with values in some registers."""
    general = {1: 0x01020304, 31: 0xFFFFFFFF, **(general or {})}
    special = {SPECIALS["SR"]: 0x80000000, SPECIALS["EMODE"]: 0x00000B0B, **(special or {})}
    if words is None:
        words = [0x2401FFFC, 0x8C220008, 0, 0x11223344, 0x55667788, 0x99AABBCC, 0xDDEEFF00]
    return (mark + struct.pack("<H", version) + zeros + struct.pack("<7I", *code, *data, dpc, pc, limit)
            + struct.pack("<32I", *(general.get(i, 0) for i in range(32)))
            + struct.pack("<32I", *(special.get(i, 0) for i in range(32)))
            + struct.pack(f"<{len(words)}I", *words))


def fields(text):
    """The card's numbers by document 01's offsets."""
    def numbers(offset, count):
        return struct.unpack_from(f"<{count}I", text, offset)

    return {"code": numbers(8, 2), "data": numbers(16, 2), "dpc": numbers(24, 1)[0], "pc": numbers(28, 1)[0],
            "limit": numbers(32, 1)[0], "general": list(numbers(36, 32)), "special": list(numbers(164, 32))}


NO_FIELDS = {"code": (0, 0), "data": (0, 0), "dpc": 0, "pc": 0, "limit": 0, "general": [0] * 32, "special": [0] * 32}


# ---- The refusal table

def addresses(region):
    start, count = region
    return range(start, start + 4 * count)


def overlap(one, other):
    """Whether some address is in both regions."""
    one, other = addresses(one), addresses(other)
    return bool(one) and bool(other) and one.start < other.stop and other.start < one.stop


def tests(text, lengths):
    """The refusal table: whether the test holds, by its number. Those behind 2 ask for a card of 292 bytes."""
    f = fields(text.ljust(HEAD, b"\0"))
    (start, c), (other, d) = f["code"], f["data"]
    used = set(SPECIALS.values()) - {SPECIALS["MODE"]}
    return {
        1: lambda: any(lengths[name] != BUFFERS[name] for name in BUFFERS),
        2: lambda: len(text) < HEAD,
        3: lambda: text[0:3] != b"SND",
        4: lambda: text[3] + 256 * text[4] != 1,
        5: lambda: any(text[5:8]),
        6: lambda: c == 0 or c > 1024 or d > 1024,
        7: lambda: len(text) != HEAD + 4 * (c + d),
        8: lambda: start % 4 or other % 4,
        9: lambda: start + 4 * c > MEMORY_BYTES or other + 4 * d > MEMORY_BYTES,
        10: lambda: overlap(f["code"], f["data"]),
        11: lambda: f["general"][0] or any(value for n, value in enumerate(f["special"]) if n not in used),
        12: lambda: f["limit"] > MOST_STEPS,
    }


def refusal(text, lengths):
    """The number of the first test that holds, 0 where none does."""
    return next((number for number, holds in tests(text, lengths).items() if holds()), 0)


# ---- What a load leaves

def load(text, lengths, arrays):
    """("refused", number) or ("loaded",), and the record. What the lent buffers hold changes in the arrays, lists of words."""
    number = refusal(text, lengths)
    if number:
        return ("refused", number), NO_FIELDS
    f = fields(text)
    words = struct.unpack_from(f"<{(len(text) - HEAD) // 4}I", text, HEAD)
    parts = {"code": words[:f["code"][1]], "data": words[f["code"][1]:]}
    memory = [0] * (MEMORY_BYTES // 4)
    for name, part in parts.items():
        arrays[name][:BUFFERS[name]] = [*part, *[0] * (BUFFERS[name] - len(part))]
        start = f[name][0] // 4
        memory[start:start + len(part)] = part
    arrays["memory"][:len(memory)] = memory
    return ("loaded",), f
