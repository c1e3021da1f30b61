"""Refusals: each fault in all its variants alone, beside one other, and beside one of each that comes after it.

A variant changes the fields of a call that has no fault. Faults are put on in an order in which they do not undo each other; a
combination in which one of them no longer holds is left out.
"""
import itertools

from call_lines import card_places
from card_expected import BUFFERS, HEAD, card, tests as card_tests
from checker_expected import MODE, THIRTEEN
from words_expected import word

# Four words of each region; the code stores into the data.
CODE, DATA, WORDS = 64, 128, 4
STORE = word(f"sw r0({DATA}),r1")

# What the buffers hold: a word that was written, or a step that was taken, would show.
USED = {"code": STORE, "data": 0xA5A5A5A5, "memory": STORE}

IDLE = [n for n in range(32) if n not in THIRTEEN or n == MODE]

END, LONGEST_CARD = 16384, 16384

# A start from which the end of a region is 0 in 32 bits.
WRAPS = 2**32 - 4 * WORDS

# Counts come before places, places before what is relative to them; a way of 10 sets a count and a place.
ORDER = (6, 10, 9, 10, 8)


def faultless():
    return {"code": [CODE, WORDS], "data": [DATA, WORDS], "limit": 1, "general": {1: 1}, "special": {},
            "lengths": dict(BUFFERS), "mark": b"SND", "version": 1, "zeros": b"\0\0\0", "more": 0, "bytes": None}


# ---- The faults: a variant is a name and the ways to have it, of which the first that does is taken


def put(key, value):
    def change(f):
        f[key] = value
    return [change]


def put_in(key, at, value):
    def change(f):
        f[key][at] = value
    return [change]


def add(key, value):
    def change(f):
        f[key][0] += value
    return [change]


def at_end(region):
    """The region's last word is past the end of memory."""
    def change(f):
        f[region][0] = END - 4 * f[region][1] + 4
    return [change]


def relative(moved, other, place, words=None):
    """A region that is moved to a place relative to the other one."""
    def change(f):
        if words is not None:
            f[moved][1] = words
        f[moved][0] = f[other][0] + 4 * place(f[moved][1], f[other][1])
    return change


def within(inner, outer):
    """One word inside the other region, had by moving the one or the other."""
    def around(f):
        f[inner][1] = 1
        f[outer][0] = f[inner][0] - 4
    return [relative(inner, outer, lambda m, o: 1, words=1), around]


def over_end(late, early):
    return [relative(late, early, lambda m, o: o - 1), relative(early, late, lambda m, o: 1 - m)]


LENT = {
    name: [(f"{name} {what}", put_in("lengths", name, length))
           for what, length in (("short", most - 1), ("long", most + 1), ("empty", 0))]
    for name, most in BUFFERS.items()
}

RECORD_FAULTS = {
    6: [("no code", put_in("code", 1, 0)), ("code 1025", put_in("code", 1, 1025)), ("data 1025", put_in("data", 1, 1025)),
        ("code x40000001", put_in("code", 1, 0x40000001))],
    9: [("code past end", at_end("code")), ("data past end", at_end("data")), ("code wraps", put_in("code", 0, WRAPS)),
        ("data wraps", put_in("data", 0, WRAPS))],
    10: [("same start", [relative("data", "code", lambda m, o: 0), relative("code", "data", lambda m, o: 0)]),
         ("data in code", within("data", "code")), ("code in data", within("code", "data")),
         ("data over end of code", over_end("data", "code")), ("code over end of data", over_end("code", "data"))],
    8: [("code start", add("code", 2)), ("data start", add("data", 1))],
    11: [("r0", put_in("general", 0, 1))] + [(f"spr{n}", put_in("special", n, 1)) for n in IDLE],
    12: [("limit 1000001", put("limit", 1000001)), ("limit -1", put("limit", 0xFFFFFFFF))],
}

CARD_FAULTS = {
    3: [("S", put("mark", b"TND")), ("N", put("mark", b"SnD")), ("D", put("mark", b"SN\0"))],
    4: [("version 0", put("version", 0)), ("version 2", put("version", 2)), ("version 257", put("version", 257))],
    5: [(f"byte {5 + n}", put("zeros", bytes(n) + b"\1" + bytes(2 - n))) for n in range(3)],
    7: [("byte more", put("more", 1)), ("byte less", put("more", -1)), ("word more", put("more", 4))],
    # The card's other bytes are there and are not lent.
    2: [("291 bytes", put("bytes", HEAD - 1)), ("8 bytes", put("bytes", 8)), ("0 bytes", put("bytes", 0))],
}


# ---- Combinations


def combined(chosen, holding):
    """The fields with all of the chosen variants of (number, ways); None where that cannot be had."""
    numbers = [number for number, _ in chosen]
    for ways in itertools.product(*(ways for _, ways in chosen)):
        way, f = dict(zip(numbers, ways)), faultless()
        for number in [*ORDER, *(n for n in numbers if n not in ORDER)]:
            if number in way:
                way[number](f)
        if all(0 <= n < 2**32 for region in ("code", "data") for n in f[region]):
            if set(numbers) <= holding(f):
                return f
    return None


def combinations(table, holding):
    """Names and fields: the variants alone, beside each of another number, beside the first of each later number."""
    numbers = sorted(table)
    named = [(n, name, ways) for n in numbers for name, ways in table[n]]
    for n, name, ways in named:
        yield f"{n} {name}", combined([(n, ways)], holding)
    for (n, name, ways), (m, other, more) in itertools.combinations(named, 2):
        if n != m:
            yield f"{n} {name}, {m} {other}", combined([(n, ways), (m, more)], holding)
    for n, name, ways in named:
        later = [m for m in numbers if m > n]
        for others in itertools.product(*(table[m] if m in (6, 8, 9, 10) else table[m][:1] for m in later)):
            f = combined([(n, ways), *((m, more) for m, (_, more) in zip(later, others))], holding) if later else None
            if f:
                yield f"{n} {name} and all after", f
                break


# ---- The calls


def card_of(f):
    """The bytes of a card with these fields, where they are not cut off."""
    head = card(f["mark"], f["version"], f["zeros"], f["code"], f["data"], CODE, CODE + 4, f["limit"], f["general"],
                f["special"], words=())
    length = HEAD + 4 * (f["code"][1] + f["data"][1])
    length = (length if length < LONGEST_CARD else HEAD) + f["more"]
    return head.ljust(length, b"\0")[:length]


def card_holding(f):
    holds = {number for number, holds in card_tests(card_of(f), f["lengths"]).items() if holds()}
    return holds | ({2} if f["bytes"] is not None else set())


def loads(group):
    table = {1: [variant for name in BUFFERS for variant in LENT[name]], **RECORD_FAULTS, **CARD_FAULTS}
    for name, f in combinations(table, card_holding):
        if f:
            given = {**USED, **card_places(card_of(f)), **lengths(f)}
            group.call(name, "load", given if f["bytes"] is None else {**given, "card-length": f["bytes"]})


def judged(group):
    table = {**RECORD_FAULTS, **CARD_FAULTS}
    for name, f in combinations(table, card_holding):
        if f and "," not in name:
            given = card_places(card_of(f))
            group.call(name, "judge", given if f["bytes"] is None else {**given, "card-length": f["bytes"]})


def lengths(f):
    return {f"{name}-length": f["lengths"][name] for name in BUFFERS}


def record(f):
    """The places of a record and of buffers with these fields."""
    numbers = {"code-start": f["code"][0], "code-words": f["code"][1], "data-start": f["data"][0], "data-words": f["data"][1],
               "limit": f["limit"], "dpc": CODE, "pc": CODE + 4}
    general = {f"r{n}": value for n, value in f["general"].items()}
    special = {f"spr{n}": value for n, value in f["special"].items()}
    return {**numbers, **general, **special, **lengths(f)}


def checker(call):
    table = {1: LENT["code"] + LENT["data"], **RECORD_FAULTS}

    def fill(group):
        for name, f in combinations(table, card_holding):
            if f:
                group.call(name, call, {**record(f), "code": USED["code"], "data": USED["data"]})
    return fill


def vamp(call):
    table = {1: LENT["memory"], 11: RECORD_FAULTS[11]}

    def fill(group):
        for name, f in combinations(table, card_holding):
            group.call(name, call, {**record(f), "memory": USED["memory"], "steps": 1})
    return fill


ABOUT = "each fault alone, beside each other one, and beside all after it, in all variants."

GROUPS = {
    "card/pairs": (f"load: {ABOUT}", loads),
    "cards/faults": ("judge: each fault of a card alone, and beside all after it.", judged),
    "checker/pairs-run": (f"checker-run: {ABOUT}", checker("checker-run")),
    "checker/pairs-step": (f"checker-step, which does not look at the limit: {ABOUT}", checker("checker-step")),
    "vamp/pairs-run": (f"vamp-run: {ABOUT}", vamp("vamp-run")),
    "vamp/pairs-step": (f"vamp-step: {ABOUT}", vamp("vamp-step")),
}
