#!/usr/bin/env python3
"""Random calls for the program `calls`, with the answers that documents 01 and 02 ask for.

    tools/random_calls.py SEED FIRST N CALLS ANSWERS    writes N call lines, from number FIRST on, and their answer lines
    tools/random_calls.py --stats SEED FIRST N          prints how often each answer of each call occurs among them

Call i of a seed is always the same. The answers come from the simulators that are written from these alone
(tools/call_answers.py); nothing of the proved code is run. Needs Python 3 and nothing else.
"""
import collections
import random
import re
import sys

sys.dont_write_bytecode = True

from call_answers import answer_line
from call_lines import BUFFERS, CARD, LENGTHS, MOST, NUMBERS, PLACE, card_places, kept, place_order, short
from card_expected import HEAD, card
from checker_expected import MEMORY, MODE, MOST_STEPS, THIRTEEN, TWENTY, low
from vamp_expected import EDPC, EPC, SIZE, SR
from words_expected import NAME, RANGE, TABLE, make, read

# How often each call is made, of a hundred.
CALLS = {"read": 8, "make": 9, "checker-step": 15, "checker-run": 16, "checker-check": 4, "vamp-step": 15, "vamp-run": 19, "load": 8, "judge": 6}

CORNERS = (0, 1, 2, 3, 2**31 - 2, 2**31 - 1, 2**31, 2**31 + 1, 2**32 - 2, 2**32 - 1)

# Registers of a program: near the data, in the code, near the end of memory, a corner, a small number, any number.
NEAR_DATA, IN_CODE, NEAR_END, CORNER, SMALL, ANY, LINK = 1, 2, 3, 4, 5, 6, 31

MOST_WORDS = 1024

IDLE = [n for n in range(32) if n not in THIRTEEN or n == MODE]

# Of the twenty those that neither access the data nor transfer.
QUIET = [name for name in TWENTY if name not in ("lw", "sw", "beqz", "bnez", "jal", "jr")]

# Of these there are more than of others, since few of them have an event.
OFTEN = ("addo", "addio", "subo", "subio", "movi2s") * 2


def seldom(rng, one_in):
    return rng.random() * one_in < 1


def any_word(rng):
    """A number: a corner, a small one, or any."""
    kind = rng.random()
    return rng.choice(CORNERS) if kind < 0.4 else rng.randrange(64) if kind < 0.6 else rng.getrandbits(32)


# ---- Programs


class Scene:
    """Regions, registers, a program and data that fit together; `put_faults` has faults on some of them."""

    def __init__(self, rng, names, trail=False):
        self.rng = rng
        self.length = rng.choice((1, 2, 3, 4, 6, 8, 8, 12, 16))
        # In some the regions go on behind the program and the data, with zeros.
        self.code_words = rng.choice((MOST_WORDS, rng.randrange(self.length, MOST_WORDS))) if seldom(rng, 20) else self.length
        self.data_words = rng.choice((MOST_WORDS, MOST_WORDS - 1) if seldom(rng, 20) else (0, 1, 2, 4, 4, 8, 16))
        self.code_start, self.data_start = self.layout()
        self.gpr, self.spr = self.registers()
        self.code = [self.instruction(n, names) for n in range(self.length)]
        if self.length > 2 and not seldom(rng, 3):
            # A loop: the branch, and a last word in its delay slot.
            at = self.length - 2
            self.code[at] = make("beqz", {"RS1": 0, "imm": -4 * rng.randrange(1, at + 2)})
        if seldom(rng, 12):
            self.code[rng.randrange(self.length)] = rng.getrandbits(32)
        self.data = [any_word(rng) for _ in range(min(self.data_words, 16))]
        self.limit = rng.choice((0, 1, 1, 2, 3, 5, 8, 13, 20, 40, 60)) if not seldom(rng, 60) else 2000
        self.dpc, self.pc = self.counters()
        if trail and self.length > 2:
            self.leave_trail()

    def layout(self):
        """Two regions side by side, or with words between them, at any place or at an end of memory."""
        between, swapped = self.rng.choice((0, 0, 1, 3, 40)), self.rng.random() < 0.5
        both = self.code_words + self.data_words + between
        first = self.rng.choice((0, MEMORY // 4 - both, self.rng.randrange(MEMORY // 4 - both)))
        second = first + between + (self.data_words if swapped else self.code_words)
        return (4 * second, 4 * first) if swapped else (4 * first, 4 * second)

    def registers(self):
        rng = self.rng
        in_code = self.code_start + 4 * rng.randrange(self.length)
        gpr = {NEAR_DATA: low(self.data_start + 4 * rng.randrange(-1, self.data_words + 1)), IN_CODE: in_code,
               NEAR_END: low(MEMORY + rng.randrange(-8, 9)), CORNER: rng.choice(CORNERS), SMALL: rng.randrange(5),
               ANY: rng.getrandbits(32)}
        if seldom(rng, 8):
            gpr[IN_CODE] = low(in_code + rng.choice((1, 2, -2, 4096, -(2**31))))
        gpr[LINK] = self.code_start
        spr = {SR: rng.choice((0, 64, 0xFFFFFFBF)), **{rng.randrange(1, 12): any_word(rng) for _ in range(rng.randrange(4))}}
        if seldom(rng, 3):
            # Where rfe leads.
            spr |= {EPC: in_code + 4, EDPC: in_code}
        return gpr, spr

    def counters(self):
        rng = self.rng
        dpc = self.code_start + 4 * rng.randrange(self.length) if seldom(rng, 4) else self.code_start
        if seldom(rng, 20):
            dpc = low(rng.choice((dpc + 1, dpc + 2, self.code_start - 4, self.data_start, MEMORY, rng.getrandbits(32))))
        return dpc, rng.choice((0, self.code_start, any_word(rng))) if seldom(rng, 10) else low(dpc + 4)

    def instruction(self, n, names):
        rng, name = self.rng, self.rng.choice(names)
        any_register = rng.randrange(32) if seldom(rng, 4) else rng.choice((NEAR_DATA, NEAR_END, CORNER, SMALL, ANY, 0))
        fields = {"RD": rng.randrange(32) if seldom(rng, 3) else rng.choice((CORNER, SMALL, ANY)), "RS1": any_register,
                  "RS2": rng.choice((CORNER, SMALL, ANY, 0)), "SA": rng.choice((0, 1, 11, 16, 31, rng.randrange(32)))}
        if name in SIZE:
            fields["RS1"] = rng.choice((NEAR_DATA,) * 8 + (NEAR_END, any_register))
            fields["imm"] = self.offset(fields["RS1"], SIZE[name])
        elif name in ("beqz", "bnez", "j", "jal"):
            fields["imm"] = 4 * (rng.randrange(self.length) - n - 1) + (rng.choice((1, 2, 512)) if seldom(rng, 12) else 0)
        elif TABLE[name][0] != "R":
            fields["imm"] = rng.choice((*RANGE[TABLE[name][0]], -2, -1, 0, 1, 4, rng.randrange(-32768, 32768)))
        if name in ("jr", "jalr") and not seldom(rng, 10):
            fields["RS1"] = rng.choice((IN_CODE, LINK))
        elif name == "movi2s":
            fields |= {"SA": rng.choice((MODE, fields["SA"])), "RS1": rng.choice((0, 0, 0, any_register))}
        elif name in OFTEN:
            fields |= {"RD": ANY, "RS1": CORNER, "RS2": rng.choice((CORNER, NEAR_DATA, ANY))}
        return make(name, fields)

    def offset(self, register, size):
        """The immediate of an access: mostly to the data, and a multiple of its size."""
        rng = self.rng
        if register != NEAR_DATA:
            return rng.randrange(-8, 9)
        at = self.data_start + rng.randrange(0, max(4 * self.data_words, 1), size)
        if seldom(rng, 15):
            at += rng.choice((1, 2, 4 * self.data_words, -4 * self.data_words, -4))
        return at - self.gpr[NEAR_DATA] if abs(at - self.gpr[NEAR_DATA]) < 32768 else 0

    # ---- A trail: a program that comes to a bad address, and the steps that have made it

    def leave_trail(self):
        rng = self.rng
        register = rng.choice((0, LINK, LINK, IN_CODE, CORNER, SMALL, ANY, ANY, rng.randrange(32)))
        self.code = [self.put(rng.choice((register, LINK, CORNER, ANY, rng.randrange(32)))) for _ in self.code]
        if self.length > 6 and seldom(rng, 3):
            # A loop that counts down.
            self.code[1:3] = [make("addi", {"RD": SMALL, "RS1": SMALL, "imm": -1}), make("bnez", {"RS1": SMALL, "imm": -8})]
        # A transfer has a word behind it, for its delay slot.
        self.code[self.length - 2] = self.bad_end(register)
        if seldom(rng, 4):
            self.code[self.length - 1] = self.bad_end(rng.choice((register, ANY)))
        self.limit = rng.choice((self.limit, 20, 60))
        first = 0
        if register == LINK and seldom(rng, 3):
            # A call of a jr that comes back past the end of the code.
            first = self.length - 2
            self.code[0], self.code[first] = make("jr", {"RS1": LINK}), make("jal", {"imm": -4 * (first + 1)})
        if not seldom(rng, 4):
            self.dpc = self.code_start + 4 * first
            self.pc = self.dpc + 4

    def put(self, register):
        """A word that writes a register; in some one that only names it."""
        rng, name = self.rng, self.rng.choice(("lw", "lw", "lw", "lw", "sw", *QUIET))
        if register == LINK and seldom(rng, 2):
            return make("jal", {"imm": 4})
        base = NEAR_DATA if name in SIZE else rng.choice((0, IN_CODE, CORNER, SMALL, ANY, register))
        fields = {"RD": register, "RS1": base, "RS2": rng.choice((0, register, CORNER, SMALL)), "SA": rng.randrange(12)}
        small = rng.choice((0, 0, 1, 2, 4, -4, rng.randrange(-32768, 32768)))
        return make(name, fields | {"imm": self.offset(NEAR_DATA, SIZE[name]) if name in SIZE else small})

    def bad_end(self, register):
        """An access or jr by the register, or another transfer, whose target is often none of the code's words."""
        rng, name = self.rng, self.rng.choice(("lw", "sw", "lw", "sw", "jr", "jr", "jr", "jal", "beqz", "bnez"))
        away = rng.choice((1, 2, 4, -2, 4 * self.length, -4 * self.length - 4, 4096))
        near = rng.choice((0, 1, 2, 4, -4, rng.randrange(-32768, 32768)))
        return make(name, {"RD": ANY, "RS1": register, "imm": near if name in SIZE else away})


def names_for(rng, checked):
    """The mnemonics of a program: on the assembler machine mostly the twenty; trap and rfe end most runs of the VAMP."""
    if checked and not seldom(rng, 10):
        return [*TWENTY, *(name for name in OFTEN if name in TWENTY)]
    return [*TABLE, *OFTEN] if seldom(rng, 3) else [*(name for name in TABLE if name not in ("trap", "rfe")), *OFTEN]


# ---- Faults


def put_faults(rng, scene, fields):
    """Some of the faults 6 and 8 to 12, by the places of a record."""
    end = MEMORY + 4 - 4 * fields["code-words"]
    choices = [{"code-words": 0}, {"code-words": 1025}, {"data-words": 1025}, {"code-words": rng.getrandbits(32)},
               {"code-start": fields["code-start"] + rng.randrange(1, 4)},
               {"data-start": fields["data-start"] + rng.randrange(1, 4)},
               {"code-start": end}, {"data-start": MEMORY + 4 - 4 * scene.data_words}, {"code-start": rng.getrandbits(32)},
               {"data-start": 2**32 - 4 * max(scene.data_words, 1)}, {"code-start": 2**32 - 4 * scene.code_words},
               {"data-start": fields["code-start"]}, {"code-start": fields["data-start"]},
               {"data-start": fields["code-start"] + 4 * scene.code_words - 4, "data-words": 2},
               {"r0": any_word(rng)}, {f"spr{rng.choice(IDLE)}": any_word(rng)}, {f"spr{MODE}": 1},
               {"limit": MOST_STEPS + 1}, {"limit": MOST_STEPS + 1 + rng.getrandbits(31)}]
    for fault in rng.sample(choices, 1 if rng.random() < 0.7 else 2):
        fields.update({place: low(number) for place, number in fault.items()})


def wrong_lengths(rng, names):
    """One buffer of another length: any, or one beside the right one."""
    place = f"{rng.choice(names)}-length"
    return {place: rng.choice((0, LENGTHS[place] - 1, MOST[place], rng.randrange(MOST[place] + 1)))}


# ---- The calls


def record(scene):
    fields = dict(zip(NUMBERS, (scene.code_start, scene.code_words, scene.data_start, scene.data_words, scene.limit, scene.dpc,
                                scene.pc)))
    fields |= {f"r{n}": value for n, value in scene.gpr.items()}
    return fields | {f"spr{n}": value for n, value in scene.spr.items()}


def checker_call(rng, call):
    scene = Scene(rng, names_for(rng, True), trail=call == "checker-run" and seldom(rng, 2))
    fields = record(scene)
    if seldom(rng, 6):
        put_faults(rng, scene, fields)
    if seldom(rng, 20):
        # The memory is not the assembler machine's.
        fields |= wrong_lengths(rng, ("code", "data", "memory"))
    if seldom(rng, 8):
        fields |= {"code": rng.choice((scene.code[0], rng.getrandbits(32))), "data": rng.getrandbits(32)}
    fields |= {f"code{n}": word for n, word in enumerate(scene.code)}
    return fields | {f"data{n}": word for n, word in enumerate(scene.data)}


def vamp_call(rng, call):
    scene = Scene(rng, names_for(rng, False))
    fields = record(scene)
    if seldom(rng, 15):
        fields |= rng.choice(({"r0": any_word(rng)}, {f"spr{rng.choice(IDLE)}": any_word(rng)}))
    if seldom(rng, 20):
        fields |= wrong_lengths(rng, ("memory", "memory", "code", "data"))
    if seldom(rng, 8):
        fields["memory"] = rng.getrandbits(32)
    for start, words in ((scene.code_start, scene.code), (scene.data_start, scene.data)):
        fields |= {f"memory{start // 4 + n}": word for n, word in enumerate(words)}
    return fields | ({"steps": scene.limit} if call == "vamp-run" else {})


def card_bytes(rng, fields, scene):
    """A card of a record, with faults of a card in some."""
    special = {n: fields.get(f"spr{n}", 0) for n in range(32)}
    general = {n: fields.get(f"r{n}", 0) for n in range(32)}
    words = scene.code + [0] * (scene.code_words - len(scene.code)) + scene.data
    words += [0] * (scene.code_words + scene.data_words - len(words))
    parts = {"mark": b"SND", "version": 1, "zeros": bytes(3), "more": 0}
    if seldom(rng, 3):
        parts |= rng.choice(({"mark": rng.choice((b"SNd", b"\0ND", b"SDN"))}, {"version": rng.choice((0, 2, 256, 257))},
                             {"zeros": rng.choice((b"\1\0\0", b"\0\2\0", b"\0\0\x80"))}, {"more": rng.choice((-4, -1, 1, 4))},
                             {"more": -rng.randrange(4 * len(words), HEAD + 4 * len(words) + 1)},
                             {"more": rng.randrange(4 * CARD["card"] - HEAD - 4 * len(words))}))
    text = card(parts["mark"], parts["version"], parts["zeros"], (fields["code-start"], fields["code-words"]),
                (fields["data-start"], fields["data-words"]), fields["dpc"], fields["pc"], fields["limit"], general, special,
                words)
    length = max(len(text) + parts["more"], 0)
    if fields["code-words"] == 1025 or fields["data-words"] == 1025:
        length = HEAD + 4 * (fields["code-words"] + fields["data-words"])
    return text.ljust(min(length, 4 * CARD["card"]), b"\0")[:length]


def card_call(rng, call):
    scene = Scene(rng, names_for(rng, True), trail=call == "judge" and seldom(rng, 2))
    fields = record(scene)
    if seldom(rng, 4):
        put_faults(rng, scene, fields)
    given = card_places(card_bytes(rng, fields, scene))
    if call == "load":
        if seldom(rng, 10):
            given |= wrong_lengths(rng, list(BUFFERS))
        for name, count in BUFFERS.items():
            given |= {f"{name}{rng.randrange(count)}": rng.getrandbits(32) for _ in range(rng.randrange(4))}
            # Seldom, since its answer names every word.
            given |= {name: rng.getrandbits(32)} if seldom(rng, 500) else {}
    return given


def read_call(rng):
    if rng.random() < 0.5:
        return [rng.getrandbits(32)]
    # One of the numbers of R words, with anything in the fields.
    return [rng.getrandbits(20) << 6 | rng.randrange(64)]


def make_call(rng):
    name = rng.choice(list(TABLE))
    form, _, syntax = TABLE[name]
    numbers = []
    for field in NAME.findall(syntax):
        if field == "imm":
            least, most = RANGE[form]
            beyond = (least - 1, most + 1, 2**31 - 1, -(2**31), rng.randrange(-(2**31), 2**31))
            numbers.append(rng.choice(beyond) if seldom(rng, 5) else rng.choice((least, most, rng.randrange(least, most + 1))))
        else:
            numbers.append(rng.choice((32, 255, rng.randrange(32, 256))) if seldom(rng, 12) else rng.randrange(32))
    return [name, *numbers]


# ---- The lines


def spelled(rng, number):
    """A number as short as can be, or in another of the ways in which it may be written."""
    if not seldom(rng, 8):
        return short(number)
    ways = [str(number), f"x{number:x}" if number >= 0 else f"-x{-number:x}"]
    if number >= 2**31:
        ways += [str(number - 2**32), f"-x{2**32 - number:X}"]
    return rng.choice(ways)


def inputs(rng, given):
    """The inputs of a call. In some the order is another, or a number comes first that does not count."""
    given = kept(given)
    places = sorted(given, key=place_order)
    if seldom(rng, 10):
        # Fills stay before their elements.
        fills = [place for place in places if PLACE.fullmatch(place)[2] is None]
        places = [place for place in places if place not in fills]
        rng.shuffle(places)
        places = fills + places
    texts = [f"{place}={spelled(rng, given[place])}" for place in places]
    if seldom(rng, 10) and places:
        texts.insert(0, f"{rng.choice(places)}={rng.randrange(1024)}")
    return texts


def call_line(seed, number):
    """Call `number` of a seed."""
    rng = random.Random(f"{seed} {number}")
    call, = rng.choices(list(CALLS), CALLS.values())
    if call == "read":
        texts = [spelled(rng, word) for word in read_call(rng)]
    elif call == "make":
        name, *numbers = make_call(rng)
        texts = [name, *(spelled(rng, number) for number in numbers)]
    else:
        made = card_call if call in ("load", "judge") else checker_call if call.startswith("checker") else vamp_call
        texts = inputs(rng, made(rng, call))
    return " ".join([f"{seed}/{number}:", call, *texts])


# What tells one answer from another: the words without the numbers of a case. An explanation ends where a place is named.
KIND = re.compile(r"(legal|made|accepted|loaded|(?:illegal|refused|violation) \d+|answer \d+ cause x\w+)")
BECAUSE = re.compile(r" because (?:(?! \S+=).)*")
STEP = re.compile(r"step \d+ at x?\w+ word x?(\w+)")
REGISTER = re.compile(r"\br[1-9]\d*")


def kind_of(answer):
    """In an explanation a step is told by the mnemonic of its word, and any register but R0 by that it is one."""
    because = BECAUSE.search(answer)
    named = STEP.sub(lambda step: read(int(step[1], 16))[0], because[0]) if because else ""
    return KIND.match(answer)[0] + REGISTER.sub("register", named)


def stats(seed, first, count):
    found = collections.Counter()
    for number in range(first, first + count):
        line = call_line(seed, number)
        answer = answer_line(line).split(": ", 1)[1]
        found[f"{line.split(': ', 1)[1].split()[0]}: {kind_of(answer)}"] += 1
    for kind, times in sorted(found.items()):
        print(times, kind)


def write(seed, first, count, calls, answers):
    with open(calls, "w", encoding="utf-8") as asked, open(answers, "w", encoding="utf-8") as told:
        for number in range(first, first + count):
            line = call_line(seed, number)
            asked.write(line + "\n")
            told.write(answer_line(line) + "\n")


def main(words):
    numbers = words[1:] if words[:1] == ["--stats"] else words[:3]
    decimal = len(numbers) == 3 and all(number.isdecimal() for number in numbers)
    if decimal and words[0] == "--stats":
        stats(*map(int, numbers))
    elif decimal and len(words) == 5:
        write(*map(int, numbers), *words[3:])
    else:
        print("usage: tools/random_calls.py SEED FIRST N CALLS ANSWERS, or --stats SEED FIRST N", file=sys.stderr)
        return 2
    return 0


if __name__ == "__main__":
    sys.exit(main(sys.argv[1:]))
