#!/usr/bin/env python3
"""Calls as lines of text, and as the numbers that the program `calls` reads. docs/TESTS.md has both formats.

    tools/call_lines.py <LINES >NUMBERS            the numbers of each line
    tools/call_lines.py --text <NUMBERS >LINES     and back: lines that mean the same

A call is its name, the call's word, what it gives (a dict from places to numbers, such as {"dpc": 8, "code": 7, "code0": 1})
and its operands. `write` makes the line of a call, short; `parse` reads any line by the format's rules, and knows nothing of
`write`; `encode` makes the numbers of a line.
"""
import re
import struct
import sys

sys.dont_write_bytecode = True

from words_expected import NAME, TABLE

CALLS = "read make checker-step checker-run vamp-step vamp-run load judge checker-check".split()

# The places, in the order of the format's table. Arrays with their number of words.
NUMBERS = "code-start code-words data-start data-words limit dpc pc".split()
REGISTERS = {"r": 32, "spr": 32}
LENGTHS = {"code-length": 1024, "data-length": 1024, "memory-length": 2048, "card-length": 0}
MOST = {"code-length": 1025, "data-length": 1025, "memory-length": 2049, "card-length": 16384}
BUFFERS = {"code": 1025, "data": 1025, "memory": 4098}
CARD = {"card": 4096}
ARRAYS = {**REGISTERS, **BUFFERS, **CARD}
ORDER = [*NUMBERS, *REGISTERS, "steps", *LENGTHS, *BUFFERS, *CARD]

LEAST_NUMBER, MOST_NUMBER = -(2**31), 2**32 - 1
MOST_OPERANDS = 3

# From here on a number is written in hex.
WORDLIKE = 2**16

PLACE = re.compile(r"([a-z-]+)([0-9]+)?")
NUMBER = re.compile(r"(-?)(?:x([0-9A-Fa-f]+)|([0-9]+))")


# ---- Writing


def short(number):
    """Hex for what is rather a word than a number."""
    return f"x{number:X}" if number >= WORDLIKE else str(number)


def place_order(place):
    """Where an input stands: by the table of places, an array's fill before its elements."""
    name, index = PLACE.fullmatch(place).groups()
    return ORDER.index(name), -1 if index is None else int(index)


def kept(given):
    """What a line must name: neither what is 0 anyway nor a length that is the right one."""
    def usual(place):
        name, index = PLACE.fullmatch(place).groups()
        return LENGTHS.get(name, 0) if index is None else given.get(name, 0)

    return {place: number for place, number in given.items() if number != usual(place)}


def write(name, call, given=None, operands=()):
    """The line of a call."""
    given = kept(given or {})
    inputs = [f"{place}={short(given[place])}" for place in sorted(given, key=place_order)]
    return " ".join([f"{name}:", call, *(o if isinstance(o, str) else short(o) for o in operands), *inputs])


def card_places(card):
    """What gives a card's bytes."""
    words = struct.unpack(f"<{-(-len(card) // 4)}I", card + bytes(-len(card) % 4))
    return {"card-length": len(card), **{f"card{n}": word for n, word in enumerate(words) if word}}


def buffer_places(name, words):
    """What gives an array's first words."""
    return {f"{name}{n}": word for n, word in enumerate(words) if word}


# ---- Reading


class NotACall(Exception):
    """By the rules of the format."""


def number_of(text):
    found = NUMBER.fullmatch(text)
    if not found:
        raise NotACall
    minus, digits, decimal = found.groups()
    number = int(digits, 16) if digits else int(decimal)
    number = -number if minus else number
    if not LEAST_NUMBER <= number <= MOST_NUMBER:
        raise NotACall
    return number


class Given:
    """What a call gives: the numbers by place, the arrays as lists of words that are made when they are asked for."""

    def __init__(self):
        self.numbers = {**{place: 0 for place in [*NUMBERS, "steps"]}, **LENGTHS}
        self.inputs = {name: [] for name in ARRAYS}

    def take(self, place, number):
        found = PLACE.fullmatch(place)
        name, index = found.groups() if found else (None, None)
        number %= 2**32
        if name in ARRAYS:
            if index is not None and int(index) >= ARRAYS[name]:
                raise NotACall
            self.inputs[name].append((index, number))
        elif name in self.numbers and int(index or 0) == 0:
            self.numbers[name] = number
        else:
            raise NotACall

    def fits(self):
        """Whether there can be buffers and a card of these lengths."""
        return all(self.numbers[place] <= most for place, most in MOST.items())

    def array(self, name):
        words = [0] * ARRAYS[name]
        for index, number in self.inputs[name]:
            if index is None:
                words = [number] * ARRAYS[name]
            else:
                words[int(index)] = number
        return words

    def card(self):
        length = self.numbers["card-length"]
        return struct.pack(f"<{CARD['card']}I", *self.array("card"))[:length] if length else b""


def filled(operands, count):
    """So many operands, those that are not given 0."""
    return (operands + [0] * count)[:count]


def made_values(name, operands):
    """An instruction's values from its operands: a byte for each register and SA, an immediate in two's complement."""
    fields = NAME.findall(TABLE[name][2])
    return {field: (number + 2**31) % 2**32 - 2**31 if field == "imm" else number % 2**8
            for field, number in zip(fields, filled(operands, len(fields)))}


def parse(line):
    """The name, and (call, mnemonic, operands, given); None in place of these where the line is not a call."""
    name, colon, rest = line.partition(":")
    words = [word for word in rest.split(" ") if word]
    try:
        if not colon or not words or words[0] not in CALLS:
            raise NotACall
        return name, parsed(words[0], words[1:])
    except NotACall:
        return name, None


def parsed(call, inputs):
    mnemonic, operands, given = None, [], Given()
    for text in inputs:
        place, equals, number = text.partition("=")
        if equals:
            given.take(place, number_of(number))
        elif text in TABLE:
            mnemonic = text
        else:
            operands.append(number_of(text))
    most = MOST_OPERANDS if call == "make" else 1 if call == "read" else 0
    if (call == "make") != (mnemonic is not None) or len(operands) > most or not given.fits():
        raise NotACall
    operands = made_values(mnemonic, operands) if mnemonic else filled(operands, 1)
    return call, mnemonic, operands, given


# ---- Numbers

# The number of each place, and of those that have no name in a line.
CALL, MNEMONIC, OPERANDS = 12, 13, 14
FIRST = {**{name: n for n, name in enumerate([*NUMBERS, "steps", *LENGTHS])}, "r": 32, "spr": 64, "code": 96, "data": 1121,
         "memory": 2146, "card": 6244}

MNEMONICS = list(TABLE)
INPUT = struct.Struct("<3I")
HEAD = struct.Struct("<2I")


def packed(name, inputs):
    text = name.encode()
    return HEAD.pack(len(text), len(inputs)) + text + b"".join(INPUT.pack(*entry) for entry in inputs)


def given_inputs(given):
    """What a call gives, as place, count and number."""
    usual = {**LENGTHS}
    yield from ((FIRST[name], 1, number) for name, number in given.numbers.items() if number != usual.get(name, 0))
    for name, inputs in given.inputs.items():
        for index, number in inputs:
            yield (FIRST[name], ARRAYS[name], number) if index is None else (FIRST[name] + int(index), 1, number)


def encode(line):
    """The numbers of a line. What is not a call is a name alone, with the answer that it is not."""
    if not line or line.startswith("#"):
        return packed(line, [])
    name, call = parse(line)
    if call is None:
        return packed(f"{name}: not a call", [])
    word, mnemonic, operands, given = call
    inputs = [(CALL, 1, CALLS.index(word) + 1)]
    if mnemonic:
        inputs.append((MNEMONIC, 1, MNEMONICS.index(mnemonic)))
        operands = operands.values()
    inputs += [(OPERANDS + n, 1, number % 2**32) for n, number in enumerate(operands) if number]
    return packed(f"{name}: ", inputs + list(given_inputs(given)))


def place_text(place, count):
    """The name of places, with an index where it is one of an array."""
    name = max((name for name in FIRST if FIRST[name] <= place), key=FIRST.get)
    return name if name not in ARRAYS or count > 1 else f"{name}{place - FIRST[name]}"


def decode(numbers):
    """Lines that mean what the numbers say."""
    at = 0
    while at < len(numbers):
        length, count = HEAD.unpack_from(numbers, at)
        at += HEAD.size + length
        name = numbers[at - length:at].decode()
        inputs = [INPUT.unpack_from(numbers, at + INPUT.size * n) for n in range(count)]
        at += INPUT.size * count
        fixed = {place: number for place, _, number in inputs if CALL <= place < OPERANDS + MOST_OPERANDS}
        words = [f"{place_text(place, many)}={short(number)}" for place, many, number in inputs if place not in fixed]
        if CALL in fixed:
            used = MOST_OPERANDS if MNEMONIC in fixed else fixed[CALL] == 1
            words = [str(fixed.get(OPERANDS + n, 0)) for n in range(used)] + words
            words = [CALLS[fixed[CALL] - 1], *([MNEMONICS[fixed[MNEMONIC]]] if MNEMONIC in fixed else []), *words]
        yield name + " ".join(words)


def main(words):
    if words == ["--text"]:
        for line in decode(sys.stdin.buffer.read()):
            print(line)
    elif not words:
        for line in sys.stdin:
            sys.stdout.buffer.write(encode(line.rstrip("\n")))
            if sys.stdin.isatty():
                sys.stdout.buffer.flush()
    else:
        print("usage: tools/call_lines.py [--text]", file=sys.stderr)
        return 2
    return 0


if __name__ == "__main__":
    sys.exit(main(sys.argv[1:]))
