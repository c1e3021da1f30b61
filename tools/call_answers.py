#!/usr/bin/env python3
"""What each call must be answered, by the simulators that are written from documents 01 and 02 alone.

    tools/call_answers.py <CALLS >ANSWERS

reads call lines and writes their answer lines: what the program `calls` does, by the format in docs/TESTS.md. Nothing of the
proved code is run for it.
"""
import struct
import sys

sys.dont_write_bytecode = True

import card_expected
import checker_expected
import vamp_expected
from call_lines import BUFFERS, NUMBERS, parse
from words_expected import NAME, TABLE, make, read

ILLEGAL, CANNOT_BE_MADE = 23, 14

# Memory is looked through by blocks, since a call changes little of it.
BLOCK = 256


# ---- What changed


def changed(name, before, after):
    """The words of an array that are not what they were."""
    if before == after:
        return []
    return [f" {name}{n}=x{new:08X}" for n, (old, new) in enumerate(zip(before, after)) if old != new]


def changed_memory(before, after):
    parts = []
    for at in range(0, len(after), BLOCK):
        if before[at:at + BLOCK] != after[at:at + BLOCK]:
            for n in range(at // 4, (at + BLOCK) // 4):
                if before[4 * n:4 * n + 4] != after[4 * n:4 * n + 4]:
                    parts.append(f" memory{n}=x{int.from_bytes(after[4 * n:4 * n + 4], 'little'):08X}")
    return parts


def changed_record(given, numbers, gpr, spr):
    parts = [f" {place}=x{numbers[place]:08X}" for place in NUMBERS if numbers[place] != given.numbers[place]]
    return parts + changed("r", given.array("r"), gpr) + changed("spr", given.array("spr"), spr)


# ---- The calls


def read_answer(mnemonic, operands, given):
    found = read(operands[0] % 2**32)
    if found is None:
        return [f"illegal {ILLEGAL}"]
    name, values = found
    return [" ".join(["legal", name, *(str(values[field]) for field in NAME.findall(TABLE[name][2]))])]


def make_answer(mnemonic, values, given):
    word = make(mnemonic, values)
    return [f"refused {CANNOT_BE_MADE}" if word is None else f"made x{word:08X}"]


def checker_answer(single, given, explained=False):
    n = given.numbers
    m = checker_expected.Machine(n["limit"], (n["code-start"], n["code-words"]), (n["data-start"], n["data-words"]),
                                 n["dpc"], n["pc"])
    m.gpr, m.spr = given.array("r"), given.array("spr")
    code, before = given.array("code")[:n["code-length"]], given.array("data")[:n["data-length"]]
    data, steps = list(before), []
    answer = checker_expected.call(single, m, code, data, steps)
    after = {**n, "dpc": m.dpc, "pc": m.pc}
    text = answer_text(*answer) + (because(steps, answer, "x") if explained else "")
    return [text, *changed_record(given, after, m.gpr, m.spr), *changed("data", before, data)]


def answer_text(kind, number, step=None, dpc=None, word=None):
    if kind != "violation":
        return f"{kind} {number}"
    return f"violation {number} step {step} at x{dpc:08X} word x{word or 0:08X}"


def because(steps, answer, mark):
    """The explanation of a run's answer behind a blank, its words with the mark before them; nothing where there is none."""
    def text(came):
        if isinstance(came, str):
            return came
        return f"from step {came} at {mark}{steps[came].dpc:08X} word {mark}{steps[came].word:08X}"

    parts = [f"{what} {text(came)}" for what, came in checker_expected.explanation(steps, *answer)]
    return " because " + ", ".join(parts) if parts else ""


def vamp_answer(single, given):
    n = given.numbers
    m = vamp_expected.Machine(dpc=n["dpc"], pc=n["pc"], length=n["memory-length"])
    m.gpr, m.spr = given.array("r"), given.array("spr")
    before = struct.pack(f"<{BUFFERS['memory']}I", *given.array("memory"))[:vamp_expected.MEMORY]
    m.memory = bytearray(before)
    number = m.refusal()
    taken, answer, cause, masked = (0, number, 0, 0) if number else m.run(1 if single else n["steps"])
    text = f"answer {answer} cause x{cause:08X}" + ("" if single else f" steps {taken} masked {masked}")
    after = {**n, "dpc": m.dpc, "pc": m.pc}
    return [text, *changed_record(given, after, m.gpr, m.spr), *changed_memory(before, m.memory)]


def load_answer(mnemonic, operands, given):
    lengths = {name: given.numbers[f"{name}-length"] for name in BUFFERS}
    before = {name: given.array(name) for name in BUFFERS}
    arrays = {name: list(words) for name, words in before.items()}
    answer, f = card_expected.load(given.card(), lengths, arrays)
    numbers = dict(zip(NUMBERS, [*f["code"], *f["data"], f["limit"], f["dpc"], f["pc"]]))
    parts = changed_record(given, numbers, f["general"], f["special"])
    for name in BUFFERS:
        parts += changed(name, before[name], arrays[name])
    return [" ".join(map(str, answer)), *parts]


def verdict(card):
    """The verdict line of a card and, behind a blank, the second line where there is one."""
    arrays = {name: [0] * count for name, count in BUFFERS.items()}
    answer, f = card_expected.load(card, card_expected.BUFFERS, arrays)
    if answer[0] == "refused":
        return f"refused {answer[1]}"
    m = checker_expected.Machine(f["limit"], f["code"], f["data"], f["dpc"], f["pc"])
    m.gpr, m.spr = f["general"], f["special"]
    steps = []
    answer = checker_expected.run(m, arrays["code"], arrays["data"], m.limit, steps)
    if answer[0] == "accepted":
        return f"accepted {answer[1]} next {m.dpc:08X}"
    _, number, step, dpc, word = answer
    told = f"violation {number} step {step} at {dpc:08X} word " + ("-" if word is None else f"{word:08X}")
    return told + because(steps, answer, "")


ANSWERS = {
    "read": read_answer,
    "make": make_answer,
    "checker-step": lambda mnemonic, operands, given: checker_answer(True, given),
    "checker-run": lambda mnemonic, operands, given: checker_answer(False, given, explained=True),
    "vamp-step": lambda mnemonic, operands, given: vamp_answer(True, given),
    "vamp-run": lambda mnemonic, operands, given: vamp_answer(False, given),
    "load": load_answer,
    "checker-check": lambda mnemonic, operands, given: checker_answer(False, given),
    "judge": lambda mnemonic, operands, given: [verdict(given.card())],
}


def answer_line(line):
    """The line that answers a line."""
    if not line or line.startswith("#"):
        return line
    name, call = parse(line)
    if call is None:
        return f"{name}: not a call"
    word, *rest = call
    return f"{name}: " + "".join(ANSWERS[word](*rest))


def main():
    for line in sys.stdin:
        print(answer_line(line.rstrip("\n")))


if __name__ == "__main__":
    main()
