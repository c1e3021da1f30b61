"""Reads tables out of the definitions, crates/*/specs/*.antt, as text: for tools/check_reference.

A table is found by its shape, as the list with the most pairs (test, number) of its file; the few names that are asked for
stand below. What has not the shape that is looked for raises Lost.
"""
import glob
import os
import re

TOP = os.path.dirname(os.path.dirname(os.path.realpath(__file__)))

# The files that are read.
WORDS, FIELDS = "crates/words/specs/Words.antt", "crates/words/specs/Fields.antt"
EFFECTS, RECORD = "crates/machine/specs/Effects.antt", "crates/machine/specs/Record.antt"
CHECKS, RUNS = "crates/checker/specs/Checks.antt", "crates/checker/specs/Runs.antt"
EVENTS, STEPS = "crates/vamp/specs/Events.antt", "crates/vamp/specs/Steps.antt"
CARD, LINE = "crates/card/specs/Card.antt", "crates/judge/specs/Line.antt"
SEVEN, BECAUSE = "crates/checker/specs/Seven.antt", "crates/judge/specs/Because.antt"
AGREEMENT = "crates/agreement/specs"

# The names in them that are asked for.
FORM, READING_ANSWER, MADE_ANSWER = "form", "reading_answer", "made_answer"
RECORD_OF, ANSWERED, TEXT_OF, BECAUSE_TEXT = "record_of_lem", "answered", "text_of", "because_text"
LED, ADDRESSED = "led", "addressed"
INTERRUPT, REFUSED = "interrupt", "refused"
LONGEST, MEMORY, DOUBLE_WORDS, MOST_STEPS, BODY = "LONGEST", "MEMORY", "DOUBLE_WORDS", "MOST_STEPS", "BODY"


class Lost(Exception):
    """A definition that has not the shape that is looked for."""


def text_of(path):
    with open(os.path.join(TOP, path), encoding="utf-8") as f:
        return f.read()


def balanced(text, at):
    """Where the parenthesis at `at` closes."""
    depth = 0
    for i in range(at, len(text)):
        depth += {"(": 1, ")": -1}.get(text[i], 0)
        if depth == 0:
            return i
    raise Lost("a parenthesis that does not close")


def parts(text):
    """A text at its outermost commas."""
    depth, last, found = 0, 0, []
    for i, c in enumerate(text):
        depth += {"(": 1, "{": 1, "[": 1, ")": -1, "}": -1, "]": -1}.get(c, 0)
        if c == "," and depth == 0:
            found.append(text[last:i].strip())
            last = i + 1
    return found + [text[last:].strip()]


def pairs(text):
    """The pairs `(a, b)` in a text, the outer before the inner."""
    found = []
    for at, c in enumerate(text):
        if c == "(":
            inside = parts(text[at + 1 : balanced(text, at)])
            if len(inside) == 2:
                found.append(tuple(inside))
    return found


def compared(text, what):
    """What an expression's group holds, and the number that a text compares it with: `eqb x 5` or `x == 5`."""
    return [(a or c, int(b or d)) for a, b, c, d in re.findall(rf"\beqb {what} (\d+)|{what} == (\d+)", text)]


class Specs:
    """The clauses of a file of definitions, as (name, left side, right side), and its constants."""

    def __init__(self, path):
        self.path, self.clauses = path, []
        whole = []
        for line in text_of(path).splitlines():
            line = re.sub(r"(^|\s)--(\s.*)?$", "", line).rstrip()
            if line and line[0] in " \t" and whole:
                whole[-1] += " " + line.strip()
            elif line:
                whole.append(line)
        for line in whole:
            left, equals, right = line.partition(" = ")
            if equals and not left.startswith(("use ", "pub ")):
                self.clauses.append((left.split()[0], left, right.strip()))
        self.constants = {name: int(right, 0) for name, left, right in self.clauses
                          if left == name and re.fullmatch(r"0x[0-9A-Fa-f]+|\d+", right)}

    def of(self, name):
        found = [(left, right) for n, left, right in self.clauses if n == name]
        if not found:
            raise Lost(f"{self.path}: no definition {name}")
        return found

    def one(self, name):
        return self.of(name)[0][1]


class Definitions:
    """All definition files; a name is looked up in a file first, then in any."""

    def __init__(self):
        self.files = {}
        for path in glob.glob(os.path.join(TOP, "crates/*/specs/*.antt")):
            relative = os.path.relpath(path, TOP)
            self.files[relative] = Specs(relative)
        self.constants = {}
        for specs in self.files.values():
            self.constants.update(specs.constants)

    def __getitem__(self, path):
        if path not in self.files:
            raise Lost(f"no file {path}")
        return self.files[path]

    def look(self, name, *paths):
        for path in paths:
            for n, left, right in self[path].clauses:
                if n == name:
                    return left, right
        return None

    # -- words

    def instructions(self):
        """Mnemonic: format, number, the fields in the order of the variant."""
        words = self[WORDS]
        found = {}
        for left, right in words.of(FORM):
            variant, *arguments = re.sub(r"[()]", " ", left).split()[1:]
            shape = re.match(r"form_([rij])\s", right)
            if not shape:
                raise Lost(f"{WORDS}: {FORM} {variant} is no form")
            used = re.findall(r"\(used (\w+)\)|\b(unused)\b", right)
            fields = [name.upper().replace("IMM", "imm") for name, _ in used if name]
            order = [name.upper().replace("IMM", "imm") for name in arguments]
            number = re.search(r"\((\w+) (\w+)\)|\b(0x[0-9A-Fa-f]+)\b", re.sub(r"\(used \w+\)", "unused", right))
            if not number:
                raise Lost(f"{WORDS}: {FORM} {variant} has no number")
            if number[3]:
                members = [(variant.lower(), int(number[3], 16))]
            else:
                members = []
                for side, value in words.of(number[1]):
                    name = side.split()[1].lower()
                    if variant.endswith("Immediate"):
                        name = re.sub(r"^(add|sub)oi$", r"\1io", name + "i")
                    members.append((name, int(value, 16)))
            for name, value in members:
                found[name] = (shape[1].upper(), value, [f for f in order if f in fields])
        return found

    def lowest_bits(self):
        """The lowest bit of each field of five bits."""
        return {int(found[1]) for _, _, right in self[FIELDS].clauses if (found := re.fullmatch(r"field (\d+) w", right))}

    def word_answers(self):
        """Call and variant: the number that reading or making a word answers."""
        found = {}
        for call, name in (("read", READING_ANSWER), ("make", MADE_ANSWER)):
            for left, right in self[WORDS].of(name):
                variant = re.sub(r"[()]", " ", left).split()[1].split(".")[-1]
                found[f"{call} {variant}"] = int(parts(right.strip()[1:-1])[0])
        return found

    def twenty(self):
        """The numbers that the assembler machine runs: of functions, and of opcodes."""
        found = {}
        for name, left, right in self[CHECKS].clauses:
            numbers = re.findall(r"\b0x[0-9A-Fa-f]+\b", right)
            for kind in ("opcode", "function"):
                if numbers and kind in name.lower():
                    found[kind] = {int(n, 16) for n in numbers}
        if len(found) != 2:
            raise Lost(f"{CHECKS}: no lists of opcodes and functions")
        return found

    def special(self):
        """Name and number of the special registers: the list of names that are constants of the file."""
        effects = self[EFFECTS]
        lists = [right for name, left, right in effects.clauses if left == name and right.endswith("∷ []")]
        lists = [[name.strip() for name in right.split("∷")[:-1]] for right in lists]
        lists = [names for names in lists if all(name in effects.constants for name in names)]
        if len(lists) != 1:
            raise Lost(f"{EFFECTS}: no single list of special registers")
        return {name: effects.constants[name] for name in lists[0]}

    # -- tables of tests

    def longest(self, path, kind):
        """Name and pairs of the clause of a file that has the most pairs whose second part is of a kind."""
        found = max(((name, [p for p in pairs(right) if re.fullmatch(kind, p[1])]) for name, _, right in self[path].clauses),
                    key=lambda entry: len(entry[1]))
        if not found[1]:
            raise Lost(f"{path}: no table")
        return found

    def violations(self):
        return [(int(number), test) for test, number in self.longest(CHECKS, r"\d+")[1]]

    def refusals(self):
        return [(int(number), test) for test, number in self.longest(CARD, r"\d+")[1]]

    def refused_records(self):
        """The numbers that concern a record: in a checked step, in a checked run, on the VAMP side."""
        name, table = self.longest(RUNS, r"\d+")
        step = [int(number) for _, number in table]
        # A run has the tests of a step and those that its own clause adds to them.
        extra = [int(number) for other, _, right in self[RUNS].clauses if other != name and re.search(rf"\b{name}\b", right)
                 for _, number in pairs(right) if number.isdigit()]
        vamp = [int(n) for _, _, right in self[STEPS].clauses for n in re.findall(rf"\({REFUSED} (\d+)\)", right)]
        return step, step + extra, vamp

    def answer(self, text):
        """The pair that an answer such as `interrupt MISALIGNED` stands for."""
        head, *arguments = text.replace("(", " ").replace(")", " ").split()
        found = self.look(head, EVENTS, STEPS)
        if not found:
            raise Lost(f"no answer {text}")
        left, right = found
        values = dict(zip(left.split()[1:], arguments))
        pair = [values.get(p, p) for p in parts(right.strip()[1:-1])]
        return tuple(int(p) if p.isdigit() else self.constants[p] for p in pair)

    def events(self):
        """Number, answer and test of each row. Neighbours that ask the same thing first are one event."""
        found, last = [], None
        for test, answer in self.longest(EVENTS, r"[A-Za-z]+( [A-Z0-9]+)?")[1]:
            head = test.replace("(", " ").split()[0]
            found.append((found[-1][0] + (head != last) if found else 1, self.answer(answer), test))
            last = head
        return found

    def mask(self):
        """The bit of SR that masks an overflow."""
        bits = {int(bit) for _, _, right in self[EVENTS].clauses for bit in re.findall(r"\bSR / 2 \^ (\d+) % 2", right)}
        if len(bits) != 1:
            raise Lost(f"{EVENTS}: no single bit of SR")
        return bits.pop()

    def event_numbers(self, test):
        """The numbers from 2 on in a test of an event, and in its own definition where that is in the same file."""
        numbers = set()
        for text in [test] + [right for name, _, right in self[EVENTS].clauses if name in re.findall(r"\w+", test)]:
            for token in re.findall(r"\w+", re.sub(r"SR / 2 \^ (\d+) % 2", r"\1", text)):
                numbers.add(int(token) if token.isdigit() else self.constants.get(token, 0))
        return {n for n in numbers if n >= 2}

    def raised(self):
        """Violation: the answer that the VAMP machine is proved to give at that step. Each stands on a line."""
        found = {}
        for path in sorted(glob.glob(os.path.join(TOP, AGREEMENT, "*.antt"))):
            for line in text_of(path).splitlines():
                line = re.sub(r"--.*", "", line)
                numbers, causes = set(re.findall(r"\b2[1-7]\b", line)), re.findall(rf"\b{INTERRUPT} ([A-Z]+)", line)
                if len(numbers) == 1 and len(causes) == 1:
                    found.setdefault(int(numbers.pop()), set()).add(self.answer(f"{INTERRUPT} {causes[0]}"))
        if not all(len(answers) == 1 for answers in found.values()):
            raise Lost(f"{AGREEMENT}: two answers for one violation")
        return {number: answers.pop() for number, answers in found.items()}

    def answers(self):
        found = {}
        for left, right in self[STEPS].of(ANSWERED):
            found[left.split()[1].split(".")[-1]] = self.answer(right)
        return found

    def numbers_in(self, test):
        """The numbers of a test of the refusal table, from its own definition."""
        head = test.replace("(", " ").split()[0]
        found = self.look(head, CARD, RECORD, RUNS)
        if not found:
            raise Lost(f"no test {test}")
        numbers = set()
        for token in re.findall(r"\w+", found[1]):
            if token.isdigit():
                numbers.add(int(token))
            elif token in self.constants:
                numbers.add(self.constants[token])
        return numbers

    def card_places(self):
        """Offset of each field of a card's record, and the number of words there."""
        right = self[CARD].one(RECORD_OF)
        places = {}
        region = r"«?(\w+)»? = record { start = number32 card (\d+); words = number32 card (\d+) }"
        for name, start, words in re.findall(region, right):
            places[f"{name} start"], places[f"{name} words"] = (int(start), 1), (int(words), 1)
        for name, offset in re.findall(r"(\w+) = number32 card (\d+)", re.sub(region, "", right)):
            places[name] = int(offset), 1
        for name, offset, count in re.findall(r"(\w+) = numbers card (\d+) (\d+)", right):
            places[name] = int(offset), int(count)
        return places

    def mark(self, test):
        """The letters that a test compares the bytes of a card with, or none."""
        found = self.look(test.split()[0], CARD)
        places = compared(found[1] if found else "", r"\(?\b(?:get_or|slice_index) card (\d+)(?: 0)?\)?")
        return "".join(chr(value) for _, value in sorted((int(at), value) for at, value in places) if value)

    def wordless(self):
        """The violations whose line has no word."""
        return {number for _, _, right in self[LINE].clauses for _, number in compared(right, r"\b(v)")}

    def lines(self):
        """The pieces of text of each verdict line, by the number of its values, and how each value is written."""
        line = self[LINE]
        found = {}
        for _, right in line.of(TEXT_OF):
            text = line.one(right.split()[0])
            pieces, kinds = [], []
            for piece in re.findall(r"\(((?:\d+ ∷ )+)\[\]\)|\b(decimal|hex|word_text)\b", text):
                if piece[0]:
                    pieces.append("".join(chr(int(n)) for n in piece[0].split("∷")[:-1]))
                else:
                    kinds.append("decimal" if piece[1] == "decimal" else "hex")
            found[pieces[0].strip()] = (pieces, kinds)
        return found

    # -- explanations

    def explained(self):
        """The violations of an explanation: of DPC, and of a register."""
        found = {name: {int(n) for n in numbers.split("∷")[:-1]}
                 for numbers, name in re.findall(r"one_of v \(((?:\d+ ∷ )+)\[\]\), Some \((\w+) k\)\)", text_of(SEVEN))}
        if set(found) != {LED, ADDRESSED}:
            raise Lost(f"{SEVEN}: no table of violations")
        return found[LED], found[ADDRESSED]

    def second_lines(self):
        """The texts of the second line: # stands for a decimal number, % for eight hex digits."""
        return {text for _, right in self[BECAUSE].of(BECAUSE_TEXT) for text in self.texts(right) if text}

    def texts(self, expression):
        """The texts that an expression can stand for; a name with several clauses is any of them."""
        found = {""}
        for letters, name in re.findall(r"((?:\d+ ∷ )+)\[\]|\b([A-Za-z_]+)\b", expression):
            if letters:
                more = {"".join(chr(int(n)) for n in letters.split("∷")[:-1])}
            elif name in ("decimal", "hex"):
                more = {"#" if name == "decimal" else "%"}
            else:
                more = {text for n, _, right in self[BECAUSE].clauses if n == name for text in self.texts(right)} or {""}
            found = {one + two for one in found for two in more}
        return found
