#!/usr/bin/env python3
"""Brings the definitions and lemmas of this repository to one spelling, once, behind the kit's port.py.

  tools/respell.py          at the top of the repository: rewrites crates/, README.md and docs/ in place
  tools/respell.py --list   prints the names and what they become, and changes nothing

Words are in snake case; a type, and a fact spelled as a type, keeps its capitals. A definition that would have the name of a
function of src/ gets `_lem`. An alias with a middle dot (`led as Seven·led`) gets `_lem` for the module before the dot. Names
that come from src/, and those that Rattle makes of the code (goals, `loop`, `tie`), keep their spelling.
"""
import os
import re
import sys

# Facts and tables whose name is more than a change of case.
BY_HAND = {
    "Demand-3": "Demand3",
    "Demand-3-of-the-calls": "Demand3OfTheCalls",
    "Sized-source": "SizedSource",
}
WORD = r"[^\s(){}.,;:\[\]\"'`|/<>=+*&^%!?~@#$←→λ∷≡≢×⊎⊥⊢∙◌]"
TOKEN = re.compile(rf"(?<![^\s(){{}}.,;:\[\]\"`|/<>=+*&^%!?~@#$←→λ∷≡≢×⊎⊥⊢∙◌-])({WORD}+'*)")
DECLARED = re.compile(
    r"^(\s*)((?:(?:pub|abbrev|unfoldable|data|record)\s+)*)([^\s:(){}.,\[\]]+)(?:\s+\{ℓ[^}]*\})?"
    r"\s*(?:\([^)]*\)\s*|\{[^}]*\}\s*)*:(?:\s|$)")
FUNCTION = re.compile(r"\bfn ([a-z_0-9]+)")


def files(ends):
    for folder, dirs, names in os.walk("crates"):
        dirs[:] = sorted(d for d in dirs if d != "out")
        for name in sorted(names):
            if name.endswith(ends):
                yield os.path.join(folder, name)


def text_of(path):
    with open(path, encoding="utf-8") as f:
        return f.read()


def declared():
    """The names that specs/ and the files of lemmas declare, and those of the proofs of functions."""
    found = set()
    for path in files(".antt"):
        by_function = path.endswith("Proof.antt")
        for line in text_of(path).split("\n"):
            m = DECLARED.match(line)
            if not m or line.lstrip().startswith("--"):
                continue
            if by_function and not m[3].endswith("-spec"):
                continue
            found.add(m[3])
    return found


def snake(name):
    name = re.sub(r"(?<=[a-z0-9])([A-Z])", r"_\1", name)
    return name.replace("-", "_")


def respelled(name):
    if name in BY_HAND:
        return BY_HAND[name]
    capitals = re.sub(r"[-_0-9]", "", name)
    if capitals.isupper():
        return name.replace("-", "_")
    if name[0].isupper() and "-" not in name:
        return name
    return snake(name).lower()


def renaming():
    functions = {m for path in files(".rt") for m in FUNCTION.findall(text_of(path))}
    own = declared()
    names = {}
    # A definition in capitals inside a word comes before a lemma with a dash: where the two would fall together, the lemma
    # gets `_lem`.
    for name in sorted(own, key=lambda n: ("-" in n, n)):
        new = respelled(name)
        if new == name or name.startswith(("+", "μ", "«")):
            continue
        if new in functions or new in names.values() or new in own:
            new += "_lem"
        names[name] = new
    return names


def clashes(names):
    """Names that fall together: two that become one, or one that becomes another's."""
    kept = declared() - set(names)
    back = {}
    for old, new in names.items():
        if new in kept or new in back:
            yield f"{old} and {back.get(new, new)} both become {new}"
        back[new] = old


def hidden(names):
    """Files in which a new name stands already, as another's, a parameter's or a local's."""
    for path in files((".antt", ".rt")):
        words = set(TOKEN.findall(text_of(path)))
        for old, new in names.items():
            if old in words and new in words:
                yield f"{path}: {old} becomes {new}, which stands there"


def turned(text, names):
    # A primed name (`led′`) follows the name itself.
    def one(m):
        word = m[1]
        base = word.rstrip("'′")
        return names.get(base, base) + word[len(base):]
    text = re.sub(r"([A-Za-z]+)·([a-z_0-9]+)", r"\2_lem", text)
    return TOKEN.sub(one, text)


def turned_page(text, names):
    """A page names a definition between backticks. port.py turned no page, so the names that it respelled stand there too."""
    own = declared()

    def one(m):
        word = m[1]
        if os.path.exists(f"cards/{word}.card"):
            return word
        return names.get(word, respelled(word) if respelled(word) in own else word)
    # Not where a path stands between them.
    return re.sub(r"`[^`\n]+`", lambda m: m[0] if "/" in m[0] else "`" + TOKEN.sub(one, m[0][1:-1]) + "`", text)


def turned_source(text, names):
    """Strings of src/ stay as they are."""
    parts = re.split(r'("[^"\n]*")', text)
    return "".join(part if i % 2 else turned(part, names) for i, part in enumerate(parts))


def main():
    names = renaming()
    if "--list" in sys.argv:
        for old, new in names.items():
            print(old, new)
        for row in list(clashes(names)) + list(hidden(names)):
            print("clash:", row, file=sys.stderr)
        return
    # Not TESTS.md, whose names are those of a program's input.
    pages = ["README.md"]
    pages += [os.path.join("docs", n) for n in sorted(os.listdir("docs")) if n.endswith(".md") and n != "TESTS.md"]
    pages += [os.path.join("docs/landings", n) for n in sorted(os.listdir("docs/landings"))]
    turn = [(path, turned) for path in files((".antt", ".edit"))]
    turn += [(path, turned_source) for path in files(".rt")] + [(path, turned_page) for path in pages]
    # All is read before anything is written: what is declared is asked of the files as they stand.
    texts = [(path, text_of(path), function) for path, function in turn]
    for path, old, new in [(path, text, function(text, names)) for path, text, function in texts]:
        if new != old:
            with open(path, "w", encoding="utf-8") as f:
                f.write(new)


main()
